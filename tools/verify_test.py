"""Tests of what tells of an answer: selectors, what is false and by how much, words of lines, ranges in parts, pictures."""
import hashlib
import importlib.machinery
import importlib.util
import itertools
import json
import pathlib
import subprocess
import tempfile

import answers
import css_match
import formulas
import in_browser
import line_words
import parts
import program
import reasons

TOP = pathlib.Path(__file__).resolve().parent.parent
PAGE = {"tag": "HTML", "children": [{"tag": "body", "attrs": {"class": "wide dark"}, "children": [
    {"tag": "p", "attrs": {"ID": "one"}, "children": ["text", {"tag": "a", "attrs": {"href": "#"}}, {"tag": "a", "attrs": {"lang": "de-AT"}}]},
    "between", {"tag": "p"}, {"tag": "div", "children": [{"tag": "p", "attrs": {"class": "last"}}]}]}]}
# selectors, and the nodes that they meet, the texts counted
MET = (("p", {2, 7, 9}), ("body > p", {2, 7}), ("p + p", {7}), ("div p, #one", {2, 9}), (".dark.wide", {1}), ("a:link", {4}),
       ("a:first-child", {4}), ("html:first-child", set()), ("[lang|=de]", {5}), ("[class~=wide] .last", {9}), ("* > a + a", {5}),
       ("a:hover", set()), ("[href='#']", {4}), ("\\61[href]", {4}), ("P/**/.last", {9}))
JOB = {"widths": [300, 320], "sizes": [16, 17], "height": 200, "css": [], "page": {"tag": "div", "children": [
    {"tag": "a", "children": ["One tw\ue000"]}, {"tag": "b", "children": []}]}, "fonts": [
    {"name": "Square", "upem": 1000, "ascent": 800, "descent": 200, "default": 500, "advances": [[119, 700]]}], "letters": {"\ue000": "o"}}
BOXES = """block 0 m 0 0 20480 6400 b 0 0 20480 6400 p 0 0 20480 6400 c 0 0 20480 6400
block 1 m 640 0 21120 1280 b 640 0 21120 1280 p 640 0 21120 1280 c 640 0 21120 1280
text 2 m 640 0 2176 1023 b 640 0 2176 1023 p 640 0 2176 1023 c 640 0 2176 1023
text 2 m 640 1024 2380 2047 b 640 1024 2380 2047 p 640 1024 2380 2047 c 640 1024 2380 2047
block 3 m 0 640 640 6400 b 0 640 640 6400 p 0 640 640 6400 c 0 640 640 6400
"""
# rules that are false of these boxes at 320 px, the blame, the false part, and what is said of it
FALSE = (
    ('forall x in "a": x.left >= 0 and x.right <= view.width', [1], "x.right <= view.width",
     "a “One two” ends 10 px outside the screen, to the right", [(0, 20480, 21120, "10 px")]),
    ('forall x in "b": x.right - x.left >= 24px', [4], "x.right - x.left >= 24px", "b is 10 px wide, and at least 24 px are asked: 14 px too little",
     [(0, 0, 640, "10 px, at least 24 px asked")]),
    ('forall x in "a": forall y in "b": same(x, y) or x.bottom + 8px <= y.top or x.right <= y.left', [1, 4], "x.bottom + 8px <= y.top",
     "the upper edge of b is 10 px above the lower edge of a “One two”, and has to be at least 8 px below it (the nearest way to meet the "
     "rule)", [(1, 640, 1280, "-10 px, at least 8 px asked")]),
    ('forall x in "a": forall y in "b": x.left + x.right + 48px <= y.left + y.right', [1, 4], "x.left + x.right + 48px <= y.left + y.right",
     "the centre of b is 165 px left of the centre of a “One two”, and has to be at least 24 px right of it",
     [(0, 320, 10880, "-165 px, at least 24 px asked")]),
    ('not (exists x in "a": x.left > 5px)', [], "x.left > 5px", "x.left is 10 px, and has not to be more than 5px, 5 px", []),
    ('exists x in ".none": true', [], 'exists x in ".none": true', 'there is no box in ".none"', []),
    ("forall x in line: true implies false", None, None, None, None),
)


def script(name):
    """A tool without a suffix, as a module."""
    loader = importlib.machinery.SourceFileLoader(name, str(TOP / "tools" / name))
    module = importlib.util.module_from_spec(importlib.util.spec_from_loader(name, loader))
    loader.exec_module(module)
    return module


def selectors():
    for text, wanted in MET:
        yield text, css_match.nodes_met(PAGE, text), wanted
    for text in ("p,", "> p", "p::before", "#1", "a b +"):
        try:
            yield text, css_match.nodes_met(PAGE, text), "refused"
        except css_match.BadSelector:
            pass


def job_with(rule):
    return answers.job_of(json.dumps({**JOB, "assert": rule}))


def faults():
    for rule, blamed, part, words, lines in FALSE:
        job = job_with(rule)
        answer = answers.Rendering([answers.box_of(it) for it in BOXES.splitlines()], (320, 16), blamed or [], True)
        found = reasons.findings(job, answer)
        if part is None:
            yield rule, found, None
            continue
        reason = found.reasons[0]
        yield rule, job.rule[slice(*reason.span)], part
        yield rule, reason.words, words
        yield rule, [(it.axis, it.begin, it.end, it.words) for it in reason.measures], lines
        answer.blamed = [0]
        yield f"{rule} with another blame", reasons.findings(job, answer), None
    job = job_with('forall x in "a": forall y in ".none": true')
    yield "sets", reasons.set_counts(job, [answers.box_of(it) for it in BOXES.splitlines()], (320, 16)), [('"a"', 1), ('".none"', 0)]


def seen():
    """What the browser's own places say of a violation."""
    job = job_with(FALSE[0][0])
    answer = answers.Rendering([answers.box_of(it) for it in BOXES.splitlines()], (320, 16), [1], True)
    for line, wanted in (("  node 3 b: left 0, browser 2.5", "the browser has it at the same place, within 1 px"),
                         ("  node 1 a: right 330, browser 318.5", "the browser does not show it: it has the box elsewhere, and the rule holds of it there"),
                         ("  node 1 a: right 330, browser 322; bottom 20, browser 24",
                          "the browser shows it too: a “One two” ends 2 px outside the screen, to the right"),
                         ("  node 1 a: a box here alone", None)):
        yield line, in_browser.judged(job, answer, in_browser.places([line])), wanted


def words():
    job = job_with("true")
    boxes = [answers.box_of(it) for it in BOXES.splitlines()]
    yield "words", line_words.words_of(job, boxes), {2: "One", 3: "two"}
    boxes[3].border = (640, 1024, 2381, 2047)
    yield "words of other widths", line_words.words_of(job, boxes), {}


def cuts():
    """The parts cover the range once, and the facts of their ends are those of the splits above."""
    whole = program.Part(((320, 323), (12, 14)))
    cut = parts.cut_into(whole, 5)
    yield "worlds", worlds_of(cut), [(w, s) for w in range(320, 324) for s in range(12, 15)]
    yield "one part for each world at most", len(parts.cut_into(whole, 99).leaves()), 12
    body = ["leaf", "yes 0 0:1", *(f"fact {it}" for it in range(5)), "closed", "end"]
    lines = list(parts.joined(parts.cut_into(program.Part(((320, 327), (12, 13))), 3), lambda part: body))
    yield "splits", [it for it in lines if it.startswith("split")], ["split -324 0:1", "split -322 0:1"]
    # wider than 323 px; 322 and 323 px; 320 and 321 px
    yield "facts", [int(it[5:]) for it in lines if it.startswith("fact")], [4, 1, 2, 3, 5, 5, 4, 2, 3, 6, 0, 5, 2, 3, 6]
    tall = program.Part(((320, 321), (12, 13), (400, 407)))
    cut = parts.cut_into(tall, 3)
    yield "worlds of heights", worlds_of(cut), [(w, s, h) for w in (320, 321) for s in (12, 13) for h in range(400, 408)]
    body = ["leaf", "yes 0 0:1", *(f"fact {it}" for it in range(7)), "closed", "end"]
    lines = list(parts.joined(cut, lambda part: body))
    yield "splits of heights", [it for it in lines if it.startswith("split")], ["split -404 2:1", "split -402 2:1"]
    yield "facts of heights", [int(it[5:]) for it in lines if it.startswith("fact")], [
        0, 1, 2, 3, 6, 5, 7, 0, 1, 2, 3, 7, 6, 8, 0, 1, 2, 3, 4, 7, 8]
    for form, nodes in ((1, ["grid"]), (2, ["lemma 0 0:1", "fact 0", "closed", "grid"])):
        text = "\n".join([f"vizlog-cert {form}", f"job {hashlib.sha256(b'').hexdigest()}", *nodes, ""])
        whole = parts.certificate(b"", parts.Cut(tall), lambda part, text=text: (b"", text.encode()))
        yield f"a certificate of form {form}", (whole.decode(), parts.is_certificate(text)), (text, True)


def worlds_of(cut):
    return sorted(world for it in cut.leaves() for world in itertools.product(*(range(low, high + 1) for low, high in it.part.sides)))


def joined():
    """Certificates of the parts of a job, put together, are accepted for the whole job."""
    for name, many in (("pages/cards.json", 5), ("pages/nav.json", 3), ("rules/lines-meets.json", 4)):
        file = TOP / "examples" / name
        told = json.loads(file.read_bytes())
        cut = parts.cut_into(program.range_of(told), many)
        with tempfile.TemporaryDirectory() as folder:
            def answer_of(part):
                made = pathlib.Path(folder, "part.json")
                made.write_text(program.part_of(told)(part), encoding="utf-8")
                return made.read_bytes(), program.reply_of(["prove", made, part.turns()]).text.encode()
            answer = pathlib.Path(folder, "answer.txt")
            answer.write_bytes(parts.certificate(file.read_bytes(), cut, answer_of))
            yield f"{name} in {many} parts", program.reply_of(["check", file, answer]).text, "accepted\n"


def commands():
    """tools/verify over a job that holds and one that does not, whole and in parts, and its picture."""
    for name, words, status, said in (
            ("rules/reflow-meets.json", [], 0, "holds at all 81 sizes"), ("rules/reflow-meets.json", ["--jobs", "2"], 0, "holds at all 81 sizes"),
            ("rules/reflow-breaks.json", [], 1, "broken first at 360 px and 16 px: div ends 40 px outside the screen, to the right\n"),
            ("pages/article.json", ["--turns", "9"], 6, "undecided: 9 turns found no size"),
            ("breakpoints-meets.json", [], 0, "holds at all 64 sizes: 3 certificates in a file of 264 bytes, which check accepts\n"),
            ("breakpoints-meets.json", ["--parts", "2"], 0, "holds at all 64 sizes: 2 certificates, one for each part, which check accepts; there is "
             "no one file of a page with width queries\n"),
            ("pages/breakpoints.json", [], 1, "broken first at 599 px and 18 px: div.card “KettleHolds two litres.” is 577 px wide, and at most"),
            ("pages/badge.json", [], 5,
             "refused by the profile, docs/PROFILE.md: job-refused unsupported-value 7 position absolute (node 7 is span.badge)\n")):
        with tempfile.TemporaryDirectory() as folder:
            run = subprocess.run([str(TOP / "tools/verify"), str(TOP / "examples" / name), "--no-photograph", "-o", folder, *words],
                                 capture_output=True, text=True)
            yield f"{name} {words}", (run.returncode, run.stdout[:len(said)]), (status, said)
            picture = pathlib.Path(folder, "picture.html")
            shown = picture.read_text(encoding="utf-8") if picture.exists() else ""
            if name == "rules/reflow-breaks.json":
                yield "the nearest size", "and holds at 400 px." in shown and "Holds</span> at the nearest size" in shown, True
            elif status == 0 and words != ["--parts", "2"]:
                yield "the proof", f"Holds</span> at all {said.split(' ')[3]} sizes" in shown, True


def failed(all_tests):
    for tests in all_tests:
        for name, found, wanted in tests():
            if found != wanted:
                yield f"{tests.__name__}, {name}: {str(found)[:200]} in place of {str(wanted)[:200]}"


def failures():
    """A line for each test that fails, of those that run no program."""
    return failed((selectors, faults, seen, words, cuts))


def run_failures():
    """A line for each test that fails, of those that run the program."""
    return failed((joined, commands))
