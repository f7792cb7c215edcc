"""Tests of the tools for pages: jobs, answers, pictures, fonts, rules, and, where a browser is installed, pages' jobs and a page of one."""
import importlib.machinery
import importlib.util
import json
import os
import pathlib
import struct
import subprocess
import sys
import tempfile

import answers
import chromium
import fidelity
import formulas
import grown
import media
import metric_font
import page_export
import rule_text
import strips
from program import Way

TOP = pathlib.Path(__file__).resolve().parent.parent
CERT = ["split -1120 0:1", "grid", "split 30 0:-1 1:2", "leaf", "yes 3 0:1", "fact 1", "sum 2:0 1:1", "closed", "no -3", "case 1 0:1",
        "closed", "closed", "end", "split -18 1:1", "void", "cut 2:0", "closed", "def 3 0:1 by 7", "split 0 2:1", "grid", "grid"]


def script(name):
    """A tool without a suffix, as a module."""
    loader = importlib.machinery.SourceFileLoader(name, str(TOP / "tools" / name))
    module = importlib.util.module_from_spec(importlib.util.spec_from_loader(name, loader))
    loader.exec_module(module)
    return module


def text_of(name):
    return (TOP / "examples" / name).read_text(encoding="utf-8")


def refused(text, job):
    try:
        answers.answer_of(text, job)
    except answers.NoAnswer as fault:
        return str(fault)
    return None


def renderings():
    job = answers.job_of(text_of("narrow-screens.json"))
    printed = text_of("narrow-screens-prove.run").partition("\n--\n")[2]
    answer = answers.answer_of(printed, job)
    yield "a violation", (answer.world, answer.blamed, answer.violated, len(answer.boxes)), ((400, 16), [0], True, 3)
    yield "edges", answer.boxes[2].content, (0, 640, 25600, 1920)
    page = script("picture").page_of(job, answer, "test")
    yield "a picture", [it in page for it in ("400 px wide", "25536", "Blamed: box 0", "div")], [True] * 4
    alone = script("picture").drawing_of(job, answer, False)
    yield "a drawing alone", (alone.startswith("<svg xmlns"), ">1 px</text>" in alone), (True, True)
    beside = script("picture").Beside(ways=[Way(0, -1, 400, 399, True), Way(0, 1, 400, 401, True), Way(1, 1, 16, 17, True)])
    yield "the nearest of two", script("picture").nearest(beside, (400, 16)), (399, 16)
    yield "no boxes", answers.answer_of("", job).boxes, []
    for text, fault in (("job-refused not-yet\n", "no picture for the answer: job-refused not-yet"),
                        ("block 0 m 0 0\n", "no box: block 0 m 0 0"),
                        (printed.replace("block 2", "block 7"), "the answer is not of this job: it names a node or box that isn't there"),
                        ("vizlog-cert 1\njob " + "0" * 64 + "\ngrid\n", "the certificate is for another job")):
        yield fault, refused(text, job), fault
    listed, table = 'wide view.width >= 360px\nall true\n', "wide 320 359 fails\nwide 360 400 holds\nall 320 400 holds\n"
    rules = strips.rules_of(table, listed)
    yield "a survey", [it.says() for it in rules], ["fails at each width from 320 to 359 px; holds from 360 to 400 px", "holds at every size"]
    drawn = "\n".join(strips.lines_of(job, rules, lambda at, answer: [], ""))
    yield "its strips", (drawn.count("<rect"), "1 of 2 rules hold" in drawn, strips.ticks(job, rules)), (3, True, [320, 360, 400])
    yield "another text", [strips.is_table(it) for it in (table, printed, "", table[:-1])], [True, False, False, False]
    article = answers.job_of(text_of("pages/article.json"))
    yield "names", [node.name for node in article.nodes][2:7], ["body", "“”", "article", "“”", "h1"]


def certificates():
    job = answers.job_of(text_of("column.json"))
    head = f"vizlog-cert 1\njob {job.digest}\n"
    proof = answers.answer_of(head + "\n".join(CERT) + "\n", job)
    yield "parts", [(it.kind, it.sides, it.is_ragged) for it in proof.regions], [
        ("grid", ((1120, 1920), (12, 24)), False), ("leaf", ((320, 1119), (12, 24)), False), ("void", ((320, 1119), (18, 24)), False),
        ("grid", ((320, 1119), (12, 17)), True), ("grid", ((320, 1119), (12, 17)), True)]
    yield "splits and floors", (proof.splits, proof.defs), (4, 1)
    yield "regions of worlds", [proof.region_at(it) for it in ((1120, 24), (50, 12), (500, 18), (1119, 12))], [0, 1, 2, 3]
    for end in range(1, len(CERT)):
        yield "a front", refused(head + "\n".join(CERT[:end]) + "\n", job) is None, False
    picture = script("picture")
    yield "runs", [row for _, row in picture.runs(job, proof)][6], [[2, 320, 1120], [0, 1120, 1921]]
    slanted = answers.answer_of(head + "split -1120 0:1\ngrid\nsplit 2000 0:-1 1:-40\ngrid\ngrid\n", job)
    area = sum(abs(sum(a[0] * b[1] - b[0] * a[1] for a, b in zip(points, points[1:] + points[:1]))) / 2
               for points in map(picture.corners, slanted.regions))
    yield "the map covers the range", round(area), job.worlds()


def heights():
    """Jobs with a range of heights, their violations, open parts and certificates, which may have lemmas."""
    told = {**json.loads(text_of("narrow-screens.json")), "vizlog": 2, "heights": [400, 403]}
    job = answers.job_of(json.dumps(told))
    yield "the range", (job.sides(), job.worlds()), (((320, 400), (16, 16), (400, 403)), 324)
    yield "an open part", answers.answer_of("undecided 320 400 16 16 400 401\n", job).sides, ((320, 400), (16, 16), (400, 401))
    yield "a part of one height", refused("undecided 320 400 16 16\n", job) is None, False
    printed = text_of("narrow-screens-prove.run").partition("\n--\n")[2].replace("violated 400 16", "violated 400 16 402")
    answer = answers.answer_of(printed, job)
    yield "a violation", (answer.world, job.height_at(answer.world)), ((400, 16, 402), 402)
    yield "its picture", "400 px wide and 402 px high" in script("picture").page_of(job, answer, "test"), True
    picture = script("picture")
    tried = {(320, 16, 402): True, (400, 16, 402): False, (400, 16, 400): True}
    yield "sizes that were tried", picture.tried_words(job, answer, picture.Beside(tried=tried))[0], (
        "<h2>Broken at 1 of 2 sizes that were tried at a viewport 402 px high</h2>")
    lines = ["vizlog-cert 2", f"job {job.digest}", "lemma 0 0:1", "fact 0", "closed", "split 401 2:-1", "grid", "split 722 0:-1 2:-1", "grid", "grid"]
    proof = answers.answer_of("\n".join(lines) + "\n", job)
    yield "parts", [it.sides[2] for it in proof.regions], [(400, 401), (402, 403), (402, 403)]
    yield "lemmas", proof.lemmas, 1
    yield "regions of worlds", [proof.region_at(it) for it in ((320, 16, 401), (320, 16, 402), (320, 16, 403), (400, 16, 403))], [0, 1, 2, 2]
    yield "heights of the maps", script("picture").range_map.heights_of(job, proof.regions), [400, 401, 403]
    yield "a lemma in form 1", refused("\n".join(lines).replace("cert 2", "cert 1"), job) is None, False
    yield "the map", "At a viewport 403 px high" in script("picture").page_of(job, proof, "test"), True
    yield "worlds", fidelity.worlds((320, 1920), (12, 24), (400, 900)), [
        (1024, 16, 700), (320, 12, 400), (360, 16, 900), (640, 20, 500), (1920, 24, 900)]


def fonts():
    told = {"name": "Square", "upem": 1000, "ascent": 800, "descent": 200, "default": 500, "advances": [[97, 250], [0x1F600, 900]]}
    data = metric_font.font_of(told, "ab")
    count = struct.unpack(">H", data[4:6])[0]
    tables = {data[at:at + 4]: struct.unpack(">2L", data[at + 8:at + 16]) for at in range(12, 12 + 16 * count, 16)}
    place, size = tables[b"hmtx"]
    yield "advances", struct.unpack(f">{size // 2}h", data[place:place + size])[::2], (500, 500, 250, 500, 900)
    yield "the whole file", all(at + size <= len(data) for at, size in tables.values()), True


def rules():
    """Where a rule is none, and what is awaited there."""
    for text, at, awaited in (("forall b in box b.left >= 0", 16, "`:` is awaited"), ("forall b in \".x: b.left", 12, "a string without its end"),
                              ("forall b in box: b.left => 0", 25, "a number or an edge"), ("forall b in boxes: true", 12, "a set (block,"),
                              ("forall b in box: c.left >= 0", 17, "names `c`"), ("forall b in box: b.left >= 0px &", 31, "begins no word"),
                              ("forall b in box: (b.left >= 0", 29, "the rule ends"), ("exists in in box: true", 7, "a name (")):
        try:
            rule_text.check(text)
            yield text, "read", awaited
        except rule_text.BadRule as fault:
            yield text, (fault.at, awaited in str(fault), str(fault).split("\n")[-1].index("^") - 2), (at, True, at)
    for path in sorted((TOP / "examples/pages").glob("*.rule")):
        yield path.name, rule_text.check(path.read_text(encoding="utf-8").strip()), None


def program():
    """The program that lays out jobs, where it answers at once; else None."""
    told = os.environ.get("VIZLOG_PROGRAM")
    built = [TOP / "crates/vizlog/out/vizlog", TOP / "vizlog.bin"]
    return told or (str(TOP / "vizlog") if any(it.exists() for it in built) else None)


def comparing():
    """Boxes that lie elsewhere are counted, with what is known of them, of what is around them or of what is before them."""
    job = answers.job_of(text_of("nested.json"))
    many = len(job.nodes)
    mine = {number: (0, 0, 100, 100) for number in range(many)}
    theirs = [[0, 0, 100, 100 + (3 if number == many - 1 else 0)] for number in range(many)]
    found = fidelity.compare(job, mine, theirs, [True] * many, [["why"]] + [[]] * (many - 1), 1)
    yield "counted", (len(found.differ), found.greatest, {it.cause for it in found.differ}), (1, 3, {"why"})
    yield "worlds", fidelity.worlds((320, 1920), (12, 24)), [(1024, 16), (320, 12), (360, 16), (640, 20), (1920, 24)]


def placed(page, css):
    """The nodes of a page with its generated content: each with its parent and its number as it is written, or what it is."""
    full, written = grown.grown(page, css, (320, 16))
    numbers = {place: number for number, place in enumerate(written)}
    found, waiting = [], [(full, None)]
    while waiting:
        node, parent = waiting.pop()
        number = numbers.get(len(found))
        told = [] if number is not None else [None, node] if isinstance(node, str) else [node["tag"]]
        if not isinstance(node, str):
            waiting.extend((it, len(found)) for it in reversed(node["children"]))
        found.append([parent, number, *told])
    return found


def outside_cases(*calls):
    """The outside cases of some calls that are not refused: the call, what is given, and the answer."""
    asked, answered = ((TOP / "crates/test_cases" / it).read_text(encoding="utf-8").split("\n") for it in ("stdin", "stdout"))
    for line, answer in zip(asked, answered, strict=True):
        if line.startswith(tuple(f'["{it}"' for it in calls)) and answer.startswith("["):
            call, *given = json.loads(line)
            yield call, given, json.loads(answer)


def generated():
    """Generated content is found where the outside cases have it."""
    for _, (job, css), answer in outside_cases("grow"):
        yield str(css), placed(json.loads(job)["page"], css), answer[0]
    job = answers.job_of(text_of("pages/nav.json"))
    yield "names", [node.name for node in job.nodes if node.element and node.element["tag"] in grown.MADE], ["ul:after"]
    yield "numbers", [at for at in range(len(job.nodes)) if at not in job.written], [21]
    scene = formulas.Scene(job, [answers.Box("block", it, *[(0, 0, 1, 1)] * 4) for it in range(len(job.nodes))], (320, 16))
    yield "a set", [scene.members(it) for it in ('"main"', '"ul *"')], [[23], [6, 7, 9, 10, 12, 13, 15, 16, 18, 19]]


def told_feature(it):
    return [it.most, ["Em" if it.em else "Px", it.bound]]


def feature(told):
    return media.Feature(told[0], told[1][0] == "Em", told[1][1])


def told_list(entries):
    return None if entries is None else [[it.negated, it.on, [told_feature(one) for one in it.features]] for it in entries]


def queries():
    """Media lists are read, and ranges parted, as the outside cases have it; answers of a job with width queries go by its parts."""
    for call, given, answer in outside_cases("sheets", "features", "signs", "parts"):
        if call == "sheets":
            found, wanted = [told_list(it[2]) for it in grown.rules(grown.tokens(given[0]))], [it[-1] for it in answer]
        elif call == "features":
            found, wanted = [told_feature(it) for it in grown.features(given[0])], answer
        elif call == "signs":
            found, wanted = [list(media.signs([feature(it) for it in given[0]], *world)) for world in given[1]], answer
        else:
            found, wanted = [list(it) for it in media.parts([feature(it) for it in given[0]], *given[1:])], answer
        if found != wanted or len(str(given)) < 60:
            yield f"{call} {str(given)[:80]}", found, wanted
    told = json.loads(text_of("narrow-screens.json"))
    css = ["div:before{content:'a'}@media (min-width:360px){div:before{content:none}}@media (max-width:20em){p{}}"]
    text = json.dumps({**told, "css": css, "widths": [320, 400], "sizes": [16, 17]})
    job = answers.job_of(text)
    yield "parts", job.parts, {(False, True): (320, 16), (False, False): (321, 16), (True, False): (360, 16)}
    yield "nodes of the parts", [len(job.at(it).nodes) - len(job.written) for it in ((340, 17), (359, 16), (360, 16))], [6, 6, 0]
    head = f"vizlog-cert 1\njob {job.digest}\n"
    bodies = ["grid\n", "split -341 0:1\ngrid\ngrid\n", "split -17 1:1\ngrid\ngrid\n"]
    proof = answers.answer_of("".join(head + it for it in bodies), job)
    yield "regions of worlds", [proof.region_at(it) for it in ((320, 16), (340, 17), (340, 16), (341, 16), (400, 16), (400, 17))], [0, 0, 2, 1, 4, 3]
    yield "a certificate too few", refused(head + head.join(bodies[:2]), job), "there are 2 certificates, and the job has 3 parts"
    yield "one for another job", refused(head + bodies[0] + head.replace(job.digest, "0" * 64) + bodies[1], job), "the certificate is for another job"
    yield "the map", "3 certificates, one for each part" in script("picture").page_of(job, proof, "test"), True


# pages with what is said of them in the profile's own words; at one size no box lies elsewhere
SAYINGS = {
    "preformatted": ("white-space: pre as", "white-space: pre-line as", "white-space: pre-wrap as"),
    "breaks": ("a line may break within a word",),
    "media": ("@media with a condition, as the browser answers it on this machine, is `all`", "is `not all`"),
    "widths": ("the widths of @media in the profile's words: 4", "an @media in an @media, as one under both conditions", "is shorter: 2",
               "each proved by a certificate of its own: 11",
               "margin-right by the browser's computed value: 3, first node 10 div.row (0px, then 17px)"),
    "generated": ("display: table of generated content without text, which the profile refuses, as block", "content by the text that it comes to",
                  "no generated content where the browser makes none"),
    "clearfix": ("display: table of generated content without text, which the profile refuses, as block: 6",),
    "generated-breaks": (":before as an element", "a line may break within a word"),
    "position": ("position by the browser's computed value",),
    "blocks": ("an inline box that holds blocks",),
    "values": ("padding-top by the browser's computed value", "width by the browser's computed value"),
    "faces": ("font-family by the browser's computed value",),
    "spacing": ("letter-spacing by a font of its own", "word-spacing by a font of its own"),
    "cases": ("text-transform: uppercase in the texts", "text-transform: capitalize in the texts"),
    "kerning": ("letters that a font sets nearer",),
    "hints": ("<img width>", "<p align>"),
    "normal": ("line-height by the browser's computed value",),
    "transitional": ("with a transitional", "line-height: 0 where"),
    "controls": ("height by the browser's computed value",),
    "quirks": ("without `<!DOCTYPE html>`", "margin-top: 0 at the head of the body"),
}


def exported(browser, url, **options):
    told = {"widths": [320, 1920], "sizes": [16, 16], "height": 800, "assert": "true", "without": [], **options}
    page_export.selectors(browser, url, told)
    return page_export.export(browser, told)


def elsewhere(found, folder):
    """The boxes of an export that the browser lays elsewhere; none where no program lays out the job."""
    if program() is None:
        return []
    job = pathlib.Path(folder, "job.json")
    job.write_text(found["job"], encoding="utf-8")
    return [(it.world, one.name, one.apart) for it in fidelity.tried(program(), str(job), found["job"], found) for one in it.differ]


def sayings():
    """What is said in the profile's own words lies where the browser has it."""
    with tempfile.TemporaryDirectory() as folder, chromium.Chromium() as browser:
        for name, words in SAYINGS.items():
            found = exported(browser, (TOP / f"examples/sayings/{name}.html").as_uri())
            told = "\n".join(found["lines"])
            for it in words:
                yield f"{name} tells", it if it in told else told, it
            yield f"{name} is refused", found["refused"], []
            yield f"{name} lies elsewhere", elsewhere(found, folder), []
        job = answers.job_of(exported(browser, (TOP / "examples/sayings/widths.html").as_uri())["job"])
        made = [[it.name for it in job.at((width, 16)).nodes if it.name.endswith(":before")] for width in (320, 599, 600, 1920)]
        yield "generated content at some widths", made, [[], [], ["ul.menu.row:before"], ["ul.menu.row:before"]]
        found = exported(browser, (TOP / "examples/sayings/spacing.html").as_uri(), textSpacing=True)
        yield "text spacing", ("0.12" in found["job"], elsewhere(found, folder)), (True, [])
        page = pathlib.Path(folder, "page.html")
        page.write_text("<!DOCTYPE html><div><code><div><pre>One</pre></div><pre>Two</pre></code></div>", encoding="utf-8")
        found = exported(browser, page.as_uri(), sizes=[12, 24])
        yield "kept spaces in a font size that no number says", found["job"].count("white-space:nowrap"), 2
        page.write_text('<!DOCTYPE html><link rel="stylesheet" href="none.css"><p>A page.</p>', encoding="utf-8")
        told = "\n".join(exported(browser, page.as_uri())["lines"])
        yield "a missing sheet", "isn't there, so that the browser shows the page without it" in told, True


# media lists and what they come to, None where they stay: the screen has colours, a landscape turns and no width is left out
LISTS = (
    ("screen and (min-width: 600px)", None), ("ONLY screen and (max-width:37.5em) , not all and (min-width: 0)", None), ("print", None),
    ("(min-width: 600px) and (color), print", "(min-width: 600px)"), ("(monochrome), (min-width: 600px)", "(min-width: 600px)"),
    ("(color) and (min-resolution: 1dppx)", "all"), ("(monochrome)", "not all"), ("not all and (monochrome)", "all"),
    ("not screen and (color) and (min-width: 600px)", "not all and (min-width: 600px)"), ("not print and (monochrome)", "all"),
    ("print and (orientation: landscape), (min-width: 1em)", "(min-width: 1em)"), ("(min-width: 600px), screen", "all"),
    ("(orientation: landscape) and (min-width: 600px)", None), ("(orientation: landscape) and (monochrome), (max-width: 9px)", "(max-width: 9px)"),
    ("(min-width: 48rem)", "(min-width: 48em)"), ("(min-width: 6in)", "(min-width: 576px)"), ("(width >= 600px)", "(min-width: 600px)"),
    ("(400px <= width < 700.5px)", "(min-width: 400px) and (max-width: 700px)"), ("(width > 600px)", "(min-width: 601px)"),
    ("(600px > width)", "(max-width: 599px)"), ("(width < 40em)", "(max-width: 39.999999em)"), ("(width > 40em)", None),
    ("not (min-width: 600px)", "not all and (min-width: 600px)"), ("(min-width: 600px) or (monochrome)", "(min-width: 600px)"),
    ("((min-width: 600px) and (max-width: 900px))", "(min-width: 600px) and (max-width: 900px)"),
    ("(min-width: calc(1px + 1em))", None), ("(width: 600px)", "(min-width: 600px) and (max-width: 600px)"),
    ("and, (min-width: 1px)", "(min-width: 1px)"))
BOTH = ((("(min-width: 1px)", "screen and (max-width: 9px)"), "(min-width: 1px) and (max-width: 9px)"), (("all", "not all and (min-width: 1px)"),
        "not all and (min-width: 1px)"), (("(min-width: 1px), print", "(min-width: 2px), (max-width: 1px)"),
        "(min-width: 1px) and (min-width: 2px), (min-width: 1px) and (max-width: 1px)"), (("not all", "(min-width: 1px)"), "not all"),
        (("(min-width: 1px)", "not all and (min-width: 2px)"), None))


def steps(*widths):
    return "".join(f"@media (min-width:{it}px){{p{{margin:0}}}}" for it in widths)


# sheets, the greatest width of the range from 320 px on, and what is told
REFUSED = (
    ("@media (orientation: landscape){p{margin:0}}", 1920, "@media with (orientation: landscape): 1, first sheet 0"),
    ("@media (min-width:400px){@media not all and (max-width:500px){p{margin:0}}}", 1920, "an @media in an @media is dropped: 1"),
    ("@media (max-width:599.99px), (max-width:399.98px){p{margin:0}}", 1920,
     "a width of @media that the browser meets elsewhere: 1, first (max-width:599.99px) at 600 px"),
    (steps(*range(400, 1700, 100)), 1920, "more than 12 parts of the range by what @media asks for: 14, first (min-width:400px)"),
    (steps(*range(400, 1700, 100)), 1920, "ranges of widths with at most 12 parts, for a job each: 2, first 320:1499 1500:1920"),
    (steps(*range(400, 2100, 100)), 2400, "more than 16 widths that @media asks for: 17"),
    (steps(*range(140, 340, 10)), 1920, "widths of @media at which nothing turns within the range are left out: 19, first sheet 0"))


def lists():
    """Media lists in the profile's words, and what widths are refused for."""
    with tempfile.TemporaryDirectory() as folder, chromium.Chromium() as browser:
        page = pathlib.Path(folder, "page.html")
        page.write_text("<!DOCTYPE html><p>A page.</p>", encoding="utf-8")
        browser.open(page.as_uri())
        browser.run(page_export.script())
        options = {"widths": [320, 1920], "sizes": [16, 16]}
        turned = "for (const it of ['(orientation: landscape)', '(width > 40em)']) media.answers.get(it).add(false);"
        asked = ("all => { const media = new jobFromPage.Media(%s); for (const it of all) media.find(`@media ${it}{}`); media.ask(); %s "
                 "return all.map(it => media.said(it)); }" % (json.dumps(options), turned))
        browser.screen(1920, 800)
        found = browser.run(f"({asked})({json.dumps([it for it, _ in LISTS])})")
        for (text, wanted), said in zip(LISTS, found):
            yield text, said, wanted or text
        for pair, wanted in BOTH:
            yield " and ".join(pair), browser.run(f"jobFromPage.bothMet({json.dumps(pair[0])}, {json.dumps(pair[1])})"), wanted
        for css, most, told in REFUSED:
            page.write_text(f"<!DOCTYPE html><style>{css}</style><p>A page.</p>", encoding="utf-8")
            lines = "\n".join(exported(browser, page.as_uri(), widths=[320, most])["lines"])
            yield css[:60], told if told in lines else lines, told


def run_tool(words):
    """A run of tools/job_from_page."""
    run = subprocess.run([str(TOP / "tools/job_from_page"), *words], capture_output=True, text=True)
    if "gave no answer" in run.stderr:
        raise chromium.BrowserFault(run.stderr.strip())
    return run


def browser():
    """A page and its job in the repository, but for the fonts, which each machine has its own of; and the statuses of the tool."""
    name = TOP / "examples/pages/badge"
    with tempfile.TemporaryDirectory() as folder:
        made = pathlib.Path(folder, "job.json")
        words = [f"{name}.html", "-o", str(made)]
        run = run_tool([*words, "--assert", f"{name}.rule", "--no-compare", "--without", "kerning,faces"])
        yield "status of a page that is refused", run.returncode, 3
        yield "what is refused", "  position: absolute: 1, first node 7 span.badge\n" in run.stderr, True
        pair = [json.loads(it.read_text(encoding="utf-8")) for it in (made, name.with_suffix(".json"))]
        for job in pair:
            job.pop("fonts")
        yield "the job of examples/pages/badge.html", pair[0], pair[1]
        made.unlink()
        rule = pathlib.Path(folder, "rule.txt")
        rule.write_text('forall b in ".bagde": b.left >= 0', encoding="utf-8")
        run = run_tool([*words, "--assert", str(rule), "--no-compare"])
        yield "a selector that meets nothing", (run.returncode, "meets no element" in run.stderr, made.exists()), (1, True, False)
        if program():
            page = pathlib.Path(folder, "page.html")
            page.write_text('<!DOCTYPE html><div style="display:flex"><p>One</p><p>Two</p></div>', encoding="utf-8")
            run = run_tool([str(page), "-o", str(made), "--strict", "--program", program()])
            yield "a box elsewhere", (run.returncode, "display: flex" in run.stderr, made.exists()), (4, True, False)


def replaced():
    """An element with a size is built as large as the job and its sheets say, whatever its tag."""
    tool = script("against_chromium")
    tags = ("input", "select", "textarea", "progress", "canvas", "iframe", "img", "span")
    page = {"tag": "div", "children": [{"tag": it, "size": [150, 15]} for it in tags]}
    page["children"][1]["attrs"] = {"style": "height:30px"}
    job = answers.job_of(json.dumps({"widths": [800, 800], "sizes": [16, 16], "height": 600, "css": ["input{width:300px}"],
                                     "assert": "true", "page": page}))
    job.fonts = [{"name": "none"}]
    with chromium.Chromium() as browser:
        browser.screen(800, 600)
        tool.build(browser, job, "profile", [])
        found = browser.run(tool.LOOK)[1:]
    yield "sizes", [[right - left, bottom - top] for left, top, right, bottom in found], [[300, 30]] * 2 + [[150, 15]] * 6


def in_a_browser(tests):
    """What tests in a browser find; nothing more of one that the browser is too slow for, which is told on standard error."""
    try:
        yield from tests()
    except chromium.BrowserFault as fault:
        if "gave no answer" not in str(fault):
            yield "the browser", str(fault), None
        print(f"pages_test: {tests.__name__} is passed over: {fault}", file=sys.stderr)


def failures():
    """A line for each test that fails. Where no browser is, or VIZLOG_NO_BROWSER is set, none is asked."""
    for tests in (renderings, certificates, heights, fonts, rules, comparing, generated, queries):
        yield from failed(tests.__name__, tests())
    if chromium.found() and not os.environ.get("VIZLOG_NO_BROWSER"):
        for tests in (browser, lists, sayings, replaced):
            yield from failed(tests.__name__, in_a_browser(tests))


def failed(title, rows):
    for name, found, wanted in rows:
        if found != wanted:
            yield f"{title}, {name}: {str(found)[:200]} in place of {str(wanted)[:200]}"
