#!/usr/bin/env python3
"""Writes the tables of outside cases that the crates `test_cases`, `test_layout` and `test_jobs` run, from a folder of cases.

    tools/cases.py FOLDER

FOLDER has files of JSON Lines, each named after a call: decimals, tokens, sheets, declarations, selectors, matches, values, cascade,
formulas and truths; in jobs/ and certs/ jobs and certificates with what the program replies, in jobs16/ both for jobs with a range of
heights, in certs17/ certificates with lemmas, and in jobs18/ and jobs19/ both for pages with width queries and with generated content, a
file of certificates having one for each part; refusals.jsonl and refusals16.jsonl, jobs that are refused; grammar.jsonl and
grammar17.jsonl, texts with the place up to which some certificate's text begins so, or null where they are a certificate's; runs15.jsonl
and runs17.jsonl, whole runs over files and an output in memory, of which chosen loads and writes fail: texts by name, then runs, whose
files are so many bytes of these texts; survey/, jobs with lists of rules and files of certificates and what `vizsurvey` writes about them;
and media.jsonl and pseudo.jsonl, of media lists and width queries and of generated content, whose lines have a `call`. later17.jsonl and
later.jsonl have what has become of lines of these files. Long cases come behind these, the cases of layout that tools/layout_cases.py
reads, those of tools/limit_cases.py and the documents of tools/worked_pages.py. What is called goes to a crate's stdin and what it must
give to its stdout, a line of JSON each: what is replied to whole jobs (lay, check, prove, finding, gen and trial) and whole runs (run,
survey and ending) to crates/test_jobs, what is of layout, rows and derivations to crates/test_layout, all else to crates/test_cases. A page
goes as a job that has it; a formula as steps, each part before what it is a part of.
"""
import hashlib
import json
import pathlib
import re
import sys

sys.dont_write_bytecode = True
import layout_cases  # noqa: E402
import limit_cases  # noqa: E402
import worked_pages  # noqa: E402

TOP = pathlib.Path(__file__).resolve().parent.parent
LATER = ("later17.jsonl", "later.jsonl")
# members of a case that tell what is called, and not what it must give
GIVEN = ("pieces", "w", "s", "text", "name", "value", "page", "css")


def compact(value):
    return json.dumps(value, ensure_ascii=False, separators=(",", ":"))


def lines(folder, name):
    """The cases of a file, those of lines that have changed as they are by now."""
    def read(file):
        return [json.loads(line) for line in (folder / file).read_text(encoding="utf-8").split("\n") if line]
    found = read(name)
    for later in LATER:
        for change in read(later):
            if change["file"] == name:
                given = {member: found[change["line"]][member] for member in GIVEN if member in found[change["line"]]}
                found[change["line"]] = {**given, **change["now"]}
    return found


# ---- pages

def job_of(element):
    """A job that has the page."""
    return limit_cases.job(element, [320, 320], [16, 16])


# ---- formulas

TOKEN = re.compile(r'[ \t\n]*(?:([a-z][a-z0-9]*)|(\d+)(px)?|"([^"]*)"|(<=|<|>=|>|!=|=|\(|\)|,|:|\.|\+|-|\*))')
KINDS = {"block": "Block", "anon": "Anon", "float": "Float", "atomic": "Atomic", "replaced": "Replaced", "inline": "Inline", "text": "Chars",
         "line": "Line"}
SIGNS = {"<": "Lt", "<=": "Le", "=": "Eq", "!=": "Ne", ">=": "Ge", ">": "Gt"}


class Formulas:
    """Reads a formula as steps; names are the number of quantifiers between them and their own."""

    def __init__(self, text):
        self.tokens, self.at, self.steps, self.names = [], 0, [], []
        place = 0
        while text[place:].strip(" \t\n"):
            found = TOKEN.match(text, place)
            word, digits, px, string, mark = found.groups()
            if word is not None:
                self.tokens.append(("word", word))
            elif digits is not None:
                self.tokens.append(("number", int(digits) * (64 if px else 1)))
            elif string is not None:
                self.tokens.append(("string", string))
            else:
                self.tokens.append(("mark", mark))
            place = found.end()
        self.tokens.append(("end", None))

    def peek(self):
        return self.tokens[self.at]

    def take(self, value=None):
        kind, found = self.tokens[self.at]
        assert value is None or found == value, (value, found)
        self.at += 1
        return found

    def formula(self):
        if self.peek() in (("word", "forall"), ("word", "exists")):
            quantifier = self.take().capitalize()
            name = self.take()
            self.take("in")
            kind, value = self.peek()
            self.at += 1
            members = ["Nodes", value] if kind == "string" else ["Every"] if value == "box" else ["Of", KINDS[value]]
            self.take(":")
            self.names.insert(0, name)
            self.formula()
            self.names.pop(0)
            self.steps.append([quantifier, members])
            return
        self.alternatives()
        if self.peek() == ("word", "implies"):
            self.take()
            self.formula()
            self.steps.append(["Implies"])

    def alternatives(self):
        self.together()
        while self.peek() == ("word", "or"):
            self.take()
            self.together()
            self.steps.append(["Or"])

    def together(self):
        self.unary()
        while self.peek() == ("word", "and"):
            self.take()
            self.unary()
            self.steps.append(["And"])

    def unary(self):
        if self.peek() == ("word", "not"):
            self.take()
            self.unary()
            self.steps.append(["Not"])
        elif self.peek() == ("mark", "("):
            self.take()
            self.formula()
            self.take(")")
        else:
            self.atom()

    def atom(self):
        kind, value = self.peek()
        if kind == "word" and value in ("true", "false"):
            self.take()
            self.steps.append(["Const", value == "true"])
        elif kind == "word" and value in ("overlap", "same"):
            self.take()
            self.take("(")
            first = self.names.index(self.take())
            self.take(",")
            second = self.names.index(self.take())
            self.take(")")
            self.steps.append([value.capitalize(), first, second])
        else:
            left = self.term()
            sign = SIGNS[self.take()]
            self.steps.append(["Cmp", left, sign, self.term()])

    def term(self):
        times, parts = 1, []
        if self.peek() == ("mark", "-"):
            self.take()
            times = -1
        while True:
            kind, value = self.peek()
            if kind == "number":
                self.take()
                if self.peek() == ("mark", "*"):
                    self.take()
                    parts.append([times * value, self.edge()])
                else:
                    parts.append([times * value, ["One"]])
            else:
                parts.append([times, self.edge()])
            if self.peek() not in (("mark", "+"), ("mark", "-")):
                return parts
            times = 1 if self.take() == "+" else -1

    def edge(self):
        name = self.take()
        self.take(".")
        face = self.take()
        if name == "view":
            return ["ViewWidth"] if face == "width" else ["ViewHeight"]
        ring = "border"
        if self.peek() == ("mark", "."):
            self.take()
            ring, face = face, self.take()
        return ["Name", self.names.index(name), ring.capitalize(), face.capitalize()]


def steps_of(text):
    reader = Formulas(text)
    reader.formula()
    assert reader.peek()[0] == "end"
    return reader.steps


# ---- cases: what is called, and what it must give

def fault(case):
    return " ".join(case["fault"].split()) if isinstance(case["fault"], str) else case["fault"]


def without_keyword(value):
    return value[:2] if value[0] == "Word" else value


def tokens(case):
    return [case["text"]], case["tokens"]


def sheets(case):
    return [case["text"]], fault(case) if "fault" in case else [rule["selector"] + [rule["decls"], rule.get("media")] for rule in case["sheet"]]


def declarations(case):
    return [case["text"]], case["decls"]


def selectors(case):
    if "fault" in case:
        return [case["text"]], fault(case)
    pseudo = case.get("pseudo") or [None] * len(case["group"])
    parts = [[[join, one["tag"], one["tests"]] for join, one in selector] for selector in case["group"]]
    return [case["text"]], [list(one) for one in zip(parts, case["spec"], pseudo)]


def matches(case):
    return [job_of(case["page"]), [selector for selector, _ in case["cases"]]], [nodes for _, nodes in case["cases"]]


def decimals(case):
    return [case["text"]], case["millionths"]


def values(case):
    if "fault" in case:
        return [case["name"], case["value"]], fault(case)
    return [case["name"], case["value"]], [[prop, without_keyword(value)] for prop, value in case["settings"]]


def cascade(case):
    given = [job_of(case["page"]), case["css"]]
    if "fault" in case:
        return given, fault(case)
    return given, [[node, prop, without_keyword(value)] for node, prop, value in case["winners"]]


def read_sheet(case):
    return "sheets", *sheets(case)


def features(case):
    return "features", [case["css"]], fault(case) if "fault" in case else case["features"]


def signs(case):
    return "signs", [case["features"], case["worlds"]], case["signs"]


def parts(case):
    return "parts", [case["features"], case["widths"], case["sizes"]], fault(case) if "fault" in case else case["parts"]


def chosen(case):
    return "chosen", [case["css"], case["features"], case["signs"]], case["chosen"]


def guard(case):
    page = job_of({"tag": "html"})
    return "guard", [page, case["features"], case["signs"], steps_of(case["formula"]), case["height"], case["worlds"]], case["truth"]


def read_selector(case):
    return "selectors", *selectors(case)


def read_declaration(case):
    return "values", *values(case)


def one_cascade(case):
    return "cascade", *cascade(case)


def cascade_pseudo(case):
    (page, css), answer = cascade(case)
    return "cascade_pseudo", [page, css, case["which"]], answer


def grow(case):
    given = [job_of(case["page"]), case["css"]]
    if "fault" in case:
        return "grow", given, fault(case)
    return "grow", given, [case["nodes"], [[node, prop, without_keyword(value)] for node, prop, value in case["winners"]]]


def grown_boxes(case):
    given, answer = layout_cases.boxes({**case, "fonts": ["Square"]})
    return "boxes", given, answer


# what is called of media lists and width queries, and of generated content
MEDIA = {"read_sheet": read_sheet, "features": features, "signs": signs, "parts": parts, "chosen": chosen, "guard": guard}
PSEUDO = {"read_selector": read_selector, "read_declaration": read_declaration, "cascade": one_cascade, "cascade_pseudo": cascade_pseudo,
          "grow": grow, "boxes": grown_boxes}


def later_calls(folder):
    """What is called of media lists and width queries, and of generated content."""
    for name, table in (("media.jsonl", MEDIA), ("pseudo.jsonl", PSEUDO)):
        for case in lines(folder, name):
            call, arguments, answer = table[case["call"]](case)
            yield [call, *arguments], answer


def steps_in(formula):
    """The steps that make a formula, each part before what it is a part of."""
    kind = formula[0]
    if kind in ("Forall", "Exists"):
        return steps_in(formula[2]) + [formula[:2]]
    if kind in ("Not", "Implies", "Or", "And"):
        return [step for part in formula[1:] for step in steps_in(part)] + [[kind]]
    return [formula]


def formulas(case):
    given = [job_of(case["page"]), case["text"]]
    if "fault" in case:
        return given + [[]], fault(case)
    return given + [steps_in(case["formula"])], True


def truths(case):
    given = [job_of(case["page"]), steps_of(case["formula"]), case["w"], case["s"], case["height"], case["boxes"]]
    return given, case["truth"]


# ---- jobs and certificates

ANSWERS = {"0": "Done", "1": "Violated", "5": "JobRefused", "6": "Undecided", "8": "CertRefused"}


def replies(path):
    """The words of each run of a file of outputs, with what is replied."""
    for words, output, status in re.findall(r"^== ([a-z].*)\n((?:(?!== ).*\n)*)== status (\d)$", path.read_text(encoding="utf-8"), re.M):
        if words.split()[0] != "status":
            yield words.split(), [ANSWERS[status], output]


def asked(path, job, words, reply):
    """What is asked of a job by words of a file of outputs, and what is replied. A certificate that is found is free: it is checked. A world
    that is found may be free: the kind of the reply is not."""
    verb, *given = words
    if verb == "check":
        return ["check", job, path.with_name(f"{path.stem}-{given[0]}.cert").read_text(encoding="utf-8")], reply
    if verb != "prove":
        return ["lay", job, *map(int, given)], reply
    if given[1:] == ["free"] and reply[0] == "Violated":
        return ["finding", job, int(given[0])], reply[:1]
    return ["prove", job, int(given[0])], limit_cases.ACCEPTED if reply[0] == "Done" else reply


def of_job(path):
    """What is asked of the job in a file."""
    job = path.read_text(encoding="utf-8")
    for words, reply in replies(path.with_suffix(".out")):
        yield asked(path, job, words, reply)


def in_folders(folder, names):
    """Jobs with what is asked of them, and certificates of files more.jsonl."""
    for name in names:
        for path in sorted((folder / name).glob("*.json")):
            yield from of_job(path)
        if (folder / name / "more.jsonl").exists():
            for case in lines(folder, f"{name}/more.jsonl"):
                job = (folder / name / f"{case['job']}.json").read_text(encoding="utf-8")
                yield ["check", job, case["text"]], [ANSWERS[str(case["status"])], case["line"] + "\n"]


def jobs(folder):
    """Jobs laid out at two or three worlds each, and some that are refused."""
    return in_folders(folder, ("jobs",))


def refusals(folder):
    """Jobs that are refused, but those of over 100,000 characters and those that are no text."""
    for case in lines(folder, "refusals.jsonl") + lines(folder, "refusals16.jsonl"):
        size = sum(len(piece) * times for _, piece, times in case["pieces"])
        if "line" in case and size < 100000 and all(kind == "text" for kind, _, _ in case["pieces"]):
            text = "".join(piece * times for _, piece, times in case["pieces"])
            height = [] if case.get("h") is None else [case["h"]]
            yield ["lay", text, case["w"], case["s"], *height], ["JobRefused", case["line"] + "\n"]


def certificates(folder):
    """Each certificate with its job and what is replied, jobs with a range of heights with all that is asked of them among them."""
    return in_folders(folder, ("certs", "jobs16", "certs17"))


def parted(folder):
    """What is asked of jobs with width queries, and of jobs with generated content."""
    return in_folders(folder, ("jobs18", "jobs19"))


def cut_files(folder):
    """Files of right certificates, cut at each line and one at each byte, and with more behind. What is cut begins the file, so its length is
    the place."""
    for path in sorted((folder / "jobs18").glob("*.json")):
        for (call, job, *given), reply in of_job(path):
            if call == "check" and reply == limit_cases.ACCEPTED:
                text = given[0]
                ends = [at for at in range(len(text)) if path.stem == "0003" or text[at] == "\n"]
                for part in [text[:at] for at in ends] + [text + more for more in ("\n", "v", text)]:
                    yield ["check", job, part], ["CertRefused", f"rejected grammar {min(len(part), len(text))}\n"]


def proofs(folder):
    """Searches of jobs with a range of heights whose answer is forced: they hold, or are false at one world."""
    for case in lines(folder, "jobs16/prove.jsonl"):
        if case["status"] == 0:
            yield ["prove", (folder / f"jobs16/{case['job']}.json").read_text(encoding="utf-8"), int(case["turns"])], limit_cases.ACCEPTED


def grammar(folder):
    """Texts of certificates, all for some other job, and texts that are no certificate's."""
    job = (folder / "jobs/0001.json").read_text(encoding="utf-8")
    for case in lines(folder, "grammar.jsonl") + lines(folder, "grammar17.jsonl"):
        yield ["check", job, case["text"]], ["CertRefused", "rejected " + ("other-job" if case["at"] is None else f"grammar {case['at']}") + "\n"]


# ---- whole runs

# the verb of a run in a file of outputs, its other words, what is written and the status
BLOCKS = re.compile(r"^== ([a-z]+) (.*)\n((?:(?!== ).*\n)*)== status (\d)$", re.M)


def run(words, files, status, written, fails=(), sink=None):
    """A run over these files, by name, whose loads of these numbers fail. A sink tells how much a write takes at most, how much all do, and
    which writes fail; each number is null for more than any output has."""
    most, room, writes = sink or (None, None, ())
    called = ["run", words, [*files.items()], fails, [2 ** 32 - 1 if most is None else most, 2 ** 20 if room is None else room, writes]]
    return called, [status, written]


def runs(folder):
    """Runs over files and outputs that are whole, that are cut at each byte, or of which chosen loads and writes fail."""
    for name in ("runs15.jsonl", "runs17.jsonl"):
        texts = {}
        for case in lines(folder, name):
            if "base" in case:
                texts[case["base"]] = case["text"].encode()
            else:
                files = {name: texts[base][:size].decode() for name, (base, size) in case["files"].items()}
                yield run(case["words"], files, case["status"], case["written"], case["fails"], case["sink"])


def text_of(path):
    """The text of a file, None where its bytes are none."""
    try:
        return path.read_bytes().decode()
    except UnicodeDecodeError:
        return None


def surveys(folder):
    """Runs of `vizsurvey` over a job file and a list of rules or a file of certificates, but for lists that are no text. Where what is
    written is free, the status alone counts."""
    for path in sorted((folder / "survey").glob("*.json")):
        for verb, given, output, status in BLOCKS.findall(text_of(path.with_suffix(".out"))):
            number, *turns = given.removesuffix(" free").split()
            other = text_of(path.with_name(f"{path.stem}-{number}.{'list' if verb == 'table' else 'cert'}"))
            if other is not None:
                called, answer = run([verb, "J", "X", *turns], {"J": text_of(path), "X": other}, int(status), output)
                yield (["ending", *called[1:]], answer[:1]) if given.endswith(" free") else (["survey", *called[1:]], answer)


def stopped_search():
    """What is found by a search of a page of 40 elements, of which the output takes 64 bytes and then fails."""
    job = (TOP / "examples/blog.json").read_bytes()
    certificate = f"vizlog-cert 1\njob {hashlib.sha256(job).hexdigest()}\n"
    yield run(["prove", "J", "41625"], {"J": job.decode()}, 4, certificate[:64], sink=(64, None, [1]))


# ---- long cases, whose answers can be told without a reader

def long_cases():
    """What is called and what it must give, past the places and counts at which a narrow number would end."""
    yield ["tokens", "a" * 70000], [["Ident", 0, 70000, "a" * 70000]]
    rules = 8192
    yield ["sheets", "p{}" * rules], [[3 * at, 1, [], None] for at in range(rules)]
    yield ["sheets", "p{}" * (rules + 1)], "TooManyRules"
    yield ["declarations", "/*" + "x" * 70000 + "*/a:b"], [["a", 70006, 1, False]]
    yield ["selectors", "p" + ".a" * 300], [[[["First", "p", [["Class", "a"]] * 300]], [0, 0, 300, 1], None]]
    yield ["selectors", "a" * 70000 + "&"], "Bad 70000"
    paragraph = {"tag": "p", "attrs": {"class": "a"}}
    page = job_of({"tag": "html", "children": [{"tag": "body", "children": [paragraph] * 1000}]})
    yield ["matches", page, ["p.a:first-child,body", "p+p"]], [[1, 2], list(range(3, 1002))]
    block = ["Display", ["Word", 1]]
    margins = [[side, ["Px", 64]] for side in ("MarginTop", "MarginRight", "MarginBottom", "MarginLeft")]
    body = [[1] + setting for setting in [block] + [[side, ["Px", 0]] for side, _ in margins]]
    paragraphs = [[node] + setting for node in range(2, 1002) for setting in [block] + margins]
    yield ["cascade", page, ["body{margin:0}p{margin:0}", "p{unknown:1;width:-1px}&{}.a{margin:1px}"]], [[0] + block] + body + paragraphs
    names = [f"n{at}" for at in range(70)]
    yield ["values", "font-family", ",".join(names)], [["FontFamily", ["Names", names]]]
    box = ["Block", 0] + [0, 0, 64, 64] * 4
    steps = [["Cmp", [[1, ["Name", 0, "Border", "Right"]]] * 70, "Le", [[1, ["One"]]] * 4480], ["Forall", ["Of", "Block"]]]
    yield ["truths", job_of({"tag": "html"}), steps, 320, 16, 600, [box] * 300], True


CALLS = [decimals, tokens, sheets, declarations, selectors, matches, values, cascade, formulas, truths]
# the tables but that of `test_cases`: what is replied to a whole job, and what is of layout, rows and derivations
TABLES = {
    "test_jobs": ("lay", "check", "prove", "finding", "gen", "trial", "run", "survey", "ending"),
    "test_layout": (
        "boxes", "used", "fonts", "words", "widths", "preferred", "lines", "lead", "float_at", "floats", "band", "bottom", "collapsed",
        "add_scaled", "negate", "divides", "cut", "derivation", "entails", "leaf", "pieces",
    ),
}


def calls(folder):
    """What is called of one part of the program, and what it must give."""
    for call in CALLS:
        for case in lines(folder, f"{call.__name__}.jsonl"):
            arguments, answer = call(case)
            yield [call.__name__] + arguments, answer


def all_cases(folder):
    for part in (calls, later_calls, jobs, refusals, certificates, parted, cut_files, proofs, grammar):
        yield from part(folder)
    yield from long_cases()
    for module in (layout_cases, limit_cases):
        yield from module.cases(folder)
    yield from worked_pages.cases()
    yield from runs(folder)
    yield from surveys(folder)
    yield from stopped_search()


def write(name, cases):
    """Writes the table of a crate."""
    for file, lines in zip(("stdin", "stdout"), zip(*cases)):
        with open(TOP / "crates" / name / file, "w", encoding="utf-8", newline="") as table:
            table.writelines(compact(line) + "\n" for line in lines)


def main():
    tables = {name: table for table, names in TABLES.items() for name in names}
    cases = list(all_cases(pathlib.Path(sys.argv[1])))
    for table in ("test_cases", *TABLES):
        write(table, [case for case in cases if tables.get(case[0][0], "test_cases") == table])


main()
