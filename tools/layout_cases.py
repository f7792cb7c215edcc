"""The part of the tables of outside cases that tools/cases.py writes which is of layout, rows and derivations.

The folder has files of JSON Lines: functions.jsonl, whose lines have a `call` (float_at, band, bottom, collapsed; used, fonts, widths,
preferred and lead, which have a box tree, its height and a world; and others, which are left out), boxes.jsonl, whose lines have a page,
style sheets, the names of fonts and a box tree or a fault, rows.jsonl, whose lines have a call too (add_scaled, negate, divides, cut), and
derivations.jsonl and entails.jsonl; pieces.jsonl and pieces17.jsonl, of texts that are read as certificates piece by piece; and
trees.jsonl, whose lines have a box tree and its renderings at some worlds. A row goes as its constant and its terms, numbers of more than
64 bits as texts; a derivation as a list of parts, each its steps and its end, which is null or a row: its two cases are the two latest
parts that are not part of another. A box tree goes as a job whose page has it, and before what is called on it a line says so; trees that
no document has are left out, and told with their number. A rendering goes as what is printed of it.
"""
import json
import sys

from tree_documents import NoDocument, job, job_of, square, told_tree


# ---- layout

def float_at(case):
    return [case["floats"], case["side"], case["size"], case["cb"], case["top"]], case["spot"]


def band(case):
    return [case["floats"], case["cb"], case["y"], case["h"]], case["band"]


def bottom(case):
    return [case["floats"], case["clear"]], case["bottom"]


def collapsed(case):
    return [case["margins"]], [case["pos"], case["neg"], case["value"]]


# ---- layout of pages: what is called on a box tree, and what it must give

def used(case):
    lengths = [[[length] if length == "Auto" else length, around] for length, around, _ in case["cases"]]
    yield "used", lengths, [value for _, _, value in case["cases"]]


def fonts(case):
    yield "fonts", [[node] for node, *_ in case["cases"]], [values for _, *values in case["cases"]]
    yield "words", [[node, word] for node, word, _ in case["words"]], [width for _, _, width in case["words"]]


def widths(case):
    yield "widths", [[box, around] for box, around, _ in case["cases"]], [terms for _, _, terms in case["cases"]]


def preferred(case):
    yield "preferred", [[box] for box, _, _ in case["cases"]], [[least, most] for _, least, most in case["cases"]]


def lead(case):
    runs = [[max([0] + margins), min([0] + margins), floats, end] for _, _, _, margins, floats, end in case["cases"]]
    yield "lead", [[box, around, past] for box, around, past, _, _, _ in case["cases"]], runs


ON_TREES = {call.__name__: call for call in (used, fonts, widths, preferred, lead)}


def on_tree(case):
    """A line that has the tree told, and those of what is called on it."""
    text = job_of(case)
    yield ["boxes", text, 320, 16], told_tree(case["tree"]["boxes"], case["tree"]["styles"])
    for name, arguments, answer in ON_TREES[case["call"]](case):
        yield [name, text, case["w"], case["s"], arguments], answer


def boxes(case):
    text = job(case["page"], [square(name) for name in case["fonts"]], case["css"])
    return [text, 320, 16], case["fault"] if "fault" in case else told_tree(case["boxes"], case["styles"])


# ---- renderings of box trees

KINDS = {"Block": "block", "Anon": "anon", "Float": "float", "Atomic": "atomic", "Replaced": "replaced", "Inline": "inline", "Chars": "text",
         "Line": "line"}


def printed(placed):
    """The line of a box: its kind, its node, and the four edges of each of its rectangles."""
    kind, node, *edges = placed
    words = [KINDS[kind], node]
    for at, letter in enumerate("mbpc"):
        words += [letter] + edges[4 * at:4 * at + 4]
    return " ".join(map(str, words)) + "\n"


def renderings(case):
    """A line that has the tree told, and those that lay it out at its worlds."""
    text = job_of({**case, "w": 320, "s": 16})
    yield ["boxes", text, 320, 16], told_tree(case["tree"]["boxes"], case["tree"]["styles"])
    for world in case["worlds"]:
        yield ["lay", text, world["w"], world["s"]], ["Done", "".join(map(printed, world["boxes"]))]


# ---- rows and derivations

def row(text):
    constant, *terms = text.split()
    return [constant, [[int(variable), coefficient] for variable, coefficient in (term.split(":") for term in terms)]]


def add_scaled(case):
    return [row(case["a"]), case["m"], row(case["b"])], case.get("fault") or row(case["row"])


def negate(case):
    return [row(case["a"])], case.get("fault") or row(case["row"])


def divides(case):
    return [row(case["a"]), case["d"]], case["divides"]


def cut(case):
    return [row(case["a"]), case["d"]], row(case["row"])


def step(line):
    name, *given = line.split()
    if name == "fact":
        return [name, int(given[0])]
    if name == "sum":
        return [name, [[times, int(at)] for times, at in (part.split(":") for part in given)]]
    divisor, at = given[0].split(":")
    return [name, divisor, int(at)]


def parts_of(lines):
    """The parts of the derivation with which these lines begin; the lines are taken off."""
    steps = []
    while True:
        line = lines.pop(0)
        if line == "closed":
            return [[steps, None]]
        if line.startswith("case "):
            first = parts_of(lines)
            return first + parts_of(lines) + [[steps, row(line[5:])]]
        steps.append(step(line))


def derivation(case):
    return [[row(fact) for fact in case["facts"]], case["vars"], parts_of(case["derivation"].split("\n"))], [case["refutes"], case["first_fault"]]


def entails(case):
    answer = case.get("fault") or [case["entails"], case["first_fault"]]
    return [[row(fact) for fact in case["facts"]], case["vars"], parts_of(case["derivation"].split("\n")), row(case["row"])], answer


def pieces(case):
    """The pieces of a text, each with the bytes taken, and where this ends: behind a certificate, or where no certificate's text goes on."""
    told = [[f"Head {piece[1]}" if piece[0] == "Head" else piece[0], taken] for piece, taken in case["pieces"]]
    taken = told[-1][1] if told else 0
    return [case["text"]], [*told, ["End", taken] if "rest" in case else ["Grammar", int(case["fault"].split()[1])]]


CALLS = {call.__name__: call for call in (float_at, band, bottom, collapsed, add_scaled, negate, divides, cut)}


def lines(folder, name):
    return map(json.loads, filter(None, (folder / f"{name}.jsonl").read_text(encoding="utf-8").split("\n")))


def cases(folder):
    of_file = {"derivations": derivation, "entails": entails, "boxes": boxes, "pieces": pieces, "pieces17": pieces}
    for name in ("functions", "rows", *of_file):
        for case in lines(folder, name):
            call = CALLS.get(case["call"]) if "call" in case else of_file[name]
            if call is not None:
                arguments, answer = call(case)
                yield [call.__name__] + arguments, answer
    yield from cases_on_trees(folder)


def cases_on_trees(folder):
    """The cases of box trees: what is called on them, and their renderings."""
    left_out = 0
    for case in [*lines(folder, "functions"), *lines(folder, "trees")]:
        call = case.get("call", "renderings")
        if call in ON_TREES or call == "renderings":
            try:
                yield from renderings(case) if call == "renderings" else on_tree(case)
            except NoDocument as cause:
                left_out += 1
                print(f"left out, a case of {call}: {cause}", file=sys.stderr)
    print(f"{left_out} box trees are left out", file=sys.stderr)
