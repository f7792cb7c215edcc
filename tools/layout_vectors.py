#!/usr/bin/env python3
"""Tries the definitions of layout in the logic against a folder of cases.

    tools/layout_vectors.py VECTORS SCRATCH [--file functions.jsonl] [--call NAME ..] [--from N] [--to N] [--batch N]

VECTORS is a folder of cases; SCRATCH is a folder outside this repository, where a repository of its own is made with copies of the
crates viz_base and layout_semantics and a crate `vectors`. Each case becomes a law `f literal = value` there, proved by computing
both sides; the check is run, and each line of cases is told to agree or not. The status is 0 where all agree.

VECTORS/functions.jsonl and VECTORS/trees.jsonl are JSON Lines. A line of functions.jsonl has a `call` and, for the calls that look at a
page, `tree`, `height` (px), `w`, `s` and `cases`:
  used       [length, containing width, value]
  fonts      [node, font size, line height, ascent, descent], and `words`: [node, text, width]
  widths     [box, containing width, [margin, border, padding, content, padding, border, margin]]
  preferred  [box, least, most]
  lead       [box, containing width, box before which none is cleared or null, margins, floats, end]
Others have no `cases`; floats are a list of [side, left, top, right, bottom]:
  float_at   `floats`, `side`, `size`, `cb`, `top`, `spot`
  band       `floats`, `cb`, `y`, `h`, `band`
  bottom     `floats`, `clear`, `bottom`
  collapsed  `margins`, `pos`, `neg`, `value`
  resolve    a page, `e` (an edge), `run` (margins), `b` (a box), `cb`, `floats`, `least`, `lead` (margins), `cleared` (a box), `edge`
A line of trees.jsonl has a `tree`, its `height`, and `worlds`: `w`, `s` and `boxes`, each of them kind, node and the edges of four rectangles.
A tree has `boxes`, `styles`, `fonts` and `parents`, the members of BoxTree; members with their initial values are left out (STYLE and BOX
of tools/tree_documents.py). A line of boxes.jsonl has a `page`, an element {"tag", "attrs", "size", "children"} whose children are elements and texts, `css`,
`fonts` (names) and `boxes` and `styles`, or in their place `fault` with the refusal and its numbers. A length is "Auto", ["Px", units], ["Em", millionths, node] or ["Pct", millionths]; of four sides the order is top, right, bottom, left.
"""
import argparse
import json
import pathlib
import re
import shutil
import subprocess
import sys

sys.dont_write_bytecode = True
import refused_styles  # noqa: E402
from tree_documents import BOX, STYLE  # noqa: E402

TOP = pathlib.Path(__file__).resolve().parent.parent

# ---- literals of the logic


def number(value):
    return f"(pos {value})" if value >= 0 else f"(negsuc {-value - 1})"


def sequence(items):
    return "(" + " ∷ ".join(list(items) + ["[]"]) + ")"


def perhaps(value, write):
    return "None" if value is None else f"(Some {write(value)})"


def truth(value):
    return "true" if value else "false"


def variant(kind, value):
    """Of an enum: its name, or a list of its name and its numbers, those in ℕ marked by Natural."""
    if isinstance(value, str):
        return f"of_{kind}.{value}"
    return f"(of_{kind}.{value[0]} {' '.join(value[1:])})"


def length(value):
    if value == "Auto":
        return "of_length.Auto"
    if value[0] == "Em":
        return variant("length", ["Em", number(value[1]), str(value[2])])
    return variant("length", [value[0], number(value[1])])


def sides(value):
    return "record { top = %s; right = %s; bottom = %s; left = %s }" % tuple(map(length, value))


def size(value):
    if value == "Same":
        return "of_size.Same"
    return variant("size", [value[0], number(value[1])] + [str(den) for den in value[2:]])


def line(value):
    if value[0] == "OfNode":
        return variant("line", ["OfNode", str(value[1]), number(value[2]), str(value[3])])
    return variant("line", [value[0], number(value[1])] + [str(den) for den in value[2:]])


def valign(value):
    return variant("valign", value if isinstance(value, str) else ["Raise", length(value[1])])


def record(members):
    return "record { " + "; ".join(f"{name} = {value}" for name, value in members.items()) + " }"


def style(given):
    s = dict(STYLE, **given)
    return record({
        "display": variant("display", s["display"]), "float": perhaps(s["float"], lambda side: variant("side", side)),
        "clear": variant("clear", s["clear"]), "clips": truth(s["clips"]), "width": length(s["width"]), "min_width": length(s["min_width"]),
        "max_width": perhaps(s["max_width"], length), "height": length(s["height"]), "min_height": length(s["min_height"]),
        "max_height": perhaps(s["max_height"], length), "margin": sides(s["margin"]), "padding": sides(s["padding"]),
        "border": sides(s["border"]), "size": size(s["size"]), "font": s["font"], "line": line(s["line"]), "valign": valign(s["valign"]),
        "align": variant("align", s["align"]), "wraps": truth(s["wraps"])})


def text(value):
    return sequence(str(byte) for byte in value.encode())


def letters(value):
    return sequence(str(ord(letter)) for letter in value)


def font(f):
    return record({"name": text(f["name"]), "upem": f["upem"], "ascent": f["ascent"], "descent": f["descent"], "other": f["other"],
                   "advances": sequence(f"({code}, {advance})" for code, advance in f["advances"])})


def box(given):
    b = dict(BOX, **given)
    return record({
        "kind": variant("kind", b["kind"]), "node": b["node"], "parent": perhaps(b["parent"], str), "kids": sequence(map(str, b["kids"])),
        "chars": text(b["chars"]), "size": perhaps(b["size"], lambda pair: f"({pair[0]}, {pair[1]})"),
        "context": truth(b["context"]), "block_level": truth(b["block_level"])})


def page(tree):
    return f"""abbrev page_boxes : List BoxNode
page_boxes = {sequence(map(box, tree["boxes"]))}

abbrev page_styles : List PlainStyle
page_styles = {sequence(map(style, tree["styles"]))}

abbrev page_fonts : List PlainFont
page_fonts = {sequence(map(font, tree["fonts"]))}

abbrev page : PlainTree
page = record {{ boxes = page_boxes; styles = page_styles; fonts = page_fonts; parents = {sequence(perhaps(p, str) for p in tree["parents"])} }}
"""

# ---- laws: the name of what they unfold is that of every recursion of the definitions


def of_tree(value):
    return f"(ok : TreeKeeps page) → {value}"


def world(case, height=None):
    return f"(record {{ w = {case['w']}; s = {case['s']}; h = {case['height'] if height is None else height} }})"


def law(term, value):
    return f"(ok : TreeKeeps page) → {term} ≡ {value}"


def used_laws(case):
    for given, around, value in case["cases"]:
        yield law(f"used (tree page ok) {world(case)} {length(given)} {number(around)}", number(value))


def font_laws(case):
    for node, *values in case["cases"]:
        for name, value in zip(("font_size", "line_height", "ascent", "descent"), values):
            yield law(f"{name} (tree page ok) {world(case)} {node}", number(value))
    for node, word, value in case["words"]:
        yield law(f"text_width (tree page ok) {world(case)} {node} {letters(word)}", number(value))


TERMS = ("margin_left", "border_left", "padding_left", "content", "padding_right", "border_right", "margin_right")


def width_laws(case):
    for at, around, values in case["cases"]:
        yield law(f"widths (tree page ok) {world(case)} {at} {number(around)}", record(dict(zip(TERMS, map(number, values)))))


def preferred_laws(case):
    for at, least, most in case["cases"]:
        yield law(f"preferred (tree page ok) {world(case)} {at}", record({"least": number(least), "most": number(most)}))


# ---- laws of floats, margins and flow


def float_box(given):
    side, left, top, right, bottom = given
    return record({"side": variant("side", side), "box": quad((left, top, right, bottom))})


def quad(edges):
    return record(dict(zip(("left", "top", "right", "bottom"), map(number, edges))))


def floats(given):
    return sequence(map(float_box, given))


def band(given):
    return record({"left": number(given[0]), "right": number(given[1])})


def numbers(given):
    return sequence(map(number, given))


def place_laws(case):
    size = record({"width": number(case["size"][0]), "height": number(case["size"][1])})
    spot = record({"x": number(case["spot"][0]), "y": number(case["spot"][1])})
    yield f"float_at {floats(case['floats'])} {variant('side', case['side'])} ({size}) ({band(case['cb'])}) {number(case['top'])} ≡ {spot}"


def band_laws(case):
    yield f"band_at {floats(case['floats'])} ({band(case['cb'])}) {number(case['y'])} {number(case['h'])} ≡ {band(case['band'])}"


def bottom_laws(case):
    yield f"lowest_bottom {variant('clear', case['clear'])} {floats(case['floats'])} ≡ {perhaps(case['bottom'], number)}"


def collapsed_laws(case):
    yield f"collapsed {numbers(case['margins'])} ≡ {number(case['value'])}"
    yield f"greatest_from (pos 0) {numbers(case['margins'])} ≡ {number(case['pos'])}"
    yield f"least_from (pos 0) {numbers(case['margins'])} ≡ {number(case['neg'])}"


def lead_laws(case):
    for at, around, past, margins, waiting, end in case["cases"]:
        passed = "none_passed" if past is None else f"(is_up_to {past})"
        lead = f"lead (tree page ok) {world(case)} {passed} ({band((0, around))}) {at}"
        yield law(f"({lead}).margins", numbers(margins))
        yield law(f"map (λ (f : Waiting ℤ). f.at) ({lead}).waiting", sequence(map(str, waiting)))
        yield law(f"({lead}).end", variant("end", [end[0]] + list(map(str, end[1:]))))


def resolve_laws(case):
    page = f"(tree page ok) {world(case)}"
    edge = f"(λ more. {number(case['e'])} +ℤ collapsed ({numbers(case['run'])} ++ more))"
    cleared = "None" if case["cleared"] is None else f"(Some ({case['cleared']}, {number(case['edge'])}))"
    yield law(f"resolve (tree page ok) {world(case)} (waiting_size {page} (flow {page})) {edge} ({band(case['cb'])}) {floats(case['floats'])} {perhaps(case['least'], number)} {case['b']} none_passed",
              record({"margins": numbers(case["lead"]), "cleared": cleared}))


def placed(given):
    return record({"kind": variant("kind", given[0]), "node": given[1], "margin": quad(given[2:6]), "border": quad(given[6:10]),
                   "padding": quad(given[10:14]), "content": quad(given[14:18])})


def render_laws(case):
    for at in case["worlds"]:
        yield law(f"page_rendering (tree page ok) {world(at, case['height'])}", record({"boxes": sequence(map(placed, at["boxes"]))}))
# ---- box trees of pages


def nodes_of(page):
    """The nodes in document order: the number of the parent, the element, or the text."""
    found = []

    def walk(node, parent):
        at = len(found)
        found.append((parent, node))
        for child in [] if isinstance(node, str) else node.get("children", []):
            walk(child, at)

    walk(page, None)
    return found


def body(node):
    if isinstance(node, str):
        return f"of_body.Chars {text(node)}"
    attrs = sequence(record({"name": text(name.lower()), "value": text(value)}) for name, value in node.get("attrs", {}).items())
    size_of = perhaps(node.get("size"), lambda pair: f"({pair[0]}, {pair[1]})")
    return f"of_body.Element ({record({'tag': text(node['tag'].lower()), 'attrs': attrs, 'size': size_of})})"


def square(name):
    return {"name": name, "upem": 1000, "ascent": 800, "descent": 200, "other": 500, "advances": []}


def document(case):
    given = case["styles"] if "styles" in case else refused_styles.styles_of(case["page"], case["css"])
    nodes = sequence(record({"parent": perhaps(parent, str), "body": body(node)}) for parent, node in nodes_of(case["page"]))
    return f"""abbrev page_nodes : List Node
page_nodes = {nodes}

abbrev page_styles : List PlainStyle
page_styles = {sequence(map(style, given))}

abbrev page_fonts : List PlainFont
page_fonts = {sequence(font(square(name)) for name in case["fonts"])}
"""


REFUSALS = {"BlockInInline": "block_in_inline", "RightToLeft": "right_to_left", "TooManyBoxes": "too_many_boxes", "Reach": "reach"}


def box_laws(case):
    for_all = "(ok : StylesKeep page_styles × FontsKeep page_fonts) →"
    name, *numbers = case.get("fault", "none").split()
    refusal = "None" if name == "none" else f"Some ({' '.join(['BoxRefusal.' + REFUSALS[name]] + numbers)})"
    yield f"{for_all} page_refusal page_nodes (styles page_styles ok.0) (fonts page_fonts ok.1) ≡ {refusal}"
    if "boxes" in case:
        yield f"{for_all} page_boxes page_nodes (styles page_styles ok.0) ≡ {sequence(map(box, case['boxes']))}"
        yield f"{for_all} tree_styles page_nodes (styles page_styles ok.0) ≡ styles page_styles ok.0"


# the laws of a case, and the definitions that they name, by module
CALLS = {
    "used": (used_laws, {"Lengths": ["used"]}),
    "fonts": (font_laws, {"Fonts": ["font_size", "line_height", "ascent", "descent", "text_width"]}),
    "widths": (width_laws, {"Horizontal": ["widths"]}),
    "preferred": (preferred_laws, {"Preferred": ["preferred"]}),
    "float_at": (place_laws, {"Floats": ["float_at"]}),
    "band": (band_laws, {"Floats": ["band_at"]}),
    "bottom": (bottom_laws, {"Floats": ["lowest_bottom"]}),
    "collapsed": (collapsed_laws, {"Margins": ["collapsed"], "Extremes": ["greatest_from", "least_from"]}),
    "lead": (lead_laws, {"Leads": ["lead", "none_passed", "is_up_to"]}),
    "resolve": (resolve_laws, {"Clearance": ["resolve"], "Flow": ["flow", "waiting_size"], "Leads": ["none_passed"], "Margins": ["collapsed"]}),
    "render": (render_laws, {"Page": ["page_rendering"]}),
    "boxes": (box_laws, {"BoxTrees": ["page_boxes", "tree_styles"], "Refusals": ["page_refusal", "BoxRefusal"]}),
}

HEAD = """use Rattle.std.proofs.Common.{◌≡◌, ℕ, ℤ, pos, negsuc, ◌+ℤ◌, List, [], ◌∷◌, ◌++◌, map, Option, Some, None, refl, true, false}
use Rattle.std.specs.Str.{chars}
use Rattle.viz_base.specs.declared.lengths.Length.TheVariants as of_length
use Rattle.viz_base.specs.declared.lengths.LineHeight.TheVariants as of_line
use Rattle.viz_base.specs.declared.lengths.Size.TheVariants as of_size
use Rattle.viz_base.specs.declared.lengths.Valign.TheVariants as of_valign
use Rattle.viz_base.specs.declared.styles.Display.TheVariants as of_display
use Rattle.viz_base.specs.declared.styles.Clear.TheVariants as of_clear
use Rattle.viz_base.specs.declared.styles.Align.TheVariants as of_align
use Rattle.viz_base.specs.declared.styles.Side.TheVariants as of_side
use Rattle.viz_base.specs.declared.trees.Kind.TheVariants as of_kind
use Rattle.viz_base.specs.declared.layouts.LeadEnd.TheVariants as of_end
use Rattle.viz_base.specs.declared.layouts.Waiting.{Waiting}
use Rattle.viz_base.specs.declared.trees.BoxNode.{BoxNode}
use Rattle.viz_base.specs.declared.nodes.Body.TheVariants as of_body
use Rattle.viz_base.specs.declared.nodes.Node.{Node}
use Rattle.viz_base.specs.declared.worlds.World.{World}
use Rattle.layout_semantics.specs.PlainPages.{PlainStyle, PlainFont, PlainTree, TreeKeeps, StylesKeep, FontsKeep, tree, styles, fonts}
"""

SOURCE = """//! Cases of layout.
#![tactic(auto)]

ghost use Rattle.std.specs.Prelude.{◌≡◌};

/// Its argument.
pub fn same(x: usize) -> usize
    ensures { result ≡ x }
{
    x
}
"""


def recursions():
    """The recursions of the definitions, by module: a law unfolds them all."""
    found = {}
    for path in sorted((TOP / "crates/layout_semantics/specs").glob("*.antt")):
        names = re.findall(r"^\s*unfoldable pub (\S+) :", path.read_text(encoding="utf-8"), re.M)
        if names:
            found[path.stem] = names
    return found


def case_file(case, laws, named):
    unfolded = recursions()
    uses = {module: list(names) for module, names in named.items()}
    for module, names in unfolded.items():
        uses.setdefault(module, []).extend(name for name in names if name not in uses.get(module, []))
    out = [HEAD + "".join(f"use Rattle.layout_semantics.specs.{module}.{{{', '.join(names)}}}\n" for module, names in uses.items())]
    if "tree" in case:
        out.append(page(case["tree"]))
    if "page" in case:
        out.append(document(case))
    every = " ".join(["chars", "lib.Utf8.encode"] + [name for names in unfolded.values() for name in names])
    for at, statement in enumerate(laws):
        out.append(f"case{at} : {statement}\nunfolding {every}\ncase{at}{' ok' if statement.startswith('(ok') else ''} = refl\n")
    return "\n".join(out)


def make_scratch(scratch):
    for name in ("viz_base", "layout_semantics"):
        target = scratch / "crates" / name
        target.mkdir(parents=True, exist_ok=True)
        for part in ("src", "specs", "proofs"):
            if (target / part).exists():
                shutil.rmtree(target / part)
            if (TOP / "crates" / name / part).exists():
                shutil.copytree(TOP / "crates" / name / part, target / part)
    (scratch / "crates/vectors/src").mkdir(parents=True, exist_ok=True)
    (scratch / "crates/vectors/src/lib.rt").write_text(SOURCE)
    (scratch / "crates.txt").write_text("viz_base: thiserror\nlayout_semantics: viz_base\nvectors: viz_base layout_semantics\n")
    if not (scratch / ".git").exists():
        subprocess.run(["git", "init", "-q", str(scratch)], check=True)


def run_batch(scratch, batch):
    """Checks the laws of some lines; gives the places of the lines that do not agree, with what the check says."""
    proofs = scratch / "crates/vectors/proofs"
    if proofs.exists():
        shutil.rmtree(proofs)
    proofs.mkdir(parents=True)
    for at, case in batch:
        make, named = CALLS[case["call"]]
        (proofs / f"Line{at}.antt").write_text(case_file(case, list(make(case)), named))
    (proofs / "Lib.antt").write_text("".join(f"pub mod Line{at}\n" for at, _ in batch))
    run = subprocess.run(["rt", "check"], cwd=scratch / "crates/vectors", capture_output=True, text=True)
    said = run.stdout + run.stderr
    wrong = {}
    for at, place, what in re.findall(r"Line(\d+)\.antt:(\d+(?::\d+)?): (.*)", said):
        wrong.setdefault(int(at), []).append(f"{place}: {what[:300]}")
    if run.returncode != 0 and not wrong:
        sys.exit(said)
    return wrong


def main():
    words = argparse.ArgumentParser()
    words.add_argument("vectors", type=pathlib.Path)
    words.add_argument("scratch", type=pathlib.Path)
    words.add_argument("--file", default="functions.jsonl")
    words.add_argument("--call", nargs="*")
    words.add_argument("--from", type=int, default=0, dest="first")
    words.add_argument("--to", type=int, default=10**9)
    words.add_argument("--batch", type=int, default=20)
    given = words.parse_args()
    make_scratch(given.scratch)
    cases = []
    for at, told in enumerate((given.vectors / given.file).read_text().splitlines()):
        case = json.loads(told)
        case.setdefault("call", "boxes" if "page" in case else "render")
        if case["call"] in (given.call or CALLS) and given.first <= at < given.to:
            cases.append((at, case))
    agree = 0
    for start in range(0, len(cases), given.batch):
        batch = cases[start:start + given.batch]
        wrong = run_batch(given.scratch, batch)
        for at, case in batch:
            if at in wrong:
                print(f"{given.file} {at} {case['call']}: DIFFERS", *wrong[at][:3], sep="\n    ")
        agree += sum(at not in wrong for at, _ in batch)
        print(f"{given.file}: {agree} of {start + len(batch)} lines agree", flush=True)
    sys.exit(0 if agree == len(cases) else 1)


main()
