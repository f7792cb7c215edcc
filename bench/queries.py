#!/usr/bin/env python3
"""Measures pages with width queries, as ratios of processor times in one run.

- `lay` of a page with a sheet of as many rules as bootstrap 4's grid sheet, under its four conditions and under six, by the time with the
  same rules without their conditions: to be below 2 at each width.
- `check` of a text that is no certificate, of a page of 2,000 elements and a sheet of 1,000 rules, over ranges of 1, 2, 4, 8 and 12 parts:
  what a part adds is to be the same within a half, so that the sheets are read once.
- `prove` of a page of two columns below 768 px and three from there on, by the words of a column: the least turns that do are to be no more
  than those of the page of two columns below and of the page of three above together, and 4 for the cut. What the certificates of both parts
  have in leaves and grids, each over the whole range, stands beside that.

Run it at the top: bench/queries.py [PROGRAM]
"""
import json
import os
import pathlib
import subprocess
import sys
import tempfile

from programs import BUILT, Search, measure, run

SQUARE = {"name": "Square", "upem": 1000, "ascent": 800, "descent": 200, "default": 500}
TIERS = {"sm": 576, "md": 768, "lg": 992, "xl": 1200}
MORE_TIERS = {"xs": 420, **TIERS, "xxl": 1400}
PARTS = (1, 2, 4, 8, 12)
RUNS = 7


def div(name, *children):
    return {"tag": "div", "attrs": {"class": name}, "children": [*children]}


def job_of(sheet, page, widths=(320, 1920), sizes=(16, 16), assertion="true"):
    return json.dumps({"vizlog": 1, "widths": widths, "sizes": sizes, "height": 800, "fonts": [SQUARE], "css": [sheet],
                       "page": {"tag": "html", "children": [{"tag": "body", "children": page}]}, "assert": assertion})


# ---- a sheet like bootstrap 4's grid

def tier_rules(infix):
    """The rules of a tier: columns, their order and offsets, margins and paddings, as many as bootstrap's."""
    yield from (f".col{infix}{{width:100%}}", f".col{infix}-auto{{width:auto;max-width:100%}}")
    yield from (f".row-cols{infix}-{many}>*{{width:{100 / many:.6f}%}}" for many in range(1, 7))
    for many in range(1, 13):
        yield f".col{infix}-{many}{{width:{100 * many / 12:.6f}%;max-width:{100 * many / 12:.6f}%}}"
        yield f".offset{infix}-{many - 1}{{margin-left:{100 * (many - 1) / 12:.6f}%}}"
    yield from (f".order{infix}-{it}{{-ms-flex-order:{it};order:{it}}}" for it in ("first", "last", *range(13)))
    yield from (f".d{infix}-{it}{{display:{it}}}" for it in ("none", "inline", "inline-block", "block", "flex", "inline-flex", "grid"))
    yield from (f".{it}{infix}-{many}{{flex:{many}}}" for it in ("flex", "justify", "align", "self") for many in range(6))
    lengths = {"0": "0", "1": ".25em", "2": ".5em", "3": "1em", "4": "1.5em", "5": "3em"}
    below = {f"n{size}": f"-{length}" for size, length in lengths.items() if size != "0"}
    for name, word, sizes in (("m", "margin", {**lengths, **below, "auto": "auto"}), ("p", "padding", lengths)):
        for size, length in sizes.items():
            yield f".{name}{infix}-{size}{{{word}:{length}}}"
            for one, other, side in (("t", "y", "top"), ("r", "x", "right"), ("b", "y", "bottom"), ("l", "x", "left")):
                yield f".{name}{one}{infix}-{size},.{name}{other}{infix}-{size}{{{word}-{side}:{length}}}"


def grid_sheet(tiers, is_under):
    """The sheet, its tiers under their conditions or without them."""
    parts = ["body{margin:0} *{padding:0} .container{width:100%;margin:0 auto} .row:after{content:'';display:block;clear:both}",
             ".row>div{float:left}", "".join(tier_rules(""))]
    for name, width in tiers.items():
        rules = f".container{{max-width:{width - 36}px}}" + "".join(tier_rules(f"-{name}"))
        parts.append(f"@media (min-width:{width}px){{{rules}}}" if is_under else rules)
    return "".join(parts)


def grid_page():
    classes = ("col-12 col-sm-6 col-lg-4 mb-3", "col-12 col-sm-6 col-lg-4 px-2", "col-12 col-md-12 col-lg-4 p-md-3 mt-xl-2")
    rows = [div("row", *(div(it, {"tag": "p", "children": ["aaaa bbbb cc ddd"]}) for it in classes)) for _ in range(60)]
    return [div("container", *rows)]


class Bench:
    """A program, and a folder for its files."""

    def __init__(self, program, folder):
        self.program, self.folder, self.missed = os.path.abspath(program), folder, []

    def file(self, name, text):
        made = os.path.join(self.folder, name)
        pathlib.Path(made).write_text(text, encoding="utf-8")
        return made

    def hold(self, holds, told):
        print(told, flush=True)
        if not holds:
            self.missed.append(told)


def laying(bench):
    for tiers in (TIERS, MORE_TIERS):
        plain, under = (grid_sheet(tiers, it) for it in (False, True))
        files = [bench.file(f"{at}.json", job_of(it, grid_page())) for at, it in enumerate((plain, under))]
        for width in (320, 800, 1920):
            without, with_them = (measure([bench.program, "lay", it, str(width), "16"], RUNS) for it in files)
            bench.hold(with_them < 2 * without, f"lay at {width} px, {under.count('{') - len(tiers)} rules, {len(tiers)} conditions: "
                                                f"{1000 * with_them:.1f} ms, {with_them / without:.2f} times that without them")


def refused_seconds(bench, job, certificate):
    """The least processor time of a check that ends at the head of the certificate, whose job is built before."""
    said, best = os.path.join(bench.folder, "said"), None
    for _ in range(RUNS):
        status, took = run([bench.program, "check", job, certificate], said)
        assert (status, pathlib.Path(said).read_bytes()) == (8, b"rejected grammar 12\n"), "no refusal of the certificate"
        best = took if best is None else min(best, took)
    return best


def building(bench):
    rules = "".join(f".c{at}{{margin:{at}px;padding:1px}}" for at in range(1000))
    sheet = rules + "".join(f"@media (min-width:{1000 + at}px){{.c{at}{{height:{at}px}}}}" for at in range(11))
    page = [div("row", *(div(f"c{at % 1000}") for at in range(2000)))]
    certificate = bench.file("certificate", "vizlog-cert 3\n")
    times = {}
    for many in PARTS:
        job = bench.file(f"parts-{many}.json", job_of(sheet, page, [320, 999 + many - 1]))
        times[many] = refused_seconds(bench, job, certificate)
        print(f"check of no certificate, {many} parts: {1000 * times[many]:.1f} ms", flush=True)
    each = [(times[most] - times[1]) / (most - 1) for most in PARTS[2:]]
    bench.hold(max(each) <= 1.5 * min(each), "what a part adds, in ms: " + ", ".join(f"{1000 * it:.2f}" for it in each)
               + f"; 12 parts take {times[12] / times[1]:.1f} times as long as one")


# ---- columns

WORDS = ("aaaa", "bb", "ccccc", "ddd")
TWO, THREE = ".column{float:left;width:44%;margin:1% 3%}", ".column{float:left;width:29.3%;margin:1% 2%}"
COLUMNS = "body{margin:0} p{margin:1em 0} .row:after{content:'';display:block;clear:both}"
RULE = 'forall a in ".column": forall b in ".column": same(a, b) or not overlap(a, b)'


def columns(bench, name, sheet, widths, words):
    text = " ".join(WORDS[at % 4] for at in range(words))
    page = [div("row", *(div("column", {"tag": "h2", "children": ["Aa"]}, {"tag": "p", "children": [text]}) for _ in range(6)))]
    found = Search(bench.program, bench.file("columns.json", job_of(COLUMNS + sheet, page, widths, [12, 24], RULE)), bench.folder, range(1, 200))
    print(f"{name}: {found.told()}", flush=True)
    assert found.accepted, f"no certificate of {name}"
    return found


def proving(bench):
    for words in (4, 8, 16):
        two = columns(bench, "two columns, 320 to 767 px", TWO, [320, 767], words)
        three = columns(bench, "three columns, 768 to 1,920 px", THREE, [768, 1920], words)
        both = columns(bench, "two below 768 px, three above", f"{TWO}@media (min-width:768px){{{THREE}}}", [320, 1920], words)
        turns = two.turns + three.turns
        told = f"columns of {words} words: {both.turns} turns under the query, {turns} of both pages by themselves"
        bench.hold(both.turns <= turns + 4, f"{told}; leaves and grids {sum(both.parts)}, {sum(two.parts) + sum(three.parts)}")


def main():
    with tempfile.TemporaryDirectory() as folder:
        bench = Bench(sys.argv[1] if len(sys.argv) > 1 else BUILT, folder)
        subprocess.run([bench.program], stdout=subprocess.DEVNULL)
        for measured in (laying, building, proving):
            measured(bench)
        assert not bench.missed, "missed: " + "; ".join(bench.missed)


main()
