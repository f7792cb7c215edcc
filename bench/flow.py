#!/usr/bin/env python3
"""Measures the layout of pages with text, floats and inline-blocks: worlds a second of `vizlog prove`, and the time of `vizlog lay`.

- a page of 40 boxes with text, floats and inline-blocks, at 4,096 and 16,384 worlds: growth at most linear within noise (below 5);
- mixed elements with words: 512 and 4,096 elements, 125 and 1,000 words: below 32, since each block container with lines has a table
  as long as the page;
- 29 and 58 floats, each in the one before, as deep as a page may be: at most the square within noise (below 8);
- 100 and 400 floats of one block formatting context: at most the square of the count within noise (below 32);
- a paragraph of 512 and 4,096 words: at most linear within noise (below 10);
- 500 and 2,000 floats, each before a paragraph of no height with `clear`, whose margins all adjoin, where the floats have no height and
  where they all stay open, the margins being the same, each more than all before, and each less: at most the square of the count
  within noise (below 32), since each float is tried once beside those before it, at whatever edge.

Run it at the top: bench/flow.py [PROGRAM]
"""
import json
import os
import pathlib
import sys
import tempfile

from programs import TOP, measure

RUNS = 5
SQUARE = {"name": "Square", "upem": 1000, "ascent": 800, "descent": 200, "default": 500}
WORDS = ("one", "words", "of", "a", "paragraph", "that", "is", "broken", "into", "lines")


def element(tag, style, children=()):
    made = {"tag": tag, "attrs": {"style": style}}
    if children:
        made["children"] = list(children)
    return made


def words(count):
    return " ".join(WORDS[at % len(WORDS)] for at in range(count))


def job(page, widths=(320, 320)):
    return {"vizlog": 1, "widths": list(widths), "sizes": [16, 16], "height": 600, "fonts": [SQUARE], "css": ["body{margin:0}"],
            "page": {"tag": "html", "children": [{"tag": "body", "children": page}]}, "assert": "forall b in block: b.left >= 0"}


def forty_boxes():
    """Five sections with a heading, a float, a paragraph with an inline box and a menu of inline-blocks: some 40 boxes."""
    links = [element("b", "display:inline-block;padding:0 4px", ["Link"]), " "]
    return [element("div", "margin:1em 5%", [
        element("div", "float:left;width:30%;height:30px;margin-right:8px"),
        {"tag": "p", "children": [words(8) + " ", {"tag": "em", "children": [words(3)]}]},
        element("div", "", links) if at == 0 else element("div", "clear:both;height:4px")]) for at in range(5)]


def mixed(elements, count):
    """Sections of eight elements each: a float, a paragraph with an inline box, an inline-block, an image and blocks."""
    sections, share = [], round(count * 8 / elements)
    for at in range((elements - 2) // 8):
        sections.append(element("div", "margin:4px 0;overflow:hidden" if at % 4 == 0 else "margin:4px 0", [
            element("div", "float:left;width:20%;height:20px"),
            {"tag": "p", "children": [words(share) + " ", {"tag": "em", "children": ["x"]}]},
            element("div", "clear:left;height:3px"),
            {"tag": "p", "children": [element("b", "display:inline-block;width:30px;height:8px"), {"tag": "img", "size": [16, 16]}]}]))
    return sections


def nested_floats(count):
    made = [words(4)]
    for at in range(count):
        made = [element("div", f"float:{'left' if at % 2 else 'right'};padding:1px", made)]
    return made


def many_floats(count):
    sides = ("left", "right", "left", "left", "right")
    return [element("div", f"float:{sides[at % 5]};width:{20 + at * 37 % 90}px;height:{10 + at * 53 % 70}px") for at in range(count)]


def waiting_floats(count, style="float:left;height:0", margins=lambda at: 1):
    return [made for at in range(count) for made in (element("div", style), element("p", f"margin:{margins(at)}px 0;clear:left"))]


def paragraph(count):
    return [{"tag": "p", "children": [words(count)]}]


class Pages:
    """Runs the program on job files in a folder."""

    def __init__(self, program, folder):
        self.program, self.file, self.cert = program, os.path.join(folder, "job.json"), os.path.join(folder, "job.cert")

    def lay(self, page):
        pathlib.Path(self.file).write_text(json.dumps(job(page)), encoding="utf-8")
        return measure([self.program, "lay", self.file, "320", "16"], RUNS)

    def prove(self, page, worlds):
        pathlib.Path(self.file).write_text(json.dumps(job(page, (1, worlds))), encoding="utf-8")
        return measure([self.program, "prove", self.file, str(2 * worlds)], RUNS)


def growth(told, sizes, times, most):
    ratio = times[-1] / times[0]
    shown = ", ".join(f"{time * 1000:8.1f}" for time in times)
    print(f"{told:16} {shown} ms for {sizes}, growth {ratio:5.2f}")
    assert ratio < most, f"{told}: it grows by {ratio}"


def main():
    program = sys.argv[1] if len(sys.argv) > 1 else str(TOP / "crates/vizlog/out/vizlog")
    with tempfile.TemporaryDirectory() as folder:
        pages = Pages(program, folder)
        worlds = (4096, 16384)
        times = [pages.prove(forty_boxes(), count) for count in worlds]
        print(f"40 boxes: {worlds[-1] / times[-1]:.0f} worlds a second")
        growth("40 boxes", worlds, times, 5)
        sizes = ((512, 125), (4096, 1000))
        growth("mixed elements", sizes, [pages.lay(mixed(*size)) for size in sizes], 32)
        counts = (29, 58)
        growth("nested floats", counts, [pages.lay(nested_floats(count)) for count in counts], 8)
        counts = (100, 400)
        growth("floats", counts, [pages.lay(many_floats(count)) for count in counts], 32)
        counts = (512, 4096)
        growth("words", counts, [pages.lay(paragraph(count)) for count in counts], 10)
        counts = (500, 2000)
        growth("waiting floats", counts, [pages.lay(waiting_floats(count)) for count in counts], 32)
        still_open = "float:right;width:0;height:9px"
        growth("open ones", counts, [pages.lay(waiting_floats(count, still_open)) for count in counts], 32)
        for told, margins in (("growing margins", lambda at: at), ("falling margins", lambda at: -at)):
            growth(told, counts, [pages.lay(waiting_floats(count, still_open, margins)) for count in counts], 32)


main()
