#!/usr/bin/env python3
"""Measures the search over a range of heights: turns, leaves, grids, the certificate's bytes, and processor seconds of `prove` and `check`.

- Pages of `examples/pages` on which nothing depends on the viewport's height, at 400 px and over 400 to 600 px: over the heights there
  are to be as many leaves, and a certificate less than 1.3 times as long.
- A page as high as the viewport, whose header of 20 % is to end above the middle of the viewport, and whose column is at least as high as
  the page and has no, one or two paragraphs: over 320 to 1,920 px by 12 to 24 px by 400 to 600 px (4,183,413 worlds), in 64 turns.

The turns are the least that decide, for the pages of 100 %, whose names have the words of each paragraph, the least power of 2. Run it at
the top: bench/heights.py [PROGRAM]
"""
import json
import os
import pathlib
import sys
import tempfile

from programs import BUILT, TOP, Search, tell_ratios

PAGES = ("gallery", "cards", "form", "nav")
PARAGRAPHS = ((), (12,), (12, 36))
LOW, HIGH = 400, 600
SQUARE = {"name": "Square", "upem": 1000, "ascent": 800, "descent": 200, "default": 500}
SHEET = "html,body{height:100%} body{margin:0} .top{height:20%} .column{min-height:100%} p{margin:1em}"


def div(name, *children):
    return {"tag": "div", "attrs": {"class": name}, "children": [*children]}


def page_of(words):
    """A page of 100 % with a paragraph in its column for each of these numbers of words."""
    column = div("column", *({"tag": "p", "children": ["aaaa " * count]} for count in words))
    return {"widths": [320, 1920], "sizes": [12, 24], "fonts": [SQUARE], "css": [SHEET],
            "page": {"tag": "html", "children": [{"tag": "body", "children": [div("top", "aaaa"), column]}]},
            "assert": 'forall b in ".top": 2 * b.bottom <= view.height'}


def over(job, high):
    """The job from the least height to this one, of form 1 where that is one height."""
    bare = {name: value for name, value in job.items() if name not in ("vizlog", "height", "heights")}
    return {"vizlog": 1, "height": LOW, **bare} if high == LOW else {"vizlog": 2, "heights": [LOW, high], **bare}


class Bench:
    """A program, and a folder for jobs and certificates."""

    def __init__(self, program, folder):
        self.program, self.folder = program, folder

    def search(self, told, job, high, turns):
        file = os.path.join(self.folder, "job.json")
        pathlib.Path(file).write_text(json.dumps(over(job, high)), encoding="utf-8")
        found = Search(self.program, file, self.folder, turns)
        print(f"{told:11} {LOW} to {high} px: {found.told()}", flush=True)
        assert found.accepted, f"no certificate of {told}"
        return found


def main():
    with tempfile.TemporaryDirectory() as folder:
        bench = Bench(sys.argv[1] if len(sys.argv) > 1 else BUILT, folder)
        missed = []
        for name in PAGES:
            job = json.loads((TOP / f"examples/pages/{name}.json").read_text(encoding="utf-8"))
            flat, tall = (bench.search(name, job, high, range(1, 65)) for high in (LOW, HIGH))
            tell_ratios(name, (tall, flat))
            if tall.parts != flat.parts or tall.size >= 1.3 * flat.size:
                missed.append(name)
        for words in PARAGRAPHS:
            told = "100 %" + "".join(f" {count}" for count in words)
            bench.search(told, page_of(words), HIGH, (1, 2, 4, 8, 16, 32, 64))
        assert not missed, f"more leaves or a longer certificate over heights: {', '.join(missed)}"


main()
