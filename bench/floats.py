#!/usr/bin/env python3
"""Measures `lay_float`: processor time, by the number of floats of one block formatting context.

The floats are placed one after the other: in rows of four, in one column, of changing sizes on both sides, and as stairs, each less
high than the one before, with one as wide as all of them below. Each is a case of the program `test_layout`, so the time includes that
of reading and writing a line. Then a page of as many floats as it may have, in rows of ten, is laid out by `vizlog lay`.
A float looks at the last one's top and at the floats from the first one on that had not ended there, a bounded number of times at each
top that it tries, of which there are few. So in rows the time is to grow with the count, within noise by less than 2.6 from a count to the
next; as stairs all are open, and it may grow with the square, from 250 floats to 1,000 by at most 16 within noise (a ratio of times below
32). Run it at the top: bench/floats.py
"""
import json
import pathlib
import sys
import tempfile

from programs import TOP, measure

PROGRAM = TOP / "crates/test_layout/out/test_layout"
VIZLOG = TOP / "crates/vizlog/out/vizlog"
SIZES = (250, 500, 1000)
PAGES = (512, 1024, 2048, 4094)
RUNS = 5


def rows(count):
    return [["Left", [1000, 640], [0, 4000], 0] for _ in range(count)]


def column(count):
    return [["Left", [4000, 640], [0, 4000], 0] for _ in range(count)]


def mixed(count):
    sides = ("Left", "Right", "Left", "Left", "Right")
    return [[sides[at % 5], [200 + at * 37 % 900, 100 + at * 53 % 700], [0, 4000], 0] for at in range(count)]


def stairs(count):
    return [["Left", [4, 64 * (count - at)], [0, 4 * count], 0] for at in range(count - 1)] + [["Left", [4 * count, 64], [0, 4 * count], 0]]


def page(count):
    """A page of floats in rows of ten."""
    floats = [{"tag": "div", "attrs": {"style": "float:left;width:10%;height:20px"}} for _ in range(count)]
    return {"vizlog": 1, "widths": [320, 320], "sizes": [16, 16], "height": 600,
            "fonts": [{"name": "Square", "upem": 1000, "ascent": 800, "descent": 200, "default": 500}],
            "page": {"tag": "html", "children": [{"tag": "body", "children": floats}]}, "assert": "true"}


def pages():
    """The growth of `lay` on such pages, from a count to the next, about twice as large."""
    before = None
    with tempfile.TemporaryDirectory() as folder:
        for count in PAGES:
            job = pathlib.Path(folder, "page.json")
            job.write_text(json.dumps(page(count)), encoding="utf-8")
            time = measure([str(VIZLOG), "lay", str(job), "320", "16"], RUNS)
            growth = "" if before is None else f", growth {time / before:5.2f}"
            print(f"lay, {count:5} floats in rows {time * 1000:8.1f} ms{growth}")
            assert before is None or time / before < 2.6, "more than the count and its logarithm"
            before = time


def main():
    for program in (PROGRAM, VIZLOG):
        if not program.exists():
            sys.exit(f"{program.relative_to(TOP)} is not there: run .ci/run, or 'rt run' in its crate")
    for floats in (rows, column, mixed, stairs):
        times = [measure([str(PROGRAM)], RUNS, json.dumps(["floats", floats(size)]) + "\n") for size in SIZES]
        ratio = times[-1] / times[0]
        shown = ", ".join(f"{time * 1000:8.1f}" for time in times)
        print(f"{floats.__name__:8} {shown} ms for {SIZES} floats, growth {ratio:5.2f}")
        assert ratio < 32, "more than the square of the count"
    pages()


main()
