#!/usr/bin/env python3
"""Measures `css_syntax::read_sheet` on texts of 128 KiB to 1 MiB: processor time, and its growth.

An ordinary sheet, and the texts that are worst for a reader of tokens and brackets; each is a case of the program `test_cases`, so the time
includes that of reading a line of JSON. The growth from 128 KiB to 1 MiB is to be linear within noise (a ratio of times below 16, where
the longer takes at least 20 ms). Run it at the top: bench/sheets.py
"""
import json

from programs import answers, measure

TEXTS = [("", "p{margin:0 auto}\n"), ("", "p{a:b}@media print{q{c:d}}\n"), ("", "("), ("", "{"), ("", "/*"), ("", "\\"),
         ('"', "a"), ("", "url("), ("", "u+"), ("", "a;"), ("p{", "a:b;"), ("p{", "a:(b "), ("@media ", "print,")]
SIZES = (1 << 17, 1 << 18, 1 << 19, 1 << 20)
RUNS = 7


def main():
    for head, part in TEXTS:
        cases = [json.dumps(["sheets", head + part * (size // len(part))]) + "\n" for size in SIZES]
        times = [measure(answers(), RUNS, case) for case in cases]
        ratio = times[-1] / times[0]
        shown = ", ".join(f"{time * 1000:7.1f}" for time in times)
        print(f"{head + part + '..'!r:40} {shown} ms, growth {ratio:5.2f}")
        assert ratio < 16 or times[-1] < 0.02, "more than linear growth"


main()
