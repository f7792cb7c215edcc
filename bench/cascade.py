#!/usr/bin/env python3
"""Measures `css_cascade::cascade`: processor time, by the number of rules and of nodes.

A sheet repeats one rule over a page of an element with children of one class, and either each rule applies to each of them or none
does; each is a case of the program `test_cases`, so the time includes that of reading and writing a line. A node looks at the rules that
may match it, so the time may grow with their product: from 250 rules on 250 nodes to 1,000 on 1,000 by at most 16 within noise (a
ratio of times below 32). Run it at the top: bench/cascade.py
"""
import json

from programs import answers, measure

RULES = {"each rule applies": ".a{margin:0 auto}\n", "no rule applies": "p .b>q{margin:0 auto}\n"}
SIZES = (250, 500, 1000)
RUNS = 5


def job(size):
    """A job whose page has so many elements."""
    element = {"tag": "div", "attrs": {"class": "a"}}
    return {"vizlog": 1, "widths": [320, 320], "sizes": [16, 16], "height": 600,
            "fonts": [{"name": "Square", "upem": 1000, "ascent": 800, "descent": 200, "default": 500}],
            "page": {**element, "children": [element] * (size - 1)}, "assert": "true"}


def case(rule, size):
    return json.dumps(["cascade", json.dumps(job(size)), [rule * size]]) + "\n"


def main():
    for told, rule in RULES.items():
        times = [measure(answers(), RUNS, case(rule, size)) for size in SIZES]
        ratio = times[-1] / times[0]
        shown = ", ".join(f"{time * 1000:8.1f}" for time in times)
        print(f"{told:20} {shown} ms for {SIZES} rules on as many nodes, growth {ratio:5.2f}")
        assert ratio < 32, "more than the product of rules and nodes"


main()
