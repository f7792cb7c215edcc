#!/usr/bin/env python3
"""Measures `vizlog lay` on pages of nested and stacked blocks: processor time and peak memory, by the number of elements.

The growth from 512 to 4,096 elements is to be at most linear within noise (a ratio of times below 10),
and the peak memory below 200 MB. Run it at the top: bench/lay.py
"""
import json
import os
import pathlib
import subprocess
import tempfile

TOP = pathlib.Path(__file__).resolve().parent.parent
SIZES = (512, 1024, 2048, 4096)
RUNS = 40
DEPTH = 58


def element(height, children=()):
    made = {"tag": "div", "attrs": {"style": f"height:{height}px"}}
    if children:
        made["children"] = list(children)
    return made


def page(count):
    """A root that holds chains, one below the other, each nested as deep as a page may be."""
    chains, left = [], count - 1
    while left > 0:
        depth = min(DEPTH, left)
        chain = None
        for level in range(depth):
            chain = element(level + 1, [chain] if chain else [])
        chains.append(chain)
        left -= depth
    return element(1000, chains)


def job(count):
    return {"vizlog": 1, "widths": [320, 320], "sizes": [16, 16], "height": 600,
            "fonts": [{"name": "Square", "upem": 1000, "ascent": 800, "descent": 200, "default": 500}],
            "page": page(count), "assert": "true"}


def measure(program, path):
    """The least processor time of some runs, in seconds, and the peak in MB."""
    best, peak = None, 0
    for _ in range(RUNS):
        child = subprocess.Popen([str(program), "lay", path, "320", "16"], stdout=subprocess.DEVNULL)
        _, status, usage = os.wait4(child.pid, 0)
        took = usage.ru_utime + usage.ru_stime
        assert os.waitstatus_to_exitcode(status) == 0, "lay did not end with 0"
        best = took if best is None else min(best, took)
        peak = max(peak, usage.ru_maxrss / 1024)
    return best, peak


def main():
    subprocess.run([str(TOP / "vizlog")], stdout=subprocess.DEVNULL)
    program = TOP / "crates/vizlog/out/vizlog"
    times = {}
    with tempfile.TemporaryDirectory() as folder:
        for count in SIZES:
            path = os.path.join(folder, f"{count}.json")
            with open(path, "w") as out:
                json.dump(job(count), out)
            times[count], peak = measure(program, path)
            print(f"{count:5} elements: {times[count] * 1000:8.2f} ms, peak {peak:6.1f} MB")
            assert peak < 200, "the peak passes 200 MB"
    ratio = times[4096] / times[512]
    print(f"growth from 512 to 4,096 elements: {ratio:.2f}")
    assert ratio < 10, "more than linear growth"


main()
