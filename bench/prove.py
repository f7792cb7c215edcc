#!/usr/bin/env python3
"""Measures `vizlog prove` and `vizlog check`: worlds a second, and the growth with the number of worlds.

Pages of 3 and of 100 boxes, over 4,096, 8,192 and 16,384 worlds. The growth from 4,096 to 16,384 worlds is to be at most
linear within noise (a ratio of times below 5). Run it at the top: bench/prove.py
"""
import json
import os
import pathlib
import subprocess
import tempfile

TOP = pathlib.Path(__file__).resolve().parent.parent
BOXES = (3, 100)
WORLDS = (4096, 8192, 16384)
RUNS = 40


def element(height, children=()):
    made = {"tag": "div", "attrs": {"style": f"height:{height}px"}}
    if children:
        made["children"] = list(children)
    return made


def job(boxes, worlds):
    return {"vizlog": 1, "widths": [1, worlds], "sizes": [16, 16], "height": 600,
            "fonts": [{"name": "Square", "upem": 1000, "ascent": 800, "descent": 200, "default": 500}],
            "page": element(1000, [element(10) for _ in range(boxes - 1)]),
            "assert": "forall b in block: b.right <= view.width"}


def measure(words):
    """The least processor time of some runs, in seconds, and the output."""
    best = None
    for _ in range(RUNS):
        with tempfile.TemporaryFile() as out:
            child = subprocess.Popen(words, stdout=out)
            _, status, usage = os.wait4(child.pid, 0)
            assert os.waitstatus_to_exitcode(status) == 0, "the status is not 0"
            took = usage.ru_utime + usage.ru_stime
            best = took if best is None else min(best, took)
            out.seek(0)
            text = out.read()
    return best, text


def main():
    subprocess.run([str(TOP / "vizlog")], stdout=subprocess.DEVNULL)
    program = str(TOP / "crates/vizlog/out/vizlog")
    with tempfile.TemporaryDirectory() as folder:
        file, cert = os.path.join(folder, "job.json"), os.path.join(folder, "job.cert")
        for boxes in BOXES:
            times = {}
            for worlds in WORLDS:
                with open(file, "w") as out:
                    json.dump(job(boxes, worlds), out)
                proved, text = measure([program, "prove", file, str(2 * worlds)])
                with open(cert, "wb") as out:
                    out.write(text)
                checked, text = measure([program, "check", file, cert])
                assert text == b"accepted\n"
                times[worlds] = (proved, checked)
                print(f"{boxes:4} boxes, {worlds:6} worlds: prove {proved * 1000:8.1f} ms ({worlds / proved:9.0f} worlds/s), "
                      f"check {checked * 1000:8.1f} ms ({worlds / checked:9.0f} worlds/s)")
            for part, name in enumerate(("prove", "check")):
                ratio = times[WORLDS[-1]][part] / times[WORLDS[0]][part]
                print(f"{boxes:4} boxes: growth of {name} from 4,096 to 16,384 worlds: {ratio:.2f}")
                assert ratio < 5, "more than linear growth"


main()
