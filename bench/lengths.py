#!/usr/bin/env python3
"""Measures how long certificates are that have lemmas where these shorten: turns, leaves, grids, lemmas, bytes, and processor seconds of
`prove` and `check`.

- The generated job of seed 7 with 200 sections;
- `two-columns`, `three-columns`, `article` and `container` of `examples/pages`;
- pages of text as `texts.py` names them: P30, P60, P125, F30, N30.

Each is proved with the first number of turns of a list that decides, and with 328, which always decide; its certificate is to be accepted.
With a second program all this is measured of that one too, and the ratios are those of the first program to the second.

Run it at the top: bench/lengths.py [PROGRAM] [OTHER] [--pages gen,P30,..] [--seconds N]
"""
import argparse
import os
import pathlib
import subprocess
import tempfile

import texts
from programs import BUILT, TOP, Search, tell_ratios

FEW = (32, 64, 128, 256, 328)
ALWAYS = (328,)
PAGES = ("gen", "two-columns", "three-columns", "article", "container", "P30", "P60", "P125", "F30", "N30")


def job(program, name):
    """The text of the job of a page's name."""
    if name == "gen":
        return subprocess.run([program, "gen", "7", "200"], capture_output=True, text=True, check=True).stdout
    if name[0].isupper():
        return texts.job(name)
    return (TOP / f"examples/pages/{name}.json").read_text(encoding="utf-8")


def lemmas(search):
    return pathlib.Path(search.cert).read_bytes().count(b"\nlemma ")


def main():
    parser = argparse.ArgumentParser(description=__doc__, formatter_class=argparse.RawDescriptionHelpFormatter)
    parser.add_argument("program", nargs="?", default=BUILT)
    parser.add_argument("other", nargs="?", help="a second program, measured in the same run")
    parser.add_argument("--pages", default=",".join(PAGES), help="names with commas between, by default all")
    parser.add_argument("--seconds", type=int, default=600, help="processor seconds that a run may take")
    given = parser.parse_args()
    missed = []
    with tempfile.TemporaryDirectory() as folder:
        for name in given.pages.split(","):
            file = os.path.join(folder, "job.json")
            pathlib.Path(file).write_text(job(given.program, name), encoding="utf-8")
            for turns in (FEW, ALWAYS):
                found = []
                for program in filter(None, (given.program, given.other)):
                    found.append(Search(program, file, folder, turns, given.seconds))
                    print(f"{name:13} {found[-1].told()}, {lemmas(found[-1])} lemmas", flush=True)
                tell_ratios(name, found)
                if not found[0].accepted or (len(found) == 2 and found[0].turns > found[1].turns):
                    missed.append(name)
    assert not missed, f"no certificate, or more turns, of {', '.join(missed)}"


main()
