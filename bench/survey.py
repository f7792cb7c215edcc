#!/usr/bin/env python3
"""Measures surveys: `vizsurvey table` of ten rules of examples/rules on pages of examples/pages, 320 to 1,920 px by 12 to 24 px.

Beside it stand the processor seconds that `vizlog prove` takes for each rule alone. The table is to take less than ten times what the hardest of
them takes, since one proof answers many widths. Run it at the top: bench/survey.py [SURVEY [PROGRAM]]
"""
import json
import os
import pathlib
import sys
import tempfile

from programs import BUILT, TOP, run

SURVEY = str(TOP / "crates/vizsurvey/out/vizsurvey")
RULES = ("column", "gaps", "headings", "main-first", "on-screen", "overlaps", "reading-order", "reflow", "targets", "text-size")
PAGES = ("breakpoints", "cards", "form", "gallery", "nav", "container", "article", "two-columns")
# enough for a tree of each page
TURNS = 328
DONE = (0, 1, 6)
LEAST = 0.01


def formula(name):
    return " ".join((TOP / f"examples/rules/{name}.rule").read_text(encoding="utf-8").split())


def least(words, out, runs=3):
    """The status, and the least processor time of some runs, one where it is long."""
    status, took = run(words, out)
    assert status in DONE, f"{' '.join(words)}: status {status}"
    for _ in range(runs - 1 if took < 2 else 0):
        took = min(took, run(words, out)[1])
    return status, took


def main(survey, program):
    missed = []
    with tempfile.TemporaryDirectory() as folder:
        out, listed, job = (os.path.join(folder, it) for it in ("out", "rules", "job"))
        pathlib.Path(listed).write_text("".join(f"{it} {formula(it)}\n" for it in RULES), encoding="utf-8")
        for page in PAGES:
            told = json.loads((TOP / f"examples/pages/{page}.json").read_text(encoding="utf-8"))
            told |= {"widths": [320, 1920], "sizes": [12, 24]}
            alone = {}
            for rule in RULES:
                pathlib.Path(job).write_text(json.dumps({**told, "assert": formula(rule)}), encoding="utf-8")
                alone[rule] = least([program, "prove", job, str(TURNS)], out)[1]
            status, took = least([survey, "table", job, listed, str(TURNS)], out)
            lines = pathlib.Path(out).read_text().count("\n")
            hardest = max(alone, key=alone.get)
            ratio = took / max(alone[hardest], LEAST)
            print(f"{page:12} table of {len(RULES)} rules, {lines} lines, status {status}: {took:6.2f} s, {ratio:5.1f} times `prove` of {hardest} "
                  f"({alone[hardest]:.2f} s), {took / max(sum(alone.values()), LEAST):.1f} times that of all together", flush=True)
            if ratio >= 10:
                missed.append(f"{page}: {ratio:.1f} times the hardest rule")
    sys.exit("\n".join(missed) or None)


if __name__ == "__main__":
    main(*(os.path.abspath(it) for it in (sys.argv[1:] + [SURVEY, BUILT][len(sys.argv) - 1:])[:2]))
