#!/usr/bin/env python3
"""Measures `lay` on jobs whose style sheets are the worst for the cascade within the limits of the profile: processor time and memory.

Each job is a row of elements in a root, with a sheet of at most 1 MiB. Where each rule applies to each element, what one application takes
is told, without what the page takes with no sheet; it may grow by at most twice, within noise, from 512 to 4,096 elements. The program is
that of `crates/vizlog`, or one named behind the first word. Run it at the top: bench/limits.py [PROGRAM] [PART OF A CASE'S NAME]
"""
import json
import os
import pathlib
import subprocess
import sys
import tempfile
import time

TOP = pathlib.Path(__file__).resolve().parent.parent
PROGRAM = TOP / "crates/vizlog/out/vizlog"
MOST = 1 << 20
FONT = {"name": "Square", "upem": 1000, "ascent": 800, "descent": 200, "default": 500, "advances": []}


def row(elements, of=lambda at: {"tag": "div", "attrs": {"class": "a"}}, between=()):
    """A root with so many elements in it, the root counted, and these children before each."""
    children = []
    for at in range(elements - 1):
        children.extend(between)
        children.append(of(at))
    return {"tag": "div", "children": children}


def flood(head, part, foot=""):
    """A sheet of 1 MiB at most that repeats a part."""
    return head + part * ((MOST - len(head) - len(foot)) // len(part)) + foot


def classed(at):
    return {"tag": "div", "attrs": {"class": f"c{at}"}}


def classes(rules):
    return "".join(f".c{at}{{margin:0 auto}}\n" for at in range(rules))


def group(selector):
    """A ruleset of 1 MiB at most, whose group has this selector with one number after another in it."""
    foot = "{margin:0}"
    parts, size, at = [], len(foot), 0
    while size + len(selector(at)) < MOST:
        parts.append(selector(at))
        size += len(parts[-1]) + 1
        at += 1
    return ",".join(parts) + foot


BARE = "no sheet, 4,096 elements"
# the elements of a page to which each of 8,192 rules applies
APPLIED = {"8,192 rules that apply to 512 elements": 512, "8,192 rules that apply to 4,096 elements": 4096}
BOOTSTRAP = pathlib.Path("/usr/share/javascript/bootstrap4/css")

CASES = {
    BARE: lambda: (row(4096), ""),
    **{told: lambda elements=elements: (row(elements), ".a{margin:0 auto}\n" * 8192) for told, elements in APPLIED.items()},
    "8,192 rules of a class each, 4,096 elements": lambda: (row(4096, classed), classes(8192)),
    "1 MiB of declarations in a rule, 64 elements": lambda: (row(64), flood("div{", "margin:0;", "}")),
    "1 MiB of declarations in a rule, 4,096 elements": lambda: (row(4096), flood("div{", "margin:0;", "}")),
    "1 MiB of the longest shorthand, 4,096 elements": lambda: (row(4096), flood("div{", "border:0;", "}")),
    "1 MiB of *, 4,096 elements": lambda: (row(4096), flood("*", ",*", "{margin:0}")),
    "1 MiB of p, 4,096 elements": lambda: (row(4096), flood("p", ",p", "{margin:0}")),
    "1 MiB of .c0,.c1,.., 4,096 elements": lambda: (row(4096, classed), group(lambda at: f".c{at}")),
    "1 MiB of p0 div,p1 div,.., 4,096 elements": lambda: (row(4096), group(lambda at: f"p{at} div")),
    "1 MiB of .c0 div,.c1 div,.., 4,096 elements, the classes on one": lambda: (
        row(4096, lambda at: {"tag": "div", "attrs": {"class": " ".join(f"c{n}" for n in range(90000))} if at == 0 else {}}),
        group(lambda at: f".c{at} div")),
    "1 MiB of p0+div,p1+div,.., 512 elements, 64 empty texts each": lambda: (
        row(512, between=[""] * 64), group(lambda at: f"p{at}+div")),
    "1 MiB of *+*.., 4,096 elements": lambda: (row(4096), flood("*", "+*", "{margin:0}")),
    "1 MiB of +, 512 elements, 64 empty texts each": lambda: (
        row(512, between=[""] * 64), flood("*", "+*", "{margin:0}")),
    "1 MiB of p+div, 4,096 elements, 64 empty texts each": lambda: (
        row(4096, between=[""] * 64), flood("p+div", ",p+div", "{margin:0}")),
    "1,000,000 empty texts": lambda: (row(2, between=[""] * 1000000), ""),
    "4,000,000 empty texts": lambda: (row(2, between=[""] * 4000000), ""),
    "bootstrap-reboot": lambda: (row(4096), (BOOTSTRAP / "bootstrap-reboot.css").read_text()),
    "bootstrap": lambda: (row(4096), (BOOTSTRAP / "bootstrap.css").read_text()),
}


def job(page, sheet):
    return json.dumps({"vizlog": 1, "widths": [800, 800], "sizes": [16, 16], "height": 600, "fonts": [FONT], "css": [sheet],
                       "page": page, "assert": "true"})


def tell_applications(took):
    """What an application of a rule to an element takes, by the times of the cases."""
    if BARE not in took or not APPLIED.keys() <= took.keys():
        return
    prices = [(took[told] - took[BARE] * elements / 4096) / elements / 8192 for told, elements in APPLIED.items()]
    few, many = (price * 1e9 for price in prices)
    print(f"an application of a rule to an element takes {few:.0f} ns among 512 elements, {many:.0f} ns among 4,096: {many / few:.2f} times")
    assert many < 2 * few, "an application takes longer among more elements"


def main():
    program = sys.argv[1] if len(sys.argv) > 1 else str(PROGRAM)
    part = sys.argv[2] if len(sys.argv) > 2 else ""
    times = {}
    for told, made in CASES.items():
        if part not in told:
            continue
        with tempfile.NamedTemporaryFile("w", suffix=".json") as file:
            file.write(job(*made()))
            file.flush()
            with tempfile.TemporaryFile() as output:
                child = subprocess.Popen([program, "lay", file.name, "800", "16"], stdout=output)
                _, status, usage = os.wait4(child.pid, 0)
                output.seek(0)
                answer = output.read(60).split(b"\n")[0].decode(errors="replace")
        times[told] = took = usage.ru_utime + usage.ru_stime
        print(f"{told:52} {took:9.3f} s {usage.ru_maxrss // 1024:6} MB  status {os.waitstatus_to_exitcode(status)} {answer}",
              flush=True)
    tell_applications(times)


main()
