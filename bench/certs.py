#!/usr/bin/env python3
"""Measures `vizlog check` on large certificates: processor time and peak memory, and the stack that deep ones take.

- what `prove` writes for the generated job of seed 7 with 200 sections: leaves with more than 10,000 answers;
- 64 MiB of splits, whose rows are most of the text; of grids, as many as there can be; and of answers in 64 leaves, more than the page asks
  for: a peak memory of at most 2.5 times the file; beside that the same answers in one leaf, which is held whole;
- 63 MiB of lines `fact 0` in a void: what a byte of the text, a step and the row that it gives take of the peak memory, each by itself, and
  how often as much as the line they take, at most 36 times together;
- splits at depth 0 to 511: how many KiB of stack they take, at most 1,024 of the 8,192 KiB that a process has where nothing
  else is said.

Run it at the top: bench/certs.py [PROGRAM]
"""
import collections
import hashlib
import itertools
import json
import os
import pathlib
import subprocess
import sys
import tempfile

TOP = pathlib.Path(__file__).resolve().parent.parent
SEED, SECTIONS, TURNS = 7, 200, 64
MOST = 64 * 1024 * 1024
# how often as much memory as the file has a check may take
TIMES = 2.5
SQUARE = {"name": "Square", "upem": 1000, "ascent": 800, "descent": 200, "default": 500}
STACK = 8192


def run(words, out, stack=None):
    """The status, the processor time in seconds, and the peak memory in MiB of a run whose output goes to a file."""
    words = ["sh", "-c", f'ulimit -s {stack}; exec "$@"', "sh", *words] if stack else words
    child = subprocess.Popen(words, stdout=out)
    _, status, usage = os.wait4(child.pid, 0)
    return os.waitstatus_to_exitcode(status), usage.ru_utime + usage.ru_stime, usage.ru_maxrss / 1024


def job(widths):
    """A page of two blocks, over these widths and one size."""
    return json.dumps({"vizlog": 1, "widths": widths, "sizes": [16, 16], "height": 600, "fonts": [SQUARE],
                       "page": {"tag": "div", "attrs": {"style": "height:10px"}}, "assert": "forall b in block: b.right <= view.width"})


def head(text):
    return f"vizlog-cert 1\njob {hashlib.sha256(text.encode()).hexdigest()}\n"


def tree(count, line):
    """So many splits of one row, as flat as they can be, in pieces: of a row as `0 0:1`, which is at least 0 at each world, all grids but one
    have no worlds."""
    made = {0: "grid\n"}

    def whole(number):
        if number not in made:
            first = (number - 1) // 2
            made[number] = line + whole(first) + whole(number - 1 - first)
        return made[number]

    def pieces(number):
        if number < 4096:
            yield whole(number)
            return
        first = (number - 1) // 2
        yield line
        yield from pieces(first)
        yield from pieces(number - 1 - first)
    return pieces(count)


def deep(splits):
    """Splits of which each cuts off one width by a grid and goes on with the others."""
    return "".join(f"split {at + 1} 0:-1\ngrid\n" for at in range(splits)) + "grid\n"


class Bench:
    """A program, and a folder for jobs and certificates."""

    def __init__(self, program, folder):
        self.program, self.job, self.cert, self.said = program, *(os.path.join(folder, name) for name in ("job.json", "job.cert", "said"))

    def given(self, text, *pieces):
        """Writes a job and a certificate for it, that in pieces: the peak memory of a run is no less than what this process has when it starts
        it."""
        for name, given in ((self.job, (text,)), (self.cert, itertools.chain((head(text),), *pieces))):
            with open(name, "w", encoding="utf-8", newline="") as out:
                out.writelines(given)

    def check(self, stack=None):
        with open(self.said, "wb") as out:
            status, took, memory = run([self.program, "check", self.job, self.cert], out, stack)
        return status, pathlib.Path(self.said).read_text(encoding="utf-8").strip(), took, memory

    def held(self, what, wanted):
        """Checks the certificate, tells the figures, and fails where it takes more memory than it may."""
        assert self.tell(what, wanted) * 1024 * 1024 <= TIMES * os.path.getsize(self.cert), f"too much memory for {what}"

    def tell(self, what, wanted):
        """Checks the certificate, tells the figures, and gives the memory in MiB."""
        size = os.path.getsize(self.cert) / 1024 / 1024
        status, said, took, memory = self.check()
        print(f"{what}: {size:.1f} MiB, {said}, {took:.2f} s, {memory:.0f} MiB of memory ({memory / size:.1f} times the file)", flush=True)
        assert (status, said.split(" ")[:len(wanted.split(" "))]) == (0 if wanted == "accepted" else 8, wanted.split(" ")), f"not {wanted}"
        return memory


def proved(bench):
    with open(bench.job, "wb") as out:
        assert run([bench.program, "gen", str(SEED), str(SECTIONS)], out)[0] == 0
    with open(bench.cert, "wb") as out:
        status, took, memory = run([bench.program, "prove", bench.job, str(TURNS)], out)
    assert status == 0, "prove did not decide"
    with open(bench.cert, encoding="utf-8") as cert:
        found = collections.Counter(line.split(" ")[0].rstrip("\n") for line in cert)
    answers, leaves = found["yes"] + found["no"], found["leaf"]
    assert answers >= 10000
    print(f"prove of gen {SEED} {SECTIONS} with {TURNS} turns: {took:.2f} s, {memory:.0f} MiB of memory")
    bench.tell(f"{leaves} leaves with {answers} answers", "accepted")


def splits(bench):
    nodes(bench, "split 1000000000000000 0:1\n", "splits")


def grids(bench):
    nodes(bench, "split 0 0:1\n", "grids")


def nodes(bench, line, what):
    text = job([1, 64])
    count = (MOST - len(head(text)) - 5) // (len(line) + 5)
    bench.given(text, tree(count, line))
    bench.held(f"{count} splits and as many grids, the text mostly {what}", "accepted")


def answers(bench):
    text = job([1, 64])
    answer = "yes 0 0:64\nfact 4\nfact 0\nsum 1:0 64:1\nclosed\n"
    for leaves in (1, 64):
        # each leaf but the last is that of one width
        front = [f"split {-width} 0:1\n" for width in range(64, 65 - leaves, -1)]
        count = (MOST - len(head(text)) - sum(map(len, front)) - 9 * leaves) // len(answer) // leaves
        leaf = ["leaf\n", *[answer * 4096] * (count // 4096), answer * (count % 4096), "end\n"]
        bench.given(text, *((it, *leaf) for it in front), leaf)
        (bench.held if leaves > 1 else bench.tell)(f"{leaves} leaves with {count} answers each", "rejected")


def prices(bench):
    """The same lines, refused at the first byte, behind the digest of another job, and in a void whose last line is wrong. The certificate is
    written in parts, since the peak memory of a run is no less than what this process has when it starts it."""
    text, line, parts = job([1, 64]), "fact 0\n", 144
    part = line * 65536
    count = parts * 65536
    bench.given(text)
    taken = []
    for first, wanted in (("?", "rejected grammar 0"), (head("another job"), "rejected other-job"), (head(text), f"rejected line 0 0 {count}")):
        with open(bench.cert, "w", encoding="utf-8", newline="") as out:
            out.write(first + "void\n")
            out.writelines(part for _ in range(parts))
            out.write("closed\n")
        taken.append(bench.tell(f"a void of {count} steps", wanted))
    each = [more * 1024 * 1024 / count for more in (taken[0], taken[1] - taken[0], taken[2] - taken[1])]
    times = [price / len(line) for price in each]
    print(f"memory for a byte of text: {times[0]:.1f} bytes; for a step of {len(line)} bytes of text: {each[1]:.0f} bytes, {times[1]:.1f} times"
          f" its text; for its row: {each[2]:.0f} bytes, {times[2]:.1f} times")
    assert sum(times) < 36, "too much memory for a step with its text and its row"


def stack(bench):
    text = job([1, 560])
    bench.given(text, [deep(512)])
    low, high = 64, STACK
    assert bench.check(high)[:2] == (0, "accepted"), f"not accepted in {high} KiB of stack"
    while high - low > 16:
        middle = (low + high) // 2
        low, high = (low, middle) if bench.check(middle)[0] == 0 else (middle, high)
    print(f"512 splits, one in the other: accepted in {high} KiB of stack")
    assert high <= 1024, "too much stack for deep splits"


def main():
    program = sys.argv[1] if len(sys.argv) > 1 else str(TOP / "crates/vizlog/out/vizlog")
    if not os.path.exists(program):
        sys.exit(f"{program} is not there: run tools/prove, or name a program")
    with tempfile.TemporaryDirectory() as folder:
        bench = Bench(os.path.abspath(program), folder)
        for measure in (proved, splits, grids, answers, prices, stack):
            measure(bench)


main()
