"""What the benchmarks share: the programs, processor times, and what a search comes to."""
import os
import pathlib
import subprocess
import sys
import tempfile

TOP = pathlib.Path(__file__).resolve().parent.parent
CASES = TOP / "crates/test_cases/out/test_cases"
BUILT = str(TOP / "crates/vizlog/out/vizlog")


def answers():
    """The words that run the program of cases, which `.ci/run` builds."""
    if not CASES.exists():
        sys.exit(f"{CASES.relative_to(TOP)} is not there: run .ci/run, or 'rt run' in crates/test_cases")
    return [str(CASES)]


def measure(words, runs, given=""):
    """The least processor time of some runs on that standard input, in seconds."""
    best = None
    with tempfile.TemporaryFile() as table:
        table.write(given.encode())
        for _ in range(runs):
            table.seek(0)
            child = subprocess.Popen(words, stdin=table, stdout=subprocess.DEVNULL)
            _, status, usage = os.wait4(child.pid, 0)
            assert os.waitstatus_to_exitcode(status) == 0, "the status is not 0"
            took = usage.ru_utime + usage.ru_stime
            best = took if best is None else min(best, took)
    return best


def run(words, out, seconds=None):
    """The status and the processor seconds of a run whose output goes to that file; no status where it took more than so many seconds."""
    if seconds:
        words = ["sh", "-c", f'ulimit -t {seconds}; exec "$@"', "sh", *words]
    with open(out, "wb") as said:
        child = subprocess.Popen(words, stdout=said)
        _, status, usage = os.wait4(child.pid, 0)
    return os.WEXITSTATUS(status) if os.WIFEXITED(status) else None, usage.ru_utime + usage.ru_stime


class Search:
    """What `prove` comes to on a job file with the first of some numbers of turns that decides, and `check` on its certificate."""

    QUICK, RUNS = 2, 3

    def __init__(self, program, job, folder, turns, seconds=None):
        self.program, self.job, self.seconds = os.path.abspath(program), job, seconds
        self.cert, self.said = os.path.join(folder, "answer"), os.path.join(folder, "said")
        self.accepted, self.parts, self.size, self.checking = False, (0, 0), 0, 0
        for self.turns in turns:
            self.status, self.proving = self.least(["prove", job, str(self.turns)], self.cert)
            assert self.status in (0, 1, 6, None), f"prove ended with status {self.status}"
            if self.status != 6:
                break
        if self.status == 0:
            self.judge()

    def least(self, words, out):
        """The status of a run, and the least processor time of some where the first was a quick one."""
        status, took = run([self.program, *words], out, self.seconds)
        for _ in range(self.RUNS - 1 if took < self.QUICK else 0):
            took = min(took, run([self.program, *words], out)[1])
        return status, took

    def judge(self):
        """Has the certificate checked, and counts its leaves and grids."""
        status, self.checking = self.least(["check", self.job, self.cert], self.said)
        said = pathlib.Path(self.said).read_bytes()
        assert (status, said) == (0, b"accepted\n"), f"check said {said[:80]}"
        text = pathlib.Path(self.cert).read_bytes()
        self.accepted, self.size, self.parts = True, len(text), tuple(text.split(b"\n").count(word) for word in (b"leaf", b"grid"))

    def told(self):
        if not self.accepted:
            said = {1: "violated", 6: "undecided", None: f"not done in {self.seconds} s"}[self.status]
            return f"{self.turns:5} turns: {said}, {self.proving:.2f} s"
        leaves, grids = self.parts
        return (f"{self.turns:5} turns, {leaves:4} leaves, {grids:4} grids, {self.size:9,} bytes, prove {self.proving:7.3f} s, "
                f"check {self.checking:7.3f} s")


def tell_ratios(name, found):
    """The figures of the first of two searches by those of the second, where both came to a certificate."""
    if len(found) == 2 and all(search.accepted for search in found):
        figures = [(search.turns, search.size, search.proving, search.checking) for search in found]
        told = zip(("turns", "bytes", "prove", "check"), *figures)
        print(f"{name:11} ratios: " + ", ".join(f"{what} {first / max(second, 0.001):.2f}" for what, first, second in told), flush=True)
