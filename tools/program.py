"""Runs the program, also on parts of a job's range and on the contrary of its assertion, and tells how long that takes. Not proved."""
import json
import math
import os
import pathlib
import resource
import subprocess
import time
from dataclasses import dataclass

import answers

TOP = pathlib.Path(__file__).resolve().parent.parent
PROGRAM = str(TOP / "vizlog")
PROVED, VIOLATED, UNDECIDED = 0, 1, 6


def is_built():
    """Whether the program answers at once, proved or not."""
    return (TOP / "crates/vizlog/out/vizlog").exists() or (TOP / "vizlog.bin").exists()


class ProgramFault(Exception):
    """Why the program gave no answer, as one line."""


@dataclass
class Part:
    """A rectangle of worlds by its sides, both ends of each in: widths, sizes, and heights where the job has a range of them."""
    sides: tuple

    def worlds(self):
        return math.prod(high - low + 1 for low, high in self.sides)

    def turns(self):
        """With these a search always decides."""
        return 2 * self.worlds() - 1

    def name(self):
        return "x".join(f"{low}-{high}" for low, high in self.sides)

    def has(self, world):
        return all(low <= it <= high for it, (low, high) in zip(world, self.sides))

    def with_side(self, axis, side):
        return Part((*self.sides[:axis], side, *self.sides[axis + 1:]))

    def halves(self):
        """The axis that is halved, a longest side's, and two parts; None of one world."""
        if self.worlds() == 1:
            return None
        axis = max(range(len(self.sides)), key=lambda it: (self.sides[it][1] - self.sides[it][0], -it))
        low, high = self.sides[axis]
        middle = (low + high + 1) // 2
        return axis, self.with_side(axis, (low, middle - 1)), self.with_side(axis, (middle, high))


def range_of(told):
    """The range of a job file as it was read."""
    return Part(tuple(tuple(told[name]) for name in answers.AXES[:2 + (told["vizlog"] == 2)]))


def part_of(told):
    """The text of the job file that asks the same of a part of the range."""
    def text(part, rule=None):
        sides = {name: list(side) for name, side in zip(answers.AXES, part.sides)}
        return json.dumps({**told, **sides, "assert": rule or told["assert"]}, ensure_ascii=False)
    return text


@dataclass
class Reply:
    """A status, what was printed, and the processor time that it took."""
    status: int
    text: str
    seconds: float


def children_seconds():
    """The processor time of the programs that were run and have ended."""
    return sum(os.times()[2:4])


def reply_of(words, program=PROGRAM, limit=None, processor=None):
    """What the program answers; nothing where it takes longer than the limit in seconds, or so many seconds of processor time."""
    def held():
        resource.setrlimit(resource.RLIMIT_CPU, (processor, processor))
    begun = children_seconds()
    try:
        run = subprocess.run([program, *map(str, words)], stdin=subprocess.DEVNULL, stdout=subprocess.PIPE, timeout=limit,
                             preexec_fn=held if processor else None)
    except subprocess.TimeoutExpired:
        return None
    except OSError as fault:
        raise ProgramFault(f"{program} can't be run: {fault.strerror}") from None
    if processor and run.returncode < 0:
        return None
    return Reply(run.returncode, run.stdout.decode("utf-8", "replace"), children_seconds() - begun)


class Asker:
    """Asks the program about parts of a job's range, within so many seconds altogether."""

    def __init__(self, text, folder, seconds, program=PROGRAM):
        self.told, self.folder, self.program = json.loads(text), pathlib.Path(folder), program
        self.deadline = time.monotonic() + seconds
        self.text_of = part_of(self.told)

    def left(self):
        return self.deadline - time.monotonic()

    def ask(self, part, rule=None):
        """The reply about a part, with turns that always decide; None where the time is out or there is no such answer."""
        if self.left() <= 0:
            return None
        name = self.folder / f"ask-{os.getpid()}.json"
        name.write_text(self.text_of(part, rule), encoding="utf-8")
        reply = reply_of(["prove", name, part.turns()], self.program, max(self.left(), .01))
        return reply if reply and reply.status in (PROVED, VIOLATED) else None

    def contrary(self):
        return f"not ({self.told['assert']})"

    def world_that_holds(self, part):
        """A world of a part at which the assertion is true; False where it is false at each; None where that isn't known."""
        reply = self.ask(part, self.contrary())
        if reply is None:
            return None
        return False if reply.status == PROVED else world_of(reply)


def world_of(reply):
    """The world of a violation."""
    return tuple(int(it) for it in reply.text.split("\n", 1)[0].split(" ")[1:])


def along(world, axis, sign, limit):
    """Parts in one direction from a world, each twice as far as the one before, up to the limit."""
    near, step = world[axis] + sign, 1
    while sign * (limit - near) >= 0:
        far = near + sign * (step - 1)
        far = limit if sign * (far - limit) > 0 else far
        yield near, far
        near, step = far + sign, step * 2


def part_along(world, axis, one, other):
    return Part(tuple((it, it) for it in world)).with_side(axis, (min(one, other), max(one, other)))


@dataclass
class Way:
    """What is in one direction from a world at which the assertion is false: it is false up to `last`, and true at `holds`."""
    axis: int
    sign: int
    last: int
    holds: int | None
    whole: bool


def way(asker, world, axis, sign):
    """Goes from a violation to the nearest world in one direction at which the assertion is true; the program proves each step."""
    limit = asker.told[answers.AXES[axis]][sign > 0]
    last = world[axis]
    for near, far in along(world, axis, sign, limit):
        found = asker.world_that_holds(part_along(world, axis, near, far))
        if found is None:
            return Way(axis, sign, last, None, False)
        if not found:
            last = far
            continue
        holds = found[axis]
        while abs(holds - last) > 1:
            middle = (holds + last) // 2 if sign > 0 else -((-holds - last) // 2)
            found = asker.world_that_holds(part_along(world, axis, last + sign, middle))
            if found is None:
                return Way(axis, sign, last, holds, False)
            last, holds = (last, found[axis]) if found else (middle, holds)
        return Way(axis, sign, last, holds, True)
    return Way(axis, sign, last, None, True)


def ways(asker, world):
    """The directions from a violation: narrower and wider, smaller and larger text, and less and more high where there are heights."""
    return [way(asker, world, axis, sign) for axis in range(len(world)) for sign in (-1, 1)]


def steps(ends, many):
    """So many whole numbers spread over a range, the ends among them."""
    many = min(many, ends[1] - ends[0] + 1)
    return sorted({ends[0] + round((ends[1] - ends[0]) * at / max(many - 1, 1)) for at in range(many)})


def tried(asker, there, across=12, up=5):
    """Worlds spread over the range, at the height of one that is told, each with whether the assertion is true there, as the program judges it."""
    found = {}
    for size in steps(asker.told["sizes"], up):
        for width in steps(asker.told["widths"], across):
            world = (width, size, *there[2:])
            reply = asker.ask(Part(tuple((it, it) for it in world)))
            if reply is None:
                return found
            found[world] = reply.status == PROVED
    return found


def rendering(name, world, job, program=PROGRAM):
    """The rendering of a job file at a world."""
    reply = reply_of(["lay", name, *world], program)
    if reply.status != 0:
        raise ProgramFault(f"lay {name} {' '.join(map(str, world))}: {reply.text.strip() or f'status {reply.status}'}")
    return answers.answer_of(reply.text, job, tuple(world))
