"""Cuts a job's range into parts, and puts the parts' certificates together into one for the whole range. Not proved: `check` judges it.

The halves that the range is cut into become splits above the parts' own nodes. A part's job has two facts of its own for each side, its
ends. Below the splits the same rows are other facts: an end at which no split cut is that of the whole range, any other is the fact of the
split that made it. All facts behind these stand so many numbers later as there are splits above. Of a page with width queries, whose answers
have a certificate for each part of the range that these make, the certificates stay what they are.
"""
import hashlib
from dataclasses import dataclass, field

import answers
from program import Part

MOST = 64 << 20


class NotJoined(Exception):
    """Why certificates can't be put together, as one line."""


@dataclass
class Cut:
    """A part, whole or cut into two by a row that is at least 0 in the second."""
    part: Part
    axis: int | None = None
    halves: list = field(default_factory=list)

    def leaves(self):
        return [leaf for half in self.halves for leaf in half.leaves()] if self.halves else [self]


def cut_into(part, many):
    """A part cut into so many by halving the greatest, as far as there are worlds."""
    top = Cut(part)
    leaves = [top]
    while len(leaves) < many:
        greatest = max(leaves, key=lambda it: it.part.worlds())
        found = greatest.part.halves()
        if found is None:
            break
        greatest.axis, *halves = found
        greatest.halves = [Cut(it) for it in halves]
        leaves.remove(greatest)
        leaves += greatest.halves
    return top


def body_of(text, digest):
    """The lines of a certificate for the job of this digest, without its head."""
    lines = text.split("\n")
    if lines[0] not in answers.HEADS or lines[1:2] != [f"job {digest}"]:
        raise NotJoined("an answer is no certificate for its part's job")
    if any(line in answers.HEADS for line in lines[2:]):
        raise NotJoined("an answer is several certificates, of parts by width queries, and no one certificate is made of those")
    return lines[2:-1] if lines[-1] == "" else lines[2:]


def renumbered(lines, ends, later):
    """A part's nodes with the numbers of the facts that they have below the splits."""
    for line in lines:
        if line.startswith("fact "):
            number = int(line[5:])
            line = f"fact {ends[number] if number < len(ends) else number + later}"
        yield line


def joined(cut, body, ends=None, later=0):
    """The lines of a cut's nodes: `ends` are the facts of the ends of its sides, `later` how many splits stand above."""
    ends = tuple(range(2 * len(cut.part.sides))) if ends is None else ends
    if not cut.halves:
        yield from renumbered(body(cut.part), ends, later)
        return
    axis, (lower, upper) = cut.axis, cut.halves
    yield f"split {-upper.part.sides[axis][0]} {axis}:1"
    made = len(ends) + later
    for half, place in ((upper, 2 * axis), (lower, 2 * axis + 1)):
        yield from joined(half, body, (*ends[:place], made, *ends[place + 1:]), later + 1)


def certificate(job_bytes, cut, answer_of):
    """One certificate for a whole job, of those of the parts: `answer_of` gives a part's job file and its certificate, as bytes."""
    def body(part):
        job, answer = answer_of(part)
        return body_of(answer.decode("utf-8"), hashlib.sha256(job).hexdigest())
    nodes = list(joined(cut, body))
    head = answers.HEADS[any(line.startswith("lemma ") for line in nodes)]
    lines = [head, f"job {hashlib.sha256(job_bytes).hexdigest()}", *nodes]
    return ("\n".join(lines) + "\n").encode()


def is_certificate(text):
    return text.startswith(tuple(head + "\n" for head in answers.HEADS))


def violation(text):
    """The world of a violation, or None."""
    try:
        words = text.split("\n", 1)[0].split(" ")
        return tuple(map(int, words[1:])) if words[0] == "violated" else None
    except ValueError:
        raise answers.NoAnswer(f"no answer: {text[:60]}") from None
