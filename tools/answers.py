"""Reads job files and what the program prints of them: renderings, violations, open parts and certificates. Not proved."""
import dataclasses
import hashlib
import json
import math
import re
from dataclasses import dataclass, field

import grown
import media

KINDS = ("block", "anon", "float", "atomic", "replaced", "inline", "text", "line")
UNITS = 64
# the first line of a certificate of form 1, and of form 2, which may have lemmas
HEADS = ("vizlog-cert 1", "vizlog-cert 2")
AXES = ("widths", "sizes", "heights")


class NoAnswer(Exception):
    """Why a text is none of the answers that can be shown, as one line."""


# ---- job files

@dataclass
class Node:
    """A node of the page: its name as a selector, or the beginning of its text; and the text whole."""
    name: str
    element: dict | None
    text: str = ""


@dataclass
class Job:
    """A job: its range, of widths and default font sizes, and of heights where it has one, else its one height. What its rules ask of the
    width parts the range: each of `parts` says which of the `features` are met, with the first world at which just these are. Its nodes are
    those of the page with its generated content, `full`, at a world of one part, and `written` has the numbers there of those that are
    written."""
    widths: tuple
    sizes: tuple
    heights: tuple
    has_heights: bool
    rule: str
    page: dict
    css: list
    full: dict
    written: list
    nodes: list
    digest: str
    fonts: list = field(default_factory=list)
    letters: dict = field(default_factory=dict)
    features: list = field(default_factory=list)
    parts: dict = field(default_factory=dict)

    def part_at(self, world):
        """The number of the part that has a world of the range."""
        return list(self.parts).index(media.signs(self.features, *world[:2]))

    def at(self, world):
        """The same job with the nodes that the page has at a world, by the rules that are met there."""
        if not self.features:
            return self
        full, written = grown.grown(self.page, self.css, world)
        return dataclasses.replace(self, full=full, written=written, nodes=nodes_of(full, self.letters))

    def shown(self, text):
        """A text of the page as it is read: a character that stands for another one of other width is told as that."""
        return text.translate(self.letters)

    def by_node(self, found, none):
        """What is told of the nodes that are written, by the node's number on the page with its generated content."""
        made = [none] * len(self.nodes)
        for number, it in zip(self.written, found, strict=True):
            made[number] = it
        return made

    def sides(self):
        """The sides of the range: its widths, its sizes, and its heights where the job has a range of them."""
        return (self.widths, self.sizes, self.heights)[:2 + self.has_heights]

    def worlds(self):
        return math.prod(high - low + 1 for low, high in self.sides())

    def height_at(self, world):
        """The viewport's height at a world, which has a number for each side."""
        return world[2] if len(world) > 2 else self.heights[0]


def name_of(element):
    attrs = {name.lower(): value for name, value in element.get("attrs", {}).items()}
    name = element["tag"].lower()
    if attrs.get("id", "").strip():
        name += "#" + attrs["id"].strip()
    return name + "".join("." + it for it in attrs.get("class", "").split())


def nodes_of(page, letters):
    """The nodes of a page in document order, elements and texts, the names of these as they are read."""
    nodes, open_nodes = [], [(page, "")]
    while open_nodes:
        node, around = open_nodes.pop()
        if isinstance(node, str):
            nodes.append(Node(f"“{' '.join(node.translate(letters).split())[:40]}”", None, node))
        else:
            name = around + node["tag"] if node["tag"] in grown.MADE else name_of(node)
            nodes.append(Node(name, node))
            open_nodes.extend((it, name) for it in reversed(node.get("children", [])))
    return nodes


def job_of(text):
    """A job file; the program itself judges it whole."""
    try:
        told = json.loads(text)
        has_heights = told.get("vizlog", 1) == 2
        ends = [tuple(told[name]) for name in ("widths", "sizes")]
        ends.append(tuple(told["heights"]) if has_heights else (int(told["height"]),) * 2)
        if not all(len(end) == 2 and all(isinstance(it, int) and it > 0 for it in end) and end[0] <= end[1] for end in ends):
            raise ValueError
        letters = str.maketrans(told.get("letters", {}))
        css = list(told.get("css", []))
        full, written = grown.grown(told["page"], css, (ends[0][0], ends[1][0]))
        features = grown.features(css)
        return Job(*ends, has_heights, str(told["assert"]), told["page"], css, full, written, nodes_of(full, letters),
                   hashlib.sha256(text.encode()).hexdigest(), list(told.get("fonts", [])), letters, features,
                   media.parts(features, *ends[:2]))
    except (ValueError, KeyError, TypeError, AttributeError, RecursionError):
        raise NoAnswer("the job file is no job") from None


# ---- renderings and violations

@dataclass
class Box:
    """A box: its kind, its node, and four rectangles (left, top, right, bottom) in units, from the margin's to the content's."""
    kind: str
    node: int
    margin: tuple
    border: tuple
    padding: tuple
    content: tuple


EDGES = r"(-?\d+) (-?\d+) (-?\d+) (-?\d+)"
BOX = re.compile(rf"({'|'.join(KINDS)}) (\d+) m {EDGES} b {EDGES} p {EDGES} c {EDGES}", re.A)


def box_of(line):
    found = BOX.fullmatch(line)
    if not found:
        raise NoAnswer(f"no box: {line[:60]}")
    numbers = [int(it) for it in found.groups()[2:]]
    return Box(found[1], int(found[2]), *(tuple(numbers[at:at + 4]) for at in (0, 4, 8, 12)))


@dataclass
class Rendering:
    """Boxes at a world, or at one that isn't told; with the places of those that are blamed."""
    boxes: list
    world: tuple | None = None
    blamed: list = field(default_factory=list)
    violated: bool = False


@dataclass
class Open:
    """The part of the range that is open yet, by its sides."""
    sides: tuple


# ---- certificates

@dataclass
class Region:
    """A part of the range that a leaf, grid or void closes: a rectangle of worlds, both ends of each side in, and the splits that cut it:
    where a number and a multiple of each of a world's are at least 0 together. It is ragged where splits by floors cut it too, or where the
    certificate goes by width queries for some worlds alone."""
    kind: str
    sides: tuple
    cuts: list
    is_ragged: bool


@dataclass
class Fork:
    """A node of a certificate: the floor of a row by a number, a split by a row, a lemma, or a region; with the places of the nodes below."""
    row: tuple | None = None
    by: int | None = None
    region: int | None = None
    below: list = field(default_factory=list)


@dataclass
class Proof:
    """What the certificates of a job's parts say, one behind another: their regions and nodes, and the place of each one's first node."""
    job: Job
    regions: list = field(default_factory=list)
    splits: int = 0
    defs: int = 0
    lemmas: int = 0
    nodes: list = field(default_factory=list)
    first: list = field(default_factory=list)

    def region_at(self, world):
        """The place of the region that has a world, in the certificate of the world's part."""
        values, node = list(world), self.nodes[self.first[self.job.part_at(world)]]
        while node.region is None:
            side = 0
            if node.row:
                constant, terms = node.row
                value = constant + sum(times * values[name] for name, times in terms.items())
                if node.by:
                    values.append(value // node.by)
                side = 0 if node.by or value >= 0 else 1
            node = self.nodes[node.below[side]]
        return node.region


def row_of(text):
    head, *terms = text.split(" ")
    return int(head), {int(name): int(times) for name, times in (it.split(":") for it in terms)}


def halves(row, sides, cuts, is_ragged):
    """The two parts of a region that a split makes, as rectangles where one variable has the coefficient 1 or -1."""
    constant, terms = row
    axes = range(len(sides))
    for side in (True, False):
        if len(terms) == 1 and set(terms) <= set(axes) and abs(next(iter(terms.values()))) == 1:
            name, times = next(iter(terms.items()))
            low, high = sides[name]
            # side: constant + times * x >= 0, or at most -1
            if times == 1:
                cut = (max(low, -constant), high) if side else (low, min(high, -constant - 1))
            else:
                cut = (low, min(high, constant)) if side else (max(low, constant + 1), high)
            yield (*sides[:name], cut, *sides[name + 1:]), cuts, is_ragged
        elif set(terms) <= set(axes):
            sign = 1 if side else -1
            plane = (sign * constant - (0 if side else 1), *(sign * terms.get(axis, 0) for axis in axes))
            yield sides, cuts + [plane], is_ragged
        else:
            yield sides, cuts, True


def past_derivation(lines, at):
    """The line after a derivation."""
    wanted = 1
    while wanted:
        if lines[at] == "closed":
            wanted -= 1
        elif lines[at].startswith("case "):
            wanted += 1
        elif not lines[at].startswith(("fact ", "sum ", "cut ")):
            raise NoAnswer(f"line {at + 1} of the certificate is no step: {lines[at][:60]}")
        at += 1
    return at


def is_head(lines, at):
    """Whether a certificate begins at a line."""
    return lines[at:at + 1] and lines[at] in HEADS and re.fullmatch("job [0-9a-f]{64}", "".join(lines[at + 1:at + 2]))


def proof_of(lines, job):
    """What the certificates of a file close, one for each part of the job."""
    proof, at = Proof(job), 0
    while at < len(lines):
        if not is_head(lines, at):
            raise NoAnswer(f"line {at + 1} of the certificate is behind its end")
        if lines[at + 1][4:] != job.digest:
            raise NoAnswer("the certificate is for another job")
        at = past_certificate(lines, at, proof)
    if len(proof.first) != len(job.parts):
        raise NoAnswer(f"there are {len(proof.first)} certificates, and the job has {len(job.parts)} parts")
    return proof


def past_certificate(lines, head, proof):
    """The line after a certificate, whose regions are added. Its derivations are passed over: vizlog check judges them."""
    at, waiting = head + 2, [(Fork(), (proof.job.sides(), [], len(proof.job.parts) > 1))]
    proof.first.append(len(proof.nodes))
    try:
        while waiting:
            above, (sides, cuts, is_ragged) = waiting.pop()
            node = Fork()
            above.below.append(len(proof.nodes))
            proof.nodes.append(node)
            line, at = lines[at], at + 1
            if line.startswith("def "):
                proof.defs += 1
                row, _, by = line[4:].rpartition(" by ")
                node.row, node.by = row_of(row), int(by)
                waiting.append((node, (sides, cuts, is_ragged)))
            elif line.startswith("lemma ") and lines[head] == HEADS[1]:
                proof.lemmas += 1
                at = past_derivation(lines, at)
                waiting.append((node, (sides, cuts, is_ragged)))
            elif line.startswith("split "):
                proof.splits += 1
                node.row = row_of(line[6:])
                waiting.extend((node, it) for it in reversed(list(halves(node.row, sides, cuts, is_ragged))))
            elif line in ("grid", "void", "leaf"):
                if line == "void":
                    at = past_derivation(lines, at)
                while line == "leaf" and lines[at] != "end":
                    if not lines[at].startswith(("yes ", "no ")):
                        raise NoAnswer(f"line {at + 1} of the certificate is no answer: {lines[at][:60]}")
                    at = past_derivation(lines, at + 1)
                at += line == "leaf"
                node.region = len(proof.regions)
                proof.regions.append(Region(line, sides, cuts, is_ragged))
            else:
                raise NoAnswer(f"line {at} of the certificate is no node: {line[:60]}")
    except (IndexError, ValueError):
        raise NoAnswer(f"line {at + 1} of the certificate is cut off or has no such row") from None
    return at


def answer_of(text, job, world=None):
    """A rendering, which is at a world where one is told, a violation, a part that is open, or certificates; all else has no picture."""
    lines = text.split("\n")
    if lines and lines[-1] == "":
        lines.pop()
    if not lines:
        return Rendering([])
    if is_head(lines, 0):
        return proof_of(lines, job)
    axes = len(job.sides())
    if len(lines) == 1 and re.fullmatch(rf"undecided(?: \d+){{{2 * axes}}}", lines[0], re.A):
        ends = [int(it) for it in lines[0].split(" ")[1:]]
        return Open(tuple((ends[at], ends[at + 1]) for at in range(0, len(ends), 2)))
    if re.fullmatch(rf"violated(?: \d+){{{axes}}}", lines[0], re.A):
        world = tuple(int(it) for it in lines[0].split(" ")[1:])
        blamed = [int(it[6:]) for it in lines if re.fullmatch(r"blame \d+", it, re.A)]
        answer = Rendering([box_of(it) for it in lines[1 + len(blamed):]], world, blamed, True)
    elif lines[0].split(" ")[0] in KINDS:
        answer = Rendering([box_of(it) for it in lines], world)
    else:
        raise NoAnswer(f"no picture for the answer: {lines[0][:80]}")
    nodes = (job.at(answer.world) if answer.world else job).nodes
    if any(box.node >= len(nodes) for box in answer.boxes) or any(it >= len(answer.boxes) for it in answer.blamed):
        raise NoAnswer("the answer is not of this job: it names a node or box that isn't there")
    return answer
