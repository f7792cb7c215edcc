"""Compares the program's layout of a job with the rectangles of the page itself, as the browser lays it out. Not proved."""
import json
import subprocess
from dataclasses import dataclass, field

import answers

SIDES = ("left", "top", "right", "bottom")
KINDS = ("block", "float", "atomic", "replaced", "inline")
# parts of the range at which a job is compared: of its widths, of its sizes, and of its heights
PLACES = ((11 / 25, 1 / 3, 3 / 5), (0, 0, 0), (1 / 40, 1 / 3, 1), (1 / 5, 2 / 3, 1 / 5), (1, 1, 1))


def worlds(*sides):
    """Five worlds of a range by its sides, fewer where they fall together: (1024, 16), (320, 12), (360, 16), (640, 20) and (1920, 24) of the
    usual one."""
    found = []
    for parts in PLACES:
        world = tuple(low + round((high - low) * part) for (low, high), part in zip(sides, parts))
        if world not in found:
            found.append(world)
    return found


class NoLayout(Exception):
    """What the program answered in place of a layout, as one line, and its status."""

    def __init__(self, line, status):
        super().__init__(line)
        self.status = status


def laid_out(program, name, world, job):
    """The border boxes of the elements by node, each the least that holds all its boxes, in px."""
    try:
        run = subprocess.run([program, "lay", name, *map(str, world)], stdin=subprocess.DEVNULL, stdout=subprocess.PIPE, text=True)
    except OSError as fault:
        raise NoLayout(f"{program} can't be run: {fault.strerror}", None) from None
    if run.returncode != 0:
        raise NoLayout(run.stdout.strip() or f"{program} lay {name}: status {run.returncode}", run.returncode)
    return edges(answers.answer_of(run.stdout, job, world))


def edges(answer):
    found = {}
    for box in answer.boxes:
        if box.kind in KINDS:
            known = found.setdefault(box.node, box.border)
            found[box.node] = tuple(least(a, b) for least, a, b in zip((min, min, max, max), known, box.border))
    return {node: tuple(it / answers.UNITS for it in edge) for node, edge in found.items()}


@dataclass
class Differing:
    """A box that lies elsewhere at a world: by how many px at each edge (the browser's less ours), None where one has none."""
    node: int
    name: str
    apart: tuple | None
    cause: str

    def most(self):
        return max(map(abs, self.apart)) if self.apart else float("inf")


@dataclass
class Compared:
    """What is found at a world: the boxes compared, those that differ, and the greatest difference of all."""
    world: tuple
    boxes: int = 0
    differ: list = field(default_factory=list)
    greatest: float = 0.0


def compare(job, mine, theirs, real, causes, over):
    """Compares the boxes of the page's own elements; `real` says which nodes are such, `causes` what is known to be laid out otherwise at each."""
    found = Compared(None)
    why = explained(job, causes)
    for number, node in enumerate(job.nodes):
        if node.element is None or not real[number] or node.element["tag"].lower() == "br":
            continue
        here, there = mine.get(number), theirs[number]
        if here is None and there is None:
            continue
        found.boxes += 1
        if here is None or there is None:
            # an inline box on no line, and one without content, has a rectangle without area in the browser
            if here is not None or (there[0] < there[2] and there[1] < there[3]):
                if here is None or (here[0] < here[2] and here[1] < here[3]):
                    found.differ.append(Differing(number, node.name, None, why[number]))
            continue
        apart = tuple(there[at] - here[at] for at in range(4))
        found.greatest = max([found.greatest, *map(abs, apart)])
        if max(map(abs, apart)) > over:
            found.differ.append(Differing(number, node.name, apart, why[number]))
    told_after(found.differ)
    return found


def parents(page):
    """The parent of each node by number, None for the root."""
    found, open_nodes = [], [(page, None)]
    while open_nodes:
        node, parent = open_nodes.pop()
        found.append(parent)
        if not isinstance(node, str):
            open_nodes.extend((it, len(found) - 1) for it in reversed(node.get("children", [])))
    return found


def explained(job, causes):
    """For each node what is most likely to make it differ: what is known of it, of what is around it, or of what is in it."""
    above = parents(job.full)
    own = [list(it) for it in causes]
    inside = [None] * len(own)
    for number in range(len(own) - 1, -1, -1):
        first = own[number][0] if own[number] else inside[number]
        if first and above[number] is not None:
            inside[above[number]] = first
    found = []
    for number in range(len(own)):
        around = found[above[number]][0] if above[number] is not None else None
        found.append((own[number][0] if own[number] else around, inside[number]))
    return [one or other for one, other in found]


def told_after(differ):
    """A box without a cause of its own differs most likely because of what stands before it."""
    last = None
    for it in differ:
        it.cause = it.cause or last or "nothing known"
        last = it.cause if it.cause != "nothing known" else last


def world_words(world):
    return " and ".join(f"{it} px" for it in world[:2]) + "".join(f" at {it} px high" for it in world[2:])


def lines(found, over):
    """What was found at the worlds, in lines."""
    worst = max(found, key=lambda it: (len(it.differ) > 0, max((one.most() for one in it.differ), default=0), it.greatest))
    at = ", ".join(world_words(it.world) for it in found[:len(PLACES)])
    at += f" and {len(found) - len(PLACES)} more, where what @media asks for turns" if len(found) > len(PLACES) else ""
    differing = {one.node for it in found for one in it.differ}
    compared = max(it.boxes for it in found)
    if not differing:
        greatest = max(it.greatest for it in found)
        return [f"The browser lays none of {compared} boxes elsewhere by more than {over:g} px (by {greatest:.2f} px at most), at {at}."]
    lost = sum(one.apart is None for it in found for one in it.differ)
    most = max((one.most() for it in found for one in it.differ if one.apart), default=0)
    causes = {}
    for it in found:
        for one in it.differ:
            causes.setdefault(one.cause, set()).add(one.node)
    told = ", ".join(f"{cause} ({len(nodes)})" for cause, nodes in sorted(causes.items(), key=lambda it: -len(it[1]))[:5])
    across = max((abs(one.apart[at]) for it in found for one in it.differ if one.apart for at in (0, 2)), default=0)
    made = [f"The browser lays {len(differing)} of {compared} boxes elsewhere, by up to {most:.1f} px (across by {across:.1f} px), at "
            f"{world_words(worst.world)}; most for: {told}"]
    if lost:
        made.append(f"  {lost} boxes are here alone or in the browser alone")
    for it in found:
        first = it.differ[0] if it.differ else None
        apart = ""
        if first:
            apart = f", first node {first.node} {first.name}" + (": " + ", ".join(
                f"{side} by {by:+.1f}" for side, by in zip(SIDES, first.apart) if abs(by) > over) if first.apart else ": a box on one side alone")
        made.append(f"  {':'.join(map(str, it.world))}: {len(it.differ)} of {it.boxes}, the greatest difference is {it.greatest:.2f} px{apart}")
    return made


def tried(program, name, text, exported, over=1):
    """Compares a job with its page at the worlds at which the page was looked at."""
    whole = answers.job_of(text)
    if len(exported["nodes"]) != len(whole.written):
        raise answers.NoAnswer("the job has other nodes than the page")
    found = []
    for world, theirs in zip(exported["worlds"], exported["rectangles"]):
        job = whole.at(world)
        real = job.by_node([it["real"] for it in exported["nodes"]], False)
        causes = job.by_node([it["causes"] for it in exported["nodes"]], [])
        one = compare(job, laid_out(program, name, world, job), job.by_node(theirs, None), real, causes, over)
        one.world = tuple(world)
        found.append(one)
    return found


def record(exported):
    """What has to be kept of an export so that it can be compared again, as text."""
    return json.dumps({name: exported[name] for name in ("worlds", "rectangles", "nodes")})
