"""Whether the browser shows what the program found broken: the boxes of a violation at the browser's own places. Not proved."""
import copy
import pathlib
import re
import subprocess

import answers
import formulas
import reasons

TOP = pathlib.Path(__file__).resolve().parent.parent
NODE = re.compile(r"  node (\d+) .*")
EDGE = re.compile(r"(left|top|right|bottom) (-?[\d.e+-]+), browser (-?[\d.e+-]+)")


def places(lines):
    """Of each node that lies elsewhere in the browser its edges there, in units; None where only one of the two has a box."""
    found = {}
    for line in lines:
        node = NODE.fullmatch(line)
        if node:
            edges = {side: round(float(there) * answers.UNITS) for side, _, there in EDGE.findall(line)}
            found[int(node[1])] = edges or None
    return found


def moved(box, edges):
    """A box with the browser's edges, all its rings moved with them."""
    made = copy.copy(box)
    by = [edges.get(side, box.border[at]) - box.border[at] for at, side in enumerate(formulas.SIDES)]
    for ring in ("margin", "border", "padding", "content"):
        setattr(made, ring, tuple(a + b for a, b in zip(getattr(box, ring), by)))
    return made


def judged(job, answer, elsewhere):
    """What the browser's places say of a violation, as words; None where they are not known."""
    try:
        formula = formulas.formula_of(job.rule)
        scene = formulas.Scene(job, answer.boxes, answer.world)
        faults = scene.faults(formula)
    except formulas.NoFormula:
        return None
    named = {at for it in faults for at in it.boxes.values()}
    of_node = [box.node for box in answer.boxes if box.kind not in ("anon", "line", "text")]
    for at in named:
        box = answer.boxes[at]
        if box.kind in ("anon", "line", "text") or of_node.count(box.node) != 1 or elsewhere.get(box.node, {}) is None:
            return None
    if not any(answer.boxes[at].node in elsewhere for at in named):
        return "the browser has it at the same place, within 1 px"
    boxes = [moved(box, elsewhere[box.node]) if at in named and box.node in elsewhere else box for at, box in enumerate(answer.boxes)]
    there = formulas.Scene(job, boxes, answer.world)
    wrong = [it for it in faults if there.holds(it.part, it.boxes) == it.under_not]
    if not wrong:
        return "the browser does not show it: it has the box elsewhere, and the rule holds of it there"
    told = reasons.Told(there)
    return "the browser shows it too: " + "; ".join(told.reason(there.fault(it.part, it.boxes, it.under_not)).words for it in wrong)


def words_of(job, name, answer, page, path):
    """Lays the page out in the browser at the size of a violation, and says whether it shows it; None where that can't be told."""
    words = [str(TOP / "tools/against_chromium"), str(name), "--page", page, "--worlds", ":".join(map(str, answer.world)), "--over", "1",
             "--program", path]
    run = subprocess.run(words, stdin=subprocess.DEVNULL, capture_output=True, text=True)
    lines = run.stdout.splitlines()
    # a line for the size, and one for each box that lies elsewhere
    if run.returncode not in (0, 1) or not lines or " differ by more than " not in lines[0]:
        return None
    return judged(job, answer, places(lines[1:]))
