"""Says in words what is false of an assertion at a rendering, and as a line between two places how far it is from true. Not proved."""
from dataclasses import dataclass

import answers
import css_match
import formulas

ACROSS, DOWN = 0, 1
AXES = {"left": ACROSS, "right": ACROSS, "width": ACROSS, "top": DOWN, "bottom": DOWN, "height": DOWN}
# how the smaller and the greater of two places stand to each other
STANDS = (("left of", "right of"), ("above", "below"))
EDGE_WORDS = {"left": "left", "right": "right", "top": "upper", "bottom": "lower"}


@dataclass
class Measure:
    """A line from one place to another, in units: across at a height, or down at a place from the left."""
    axis: int
    begin: int
    end: int
    at: int
    words: str


@dataclass
class Reason:
    """A part of the assertion that is false: its text, what is wrong, shorter words for the drawing, and where."""
    span: tuple
    words: str
    measures: list
    boxes: list


@dataclass
class Place:
    """A place on an axis that an assertion names so many times: an edge, or the centre of a box."""
    times: int
    at: int
    words: str
    box: int | None
    side: str


def pixels(units):
    """A number of 1/64 px in px, to hundredths where it has more."""
    told = f"{units / answers.UNITS:.2f}".rstrip("0").rstrip(".")
    if told in ("0", "-0") and units:
        return "1/64" if abs(units) == 1 else f"{abs(units)}/64"
    return "0" if told == "-0" else told


def short(text, most):
    text = " ".join(text.split())
    return text if len(text) <= most else text[:most - 2].rstrip() + " .."


def own_text(node):
    """The text of an element, in one line."""
    return node if isinstance(node, str) else "".join(own_text(it) for it in node.get("children", []))


def name_of(job, box):
    """A box by its element and the first of its words."""
    node = job.nodes[box.node]
    if node.element is None:
        return node.name
    own = short(job.shown(own_text(node.element)), 26)
    name = short(node.name, 48) + (f" “{own}”" if own else "")
    return {"line": f"a line of {name}", "anon": f"a part of {name}"}.get(box.kind, name)


class Told:
    """What is said of the faults at one rendering."""

    def __init__(self, scene):
        self.scene, self.job, self.boxes, self.alike = scene, scene.job, scene.boxes, set()

    def name(self, at):
        """A box by its element, and by its number where another that is spoken of has the same name."""
        return name_of(self.job, self.boxes[at]) + (f" (box {at})" if at in self.alike else "")

    def tell_apart(self, boxes):
        names = [name_of(self.job, self.boxes[it]) for it in boxes]
        self.alike = {it for it, name in zip(boxes, names) if names.count(name) > 1}

    # ---- comparisons

    def places(self, part, names):
        """The axis of a comparison, its places, and its constant, all moved to the left; no axis where it has edges of both."""
        edges, constant = {}, 0
        for sign, term in ((1, part.left), (-1, part.right)):
            for times, edge in term:
                if edge is None:
                    constant += sign * times
                else:
                    key = (names.get(edge.name), edge.ring, edge.side)
                    edges[key] = edges.get(key, 0) + sign * times
                    edges = {name: it for name, it in edges.items() if it}
        axes = {AXES[side] for _, _, side in edges}
        if len(axes) != 1:
            return None, [], constant
        axis, places = axes.pop(), []
        near, far = (("left", "right"), ("top", "bottom"))[axis]
        for (box, ring, side), times in edges.items():
            if side == far and edges.get((box, ring, near)) == times:
                continue
            if side == near and edges.get((box, ring, far)) == times:
                begin, end = (self.edge(box, ring, it) for it in (near, far))
                places.append(Place(2 * times, (begin + end) // 2, f"the centre of {self.name(box)}", box, "centre"))
                continue
            ring_words = "" if ring in ("border", "") else f"the {ring} of "
            words = f"the screen's {side}" if box is None else f"the {EDGE_WORDS[side]} edge of {ring_words}{self.name(box)}"
            places.append(Place(times, self.edge(box, ring, side), words, box, side))
        return axis, places, constant

    def edge(self, box, ring, side):
        if box is None:
            return answers.UNITS * (self.scene.world[0] if side == "width" else self.job.height_at(self.scene.world))
        return getattr(self.boxes[box], ring)[formulas.SIDES.index(side)]

    def middle(self, box, axis):
        edges = self.boxes[box].border
        return (edges[1 - axis] + edges[3 - axis]) // 2

    def measure(self, axis, one, other, words):
        """A line between two places, at the middle of the box that has one of them."""
        boxes = [it.box for it in (one, other) if it is not None and it.box is not None]
        return Measure(axis, *sorted((one.at, other.at)), self.middle(boxes[0], axis) if boxes else 0, words)

    def compared(self, fault):
        """The words and lines for a comparison that is false."""
        axis, places, constant = self.places(fault.part, fault.boxes)
        places.sort(key=lambda it: -it.times)
        sign = fault.part.sign
        if len(places) == 1 and places[0].times < 0 or len(places) == 2 and places[0].times != -places[1].times:
            if len(places) == 2:
                return None
            sign = turned(sign)
            places[0].times, constant = -places[0].times, -constant
        if not 1 <= len(places) <= 2 or fault.under_not or sign == "!=":
            return None
        times = places[0].times
        if constant % times:
            return None
        # in whole units
        asked = -constant // times
        return self.of_one(axis, places[0], sign, asked) if len(places) == 1 else self.of_two(axis, *places, sign, asked)

    def of_one(self, axis, place, sign, asked):
        """A place and a number: it has to be there, or on one side of it."""
        apart = place.at - asked
        far = STANDS[axis][apart > 0]
        words = f"{place.words} is at {pixels(place.at)} px, {pixels(abs(apart))} px {far} {pixels(asked)} px"
        if asked == 0 and place.box is not None and apart < 0:
            edge = "left edge of the screen" if axis == ACROSS else "top of the page"
            verb = "begins" if place.side in ("left", "top") else "ends"
            words = f"{self.name(place.box)} {verb} {pixels(-apart)} px {far} the {edge}"
        goal = Place(1, asked, "", None, "")
        return words, [self.measure(axis, place, goal, f"{pixels(abs(apart))} px")]

    def of_two(self, axis, one, other, sign, asked):
        """The distance from one place to another, of which so much is asked."""
        distance = one.at - other.at
        by = f"{pixels(abs(distance - asked))} px"
        if one.box is not None and one.box == other.box and asked >= 0:
            wide = ("wide", "high")[axis]
            than = sign_words(sign)
            words = f"{self.name(one.box)} is {pixels(distance)} px {wide}, and {than} {pixels(asked)} px are asked: {by} too " \
                    f"{'much' if distance > asked else 'little'}"
            return words, [self.measure(axis, one, other, f"{pixels(distance)} px, {than} {pixels(asked)} px asked")]
        if asked < 0:
            return self.of_two(axis, other, one, turned(sign), -asked)
        if asked == 0:
            words = self.beyond(axis, one, other, distance, by)
            return words, [self.measure(axis, one, other, by)]
        words = f"from {other.words} to {one.words} it is {pixels(distance)} px, and {sign_words(sign)} {pixels(asked)} px are asked"
        if distance < 0:
            words = f"{one.words} is {pixels(-distance)} px {STANDS[axis][0]} {other.words}, and has to be {sign_words(sign)} " \
                    f"{pixels(asked)} px {STANDS[axis][1]} it"
        return words, [self.measure(axis, one, other, f"{pixels(distance)} px, {sign_words(sign)} {pixels(asked)} px asked")]

    def beyond(self, axis, one, other, distance, by):
        if distance == 0:
            return f"{one.words} and {other.words} are at one place"
        if other.side in ("width", "height") and one.box is not None and distance > 0:
            verb = {"left": "begins", "top": "begins", "centre": "has its centre"}.get(one.side, "ends")
            where = "outside the screen, to the right" if axis == ACROSS else "below the screen's lower edge"
            return f"{self.name(one.box)} {verb} {by} {where}"
        return f"{one.words} is {by} {STANDS[axis][distance > 0]} {other.words}"

    # ---- all parts

    def overlapping(self, fault):
        one, other = (fault.boxes[it] for it in fault.part.names)
        a, b = self.boxes[one].border, self.boxes[other].border
        common = [max(a[0], b[0]), max(a[1], b[1]), min(a[2], b[2]), min(a[3], b[3])]
        wide, high = common[2] - common[0], common[3] - common[1]
        pair = f"{self.name(one)} and {self.name(other)}"
        if not fault.under_not:
            return f"{pair} do not overlap", []
        lines = [Measure(ACROSS, common[0], common[2], (common[1] + common[3]) // 2, f"{pixels(wide)} px"),
                 Measure(DOWN, common[1], common[3], (common[0] + common[2]) // 2, f"{pixels(high)} px")]
        return f"{pair} overlap, {pixels(wide)} px wide and {pixels(high)} px high", lines

    def reason(self, fault):
        part, text = fault.part, self.job.rule[slice(*fault.part.span)]
        boxes = list(dict.fromkeys(fault.boxes.values()))
        self.tell_apart(boxes)
        found = None
        if isinstance(part, formulas.Compared):
            found = self.compared(fault)
        elif isinstance(part, formulas.Paired) and part.word == "overlap":
            found = self.overlapping(fault)
        elif isinstance(part, formulas.Quantified) and not part.each and not fault.under_not:
            found = f"there is no box in {part.set}", []
        if found is None and isinstance(part, formulas.Compared):
            found = self.sides(fault)
        if found is None:
            found = f"{short(text, 90)} is {'true, and must not be' if fault.under_not else 'false'}", []
        words, measures = found
        if fault.is_nearest:
            words += " (the nearest way to meet the rule)"
        return Reason(part.span, words, measures, boxes)

    def sides(self, fault):
        """The two sides of a comparison with their values, and the widths and heights in it as lines."""
        part, names = fault.part, fault.boxes
        left, right = self.scene.sum(part.left, names), self.scene.sum(part.right, names)
        texts = [short(self.job.rule[begin:end], 60) for begin, end in
                 ((part.span[0], part.at), (part.at + len(part.sign), part.span[1]))]
        asked = {"<=": "at most", "<": "less than", ">=": "at least", ">": "more than", "=": "equal to", "!=": "other than"}[part.sign]
        words = f"{texts[0]} is {pixels(left)} px, and has {'not ' if fault.under_not else ''}to be {asked} {texts[1]}, {pixels(right)} px"
        axis, places, _ = self.places(part, names)
        lines = []
        for at, one in enumerate(places):
            for other in places[at + 1:]:
                if one.box is not None and one.box == other.box and one.times == -other.times:
                    lines.append(self.measure(axis, one, other, f"{pixels(abs(one.at - other.at))} px"))
        return words, lines

    def reasons(self, formula):
        return [self.reason(it) for it in self.scene.faults(formula)]


def turned(sign):
    """The sign with its two sides changed over."""
    return {"<=": ">=", "<": ">", ">=": "<=", ">": "<"}.get(sign, sign)


def sign_words(sign):
    return {"<=": "at most", "<": "less than", ">=": "at least", ">": "more than", "=": "exactly"}[sign]


@dataclass
class Findings:
    """What is told of a violation: the reasons, and how many of how many boxes of the first set break the rule."""
    reasons: list
    wrong: tuple | None
    set: str


def findings(job, answer):
    """Why an assertion is false at a violation; None where what is found here is not what the program said, or can't be found."""
    if answer.world is None:
        return None
    try:
        formula = formulas.formula_of(job.rule)
        scene = formulas.Scene(job, answer.boxes, answer.world)
        if scene.holds(formula) or scene.blame(formula) != answer.blamed:
            return None
        return Findings(Told(scene).reasons(formula), scene.wrong_members(formula), getattr(formula, "set", ""))
    except (formulas.NoFormula, css_match.BadSelector, KeyError, RecursionError):
        return None


def set_counts(job, boxes, world):
    """Each set of the assertion with the number of its boxes at a rendering; nothing where that can't be found."""
    try:
        scene = formulas.Scene(job, boxes, world)
        sets = dict.fromkeys(it.set for it in formulas.quantifiers(formulas.formula_of(job.rule)))
        return [(it, len(scene.members(it))) for it in sets]
    except (formulas.NoFormula, css_match.BadSelector, KeyError, RecursionError):
        return []
