"""Reads assertions, and tells of one that is false at a rendering which part is false, of which boxes, and by how much. Not proved.

docs/FORMATS.md ("Formulas") has the language. What is found here is shown only where it comes to the truth and the blame that the program
printed for the same boxes.
"""
import re
from dataclasses import dataclass, field

import answers
import css_match

KINDS = answers.KINDS
MARKS = ("<=", ">=", "!=", "<", ">", "=", "(", ")", ",", ":", ".", "+", "-", "*")
TOKEN = re.compile(r"(?P<space>[ \t\n]+)|(?P<px>\d+px(?![a-z0-9]))|(?P<number>\d+)|(?P<word>[a-z][a-z0-9]*)|(?P<text>\"[^\"]*\")"
                   r"|(?P<mark><=|>=|!=|[<>=(),:.+*-])")
SIDES = ("left", "top", "right", "bottom")
RINGS = ("margin", "padding", "content")
# further than any distance: what no move of a box makes true
NEVER = 1 << 80


class NoFormula(Exception):
    """Where a text is no assertion and what was awaited there, as one line."""


# ---- formulas; each has the place of its text

@dataclass
class Quantified:
    each: bool
    name: str
    set: str
    body: object
    span: tuple = (0, 0)


@dataclass
class Joined:
    """Parts with `and`, `or` or `implies` between them."""
    sign: str
    parts: list
    span: tuple = (0, 0)


@dataclass
class Negated:
    part: object
    span: tuple = (0, 0)


@dataclass
class Edge:
    """An edge of the box of a name, or of the viewport where the name is `view`."""
    name: str
    ring: str
    side: str


@dataclass
class Compared:
    """Whether left and right, each a number and edges taken so many times, are related as the sign says, which stands at a place."""
    left: list
    sign: str
    right: list
    at: int
    span: tuple = (0, 0)


@dataclass
class Paired:
    """`overlap` or `same` of two names."""
    word: str
    names: tuple
    span: tuple = (0, 0)


@dataclass
class Constant:
    value: bool
    span: tuple = (0, 0)


class Reader:
    """Reads an assertion."""

    def __init__(self, text):
        self.text, self.tokens, at = text, [], 0
        while at < len(text):
            found = TOKEN.match(text, at)
            if not found:
                raise NoFormula(f"no token at {text[at:at + 10]!r}")
            if found.lastgroup != "space":
                self.tokens.append((found.lastgroup, found[0], at, found.end()))
            at = found.end()
        self.tokens.append(("end", "", len(text), len(text)))
        self.at = 0

    def is_next(self, *words):
        return self.tokens[self.at][0] != "text" and self.tokens[self.at][1] in words

    def take(self, *words):
        kind, text, begin, _ = self.tokens[self.at]
        if words and text not in words:
            raise NoFormula(f"{' or '.join(words)} awaited at byte {begin}, and {text!r} stands there" if text else f"{words[0]} missing")
        self.at += 1
        return text

    def name(self):
        if self.tokens[self.at][0] != "word":
            raise NoFormula(f"a name awaited at byte {self.tokens[self.at][2]}")
        return self.take()

    def spanned(self, made, begin):
        made.span = (self.tokens[begin][2], self.tokens[self.at - 1][3])
        return made

    def formula(self):
        begin = self.at
        if self.is_next("forall", "exists"):
            each, name = self.take() == "forall", self.name()
            self.take("in")
            kind, text, _, _ = self.tokens[self.at]
            if kind != "text" and text not in (*KINDS, "box"):
                raise NoFormula(f"a set awaited, and {text!r} stands there")
            self.at += 1
            self.take(":")
            return self.spanned(Quantified(each, name, text, self.formula()), begin)
        made = self.joined("or", lambda: self.joined("and", self.unary))
        if self.is_next("implies"):
            self.take()
            made = self.spanned(Joined("implies", [made, self.formula()]), begin)
        return made

    def joined(self, sign, part):
        begin, parts = self.at, [part()]
        while self.is_next(sign):
            self.take()
            parts.append(part())
        return parts[0] if len(parts) == 1 else self.spanned(Joined(sign, parts), begin)

    def unary(self):
        begin = self.at
        if self.is_next("not"):
            self.take()
            return self.spanned(Negated(self.unary()), begin)
        if self.is_next("("):
            self.take()
            made = self.formula()
            self.take(")")
            return made
        if self.is_next("true", "false"):
            return self.spanned(Constant(self.take() == "true"), begin)
        if self.is_next("overlap", "same"):
            word = self.take()
            self.take("(")
            one = self.name()
            self.take(",")
            other = self.name()
            self.take(")")
            return self.spanned(Paired(word, (one, other)), begin)
        left = self.term()
        at = self.tokens[self.at][2]
        sign = self.take("<=", "<", ">=", ">", "=", "!=")
        return self.spanned(Compared(left, sign, self.term(), at), begin)

    def term(self):
        """Pairs of a number and an edge, or of a number and None."""
        parts, sign = [], -1 if self.is_next("-") else 1
        if sign < 0:
            self.take()
        while True:
            kind, text, _, _ = self.tokens[self.at]
            if kind == "px":
                self.take()
                parts.append((sign * int(text[:-2]) * answers.UNITS, None))
            elif kind == "number":
                self.take()
                if self.is_next("*"):
                    self.take()
                    parts.append((sign * int(text), self.edge()))
                else:
                    parts.append((sign * int(text), None))
            else:
                parts.append((sign, self.edge()))
            if not self.is_next("+", "-"):
                return parts
            sign = 1 if self.take() == "+" else -1

    def edge(self):
        name = self.name()
        self.take(".")
        if name == "view":
            return Edge(name, "", self.take("width", "height"))
        ring = self.take() if self.is_next(*RINGS) else ""
        if ring:
            self.take(".")
        return Edge(name, ring or "border", self.take(*SIDES))


def formula_of(text):
    """An assertion as a formula; the program itself judges it whole."""
    reader = Reader(text)
    made = reader.formula()
    if reader.tokens[reader.at][0] != "end":
        raise NoFormula(f"{reader.tokens[reader.at][1]!r} is behind the assertion's end")
    return made


def quantifiers(formula):
    """The quantifiers of a formula, from the left."""
    if isinstance(formula, Quantified):
        yield formula
        yield from quantifiers(formula.body)
    for part in formula.parts if isinstance(formula, Joined) else [formula.part] if isinstance(formula, Negated) else []:
        yield from quantifiers(part)


# ---- what is false

@dataclass
class Fault:
    """A part of the assertion that is false (or true under `not`), the boxes that its names stand for, and how many units one of them
    would have to move or grow; `is_nearest` where other parts would do as well."""
    part: object
    boxes: dict
    under_not: bool
    by: int = 0
    is_nearest: bool = False


@dataclass
class Scene:
    """The boxes of a rendering, and what an assertion asks of them."""
    job: answers.Job
    boxes: list
    world: tuple
    sets: dict = field(default_factory=dict)

    def members(self, name):
        """The places of a set's boxes."""
        if name not in self.sets:
            if name == "box":
                found = range(len(self.boxes))
            elif name in KINDS:
                found = [at for at, box in enumerate(self.boxes) if box.kind == name]
            else:
                nodes = {self.job.written[it] for it in css_match.nodes_met(self.job.page, name[1:-1])}
                found = [at for at, box in enumerate(self.boxes) if box.node in nodes and box.kind not in ("anon", "text", "line")]
            self.sets[name] = list(found)
        return self.sets[name]

    def value(self, edge, names):
        if edge.name == "view":
            return answers.UNITS * (self.world[0] if edge.side == "width" else self.job.height_at(self.world))
        return getattr(self.boxes[names[edge.name]], edge.ring)[SIDES.index(edge.side)]

    def sum(self, term, names):
        return sum(times * (1 if edge is None else self.value(edge, names)) for times, edge in term)

    def holds(self, formula, names=None):
        names = names or {}
        if isinstance(formula, Constant):
            return formula.value
        if isinstance(formula, Quantified):
            members = self.members(formula.set)
            return (all if formula.each else any)(self.holds(formula.body, {**names, formula.name: it}) for it in members)
        if isinstance(formula, Negated):
            return not self.holds(formula.part, names)
        if isinstance(formula, Joined):
            if formula.sign == "implies":
                return not self.holds(formula.parts[0], names) or self.holds(formula.parts[1], names)
            return (all if formula.sign == "and" else any)(self.holds(it, names) for it in formula.parts)
        if isinstance(formula, Paired):
            one, other = (names[it] for it in formula.names)
            return {"same": lambda: one == other, "overlap": lambda: min(overlap(self.boxes[one], self.boxes[other])) > 0}[formula.word]()
        left, right = self.sum(formula.left, names), self.sum(formula.right, names)
        return {"<=": left <= right, "<": left < right, ">=": left >= right, ">": left > right, "=": left == right,
                "!=": left != right}[formula.sign]

    def blame(self, formula, names=None):
        """The boxes that a false formula blames, as the profile defines it."""
        names = names or {}
        if isinstance(formula, Quantified) and formula.each:
            for it in self.members(formula.set):
                inner = {**names, formula.name: it}
                if not self.holds(formula.body, inner):
                    return [it] + self.blame(formula.body, inner)
        if isinstance(formula, Joined) and formula.sign == "and":
            return self.blame(next(it for it in formula.parts if not self.holds(it, names)), names)
        if isinstance(formula, Joined) and formula.sign == "implies":
            return self.blame(formula.parts[1], names)
        return []

    # ---- why

    def faults(self, formula, names=None, under_not=False):
        """The parts that make a formula false (true, under a `not`), each with its boxes: those that decide, the blamed ones first."""
        names = names or {}
        if isinstance(formula, Negated):
            return self.faults(formula.part, names, not under_not)
        if isinstance(formula, Quantified):
            return self.member_faults(formula, names, under_not)
        if isinstance(formula, Joined):
            if formula.sign == "implies":
                if not under_not:
                    return self.faults(formula.parts[1], names)
                sides = [(formula.parts[0], False), (formula.parts[1], True)]
                return next(self.faults(it, names, side) for it, side in sides if self.holds(it, names) == side)
            wrong = [it for it in formula.parts if self.holds(it, names) == under_not]
            found = [self.faults(it, names, under_not) for it in wrong]
            if (formula.sign == "and") != under_not:
                return [it for some in found for it in some]
            # one of these would do, so the one that is nearest to it says most
            nearest = min(found, key=lambda some: sum(it.by for it in some))
            for it in nearest:
                it.is_nearest = it.is_nearest or sum(sum(each.by for each in some) < NEVER for some in found) > 1
            return nearest
        return [self.fault(formula, names, under_not)]

    def member_faults(self, formula, names, under_not):
        members = [{**names, formula.name: it} for it in self.members(formula.set)]
        wrong = [it for it in members if self.holds(formula.body, it) == under_not]
        if not wrong:
            return [Fault(formula, names, under_not, NEVER)]
        if formula.each != under_not:
            return self.faults(formula.body, wrong[0], under_not)
        return min((self.faults(formula.body, it, under_not) for it in wrong), key=lambda some: sum(it.by for it in some))

    def fault(self, part, names, under_not):
        made = Fault(part, dict(names), under_not, NEVER)
        if isinstance(part, Compared):
            apart = self.sum(part.left, names) - self.sum(part.right, names)
            strict = part.sign in ("<", ">") and not under_not or part.sign in ("<=", ">=") and under_not
            made.by = abs(apart) // rate(part) + (1 if strict or part.sign == "!=" and not under_not or part.sign == "=" and under_not else 0)
        elif isinstance(part, Paired) and part.word == "overlap":
            apart = min(overlap(*(self.boxes[names[it]] for it in part.names)))
            made.by = apart if under_not else max(0, 1 - apart)
        return made

    def wrong_members(self, formula):
        """How many boxes the outermost `forall` finds its body false of, and of how many; None where it begins otherwise."""
        if not isinstance(formula, Quantified) or not formula.each:
            return None
        members = self.members(formula.set)
        return sum(not self.holds(formula.body, {formula.name: it}) for it in members), len(members)


def rate(part):
    """By how much a comparison changes where one of its boxes moves by one unit, at least 1."""
    moved = {}
    for sign, term in ((1, part.left), (-1, part.right)):
        for times, edge in term:
            if edge is not None and edge.name != "view":
                moved[edge.name] = moved.get(edge.name, 0) + sign * times
    return max([1, *map(abs, moved.values())])


def overlap(one, other):
    """By how many units two border rectangles overlap, across and down; 0 or less where they do not."""
    a, b = one.border, other.border
    return tuple(min(b[at + 2] - a[at], a[at + 2] - b[at]) for at in (0, 1))
