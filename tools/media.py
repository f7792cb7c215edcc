"""Media lists as the profile reads them (docs/PROFILE.md): which are met at a viewport's width and a default font size, and the parts of a range
by what they ask. Not proved: what is shown of an answer uses it, and the program itself refuses and counts.
"""
import re
from dataclasses import dataclass

import css_match

SCREEN = ("all", "screen")
MILLION = 1000000
# the greatest number that the profile reads, in millionths
GREATEST = 1 << 40
STRING = r"\"(?:\\.|[^\"\\\n\r\f])*\"?|'(?:\\.|[^'\\\n\r\f])*'?"
TOKEN = re.compile(rf"(?P<space>[ \t\r\n\f]+)|(?P<number>[-+]?(?:\d*\.)?\d+)(?P<unit>{css_match.NAME})?|(?P<name>{css_match.NAME})(?P<call>\()?"
                   rf"|(?P<string>{STRING})|(?P<mark>.)", re.S)
CLOSING = {"(": ")", "[": "]", "{": "}"}


@dataclass(frozen=True)
class Feature:
    """A width that is asked for: at most or at least a bound, in units of 1/64 px or in millionths of an em."""
    most: bool
    em: bool
    bound: int

    def is_met(self, w, s):
        bound = self.bound * 64 * s // MILLION if self.em else self.bound
        return 64 * w <= bound if self.most else 64 * w >= bound

    def first_above(self, s):
        """The least width at which `min` is met, or `max` no longer."""
        bound = self.bound * 64 * s // MILLION if self.em else self.bound
        return bound // 64 + 1 if self.most else -(-bound // 64)


@dataclass(frozen=True)
class Entry:
    """What stands between two commas: whether it has `not`, whether its medium is a screen's, and its features. One outside the grammar is
    never met."""
    negated: bool
    on: bool
    features: tuple

    def is_met(self, w, s):
        return (self.on and all(it.is_met(w, s) for it in self.features)) != self.negated


OUTSIDE = Entry(False, False, ())


def tokens_of(text):
    """The tokens of a prelude without its comments and white space: each a kind with what it says."""
    found = []
    for it in TOKEN.finditer(re.sub(r"/\*.*?(?:\*/|\Z)", " ", text, flags=re.S)):
        if it["number"]:
            found.append(("number", (it["number"], css_match.unescaped(it["unit"] or "").lower())))
        elif it["name"]:
            found.append(("call" if it["call"] else "name", css_match.unescaped(it["name"]).lower()))
        elif it["string"] or it["mark"]:
            found.append(("string", it["string"]) if it["string"] else ("mark", it["mark"]))
    return found


def parted(tokens):
    """The tokens between the commas outside brackets."""
    entries, closing = [[]], []
    for kind, said in tokens:
        if kind == "call" or kind == "mark" and said in CLOSING:
            closing.append(")" if kind == "call" else CLOSING[said])
        elif kind == "mark" and closing and said == closing[-1]:
            closing.pop()
        if kind == "mark" and said == "," and not closing:
            entries.append([])
        else:
            entries[-1].append((kind, said))
    return entries


def bound_of(number, unit):
    """A length in the units of a feature: whether it is in em, and how much; None where it is none."""
    sign, digits = (-1 if number[0] == "-" else 1), number.lstrip("+-")
    whole, _, part = digits.partition(".")
    millionths = sign * (int(whole or 0) * MILLION + int((part + "000000")[:6]))
    if not 0 <= millionths <= GREATEST or unit not in ("px", "em") and (unit or millionths):
        return None
    return (True, millionths) if unit == "em" else (False, millionths * 64 // MILLION)


def feature_of(tokens):
    """A feature in its brackets, or None."""
    kinds = [("mark", "("), ("name", None), ("mark", ":"), ("number", None), ("mark", ")")]
    if len(tokens) != 5 or any(kind != it[0] or said not in (None, it[1]) for (kind, said), it in zip(kinds, tokens)):
        return None
    bound = bound_of(*tokens[3][1])
    if tokens[1][1] not in ("min-width", "max-width") or bound is None:
        return None
    return Feature(tokens[1][1] == "max-width", *bound)


def entry_of(tokens):
    """One entry of a list."""
    at, negated, on, features = 0, False, True, []
    words = [said if kind == "name" else None for kind, said in tokens] + [None]
    if words[0] is not None:
        at = 1 if words[0] in ("only", "not") else 0
        negated = words[0] == "not"
        if words[at] in (None, "only", "not", "and", "or"):
            return OUTSIDE
        on, at = words[at] in SCREEN, at + 1
    elif not tokens:
        return OUTSIDE
    first = not at
    while at < len(tokens):
        if not first:
            if words[at] != "and":
                return OUTSIDE
            at += 1
        found = feature_of(tokens[at:at + 5])
        if found is None:
            return OUTSIDE
        features.append(found)
        first, at = False, at + 5
    return Entry(negated, on, tuple(features))


def entries_of(prelude):
    """The entries of a media list: none where it is empty."""
    tokens = tokens_of(prelude)
    return [entry_of(it) for it in parted(tokens)] if tokens else []


def is_met(entries, w, s):
    """Whether a list is met at a viewport's width and a default font size; None is of rules under no list."""
    return not entries or any(it.is_met(w, s) for it in entries)


def features_of(lists):
    """The features of lists, each once, by its first place."""
    return list(dict.fromkeys(it for entries in lists for entry in entries or () if entry.on for it in entry.features))


def signs(features, w, s):
    return tuple(it.is_met(w, s) for it in features)


def parts(features, widths, sizes):
    """Which features are met together at the worlds of a range: each list of signs once, with its first world, in the order of these."""
    first = {}
    for s in range(sizes[0], sizes[1] + 1):
        begins = {widths[0], *(it.first_above(s) for it in features)}
        for w in begins:
            if widths[0] <= w <= widths[1]:
                found = signs(features, w, s)
                first[found] = min(first.get(found, (w, s)), (w, s))
    return dict(sorted(first.items(), key=lambda it: it[1]))

