"""Which elements of a job's page a group of CSS 2.1 selectors meets (chapter 5). Not proved: what is shown of an answer uses it.

Names of types and attributes are compared without ASCII case, values exactly, as the profile has it. The dynamic pseudo-classes meet
nothing; what the profile refuses by name, and what is no selector, is BadSelector.
"""
import re
from dataclasses import dataclass

SPACE = " \t\r\n\f"
ESCAPE = r"\\[0-9a-fA-F]{1,6}[ \t\r\n\f]?|\\[^\r\n\f0-9a-fA-F]"
NAME = rf"-?(?:[_a-zA-Z\u00a0-\U0010ffff]|{ESCAPE})(?:[-_a-zA-Z0-9\u00a0-\U0010ffff]|{ESCAPE})*"
TOKEN = re.compile(rf"""(?P<comment>/\*.*?\*/)|(?P<space>[ \t\r\n\f]+)|(?P<mark>[>+,*])|\#(?P<id>{NAME})|\.(?P<kind>{NAME})|(?P<colons>::?)(?:/\*.*?\*/)*(?P<pseudo>{NAME})
    |\[\s*(?P<attr>{NAME})\s*(?:(?P<sign>[~|]?=)\s*(?:(?P<word>{NAME})|"(?P<double>[^"]*)"|'(?P<single>[^']*)')\s*)?\]|(?P<type>{NAME})""",
                   re.X | re.S)
NOTHING = ("visited", "hover", "active", "focus")


class BadSelector(Exception):
    """Why a text is no group of selectors that can be matched, as one line."""


@dataclass
class Step:
    """A simple selector, how the one before it stands to it: descendant (a space), child (>), or sibling (+), what it counts for (ids,
    attributes with classes, types), and the pseudo-element at its end."""
    sign: str
    tests: list
    counts: tuple = (0, 0, 0)
    made: str | None = None


@dataclass
class Place:
    """An element in its page: the number of its node, its parent's place, and the place of the element before it."""
    node: int
    element: dict
    above: "Place | None"
    before: "Place | None"

    def attribute(self, name):
        return next((value for key, value in self.element.get("attrs", {}).items() if key.lower() == name), None)


def unescaped(text):
    def char(found):
        code = found[1]
        if not code:
            return found[0][1:]
        return chr(int(code, 16)) if 0 < int(code, 16) < 0x110000 and not 0xd800 <= int(code, 16) < 0xe000 else "\ufffd"
    return re.sub(r"\\(?:([0-9a-fA-F]{1,6})[ \t\r\n\f]?|.)", char, text, flags=re.S)


def words(text):
    return [it for it in re.split(r"[ \t\r\n\f]+", text or "") if it]


def attribute_test(found):
    name, sign = unescaped(found["attr"]).lower(), found["sign"]
    value = unescaped(next((found[it] for it in ("word", "double", "single") if found[it] is not None), ""))

    def holds(place):
        has = place.attribute(name)
        if has is None or sign is None:
            return has is not None
        if sign == "=":
            return has == value
        if sign == "~=":
            return value in words(has)
        return has == value or has.startswith(value + "-")
    return holds


def pseudo_test(name):
    if name in NOTHING:
        return lambda place: False
    if name == "link":
        return lambda place: place.element["tag"].lower() == "a" and place.attribute("href") is not None
    if name == "first-child":
        return lambda place: place.above is not None and place.before is None
    raise BadSelector(f":{name} is not matched here")


def test_of(found):
    if found["attr"]:
        return attribute_test(found)
    if found["pseudo"]:
        return pseudo_test(unescaped(found["pseudo"]).lower())
    if found["id"]:
        value = unescaped(found["id"])
        return lambda place: place.attribute("id") == value
    if found["kind"]:
        value = unescaped(found["kind"])
        return lambda place: value in words(place.attribute("class"))
    tag = unescaped(found["type"]).lower()
    return lambda place: place.element["tag"].lower() == tag


def counted(step, found):
    """What a simple selector counts for with one more part."""
    at = 0 if found["id"] else 2 if found["type"] or made_of(found) else 1
    return step.counts if found["mark"] else tuple(count + (place == at) for place, count in enumerate(step.counts))


def weight(steps):
    """A selector's specificity: its ids, its attributes with classes and pseudo-classes, its types with pseudo-elements."""
    return tuple(map(sum, zip(*(it.counts for it in steps))))


def made_of(found):
    """The pseudo-element with generated content that a token is."""
    name = found["pseudo"] and unescaped(found["pseudo"]).lower()
    return name if name in ("before", "after") else None


def group_of(text, is_of_sheet=False):
    """A group of selectors, each a list of steps from the left to the right. Only in a sheet may one end with a pseudo-element."""
    group, steps, sign, at, spaced = [], [], None, 0, False
    text = text.strip(SPACE)
    while at < len(text):
        found = TOKEN.match(text, at)
        if not found:
            raise BadSelector(f"no selector at {text[at:at + 20]!r}")
        at = found.end()
        if found["comment"]:
            continue
        if found["space"]:
            spaced = True
        elif found["mark"] == ",":
            if not steps or sign:
                raise BadSelector("a comma without a selector before it")
            group, steps, sign, spaced = group + [steps], [], None, False
        elif found["mark"] in (">", "+"):
            if not steps or sign:
                raise BadSelector(f"{found['mark']} without a selector before it")
            sign, spaced = found["mark"], False
        else:
            if not steps or sign or spaced:
                steps = steps + [Step(sign or " ", [])]
            elif found["mark"] or found["type"]:
                raise BadSelector("a type behind another part of its selector")
            sign, spaced = None, False
            if any(it.made for it in steps) or (found["colons"] == "::" and not made_of(found)) or (made_of(found) and not is_of_sheet):
                raise BadSelector("a pseudo-element that can't stand there")
            steps[-1].counts = counted(steps[-1], found)
            if made_of(found):
                steps[-1].made = made_of(found)
            else:
                steps[-1].tests.append((lambda place: True) if found["mark"] else test_of(found))
    if not steps or sign:
        raise BadSelector("a selector is missing")
    return group + [steps]


def met(place, steps):
    """Whether a selector meets an element."""
    if not all(test(place) for test in steps[-1].tests):
        return False
    if len(steps) == 1:
        return True
    sign, rest = steps[-1].sign, steps[:-1]
    if sign == ">":
        return place.above is not None and met(place.above, rest)
    if sign == "+":
        return place.before is not None and met(place.before, rest)
    above = place.above
    while above is not None and not met(above, rest):
        above = above.above
    return above is not None


def places_of(page):
    """The elements of a page in document order, nodes counted as the program counts them, texts among them."""
    places, count, waiting = [], 0, [(page, None, None)]
    while waiting:
        node, above, row = waiting.pop()
        if not isinstance(node, str):
            place = Place(count, node, above, row[-1] if row else None)
            places.append(place)
            if row is not None:
                row.append(place)
            children = []
            waiting.extend((it, place, children) for it in reversed(node.get("children", [])))
        count += 1
    return places


def nodes_met(page, text):
    """The nodes of the elements that a group of selectors meets."""
    group = group_of(text)
    return {place.node for place in places_of(page) if any(met(place, steps) for steps in group)}
