"""Documents that have a box tree, and box trees as the crate `test_layout` tells them.

A tree has `boxes`, `styles`, `fonts` and `parents`, as tools/layout_vectors.py says. Its document has an element or a text for each node;
the values of a style become declarations of the element's style attribute, and those of a text are its parent's.
"""
import json

ZERO = ["Px", 0]
SIDES = ("top", "right", "bottom", "left")
STYLE = {"display": "Inline", "float": None, "clear": "Nothing", "clips": False, "width": "Auto", "min_width": ZERO, "max_width": None,
         "height": "Auto", "min_height": ZERO, "max_height": None, "margin": [ZERO] * 4, "padding": [ZERO] * 4, "border": [ZERO] * 4,
         "size": "Same", "font": 0, "line": ["Own", 6, 5], "valign": "Baseline", "align": "Left", "wraps": True}
BOX = {"kids": [], "chars": "", "size": None, "context": False, "block_level": False}
DISPLAYS = {"Hidden": "none", "Block": "block", "Inline": "inline", "InlineBlock": "inline-block"}
SIZES = {(3, 5): "xx-small", (3, 4): "x-small", (8, 9): "small", (1, 1): "medium", (6, 5): "large", (3, 2): "x-large", (2, 1): "xx-large"}
STEPS = {(6, 5): "larger", (5, 6): "smaller"}


class NoDocument(Exception):
    """No document has the tree."""


# ---- documents

def millionths(number):
    """A decimal number, given in millionths."""
    whole, rest = divmod(abs(number), 10**6)
    digits = f"{whole}.{rest:06}".rstrip("0").rstrip(".")
    return ("-" if number < 0 else "") + digits


def pixels(units):
    return millionths(units * 15625) + "px"


def length(node, value):
    if value is None:
        return "none"
    if value == "Auto":
        return "auto"
    if value[0] == "Px":
        return pixels(value[1])
    if value[0] == "Pct":
        return millionths(value[1]) + "%"
    if value[2] != node:
        raise NoDocument("a length in ems of another node")
    return millionths(value[1]) + "em"


def fraction(number, parts):
    if parts == 10**6:
        return millionths(number) + "em"
    if parts == 10**8:
        return millionths(number) + "%"
    raise NoDocument(f"a fraction of {parts} parts")


def font_size(value):
    if value[0] == "Px":
        return pixels(value[1])
    if value[0] == "Parent":
        return STEPS.get(tuple(value[1:])) or fraction(*value[1:])
    if tuple(value[1:]) not in SIZES:
        raise NoDocument("a part of the default font size that has no name")
    return SIZES[tuple(value[1:])]


def line_height(node, value):
    if value[0] == "Px":
        return pixels(value[1])
    if value == ["Own", 6, 5]:
        return "normal"
    if value[0] == "Own" and value[2] == 10**6:
        return millionths(value[1])
    if value[0] == "OfNode" and value[1] == node:
        return fraction(*value[2:])
    raise NoDocument("a line height that no declaration gives")


def family(name):
    return '"' + name.replace("\\", "\\\\").replace('"', '\\"') + '"'


def own_declarations(node, style):
    """What is declared of the properties that do not inherit."""
    words = {"display": DISPLAYS[style["display"]], "float": (style["float"] or "none").lower(),
             "clear": style["clear"].lower().replace("nothing", "none"), "overflow": "hidden" if style["clips"] else "visible"}
    valign = style["valign"]
    words["vertical-align"] = valign.lower() if isinstance(valign, str) else length(node, valign[1])
    for name in ("width", "min_width", "max_width", "height", "min_height", "max_height"):
        words[name.replace("_", "-")] = length(node, style[name])
    for name in ("margin", "padding"):
        words.update({f"{name}-{side}": length(node, value) for side, value in zip(SIDES, style[name])})
    for side, value in zip(SIDES, style["border"]):
        words[f"border-{side}"] = "none" if value == ZERO else length(node, value) + " solid"
    return words


def declarations(node, style, parent, fonts):
    """The declarations that give a node its style, beside its parent's; those of initial and inherited values are left out."""
    initial = own_declarations(node, STYLE)
    told = [f"{name}:{value}" for name, value in own_declarations(node, style).items() if value != initial[name]]
    if style["size"] != "Same":
        told.append("font-size:" + font_size(style["size"]))
    if style["line"] != parent["line"]:
        told.append("line-height:" + line_height(node, style["line"]))
    if style["font"] != parent["font"]:
        told.append("font-family:" + family(fonts[style["font"]]["name"]))
    if style["align"] != parent["align"]:
        told.append("text-align:" + style["align"].lower())
    if style["wraps"] != parent["wraps"]:
        told.append("white-space:" + ("normal" if style["wraps"] else "nowrap"))
    return ";".join(told)


def text_of(box, style, parent):
    """The characters of a text node, which has a box of them or none."""
    if style != {**parent, "size": "Same"}:
        raise NoDocument("a text with a style that is not its parent's")
    return box["chars"] if box else ""


def element_of(box, words):
    element = {"tag": {"Break": "br", "Replaced": "img"}.get(box and box["kind"], "x")}
    if words:
        element["attrs"] = {"style": words}
    if box and box["size"]:
        element["size"] = box["size"]
    return element


def page_of(tree):
    """The root element of a document that has the tree."""
    styles = [{**STYLE, **style} for style in tree["styles"]]
    boxes = {}
    for box in tree["boxes"]:
        if box["kind"] != "Anon":
            boxes[box["node"]] = {**BOX, **box}
    made = []
    for node, (style, parent) in enumerate(zip(styles, tree["parents"])):
        box, above = boxes.get(node), STYLE if parent is None else styles[parent]
        if box["kind"] == "Chars" if box else style["display"] != "Hidden":
            made.append(text_of(box, style, above))
        else:
            made.append(element_of(box, declarations(node, style, above, tree["fonts"])))
        if parent is not None:
            made[parent].setdefault("children", []).append(made[node])
    return made[0]


def font_of(font):
    return {"name": font["name"], "upem": font["upem"], "ascent": font["ascent"], "descent": font["descent"], "default": font["other"],
            "advances": font["advances"]}


def square(name):
    return {"name": name, "upem": 1000, "ascent": 800, "descent": 200, "default": 500}


def job(page, fonts, css=(), height=600, width=320, size=16):
    """The text of a job of one world."""
    parts = {"vizlog": 1, "widths": [width, width], "sizes": [size, size], "height": height, "fonts": fonts}
    if css:
        parts["css"] = css
    return json.dumps({**parts, "page": page, "assert": "true"}, ensure_ascii=False, separators=(",", ":"))


def job_of(case):
    """The text of the job with a case's tree, at its world."""
    tree = case["tree"]
    return job(page_of(tree), [font_of(font) for font in tree["fonts"]], (), case["height"], case["w"], case["s"])


# ---- trees as they are told: an absolute length is its units alone

def told_length(value):
    return value[1] if isinstance(value, list) and value[0] == "Px" else value


def told_valign(value):
    return value if isinstance(value, str) else ["Raise", told_length(value[1])]


def told_style(given):
    style = {**STYLE, **given}
    for name in ("width", "min_width", "max_width", "height", "min_height", "max_height"):
        style[name] = told_length(style[name])
    for name in ("margin", "padding", "border"):
        style[name] = [told_length(value) for value in style[name]]
    style["valign"] = told_valign(style["valign"])
    return [style[name] for name in STYLE]


def told_box(given):
    box = {**BOX, **given}
    return [box[name] for name in ("kind", "node", "parent", "kids", "chars", "size", "context", "block_level")]


def told_tree(boxes, styles):
    return [[told_box(box) for box in boxes], [told_style(style) for style in styles]]
