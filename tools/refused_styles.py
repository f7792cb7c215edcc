"""The styles of the pages in boxes.jsonl that are refused, for which that file has no styles.

Those pages use little of CSS: the displays of the default style sheet, the margin of `body`, and in style attributes `display`,
`margin`, `padding` and `width`, the lengths as percentages or 0. This is no cascade: it reads nothing else.
"""
BLOCKS = {"html", "body", "div", "p", "ul", "li"}
DISPLAYS = {"block": "Block", "inline": "Inline"}
ZERO = ["Px", 0]


def length(text):
    return ["Pct", int(text[:-1]) * 10**6] if text.endswith("%") else ZERO


def four(text):
    values = [length(word) for word in text.split()]
    return [values[0], values[1 % len(values)], values[2 % len(values)] if len(values) > 2 else values[0], values[-1] if len(values) != 3 else values[1]]


def element_style(element, sheets):
    style = {"display": "Block" if element["tag"].lower() in BLOCKS else "Inline"}
    if element["tag"] == "body":
        if not any("body{margin:0}" in sheet for sheet in sheets):
            style["margin"] = [["Px", 512]] * 4
        if any("body{display:inline!important}" in sheet for sheet in sheets):
            style["display"] = "Inline"
    for declaration in filter(None, element.get("attrs", {}).get("style", "").split(";")):
        name, value = declaration.split(":", 1)
        if name == "display":
            style["display"] = DISPLAYS[value]
        elif name in ("margin", "padding"):
            style[name] = four(value)
        elif name == "width":
            style[name] = length(value)
    return style


def styles_of(page, sheets):
    """One style a node, in document order; a text has its parent's."""
    found = []

    def walk(node, above):
        if isinstance(node, str):
            found.append(above)
            return
        style = element_style(node, sheets)
        found.append(dict(style))
        for child in node.get("children", []):
            walk(child, style)

    walk(page, None)
    found[0]["size"] = ["Default", 1, 1]
    return found
