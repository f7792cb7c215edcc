"""Documents of the worked pages, whose renderings `layout_semantics` states as laws: each is read from its definition in specs/Example*.antt.

A law of a worked page speaks of any proof that its tree is one. Here the program builds that tree from a document, so each page has such a
proof; a font size of 2/1 of the parent's stands in millionths then. The words of Examples.antt, as `block_style`, stand here once more.
"""
import pathlib
import re

from tree_documents import BOX, STYLE, font_of, job, page_of, told_tree

SPECS = pathlib.Path(__file__).resolve().parent.parent / "crates/layout_semantics/specs"
TOKEN = re.compile(r'\s*(?:(\d+)|"([^"]*)"|([\w.\'-]+)|(\[\]|[(){};=,∷]))')


# ---- the expressions of definitions

class Reader:
    """Reads one expression: numbers, texts, names, lists, pairs, records and applications."""

    def __init__(self, text, names):
        self.tokens = [it for it in TOKEN.findall(text)]
        self.at, self.names = 0, names

    def peek(self):
        number, text, name, mark = self.tokens[self.at] if self.at < len(self.tokens) else ("", "", "", "end")
        return mark or name or None

    def take(self, mark):
        assert self.peek() == mark, (mark, self.tokens[self.at:self.at + 5])
        self.at += 1

    def expression(self):
        """An application, or a list of them."""
        first = self.application()
        if self.peek() != "∷":
            return first
        self.take("∷")
        return [first, *self.expression()]

    def application(self):
        head, arguments = self.atom(), []
        while self.peek() not in ("∷", ")", "}", ";", ",", "end"):
            arguments.append(self.atom())
        return head(*arguments) if arguments else head

    def atom(self):
        number, text, name, mark = self.tokens[self.at]
        self.at += 1
        if number:
            return int(number)
        if name == "record":
            base = {} if self.peek() == "{" else self.atom()
            return {**base, **self.fields()}
        if name:
            return self.names[name]
        if mark == "[]":
            return []
        if mark == "(":
            inner = self.expression()
            if self.peek() == ",":
                self.take(",")
                inner = [inner, self.expression()]
            self.take(")")
            return inner
        return text

    def fields(self):
        self.take("{")
        told = {}
        while self.peek() != "}":
            field = self.peek()
            self.at += 1
            self.take("=")
            told[field] = self.expression()
            if self.peek() == ";":
                self.take(";")
        self.take("}")
        return told


# ---- the words of Examples.antt

def box(kind, **more):
    def made(node, parent, *rest):
        return {**BOX, "kind": kind, "node": node, "parent": parent, **more, **dict(zip(("kids",), rest))}
    return made


def text_box(node, parent, chars):
    return {**box("Chars")(node, parent), "chars": chars}


def image_box(node, parent, width, height):
    return {**box("Replaced")(node, parent), "size": [width, height]}


def styled_page(html, kids, boxes, styles):
    root = {**BOX, "kind": "Block", "node": 0, "parent": None, "kids": [1], "context": True, "block_level": True}
    every = [root, NAMES["block_box"](1, 0, kids), *boxes]
    return {"boxes": every, "styles": [{**html, "size": ["Default", 1, 1]}, BLOCK, *styles], "fonts": [SQUARE],
            "parents": [it["parent"] for it in every]}


def page(kids, boxes, styles):
    return styled_page(BLOCK, kids, boxes, styles)


def parent_size(number, parts):
    """A document gives its fraction in millionths."""
    return ["Parent", number * 10**6 // parts, 10**6]


BLOCK = {**STYLE, "display": "Block"}
SQUARE = {"name": "Square", "upem": 1000, "ascent": 800, "descent": 200, "other": 500, "advances": []}
NAMES = {
    "nothing": ["Px", 0], "block_style": BLOCK, "square": SQUARE, "true": True, "false": False, "None": None, "Some": lambda it: it, "pos": lambda it: it,
    "px": lambda n: ["Px", 64 * n], "percent": lambda n: ["Pct", 10**6 * n], "sides": lambda *four: list(four), "letters": lambda n: "a" * n,
    "codes": lambda text: text, "page": page, "styled_page": styled_page, "text_box": text_box, "image_box": image_box, "block_box": box("Block", block_level=True),
    "context_box": box("Block", context=True, block_level=True), "floated_box": box("Float", context=True, block_level=True),
    "inline_box": box("Inline"), "inline_block_box": box("Atomic", context=True), "of_length.Auto": "Auto", "of_length.Px": lambda n: ["Px", n],
    "of_length.Pct": lambda n: ["Pct", n], "of_length.Em": lambda k, node: ["Em", k, node], "of_size.Parent": parent_size,
    **{f"of_{kind}.{word}": word for kind, words in (("display", "Block Inline InlineBlock"), ("side", "Left Right"), ("clear", "Left Right Both"),
                                                     ("align", "Left Right Center"), ("valign", "Super Sub")) for word in words.split()},
}


def pages():
    """The worked pages by their names."""
    names, found = dict(NAMES), {}
    for path in sorted(SPECS.glob("Example*.antt"), key=lambda it: it.stem != "Examples"):
        text = path.read_text(encoding="utf-8")
        for name, kind, body in re.findall(r"^abbrev pub (\w+) : (PlainStyle|PlainTree)\n\1 = ((?:.+\n)+)", text, re.M):
            if name in NAMES:
                continue
            names[name] = Reader(body, names).expression()
            if kind == "PlainTree":
                found[name] = names[name]
    return found


def cases():
    """The document of each, and its boxes and styles."""
    for tree in pages().values():
        yield ["boxes", job(page_of(tree), [font_of(font) for font in tree["fonts"]]), 320, 16], told_tree(tree["boxes"], tree["styles"])
