"""Reads an assertion by its grammar, and tells where it is none and what is awaited there. Not proved; docs/FORMATS.md has the grammar."""
import re

TOKEN = re.compile(r"(?P<space>[ \t\n]+)|(?P<number>(?:0|[1-9][0-9]*)(?:px(?![a-z0-9]))?)|(?P<word>[a-z][a-z0-9]*)|(?P<string>\"[^\"]*\")"
                   r"|(?P<mark><=|>=|!=|[<>=(),:.+*-])")
KINDS = ("block", "anon", "float", "atomic", "replaced", "inline", "text", "line", "box")
SIDES = ("left", "top", "right", "bottom")
RINGS = ("margin", "padding", "content")
SIGNS = ("<=", "<", ">=", ">", "=", "!=")
MEANT = {"forall", "exists", "in", "implies", "or", "and", "not", "overlap", "same", "true", "false", "view", "width", "height", *KINDS, *SIDES,
         *RINGS}


class BadRule(Exception):
    """What is wrong with an assertion: the place, what was awaited, and the line with a caret under the place."""

    def __init__(self, text, at, awaited):
        begin = text.rfind("\n", 0, at) + 1
        end = text.find("\n", at)
        row = text[begin:end if end >= 0 else len(text)].replace("\t", " ")
        place = at - begin
        left = max(0, place - 60)
        cut = ("… " if left else "") + row[left:left + 110]
        caret = " " * (place - left + (2 if left else 0)) + "^"
        super().__init__(f"the rule can't be read at character {at}: {awaited}\n  {cut}\n  {caret}")
        self.at = at


class Reader:
    def __init__(self, text):
        self.text, self.tokens, self.next, self.depth = text, [], 0, 0
        at = 0
        while at < len(text):
            found = TOKEN.match(text, at)
            if not found:
                wrong = "a string without its end" if text[at] == '"' else "a character that begins no word of a rule"
                self.tokens.append(("bad", wrong, at))
                break
            if found.lastgroup != "space":
                self.tokens.append((found.lastgroup, found[0], at))
            at = found.end()
        else:
            self.tokens.append(("end", "", len(text)))

    def fail(self, awaited):
        kind, text, at = self.tokens[self.next]
        raise BadRule(self.text, at, text if kind == "bad" else f"{awaited} is awaited" + (", and the rule ends" if kind == "end" else ""))

    def has(self, *texts):
        kind, text, _ = self.tokens[self.next]
        return kind not in ("string", "bad") and text in texts

    def take(self, *texts, awaited=None):
        if not self.has(*texts):
            self.fail(awaited or " or ".join(f"`{it}`" for it in texts))
        self.next += 1

    def name(self, bound, what="a name"):
        kind, text, at = self.tokens[self.next]
        if kind != "word" or text in MEANT:
            self.fail(f"{what} (a word of a to z and digits without a meaning of its own)")
        if bound is not None and text not in bound:
            raise BadRule(self.text, at, f"no `forall` or `exists` around it names `{text}`")
        self.next += 1
        return text

    def formula(self, bound):
        if self.has("forall", "exists"):
            self.next += 1
            name = self.name(None)
            self.take("in")
            kind, text, _ = self.tokens[self.next]
            if kind != "string" and text not in KINDS:
                self.fail(f"a set ({', '.join(KINDS)}, or a selector in double quotes)")
            self.next += 1
            self.take(":")
            self.formula(bound | {name})
            return
        self.joined(bound)
        if self.has("implies"):
            self.next += 1
            self.formula(bound)

    def joined(self, bound):
        self.unary(bound)
        while self.has("or", "and"):
            self.next += 1
            self.unary(bound)

    def unary(self, bound):
        if self.has("not"):
            self.next += 1
            self.unary(bound)
        elif self.has("("):
            self.next += 1
            self.formula(bound)
            self.take(")", awaited="`)`, `and`, `or` or `implies`")
        elif self.has("true", "false"):
            self.next += 1
        elif self.has("overlap", "same"):
            self.next += 1
            self.take("(")
            self.name(bound)
            self.take(",")
            self.name(bound)
            self.take(")")
        else:
            self.term(bound, "a comparison, `not`, `(`, `overlap`, `same`, `true` or `false`")
            self.take(*SIGNS, awaited="`+`, `-` or a sign of comparison (<= < >= > = !=)")
            self.term(bound, "a number or an edge, as `b.left`")

    def term(self, bound, awaited):
        if self.has("-"):
            self.next += 1
        while True:
            kind, text, _ = self.tokens[self.next]
            if kind == "number":
                self.next += 1
                if not text.endswith("px") and self.has("*"):
                    self.next += 1
                    self.edge(bound, "an edge, as `b.left`,")
            else:
                self.edge(bound, awaited)
            if not self.has("+", "-"):
                return
            self.next += 1
            awaited = "a number or an edge, as `b.left`"

    def edge(self, bound, awaited):
        if self.has("view"):
            self.next += 1
            self.take(".")
            self.take("width", "height")
            return
        kind, text, _ = self.tokens[self.next]
        if kind != "word" or text in MEANT:
            self.fail(awaited)
        self.name(bound)
        self.take(".")
        if self.has(*RINGS):
            self.next += 1
            self.take(".")
            self.take(*SIDES)
        else:
            self.take(*SIDES, *RINGS)


def check(text):
    """Raises BadRule where the text is no assertion."""
    reader = Reader(text)
    reader.formula(frozenset())
    if reader.tokens[reader.next][0] != "end":
        reader.fail("`and`, `or`, `implies` or the rule's end")


def sets(text):
    """The kinds of boxes over which the assertion goes."""
    return re.findall(rf"\bin\s+({'|'.join(KINDS)})\s*:", text)
