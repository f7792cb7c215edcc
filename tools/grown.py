"""A job's page with its generated content as nodes, as the program counts them (docs/PROFILE.md). Not proved: what is shown of an answer uses it.

Which strings win as `content` at an element's `:before` and `:after` is found by the rules of the job's sheets that are met at a viewport's
width and a default font size. Of a page that the profile refuses for its generated content there is no layout, and so nothing to count.
"""
import re

import css_match
import media

COMMENT = r"/\*.*?(?:\*/|\Z)"
# a token's beginning decides which brackets it opens or closes
ADDRESS = rf"\burl\(\s*(?:{media.STRING}|(?:\\.|[^\"'()\\])*)\s*\)"
TOKEN = re.compile(rf"{COMMENT}|{media.STRING}|{ADDRESS}|<!--|-->|\\.|[^\"'\\/<(){{}}\[\];u-]+|.", re.I | re.S)
AT_RULE = re.compile(rf"@({css_match.NAME})")
CLOSING = {"(": ")", "[": "]", "{": "}"}


def tokens(text):
    return [found[0] for found in TOKEN.finditer(text)]


def bare(found):
    """The text of tokens, without comments."""
    return "".join(" " if it.startswith("/*") else it for it in found)


def seek(found, at, marks):
    """Where the first of these marks stands outside brackets from a place on, or the end."""
    closing = []
    while at < len(found):
        one = found[at]
        if closing and one == closing[-1]:
            closing.pop()
        elif not closing and one in marks:
            return at
        elif one in CLOSING:
            closing.append(CLOSING[one])
        at += 1
    return at


def parted(found, mark):
    """Tokens between the marks outside brackets."""
    at, parts = 0, []
    while at <= len(found):
        end = seek(found, at, mark)
        parts.append(found[at:end])
        at = end + 1
    return parts


def statements(found):
    """The statements of a sheet: what stands before a block, and the block; None where there is none."""
    at = 0
    while at < len(found):
        if not found[at].strip() or found[at].startswith("/*") or found[at] in ("<!--", "-->"):
            at += 1
            continue
        # a few tokens hold the keyword
        end = seek(found, at, "{;" if AT_RULE.match(bare(found[at:at + 9]).lstrip()) else "{")
        head, block = found[at:end], None
        if end < len(found) and found[end] == "{":
            close = seek(found, end + 1, "}")
            block, end = found[end + 1:close], close
        yield head, block
        at = end + 1


def rules(found, under=None):
    """The rules of a sheet, each as its selector's text, its block's tokens and the media list that it stands under; None where it stands
    under none."""
    for head, block in statements(found):
        text = bare(head).strip()
        name = AT_RULE.match(text)
        if block is None:
            continue
        if not name:
            yield "".join(head), block, under
        elif under is None and css_match.unescaped(name[1]).lower() == "media":
            yield from rules(block, media.entries_of(text[name.end():]))


def features(css):
    """What the rules of sheets ask of the viewport's width, each once, by its first place."""
    return media.features_of(under for text in css for _, _, under in rules(tokens(text)))


# ---- content

MADE = (":before", ":after")
REFUSED = ("open-quote", "close-quote", "no-open-quote", "no-close-quote")


def string(token):
    """What a string says."""
    closed = len(token) > 1 and token[-1] == token[0]
    text = re.sub(r"\\(?:\r\n|[\n\r\f])", "", token[1:len(token) - closed])
    return css_match.unescaped(text)


def content_of(value):
    """Whether a value of `content` is one, and its text, None where it has none."""
    found = [it for it in value if it.strip() and not it.startswith("/*")]
    if found and all(it[0] in "\"'" for it in found):
        return True, "".join(map(string, found))
    words = css_match.unescaped(bare(value)).split()
    if len(words) == 1 and words[0].lower() in ("normal", "none", "inherit"):
        return True, None
    return any(it == "(" or it.lower().startswith("url(") for it in found) or any(it.lower() in REFUSED for it in words), None


def contents(block):
    """The values of `content` that a block declares, and whether each is important."""
    for tokens_of in parted(block, ";"):
        name, mark, value = bare(tokens_of).partition(":")
        if not mark or css_match.unescaped(name).strip().lower() != "content":
            continue
        at = next(at for at, it in enumerate(tokens_of) if ":" in it and not it.startswith("/*"))
        rest = [tokens_of[at].partition(":")[2], *tokens_of[at + 1:]]
        important = re.search(r"!\s*((?:[-\w]|\\[^\n]\s?)+)\s*$", value)
        is_important = bool(important) and css_match.unescaped(important[1]).strip().lower() == "important"
        if is_important:
            end = max(at for at, it in enumerate(rest) if "!" in it and it[0] not in "\"'")
            rest = [*rest[:end], rest[end].partition("!")[0]]
        is_one, text = content_of(rest)
        if is_one:
            yield is_important, text


def winners(page, css, world):
    """The texts that win at the elements' `:before` and `:after` at a world, by which of the two and the element's number on the page as it is
    written."""
    found, places = {}, css_match.places_of(page)
    for sheet, text in enumerate(css):
        for at, (selector, block, under) in enumerate(rules(tokens(text))):
            is_of_made = re.search(r"before|after|\\", selector, re.I) and media.is_met(under, *world[:2])
            given = list(contents(block)) if is_of_made else []
            if not given:
                continue
            try:
                group = css_match.group_of(selector, True)
            except css_match.BadSelector:
                continue
            for steps in group:
                made = steps[-1].made
                for place in places if made else ():
                    if not css_match.met(place, steps):
                        continue
                    for number, (is_important, said) in enumerate(given):
                        rank = (is_important, css_match.weight(steps), sheet, at, number)
                        key = (made, place.node)
                        if key not in found or found[key][0] <= rank:
                            found[key] = (rank, said)
    return {key: said for key, (_, said) in found.items() if said is not None}


def grown(page, css, world):
    """The page with its generated content at a world, as elements with the tags `:before` and `:after`; and the numbers on it of the nodes that
    are written, in their order."""
    said = winners(page, css, world)
    count, numbers = 0, []

    def made(which, node):
        text = said.get((which, node))
        return [] if text is None else [{"tag": f":{which}", "children": [text] if text else []}]

    def whole(node):
        nonlocal count
        number = count
        count += 1
        if isinstance(node, str):
            return node
        takes = "size" not in node and node["tag"].lower() not in ("img", "br")
        children = [whole(it) for it in node.get("children", [])]
        return {**node, "children": (made("before", number) if takes else []) + children + (made("after", number) if takes else [])}

    def number_nodes(node, is_made):
        nonlocal count
        if not is_made:
            numbers.append(count)
        count += 1
        if not isinstance(node, str):
            for child in node["children"]:
                number_nodes(child, is_made or (not isinstance(child, str) and child["tag"] in MADE))

    full = whole(page)
    count = 0
    number_nodes(full, False)
    return full, numbers
