"""Which words of a text stand in each of its pieces, one a line, found by their widths. Not proved.

A rendering says where a text's pieces stand, not what is in them, nor in which font and size they are. A font of the job and a size are
taken with which the text's words come to exactly the widths of its pieces; where there are none, nothing is said.
"""
import re

SPACE = " \t\n\r"


class Measured:
    """A font at a size in units of 1/64 px: widths of words, as the profile rounds them."""

    def __init__(self, font, size):
        self.upem, self.default, self.size = font["upem"], font["default"], size
        self.advances = dict(font.get("advances", []))

    def width(self, word):
        return sum(self.advances.get(ord(it), self.default) for it in word) * self.size // self.upem


def sizes(font, high):
    """The sizes at which a font's ascent and descent, each rounded down, come to a height."""
    upem, ascent, descent = font["upem"], font["ascent"], font["descent"]
    if ascent + descent == 0:
        return []
    first = high * upem // (ascent + descent)
    last = (high + 2) * upem // (ascent + descent) + 1
    return [it for it in range(first, last + 1) if ascent * it // upem + descent * it // upem == high]


def tokens_of(text):
    """Words, and one space for each run of white space."""
    return [" " if it[0] in SPACE else it for it in re.findall(r"[ \t\n\r]+|[^ \t\n\r]+", text)]


def filled(tokens, at, wide, font):
    """The place behind the tokens from a place on that are exactly so wide, or None."""
    left = wide
    while at < len(tokens):
        width = font.width(tokens[at])
        if width > left:
            break
        left, at = left - width, at + 1
    return at if left == 0 else None


def fitted(tokens, widths, font):
    """The words of each piece, or None where they don't come to the pieces' widths."""
    at, found = 0, []
    for wide in widths:
        # spaces at the two ends of a line go
        starts = [at] + ([at + 1] if at < len(tokens) and tokens[at] == " " else [])
        end, begin = next(((end, it) for it in starts if (end := filled(tokens, it, wide, font)) is not None and end > it), (None, at))
        if end is None:
            return None
        found.append("".join(tokens[begin:end]))
        at = end
    return found if all(it == " " for it in tokens[at:]) else None


def words_of(job, boxes):
    """The words of each text box that can be told, by its place."""
    pieces, told = {}, {}
    for at, box in enumerate(boxes):
        if box.kind == "text":
            pieces.setdefault(box.node, []).append(at)
    for node, places in pieces.items():
        tokens = tokens_of(job.nodes[node].text)
        widths = [boxes[it].border[2] - boxes[it].border[0] for it in places]
        first = boxes[places[0]].border
        tried = (Measured(font, size) for font in job.fonts for size in sizes(font, first[3] - first[1]))
        found = next(filter(None, (fitted(tokens, widths, font) for font in tried)), None)
        told.update(zip(places, map(job.shown, found or [])))
    return told
