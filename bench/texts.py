#!/usr/bin/env python3
"""Measures the search over pages of text: turns, leaves, grids, the certificate's bytes, and processor seconds of `prove` and `check`.

A page is named by a letter and its number of words:

- P, one paragraph, and M, the same in a font whose letters are all as wide: nothing sticks out sideways;
- S, paragraphs of 40 words in a column of at most 40em: no two texts overlap;
- H, such paragraphs with a heading before each, and a footer behind them: the title ends above that footer;
- F, a paragraph beside a float, with a box below both: the float and the box do not overlap;
- N, six links, a paragraph and a link: each link is at least 24 px wide and high;
- C, a centred title and paragraph with 10 % of padding: nothing sticks out sideways;
- Q, two columns of nested percentages: each stays in the page's container.

Words are of 1 to 11 letters, as often as in English, and the same in each run; the font has Helvetica's advances. Each page is proved over
320 to 1,920 px by 12 to 24 px, and with `-16` behind its name over these widths at 16 px alone, with the first number of turns of a list
that decides; its certificate is to be accepted. With a second program all this is measured of that one too, and the ratios are those of
the first program to the second.

Run it at the top: bench/texts.py [PROGRAM] [OTHER] [--pages P30,F30,..] [--turns 64,..] [--seconds N]
"""
import argparse
import json
import os
import random
import tempfile

from programs import BUILT, Search, tell_ratios

TURNS = (64, 128, 256, 328, 512, 1024, 2048)
LETTERS = "etaoinshrdlucmfwypvbgkjqxz"
OFTEN = (12.7, 9.1, 8.2, 7.5, 7, 6.7, 6.3, 6.1, 6, 4.3, 4, 2.8, 2.8, 2.4, 2.4, 2.2, 2, 1.9, 1, 1.5, 2, 0.8, 0.15, 0.1, 0.15, 0.07)
LENGTHS = (3, 17, 20, 15, 11, 9, 8, 6, 4, 3, 2)
THIN = {278: " ft", 222: "ijl", 500: "cksvxyz", 833: "m", 333: "r", 722: "w"}
HELVETICA = {"name": "Helv", "upem": 1000, "ascent": 718, "descent": 207, "default": 556,
             "advances": sorted([ord(letter), wide] for wide, letters in THIN.items() for letter in letters)}
SQUARE = {"name": "Square", "upem": 1000, "ascent": 800, "descent": 200, "default": 500}
SHEET = "body{margin:0;line-height:1.5} h1{font-size:2em;margin:.67em 0} h2{font-size:1.5em;margin:.83em 0} p{margin:1em 0} "
REFLOW = "forall b in box: b.left >= 0 and b.right <= view.width"
CARDS = 'forall a in ".card": forall b in ".card": same(a, b) or not overlap(a, b)'
TEXTS = "forall a in text: forall b in text: same(a, b) or not overlap(a, b)"
ORDER = 'forall m in "h1": forall s in "footer": m.bottom <= s.top'
TARGETS = 'forall t in "a, button": t.right - t.left >= 24px and t.bottom - t.top >= 24px'
COLUMN = 'forall c in "main": forall b in "main div": c.content.left <= b.left and b.right <= c.content.right'


def text(count, seed):
    """So many words, by the seed."""
    dice = random.Random(seed)
    words = []
    for _ in range(count):
        length = dice.choices(range(1, 12), LENGTHS)[0]
        words.append("".join(dice.choices(LETTERS, OFTEN, k=length)))
    return " ".join(words)


def element(tag, children, **attributes):
    return {"tag": tag, "attrs": {name.rstrip("_"): value for name, value in attributes.items()}, "children": children}


def paragraphs(count):
    """Paragraphs of 40 words, the last one of what is left."""
    return [element("p", [text(min(40, count - 40 * at), count * 1000 + at)]) for at in range(-(-count // 40))]


def one_paragraph(count):
    return "p{padding:0 1em}", [element("p", [text(count, count)])], REFLOW


def column(count):
    return "main{max-width:40em;margin:0 auto;padding:0 1em}", [element("main", paragraphs(count))], TEXTS


def headings(count):
    body = [element("h1", [text(4, 7)])]
    for at, paragraph in enumerate(paragraphs(count)):
        body += [element("h2", [text(5, at)]), paragraph]
    return "body{padding:0 1em}", [*body, element("footer", [text(4, 9)])], ORDER


def beside_a_float(count):
    body = [element("aside", [text(10, 3)], class_="card"), element("p", [text(count, count)]),
            element("div", [text(3, 1)], class_="card", style="clear:both")]
    return "aside{float:right;width:30%;padding:.5em} p{margin:0 0 1em}", body, CARDS


def links(count):
    style = "display:inline-block;padding:.5em 1em"
    menu = [part for at in range(6) for part in (element("a", [text(1, 50 + at)], style=style + ";min-width:24px"), " ")]
    return "", [element("nav", menu), element("p", [text(count, count)]), element("a", [text(2, 5)], style=style)], TARGETS


def centred(count):
    body = [element("div", [element("h1", [text(4, 7)]), element("p", [text(count, count)])], class_="hero")]
    return ".hero{text-align:center;padding:2em 10%}", body, REFLOW


def in_columns(count):
    halves = [element("div", [text(count // 2, count)], class_="b"), element("div", [text(count - count // 2, count + 1)], class_="b")]
    sheet = "main{width:90%;margin:0 auto} .a{width:70%;float:left} .b{width:45%;padding:0 2%;float:left}"
    return sheet, [element("main", [element("div", halves, class_="a")])], COLUMN


MANY, FEW = (10, 30, 60, 125, 250, 500, 1000), (30, 125, 500)
KINDS = {"P": (one_paragraph, MANY), "M": (one_paragraph, MANY), "S": (column, FEW), "H": (headings, FEW), "F": (beside_a_float, FEW),
         "N": (links, FEW), "C": (centred, FEW), "Q": (in_columns, FEW)}
ALL = [f"{kind}{count}{size}" for size in ("", "-16") for kind, (_, counts) in KINDS.items() for count in counts]


def job(name):
    """The text of the job of a page's name."""
    bare = name.removesuffix("-16")
    sheet, body, rule = KINDS[bare[0]][0](int(bare[1:]))
    return json.dumps({"vizlog": 1, "widths": [320, 1920], "sizes": [12, 24] if bare == name else [16, 16], "height": 800,
                       "fonts": [SQUARE if bare[0] == "M" else HELVETICA], "css": [SHEET + sheet],
                       "page": element("html", [element("body", body)]), "assert": rule})


def main():
    parser = argparse.ArgumentParser(description=__doc__, formatter_class=argparse.RawDescriptionHelpFormatter)
    parser.add_argument("program", nargs="?", default=BUILT)
    parser.add_argument("other", nargs="?", help="a second program, measured in the same run")
    parser.add_argument("--pages", default=",".join(ALL), help="names with commas between, by default all")
    parser.add_argument("--turns", default=",".join(map(str, TURNS)), help="numbers of turns, the first that decides is taken")
    parser.add_argument("--seconds", type=int, default=600, help="processor seconds that a run may take")
    given = parser.parse_args()
    turns = [int(count) for count in given.turns.split(",")]
    open_pages = []
    with tempfile.TemporaryDirectory() as folder:
        for name in given.pages.split(","):
            file = os.path.join(folder, "job.json")
            with open(file, "w", encoding="utf-8") as out:
                out.write(job(name))
            found = [Search(program, file, folder, turns, given.seconds) for program in (given.program, given.other) if program]
            for search in found:
                print(f"{name:11} {search.told()}", flush=True)
            tell_ratios(name, found)
            if not found[0].accepted:
                open_pages.append(name)
    assert not open_pages, f"no certificate of {', '.join(open_pages)}"


if __name__ == "__main__":
    main()
