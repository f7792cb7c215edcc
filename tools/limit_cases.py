"""The part of the tables of outside cases that tools/cases.py writes which is of whole replies at the limits of the profile.

Jobs, certificates and answers are made here by the rules of docs/PROFILE.md, on pages whose boxes are worked out in a line or two. What `prove`
is to find is free, so its certificate is not told but checked, and where its world is free no case asks for it. The folder has certs/, whose
jobs have certificates that are right, and gen.jsonl, whose lines have the seed of a generated job, how many sections it has, and the length
and SHA-256 of its text, and how many boxes it has; the texts are made here, and held against these.
"""
import hashlib
import json

from tree_documents import square

ACCEPTED = ["Done", "accepted\n"]
FONT = {**square("Square"), "advances": []}


def compact(value):
    return json.dumps(value, ensure_ascii=False, separators=(",", ":"))


def job(page, widths, sizes, assertion="true", css=()):
    parts = {"vizlog": 1, "widths": widths, "sizes": sizes, "height": 600, "fonts": [square("Square")], "css": css, "page": page, "assert": assertion}
    return compact(parts)


def block(style="", children=()):
    return {"tag": "div", "attrs": {"style": style}, "children": [*children]}


def line(node, left, top, right, bottom):
    """The line of a block without margin, border and padding."""
    edges = f"{left} {top} {right} {bottom}"
    return f"block {node} m {edges} b {edges} p {edges} c {edges}\n"


# ---- layouts: a block of so many others, each 1 px high

def column(count):
    return block(children=[block("height:1px") for _ in range(count)])


def column_text(count, width):
    right = 64 * width
    return line(0, 0, 0, right, 64 * count) + "".join(line(node, 0, 64 * (node - 1), right, 64 * node) for node in range(1, count + 1))


def layouts():
    """As many elements as a page may have, and an assertion as long as one may be."""
    yield ["lay", job(column(4095), [320, 320], [16, 16]), 320, 16], ["Done", column_text(4095, 320)]
    yield ["lay", job(column(4096), [320, 320], [16, 16]), 320, 16], ["JobRefused", "job-refused limit elements 4097\n"]
    text, steps = "true" + " and true" * 1820, [["Const", True]] + [["Const", True], ["And"]] * 1820
    assert len(text) == 16384
    # one word of as many letters as a page may have, each half of 1024 units wide, and no line breaks it
    word, box, letters = block("", ["a" * 262144]), "0 0 20480 1228", f"0 102 {512 * 262144} 1125"
    told = "".join(f"{name} m {edges} b {edges} p {edges} c {edges}\n" for name, edges in (("block 0", box), ("line 0", box), ("text 1", letters)))
    yield ["lay", job(word, [320, 320], [16, 16]), 320, 16], ["Done", told]
    yield ["formulas", job(column(0), [320, 320], [16, 16]), text, steps], True
    yield ["lay", job(column(0), [320, 320], [16, 16], text), 320, 16], ["Done", column_text(0, 320)]
    yield ["lay", job(column(0), [320, 320], [16, 16], text + " "), 320, 16], ["JobRefused", "job-refused limit formula 16385\n"]


# ---- jobs that are read or refused

ONE = ([320, 320], [16, 16])
READ = ["Undecided", "undecided 320 320 16 16\n"]


def refused(line):
    return ["JobRefused", f"job-refused {line}\n"]


def nested_page(depth, inner):
    for _ in range(depth):
        inner = {"tag": "p", "children": [inner]}
    return inner


def reaching(parts):
    """A block in a block with a padding of 69,900 %, its own being so many parts of 10^8 of the width around it."""
    return block("padding-left:69900%", [block(f"padding-left:{parts // 10**6}.{parts % 10**6:06}%")])


def reads():
    """Jobs that are read, so that a search without turns has no answer, beside such as are refused, with the first cause."""
    def asked(text, answer=READ):
        return ["prove", text, 0], answer
    html, far = {"tag": "HTML"}, block("padding:100000%", [block("padding:0 100000%")])
    for height, answer in ((4096, READ), (16384, refused("reach 2"))):
        image = {"tag": "img", "size": [9, height], "children": []}
        yield asked(job({**html, "attrs": {"Class": "A"}, "children": ["\u00e9", image]}, *ONE, css=["p{}"]), answer)
    yield asked(job(html, [400, 320], [16, 16]), refused("range"))
    yield asked(job(html, [320], [16, 16]), refused("shape widths 0"))
    yield asked(job(html, *ONE, css=["", "@import 'x';"]), refused("import 1 0"))
    yield asked(job(html, *ONE, css=["@media (a){}"]), refused("media-query 0 0"))
    yield asked(job(html, *ONE, css=["p:first-line{}"]), refused("unsupported-selector 0 1"))
    yield asked(job(block("position: absolute"), *ONE), refused("unsupported-value 0 position absolute"))
    yield asked(job(block("", [{"tag": "span", "children": [block()]}]), *ONE), refused("block-in-inline 2"))
    yield asked(job({"tag": "html", "children": [{"tag": "body", "children": [far]}]}, *ONE, css=["body{margin:0}"]), refused("reach 3"))
    yield asked(job(html, *ONE, "a.left < 0"), refused("formula-unbound 0"))
    yield asked(job("", *ONE), refused("shape page 0"))
    yield asked(job({"tag": "p", "attrs": {"a": "", "A": ""}}, *ONE), refused("shape page 0"))
    yield asked(job({"tag": "p", "children": ["", {"tag": "p", "children": [""]}, 1]}, *ONE), refused("shape page 4"))
    yield asked(job(html, [320, 16384], [16, 16], "", css=["", 1]), refused("shape css 1"))
    yield asked(job(html, [320, 16384], [16, 16], ""), refused("formula-bad 0"))
    yield asked(job(html, [320, 16385], [16, 16]), refused("range"))
    yield asked("{}", refused("shape top 0"))
    # a font size of 256 px, a line height of 6/5 of it and Square's ascent and descent; the page's extent is two such
    own = 16384 + 16384 * 6 // 5 + 16384 * 800 // 1000 + 16384 * 200 // 1000
    outer = (2**21 + 2 * own) * 700 + own
    parts = (2**40 - own) * 10**8 // outer - 10**8
    yield asked(job(reaching(parts), *ONE))
    yield asked(job(reaching(parts + 1), *ONE), refused("reach 1"))
    for letters, answer in ((262144, READ), (262145, refused("limit text 262145"))):
        yield asked(job(nested_page(59, "\u00e9" * letters), *ONE), answer)
    yield laid_out(job(nested_page(59, "\u00e9" * 262144), *ONE))
    yield from bounds(asked, html)
    # white space goes from both ends of a value, also where it ends an escape, before 64 bytes are taken
    for value, shown in (("absolut\\65 ", "absolut\\65"), ("fixe\\64\t", "fixe\\64"), (" /*" + "x" * 70 + "*/fixed", "/*" + "x" * 62)):
        yield asked(job(block(f"position:{value}"), *ONE), refused(f"unsupported-value 0 position {shown}"))


def laid_out(text):
    """A search of one turn, which lays out the page at each world, here the only one."""
    return ["prove", text, 1], ACCEPTED


def bounds(asked, html):
    """Rules, sheets, boxes, fonts and advances at their bounds, and past them."""
    yield asked(job(html, *ONE, css=["p{}" * 8192]))
    yield asked(job(html, *ONE, css=["", "p{}" * 8193]), refused("too-many-rules 1"))
    yield asked(job(html, *ONE, css=["", "", "", "", "@import 'x';"]), refused("import 4 0"))
    for size, answer in ((2**20, READ), (2**20 + 1, refused("limit css 1048577"))):
        yield asked(job(html, *ONE, css=["/*" + "x" * (size - 4) + "*/"]), answer)
    for texts, answer in ((16382, READ), (16383, refused("too-many-boxes"))):
        body = {"tag": "body", "children": ["a"] * texts}
        yield asked(job({"tag": "html", "children": [body]}, *ONE), answer)
    yield laid_out(job({"tag": "html", "children": [{"tag": "body", "children": ["a"] * 16382}]}, *ONE))
    elements = [block("height:1px") for _ in range(4094)] + [block("", ["a"])]
    yield asked(job(block("", elements), *ONE))
    fonts = [square(f"F{at}") for at in range(64)]
    fonts[63]["default"] = 250
    text = job({"tag": "html", "attrs": {"style": "font-family:F63"}, "children": []}, *ONE).replace(compact([square("Square")]), compact(fonts))
    yield ["words", text, 320, 16, [[0, "aa"]]], [512]
    image = {"tag": "img", "size": [1, 16384], "attrs": {"style": "width:1000000px;height:1000000px"}, "children": []}
    yield asked(job(block("", [image]), *ONE), refused("reach 1"))
    for count, answer in ((65536, READ), (65537, refused("limit advances 65537"))):
        font = {**square("Square"), "advances": [[0xE000 + at, 1] for at in range(count)]}
        yield asked(job(html, *ONE).replace(compact([square("Square")]), compact([font])), answer)


# ---- width queries

def media(widths):
    return "".join(f"@media (min-width:{width}px){{p{{}}}}" for width in widths)


def queries():
    """As many features and parts as there may be, and one more. A part is refused before the assertion; where the part is not, that is."""
    def asked(widths, css, assertion="true"):
        return job(block(), widths, [16, 16], assertion, css=["", css])

    def laid(text, width):
        return ["lay", text, width, 16], ["Done", column_text(0, width)]
    for count, answer in ((11, ACCEPTED), (12, refused("too-many-parts 13"))):
        text = asked([320, 320 + count], media(range(321, 321 + count)))
        yield ["prove", text, 2 * count + 1], answer
        yield ["check", text, ""], refused("too-many-parts 13") if count == 12 else ["CertRefused", "rejected grammar 0\n"]
        yield laid(text, 320)
    few, seventeenth = media(range(1, 17)), "@media (min-width:17px){"
    many = refused(f"too-many-queries 1 {len(few + seventeenth)}")
    for css in (few, few + media(range(1, 17)), few + "@media print and (min-width:17px){p{}}", few + seventeenth + "}"):
        yield laid(asked([320, 320], css), 320)
    yield ["lay", asked([320, 320], few + media([17])), 320, 16], many
    yield ["prove", asked([320, 320], few + media([17]), ""), 0], many
    css = "@media (min-width:330px){p:first-line{}}"
    other = refused(f"unsupported-selector 1 {css.index(':first')}")
    yield laid(asked([320, 340], css), 329)
    yield ["lay", asked([320, 340], css), 330, 16], other
    yield ["prove", asked([320, 340], css, ""), 0], other
    yield ["prove", asked([320, 329], css), 19], ACCEPTED
    yield ["prove", asked([320, 329], css, ""), 0], refused("formula-bad 0")


# ---- lengths

DECIMALS = (("0", 0), ("007", 7000000), ("1.5", 1500000), (".0000019", 1), ("1099511.627776", 2**40), ("1099511.627777", None), ("1.", None),
            ("-1", None), ("", None))


def lengths():
    """Numbers, lengths past 64 bits on the way, and what a node that the page doesn't have has."""
    for text, millionths in DECIMALS:
        yield ["decimals", text], millionths
    text = job(block(), *ONE)
    used = (("Auto",), 6400, 0), (("Px", -3), 6400, -3), (("Em", 1500000, 0), 6400, 1536), (("Pct", -33333333), 100, -34)
    used += ((("Em", 2**63 - 1, 0), 0, (2**63 - 1) * 1024 // 10**6),)
    yield ["used", text, 320, 16, [[length, around] for length, around, _ in used]], [value for _, _, value in used]
    yield ["fonts", text, 320, 16, [[7]]], [[1024, 0, 0, 0]]
    yield ["words", text, 320, 16, [[7, "a b"]]], [0]


# ---- lines, beside floats none

def lines():
    """Lines of a block in the body, with a width for them: the corners of lines and texts, and the bottom."""
    told = ((["aa", {"tag": "sup", "children": ["a"]}], "", 20480, [["Line", 0, 0], ["Chars", 0, 286], ["Chars", 1024, 85], 1412]),
            (["aaaa"], "text-align:right", 4608, [["Line", 0, 0], ["Chars", 2560, 102], 1228]),
            (["aaaa"], "text-align:center", 4607, [["Line", 0, 0], ["Chars", 1279, 102], 1228]),
            (["aa", {"tag": "br"}, {"tag": "br"}, "a"], "", 20480,
             [["Line", 0, 0], ["Chars", 0, 102], ["Line", 0, 1228], ["Line", 0, 2456], ["Chars", 0, 2558], 3684]))
    for children, style, width, answer in told:
        page = {"tag": "html", "children": [{"tag": "body", "children": [block(style, children)]}]}
        yield ["lines", job(page, *ONE), 320, 16, [[2, width]]], [answer]


# ---- certificates

def certificate(text, nodes):
    return f"vizlog-cert 1\njob {hashlib.sha256(text.encode()).hexdigest()}\n{nodes}"


def check(text, nodes, answer=ACCEPTED):
    return ["check", text, certificate(text, nodes)], answer


def too_far(text, nodes):
    """What is replied where no certificate begins with these nodes and a byte more."""
    return ["CertRefused", f"rejected grammar {len(certificate(text, nodes))}\n"]


def nested(most):
    """Each width from `most` to 2 px is split off by itself, below all wider ones."""
    return "".join(f"split -{width} 0:1\ngrid\n" for width in range(most, 1, -1)) + "grid\n"


def cases_within(count):
    """A void of no width, by so many cases within each other, and a grid."""
    return "split -65 0:1\nvoid\nfact 1\nfact 4\nsum 1:0 1:1\n" + "case 0 0:1\nsum 1:2\nclosed\n" * count + "sum 1:2\nclosed\ngrid\n"


def columns(low, high, first, spoiled):
    """Grids of one width each, by halves; and which node, counted from `first`, has the spoiled width."""
    if low == high:
        return "grid\n", first
    middle = (low + high + 1) // 2
    above, one = columns(middle, high, first + 1, spoiled)
    below, other = columns(low, middle - 1, first + 1 + 2 * (high - middle) + 1, spoiled)
    return f"split -{middle} 0:1\n{above}{below}", one if spoiled >= middle else other


def certificates():
    """Nodes and cases as deep as they may be, and one deeper; 10,240 worlds in grids of 64, and one of them at which the assertion is false."""
    deep, deeper, narrow = (job(block(), [1, most], [16, 16]) for most in (513, 514, 64))
    yield check(deep, nested(513))
    yield check(deeper, nested(514), too_far(deeper, "".join(f"split -{width} 0:1\ngrid\n" for width in range(514, 2, -1))))
    yield check(narrow, cases_within(64))
    yield check(narrow, cases_within(65), too_far(narrow, cases_within(64)[:-len("sum 1:2\nclosed\ngrid\n")] + "c"))
    page = block("height:1em;padding:0 50%")
    grids, node = columns(1, 160, 0, 157)
    yield check(job(page, [1, 160], [1, 64], "forall b in block: 2 * b.content.left = view.width and b.bottom <= 64px"), grids)
    wide = "forall b in block: view.width != 157px or b.bottom != 61px"
    yield check(job(page, [1, 160], [1, 64], wide), grids, ["CertRefused", f"rejected untrue {node} 157 61\n"])
    # some 90 kB
    many, (grids, _) = job(block("display:none"), [1, 4096], [16, 16]), columns(1, 4096, 0, 1)
    yield check(many, grids)
    text = certificate(many, grids)
    yield ["check", many, text[:-1] + "x"], ["CertRefused", f"rejected grammar {len(text) - 1}\n"]


def answered(line, facts, multiples, number=4):
    """An answer of a leaf: what it is to, and the sum of facts, the last its denial, of this number, that is below 0."""
    listed = "".join(f"fact {fact}\n" for fact in (*facts, number))
    return f"{line}\n{listed}sum {' '.join(f'{times}:{at}' for at, times in enumerate(multiples))}\nclosed\n"


def leaves():
    """Leaves on a page without boxes, whose layout compares nothing: the assertion alone asks for answers. The facts are w - 320 and 400 - w
    in px, two of the size, those of the path, and the answer's denial, which is what it denies in 1/64 px, negated, less 1."""
    def text_of(assertion):
        return job(block("display:none"), [320, 400], [16, 16], assertion)

    def leaf(assertion, answers, answer=ACCEPTED):
        return check(text_of(assertion), f"leaf\n{answers}end\n", answer)

    def rejected(line):
        return ["CertRefused", f"rejected {line}\n"]
    least, most = answered("yes -20480 0:64", [0], (64, 1)), answered("yes 25600 0:-64", [1], (64, 1))
    weak, other = answered("yes -20480 0:64", [0], (63, 1)), answered("yes -20480 0:63", [0], (63, 1))
    both = "view.width >= 320px and view.width <= 400px"
    yield leaf("true", "")
    yield leaf("true", "yes 0\nclosed\nyes 0\nclosed\n", rejected("left 0 2"))
    yield leaf("false", "", rejected("unmet 0"))
    yield leaf("view.width >= 400px", "", rejected("short 0"))
    yield leaf("view.width >= 320px", least)
    yield leaf("view.width >= 320px", least + most, rejected("left 0 1"))
    yield leaf("view.width >= 320px", weak, rejected("line 0 0 3"))
    yield leaf("view.width >= 320px", other, rejected("differs 0 0 -20480 0:64 / -20480 0:63"))
    yield leaf("view.width >= 320px", least.replace("yes", "no"), rejected("line 0 0 3"))
    yield leaf("view.width < 320px", least, rejected("unmet 0"))
    yield leaf("view.width < 320px", weak, rejected("line 0 0 3"))
    yield leaf("view.width >= 401px", answered("no -25664 0:64", [1], (64, 1)), rejected("unmet 0"))
    yield leaf("not view.width >= 401px", answered("no -25664 0:64", [1], (64, 1)))
    yield leaf(both, least + most)
    yield leaf(both, least, rejected("short 0"))
    yield leaf(both, least + answered("yes 25600 0:-64", [1], (63, 1)), rejected("line 0 1 3"))
    yield leaf(both, least + answered("yes 25599 0:-64", [1], (64, 1)), rejected("differs 0 1 25600 0:-64 / 25599 0:-64"))
    # two leaves, below a split whose row, or the denial of it, is fact 4
    halves = [answered("yes -23040 0:64", [4], (64, 1), 5), answered("no -23040 0:64", [4], (64, 1), 5)]
    split = "split -360 0:1\nleaf\n{}end\nleaf\n{}end\n"
    one = text_of("view.width >= 360px or view.width < 360px")
    # both comparisons are of one row, which is asked once
    yield check(one, split.format(halves[0], halves[1]))
    yield check(one, split.format(halves[0], halves[1] * 2), rejected("left 2 1"))
    yield check(one, split.format(halves[0], halves[1].replace("64:0", "63:0")), rejected("line 2 0 3"))
    yield ["leaf", text_of("view.width >= 320px"), certificate("", f"leaf\n{least}end\n")], "Accepted"
    yield ["leaf", text_of("view.width >= 320px"), certificate("", f"leaf\n{least + most}end\n")], "Rejected(Left(0, 1))"
    yield ["leaf", text_of("view.width >= 320px"), certificate("", f"leaf\n{weak}end\n")], "Rejected(Line(0, 0, 3))"
    yield ["leaf", text_of("view.width < 320px"), certificate("", f"leaf\n{least}end\n")], "Rejected(Unmet(0))"
    yield ["leaf", text_of(both), certificate("", f"leaf\n{least}end\n")], "Rejected(Short(0))"


PLACES = (("", 0), ("grid\n\n", 5), ("split 07 0:1", 7), ("split -0 0:1\n", 7), ("split 0 0:-0\n", 11), ("split 0 4294967294:1 5:1\n", 21),
          ("split 0 4294967295:1 1:1\n", 20), ("def 0 4294967295:1 9:1 by 2\n", 19), ("void\nsum 1:0 \n", 13), ("void\ncut 0:0\n", 9),
          ("leaf\nno 0\nend\n", 10), ("void\nfact 0\nclosed\ngrid\n", 19))


def places():
    """Nodes that are none, each with how far they could be some."""
    text = job(block(), *ONE)
    for nodes, place in PLACES:
        yield check(text, nodes, ["CertRefused", f"rejected grammar {83 + place}\n"])


# ---- searches

def searches(folder):
    """Each of 2R - 1 turns, which always decides: R is how many worlds there are."""
    text = job(block(), [320, 400], [16, 16], "view.width >= 320px")
    yield ["prove", text, 161], ACCEPTED
    # one turn, for more worlds than a grid may have: a leaf
    yield ["prove", job(column(2), [320, 400], [16, 16], "forall b in block: b.left >= 0"), 1], ACCEPTED
    yield ["prove", text, 0], ["Undecided", "undecided 320 400 16 16\n"]
    yield ["prove", job(block(), [320, 400], [16, 16], "view.width < 400px"), 161], ["Violated", "violated 400 16\n" + column_text(0, 400)]
    # one leaf, whose certificate is longer than 64 KiB
    yield ["prove", job(column(1500), [320, 400], [16, 16], "forall b in block: b.left >= 0"), 1], ACCEPTED
    blamed = "forall a in block: a.top >= 100px implies forall b in block: b.top < 200px"
    yield ["prove", job(column(299), [320, 320], [16, 16], blamed), 1], ["Violated", "violated 320 16\nblame 101\nblame 201\n" + column_text(299, 320)]
    yield ["prove", "{", 1], ["JobRefused", "job-refused not-json\n"]
    for path in sorted((folder / "certs").glob("*.json")):
        if "\naccepted\n" in path.with_suffix(".out").read_text(encoding="utf-8"):
            text = path.read_text(encoding="utf-8")
            (least, most), (small, large) = (json.loads(text)[name] for name in ("widths", "sizes"))
            yield ["prove", text, 2 * (most - least + 1) * (large - small + 1) - 1], ACCEPTED


# ---- generated jobs

def generated_text(seed, count):
    number, sections = seed, []
    for _ in range(count):
        number = (number * 6364136223846793005 + 1442695040888963407) % 2**64
        kind, words = number >> 33 & 3, 1 + (number >> 35) % 5
        sections.append({"tag": "div", "attrs": {"class": f"c{kind}"}, "children": [" ".join(["aaaa"] * words)]})
    css = "body{margin:0}div{height:40px}.c0{margin:10px 0}.c1{float:left;width:20%}.c2{clear:both}.c3{padding:1em}"
    page = {"tag": "html", "children": [{"tag": "body", "children": sections}]}
    return json.dumps({"vizlog": 1, "widths": [320, 1920], "sizes": [12, 24], "height": 800, "fonts": [FONT], "css": [css], "page": page,
                       "assert": "forall b in block: b.left >= 0 and b.right <= view.width"}, separators=(",", ":"))


def generated(folder):
    """The texts of generated jobs, trials of them without turns, and trials of those without sections, which hold."""
    for told in filter(None, (folder / "gen.jsonl").read_text(encoding="utf-8").split("\n")):
        case = json.loads(told)
        text = generated_text(case["seed"], case["n"])
        assert (len(text), hashlib.sha256(text.encode()).hexdigest()) == (case["bytes"], case["sha256"]), case
        yield ["gen", case["seed"], case["n"]], ["Done", text]
        about = f"trial boxes {case['boxes']} worlds {1601 * 13}"
        yield ["trial", case["seed"], case["n"], 0], ["Undecided", about + " undecided\n"]
        if case["n"] == 0:
            yield ["trial", case["seed"], 0, 2 * 1601 * 13 - 1], ["Done", about + " proved\n"]
    yield ["gen", 1, 1000], ["Done", generated_text(1, 1000)]
    yield ["gen", 1, 1001], None


def cases(folder):
    yield from layouts()
    yield from reads()
    yield from queries()
    yield from lengths()
    yield from lines()
    yield from certificates()
    yield from leaves()
    yield from places()
    yield from searches(folder)
    yield from generated(folder)
