"""Draws a rendering to scale, with rulers in px, the words of its lines, and the distances that break a rule. Not proved."""
import html
from dataclasses import dataclass, field

import answers
import reasons

WIDE = 1080
RULER = 38
# fill and edge by kind; where boxes lie in one another the inner one is drawn over the outer
KINDS = {"block": ("#3b6fb6", .06), "anon": ("#888888", .04), "float": ("#2e9e5b", .13), "atomic": ("#8e4ec6", .14),
         "replaced": ("#c7811b", .25), "inline": ("#0f8b8d", .10), "text": ("#1c2430", .05), "line": ("#9aa3ad", .0)}
KIND_WORDS = {"block": "block", "anon": "anonymous block", "float": "float", "atomic": "inline-block", "replaced": "image or control",
              "inline": "inline", "text": "text", "line": "line"}
BLAME = "#d62f20"
INK = "#1c2430"
STEPS = (1, 2, 5, 10, 20, 50, 100, 200, 500, 1000, 2000, 5000, 10000, 20000, 50000, 100000)


def told(text):
    return html.escape(str(text), quote=True)


def pixels(units):
    """A number of 1/64 px in px, exactly and short."""
    whole = f"{units / answers.UNITS:.6f}".rstrip("0").rstrip(".")
    return "0" if whole in ("-0", "") else whole


@dataclass
class Panel:
    """What one drawing shows: boxes at a world, those to mark, the distances, the words of texts, and pictures in their place."""
    job: answers.Job
    boxes: list
    world: tuple
    marked: list = field(default_factory=list)
    measures: list = field(default_factory=list)
    words: dict = field(default_factory=dict)
    images: list = field(default_factory=list)

    def high(self):
        """The viewport's height in px."""
        return self.job.height_at(self.world)


@dataclass
class Window:
    """What is drawn of a page, in units, and by how much smaller."""
    left: int
    top: int
    right: int
    bottom: int
    scale: float

    def x(self, units):
        return (units - self.left) * self.scale + RULER

    def y(self, units):
        return (units - self.top) * self.scale + RULER / 2

    def rect(self, edges):
        left, top, right, bottom = edges
        return (self.x(left), self.y(top), max(right - left, 0) * self.scale, max(bottom - top, 0) * self.scale)

    def meets(self, edges):
        return edges[0] <= self.right and edges[2] >= self.left and edges[1] <= self.bottom and edges[3] >= self.top


def whole(panels):
    """The rectangle that holds all boxes and the viewport's width, of the panels together."""
    edges = [box.border for panel in panels for box in panel.boxes]
    edges += [(0, 0, panel.world[0] * answers.UNITS, answers.UNITS) for panel in panels]
    return min(it[0] for it in edges), min(it[1] for it in edges), max(it[2] for it in edges), max(it[3] for it in edges)


def window_of(panels, is_whole):
    """What is drawn: a long page is cut to what lies about its marked boxes."""
    left, top, right, bottom = whole(panels)
    high = panels[0].high() * answers.UNITS
    most = round(1.6 * high)
    if bottom - top > most and not is_whole:
        edges = [it.at if it.axis == 0 else end for panel in panels for it in panel.measures for end in (it.begin, it.end)]
        edges = edges or [panel.boxes[it].border[1] for panel in panels for it in panel.marked[-1:]]
        if edges and min(edges) > top + high // 2:
            top = max(top, min(min(edges) - high // 2, bottom - most))
        bottom = min(bottom, top + most)
    return Window(left, top, right, bottom, min(WIDE / max(right - left, 1), 1 / answers.UNITS))


# ---- boxes

def box_words(panel, at, box):
    lines = [f"box {at}: {KIND_WORDS[box.kind]}, {reasons.name_of(panel.job, box)}"]
    if at in panel.words:
        lines.append(f"“{panel.words[at]}”")
    return lines + [f"{ring}: {', '.join(pixels(it) for it in getattr(box, ring))} px" for ring in ("margin", "border", "padding", "content")]


def is_shown(panel, window, at):
    """Whether a box lies in the window and is more than a point, or is marked."""
    left, top, right, bottom = panel.boxes[at].border
    return at in panel.marked or (left < right or top < bottom) and window.meets(panel.boxes[at].border)


def drawn_box(panel, window, at):
    box = panel.boxes[at]
    colour, fill = KINDS[box.kind]
    edge, thick, dash = colour, .8, ""
    if at in panel.marked:
        colour, fill, edge, thick = BLAME, .14, BLAME, 2.5
    elif box.kind in ("line", "text"):
        thick, dash = .5, ' stroke-dasharray="2 3"'
    x, y, wide, high = window.rect(box.border)
    text = [f"<g><title>{told(chr(10).join(box_words(panel, at, box)))}</title>"
            f'<rect x="{x:.2f}" y="{y:.2f}" width="{wide:.2f}" height="{high:.2f}" fill="{colour}" fill-opacity="{fill}" stroke="{edge}" '
            f'stroke-width="{thick}"{dash}/>']
    if at in panel.words and high >= 3:
        text.append(f'<text xml:space="preserve" x="{x:.2f}" y="{y + high * .78:.2f}" font-size="{high * .84:.2f}" textLength="{wide:.2f}" '
                    f'lengthAdjust="spacingAndGlyphs" fill="{INK}">{told(panel.words[at])}</text>')
    text.append("</g>")
    return "".join(text)


def name_label(panel, window, at, taken):
    """The name of a box in its upper left corner: of one that is marked, or that holds nothing and has room for it."""
    box = panel.boxes[at]
    x, y, wide, high = window.rect(box.border)
    size, letter = 11, 6.2
    is_marked = at in panel.marked
    name = panel.job.nodes[box.node].name
    words = reasons.short(name, 40) if is_marked else name
    if not is_marked and (len(words) * letter > wide or high < size + 2):
        return ""
    place = [x + 3, y - 4 if is_marked and y > RULER + size else y + size + 1]
    while any(abs(place[1] - row) < size and place[0] < end and begin < place[0] + len(words) * letter for begin, end, row in taken):
        place[1] += size + 1
    taken.append((place[0], place[0] + len(words) * letter, place[1]))
    return (f'<text x="{place[0]:.2f}" y="{place[1]:.2f}" font-size="{size}" fill="{BLAME if is_marked else "#5a6672"}" class="halo">'
            f"{told(words)}</text>")


def names_of(panel, window):
    """Names of the marked boxes, and of those in which nothing else is drawn."""
    pairs = zip(panel.boxes, panel.boxes[1:])
    holders = {at for at, (box, other) in enumerate(pairs) if other.kind in ("line", "text", "anon") or inside(other, box)}
    taken, text = [], []
    for at in list(panel.marked) + [it for it, box in enumerate(panel.boxes) if it not in panel.marked and it not in holders]:
        box = panel.boxes[at]
        if box.kind not in ("line", "text", "anon") and window.meets(box.border):
            text.append(name_label(panel, window, at, taken))
    return "".join(text)


def inside(box, other):
    return all(a >= b for a, b in zip(box.border[:2], other.border[:2])) and all(a <= b for a, b in zip(box.border[2:], other.border[2:]))


# ---- rulers and distances

def ruler(window, axis, low, high):
    """Marks each so many px along the upper or the left edge of a drawing."""
    step = next((it for it in STEPS if it * answers.UNITS * window.scale >= (56, 36)[axis]), STEPS[-1])
    marks, words, at = [], [], -(-low // (step * answers.UNITS)) * step
    while at * answers.UNITS <= high:
        if axis == 0:
            x = window.x(at * answers.UNITS)
            marks.append(f"M{x:.1f} {RULER / 2 - 5}v5")
            words.append(f'<text x="{x:.1f}" y="{RULER / 2 - 7}" text-anchor="middle">{at}</text>')
        else:
            y = window.y(at * answers.UNITS)
            marks.append(f"M{RULER - 5} {y:.1f}h5")
            words.append(f'<text x="{RULER - 7}" y="{y + 3:.1f}" text-anchor="end">{at}</text>')
        at += step
    return f'<path d="{"".join(marks)}" stroke="#9aa3ad"/><g font-size="9.5" fill="#5a6672">{"".join(words)}</g>'


def measure(window, line):
    """A dimension line: its ends, the way between, and its words."""
    a, b = (window.x(line.begin), window.x(line.end)) if line.axis == 0 else (window.y(line.begin), window.y(line.end))
    at = window.y(line.at) if line.axis == 0 else window.x(line.at)
    if line.axis == 0:
        path = f"M{a:.1f} {at - 9:.1f}v18M{b:.1f} {at - 9:.1f}v18M{a:.1f} {at:.1f}H{b:.1f}"
        place = ((a + b) / 2, at - 12, "middle")
    else:
        path = f"M{at - 9:.1f} {a:.1f}h18M{at - 9:.1f} {b:.1f}h18M{at:.1f} {a:.1f}V{b:.1f}"
        place = (at + 12, (a + b) / 2 + 4, "start")
    return path, place, line.words


def measures(panel, window, wide):
    text = []
    for line in panel.measures:
        path, (x, y, anchor), words = measure(window, line)
        half = len(words) * 4.1
        if anchor == "middle":
            x = min(max(x, RULER + half), wide - half)
        elif x + 2 * half > wide:
            is_narrow = x - 24 - 2 * half < RULER
            x, y, anchor = (wide - 4, window.y(line.end) + 14, "end") if is_narrow else (x - 24, y, "end")
        text.append(f'<path d="{path}" fill="none" stroke="#fff" stroke-width="5" opacity=".8"/>'
                    f'<path d="{path}" fill="none" stroke="{BLAME}" stroke-width="1.8"/>'
                    f'<text x="{x:.1f}" y="{y:.1f}" text-anchor="{anchor}" font-size="13" font-weight="bold" fill="{BLAME}" class="halo">'
                    f"{told(words)}</text>")
    return "".join(text)


# ---- the whole drawing

def svg(panel, window):
    width, height = panel.world[0] * answers.UNITS, panel.high() * answers.UNITS
    own = Window(window.left, window.top, max(width, *(it.border[2] for it in panel.boxes), 0) if panel.boxes else width,
                 min(window.bottom, max([it.border[3] for it in panel.boxes] + [0])), window.scale)
    size = (window.x(own.right) + 18, window.y(own.bottom) + 14)
    screen = window.rect((0, max(0, window.top), width, own.bottom))
    # what is drawn of the page ends at the window; names and distances may stand beyond
    x, y, wide, high = window.rect((own.left, own.top, own.right, own.bottom))
    shapes = [f'<svg x="{x - 2:.2f}" y="{y - 2:.2f}" width="{wide + 4:.2f}" height="{high + 4:.2f}" '
              f'viewBox="{x - 2:.2f} {y - 2:.2f} {wide + 4:.2f} {high + 4:.2f}">'
              f'<rect x="{screen[0]:.1f}" y="{screen[1]:.1f}" width="{screen[2]:.1f}" height="{screen[3]:.1f}" fill="#fff"/>']
    if panel.images:
        for image, (left, top), (right, bottom) in panel.images:
            x, y, wide, high = window.rect((left, top, left + right, top + bottom))
            shapes.append(f'<image href="{image}" x="{x:.2f}" y="{y:.2f}" width="{wide:.2f}" height="{high:.2f}"/>')
        shapes += [outline(window.rect(panel.boxes[it].border)) for it in panel.marked]
    else:
        shapes += [drawn_box(panel, window, at) for at in range(len(panel.boxes)) if is_shown(panel, window, at)]
    shapes.append("</svg>" + ("" if panel.images else names_of(panel, window)))
    fold = window.y(height)
    if height < own.bottom and height > window.top:
        shapes.append(f'<path d="M{screen[0]:.1f} {fold:.1f}h{screen[2]:.1f}" stroke="#555" stroke-dasharray="8 5"><title>the lower edge of '
                      f"the screen, {panel.high()} px, before anyone scrolls</title></path>")
    sides = "".join(f"M{window.x(it):.1f} {window.y(own.top):.1f}V{window.y(own.bottom):.1f}" for it in (0, width))
    shapes.append(f'<path d="{sides}" stroke="#555" stroke-width="1.5" stroke-dasharray="8 5"/>')
    return (f'<svg xmlns="http://www.w3.org/2000/svg" width="{size[0]:.0f}" height="{size[1]:.0f}" font-family="system-ui,sans-serif">'
            f'{"".join(shapes)}{ruler(window, 0, own.left, own.right)}{ruler(window, 1, own.top, own.bottom)}'
            f"{measures(panel, window, size[0])}</svg>")


def outline(rect):
    x, y, wide, high = rect
    return (f'<rect x="{x:.2f}" y="{y:.2f}" width="{wide:.2f}" height="{high:.2f}" fill="none" stroke="{BLAME}" stroke-width="2" '
            f'stroke-dasharray="5 3"/>')


def figure(panel, window, title):
    """A drawing with its title above it, no wider than the drawing."""
    drawn = svg(panel, window)
    wide = max(240, int(drawn.split('width="', 1)[1].split('"', 1)[0]))
    return f'<figure><figcaption style="max-width:{wide}px"><span>{title}</span></figcaption>{drawn}</figure>'


def key(panels, window):
    """What the colours say, and the scale."""
    kinds = [kind for kind in KINDS if any(box.kind == kind for panel in panels for box in panel.boxes)]
    shown = "".join(f'<span><i style="background:{KINDS[kind][0]};opacity:.55"></i>{KIND_WORDS[kind]}</span>' for kind in kinds)
    scale = window.scale * answers.UNITS
    size = "at its size" if scale > .999 else f"at {100 * scale:.0f} % of its size"
    low, high = window.top, window.bottom
    all_high = whole(panels)[3]
    cut = "" if high >= all_high and low <= 0 else f" From {round(low / answers.UNITS)} to {round(high / answers.UNITS)} px of {round(all_high / answers.UNITS)} px are drawn."
    if any(panel.marked for panel in panels):
        shown += f'<span><i style="background:{BLAME};opacity:.55"></i>breaks the rule</span>'
    return (f"<p class=key>{shown}</p>"
            f"<p class=small>Drawn {size}; rulers in px. Dashed upright lines: the sides of the screen; dashed across: its lower edge, "
            f"{panels[0].high()} px.{cut} Point at a box for its name and edges.</p>")
