"""Draws the range of a job as a map: the parts that a certificate closes, and the sizes that were tried. Not proved.

A map is of one height: where a job has a range of heights and the parts differ along them, there is one at the least, a middle and the greatest.
"""
import answers
import drawing
from drawing import told

WIDE = 1100
REGIONS = {"grid": ("#8fb8e8", "each size laid out"), "leaf": ("#9fd8a8", "by one derivation"), "void": ("#d3d3d3", "no size"),
           "open": ("#f6b26b", "not decided yet")}


def heights_of(job, regions):
    """The heights at which maps are drawn: one where all parts have all heights, None for a job of one height."""
    if not job.has_heights:
        return [None]
    low, high = job.heights
    if all(it.sides[2] == job.heights and not it.is_ragged and not any(cut[3] for cut in it.cuts) for it in regions):
        return [low]
    return sorted({low, (low + high) // 2, high})


def at_height(world, height):
    return world if height is None else (*world, height)


def cut(points, line):
    """The part of a polygon in which constant + a*w + b*s is at least 0."""
    constant, a, b = line
    kept = []
    for one, other in zip(points, points[1:] + points[:1]):
        here, there = (constant + a * x + b * y for x, y in (one, other))
        if here >= 0:
            kept.append(one)
        if (here >= 0) != (there >= 0):
            part = here / (here - there)
            kept.append((one[0] + part * (other[0] - one[0]), one[1] + part * (other[1] - one[1])))
    return kept


def corners(region, height=None):
    """A region at a height as a polygon about its worlds, each a square of side 1 about its point."""
    (wl, wh), (sl, sh), *high = region.sides
    points = [(wl - .5, sl - .5), (wh + .5, sl - .5), (wh + .5, sh + .5), (wl - .5, sh + .5)]
    if wl > wh or sl > sh or any(not low <= height <= most for low, most in high):
        return []
    for constant, a, b, *c in region.cuts:
        # half a unit further than the last world that belongs to it
        points = cut(points, (constant + .5 + sum(it * height for it in c), a, b))
        if not points:
            return []
    return points


def runs(job, answer, height=None):
    """At a height for each size the regions from left to right: the place of each, its first width and the one after its last; a width a column."""
    (wl, wh), (sl, sh) = job.widths, job.sizes
    step = -(-(wh - wl + 1) // WIDE) if (wh - wl + 1) * (sh - sl + 1) > 100000 else 1
    for size in range(sl, sh + 1):
        row = []
        for width in range(wl, wh + 1, step):
            region = answer.region_at(at_height((width, size), height))
            if row and row[-1][0] == region:
                row[-1][2] = min(width + step, wh + 1)
            else:
                row.append([region, width, min(width + step, wh + 1)])
        yield size, row


def borders(row, other):
    """Where two neighbouring sizes have other regions."""
    return [(max(a, c), min(b, d)) for one, a, b in row for two, c, d in other if one != two and max(a, c) < min(b, d)]


def shapes_by_runs(job, answer, edge, height):
    """The regions as they lie, world by world: for those that splits by floors part, which are no polygons."""
    shapes, lines, before = [], [], []
    for size, row in runs(job, answer, height):
        (_, top), (_, bottom) = edge((0, size + 1)), edge((0, size))
        for place, left, right in row:
            region = answer.regions[place]
            (x, _), (end, _) = edge((left, size)), edge((right, size))
            shapes.append(f'<rect x="{x:.2f}" y="{top:.2f}" width="{end - x:.2f}" height="{bottom - top:.2f}" '
                          f'fill="{REGIONS[region.kind][0]}" fill-opacity="{.9 if place % 2 else .55}" shape-rendering="crispEdges">'
                          f"<title>{region.kind} {place}: widths {left} to {right - 1} at size {size}</title></rect>")
            lines.append(f"M{x:.2f} {top:.2f}V{bottom:.2f}")
        lines += [f"M{edge((a, 0))[0]:.2f} {bottom:.2f}H{edge((b, 0))[0]:.2f}" for a, b in borders(before, row)]
        before = row
    return shapes + [f'<path d="{"".join(lines)}" fill="none" stroke="#33475b" stroke-width=".6"/>']


def shapes_by_corners(regions, edge, height):
    shapes = []
    for region in regions:
        points = corners(region, height)
        if not points:
            continue
        path = " ".join(f"{x:.2f},{y:.2f}" for x, y in (edge((x + .5, y + .5)) for x, y in points))
        words = f"{region.kind}: " + ", ".join(f"{name} {low} to {high}" for name, (low, high) in zip(answers.AXES, region.sides))
        words += ", cut further by slanted splits" if region.cuts else ""
        shapes.append(f'<polygon points="{path}" fill="{REGIONS[region.kind][0]}" fill-opacity=".9" stroke="#33475b" '
                      f'stroke-width="{.4 if len(regions) > 300 else .8}"><title>{told(words)}</title></polygon>')
    return shapes


def map_svg(job, answer, regions, height=None):
    (wl, wh), (sl, sh) = job.widths, job.sizes
    across, up = WIDE / (wh - wl + 1), min(560 / (sh - sl + 1), 48)
    high = up * (sh - sl + 1)

    def edge(point):
        """The left lower corner of a world."""
        return (point[0] - wl) * across, high - (point[1] - sl) * up

    def spot(point):
        return edge((point[0] + .5, point[1] + .5))
    is_ragged = any(region.is_ragged for region in regions)
    shapes = shapes_by_runs(job, answer, edge, height) if is_ragged else shapes_by_corners(regions, edge, height)
    marks = []
    for at in range(6):
        width = wl + round((wh - wl) * at / 5)
        marks.append(f'<text x="{spot((width, sl))[0]:.1f}" y="{high + 18:.1f}" text-anchor="middle">{width} px</text>')
    step = max(1, -(-(sh - sl) // 8))
    for size in range(sl, sh + 1, step):
        marks.append(f'<text x="-8" y="{spot((wl, size))[1] + 4:.1f}" text-anchor="end">{size} px</text>')
    marks.append(f'<text x="{WIDE / 2}" y="{high + 38:.1f}" text-anchor="middle">viewport width; default font size upwards</text>')
    size = [WIDE + 110, round(high + 60)]
    return (f'<svg xmlns="http://www.w3.org/2000/svg" width="{size[0]}" height="{size[1]}" viewBox="-60 -10 {size[0]} {size[1]}" '
            f'font-family="system-ui,sans-serif" font-size="12" fill="#1c2430">{"".join(shapes)}'
            f'<rect x="0" y="0" width="{WIDE}" height="{high:.2f}" fill="none" stroke="#1c2430"/>{"".join(marks)}</svg>')




def tried_svg(job, tried, here):
    """The sizes that were tried, those at which the rule is broken in red, the one that is shown with a ring."""
    (wl, wh), (sl, sh) = job.widths, job.sizes
    wide, high = 560, 30 + 26 * len({it[1] for it in tried})

    def spot(world):
        x = 60 + (wide - 80) * (world[0] - wl) / max(wh - wl, 1)
        return x, high - 34 - (high - 54) * (world[1] - sl) / max(sh - sl, 1)
    dots = []
    for world, holds in sorted(tried.items(), key=lambda it: not it[1]):
        x, y = spot(world)
        words = f"{'holds' if holds else 'broken'} at {world[0]} px and {world[1]} px"
        shape = f'<circle cx="{x:.1f}" cy="{y:.1f}" r="5" fill="#3d9a50"/>' if holds else \
            f'<path d="M{x - 5:.1f} {y - 5:.1f}l10 10m0 -10l-10 10" stroke="{drawing.BLAME}" stroke-width="3"/>'
        dots.append(f"<g><title>{words}</title>{shape}</g>")
    x, y = spot(here)
    dots.append(f'<circle cx="{x:.1f}" cy="{y:.1f}" r="10" fill="none" stroke="{drawing.INK}" stroke-width="1.5"/>')
    marks = [f'<text x="{spot((width, sl))[0]:.1f}" y="{high - 10}" text-anchor="middle">{width}</text>'
             for width in sorted({it[0] for it in tried})[::2]]
    marks += [f'<text x="44" y="{spot((wl, size))[1] + 4:.1f}" text-anchor="end">{size} px</text>' for size in sorted({it[1] for it in tried})]
    return (f'<svg xmlns="http://www.w3.org/2000/svg" width="{wide}" height="{high}" font-family="system-ui,sans-serif" font-size="11" '
            f'fill="{drawing.INK}">{"".join(dots)}{"".join(marks)}</svg>')
