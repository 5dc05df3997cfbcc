#!/usr/bin/env python3
"""plot.py FIGURES SVG: draws how the cost grows, from the lines of bench/growth: panel, series, x, microseconds of the library and of plain."""
import math
import sys
from html import escape

# panel: title, label of x, whether x is logarithmic, its ticks
PANELS = {
    "nodes": ("Nodes of the table", "nodes", True, (126, 252, 504, 1008, 2016)),
    "goals": ("Goals, on 2,016 nodes", "goals", True, (1, 4, 16, 64, 256)),
    "wishes": ("Wishes, on 2,016 nodes", "wishes", False, range(2, 17, 2)),
    "rooms": ("Rooms", "questions", False, range(1, 9)),
    "splits": ("Splits made by decide", "splits", True, (10, 100, 1000, 10000, 100000)),
    "pairs": ("Splits with no part in the clash", "free pairs of points in front", False, range(0, 25, 4)),
}
COLOURS = ["#1f5fa8", "#c4541a", "#2e7d4f", "#7b3fa0"]
WIDE, HIGH, LEFT, TOP, COLUMNS = 360, 330, 62, 64, 3


def duration(us):
    """A time of a power of ten in its unit."""
    for unit, size in (("s", 1e6), ("ms", 1e3)):
        if us >= size:
            return f"{us / size:g} {unit}"
    return f"{us:g} µs"


def number(x):
    return f"{x:,.0f}"


class Axis:
    """A range of values along some pixels; without ticks of its own, by powers of ten."""

    def __init__(self, values, start, end, log, ticks=None):
        low, high = min(values), max(values)
        if ticks is None:
            low, high = math.floor(math.log10(low)), math.ceil(math.log10(high))
            ticks = [10 ** k for k in range(low, high + 1)]
            low, high = ticks[0], ticks[-1]
        self.low, self.high, self.start, self.end, self.log, self.ticks = min(low, ticks[0]), max(high, ticks[-1]), start, end, log, ticks

    def at(self, v):
        of = math.log10 if self.log else float
        share = (of(v) - of(self.low)) / (of(self.high) - of(self.low) or 1)
        return self.start + share * (self.end - self.start)


def text(x, y, what, anchor="start", **more):
    extra = "".join(f' {k.replace("_", "-")}="{v}"' for k, v in more.items())
    return f'<text x="{x:.1f}" y="{y:.1f}" text-anchor="{anchor}"{extra}>{escape(what)}</text>'


def grid(x, y):
    """Ticks with their lines and labels, and the frame."""
    out = []
    for v in y.ticks:
        out.append(f'<line x1="{x.start}" x2="{x.end}" y1="{y.at(v):.1f}" y2="{y.at(v):.1f}" stroke="#e0e0e0"/>')
        out.append(text(x.start - 6, y.at(v) + 4, duration(v), "end", fill="#444"))
    for v in x.ticks:
        out.append(f'<line x1="{x.at(v):.1f}" x2="{x.at(v):.1f}" y1="{y.start}" y2="{y.end}" stroke="#eeeeee"/>')
        out.append(text(x.at(v), y.start + 16, number(v), "middle", fill="#444"))
    out.append(f'<rect x="{x.start}" y="{y.end}" width="{x.end - x.start}" height="{y.start - y.end}" fill="none" stroke="#888"/>')
    return out


def curve(x, y, points, colour, plain):
    """A line through the points, with a mark at each: filled for the library, dashed and hollow for plain."""
    path = " ".join(f"{x.at(a):.1f},{y.at(b):.1f}" for a, b in points)
    dash = ' stroke-dasharray="5 4"' if plain else ""
    out = [f'<polyline points="{path}" fill="none" stroke="{colour}" stroke-width="1.8"{dash}/>']
    for a, b in points:
        fill = "#ffffff" if plain else colour
        out.append(f'<circle cx="{x.at(a):.1f}" cy="{y.at(b):.1f}" r="2.6" fill="{fill}" stroke="{colour}" stroke-width="1.2"/>')
    return out


def panel(name, series, left, top):
    title, label, log, ticks = PANELS[name]
    rows = [row for points in series.values() for row in points]
    legend = 15 * len(series)
    x = Axis([r[0] for r in rows], left + LEFT, left + WIDE - 18, log, ticks)
    y = Axis([t for r in rows for t in r[1:]], top + HIGH - 52, top + 30 + legend, True)
    out = [text(left + LEFT, top + 16, title, font_weight="bold", font_size="14")] + grid(x, y)
    out.append(text((x.start + x.end) / 2, y.start + 33, label, "middle", fill="#222"))
    for (key, points), colour, k in zip(series.items(), COLOURS, range(len(series))):
        out += curve(x, y, [(r[0], r[2]) for r in points], colour, True)
        out += curve(x, y, [(r[0], r[1]) for r in points], colour, False)
        out.append(f'<rect x="{left + LEFT}" y="{top + 24 + 15 * k}" width="10" height="10" fill="{colour}"/>')
        out.append(text(left + LEFT + 15, top + 33 + 15 * k, key, fill="#222"))
    return out


def read(path):
    """The figures: panel -> series -> rows of x, library, plain; by rising x."""
    panels = {name: {} for name in PANELS}
    with open(path, encoding="utf-8") as lines:
        for line in lines:
            name, series, *row = line.rstrip("\n").split("\t")
            panels[name].setdefault(series, []).append(tuple(float(v) for v in row))
    return {name: {key: sorted(rows) for key, rows in series.items()} for name, series in panels.items() if series}


def draw(panels):
    rows = -(-len(panels) // COLUMNS)
    width, height = COLUMNS * WIDE + 16, TOP + rows * HIGH
    out = [f'<svg xmlns="http://www.w3.org/2000/svg" viewBox="0 0 {width} {height}" width="{width}" height="{height}" '
           'font-family="Helvetica, Arial, sans-serif" font-size="12">',
           f'<rect width="{width}" height="{height}" fill="#ffffff"/>',
           text(18, 26, "How the cost of a call grows", font_size="18", font_weight="bold"),
           text(18, 46, "time of one call, on a logarithmic scale", fill="#444")]
    for k, (label, plain) in enumerate((("library", False), ("plain C", True))):
        x = Axis([0, 1], width - 250 + 120 * k, width - 216 + 120 * k, False, (0, 1))
        out += curve(x, Axis([1, 1], 40, 40, True), [(0, 1), (1, 1)], "#333333", plain)
        out.append(text(width - 210 + 120 * k, 44, label))
    for k, (name, series) in enumerate(panels.items()):
        out += panel(name, series, WIDE * (k % COLUMNS), TOP + HIGH * (k // COLUMNS))
    return "\n".join(out + ["</svg>"]) + "\n"


def main():
    if len(sys.argv) != 3:
        sys.exit(__doc__)
    with open(sys.argv[2], "w", encoding="utf-8") as out:
        out.write(draw(read(sys.argv[1])))


main()
