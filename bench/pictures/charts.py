"""Charts: bars in groups, and lines over sizes, each in a panel of a drawing."""
import math
import textwrap
from typing import NamedTuple

from pictures.svg import FAINT, GRID, INK

# Colors that stay apart for who sees few, and shades of one of them.
COLORS = ["#0072b2", "#d55e00", "#009e73", "#8c5aa0", "#b07800", "#444444"]
SHADES = ["#b8d6ea", "#6aaad6", "#2a78b8"]
LABEL = 11


class TooMany(Exception):
    """There are fewer colors than are wanted."""


class Scale(NamedTuple):
    """From numbers between two bounds to places on the paper; by their logarithms, if it says so."""
    low: float
    high: float
    start: float
    end: float
    by_logarithm: bool = False

    def place(self, value):
        low, high = self.low, self.high
        if self.by_logarithm:
            low, high, value = math.log(low), math.log(high), math.log(value)
        return self.start + (value - low) / (high - low) * (self.end - self.start)


def marks_to(greatest):
    """From 0 in even steps to a number or just above it, five at most."""
    power = 10 ** math.floor(math.log10(greatest))
    step = next(step * power for step in (0.2, 0.25, 0.5, 1, 2) if greatest <= 5 * step * power)
    return [step * place for place in range(math.ceil(greatest / step) + 1)]


def powers_around(numbers):
    """Powers of ten, from the last up to all numbers to the first from all on."""
    least, greatest = math.floor(math.log10(min(numbers))), math.ceil(math.log10(max(numbers)))
    return [10 ** power for power in range(least, greatest + 1)]


def colors_for(items, colors):
    """Each item with a color of its own."""
    if len(items) > len(colors):
        raise TooMany(f"{len(items)} things are to have colors of their own, and there are {len(colors)}")
    return zip(items, colors)


def plain(value):
    """A number as an axis has it."""
    return f"{value:,.3f}".rstrip("0").rstrip(".")


class Panel(NamedTuple):
    """A part of a drawing, with a scale upwards."""
    drawing: object
    left: float
    right: float
    up: Scale

    @property
    def top(self):
        return self.up.end

    @property
    def bottom(self):
        return self.up.start


def frame(panel, title, unit, marks, are_told=True):
    """The title, the unit of what goes upwards, and a line at each mark; its number, if the marks are told."""
    drawing = panel.drawing
    drawing.text(panel.left, panel.top - 26, title, 12, weight="bold")
    drawing.text(panel.left, panel.top - 11, unit, LABEL, FAINT)
    for mark in marks:
        at = panel.up.place(mark)
        drawing.line([(panel.left, at), (panel.right, at)], FAINT if mark == panel.up.low else GRID)
        if are_told:
            drawing.text(panel.left - 6, at + 4, plain(mark), LABEL, FAINT, "end")


def bars(panel, groups, room=0.88):
    """Groups of bars side by side: of each its name, and of each bar the middle, the least and the greatest."""
    drawing = panel.drawing
    each = (panel.right - panel.left) / len(groups)
    for place, (name, spreads) in enumerate(groups):
        width = each * room / len(spreads)
        start = panel.left + each * (place + (1 - room) / 2)
        for line, words in enumerate(textwrap.wrap(name, int(each / 7))):
            drawing.text(start + each * room / 2, panel.bottom + 16 + 13 * line, words, LABEL, INK, "middle")
        for (at, (middle, least, greatest)), shade in colors_for(list(enumerate(spreads)), SHADES):
            center, top = start + (at + 0.5) * width, panel.up.place(middle)
            drawing.box(center - width / 2 + 1, top, width - 2, panel.bottom - top, shade)
            if least != greatest:
                drawing.line([(center, panel.up.place(least)), (center, panel.up.place(greatest))], INK)
            drawing.text(center, panel.up.place(greatest) - 4, plain(float(f"{middle:.3g}")), 10, INK, "middle")


def key_of_shades(drawing, left, top, words, names, more):
    """What the shades of bars stand for, and more words behind."""
    drawing.text(left, top, words, LABEL, FAINT)
    left += 8 * len(words)
    for name, shade in colors_for(names, SHADES):
        drawing.box(left, top - 9, 10, 10, shade)
        drawing.text(left + 15, top, name, LABEL)
        left += 32 + 7 * len(name)
    drawing.text(left + 16, top, more, LABEL, FAINT)


def apart(places, gap):
    """Places that are moved as far as each has so much room; their order stays."""
    order = sorted(range(len(places)), key=lambda at: (places[at], at))
    moved, groups = list(places), []
    for at in order:
        groups.append([at])
        while len(groups) > 1 and lowest(groups[-1], places, gap) - highest(groups[-2], places, gap) < gap:
            groups[-2:] = [groups[-2] + groups[-1]]
    for group in groups:
        for step, at in enumerate(group):
            moved[at] = lowest(group, places, gap) + gap * step
    return moved


def lowest(group, places, gap):
    """Where the first of a group stands, which has its middle where its members' middle is."""
    return sum(places[at] for at in group) / len(group) - gap * (len(group) - 1) / 2


def highest(group, places, gap):
    return lowest(group, places, gap) + gap * (len(group) - 1)


def lines(panel, across, sizes, unit, series):
    """Lines over sizes, each with its name at its end: of each its name and its points, from sizes to numbers."""
    drawing = panel.drawing
    for size in sizes:
        at = across.place(size)
        drawing.line([(at, panel.bottom), (at, panel.bottom + 4)], FAINT)
        drawing.text(at, panel.bottom + 17, plain(size), LABEL, FAINT, "middle")
    drawing.text((panel.left + panel.right) / 2, panel.bottom + 33, unit, LABEL, FAINT, "middle")
    ends = [panel.up.place(points[max(points)]) for _, points in series]
    for ((name, points), label), color in colors_for(list(zip(series, apart(ends, 14))), COLORS):
        through = [(across.place(size), panel.up.place(points[size])) for size in sorted(points)]
        drawing.line(through, color, 2)
        for x, y in through:
            drawing.dot(x, y, color)
        drawing.text(through[-1][0] + 8, label + 4, name, LABEL, color)
