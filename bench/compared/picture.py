"""A picture of a table of `bench/compare`, as SVG: a group of bars for each work, along one axis of operations a second.

The axis is logarithmic: each line of it is ten times the one before, since the rows lie thousands of times apart. It runs from the
power of ten at or below the least figure to the one at or above the largest. Lengths are in pixels.
"""
import math
from xml.sax.saxutils import escape

AXIS_PIXELS = 480
BAR_PIXELS = 14
ROW_PIXELS = 18
HEAD_PIXELS = 26
GAP_PIXELS = 14
TOP_PIXELS = 56
BOTTOM_PIXELS = 42
# What a letter of 11 pixels is wide, at most about.
LETTER_PIXELS = 6.2
NUMBER_PIXELS = 60
MARGIN_PIXELS = 12

TITLE = "Operations a second"
AXIS_TITLE = "operations a second (logarithmic: each line is ten times the one before)"

# The colour of a bar by how its row's name begins; the first that fits. In the order of the rows of a table.
COLOURS = (("rio, held", "#1b6ca8"), ("rio", "#7fb2d9"), ("files", "#8a8f98"), ("sqlite", "#d08a3c"))
OTHER_COLOUR = "#5a5a5a"

STYLE = "text { font-family: sans-serif; font-size: 11px; fill: #222 } .title { font-size: 16px } .work { font-weight: bold }"


class Axis:
    """The axis from one power of ten to another, none of them below 1."""

    def __init__(self, figures):
        self.low = math.floor(math.log10(min(figures)))
        self.high = max(math.ceil(math.log10(max(figures))), self.low + 1)

    def pixels(self, figure):
        """How far from the axis's beginning a figure is."""
        return AXIS_PIXELS * (math.log10(figure) - self.low) / (self.high - self.low)

    def powers(self):
        """The figures at which the axis has a line."""
        return [10**power for power in range(self.low, self.high + 1)]


def colour_of(name):
    return next((colour for front, colour in COLOURS if name.startswith(front)), OTHER_COLOUR)


def text(x, y, words, more=""):
    return f'<text x="{x:.1f}" y="{y:.1f}"{more}>{escape(words)}</text>'


def bar(left, y, row, work, axis):
    """The bar of one row, with its name before it and its figure behind it."""
    figure = row.figures[work]
    pixels = axis.pixels(figure)
    letters = y + BAR_PIXELS - 3
    return [
        text(left - 6, letters, row.name, ' text-anchor="end"'),
        f'<rect class="bar" x="{left:.1f}" y="{y:.1f}" width="{pixels:.1f}" height="{BAR_PIXELS}" fill="{colour_of(row.name)}">'
        f"<title>{escape(row.name)}, {escape(work)}: {figure:,.0f} a second</title></rect>",
        text(left + pixels + 4, letters, f"{figure:,.0f}"),
    ]


def grid(left, bottom, axis):
    """The lines of the axis with their numbers, and what these are."""
    parts = []
    for power in axis.powers():
        x = left + axis.pixels(power)
        parts.append(f'<line class="grid" x1="{x:.1f}" y1="{TOP_PIXELS - 8}" x2="{x:.1f}" y2="{bottom:.1f}" stroke="#d5d5d5"/>')
        parts.append(text(x, bottom + 14, f"{power:,}", ' text-anchor="middle"'))
    parts.append(text(left + AXIS_PIXELS / 2, bottom + 32, AXIS_TITLE, ' text-anchor="middle"'))
    return parts


def svg_of(rows):
    """The lines of the picture of a table's rows, each of which has a figure of at least 1 for each work."""
    works = list(rows[0].figures)
    axis = Axis([figure for row in rows for figure in row.figures.values()])
    left = MARGIN_PIXELS + LETTER_PIXELS * max(len(row.name) for row in rows)
    width = left + AXIS_PIXELS + NUMBER_PIXELS + MARGIN_PIXELS
    bottom = TOP_PIXELS + len(works) * (HEAD_PIXELS + ROW_PIXELS * len(rows) + GAP_PIXELS)
    height = bottom + BOTTOM_PIXELS
    parts = [
        f'<svg xmlns="http://www.w3.org/2000/svg" width="{width:.0f}" height="{height:.0f}" viewBox="0 0 {width:.0f} {height:.0f}">',
        f"<style>{STYLE}</style>",
        f'<rect width="{width:.0f}" height="{height:.0f}" fill="white"/>',
        text(MARGIN_PIXELS, 26, TITLE, ' class="title"'),
        *grid(left, bottom, axis),
    ]
    y = TOP_PIXELS
    for work in works:
        parts.append(text(MARGIN_PIXELS, y + 12, work, ' class="work"'))
        y += HEAD_PIXELS
        for row in rows:
            parts += bar(left, y, row, work, axis)
            y += ROW_PIXELS
        y += GAP_PIXELS
    return [*parts, "</svg>"]
