"""The table of `bench/compare`: how it is written, and how it is read again from what was printed."""
from collections import namedtuple

A_SECOND = ", a second"
OF_FIRST = "of the first"
OUTLASTS = "outlasts"

# A row that was read: its name, and by the name of a work how many of it are done in a second.
Row = namedtuple("Row", "name figures")


class NoTable(Exception):
    """The text has no such table, or a row that does not fit it."""


def part(figure, whole):
    """What part of the whole a figure is, with two digits that count."""
    ratio = figure / whole
    return f"{ratio:,.0f}" if ratio >= 10 else f"{ratio:.2g}" if ratio < 0.95 else f"{ratio:.1f}"


def lines_of(works, rows, last=OUTLASTS):
    """The lines of the table. A row is a name, its figure for each work, and what the last column says of it."""
    cells = [["", *(head for work in works for head in (work + A_SECOND, OF_FIRST)), last]]
    for name, figures, said in rows:
        parts = [(f"{figure:,.0f}", part(figure, first)) for figure, first in zip(figures, rows[0][1])]
        cells.append([name, *(cell for pair in parts for cell in pair), said])
    widths = [max(map(len, column)) for column in zip(*cells)]
    cells.insert(1, ["-" * width for width in widths])
    return ["| " + " | ".join(cell.ljust(width) for cell, width in zip(row, widths)) + " |" for row in cells]


def cells_of(line):
    """The cells of a line of the table."""
    return [cell.strip() for cell in line.strip().strip("|").split("|")]


def figure_of(cell):
    """The number in a cell, which is at least 1."""
    try:
        figure = float(cell.replace(",", ""))
    except ValueError:
        figure = 0.0
    if figure < 1.0:
        raise NoTable(f"no number of operations a second: '{cell}'")
    return figure


def read_table(text):
    """The rows of the first table in a text, in their order."""
    lines = [line for line in text.splitlines() if line.lstrip().startswith("|")]
    if not lines or A_SECOND not in lines[0]:
        raise NoTable("there is no table as bench/compare prints it")
    heads = cells_of(lines[0])
    works = {at: head[: -len(A_SECOND)] for at, head in enumerate(heads) if head.endswith(A_SECOND)}
    rows = []
    for line in lines[2:]:
        cells = cells_of(line)
        if len(cells) != len(heads):
            raise NoTable(f"a row has {len(cells)} cells in place of {len(heads)}: {line.strip()}")
        rows.append(Row(cells[0], {work: figure_of(cells[at]) for at, work in works.items()}))
    if not rows:
        raise NoTable("the table has no row")
    return rows
