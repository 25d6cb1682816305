"""The map of a pair as one SVG: memory and disk as two grids, whose cells tell in a tool tip whose they are."""
import collections
from xml.sax.saxutils import escape

from riolook.uses import UNITS_OF_DATA_PAGE, Use, counts, runs

CELL = 12
WIDTH = 64
MARGIN = 24
LABEL = 48
LINE = 18
TITLE = 34
LEGEND_WIDTH = 370
DIRTY_COLOUR = "#d1242f"
CLEAN_COLOUR = "#ffffff"
PLAIN_COLOUR = "#9aa4ae"
PALE_COLOUR = "#b6bdc5"
ROOT = 1

# How a line of text is drawn.
Style = collections.namedtuple("Style", "size colour weight anchor")
TITLE_STYLE = Style(16, "#24292f", "bold", "start")
HEADING_STYLE = Style(13, "#24292f", "bold", "start")
LABEL_STYLE = Style(11, "#24292f", "normal", "start")
NUMBER_STYLE = Style(9, "#6e7781", "normal", "end")
FONT = "font-family='DejaVu Sans, Helvetica, Arial, sans-serif'"


def svg_map(uses, title):
    """The whole picture, as text."""
    pair = uses.pair
    image = pair.image
    tops, parts = MARGIN + TITLE, [text(MARGIN, MARGIN + 8, title, TITLE_STYLE)]
    memory = f"Memory: {len(uses.pages)} pages, of them {image.frames} frames and {image.scratch} scratch"
    disk = f"Disk: {pair.blocks} blocks, {pair.inodes} inodes, of them {len(uses.nodes)} used"
    for heading, cells in ((memory, uses.pages), (disk, uses.blocks)):
        drawn, tops = section(heading, cells, tops)
        parts += drawn
    drawn, tops = region_list(uses, tops)
    parts += drawn
    width = MARGIN + LABEL + WIDTH * CELL + MARGIN + LEGEND_WIDTH
    return "\n".join([
        f"<svg xmlns='http://www.w3.org/2000/svg' width='{width}' height='{tops}' viewBox='0 0 {width} {tops}' {FONT}>",
        f"<rect width='{width}' height='{tops}' fill='#ffffff'/>", *parts, "</svg>", ""])


def section(heading, cells, top):
    """A heading, a grid and its legend, and where the next section begins."""
    left, grid_top = MARGIN + LABEL, top + LINE
    rows = -(-len(cells) // WIDTH)
    parts = [text(MARGIN, top + 4, heading, HEADING_STYLE)]
    parts += row_numbers(rows, left - 8, grid_top)
    parts += [run(cells, place, left, grid_top) for place in runs(cells, WIDTH)]
    parts.append(lines_between(rows, left, grid_top))
    keys = legend(cells, left + WIDTH * CELL + MARGIN, grid_top)
    return parts + keys, grid_top + max(rows * CELL, len(keys) // 2 * LINE) + MARGIN + LINE


def row_numbers(rows, right, top):
    """The number of the first cell of each row, or of every eighth where there are many."""
    every = 1 if rows <= 32 else 8
    return [text(right, top + row * CELL + CELL - 2, row * WIDTH, NUMBER_STYLE) for row in range(0, rows, every)]


def run(cells, place, left, top):
    """A run of cells of one look, with a tool tip. Where memory has them too they have a corner, a red one where it is newer."""
    row, first, count = place
    number = row * WIDTH + first
    shown, last = cells[number], cells[number + count - 1]
    tells = shown.tells if count == 1 else f"{shown.tells} .. {last.tells}"
    x, y = left + first * CELL, top + row * CELL
    corners = "".join(f"M{x + (step + 1) * CELL - 7} {y}h7v7z" for step in range(count) if shown.is_cached)
    corner = f"<path d='{corners}' fill='{DIRTY_COLOUR if shown.is_dirty else CLEAN_COLOUR}'/>" if has_corner(shown) else ""
    box = f"<rect x='{x}' y='{y}' width='{count * CELL}' height='{CELL}' fill='{shown.use.colour}'{paler(shown)}/>"
    return f"<g><title>{escape(tells)}</title>{box}{corner}</g>"


def paler(cell):
    """Every second inode is drawn paler, so that the blocks of two files side by side are told apart."""
    return " fill-opacity='0.72'" if cell.inode % 2 and cell.inode != ROOT else ""


def has_corner(cell):
    """Whether a cell has a corner: a page of memory, or a block that memory has too."""
    return cell.is_cached and cell.use not in (Use.SYSTEM, Use.SCRATCH)


def lines_between(rows, left, top):
    """White lines that part the cells."""
    right, bottom = left + WIDTH * CELL, top + rows * CELL
    across = "".join(f"M{left} {top + row * CELL}H{right}" for row in range(rows + 1))
    down = "".join(f"M{left + place * CELL} {top}V{bottom}" for place in range(WIDTH + 1))
    return f"<path d='{across}{down}' stroke='#ffffff' stroke-width='1.5' pointer-events='none'/>"


def legend(cells, left, top):
    """A box and a line for each use, with its count, and what the corners mean."""
    parts = []
    for place, (use, count, dirty) in enumerate(counts(cells)):
        tells = f"{count}  {use.tells}" + (f", {dirty} newer than the disk" if dirty else "")
        parts += key(left, top + place * LINE, use.colour, "", tells)
    corners = [(DIRTY_COLOUR, "memory is newer than the disk"), (CLEAN_COLOUR, "memory has what the disk has")]
    for colour, tells in corners:
        place = len(parts) // 2
        mark = f"<path d='M{left + 5} {top + place * LINE}h7v7z' fill='{colour}'/>"
        parts += key(left, top + place * LINE, PLAIN_COLOUR, mark, tells)
    return parts + key(left, top + len(parts) // 2 * LINE, PALE_COLOUR, "", "paler: every second inode, to tell them apart")


def key(left, top, colour, mark, tells):
    """A box of a colour, and what it means."""
    box = f"<rect x='{left}' y='{top}' width='{CELL}' height='{CELL}' fill='{colour}'/>"
    return [box + mark, text(left + CELL + 8, top + CELL - 1, tells, LABEL_STYLE)]


def region_list(uses, top):
    """A bar for each region, of which the used units of the heap are filled."""
    if not uses.regions:
        return [], top
    parts = [text(MARGIN, top + 4, f"Regions: {len(uses.regions)}", HEADING_STYLE)]
    top += LINE
    for region in uses.regions.values():
        parts += region_bar(region, MARGIN + LABEL, top)
        top += 2 * LINE
    return parts, top + MARGIN


def region_bar(region, left, top):
    """The heap of a region as a bar, with what it tells."""
    units = UNITS_OF_DATA_PAGE * region.data
    full = WIDTH * CELL
    used = round(full * region.used_units / units)
    state = ", a transaction was open" if region.is_open else ""
    pages = f"{region.data} data, {region.undo} undo, {region.map} map pages{state}"
    tells = f"{region.path}: {region.used_units} of {units} heap units used; {pages}"
    return [
        text(left, top + CELL - 1, tells, LABEL_STYLE),
        f"<rect x='{left}' y='{top + LINE - 2}' width='{full}' height='8' fill='{Use.FREE.colour}'/>"
        f"<rect x='{left}' y='{top + LINE - 2}' width='{used}' height='8' fill='{Use.REGION.colour}'/>",
    ]


def text(x, y, tells, style):
    """A line of text."""
    look = f"font-size='{style.size}' fill='{style.colour}' font-weight='{style.weight}' text-anchor='{style.anchor}'"
    return f"<text x='{x}' y='{y}' {look}>{escape(str(tells))}</text>"
