"""The map of a pair in a terminal: a sign for each page and block, a capital where memory is newer than the disk."""
import collections

from riolook.uses import UNITS_OF_DATA_PAGE, counts

WIDTH = 64
MOST_ROWS = 48
DARK = "30"
LIGHT = "97"


def text_map(uses, is_coloured):
    """The whole map, as lines."""
    pair = uses.pair
    image = pair.image
    lines = [f"memory: {len(uses.pages)} pages, {image.frames} frames, {image.scratch} scratch; gate {image.gate}", ""]
    lines += grid(uses.pages, is_coloured) + [""] + legend(uses.pages, is_coloured)
    lines += ["", f"disk: {pair.blocks} blocks, {pair.inodes} inodes, {len(uses.nodes)} used", ""]
    lines += grid(uses.blocks, is_coloured) + [""] + legend(uses.blocks, is_coloured)
    return lines + region_lines(uses) + ["", "A capital: memory is newer than the disk."]


def grid(cells, is_coloured):
    """Rows of signs, each behind the number of its first cell. Where there are too many, a sign stands for several cells."""
    together = -(-len(cells) // (WIDTH * MOST_ROWS))
    shown = [common(cells[at : at + together]) for at in range(0, len(cells), together)]
    rows = [f"{at * together:>6} " + signs(shown[at : at + WIDTH], is_coloured) for at in range(0, len(shown), WIDTH)]
    return rows + ([f"{'':>7}each sign stands for {together}: the one that most of them have"] if together > 1 else [])


def common(cells):
    """The cell that has the most frequent look."""
    (use, is_dirty), _ = collections.Counter((cell.use, cell.is_dirty) for cell in cells).most_common(1)[0]
    return next(cell for cell in cells if (cell.use, cell.is_dirty) == (use, is_dirty))


def signs(cells, is_coloured):
    """The signs of a row."""
    return "".join(sign(cell.use, cell.is_dirty, is_coloured) for cell in cells)


def sign(use, is_dirty, is_coloured):
    """A sign, on the colour of its use."""
    letter = use.sign.upper() if is_dirty else use.sign
    if not is_coloured:
        return letter
    red, green, blue = rgb(use.colour)
    front = DARK if 299 * red + 587 * green + 114 * blue > 128_000 else LIGHT
    return f"\033[48;2;{red};{green};{blue};{front}m{letter}\033[0m"


def rgb(colour):
    """The three numbers of a colour that is told as #rrggbb."""
    return tuple(bytes.fromhex(colour[1:]))


def legend(cells, is_coloured):
    """How many cells have each use."""
    return [
        f"{'':>7}{sign(use, False, is_coloured)} {count:>6}  {use.tells}" + (f", {dirty} newer than the disk" if dirty else "")
        for use, count, dirty in counts(cells)
    ]


def region_lines(uses):
    """A line for each region."""
    if not uses.regions:
        return []
    lines = ["", f"regions: {len(uses.regions)}", ""]
    for region in uses.regions.values():
        pages = f"{region.data} data, {region.undo} undo, {region.map} map"
        state = ", a transaction was open" if region.is_open else ""
        units = UNITS_OF_DATA_PAGE * region.data
        lines.append(f"{'':>7}{region.path}: {pages}; {region.used_units} of {units} heap units used{state}")
    return lines
