"""What each page of memory and each block of the disk is used for."""
import collections
import enum

from riolook.nodes import nodes_of, owners_of
from riolook.pair import PAGE_WORDS, SHADOW_PAGES

UNITS_OF_DATA_PAGE = 64
WORDS_OF_MAP_OF_PAGE = 2
DATA_PAGES_OF_MAP = 256


class Use(enum.Enum):
    """What a page or a block is for: its sign in a terminal, its colour, and how it is called."""

    FREE = (".", "#e8e8e4", "free")
    TABLE = ("t", "#7d8590", "superblock, bitmap, inodes")
    DIRECTORY = ("d", "#e3a32b", "directory")
    FILE = ("f", "#4a86c5", "file")
    NUMBERS = ("n", "#2d5580", "block numbers of a file")
    REGION = ("r", "#4f9d5d", "region: data")
    HEADER = ("h", "#27603a", "region: header")
    UNDO = ("u", "#a8c954", "region: undo pages")
    MAP = ("m", "#3aa79b", "region: heap map")
    SYSTEM = ("k", "#4b4f58", "memory's header and registry")
    SHADOW = ("s", "#c25fa5", "shadow page in use")
    SCRATCH = ("x", "#c9a58a", "scratch")
    NOBODY = ("?", "#d1432f", "marked, and nobody's")

    def __init__(self, sign, colour, tells):
        self.sign = sign
        self.colour = colour
        self.tells = tells


# A page or block: its use, whether memory has it newer than the disk, whether it is in memory at all, the inode whose it is or 0,
# and all that in words.
Cell = collections.namedtuple("Cell", "use is_dirty is_cached inode tells")

# What is known of a region: its path, its pages by their parts, the units of its heap that are used, and whether a transaction
# was open.
Region = collections.namedtuple("Region", "path undo map data used_units is_open")


def region_of(pair, node):
    """The Region of a node."""
    _, undo, data, head = pair.words(node.blocks[0], 0, 4)
    maps = -(-data // DATA_PAGES_OF_MAP)
    words = [word for block in node.blocks[1 + undo : 1 + undo + maps] for word in pair.words(block, 0, PAGE_WORDS)]
    used = sum(bin(word).count("1") for word in words[0 : WORDS_OF_MAP_OF_PAGE * data : WORDS_OF_MAP_OF_PAGE])
    return Region(node.path, undo, maps, data, used, head != 0)


def part_of_region(region, page):
    """The use of a page of a region, by its place in the region's file."""
    for use, pages in ((Use.HEADER, 1), (Use.UNDO, region.undo), (Use.MAP, region.map)):
        if page < pages:
            return use
        page -= pages
    return Use.REGION


class Uses:
    """The uses of a pair: a Cell for each block, one for each page of memory, and its regions."""

    def __init__(self, pair):
        self.pair = pair
        self.nodes = nodes_of(pair)
        self.regions = {node.inode: region_of(pair, node) for node in self.nodes.values() if node.kind == "region"}
        self._owners = owners_of(self.nodes)
        self._marked = pair.marked()
        self.blocks = [self._block(number) for number in range(pair.blocks)]
        self.pages = self._pages()

    def _block(self, number):
        """The Cell of a block."""
        entry = self.pair.entry_of.get(number)
        use, whose = self._use_of_block(number)
        tells = f"block {number}: {whose}{in_memory(entry)}"
        return Cell(use, bool(entry and entry.is_dirty), entry is not None, self._inode_of(number), tells)

    def _inode_of(self, number):
        """The inode whose a block is, or 0."""
        owner = self._owners.get(number)
        return owner.node.inode if owner else 0

    def _use_of_block(self, number):
        """What a block is for, and whose it is."""
        if number < self.pair.reserved:
            return Use.TABLE, ("superblock", "bitmap")[number] if number < 2 else f"inodes {32 * number - 63} to {32 * number - 32}"
        owner = self._owners.get(number)
        if owner is None:
            return (Use.NOBODY, "marked, and nobody's") if self._marked[number] else (Use.FREE, "free")
        node = owner.node
        if owner.part == "indirect":
            return Use.NUMBERS, f"{node.path}, block numbers"
        if node.kind == "region":
            use = part_of_region(self.regions[node.inode], owner.page)
            return use, f"{node.path}, {use.tells.partition(': ')[2]}, page {owner.page}"
        return {"dir": Use.DIRECTORY, "file": Use.FILE}[node.kind], f"{node.path}, page {owner.page}"

    def _pages(self):
        """The Cells of the pages of memory, in the order of the image."""
        image = self.pair.image
        cells = [Cell(Use.SYSTEM, False, True, 0, "memory's header")]
        cells += [Cell(Use.SYSTEM, False, True, 0, f"registry, page {page}") for page in range(image.registry_pages)]
        frames = {entry.frame: entry for entry in image.entries}
        shadows = {entry.shadow: entry for entry in image.entries if entry.shadow}
        cells += [self._shadow(number, shadows.get(number)) for number in range(1, 1 + SHADOW_PAGES)]
        cells += [self._frame(number, frames.get(number)) for number in range(image.frames)]
        return cells + [Cell(Use.SCRATCH, False, True, 0, f"scratch page {number}") for number in range(image.scratch)]

    def _shadow(self, number, entry):
        """The Cell of a shadow page."""
        if entry is None:
            return Cell(Use.FREE, False, False, 0, f"shadow page {number}: free")
        tells = f"shadow page {number}: copy of frame {entry.frame}, block {entry.block}"
        return Cell(Use.SHADOW, entry.is_dirty, True, self._inode_of(entry.block), tells)

    def _frame(self, number, entry):
        """The Cell of a frame."""
        if entry is None:
            return Cell(Use.FREE, False, False, 0, f"frame {number}: free")
        use, whose = self._use_of_block(entry.block)
        state = "newer than the disk" if entry.is_dirty else "as on the disk"
        tells = f"frame {number}: block {entry.block}, {whose}; {state}"
        return Cell(use, entry.is_dirty, True, self._inode_of(entry.block), tells)


def in_memory(entry):
    """Where memory has a block."""
    if entry is None:
        return ""
    shadow = f", in shadow page {entry.shadow}" if entry.shadow else ""
    return f"; frame {entry.frame}{shadow}, {'newer than the disk' if entry.is_dirty else 'as on the disk'}"


def counts(cells):
    """How many cells have each use, and how many are dirty, in the order of the uses."""
    count = collections.Counter(cell.use for cell in cells)
    dirty = collections.Counter(cell.use for cell in cells if cell.is_dirty)
    return [(use, count[use], dirty[use]) for use in Use if count[use]]


def runs(cells, width):
    """Rows of cells of this width, each as runs of cells of one look: the place in the row, the first number, and the last."""
    for start in range(0, len(cells), width):
        row = cells[start : start + width]
        first = 0
        for place in range(1, len(row) + 1):
            if place == len(row) or look_of(row[place]) != look_of(row[first]):
                yield start // width, first, place - first
                first = place


def look_of(cell):
    """What is drawn of a cell."""
    return cell.use, cell.is_dirty, cell.is_cached, cell.inode
