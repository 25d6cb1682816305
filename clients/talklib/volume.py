"""How many blocks and inodes are used and free while rio serves: counted from the tree, by the rule of blocks.

A directory, file or region of p pages has p blocks, and one more where p is above 24. Of a region `stat` tells the data alone;
its undo pages are known from the files as they are before rio serves, and from the lines that make regions afterwards.
"""
import collections
import re

from riolook.nodes import DIRECT_PAGES, nodes_of
from riolook.pair import PAGE_BYTES, NoPair, Pair

from talklib.paths import walk
from talklib.texts import of_them

DATA_PAGES_OF_MAP = 256
REGION_LINE = re.compile(rb"region /[^ ]+ [0-9]+ ([0-9]+)")

Use = collections.namedtuple("Use", "blocks used free inodes used_inodes free_inodes")


class Volume:
    """The sizes of a pair, read before rio serves it, and what has to be known of its regions."""

    def __init__(self, image, disk):
        """Reads the files; where they cannot be read, `trouble` says so, and rio will say more."""
        self.trouble = None
        self._undo_pages = {}
        try:
            pair = Pair(image, disk)
            nodes = nodes_of(pair)
        except NoPair as trouble:
            self.trouble = str(trouble)
            return
        self._blocks, self._inodes, self._reserved = pair.blocks, pair.inodes, pair.reserved
        for node in nodes.values():
            if node.kind == "region":
                self._undo_pages[node.inode] = node.undo_pages(pair)

    def hear(self, line, reply):
        """Takes note of a line that made a region."""
        made = REGION_LINE.fullmatch(line)
        if made and reply.startswith(b"ok "):
            self._undo_pages[int(reply[3:])] = int(made[1])

    def use(self, rio):
        """What is used and free now. ValueError where the files could not be read."""
        if self.trouble:
            raise ValueError(self.trouble)
        stats = [rio.stat("/"), *(item.stat for item in walk(rio, "/"))]
        used = sum(blocks_of(self._pages(stat)) for stat in stats)
        free = self._blocks - self._reserved - used
        return Use(self._blocks, used, free, self._inodes, len(stats), self._inodes - len(stats))

    def _pages(self, stat):
        """The pages of a node."""
        pages = -(-stat.size // PAGE_BYTES)
        if stat.kind != "region":
            return pages
        return 1 + self._undo_pages[stat.inode] + -(-pages // DATA_PAGES_OF_MAP) + pages


def blocks_of(pages):
    """The blocks of so many pages, with that of their numbers where there is one."""
    return pages + (pages > DIRECT_PAGES)


def shown_use(use):
    """What `df` shows."""
    rows = [
        ("blocks", use.blocks, use.used, use.free),
        ("inodes", use.inodes, use.used_inodes, use.free_inodes),
    ]
    heading = f"{'':<8}{'all':>8}{'used':>8}{'free':>8}"
    lines = [f"{name:<8}{total:>8}{used:>8}{free:>8}" for name, total, used, free in rows]
    return "\n".join([heading, *lines, f"{of_them(use.free * PAGE_BYTES, 'byte')} free"])
