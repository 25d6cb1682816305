"""The directories, files and regions of a pair, and whose each block is."""
import collections
import struct

from riolook.pair import PAGE_BYTES, PAGE_WORDS, NoPair

INODE_WORDS = 16
INODES_IN_BLOCK = 32
DIRECT_PAGES = 24
MOST_PAGES = 1048
MOST_DEPTH = 32
KINDS = {1: "dir", 2: "file", 3: "region"}

Owner = collections.namedtuple("Owner", "node part page")


class Node:
    """A directory, file or region: its kind, its size in bytes, that of its file, and the blocks of its pages in order."""

    def __init__(self, pair, inode):
        block, place = divmod(inode - 1, INODES_IN_BLOCK)
        words = pair.words(2 + block, INODE_WORDS * place, INODE_WORDS)
        self.inode = inode
        self.kind = KINDS.get(words[0])
        self.size = words[1]
        self.path = None
        self.pages = -(-self.size // PAGE_BYTES) if self.kind else 0
        if self.pages > MOST_PAGES:
            raise NoPair(f"{pair.disk_name} is damaged: inode {inode} is too large; `rio check` tells more")
        self.indirect = words[14] & 0xFFFFFFFF if self.pages > DIRECT_PAGES else None
        numbers = halves(words[2:14])
        if self.indirect is not None:
            numbers += halves(pair.words(demanded(pair, self.indirect), 0, PAGE_WORDS))
        self.blocks = [demanded(pair, number) for number in numbers[: self.pages]]

    def undo_pages(self, pair):
        """The undo pages of a region."""
        return pair.words(self.blocks[0], 1, 1)[0]


def halves(words):
    """Two numbers of each word, the lower half first."""
    return [number for word in words for number in (word & 0xFFFFFFFF, word >> 32)]


def demanded(pair, number):
    """The number of a block that the disk has."""
    if number >= pair.blocks:
        raise NoPair(f"{pair.disk_name} is damaged: it has no block {number}; `rio check` tells more")
    return number


def nodes_of(pair):
    """The nodes by their inodes, each with its path where a directory names it."""
    nodes = {inode: node for inode in range(1, pair.inodes + 1) if (node := Node(pair, inode)).kind}
    if 1 in nodes:
        nodes[1].path = "/"
        name_below(pair, nodes, nodes[1], MOST_DEPTH)
    return nodes


def name_below(pair, nodes, directory, depth):
    """Gives what a directory names its path, and so on below."""
    front = directory.path.rstrip("/")
    for inode, name in entries_of(pair, directory):
        node = nodes.get(inode)
        if node is None or node.path is not None or not depth:
            continue
        node.path = f"{front}/{name}"
        if node.kind == "dir":
            name_below(pair, nodes, node, depth - 1)


def entries_of(pair, directory):
    """The inodes and names in a directory."""
    data = b"".join(pair.block(block) for block in directory.blocks)[: directory.size]
    for at in range(0, len(data), 64):
        inode, length = struct.unpack_from("<IB", data, at)
        yield inode, data[at + 8 : at + 8 + length].decode("ascii", "backslashreplace")


def owners_of(nodes):
    """Whose each block is that a node has: the node, 'page' or 'indirect', and which page."""
    owners = {}
    for node in nodes.values():
        for page, block in enumerate(node.blocks):
            owners[block] = Owner(node, "page", page)
        if node.indirect is not None:
            owners[node.indirect] = Owner(node, "indirect", None)
    return owners
