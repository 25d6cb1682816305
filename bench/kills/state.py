"""The state that requests change, by itself: no block, no frame and no step of the program is known here.

A state has names, nodes by inode, open transactions and the sizes of its volume. It never changes: what a request makes of it
is another state, so that those of all lines of a stream can be kept. Sizes and offsets are in bytes.
"""
from dataclasses import dataclass, replace
from enum import IntEnum
from typing import Dict, List, Mapping, Optional, Tuple, Union

PAGE_BYTES = 4096
WORD_BYTES = 8
UNIT_BYTES = 64
ENTRY_BYTES = 64
UNITS_IN_PAGE = PAGE_BYTES // UNIT_BYTES
WORDS_IN_PAGE = PAGE_BYTES // WORD_BYTES
DIRECT_PAGES = 24
MOST_PAGES = 1048
MOST_FILE_BYTES = MOST_PAGES * PAGE_BYTES
MAP_PAGES_EACH = 256
INODES_IN_BLOCK = 32
ROOT = 1


class Refusal(IntEnum):
    """Why a request is refused: the number behind `err`."""

    BAD_REQUEST = 1
    NOT_FOUND = 2
    EXISTS = 3
    NOT_A_DIRECTORY = 4
    IS_A_DIRECTORY = 5
    NOT_EMPTY = 6
    IS_A_REGION = 7
    NOT_A_REGION = 8
    IS_ROOT = 9
    TOO_LARGE = 10
    NO_SPACE = 11
    NO_INODE = 12
    BUSY = 13
    NO_TRANSACTION = 14
    NOT_COVERED = 15
    UNDO_FULL = 16
    HEAP_FULL = 17
    NOT_A_BLOCK = 18
    OUT_OF_RANGE = 19
    NOT_ALIGNED = 20
    INSIDE_ITSELF = 21


class Refused(Exception):
    """A request is refused, and changes nothing."""

    def __init__(self, refusal: Refusal):
        super().__init__(refusal.name)
        self.refusal = refusal


@dataclass(frozen=True)
class Shape:
    """The sizes of a pair: frames of memory, and blocks and inodes of the volume."""

    frames: int
    blocks: int
    inodes: int


@dataclass(frozen=True)
class Directory:
    """A directory. Its names are in the state."""


@dataclass(frozen=True)
class File:
    """A file of these bytes."""

    data: bytes


@dataclass(frozen=True)
class Block:
    """A block of a region's heap: its first unit of 64 bytes, and how many it has."""

    first: int
    units: int

    @property
    def end(self) -> int:
        return self.first + self.units

    @property
    def undo_words(self) -> int:
        """What it takes of the undo pages to make or free it: two words for each data page that it touches, and three."""
        return 3 + 2 * ((self.end - 1) // UNITS_IN_PAGE - self.first // UNITS_IN_PAGE + 1)


@dataclass(frozen=True)
class Region:
    """A region: its data, the number of its undo pages, and the blocks of its heap in rising order."""

    data: bytes
    undo_pages: int
    blocks: Tuple[Block, ...] = ()

    @property
    def file_bytes(self) -> int:
        """What it takes as a file: a header, undo pages, a map page for 256 data pages, and its data."""
        data_pages = len(self.data) // PAGE_BYTES
        return PAGE_BYTES * (1 + self.undo_pages + -(-data_pages // MAP_PAGES_EACH) + data_pages)


Node = Union[Directory, File, Region]


@dataclass(frozen=True)
class Transaction:
    """An open transaction: its region's inode and what that was before, its ranges in bytes, and the undo words in use."""

    inode: int
    before: Region
    ranges: Tuple[Tuple[int, int], ...] = ()
    used: int = 0


def blocks_of(size: int) -> int:
    """How many blocks so many bytes take: their pages, and an indirect block where they are more than 24."""
    pages = -(-size // PAGE_BYTES)
    return pages + (pages > DIRECT_PAGES)


@dataclass(frozen=True)
class State:
    """Names (of a directory's inode and a name), nodes by inode, and open transactions in order of `begin`."""

    shape: Shape
    names: Mapping[Tuple[int, str], int]
    nodes: Mapping[int, Node]
    transactions: Tuple[Transaction, ...] = ()

    def entries(self, directory: int) -> Dict[str, int]:
        """The names in a directory, each with its inode."""
        return {name: inode for (parent, name), inode in self.names.items() if parent == directory}

    def size(self, inode: int) -> int:
        """The bytes that a node takes of the volume."""
        node = self.nodes[inode]
        if isinstance(node, Directory):
            return ENTRY_BYTES * len(self.entries(inode))
        return len(node.data) if isinstance(node, File) else node.file_bytes

    def used(self) -> int:
        """The blocks that all nodes take."""
        return sum(blocks_of(self.size(inode)) for inode in self.nodes)

    def free(self) -> int:
        """The blocks that no node takes and that are not reserved: superblock, bitmap and table of inodes."""
        return self.shape.blocks - 2 - self.shape.inodes // INODES_IN_BLOCK - self.used()

    def least_free_inode(self) -> int:
        """The inode that a new node gets."""
        for inode in range(ROOT, self.shape.inodes + 1):
            if inode not in self.nodes:
                return inode
        raise Refused(Refusal.NO_INODE)

    def transaction(self, inode: int) -> Optional[Transaction]:
        """The transaction that is open on a region."""
        return next((open_one for open_one in self.transactions if open_one.inode == inode), None)

    def with_node(self, inode: int, node: Node) -> "State":
        """The state where this node stands at the inode."""
        return replace(self, nodes={**self.nodes, inode: node})

    def with_name(self, directory: int, name: str, inode: int) -> "State":
        """The state where the directory has this name for the inode."""
        return replace(self, names={**self.names, (directory, name): inode})

    def without_name(self, directory: int, name: str) -> "State":
        """The state where the directory has no such name."""
        return replace(self, names={key: inode for key, inode in self.names.items() if key != (directory, name)})

    def without_node(self, inode: int) -> "State":
        """The state where nothing stands at the inode."""
        return replace(self, nodes={other: node for other, node in self.nodes.items() if other != inode})

    def with_transaction(self, changed: Transaction) -> "State":
        """The state where this transaction stands in place of the one of the same region."""
        return replace(self, transactions=tuple(changed if one.inode == changed.inode else one for one in self.transactions))

    def without_transaction(self, inode: int) -> "State":
        """The state where no transaction is open on the region."""
        return replace(self, transactions=tuple(one for one in self.transactions if one.inode != inode))


def fresh(shape: Shape) -> State:
    """What a fresh pair stands for: the root directory alone."""
    return State(shape, {}, {ROOT: Directory()})


def crashed(state: State) -> State:
    """What a stop leaves of a state: each region with an open transaction is as it was before it."""
    nodes = {**state.nodes, **{one.inode: one.before for one in state.transactions}}
    return replace(state, nodes=nodes, transactions=())


def paths(state: State) -> Dict[str, int]:
    """All paths but the root's, each with its inode. A directory comes before what is in it."""
    below: Dict[int, List[Tuple[str, int]]] = {}
    for (directory, name), inode in state.names.items():
        below.setdefault(directory, []).append((name, inode))
    found: Dict[str, int] = {}
    left = [("", ROOT)]
    while left:
        front, directory = left.pop()
        for name, inode in below.get(directory, ()):
            found[f"{front}/{name}"] = inode
            left.append((f"{front}/{name}", inode))
    return found


def census(state: State) -> str:
    """What `check` prints of a pair that stands for the state."""
    def count(kind):
        return sum(isinstance(node, kind) for node in state.nodes.values())
    return f"sound dirs {count(Directory)} files {count(File)} regions {count(Region)} used {state.used()} free {state.free()}"
