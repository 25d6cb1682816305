"""Random streams of lines: what a client may ask of a state, most of it possible, some of it refused.

A line is drawn for the state that the lines before it lead to. The same numbers drawn give the same stream.
"""
from random import Random
from typing import Callable, Dict, List, NamedTuple, Tuple

from .requests import answer, may_wait
from .state import PAGE_BYTES, UNIT_BYTES, WORD_BYTES, Directory, File, Region, State, paths

FOLDERS = ("", "/a", "/b", "/a/c")
FILE_NAMES = tuple(f"f{n}" for n in range(9))
REGION_NAMES = ("r0", "r1", "r2")
NO_REQUESTS = ("", "read f 0 1", "write /f0 0 6", "truncate /f0 01", "mkdir /..", "sync ", "commit")

# The sizes of what is written: a few bytes, some words, whole pages, many pages.
LENGTHS = (3, 8, 64, 500, 4096, 6000, 8192, 30_000)

# Of ten names so many are of what is there, and one of so many lines is asked for that has nothing to work on.
KNOWN_OF_TEN = 8
ONE_IN_VAIN = 12


class Line(NamedTuple):
    """A line of a stream: its text, the reply that it must have, the state after it, and whether that reply may wait."""

    text: str
    reply: str
    after: State
    may_wait: bool


class Asker:
    """Draws one line for a state."""

    def __init__(self, rng: Random, state: State):
        self.rng = rng
        self.state = state
        self.paths = paths(state)

    def of_kind(self, kind: type) -> List[str]:
        """The paths of all nodes of a kind."""
        return [path for path, inode in self.paths.items() if isinstance(self.state.nodes[inode], kind)]

    def path(self, kind: type, names=FILE_NAMES) -> str:
        """A path of a node of this kind, or any that there may be."""
        known = self.of_kind(kind)
        if known and self.rng.randrange(10) < KNOWN_OF_TEN:
            return self.rng.choice(known)
        return self.rng.choice(FOLDERS) + "/" + self.rng.choice(names)

    def region(self) -> str:
        return self.path(Region, REGION_NAMES)

    def open_region(self) -> str:
        """The path of a region with an open transaction, most often."""
        inodes = {one.inode for one in self.state.transactions}
        known = [path for path, inode in self.paths.items() if inode in inodes]
        return self.rng.choice(known) if known and self.rng.randrange(10) else self.region()

    def has_file(self) -> bool:
        return bool(self.of_kind(File))

    def has_region(self) -> bool:
        return bool(self.of_kind(Region))

    def has_transaction(self) -> bool:
        return bool(self.state.transactions)

    def has_range(self) -> bool:
        return any(one.ranges for one in self.state.transactions)

    def node(self, path: str):
        return self.state.nodes.get(self.paths.get(path, 0))

    def data(self, length: int) -> str:
        return self.rng.randbytes(length).hex()

    def create(self) -> str:
        return f"create {self.rng.choice(FOLDERS)}/{self.rng.choice(FILE_NAMES)}"

    def mkdir(self) -> str:
        return f"mkdir {self.rng.choice(FOLDERS[1:])}"

    def rmdir(self) -> str:
        return f"rmdir {self.path(Directory)}"

    def unlink(self) -> str:
        return f"unlink {self.path(File if self.rng.randrange(5) else Region)}"

    def write(self) -> str:
        path = self.path(File)
        node = self.node(path)
        size = len(node.data) if isinstance(node, File) else 0
        off = self.rng.choice((0, size, self.rng.randrange(size + 1), self.rng.randrange(size + 1), self.rng.randrange(2 * size + 9000)))
        return f"write {path} {off} {self.data(self.rng.choice(LENGTHS) + self.rng.randrange(8))}"

    def overwrite(self) -> str:
        """A long write within the bytes that a file has: what a kill may leave a part of."""
        known = [path for path in self.of_kind(File) if len(self.node(path).data) >= PAGE_BYTES]
        if not known:
            return self.write()
        path = self.rng.choice(known)
        size = len(self.node(path).data)
        off = self.rng.randrange(size // 2)
        return f"write {path} {off} {self.data(size - off)}"

    def truncate(self) -> str:
        return f"truncate {self.path(File)} {self.rng.randrange(self.rng.choice((100, PAGE_BYTES, 40_000, 120_000)))}"

    def read(self) -> str:
        return f"read {self.path(File)} {self.rng.randrange(9000)} {self.rng.randrange(5000)}"

    def rename(self) -> str:
        """A move, most often over what is there."""
        kind = self.rng.choice((File, File, File, Region, Directory))
        path, to = self.path(kind), self.path(kind)
        if kind is Directory and self.rng.randrange(2):
            to = self.rng.choice(FOLDERS[1:])
        return f"rename {path} {to}"

    def look(self) -> str:
        if self.rng.randrange(2):
            return f"list {self.path(Directory)}"
        return f"stat {self.path(self.rng.choice((File, Region, Directory)))}"

    def flush(self) -> str:
        return f"flush {self.rng.choice((1, 3, 8, 100))}"

    def no_request(self) -> str:
        return self.rng.choice(NO_REQUESTS)

    def make_region(self) -> str:
        # No fewer undo pages than data pages: all units of the heap can be asked for in one transaction.
        data_pages = self.rng.choice((1, 1, 2))
        return f"region {self.rng.choice(FOLDERS)}/{self.rng.choice(REGION_NAMES)} {data_pages} {data_pages + self.rng.randrange(2)}"

    def begin(self) -> str:
        return f"begin {self.region()}"

    def range(self) -> str:
        path = self.open_region()
        node = self.node(path)
        words = len(node.data) // WORD_BYTES if isinstance(node, Region) else 512
        first = self.rng.randrange(words)
        count = self.rng.choice((0, 1, 1, 8, 64, 300))
        return f"range {path} {WORD_BYTES * first} {WORD_BYTES * min(count, words - first + self.rng.randrange(40) // 39)}"

    def put(self) -> str:
        """A change within one of the ranges, most often."""
        path = self.open_region()
        open_one = self.state.transaction(self.paths.get(path, 0))
        if not open_one or not open_one.ranges or not self.rng.randrange(10):
            return f"put {path} {WORD_BYTES * self.rng.randrange(512)} {self.data(WORD_BYTES)}"
        first, count = self.rng.choice(open_one.ranges)
        skipped = WORD_BYTES * self.rng.randrange(count // WORD_BYTES + 1)
        return f"put {path} {first + skipped} {self.data(count - skipped)}"

    def get(self) -> str:
        return f"get {self.region()} {self.rng.randrange(4000)} {self.rng.randrange(200)}"

    def alloc(self) -> str:
        return f"alloc {self.open_region()} {self.rng.choice((1, 1, 2, 3, 8, 20, 64, 100))}"

    def free(self) -> str:
        path = self.open_region()
        node = self.node(path)
        blocks = node.blocks if isinstance(node, Region) else ()
        unit = self.rng.choice(blocks).first if blocks and self.rng.randrange(5) else self.rng.randrange(64)
        return f"free {path} {UNIT_BYTES * unit}"

    def commit(self) -> str:
        return f"commit {self.open_region()}"

    def abort(self) -> str:
        return f"abort {self.open_region()}"

    def quiet(self) -> str:
        return self.rng.choice(("sync", "txns"))


Ask = Callable[[Asker], str]

# How often each line is drawn, by what the stream is mostly of.
FILE_LINES: Dict[Ask, int] = {
    Asker.create: 9, Asker.write: 16, Asker.overwrite: 14, Asker.truncate: 6, Asker.unlink: 4, Asker.rename: 9, Asker.mkdir: 4,
    Asker.rmdir: 2, Asker.read: 6, Asker.look: 4, Asker.flush: 2, Asker.quiet: 1, Asker.no_request: 1,
}
REGION_LINES: Dict[Ask, int] = {
    Asker.make_region: 2, Asker.begin: 7, Asker.range: 14, Asker.put: 18, Asker.get: 4, Asker.alloc: 8, Asker.free: 5,
    Asker.commit: 8, Asker.abort: 3, Asker.quiet: 1,
}
KINDS = {
    "files": {**FILE_LINES, Asker.make_region: 1, Asker.begin: 1},
    "regions": {**REGION_LINES, Asker.create: 1, Asker.overwrite: 2, Asker.unlink: 1, Asker.rename: 2, Asker.quiet: 2},
    "mixed": {**FILE_LINES, **REGION_LINES},
}


# What a line needs, and the line that makes it.
NEEDS: Dict[Ask, Tuple[Callable[[Asker], bool], Ask]] = {
    **dict.fromkeys((Asker.write, Asker.overwrite, Asker.truncate, Asker.read, Asker.rename), (Asker.has_file, Asker.create)),
    **dict.fromkeys((Asker.begin, Asker.get), (Asker.has_region, Asker.make_region)),
    **dict.fromkeys((Asker.range, Asker.alloc, Asker.free, Asker.commit, Asker.abort), (Asker.has_transaction, Asker.begin)),
    Asker.put: (Asker.has_range, Asker.range),
}


def drawn(asker: Asker, ask: Ask) -> str:
    """A line of this kind, or one that makes what it needs, most often."""
    while ask in NEEDS and not NEEDS[ask][0](asker) and asker.rng.randrange(ONE_IN_VAIN):
        ask = NEEDS[ask][1]
    return ask(asker)


def stream(rng: Random, state: State, count: int) -> List[Line]:
    """So many lines, of a kind that is drawn, each for the state that those before it lead to."""
    weights = KINDS[rng.choice(tuple(KINDS))]
    asks, often = list(weights), list(weights.values())
    lines: List[Line] = []
    for ask in rng.choices(asks, often, k=count):
        text = drawn(Asker(rng, state), ask)
        state, reply = answer(state, text)
        lines.append(Line(text, reply, state, may_wait(text)))
    return lines
