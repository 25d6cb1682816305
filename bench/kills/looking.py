"""Reads back, by requests of a run, the whole state that it serves."""
from typing import Dict, List, Tuple

from .served import Run
from .state import PAGE_BYTES, ROOT, UNIT_BYTES, UNITS_IN_PAGE, Block, Directory, File, Region, Shape, State

# What no file of a stream is longer than.
READ_BYTES = 1_048_576


class WrongReply(Exception):
    """The reply is none that the line may have in any state that stands."""


def words_of(line: str, reply: str) -> List[str]:
    """The words of a reply behind `ok`."""
    first, *rest = reply.split(" ")
    if first != "ok":
        raise WrongReply(f"'{line}' is answered by '{reply[:80]}'")
    return rest


def ask(run: Run, lines: List[str]) -> List[List[str]]:
    """The words of the replies to lines that may not be refused."""
    return [words_of(line, reply) for line, reply in zip(lines, run.ask(lines))] if lines else []


def free_units(run: Run, path: str, units: int) -> List[int]:
    """The units of the heap that are in no block: those that blocks of one get in a transaction that is put back."""
    *replies, _ = run.ask([f"begin {path}", *[f"alloc {path} 1"] * units, f"abort {path}"])
    return [int(reply[3:]) // UNIT_BYTES for reply in replies[1:] if reply.startswith("ok ")]


def first_units(run: Run, path: str, taken: List[int]) -> List[int]:
    """Which of these units blocks start at: those that can be freed in a transaction that is put back."""
    replies = run.ask([f"begin {path}", *[f"free {path} {UNIT_BYTES * unit}" for unit in taken], f"abort {path}"])
    return [unit for unit, reply in zip(taken, replies[1:]) if reply == "ok"]


def blocks_in(run: Run, path: str, units: int) -> Tuple[Block, ...]:
    """The blocks of a region's heap: each ends where the next one or a free unit is."""
    free = set(free_units(run, path, units))
    starts = first_units(run, path, [unit for unit in range(units) if unit not in free])
    stops = sorted({*free, *starts, units})
    return tuple(Block(start, next(stop for stop in stops if stop > start) - start) for start in starts)


class Looker:
    """Reads a state level by level, from the root on."""

    def __init__(self, run: Run, undo_pages: Dict[int, int]):
        self.run = run
        # The undo pages of regions, by inode: no request tells them.
        self.undo_pages = undo_pages
        self.names: Dict[Tuple[int, str], int] = {}
        self.nodes = {ROOT: Directory()}

    def level(self, folders: Dict[str, int]) -> Dict[str, int]:
        """Reads what is in these folders, and gives the folders in them."""
        listed = ask(self.run, [f"list {path or '/'}" for path in folders])
        found = [(path, inode, name) for (path, inode), (_, *names) in zip(folders.items(), listed) for name in names]
        stats = ask(self.run, [f"stat {path}/{name}" for path, _, name in found])
        below = {}
        for (path, folder, name), (inode, kind, size) in zip(found, stats):
            self.names[folder, name] = int(inode)
            if kind == "dir":
                self.nodes[int(inode)] = Directory()
                below[f"{path}/{name}"] = int(inode)
            else:
                self.nodes[int(inode)] = self.node(f"{path}/{name}", int(inode), kind, int(size))
        return below

    def node(self, path: str, inode: int, kind: str, size: int):
        """A file or a region with what is in it."""
        if kind == "file":
            (data,), = ask(self.run, [f"read {path} 0 {READ_BYTES}"])
            return File(self.whole(path, data, size))
        (data,), = ask(self.run, [f"get {path} 0 {size}"])
        units = size // PAGE_BYTES * UNITS_IN_PAGE
        return Region(self.whole(path, data, size), self.undo_pages.get(inode, 0), blocks_in(self.run, path, units))

    def whole(self, path: str, digits: str, size: int) -> bytes:
        data = bytes.fromhex(digits)
        if len(data) != size:
            raise WrongReply(f"{path} has {size} bytes, and {len(data)} are read")
        return data


def look(run: Run, shape: Shape, undo_pages: Dict[int, int]) -> State:
    """The state that a run serves, in which no transaction is open."""
    if run.ask(["txns"]) != ["ok 0"]:
        raise WrongReply("a transaction is open where a run begins")
    looker = Looker(run, undo_pages)
    folders = {"": ROOT}
    while folders:
        folders = looker.level(folders)
    return State(shape, looker.names, looker.nodes)
