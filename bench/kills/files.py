"""What the requests on files and directories answer: each takes a state and gives the state after it and the reply.

Refusals are looked for in the order in which they stand here, and raised.
"""
from typing import List, Tuple

from .state import (ENTRY_BYTES, MOST_FILE_BYTES, MOST_PAGES, PAGE_BYTES, ROOT, Directory, File, Node, Refusal, Refused, Region,
                    State, blocks_of)

Answer = Tuple[State, str]


def names_of(path: str) -> List[str]:
    """The names of a path, of which the root has none."""
    return path.split("/")[1:] if path != "/" else []


def step(state: State, inode: int, name: str) -> int:
    """One name of a walk."""
    if not isinstance(state.nodes[inode], Directory):
        raise Refused(Refusal.NOT_A_DIRECTORY)
    if (inode, name) not in state.names:
        raise Refused(Refusal.NOT_FOUND)
    return state.names[inode, name]


def walk(state: State, path: str) -> int:
    """The inode at the end of a path."""
    inode = ROOT
    for name in names_of(path):
        inode = step(state, inode, name)
    return inode


def walk_to_directory(state: State, path: str) -> int:
    """The inode of the directory at the end of a path."""
    inode = walk(state, path)
    if not isinstance(state.nodes[inode], Directory):
        raise Refused(Refusal.NOT_A_DIRECTORY)
    return inode


def parent_of(path: str) -> str:
    """The path without its last name."""
    return path.rpartition("/")[0] or "/"


def last_name(path: str) -> str:
    """The last name of a path."""
    return path.rpartition("/")[2]


def walk_to_file(state: State, path: str) -> Tuple[int, bytes]:
    """The inode of the file at the end of a path, and its bytes."""
    inode = walk(state, path)
    node = state.nodes[inode]
    if isinstance(node, Directory):
        raise Refused(Refusal.IS_A_DIRECTORY)
    if isinstance(node, Region):
        raise Refused(Refusal.IS_A_REGION)
    return inode, node.data


def growth_of(state: State, directory: int) -> int:
    """The blocks that a directory takes for one more name."""
    size = state.size(directory)
    return blocks_of(size + ENTRY_BYTES) - blocks_of(size)


def make(state: State, path: str, node: Node, blocks: int) -> Answer:
    """Makes a node under a new name, which takes so many blocks itself."""
    if path == "/":
        raise Refused(Refusal.EXISTS)
    directory = walk_to_directory(state, parent_of(path))
    if (directory, last_name(path)) in state.names:
        raise Refused(Refusal.EXISTS)
    if isinstance(node, Region) and node.file_bytes > PAGE_BYTES * MOST_PAGES:
        raise Refused(Refusal.TOO_LARGE)
    inode = state.least_free_inode()
    if blocks + growth_of(state, directory) > state.free():
        raise Refused(Refusal.NO_SPACE)
    return state.with_node(inode, node).with_name(directory, last_name(path), inode), f"ok {inode}"


def mkdir(state: State, path: str) -> Answer:
    return make(state, path, Directory(), 0)


def create(state: State, path: str) -> Answer:
    return make(state, path, File(b""), 0)


def region(state: State, path: str, data_pages: int, undo_pages: int) -> Answer:
    # No more pages of zeros than a region that is refused for its size has.
    made = Region(bytes(PAGE_BYTES * min(data_pages, MOST_PAGES)), min(undo_pages, MOST_PAGES))
    return make(state, path, made, blocks_of(made.file_bytes))


def resized(state: State, inode: int, data: bytes) -> State:
    """The state where the file has these bytes, where there is room for them."""
    size = state.size(inode)
    if blocks_of(len(data)) - blocks_of(size) > state.free():
        raise Refused(Refusal.NO_SPACE)
    return state.with_node(inode, File(data))


def write(state: State, path: str, off: int, data: bytes) -> Answer:
    inode, old = walk_to_file(state, path)
    if not data:
        return state, "ok 0"
    if off + len(data) > MOST_FILE_BYTES:
        raise Refused(Refusal.TOO_LARGE)
    new = old.ljust(off, b"\0")[:off] + data + old[off + len(data) :]
    return resized(state, inode, new), f"ok {len(data)}"


def read(state: State, path: str, off: int, length: int) -> Answer:
    _, data = walk_to_file(state, path)
    return state, f"ok {data[off : off + length].hex()}"


def truncate(state: State, path: str, length: int) -> Answer:
    inode, old = walk_to_file(state, path)
    if length > MOST_FILE_BYTES:
        raise Refused(Refusal.TOO_LARGE)
    return resized(state, inode, old[:length].ljust(length, b"\0")), "ok"


def unlink(state: State, path: str) -> Answer:
    inode = walk(state, path)
    if path == "/":
        raise Refused(Refusal.IS_ROOT)
    if isinstance(state.nodes[inode], Directory):
        raise Refused(Refusal.IS_A_DIRECTORY)
    if state.transaction(inode):
        raise Refused(Refusal.BUSY)
    return state.without_name(walk(state, parent_of(path)), last_name(path)).without_node(inode), "ok"


def rmdir(state: State, path: str) -> Answer:
    inode = walk_to_directory(state, path)
    if path == "/":
        raise Refused(Refusal.IS_ROOT)
    if state.entries(inode):
        raise Refused(Refusal.NOT_EMPTY)
    return state.without_name(walk(state, parent_of(path)), last_name(path)).without_node(inode), "ok"


def rename(state: State, path: str, to: str) -> Answer:
    inode = walk(state, path)
    target = walk_to_directory(state, parent_of(to))
    if path == "/" or to == "/":
        raise Refused(Refusal.IS_ROOT)
    if to.startswith(path + "/"):
        raise Refused(Refusal.INSIDE_ITSELF)
    source = walk(state, parent_of(path))
    replaced = state.names.get((target, last_name(to)))
    if replaced == inode:
        return state, "ok"
    if replaced is not None:
        refuse_replacing(state, inode, replaced)
    elif source != target and growth_of(state, target) > state.free():
        raise Refused(Refusal.NO_SPACE)
    moved = state.without_name(source, last_name(path)).with_name(target, last_name(to), inode)
    return (moved if replaced is None else moved.without_node(replaced)), "ok"


def refuse_replacing(state: State, inode: int, replaced: int) -> None:
    """Refuses a move of one node over another where either is a directory, or where the other has an open transaction."""
    if isinstance(state.nodes[inode], Directory) or isinstance(state.nodes[replaced], Directory):
        raise Refused(Refusal.EXISTS)
    if state.transaction(replaced):
        raise Refused(Refusal.BUSY)


def stat(state: State, path: str) -> Answer:
    inode = walk(state, path)
    node = state.nodes[inode]
    if isinstance(node, Directory):
        return state, f"ok {inode} dir {state.size(inode)}"
    kind = "file" if isinstance(node, File) else "region"
    return state, f"ok {inode} {kind} {len(node.data)}"


def list_names(state: State, path: str) -> Answer:
    names = sorted(state.entries(walk_to_directory(state, path)))
    return state, " ".join(["ok", str(len(names)), *names])


def nothing(state: State, *_) -> Answer:
    """Of a request that changes no state: `sync` and `flush`."""
    return state, "ok"
