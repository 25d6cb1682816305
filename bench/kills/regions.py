"""What the requests on regions and their transactions answer: each takes a state and gives the state after it and the reply.

Refusals are looked for in the order in which they stand here, and raised. No request meets a device fault, so that no transaction
is doomed.
"""
from dataclasses import replace
from typing import Optional, Tuple

from .files import Answer, walk
from .state import UNIT_BYTES, WORD_BYTES, WORDS_IN_PAGE, Block, Refusal, Refused, Region, State, Transaction


def walk_to_region(state: State, path: str) -> Tuple[int, Region]:
    """The inode of the region at the end of a path, and the region."""
    inode = walk(state, path)
    node = state.nodes[inode]
    if not isinstance(node, Region):
        raise Refused(Refusal.NOT_A_REGION)
    return inode, node


def walk_to_transaction(state: State, path: str) -> Tuple[Region, Transaction]:
    """The region at the end of a path, and the transaction that is open on it."""
    inode, node = walk_to_region(state, path)
    open_one = state.transaction(inode)
    if open_one is None:
        raise Refused(Refusal.NO_TRANSACTION)
    return node, open_one


def refuse_unaligned(off: int, length: int) -> None:
    if off % WORD_BYTES or length % WORD_BYTES:
        raise Refused(Refusal.NOT_ALIGNED)


def refuse_past_end(node: Region, off: int, length: int) -> None:
    if off + length > len(node.data):
        raise Refused(Refusal.OUT_OF_RANGE)


def with_undo(node: Region, open_one: Transaction, words: int) -> Transaction:
    """The transaction where so many more undo words are in use."""
    if open_one.used + words > WORDS_IN_PAGE * node.undo_pages:
        raise Refused(Refusal.UNDO_FULL)
    return replace(open_one, used=open_one.used + words)


def begin(state: State, path: str) -> Answer:
    inode, node = walk_to_region(state, path)
    if state.transaction(inode):
        raise Refused(Refusal.BUSY)
    return replace(state, transactions=(*state.transactions, Transaction(inode, node))), "ok"


def range_of(state: State, path: str, off: int, length: int) -> Answer:
    node, open_one = walk_to_transaction(state, path)
    refuse_unaligned(off, length)
    refuse_past_end(node, off, length)
    grown = with_undo(node, open_one, 3 + length // WORD_BYTES)
    return state.with_transaction(replace(grown, ranges=(*grown.ranges, (off, length)))), "ok"


def is_covered(open_one: Transaction, off: int, length: int) -> bool:
    """Whether each word of these bytes is in a range."""
    covered = set()
    for first, count in open_one.ranges:
        covered.update(range(first, first + count, WORD_BYTES))
    return covered.issuperset(range(off, off + length, WORD_BYTES))


def put(state: State, path: str, off: int, data: bytes) -> Answer:
    node, open_one = walk_to_transaction(state, path)
    refuse_unaligned(off, len(data))
    refuse_past_end(node, off, len(data))
    if not is_covered(open_one, off, len(data)):
        raise Refused(Refusal.NOT_COVERED)
    changed = replace(node, data=node.data[:off] + data + node.data[off + len(data) :])
    return state.with_node(open_one.inode, changed), f"ok {len(data)}"


def get(state: State, path: str, off: int, length: int) -> Answer:
    _, node = walk_to_region(state, path)
    refuse_past_end(node, off, length)
    return state, f"ok {node.data[off : off + length].hex()}"


def first_fit(node: Region, units: int) -> Optional[int]:
    """The least unit at which so many are in no block."""
    at = 0
    for block in node.blocks:
        if block.first - at >= units:
            return at
        at = block.end
    return at if len(node.data) // UNIT_BYTES - at >= units else None


def alloc(state: State, path: str, units: int) -> Answer:
    node, open_one = walk_to_transaction(state, path)
    first = first_fit(node, units)
    if first is None:
        raise Refused(Refusal.HEAP_FULL)
    taken = Block(first, units)
    grown = with_undo(node, open_one, taken.undo_words)
    blocks = tuple(sorted((*node.blocks, taken), key=lambda block: block.first))
    return state.with_node(open_one.inode, replace(node, blocks=blocks)).with_transaction(grown), f"ok {UNIT_BYTES * first}"


def free(state: State, path: str, at: int) -> Answer:
    node, open_one = walk_to_transaction(state, path)
    given = next((block for block in node.blocks if UNIT_BYTES * block.first == at), None)
    if given is None:
        raise Refused(Refusal.NOT_A_BLOCK)
    shrunk = with_undo(node, open_one, given.undo_words)
    blocks = tuple(block for block in node.blocks if block != given)
    return state.with_node(open_one.inode, replace(node, blocks=blocks)).with_transaction(shrunk), "ok"


def commit(state: State, path: str) -> Answer:
    _, open_one = walk_to_transaction(state, path)
    return state.without_transaction(open_one.inode), "ok"


def abort(state: State, path: str) -> Answer:
    _, open_one = walk_to_transaction(state, path)
    return state.with_node(open_one.inode, open_one.before).without_transaction(open_one.inode), "ok"


def txns(state: State) -> Answer:
    inodes = [str(one.inode) for one in state.transactions]
    return state, " ".join(["ok", str(len(inodes)), *inodes])
