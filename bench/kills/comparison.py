"""What a kill may leave, and which of it the next run finds."""
from dataclasses import dataclass
from enum import Enum
from typing import List, Optional, Sequence

from .requests import answer, parsed
from .state import Directory, File, Node, Region, State, crashed, paths
from .streams import Line


class Kind(Enum):
    """What a kill came to, or when it came where that leaves one state alone. The values are what the summary says."""

    AS_REPLIED = "as replied"
    NEXT_WHOLE = "next whole"
    LEADING_PART = "a leading part"
    IN_REBOOT = "in the reboot"
    AT_END = "at the end"
    NO_KILL = "ended without a kill"


class Differs(Exception):
    """What is found is nothing that may be there."""


@dataclass(frozen=True)
class Left:
    """What a kill left: the state after all lines whose replies came, and the line that may have been under way."""

    replied: State
    under_way: Optional[str] = None

    @property
    def as_replied(self) -> State:
        return crashed(self.replied)

    @property
    def whole(self) -> State:
        """The state where the line that was under way was done."""
        return crashed(answer(self.replied, self.under_way)[0]) if self.under_way else self.as_replied

    def undo_pages(self) -> dict:
        """The undo pages of each region that there may be, by its inode."""
        both = (*self.as_replied.nodes.items(), *self.whole.nodes.items())
        return {inode: node.undo_pages for inode, node in both if isinstance(node, Region)}


def left_after(before: State, lines: Sequence[Line], replies: bytes, sent: int) -> Left:
    """What a run may have left that was sent so many whole lines and wrote these replies, the last perhaps cut off.

    Replies that wait for each other are written before a line is worked on that may change something. So the line behind the last
    reply is the only one that may have been under way.
    """
    due = "".join(line.reply + "\n" for line in lines[:sent]).encode()
    if not due.startswith(replies):
        raise Differs(first_wrong_reply(lines, replies))
    answered = replies.count(b"\n")
    replied = lines[answered - 1].after if answered else before
    is_under_way = answered < sent and not lines[answered].may_wait
    return Left(replied, lines[answered].text if is_under_way else None)


def first_wrong_reply(lines: Sequence[Line], replies: bytes) -> str:
    """Tells the first reply that is another than its line must have."""
    came = replies.decode(errors="replace").splitlines()
    for line, reply in zip(lines, came):
        if reply != line.reply:
            return f"'{shown(line.text)}' is answered by '{shown(reply)}' in place of '{shown(line.reply)}'"
    return f"more replies than lines: '{shown(came[-1])}'"


def shown(text: str) -> str:
    """A text for a message, cut where it is long."""
    return text if len(text) <= 80 else text[:77] + "..."


def kind_of(left: Left, found: State) -> Kind:
    """Which of what a kill may leave was found."""
    if found == left.as_replied:
        return Kind.AS_REPLIED
    if found == left.whole:
        return Kind.NEXT_WHOLE
    if is_leading_part(left, found):
        return Kind.LEADING_PART
    raise Differs(difference(left, found))


def is_leading_part(left: Left, found: State) -> bool:
    """Whether this is the state as replied with a front of the data that was being written, within the old size."""
    request = parsed(left.under_way) if left.under_way else None
    if request is None or request.word != "write":
        return False
    before = left.as_replied
    inode = paths(before).get(request.values[0])
    old, new, now = (state.nodes.get(inode) for state in (before, left.whole, found))
    if not all(isinstance(node, File) for node in (old, new, now)) or len(now.data) != len(old.data):
        return False
    return found == before.with_node(inode, now) and is_front(now.data, new.data, old.data)


def is_front(found: bytes, new: bytes, old: bytes) -> bool:
    """Whether so many bytes are those of the new ones, and all behind them those of the old ones."""
    same = next((at for at, (one, other) in enumerate(zip(found, new)) if one != other), len(found))
    return found[same:] == old[same:]


def difference(left: Left, found: State) -> str:
    """Tells the first thing in which what is found is not the state as replied, and the line that was under way."""
    wanted, got = paths(left.as_replied), paths(found)
    told = differing_names(wanted, got) or differing_nodes(left.as_replied, found, wanted)
    under_way = f"the line under way was '{shown(left.under_way)}'" if left.under_way else "no line was under way"
    return f"{told or 'a node has no name'}; {under_way}"


def differing_names(wanted: dict, got: dict) -> str:
    lost, extra = sorted(set(wanted) - set(got)), sorted(set(got) - set(wanted))
    moved = sorted(path for path in set(got) & set(wanted) if got[path] != wanted[path])
    kinds: List[str] = [f"{path} is not there" for path in lost] + [f"{path} is there" for path in extra]
    return "; ".join((kinds + [f"{path} is inode {got[path]}, not {wanted[path]}" for path in moved])[:3])


def differing_nodes(wanted: State, found: State, names: dict) -> str:
    for path, inode in names.items():
        one, other = wanted.nodes[inode], found.nodes.get(inode)
        if one != other:
            return f"{path} {differing_data(one, other)}"
    return ""


def differing_data(wanted: Node, found: Optional[Node]) -> str:
    """Tells how one node is not the other."""
    if type(wanted) is not type(found) or isinstance(wanted, Directory):
        return "is of another kind"
    if len(wanted.data) != len(found.data):
        return f"has {len(found.data)} bytes, not {len(wanted.data)}"
    wrong = [at for at, (one, other) in enumerate(zip(wanted.data, found.data)) if one != other]
    if wrong:
        return f"has {len(wrong)} other bytes, from byte {wrong[0]} to byte {wrong[-1]}"
    return f"has the heap blocks {found.blocks}, not {wanted.blocks}"
