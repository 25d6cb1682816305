"""The drill: sessions of runs over one pair, each killed at a random moment and looked at by the next run.

A session has a volume, a random stream for each of its runs, and the state that its pair has to stand for. All that is drawn in it
comes from its seed, so that it can be made again; only how far a run had come when it was killed is the machine's.
"""
import contextlib
import tempfile
import time
from collections import Counter
from dataclasses import dataclass, field
from random import Random
from typing import Iterator, List, Optional

from .comparison import Differs, Kind, Left, kind_of, left_after
from .looking import WrongReply, look
from .served import Ended, Moment, Pair, Run
from .state import Shape, census, fresh
from .streams import stream

# A frame for each block; too few, so that pages leave memory; and too few of a volume that is soon full.
SHAPES = (Shape(256, 256, 64), Shape(32, 256, 64), Shape(32, 72, 32))

KILLS_IN_SESSION = 8

# One of so many kills comes at the end of a run, and before one of so many looks some reboots are killed.
ONE_AT_END = 6
ONE_IN_REBOOT = 5
MOST_IN_REBOOT = 3

# In which seconds from its start a reboot is killed, and in which from the end of the input a run that saves.
REBOOT_SECONDS = (0.0005, 0.012)
END_SECONDS = (0.0, 0.003)

# How many lines a stream has; how long one of them takes, about, in seconds; and how long a part of the input may be worked on.
LINES = (20, 250)
LINE_SECONDS = 0.00006
WORK_SECONDS = 0.002

# What shows that a pair does not stand for what it has to.
FAULTS = (Differs, Ended, WrongReply)


@dataclass
class Report:
    """What a drill came to: ends of runs by kind, and what was bad of them."""

    with_kills: bool = True
    kinds: Counter = field(default_factory=Counter)
    bad: List[str] = field(default_factory=list)

    @property
    def count(self) -> int:
        """How many runs were killed, or, in a drill without kills, ended."""
        not_counted = self.kinds[Kind.NO_KILL] if self.with_kills else 0
        return sum(self.kinds.values()) + len(self.bad) - not_counted


def moment_of(rng: Random, data: bytes, replies: int) -> Moment:
    """A moment in a run with this input and so many bytes of replies."""
    choice = rng.randrange(3)
    if choice == 0:
        return Moment(replied_bytes=rng.randrange(replies))
    if choice == 1:
        return Moment(written_bytes=rng.randrange(len(data)), seconds=rng.uniform(0.0, WORK_SECONDS))
    return Moment(seconds=rng.uniform(0.0, LINE_SECONDS * data.count(b"\n")))


class Session:
    """One pair, from its fresh state on, and the run that serves it."""

    def __init__(self, pair: Pair, seed: int, with_kills: bool = True):
        self.pair = pair
        self.seed = seed
        self.rng = Random(seed)
        self.shape = self.rng.choice(SHAPES)
        self.with_kills = with_kills
        self.left = Left(fresh(self.shape))
        self.run: Optional[Run] = None

    def close(self) -> None:
        """Lets no run go on."""
        if self.run:
            self.run.kill()
            self.run = None

    def open(self) -> Kind:
        """Looks at the pair by `check` and by a run, and tells which of what may be there was found."""
        status, said = self.pair.run("check")
        if status != 0:
            raise Differs(f"check ends with status {status}: {said}")
        self.run = self.pair.serve()
        found = look(self.run, self.shape, self.left.undo_pages())
        kind = kind_of(self.left, found)
        if said != census(found):
            raise Differs(f"check says '{said}', and what is found is '{census(found)}'")
        self.left = Left(found)
        return kind

    def serve(self) -> Optional[Kind]:
        """Has the run serve a stream, and ends it. Tells how, where that leaves one state alone."""
        before, run = self.left.replied, self.run
        lines = stream(self.rng, before, self.rng.randint(*LINES))
        data = "".join(line.text + "\n" for line in lines).encode()
        replies = sum(len(line.reply) + 1 for line in lines)
        if not self.with_kills:
            kind = self.end_alone(data, replies)
        elif self.rng.randrange(ONE_AT_END):
            kind = self.kill_within(data, replies)
        else:
            kind = self.kill_at_end(data, replies)
        self.run = None
        self.left = left_after(before, lines, bytes(run.taken), data[: run.written].count(b"\n"))
        return kind

    def end_alone(self, data: bytes, replies: int) -> Kind:
        """Serves the whole input, and waits for the end."""
        self.run.exchange(data, replies, Moment())
        expect_status(0, self.run.end(), self.run)
        return Kind.NO_KILL

    def kill_within(self, data: bytes, replies: int) -> None:
        """Serves the input up to a random moment."""
        self.run.exchange(data, replies, moment_of(self.rng, data, replies))
        expect_status(None, self.run.kill(), self.run)

    def kill_at_end(self, data: bytes, replies: int) -> Kind:
        """Serves the whole input, and kills the run while it saves the image, where it has not ended by then."""
        self.run.exchange(data, replies, Moment())
        self.run.end_input()
        time.sleep(self.rng.uniform(*END_SECONDS))
        status = self.run.kill()
        if status is None:
            return Kind.AT_END
        expect_status(0, status, self.run)
        return Kind.NO_KILL

    def kill_reboots(self) -> int:
        """Kills some runs while they begin, or none. Nothing is asked of them. Tells how many."""
        if not self.with_kills or self.rng.randrange(ONE_IN_REBOOT):
            return 0
        count = self.rng.randint(1, MOST_IN_REBOOT)
        for _ in range(count):
            self.run = self.pair.serve()
            time.sleep(self.rng.uniform(*REBOOT_SECONDS))
            expect_status(None, self.run.kill(), self.run)
        self.run = None
        return count

    def play(self) -> Iterator[Kind]:
        """Tells what each kill came to."""
        self.pair.format(self.shape)
        self.open()
        for _ in range(KILLS_IN_SESSION):
            ended = self.serve()
            rebooted = self.kill_reboots()
            found = self.open()
            if ended and found is not Kind.AS_REPLIED:
                raise Differs(f"found is {found.value}, and all lines were answered")
            yield ended or found
            yield from [Kind.IN_REBOOT] * rebooted


def expect_status(wanted: Optional[int], status: Optional[int], run: Run) -> None:
    """A run has to end so: by the kill where that is None, else by itself."""
    if status != wanted:
        raise Differs(f"the run ends with status {status}: {run.last_line()}")


def played(session: Session, report: Report, most: int) -> Iterator[Report]:
    """Plays a session until the report counts so many ends, or something is bad. Gives the report after each end."""
    number = 0
    try:
        for kind in session.play():
            number += 1
            report.kinds[kind] += 1
            yield report
            if report.count >= most:
                return
    except FAULTS as fault:
        shape = session.shape
        report.bad.append(f"seed {session.seed}, kill {number + 1}, {shape.frames} frames, {shape.blocks} blocks: {fault}")
        yield report


def drill(program: str, folder: str, kills: int, seed: int, with_kills: bool = True) -> Iterator[Report]:
    """Kills so many runs, over pairs in the folder, from this seed on. Gives the report after each end, which grows."""
    report = Report(with_kills)
    while report.count < kills:
        with tempfile.TemporaryDirectory(dir=folder) as room:
            with contextlib.closing(Session(Pair(program, room), seed, with_kills)) as session:
                yield from played(session, report, kills)
        seed += 1
