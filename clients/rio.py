"""A client of rio for Python 3.9 and later: this file and the files `rio_*.py` beside it, over the standard library alone.

`Rio` starts the program on two pipes, sends it one request at a time and gives what the reply says:

    from rio import NotFound, Rio, format_pair

    format_pair("image", "disk", frames=64, blocks=256, inodes=64, scratch=1)
    with Rio("image", "disk") as rio:
        rio.create("/notes")
        rio.write("/notes", 0, b"hello world")
        print(rio.read("/notes", 0, 100))
        rio.region("/bank", data_pages=1, undo_pages=1)
        with rio.transaction("/bank") as change:
            change.range(0, 8)
            change.put(0, (100).to_bytes(8, "little"))

What a call changed is kept once it has returned, but for the changes of an open transaction, which count once it is
committed. The end of the run undoes the transactions that are open then.

**Several at once.** `rio.batch()` sends requests without waiting for each reply, which is many times faster: see rio_batch.py.

    with rio.batch() as batch:
        for name in names:
            batch.create("/" + name)
    batch.check()

**Files and memory.** `rio.open` gives a file as Python's `open` does, and `rio.memory` a region as bytes that can be indexed: see
rio_files.py.

**Values.** A path is str or bytes: `/`, or 1 to 32 names with a `/` before each; a name has 1 to 56 bytes from 0x21 to 0x7e
without `/`, and is neither `.` nor `..`. Data are bytes, or what has bytes, at most 1,048,576 in one call; `read_all` and
`write_all` do more, in pieces. Offsets, lengths and other numbers are from 0 to 999,999,999,999,999,999, and the value of a
stored word is from 0 to 2**64 - 1. What is outside of these raises ValueError, and is not sent.

**Refusals.** A request that cannot be done raises the exception of its number: `NotFound` for `err 2`, and so on. All are
`Refused`, with the number in `.number`. The request changed nothing, except that of `DeviceFault` (30) the first `.done`
bytes of a `write` or `put` stand, and that an `alloc`, `free` or `abort` may have left a transaction that can only be aborted.
docs/SEMANTICS.md tells which request is refused when.

**The end.** `close` ends the input, waits until the program has saved the image, and gives its status and its last line that
is no reply. Leaving the `with` block closes too, and raises `Ended` where the status is not 0 and no call told it. Where the
program ends in a call, the call raises `Ended`, with `.status` and `.last_line`: `Ended(3, "image refused: rule 7")`,
`Ended(10, "stopped 3500")`. Its request is done or not, or of a `write` a front of it. A status below 0 is the signal that
killed the program: the pair stands for all that was answered then. So it does after a status 7 because the image could not be
saved, unless the standard error tells that IMAGE could not be kept in step with memory. With RIO_MEMORY=plain nothing is promised of
the pair after either.
Nothing waits for the program to begin: a pair that it refuses is told by the first call, or by `close`.

**Signals and threads.** The program runs in a session of its own, so Ctrl-C interrupts the client alone. After an exception
in the middle of a call (KeyboardInterrupt) only `close` is left. Where the client is killed, the program meets the end of its
input and saves the image; the request on its way then is done or not, or of a `write` a front of it. A Rio is for one thread
at a time.
"""
import collections
import contextlib
import os
import re
import subprocess

# Some of these are here for who imports this file.
from rio_batch import Batch, Reply
from rio_files import RegionMemory, RioFile, open_file
from rio_lines import (
    MOST_BYTES, MOST_NUMBER, MOST_WORD, Stat, answered, digits, in_range, is_name, last_line, number, path_bytes, word_digits,
)
from rio_pipes import End, Pipes
from rio_refusals import (
    BadRequest, Busy, CutOff, DeviceFault, Doomed, Ended, Exists, HeapFull, InsideItself, IsADirectory, IsARegion, IsRoot, NoInode,
    NoMemory, NoSpace, NoTransaction, NotABlock, NotADirectory, NotAligned, NotARegion, NotCovered, NotEmpty, NotFound, OutOfRange,
    Refused, RioError, TooLarge, UndoFull, WrongReply, refusals,
)
from rio_requests import Requests, Transaction

Formatted = collections.namedtuple("Formatted", "pages blocks")
Census = collections.namedtuple("Census", "dirs files regions used free")


class LastReply:
    """Takes the reply to the one request that is on its way, from the pipes."""

    def __init__(self):
        self.reply = None

    def receive(self, reply):
        """Takes it."""
        self.reply = reply


class Rio(Requests):
    """The program, serving the files image and disk. The methods named like requests make them, and return what is answered.

    `program` is the program's path, or the list of words that start it; without it, the script `rio` of the checkout that
    this file is in. With `stop` the machine stops after so many steps, as it would in a crash.
    """

    def __init__(self, image, disk, program=None, stop=None):
        words = [*program_words(program), "serve", os.fspath(image), os.fspath(disk)]
        if stop is not None:
            words += ["--stop", in_range(stop, 0, MOST_NUMBER)]
        self._pipes = Pipes(words)
        self._last = LastReply()

    def __enter__(self):
        return self

    def __exit__(self, kind, error, trace):
        told = self._pipes.told
        end = self.close()
        if kind is None and not told and end.status != 0:
            raise Ended(*end)

    def close(self):
        """Ends the input, waits for the program to end, and returns how it did. It may be called again."""
        return self._pipes.close()

    def request(self, line):
        """Sends a line of bytes as it is and returns its reply as it is, a refusal too, each without its line end."""
        if b"\n" in line:
            raise ValueError("a request is one line")
        self._pipes.queue(line + b"\n", self._last)
        self._pipes.exchange()
        return self._last.reply

    def _ask(self, form, *words):
        line = b" ".join(words)
        return answered(self.request(line), line, form)

    def batch(self):
        """A batch, which sends requests without waiting for each reply; it is for a `with` block."""
        return Batch(self._pipes)

    # Whole files, and files as Python has them

    def read_all(self, path):
        """Returns all bytes of a file."""
        pieces = []
        while not pieces or len(pieces[-1]) == MOST_BYTES:
            pieces.append(self.read(path, MOST_BYTES * len(pieces), MOST_BYTES))
        return b"".join(pieces)

    def write_all(self, path, data):
        """Makes the data all that the file has, and the file where it is not there.

        Its room is taken first, so that where that is refused the old bytes stand. Then come the pieces: a stop between two
        leaves the first of them. To replace a file in one change, write it under another name and rename that.
        """
        data = memoryview(data).tobytes()
        with contextlib.suppress(Exists):
            self.create(path)
        self.truncate(path, len(data))
        for off in range(0, len(data), MOST_BYTES):
            self.write(path, off, data[off : off + MOST_BYTES])

    def open(self, path, mode="r", **options):
        """Opens a file as Python's `open` does, with its modes and its options `buffering`, `encoding`, `errors` and `newline`."""
        return open_file(self, path, mode, **options)

    # Transactions

    def memory(self, path):
        """A region's data as bytes that can be indexed: `rio.memory("/bank")[0:8]`."""
        return RegionMemory(self, path)

    @contextlib.contextmanager
    def transaction(self, path):
        """Opens a transaction for a `with` block: it is committed at the block's end, and aborted by an exception.

        Where the commit is refused it is aborted too, and the refusal raised. Nothing is sent where the program has ended,
        or a call was cut off: the end of the run undoes the transaction.
        """
        self.begin(path)
        try:
            yield Transaction(self, path)
            self.commit(path)
        except BaseException:
            if self._pipes.serves:
                self.abort(path)
            raise


def format_pair(image, disk, frames, blocks, inodes, scratch, program=None):
    """Writes a fresh pair of files in place of any of these names, and returns its pages and blocks. It raises `Ended`.

    A page and a block are 4,096 bytes. In range are frames from 32 to 8,192, inodes from 32 to 32,768 in multiples of 32,
    blocks from `3 + inodes / 32` to 32,768, and scratch pages from 1 to 64.
    """
    sizes = {"frames": frames, "blocks": blocks, "inodes": inodes, "scratch": scratch}
    options = [f"--{name}={in_range(value, 0, MOST_NUMBER)}" for name, value in sizes.items()]
    said = run([*program_words(program), "format", os.fspath(image), os.fspath(disk), *options])
    return Formatted(*numbers_in(r"formatted ([0-9]+) pages ([0-9]+) blocks", said))


def check(image, disk, program=None):
    """Looks at a pair, and returns what there is on it. One that breaks a rule raises `Ended`, with the rule in `.last_line`."""
    said = run([*program_words(program), "check", os.fspath(image), os.fspath(disk)])
    form = r"sound dirs ([0-9]+) files ([0-9]+) regions ([0-9]+) used ([0-9]+) free ([0-9]+)"
    return Census(*numbers_in(form, said))


def program_words(program):
    """The words that start the program."""
    if program is None:
        return [os.path.join(os.path.dirname(os.path.dirname(os.path.abspath(__file__))), "rio")]
    if isinstance(program, (str, bytes, os.PathLike)):
        return [os.fspath(program)]
    return list(program)


def run(words):
    """Runs a command that reads no input, and returns what it prints without the last line end."""
    ended = subprocess.run(words, stdin=subprocess.DEVNULL, stdout=subprocess.PIPE, check=False)
    said = last_line(ended.stdout)
    if ended.returncode != 0:
        raise Ended(ended.returncode, said)
    return said


def numbers_in(form, said):
    found = re.fullmatch(form, said)
    if not found:
        raise WrongReply(said)
    return map(int, found.groups())
