"""Files of rio as Python has files, and regions as memory that can be indexed.

    with rio.open("/notes", "w") as notes:
        print("a line", file=notes)

    bank = rio.memory("/bank")
    bank[0:8] = (100).to_bytes(8, "little")
    with bank.transaction():
        bank[0:8], bank[8:16] = ninety, sixty

What is refused raises the exceptions of rio.py. A file is known by its path at each request: after a rename or an unlink its calls
raise NotFound, or meet what has the name then. What a buffer holds is kept once `flush` or `close` has returned.
"""
import contextlib
import io
import operator

from rio_lines import MOST_BYTES
from rio_refusals import Exists

BUFFER_BYTES = 65_536
WORD_BYTES = 8


class RioFile(io.RawIOBase):
    """A file without a buffer, as `open_file` gives it with buffering 0: each read and write is a request."""

    def __init__(self, rio, path, reads=True, writes=True, appends=False):
        super().__init__()
        self.name = path
        self._rio = rio
        self._reads = reads
        self._writes = writes
        self._appends = appends
        self._at = 0

    def readable(self):
        return self._reads

    def writable(self):
        return self._writes

    def seekable(self):
        return True

    def readinto(self, buffer):
        """Reads from the position on into a buffer, of which at most MOST_BYTES are filled, and returns how many."""
        self._demand(self._reads, "not open for reading")
        into = memoryview(buffer).cast("B")
        data = self._rio.read(self.name, self._at, min(len(into), MOST_BYTES))
        into[: len(data)] = data
        self._at += len(data)
        return len(data)

    def readall(self):
        """Reads all from the position on."""
        self._demand(self._reads, "not open for reading")
        pieces = []
        while not pieces or len(pieces[-1]) == MOST_BYTES:
            pieces.append(self._rio.read(self.name, self._at, MOST_BYTES))
            self._at += len(pieces[-1])
        return b"".join(pieces)

    def write(self, data):
        """Writes at the position, or at the end of a file that is appended to: at most MOST_BYTES, and returns how many."""
        self._demand(self._writes, "not open for writing")
        piece = memoryview(data).cast("B")[:MOST_BYTES]
        if self._appends:
            self.seek(0, io.SEEK_END)
        done = self._rio.write(self.name, self._at, piece)
        self._at += done
        return done

    def seek(self, offset, whence=io.SEEK_SET):
        """Moves the position, and returns it."""
        self._demand(True, "")
        fronts = {io.SEEK_SET: lambda: 0, io.SEEK_CUR: lambda: self._at, io.SEEK_END: lambda: self._rio.stat(self.name).size}
        at = fronts[whence]() + operator.index(offset)
        if at < 0:
            raise ValueError(f"no place before the file: {at}")
        self._at = at
        return at

    def truncate(self, size=None):
        """Gives the file this size, or that of the position, and returns it. The position stays."""
        self._demand(self._writes, "not open for writing")
        size = self._at if size is None else size
        self._rio.truncate(self.name, size)
        return size

    def _demand(self, allowed, refusal):
        if self.closed:
            raise ValueError("the file is closed")
        if not allowed:
            raise io.UnsupportedOperation(refusal)


def open_file(rio, path, mode="r", buffering=-1, **of_text):
    """Opens a file with a mode and options of Python's `open`: `encoding`, `errors` and `newline` are those of text.

    A mode or an option that `open` has not with it raises ValueError.
    """
    kind, updates, text = parsed_mode(mode)
    if text and buffering == 0:
        raise ValueError("text has a buffer: open it with b")
    if of_text and not text:
        raise ValueError(f"bytes have no {', '.join(of_text)}")
    prepare(rio, path, kind)
    raw = RioFile(rio, path, kind == "r" or updates, kind != "r" or updates, kind == "a")
    if buffering == 0:
        return raw
    buffered = buffer_of(raw)(raw, buffering if buffering > 1 else BUFFER_BYTES)
    if not text:
        return buffered
    return io.TextIOWrapper(buffered, line_buffering=buffering == 1, **of_text)


def parsed_mode(mode):
    """The one of r, w, a and x in a mode, whether it has a +, and whether the file is text."""
    kinds = [letter for letter in mode if letter in "rwax"]
    if len(kinds) != 1 or len(set(mode)) != len(mode) or set(mode) - set("rwax+bt") or {"b", "t"} <= set(mode):
        raise ValueError(f"no mode: {mode!r}")
    return kinds[0], "+" in mode, "b" not in mode


def prepare(rio, path, kind):
    """Makes or empties a file as its mode says; it has to be a file, and there."""
    if kind == "x":
        rio.create(path)
    elif kind in "wa":
        with contextlib.suppress(Exists):
            rio.create(path)
    if kind == "w":
        rio.truncate(path, 0)
    rio.read(path, 0, 0)


def buffer_of(raw):
    """The class of the buffer for a file."""
    if raw.readable() and raw.writable():
        return io.BufferedRandom
    return io.BufferedReader if raw.readable() else io.BufferedWriter


class RegionMemory:
    """The data of a region as bytes: an index gives a number, a slice bytes, and the same length can be put in place of either.

    Each change is a transaction of its own, or part of that of `transaction`. It covers whole words of 8, of which the bytes beside
    the slice stay. Where the undo pages are too few for it, UndoFull is raised and nothing changed.
    """

    def __init__(self, rio, path):
        rio.get(path, 0, 0)
        self._rio = rio
        self._path = path
        self._size = rio.stat(path).size
        self._change = None

    def __len__(self):
        return self._size

    def __getitem__(self, key):
        start, stop = self._bounds(key)
        data = b"".join(self._rio.get(self._path, at, min(MOST_BYTES, stop - at)) for at in range(start, stop, MOST_BYTES))
        return data if isinstance(key, slice) else data[0]

    def __setitem__(self, key, value):
        start, stop = self._bounds(key)
        data = memoryview(value).tobytes() if isinstance(key, slice) else bytes([value])
        if len(data) != stop - start:
            raise ValueError(f"a region keeps its length: {stop - start} bytes are to be replaced, by {len(data)}")
        if not data:
            return
        if self._change is not None:
            self._put(start, data)
            return
        with self.transaction():
            self._put(start, data)

    @contextlib.contextmanager
    def transaction(self):
        """A `with` block whose changes are committed together at its end, and undone by an exception."""
        if self._change is not None:
            raise ValueError("the region's transaction is open")
        with self._rio.transaction(self._path) as change:
            self._change = change
            try:
                yield self
            finally:
                self._change = None

    def _bounds(self, key):
        """The first byte of a key, and the one behind its last."""
        if not isinstance(key, slice):
            at = range(self._size)[key]
            return at, at + 1
        start, stop, step = key.indices(self._size)
        if step != 1:
            raise ValueError("a slice of a region has no step")
        return start, max(start, stop)

    def _put(self, start, data):
        """Changes bytes by way of the whole words that have them."""
        front = start % WORD_BYTES
        behind = -(start + len(data)) % WORD_BYTES
        first, end = start - front, start + len(data) + behind
        words = self[first:start] + data + self[start + len(data) : end]
        self._change.range(first, end - first)
        for at in range(0, len(words), MOST_BYTES):
            self._change.put(first + at, words[at : at + MOST_BYTES])
