"""The requests as methods, for what sends them: one at a time (`Rio` of rio.py), or several at once (`Batch` of rio_batch.py)."""
import functools

from rio_lines import (
    MOST_BYTES, as_bytes, as_done, as_inodes, as_names, as_number, as_stat, digits, number, path_bytes, word_digits,
)


class Requests:
    """A method for each request, with its name. What a method returns is what `_ask` makes of the request's reply."""

    def _ask(self, form, *words):
        """Makes the request of these words, whose reply is read by this form of rio_lines."""
        raise NotImplementedError

    def _ask_bytes(self, word, path, off, length):
        form = functools.partial(as_bytes, length)
        return self._ask(form, word, path_bytes(path), number(off), number(length, most=MOST_BYTES))

    # Files and directories

    def mkdir(self, path):
        """Makes an empty directory, and returns its inode."""
        return self._ask(as_number, b"mkdir", path_bytes(path))

    def create(self, path):
        """Makes an empty file, and returns its inode."""
        return self._ask(as_number, b"create", path_bytes(path))

    def write(self, path, off, data):
        """Writes the data from byte `off` of a file on, and returns how many bytes. A gap before it is filled with zeros."""
        return self._ask(as_number, b"write", path_bytes(path), number(off), digits(data))

    def read(self, path, off, length):
        """Returns up to `length` bytes of a file from byte `off` on, and none past its end."""
        return self._ask_bytes(b"read", path, off, length)

    def truncate(self, path, length):
        """Gives a file this length in bytes. What it grows by is zeros."""
        return self._ask(as_done, b"truncate", path_bytes(path), number(length))

    def unlink(self, path):
        """Removes a file or a region."""
        return self._ask(as_done, b"unlink", path_bytes(path))

    def rmdir(self, path):
        """Removes an empty directory."""
        return self._ask(as_done, b"rmdir", path_bytes(path))

    def rename(self, path, to):
        """Moves a name, in one change. A file or region that has the name `to` is replaced."""
        return self._ask(as_done, b"rename", path_bytes(path), path_bytes(to))

    def stat(self, path):
        """Returns inode, kind ('dir', 'file' or 'region') and size in bytes, of a region that of its data."""
        return self._ask(as_stat, b"stat", path_bytes(path))

    def list(self, path):
        """Returns the names in a directory, in byte order."""
        return self._ask(as_names, b"list", path_bytes(path))

    def sync(self):
        """Does nothing: what is answered is kept. Its reply shows that the program serves."""
        return self._ask(as_done, b"sync")

    def flush(self, count):
        """Writes the first `count` changed pages of memory to the disk."""
        return self._ask(as_done, b"flush", number(count))

    # Regions and transactions

    def region(self, path, data_pages, undo_pages):
        """Makes a region of so many pages of 4,096 zero bytes, with pages for what transactions keep; returns its inode."""
        return self._ask(as_number, b"region", path_bytes(path), number(data_pages, least=1), number(undo_pages, least=1))

    def begin(self, path):
        """Opens a transaction on a region."""
        return self._ask(as_done, b"begin", path_bytes(path))

    def range(self, path, off, length):
        """Says that the transaction may change these bytes, which are whole words of 8."""
        return self._ask(as_done, b"range", path_bytes(path), number(off), number(length))

    def put(self, path, off, data):
        """Changes bytes within the ranges of the transaction, whole words of 8, and returns how many."""
        return self._ask(as_number, b"put", path_bytes(path), number(off), digits(data))

    def get(self, path, off, length):
        """Returns `length` bytes of a region as they are now. It needs no transaction."""
        return self._ask_bytes(b"get", path, off, length)

    def alloc(self, path, units):
        """Takes a block of so many units of 64 bytes of the region's heap, and returns the byte at which it starts."""
        return self._ask(as_number, b"alloc", path_bytes(path), number(units, least=1))

    def free(self, path, at):
        """Gives back the block that starts at byte `at`."""
        return self._ask(as_done, b"free", path_bytes(path), number(at))

    def commit(self, path):
        """Ends the transaction, and keeps what it changed."""
        return self._ask(as_done, b"commit", path_bytes(path))

    def abort(self, path):
        """Ends the transaction, and puts back what was before it. After a DeviceFault it may be tried again."""
        return self._ask(as_done, b"abort", path_bytes(path))

    def txns(self):
        """Returns the inodes of the regions with an open transaction, in the order in which they were opened."""
        return self._ask(as_inodes, b"txns")

    # Stores of a program gone wild

    def wild(self, at, value):
        """Stores the value in word `at` of memory, past all protection. On a protected word the machine stops: Ended."""
        return self._ask(as_done, b"wild", number(at), word_digits(value))

    def arm(self, step, at, value):
        """Has such a store made after `step` further steps. It takes the place of an earlier one that was not made yet."""
        return self._ask(as_done, b"arm", number(step), number(at), word_digits(value))


class Transaction:
    """The requests of a transaction on one region, without its path. They return what those of its Rio or Batch return."""

    def __init__(self, rio, path):
        self._rio = rio
        self._path = path

    def range(self, off, length):
        """Says that the transaction may change these bytes, which are whole words of 8."""
        return self._rio.range(self._path, off, length)

    def put(self, off, data):
        """Changes bytes within the ranges of the transaction, whole words of 8, and returns how many."""
        return self._rio.put(self._path, off, data)

    def get(self, off, length):
        """Returns bytes of the region as they are now."""
        return self._rio.get(self._path, off, length)

    def alloc(self, units):
        """Takes a block of so many units of 64 bytes of the region's heap, and returns the byte at which it starts."""
        return self._rio.alloc(self._path, units)

    def free(self, at):
        """Gives back the block that starts at byte `at`."""
        return self._rio.free(self._path, at)
