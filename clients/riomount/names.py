"""Names of a file system, and the names of rio that stand for them.

A name of a file system has 1 to 255 bytes, any but 0 and `/`. A name of rio has 1 to 56 bytes from 0x21 to 0x7e without `/`.
The **stored name** of a name is found like this:

- Each byte that a name of rio cannot have, and each `%`, is written as `%` and two digits from `0123456789abcdef`: `a b` as
  `a%20b`, `50%` as `50%25`. All other bytes stay. Where that has at most 56 bytes it is the stored name.
- Where it has more, the stored name is its first 30 bytes, without an escape that would be cut, then `%~`, then the first 24
  digits of the SHA-256 of the name's bytes. The name itself is kept in the table of long names, from which it is shown.

Different short names have different stored names, and no short name is stored with `%~`. That two long names have one stored
name takes a collision of 96 bits; the second of them is refused.

A name that another client of rio made and that no name is stored as (`50%`, or one with `%~` that is in no table) is shown as
it is, and found by that.

A path of a mount is a text as libfuse gives it, of which each character stands for one byte. A path of rio is bytes, with the
stored name of each name, and has at most 32 names.

**The table of long names** is the file `/%~names` of rio: a line `rio-mount names 1`, and then one line for each long name,
with the escapes from above. The mount adds the line before the name is used, so a stop between the two leaves a line too
many and never one too few. Lines that no file needs any more are left out when the table is written anew.
"""
import hashlib
import re

LONGEST_NAME = 255
LONGEST_STORED = 56
LONGEST_FRONT = 30
HASH_DIGITS = 24
MOST_NAMES = 32
# The encoding by which a character stands for one byte.
BYTEWISE = "latin-1"
LONG_MARK = b"%~"

NAMES_PATH = b"/%~names"
NAMES_TITLE = b"rio-mount names 1"
# As long as the table is no longer than this it is not worth a look at all directories.
SMALL_TABLE = 262_144

ESCAPE = re.compile(rb"%([0-9a-f]{2})")
TO_ESCAPE = re.compile(rb"[^\x21-\x24\x26-\x7e]")
STORABLE = re.compile(rb"[\x21-\x2e\x30-\x7e]{1,56}")
# What begins so in the root directory is the mount's own.
RESERVED = re.compile(rb"%~(names|attributes)(\.new)?")


class NameTooLong(Exception):
    """The name has more than 255 bytes, or the path more than 32 names."""


class NameTaken(Exception):
    """Another long name has this stored name."""


def escaped(name):
    """The name with an escape for each byte that no name of rio has, and for `%`."""
    return TO_ESCAPE.sub(lambda found: b"%%%02x" % found[0][0], name)


def unescaped(stored):
    return ESCAPE.sub(lambda found: bytes([int(found[1], 16)]), stored)


def is_long(name):
    """Whether the table of long names has to keep it."""
    return len(escaped(name)) > LONGEST_STORED


def stored_name(name):
    """The name of rio that stands for a name, without a look at what there is."""
    if len(name) > LONGEST_NAME:
        raise NameTooLong(name)
    text = escaped(name)
    if len(text) <= LONGEST_STORED:
        return text
    front = re.sub(rb"%[0-9a-f]?\Z", b"", text[:LONGEST_FRONT])
    return front + LONG_MARK + hashlib.sha256(name).hexdigest()[:HASH_DIGITS].encode()


def short_name(stored):
    """The name that is stored so by its escapes alone, or None where there is none."""
    name = unescaped(stored)
    if b"\0" in name or escaped(name) != stored:
        return None
    return name


def is_foreign(name):
    """Whether another client may have made a file of this very name, which is shown as it is."""
    return b"%" in name and STORABLE.fullmatch(name) is not None and short_name(name) is None


def is_reserved(folder, stored):
    """Whether this is one of the mount's own files. `folder` is the path of rio, b"" or b"/" of the root directory."""
    return folder in (b"", b"/") and RESERVED.fullmatch(stored) is not None


class LongNames:
    """The table of long names.

    `file` is the `LineFile` that it lies in, and `in_use` gives the stored names of the volume that have the mark of long
    names. That takes a look at every directory, so it is asked only where the table is written anew.
    """

    def __init__(self, file, in_use):
        self._file = file
        self._in_use = in_use
        self._names = {}
        for line in file.read():
            name = unescaped(line)
            if 0 < len(name) <= LONGEST_NAME and is_long(name):
                self._names[stored_name(name)] = name
        self._enough = max(SMALL_TABLE, 2 * file.size)

    def shown(self, stored):
        """The name to show for a stored one."""
        if stored in self._names:
            return self._names[stored]
        name = short_name(stored)
        return stored if name is None else name

    def keep(self, name):
        """Makes sure that a name can be shown later. It is called before a file or directory gets the name."""
        if not is_long(name):
            return
        stored = stored_name(name)
        known = self._names.get(stored)
        if known is not None and known != name:
            raise NameTaken(name)
        if known is None:
            self._add(stored, name)

    def _add(self, stored, name):
        if self._file.size > self._enough:
            self._clear()
        self._file.append([escaped(name)])
        self._names[stored] = name

    def _clear(self):
        """Writes the table anew with the names in use."""
        used = set(self._in_use())
        kept = {stored: name for stored, name in self._names.items() if stored in used}
        self._file.rewrite([escaped(name) for name in kept.values()])
        self._names = kept
        self._enough = max(SMALL_TABLE, 2 * self._file.size)


class Paths:
    """The paths of a volume with a table of long names."""

    def __init__(self, volume, names):
        self._volume = volume
        self._names = names

    def of(self, path):
        """The path of rio that stands for a path of the mount. Whether there is such a file does not matter."""
        if path == "/":
            return b"/"
        names = path.encode(BYTEWISE).split(b"/")[1:]
        if len(names) > MOST_NAMES:
            raise NameTooLong(path)
        at = b""
        for name in names:
            at += b"/" + self._stored(at, name)
        return at

    def new(self, path):
        """The same for a name that is about to be given. It is sure to be shown later."""
        at = self.of(path)
        self._names.keep(path.rpartition("/")[2].encode(BYTEWISE))
        return at

    def shown(self, folder):
        """The names in a directory of rio, as the mount shows them."""
        stored = [name for name in self._volume.list(folder) if not is_reserved(folder, name)]
        shown = dict.fromkeys(map(self._names.shown, stored))
        return [name.decode(BYTEWISE) for name in shown]

    def _stored(self, folder, name):
        """The stored name of a name in a directory. A name that another client made is found as it is."""
        stored = stored_name(name)
        if not is_foreign(name) or is_reserved(folder, name) or self._has(folder, stored) or not self._has(folder, name):
            return stored
        return name

    def _has(self, folder, stored):
        return self._volume.find(folder + b"/" + stored) is not None
