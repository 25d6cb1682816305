"""The two files of a pair, read as docs/FORMATS.md lays them out: the memory image, the disk, and the pages that memory holds.

Nothing is written, and no rule is looked at that reading does not need: `rio check` tells whether a pair is sound.
"""
import collections
import fcntl
import mmap
import os
import struct

PAGE_BYTES = 4096
PAGE_WORDS = 512
ENTRIES_IN_PAGE = 102
ENTRY_WORDS = 5
SHADOW_PAGES = 16
IMAGE_MAGIC = b"RIOCACHE"
DISK_MAGIC = b"RIOVOLUM"
VERSION = 1

# A page that memory holds: the frame and the page of the image that it is in, and what the registry says of it.
Entry = collections.namedtuple("Entry", "frame page block is_dirty is_data file index size shadow")


class NoPair(Exception):
    """The files cannot be read as a pair: why, and what to do, in a line."""


class Image:
    """The memory image: how many frames and scratch pages it has, and the entries of its registry that are valid."""

    def __init__(self, name):
        self.name = name
        self._bytes = contents(name)
        if self._bytes[:8] != IMAGE_MAGIC or len(self._bytes) < PAGE_BYTES:
            raise NoPair(f"{name} is no memory image: name the file IMAGE of `rio format` first, and DISK second")
        _, version, self.frames, self.scratch, self.gate = struct.unpack_from("<5Q", self._bytes)
        self.registry_pages = -(-self.frames // ENTRIES_IN_PAGE)
        self.pages = 1 + self.registry_pages + SHADOW_PAGES + self.frames + self.scratch
        if version != VERSION or len(self._bytes) != self.pages * PAGE_BYTES:
            raise NoPair(f"{name} is damaged, or of another version: `rio registry` tells the rule that it breaks")
        self.entries = [entry for frame in range(self.frames) if (entry := self._entry(frame))]

    def page(self, number):
        """The bytes of a page of the image."""
        return self._bytes[number * PAGE_BYTES : (number + 1) * PAGE_BYTES]

    def _entry(self, frame):
        """The valid entry of a frame, or None."""
        at = (1 + frame // ENTRIES_IN_PAGE) * PAGE_BYTES + 8 * ENTRY_WORDS * (frame % ENTRIES_IN_PAGE)
        tag, file, index, size, shadow = struct.unpack_from("<5Q", self._bytes, at)
        if not tag & 1:
            return None
        in_shadow = self.gate == 1 and shadow != 0
        page = self.registry_pages + (shadow if in_shadow else 1 + SHADOW_PAGES + frame)
        return Entry(frame, page, tag >> 32, bool(tag & 2), bool(tag & 4), file, index, size, shadow)


class Pair:
    """Image and disk together: a block is the page that memory holds of it, or what the disk has."""

    def __init__(self, image, disk):
        self.image = Image(image)
        self.disk_name = disk
        self._disk = contents(disk)
        self.disk_blocks = len(self._disk) // PAGE_BYTES
        if self._disk[:8] != DISK_MAGIC:
            raise NoPair(f"{disk} is no disk of rio: name the file IMAGE of `rio format` first, and DISK second")
        self.entry_of = {entry.block: entry for entry in self.image.entries}
        _, _, self.blocks, self.inodes = self.words(0, 0, 4)
        self.reserved = 2 + self.inodes // 32
        if self.blocks != self.disk_blocks:
            raise NoPair(f"{disk} is damaged: it has {self.disk_blocks} blocks in place of {self.blocks}; `rio check` tells more")

    def block(self, number):
        """The bytes of a block as they count."""
        entry = self.entry_of.get(number)
        return self.image.page(entry.page) if entry else self.disk_block(number)

    def disk_block(self, number):
        """The bytes of a block as the disk has them."""
        return self._disk[number * PAGE_BYTES : (number + 1) * PAGE_BYTES]

    def words(self, number, first, count):
        """So many words of a block, from one on."""
        return struct.unpack_from(f"<{count}Q", self.block(number), 8 * first)

    def marked(self):
        """Whether the bitmap has each block as used."""
        marks = self.block(1)
        return [bool(marks[number // 8] >> number % 8 & 1) for number in range(self.blocks)]


def contents(name):
    """The bytes of a file that no run has in use. They are read as they are looked at."""
    if os.path.exists(name) and not (os.path.isfile(name) and os.path.getsize(name)):
        raise NoPair(f"{name} is no file, or an empty one: name the two files of `rio format`")
    try:
        with open(name, "rb") as file:
            demand_unused(file, name)
            return mmap.mmap(file.fileno(), 0, access=mmap.ACCESS_READ)
    except FileNotFoundError:
        raise NoPair(f"there is no file {name}: `rio format` makes a pair") from None
    except OSError as error:
        raise NoPair(f"{name} cannot be read: {error.strerror}") from None


def demand_unused(file, name):
    """Raises where a run holds the file locked. The lock is given back at once: what is started next may want it."""
    try:
        fcntl.flock(file, fcntl.LOCK_SH | fcntl.LOCK_NB)
        fcntl.flock(file, fcntl.LOCK_UN)
    except BlockingIOError:
        raise NoPair(f"{name} is in use by a run: end that first") from None
