"""The requests that a mount makes of a volume, and how many blocks are free by the rule of blocks.

A file or directory of `s` bytes has `ceil(s / 4096)` pages. Each page takes a block, and where there are more than 24 pages
one block more has their numbers. A directory of `n` names has `64 * n` bytes.

No request of rio tells what is free. So the state is asked for once, by `rio check` before the pair is served, and from then
on each request that changes a size is counted. That is exact, since nobody else changes a pair that is served.
"""
import collections
import contextlib
import os

from rio import NotADirectory, NotFound, TooLarge, check

BLOCK = 4096
# The pages whose numbers the inode itself has.
DIRECT_PAGES = 24
ENTRY = 64
# 24 pages, and 1,024 more by one block of numbers.
LARGEST_FILE = (DIRECT_PAGES + 1024) * BLOCK
# Of blocks, beside one for each 32 inodes: the superblock and the bitmap.
FIXED_BLOCKS = 2
INODES_IN_BLOCK = 32
LONGEST_NAME = 255

# What was made, and the directory that has its name: both as inodes.
Made = collections.namedtuple("Made", "inode folder")


def blocks_of(size):
    """The blocks of a file or directory of so many bytes."""
    pages = -(-size // BLOCK)
    return pages + 1 if pages > DIRECT_PAGES else pages


class Space:
    """The blocks and inodes of a volume: how many there are for files and directories, and how many of them are free."""

    def __init__(self, blocks, free, inodes, free_inodes):
        self.blocks = blocks
        self.free = free
        self.inodes = inodes
        self.free_inodes = free_inodes

    def resized(self, before, after):
        """A file or directory had `before` bytes, and now has `after`."""
        self.free += blocks_of(before) - blocks_of(after)

    def made(self):
        """A file or directory was made, of no bytes."""
        self.free_inodes -= 1

    def removed(self, size):
        """A file or directory of so many bytes is gone."""
        self.free_inodes += 1
        self.free += blocks_of(size)

    def statvfs(self):
        """What `statvfs` tells, by the names of its fields."""
        return {
            "f_bsize": BLOCK,
            "f_frsize": BLOCK,
            "f_blocks": self.blocks,
            "f_bfree": self.free,
            "f_bavail": self.free,
            "f_files": self.inodes,
            "f_ffree": self.free_inodes,
            "f_favail": self.free_inodes,
            "f_namemax": LONGEST_NAME,
        }


def space_of(census, disk_bytes):
    """The space of a volume of which `check` told this. `disk_bytes` is the size of the file DISK."""
    blocks = census.used + census.free
    reserved = disk_bytes // BLOCK - blocks
    inodes = INODES_IN_BLOCK * (reserved - FIXED_BLOCKS)
    used_inodes = census.dirs + census.files + census.regions
    return Space(blocks, census.free, inodes, inodes - used_inodes)


def checked_space(image, disk, program):
    """Asks the program for the state of a pair that is not served. It raises `rio.Ended` where the pair is refused."""
    census = check(image, disk, program=program)
    return space_of(census, os.path.getsize(disk))


def folder_of(path):
    """The path of the directory that has the last name of this path."""
    return path.rpartition(b"/")[0] or b"/"


class Volume:
    """A volume that a `Rio` serves, and its `Space`.

    Paths are rio's own, as bytes. A call that is refused raises the exception of `rio`, and nothing was changed or counted.
    """

    def __init__(self, rio, space):
        self._rio = rio
        self.space = space

    # What changes nothing

    def stat(self, path):
        """Returns inode, kind ('dir', 'file' or 'region') and size."""
        return self._rio.stat(path)

    def find(self, path):
        """The same, or None where there is no such name."""
        with contextlib.suppress(NotFound, NotADirectory):
            return self._rio.stat(path)
        return None

    def list(self, path):
        """Returns the names in a directory as bytes."""
        return [name.encode("ascii") for name in self._rio.list(path)]

    def read(self, path, off, length):
        """Returns bytes of a file, fewer than `length` at its end."""
        return self._rio.read(path, off, length)

    def read_all(self, path):
        """Returns all bytes of a file."""
        return self._rio.read_all(path)

    def get(self, path, off, length):
        """Returns bytes of a region, which has to have them."""
        return self._rio.get(path, off, length)

    def every_name(self, folder=b"/"):
        """Gives each name of the volume, directory by directory."""
        waiting = [folder]
        while waiting:
            at = waiting.pop().rstrip(b"/")
            for name in self.list(at or b"/"):
                yield name
                if self.stat(at + b"/" + name).kind == "dir":
                    waiting.append(at + b"/" + name)

    # Files

    def create(self, path):
        """Makes an empty file."""
        inode = self._rio.create(path)
        self.space.made()
        return Made(inode, self._entered(folder_of(path)))

    def write(self, path, off, data, size):
        """Writes to a file of `size` bytes, and returns the size that it then has."""
        if off + len(data) > LARGEST_FILE:
            raise TooLarge("write")
        self._rio.write(path, off, data)
        after = max(size, off + len(data)) if data else size
        self.space.resized(size, after)
        return after

    def truncate(self, path, length, size):
        """Gives a file of `size` bytes another length."""
        if length > LARGEST_FILE:
            raise TooLarge("truncate")
        self._rio.truncate(path, length)
        self.space.resized(size, length)

    def unlink(self, path, size):
        """Removes a file of `size` bytes, and returns the inode of its directory."""
        self._rio.unlink(path)
        self.space.removed(size)
        return self._left(folder_of(path))

    # Directories

    def mkdir(self, path):
        """Makes an empty directory."""
        inode = self._rio.mkdir(path)
        self.space.made()
        return Made(inode, self._entered(folder_of(path)))

    def rmdir(self, path):
        """Removes an empty directory, and returns the inode of the one that it was in."""
        self._rio.rmdir(path)
        self.space.removed(0)
        return self._left(folder_of(path))

    def rename(self, path, to, replaced):
        """Moves a name, in one change. `replaced` is the file `to`, or None. Returns the inodes of the two directories."""
        self._rio.rename(path, to)
        if path == to:
            return [self._rio.stat(folder_of(path)).inode]
        if replaced is not None:
            self.space.removed(replaced.size)
        return self._moved(folder_of(path), folder_of(to), replaced is not None)

    # Directories whose names have changed: each call returns the inode

    def _moved(self, folder, to, has_replaced):
        """Counts a name that went from one directory to another, where it may have taken the place of a name."""
        if has_replaced:
            return [self._left(folder), self._rio.stat(to).inode]
        if folder == to:
            return [self._rio.stat(to).inode]
        return [self._left(folder), self._entered(to)]

    def _entered(self, folder):
        """Counts a name that a directory got."""
        now = self._rio.stat(folder)
        self.space.resized(now.size - ENTRY, now.size)
        return now.inode

    def _left(self, folder):
        """Counts a name that left a directory."""
        now = self._rio.stat(folder)
        self.space.resized(now.size + ENTRY, now.size)
        return now.inode
