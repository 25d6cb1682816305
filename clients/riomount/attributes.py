"""Modes, owners and times of files and directories, which rio has not. They lie in a table by inode.

**The table of attributes** is the file `/%~attributes` of rio: a line `rio-mount attributes 1`, and then lines of one of the
two forms

    INODE MODE UID GID ATIME MTIME CTIME
    INODE -

The first gives an inode its attributes, the second takes them away; later lines count more. MODE is the twelve bits of rights
in octal, times are nanoseconds since 1970, all else is decimal. Lines of no such form are passed over. An inode without a line
has the mode 755 or 644, the owner of the mount, and the time at which the mount began.

A change waits in memory until a call of `keep`, which adds a line for each inode that changed, all in one change of the file.
Where the table has grown to twice what it needs, and at least 65,536 bytes, it is written anew.

The inode of a file that is gone is given to a new one. So its line is taken away with the file; where a stop comes in between,
the new file gets a line of its own when it is made. Only a file that another client makes then has the old line.
"""
import dataclasses
import re
import stat as modes

from .space import BLOCK, LARGEST_FILE, blocks_of

ATTRIBUTES_PATH = b"/%~attributes"
ATTRIBUTES_TITLE = b"rio-mount attributes 1"
SMALL_TABLE = 65_536
# About as many bytes has a line.
LINE_BYTES = 80

DIR_MODE = 0o755
FILE_MODE = 0o644
RIGHTS = 0o7777
MAY_WRITE = 0o222
# A time that is to be the clock's, or to stay, as libfuse gives it: nanoseconds since 1970 that no one sets.
TIME_NOW = 2**30 - 1
TIME_OMITTED = 2**30 - 2
# `stat` counts blocks of so many bytes.
STAT_BLOCK = 512

NUMBER = rb" (-?[0-9]{1,20})"
LINE = re.compile(rb"([0-9]{1,6}) (?:-|([0-7]{1,4})" + 5 * NUMBER + rb")")


@dataclasses.dataclass
class Row:
    """The attributes of an inode: the bits of rights, the owner and its group, and times in nanoseconds since 1970."""

    mode: int
    uid: int
    gid: int
    atime: int
    mtime: int
    ctime: int


@dataclasses.dataclass(frozen=True)
class Owner:
    """Whom files belong to that have no line, and since when."""

    uid: int
    gid: int
    since: int

    def row(self, is_dir):
        """The attributes of an inode without a line."""
        mode = DIR_MODE if is_dir else FILE_MODE
        return Row(mode, self.uid, self.gid, self.since, self.since, self.since)


def time_of(given, old, now):
    """The time that is meant where libfuse gives one."""
    return {TIME_NOW: now, TIME_OMITTED: old}.get(given, given)


def described(found, row):
    """What `stat` tells of a file or directory of which rio says `found`, by the names of its fields."""
    rights = row.mode & ~MAY_WRITE if found.kind == "region" else row.mode
    return {
        "st_ino": found.inode,
        "st_mode": (modes.S_IFDIR if found.kind == "dir" else modes.S_IFREG) | rights,
        # 1 says of a directory that its directories are not counted.
        "st_nlink": 1,
        "st_uid": row.uid,
        "st_gid": row.gid,
        "st_size": found.size,
        "st_blocks": blocks_of(found.size) * BLOCK // STAT_BLOCK,
        "st_blksize": BLOCK,
        "st_atime": row.atime,
        "st_mtime": row.mtime,
        "st_ctime": row.ctime,
    }


def line_of(inode, row):
    """The line of an inode's attributes, or the one that takes them away."""
    if row is None:
        return b"%d -" % inode
    return b"%d %o %d %d %d %d %d" % (inode, row.mode, row.uid, row.gid, row.atime, row.mtime, row.ctime)


def row_of(line):
    """What a line says: the inode, and its attributes or None. None where it is no line of a table."""
    found = LINE.fullmatch(line)
    if found is None:
        return None
    inode, mode, *numbers = found.groups()
    return int(inode), None if mode is None else Row(int(mode, 8), *map(int, numbers))


class Attributes:
    """The table. `file` is the `LineFile` that it lies in, and `owner` stands for what no line tells."""

    def __init__(self, file, owner):
        self._file = file
        self._owner = owner
        self._rows = {}
        self._waiting = set()
        for said in map(row_of, file.read()):
            if said is not None:
                self._say(*said)

    def _say(self, inode, row):
        if row is None:
            self._rows.pop(inode, None)
        else:
            self._rows[inode] = row

    def row(self, inode, is_dir):
        """The attributes of an inode, to look at. Who changes them tells it by `changed`, with the row."""
        return self._rows.get(inode) or self._owner.row(is_dir)

    def changed(self, inode, row):
        """These are the attributes of the inode from now on."""
        self._rows[inode] = row
        self._waiting.add(inode)

    def forget(self, inode):
        """The inode's file is gone."""
        if self._rows.pop(inode, None) is not None:
            self._waiting.add(inode)

    def waiting(self):
        """How many inodes have changes that are not in the file yet."""
        return len(self._waiting)

    def keep(self):
        """Brings all changes to the file. Where that is refused they wait for the next call, and the refusal is raised."""
        if not self._waiting:
            return
        lines = [line_of(inode, self._rows.get(inode)) for inode in sorted(self._waiting)]
        added = sum(map(len, lines)) + len(lines)
        if self._file.size + added > self._enough():
            self._file.rewrite([line_of(inode, row) for inode, row in sorted(self._rows.items())])
        else:
            self._file.append(lines)
        self._waiting.clear()

    def _enough(self):
        """The size from which on the table is written anew."""
        return min(LARGEST_FILE, max(SMALL_TABLE, 2 * LINE_BYTES * len(self._rows)))
