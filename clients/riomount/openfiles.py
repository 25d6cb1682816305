"""The files that are open in a mount.

A file that is open may lose its name, by `unlink` or because another file is renamed over it. rio has no file without a name.
So its bytes are taken into memory then, at most 4,292,608, and reads and writes go there until it is closed. What is lost with
the last close has to be nowhere else, so a stop leaves nothing of it.

libfuse tells that a name goes by a rename to `.fuse_hidden` and 16 digits, and from then on calls the file by that name.
"""
import re
import threading
import time

from rio import Stat, TooLarge

from .attributes import described
from .space import LARGEST_FILE

HIDDEN = re.compile(r"\.fuse_hidden[0-9a-f]{16}")
# Added to the inode of a file whose name is gone, since rio gives the inode to a new file.
NAMELESS = 2**32
# How long a file that libfuse took the name of waits for the rename that may follow, in seconds.
PATIENCE = 0.2


def hidden_name(path):
    """The name that libfuse gave to a file whose own name is gone, or None."""
    name = None if path is None else path.rpartition("/")[2]
    return name if name is not None and HIDDEN.fullmatch(name) else None


class OpenFile:
    """A file that is open: its inode, kind and size, by how many handles, and its `Nameless` once its name is gone."""

    def __init__(self, stat):
        self.inode = stat.inode
        self.is_region = stat.kind == "region"
        self.size = stat.size
        self.handles = 0
        self.nameless = None

    def described(self):
        """What `stat` tells of it when its name is gone."""
        found = Stat(NAMELESS + self.inode, "file", len(self.nameless.content))
        return {**described(found, self.nameless.row), "st_nlink": 0}


class Nameless:
    """The bytes and attributes of a file whose name is gone. They are in memory alone."""

    def __init__(self, content, row):
        self.content = bytearray(content)
        self.row = row

    def read(self, off, length):
        return bytes(self.content[off : off + length])

    def write(self, off, data):
        if off + len(data) > LARGEST_FILE:
            raise TooLarge("write")
        if data and off > len(self.content):
            self.truncate(off)
        self.content[off : off + len(data)] = data
        self._touch()

    def truncate(self, length):
        if length > LARGEST_FILE:
            raise TooLarge("truncate")
        del self.content[length:]
        self.content.extend(bytes(length - len(self.content)))
        self._touch()

    def _touch(self):
        self.row.mtime = self.row.ctime = time.time_ns()


class Going:
    """A file that is about to be removed. Where nobody comes before, `after` is called with this object in a while."""

    def __init__(self, path, after):
        self.path = path
        self._timer = threading.Timer(PATIENCE, after, [self])
        self._timer.daemon = True
        self._timer.start()

    def cancel(self):
        self._timer.cancel()


class OpenFiles:
    """The open files: by handle, by inode those that have a name, and by libfuse's name those whose name is gone."""

    def __init__(self):
        self._by_handle = {}
        self._by_inode = {}
        self._hidden = {}
        self._next = 1

    def open(self, stat):
        """Opens a file of which rio said this, and returns the handle."""
        return self.open_again(self._by_inode.setdefault(stat.inode, OpenFile(stat)))

    def open_again(self, file):
        """Opens a file that is open, and returns the new handle."""
        file.handles += 1
        handle = self._next
        self._next += 1
        self._by_handle[handle] = file
        return handle

    def close(self, handle):
        """Closes a handle, and returns its file."""
        file = self._by_handle.pop(handle)
        file.handles -= 1
        if file.handles == 0 and file.nameless is None:
            del self._by_inode[file.inode]
        return file

    def at(self, handle):
        """The file of a handle."""
        return self._by_handle[handle]

    def resized(self, inode, size):
        """A file has another size, whether it is open or not."""
        if inode in self._by_inode:
            self._by_inode[inode].size = size

    def of_inode(self, inode):
        """The open file that has this inode and a name, or None."""
        return self._by_inode.get(inode)

    def lose_name(self, file, nameless, name=None):
        """The name of an open file is gone. libfuse calls it by `name` from now on, where there is one."""
        file.nameless = nameless
        del self._by_inode[file.inode]
        if name is not None:
            self._hidden[name] = file

    def hidden(self, name):
        """The file that libfuse calls by this name, or None."""
        return self._hidden.get(name)

    def forget(self, name):
        """libfuse has closed the file that it calls by this name."""
        return self._hidden.pop(name, None)
