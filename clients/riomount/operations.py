"""What the kernel asks of a mount, in requests of rio.

The public methods of `Mount` are named and called as libfuse's are. A refusal of rio is answered by the errno that a file system
has for it. Where rio has ended, the call is answered by EIO, and the mount is left.

Nothing waits for the disk: what rio has answered is kept, so `fsync` has only the file's times to bring to their table. Times
and modes that wait are kept at the latest when the file is closed.
"""
import contextlib
import errno
import os
import stat as modes
import threading
import time

from rio import RioError, Stat

from .attributes import RIGHTS, described, time_of
from .errors import REFUSED, failure, failure_of, refuse_region
from .names import Paths
from .openfiles import Going, Nameless, OpenFiles, hidden_name


class Mount:
    """A volume with the tables of its long names and attributes, and the files that are open.

    `on_ready` is called when the mount can be used, and `on_end` when rio has ended in the middle; `ended` is the exception then.
    """

    use_ns = True
    flag_nullpath_ok = 1
    flag_utime_omit_ok = 1

    def __init__(self, volume, names, attributes):
        self._volume = volume
        self._paths = Paths(volume, names)
        self._attributes = attributes
        self._files = OpenFiles()
        self._going = None
        self._lock = threading.Lock()
        self.on_ready = self.on_end = lambda: None
        self.ended = None

    def __call__(self, name, *args):
        """Answers a call of libfuse."""
        with self._lock:
            try:
                if name != "rename":
                    self._settle()
                return getattr(self, name)(*args)
            except REFUSED as refused:
                raise failure_of(refused) from None
            except RioError as error:
                self.ended = self.ended or error
                self.on_end()
                raise failure(errno.EIO) from None

    def finish(self):
        """Keeps what waits. It is called once, when libfuse is done. A refusal is raised."""
        with self._lock:
            self._settle()
            self._attributes.keep()

    def init(self, _path):
        self.on_ready()

    # Attributes

    def getattr(self, path, handle=None):
        file = self._nameless(path, handle)
        if file is not None:
            return file.described()
        found = self._volume.stat(self._paths.of(path))
        return described(found, self._attributes.row(found.inode, found.kind == "dir"))

    def chmod(self, path, mode):
        def change(row):
            row.mode = mode & RIGHTS

        self._change(path, change)

    def chown(self, path, uid, gid):
        def change(row):
            row.uid = row.uid if uid == -1 else uid
            row.gid = row.gid if gid == -1 else gid

        self._change(path, change)

    def utimens(self, path, times=None):
        now = time.time_ns()
        atime, mtime = times or (now, now)

        def change(row):
            row.atime = time_of(atime, row.atime, now)
            row.mtime = time_of(mtime, row.mtime, now)

        self._change(path, change)

    def _change(self, path, change):
        """Changes attributes, and keeps them at once."""
        file = self._nameless(path)
        if file is not None:
            change(file.nameless.row)
            return
        found = self._volume.stat(self._paths.of(path))
        row = self._attributes.row(found.inode, found.kind == "dir")
        change(row)
        row.ctime = time.time_ns()
        self._attributes.changed(found.inode, row)
        self._attributes.keep()

    def _made(self, made, mode, is_dir):
        """Gives what was just made its attributes."""
        self._attributes.forget(made.inode)
        row = self._attributes.row(made.inode, is_dir)
        row.mode = mode & RIGHTS
        row.atime = row.mtime = row.ctime = time.time_ns()
        self._attributes.changed(made.inode, row)
        self._touch(made.folder, True)

    def _touch(self, inode, is_dir):
        """The bytes of a file, or the names of a directory, have changed."""
        row = self._attributes.row(inode, is_dir)
        row.mtime = row.ctime = time.time_ns()
        self._attributes.changed(inode, row)

    def _keep(self):
        """Brings times to the table. Where it has no room they wait: what was asked for is done all the same."""
        with contextlib.suppress(*REFUSED):
            self._attributes.keep()

    # Directories

    def readdir(self, path, _handle):
        # A directory that is gone has no path.
        return [".", "..", *(self._paths.shown(self._paths.of(path)) if path else [])]

    def mkdir(self, path, mode):
        made = self._volume.mkdir(self._paths.new(path))
        self._made(made, mode, True)
        self._keep()

    def rmdir(self, path):
        at = self._paths.of(path)
        inode = self._volume.stat(at).inode
        folder = self._volume.rmdir(at)
        self._attributes.forget(inode)
        self._touch(folder, True)
        self._keep()

    def opendir(self, _path):
        return 0

    def releasedir(self, _path, _handle):
        return 0

    def fsyncdir(self, _path, _datasync, _handle):
        self._keep()

    def statfs(self, _path):
        return self._volume.space.statvfs()

    # Names that go

    def unlink(self, path):
        if self._files.forget(hidden_name(path)) is None:
            self._remove(self._paths.of(path))

    def rename(self, path, to):
        source, hidden = self._paths.of(path), hidden_name(to)
        if hidden is not None and self._hide(source, hidden):
            return
        target = self._paths.new(to)
        if self._going is not None and self._going.path == target:
            self._going.cancel()
            self._going = None
        self._settle()
        self._replace(source, target)

    def _remove(self, at):
        """Removes a file. One that is open goes on without a name."""
        found = self._volume.stat(at)
        refuse_region(found)
        self._take_bytes(at, found)
        folder = self._volume.unlink(at, found.size)
        self._attributes.forget(found.inode)
        self._touch(folder, True)
        self._keep()

    def _replace(self, source, target):
        """Renames. What has the name already goes: a file by this one change, an empty directory by one before it."""
        found, old = self._volume.stat(source), self._volume.find(target)
        if old is None or source == target:
            old = None
        else:
            self._make_way(found, old, target)
        replaced = old if old is not None and old.kind != "dir" else None
        for folder in self._volume.rename(source, target, replaced):
            self._touch(folder, True)
        if old is not None:
            self._attributes.forget(old.inode)
        self._keep()

    def _make_way(self, found, old, target):
        """Prepares that `found` gets the name of `old`."""
        if found.kind == "dir" and old.kind == "dir":
            self._volume.rmdir(target)
        elif old.kind == "dir":
            raise failure(errno.EISDIR)
        elif found.kind == "dir":
            raise failure(errno.ENOTDIR)
        else:
            refuse_region(old)
            self._take_bytes(target, old)

    def _take_bytes(self, at, found, hidden=None):
        """Where a file is open, its handles go on with its bytes in memory. `hidden` is what libfuse calls it then."""
        file = self._files.of_inode(found.inode)
        if file is not None:
            nameless = Nameless(self._volume.read_all(at), self._attributes.row(found.inode, False))
            self._files.lose_name(file, nameless, hidden)

    def _hide(self, at, hidden):
        """libfuse takes the name of an open file away. Whether by `unlink`, or because a file is to be renamed over it, does
        not show yet. So the removal waits for the next call: where that is the rename, both are one change."""
        found = self._volume.stat(at)
        refuse_region(found)
        if self._files.of_inode(found.inode) is None:
            return False
        self._settle()
        self._take_bytes(at, found, hidden)
        self._going = Going(at, self._settle_alone)
        return True

    def _settle(self):
        """Removes the file whose removal waits."""
        if self._going is not None:
            going, self._going = self._going, None
            going.cancel()
            self._remove(going.path)

    def _settle_alone(self, going):
        """The same where no call has followed. If it is refused the file stays; if rio has ended the next call tells."""
        with self._lock, contextlib.suppress(RioError, OSError):
            if going is self._going:
                self._settle()

    # Files

    def create(self, path, mode):
        made = self._volume.create(self._paths.new(path))
        self._made(made, mode, False)
        return self._files.open(Stat(made.inode, "file", 0))

    def mknod(self, path, mode, _device):
        if not modes.S_ISREG(mode):
            raise failure(errno.EPERM)
        self._files.close(self.create(path, mode))
        self._keep()

    def open(self, path, flags):
        file = self._nameless(path)
        if file is not None:
            return self._files.open_again(file)
        found = self._volume.stat(self._paths.of(path))
        if flags & (os.O_WRONLY | os.O_RDWR):
            refuse_region(found)
        return self._files.open(found)

    def read(self, path, size, off, handle):
        file = self._files.at(handle)
        if file.nameless is not None:
            return file.nameless.read(off, size)
        if off >= file.size:
            return b""
        read = self._volume.get if file.is_region else self._volume.read
        return read(self._paths.of(path), off, min(size, file.size - off))

    def write(self, path, data, off, handle):
        file = self._files.at(handle)
        if file.nameless is not None:
            file.nameless.write(off, data)
        else:
            file.size = self._volume.write(self._paths.of(path), off, data, file.size)
            self._touch(file.inode, False)
        return len(data)

    def truncate(self, path, length, handle=None):
        file = self._nameless(path, handle)
        if file is not None:
            file.nameless.truncate(length)
            return
        at = self._paths.of(path)
        found = self._volume.stat(at)
        refuse_region(found)
        self._volume.truncate(at, length, found.size)
        self._files.resized(found.inode, length)
        self._touch(found.inode, False)
        if handle is None:
            self._keep()

    def flush(self, _path, _handle):
        self._keep()

    def fsync(self, _path, _datasync, _handle):
        self._keep()

    def release(self, _path, handle):
        self._files.close(handle)
        self._keep()

    def _nameless(self, path, handle=None):
        """The open file without a name that is meant, or None."""
        file = self._files.at(handle) if handle else self._files.hidden(hidden_name(path))
        return file if file is not None and file.nameless is not None else None

    # What rio has not

    def link(self, _target, _source):
        raise failure(errno.EPERM)

    def symlink(self, _target, _source):
        raise failure(errno.EPERM)
