"""The part of the test on the mount that does the same to it and to a folder of the system, and compares what comes.

What is done is drawn from a number. Each call has to give the same on both sides, or to fail by the same errno.
"""
import errno
import os
import random

from mounted import mounted, pair_of
from rio import check
from setting import content, same

CALLS = 3000
MOST_OPEN = 6
MOST_BYTES = 200_000
NAMES = ["a", "b", "c d", "50%", "long" * 20, "ö" * 40]


class Twins:
    """Two folders, and files that are open in both."""

    def __init__(self, seed, folders):
        self.folders = folders
        self.random = random.Random(seed)
        self.open = []

    def path(self):
        """A path of one to three names."""
        return "/".join(self.random.choices(NAMES, k=self.random.choice((1, 1, 2, 2, 3))))

    def both(self, call, *paths):
        """Makes a call with paths below each of the folders, and returns what the two give."""
        given = [outcome(call, *(os.path.join(folder, path) for path in paths)) for folder in self.folders]
        same((call.__name__, paths, given[0]), (call.__name__, paths, given[1]))

    def step(self):
        """Makes a call that is drawn."""
        drawn = self.random.choices((self.on_names, self.on_a_file, self.on_open_files), (4, 3, 4))[0]
        drawn()

    def on_names(self):
        call = self.random.choice((os.mkdir, os.rmdir, os.unlink, os.rename, os.rename, listed))
        self.both(call, *(self.path() for _ in range(2 if call is os.rename else 1)))

    def on_a_file(self):
        size, byte = self.random.randrange(MOST_BYTES), self.random.randrange(256)
        mode = self.random.randrange(0o1000) | 0o700

        def fill(path):
            with open(path, "wb") as file:
                file.write(bytes([byte]) * size)

        def cut(path):
            os.truncate(path, size)

        def allow(path):
            os.chmod(path, mode)

        self.both(self.random.choice((fill, fill, cut, allow, described, content)), self.path())

    def on_open_files(self):
        if len(self.open) < MOST_OPEN and self.random.random() < 0.3:
            self.open_one()
        elif self.open:
            self.use_one(self.random.choice(self.open))

    def open_one(self):
        """Opens a file on both sides, and makes it where it is not there."""
        path, flags = self.path(), os.O_RDWR | os.O_CREAT | self.random.choice((0, os.O_APPEND, os.O_EXCL, os.O_TRUNC))
        files = [outcome(os.open, os.path.join(folder, path), flags) for folder in self.folders]
        failed = [file for file in files if isinstance(file, str)]
        if failed:
            same((path, files[0]), (path, files[1]))
        else:
            self.open.append(files)

    def use_one(self, files):
        off, size = self.random.randrange(MOST_BYTES), self.random.randrange(20_000)
        byte = bytes([self.random.randrange(256)])
        calls = {
            "write": lambda file: os.pwrite(file, byte * size, off),
            "read": lambda file: os.pread(file, size, off),
            "cut": lambda file: os.ftruncate(file, off),
            "size": lambda file: (os.fstat(file).st_size, os.fstat(file).st_nlink),
            "sync": os.fsync,
            "close": os.close,
        }
        name = self.random.choice(list(calls))
        got = [outcome(calls[name], file) for file in files]
        same((name, got[0]), (name, got[1]))
        if name == "close":
            self.open.remove(files)

    def close(self):
        for file in sum(self.open, []):
            os.close(file)
        self.open = []


def outcome(call, *args):
    """What a call gives, or the name of its errno."""
    try:
        return call(*args)
    except OSError as error:
        return errno.errorcode[error.errno]


def listed(path):
    return sorted(os.listdir(path))


def described(path):
    told = os.stat(path)
    return (told.st_mode, told.st_size if os.path.isfile(path) else 0)


def whole(folder):
    """All paths below a folder, with their rights and bytes."""
    found = {}
    for at, folders, files in os.walk(folder):
        for path in (os.path.join(at, name) for name in folders + files):
            found[os.path.relpath(path, folder)] = (described(path), content(path) if os.path.isfile(path) else None)
    return found


def twins(setting):
    """The same calls on a mount and on a folder of the system, which are compared, and again in the next run."""
    other = setting.path("other")
    os.mkdir(other)
    pair = pair_of(setting, "few frames")
    with mounted(setting, pair) as folder:
        both = Twins(7, (folder, other))
        try:
            for _ in range(CALLS):
                both.step()
        finally:
            both.close()
        same(whole(folder) == whole(other), True)
        left = os.statvfs(folder)
    found = check(*pair, program=setting.program)
    same((left.f_bfree, left.f_ffree), (found.free, 2048 - found.dirs - found.files))
    with mounted(setting, pair) as folder:
        same(whole(folder) == whole(other), True)


def parts():
    return {"mount: the same on a folder of the system": twins}
