"""What the parts of the test work with: the program, a folder, fresh pairs, and scripts for `fake`."""
import os
import shutil
import time

from rio import Ended, check, format_pair

HERE = os.path.dirname(os.path.abspath(__file__))
FAKE = os.path.join(HERE, "fake")

# How long a run may take to end, in seconds, and the status of one whose pair another run has.
LONGEST = 60
IN_USE = 7

# By name: frames, blocks, inodes and scratch pages. In memory the large one has a page for each block.
SIZES = {"small": (64, 256, 64, 1), "large": (2048, 2048, 64, 1)}


class Differs(Exception):
    """Something is not as expected."""


class Skipped(Exception):
    """This machine lacks something that the part takes."""


class Setting:
    """A program and a folder in which each part finds fresh files."""

    def __init__(self, program, folder):
        self.program = program
        self.folder = folder
        self._made = 0

    def path(self, name):
        """A name in the folder that no part had before."""
        self._made += 1
        return os.path.join(self.folder, f"{name}{self._made}-")

    def pair(self, size="small"):
        """A fresh pair, which is formatted once for each size."""
        first = [os.path.join(self.folder, f"{size}-{file}") for file in ("image", "disk")]
        if not os.path.exists(first[0]):
            format_pair(*first, *SIZES[size], program=self.program)
        copies = [self.path(file) for file in ("image", "disk")]
        for source, copy in zip(first, copies):
            shutil.copyfile(source, copy)
        return copies

    def settled(self, files):
        """What there is on a pair as soon as no run has it any more: one whose input has ended still saves."""
        limit = time.monotonic() + LONGEST
        while True:
            try:
                return check(*files, program=self.program)
            except Ended as ended:
                if ended.status != IN_USE or time.monotonic() > limit:
                    raise
            time.sleep(0.05)

    def script(self, *lines):
        """The two files of a fake that answers by these lines. The second gets the requests that it takes."""
        image, disk = self.path("script"), self.path("requests")
        with open(image, "w", encoding="ascii") as file:
            file.write("".join(line + "\n" for line in lines))
        return image, disk


def same(got, wanted):
    if got != wanted:
        raise Differs(f"got {shown(got)}, wanted {shown(wanted)}")


def shown(value):
    text = repr(value)
    return text if len(text) <= 300 else text[:300] + ".."


def raises(kind, call, *args, **named):
    """Makes a call that has to raise just this kind of exception, which is returned."""
    try:
        got = call(*args, **named)
    except Exception as error:
        if type(error) is not kind:
            raise
        return error
    raise Differs(f"got {shown(got)}, wanted {kind.__name__}")


def patch(path, at, data):
    """Changes bytes of a file in place."""
    with open(path, "r+b") as file:
        file.seek(at)
        file.write(data)


def content(path):
    with open(path, "rb") as file:
        return file.read()


def sent(disk):
    """The lines that a fake took."""
    return content(disk).decode("ascii").splitlines()


def every_line():
    """The lines that each client sends in its part on lines: every request once, by hand from the grammar of lines."""
    return [
        "mkdir /a", "create /a/f", "region /r 2 1", "write /a/f 9 ", "write /a/f 0 00ff1a", "read /a/f 0 0",
        "truncate /a/f 4292608", "unlink /a/f", "rmdir /a", "rename /a /'\"", "stat /a", "list /", "sync", "begin /r",
        "range /r 8 2000000", "put /r 8 3031323334353637", "get /r 8 0", "alloc /r 3", "free /r 64", "commit /r", "abort /r",
        "txns", "flush 7", "wild 41984 00000000000000ff", "arm 999999999999999999 0 ffffffffffffffff",
    ]


def refused_pairs(setting):
    """Pairs that `serve` refuses: the two files, the status and the last line that tells why."""
    twice_one_block, _ = setting.pair()
    # Entries 0 and 1 of the registry, at page 1: valid, of block 4, metadata of 4,096 bytes, no shadow.
    entry = b"".join(word.to_bytes(8, "little") for word in (4 * 2**32 + 1, 0, 0, 4096, 0))
    patch(twice_one_block, 4096, entry + entry)
    short, disk = setting.pair()
    os.truncate(short, 339_967)
    image, unmarked = setting.pair()
    patch(unmarked, 4096, b"\x0e")
    missing = setting.path("missing")
    return [
        (twice_one_block, disk, 3, "image refused: rule 7"),
        (short, disk, 3, "image refused: rule 1"),
        (image, unmarked, 4, "volume refused: rule 2 block 1"),
        (missing, disk, 7, f"no such file: {missing}"),
        (image, missing, 7, f"no such file: {missing}"),
        (image, image, 2, "usage: rio format, serve, registry, check, drill"),
    ]
