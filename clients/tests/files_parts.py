"""The parts of the test on rio_files.py: files by the side of the system's own, which do the same, and regions as memory."""
import contextlib
import io
import os

import rio as client
from rio import MOST_BYTES, Rio, Stat
from setting import content, raises, same


def text_calls(open_it):
    """What a text file says to calls, in the order in which they are made."""
    said = []
    with open_it("w") as file:
        said += [file.write("one\ntwo\n"), file.write("three"), file.tell()]
    with open_it("r") as file:
        said += [file.readline(), list(file), file.read()]
    with open_it("a") as file:
        print("", "four", sep="\n", file=file)
    with open_it("r+") as file:
        said += [file.read(), file.seek(4), file.write("TWO"), file.seek(0), file.readlines()]
    with open_it("w+") as file:
        said += [file.read(), file.write("gr\u00fc\u00dfe"), file.seek(0), file.read()]
    return said


def binary_calls(open_it):
    """The same of a file of bytes, with and without a buffer."""
    said = []
    with open_it("wb") as file:
        said += [file.write(bytes(range(256))), file.seek(300), file.write(b"end"), file.tell()]
    with open_it("rb") as file:
        said += [file.read(3), file.seek(-3, io.SEEK_END), file.read(), file.seek(254), file.read(50), file.read(1)]
    with open_it("r+b") as file:
        said += [file.seek(10), file.truncate(), file.read(), file.seek(0), file.read(), file.truncate(20), file.read(1)]
        said += [file.seek(2, io.SEEK_CUR), file.write(memoryview(b"xy")), file.seek(0), file.read()]
    with open_it("ab") as file:
        said += [file.write(b"more"), file.seekable(), file.readable(), file.writable()]
    with open_it("rb") as file:
        said += [file.read(), file.readable(), file.writable()]
    return said


SERIES = [(text_calls, {}), (text_calls, {"encoding": "latin-1"}), (binary_calls, {}), (binary_calls, {"buffering": 0})]


def as_the_system(setting):
    """Each series of calls says and leaves the same on a file of rio as on a file of the system."""
    with Rio(*setting.pair(), program=setting.program) as rio:
        for calls, options in SERIES:
            path = setting.path("plain")
            wanted = calls(lambda mode: open(path, mode, **options))
            same(calls(lambda mode: rio.open("/f", mode, **options)), wanted)
            same(rio.read_all("/f"), content(path))


def modes(setting):
    with Rio(*setting.pair(), program=setting.program) as rio:
        rio.mkdir("/a")
        rio.region("/r", 1, 1)
        raises(client.NotFound, rio.open, "/f")
        raises(client.NotFound, rio.open, "/f", "r+b")
        raises(client.IsADirectory, rio.open, "/a", "w")
        raises(client.IsADirectory, rio.open, "/a", "a")
        raises(client.IsARegion, rio.open, "/r", "rb")
        for mode in ("", "rw", "rr", "b", "rbt", "z", "r++"):
            raises(ValueError, rio.open, "/f", mode)
        raises(ValueError, rio.open, "/f", "w", buffering=0)
        raises(ValueError, rio.open, "/f", "wb", encoding="utf-8")
        rio.open("/f", "x").close()
        raises(client.Exists, rio.open, "/f", "x")
        with rio.open("/f", "wb", buffering=0) as file:
            raises(io.UnsupportedOperation, file.read, 1)
            raises(ValueError, file.seek, -1)
        raises(ValueError, file.write, b"x")
        with rio.open("/f", "rb", buffering=0) as file:
            raises(io.UnsupportedOperation, file.write, b"x")
        rio.unlink("/f")
        same(rio.list("/"), ["a", "r"])


def large_file(setting):
    """More than a request takes, through the buffer and past it."""
    data = os.urandom(4096) * 600
    with Rio(*setting.pair("large"), program=setting.program) as rio:
        with rio.open("/f", "wb") as file:
            same(file.write(data), len(data))
        same(rio.stat("/f"), Stat(2, "file", len(data)))
        with rio.open("/f", "rb") as file:
            same(file.read() == data, True)
        with rio.open("/f", "rb", buffering=0) as file:
            same((len(file.read(MOST_BYTES + 1)), len(file.readall())), (MOST_BYTES, len(data) - MOST_BYTES))


def memory(setting):
    """A region by the side of a bytearray, at places that are whole words and at others."""
    wanted = bytearray(8192)
    with Rio(*setting.pair(), program=setting.program) as rio:
        rio.region("/r", 2, 4)
        region = rio.memory("/r")
        same(len(region), 8192)
        changes = [(0, b"01234567"), (3, b"abc"), (13, b"0123456789abcdef"), (8190, b"xy"), (4090, bytes(range(20))), (16, b"")]
        for start, data in changes:
            region[start : start + len(data)] = data
            wanted[start : start + len(data)] = data
        region[5], wanted[5] = 255, 255
        region[-1], wanted[-1] = 7, 7
        same(region[:] == bytes(wanted), True)
        same((region[5], region[-2:], region[9:8], region[8000:9000] == bytes(wanted[8000:])), (255, b"x\7", b"", True))
        same(rio.txns(), [])


def memory_transactions(setting):
    image, disk = setting.pair()
    with Rio(image, disk, program=setting.program) as rio:
        rio.region("/r", 2, 1)
        region = rio.memory("/r")
        with region.transaction():
            region[0:8], region[9] = b"01234567", 65
            raises(ValueError, region.transaction().__enter__)
        with contextlib.suppress(ZeroDivisionError), region.transaction():
            region[0:8] = bytes(8)
            raise ZeroDivisionError
        same(region[0:16], b"01234567\0A" + bytes(6))
        raises(client.UndoFull, region.__setitem__, slice(0, 8192), bytes(8192))
        same((region[0:8], rio.txns()), (b"01234567", []))
        raises(ValueError, region.__setitem__, slice(0, 8), b"short")
        raises(ValueError, region.__setitem__, 0, 256)
        raises(ValueError, region.__getitem__, slice(0, 8, 2))
        raises(IndexError, region.__getitem__, 8192)
        rio.create("/f")
        raises(client.NotARegion, rio.memory, "/f")
    with Rio(image, disk, program=setting.program) as rio:
        same(rio.memory("/r")[0:10], b"01234567\0A")


def parts():
    """The parts, each with what it says of itself."""
    return {
        "files: as the system has them": as_the_system,
        "files: modes": modes,
        "files: a large one": large_file,
        "memory: a region by slices": memory,
        "memory: transactions": memory_transactions,
    }
