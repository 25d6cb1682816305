"""The parts of the test on rio.py."""
import contextlib
import os
import signal

import rio as client
from rio import Census, CutOff, Ended, End, Formatted, Rio, Stat, WrongReply, check, format_pair
from setting import FAKE, content, every_line, raises, refused_pairs, same, sent

WORD = bytes.fromhex("0011223344556677")
USAGE = "usage: rio format, serve, registry, check, drill"


def pairs(setting):
    image, disk = setting.path("image"), setting.path("disk")
    sizes = {"frames": 64, "blocks": 256, "inodes": 64, "scratch": 1}
    same(format_pair(image, disk, **sizes, program=setting.program), Formatted(83, 256))
    same((len(content(image)), len(content(disk))), (339_968, 1_048_576))
    same(check(image, disk, program=setting.program), Census(1, 0, 0, 0, 252))
    with Rio(image, disk, program=setting.program) as rio:
        same(rio.create("/f"), 2)
        same(rio.write("/f", 0, b"hello"), 5)
    same(check(image, disk, program=setting.program), Census(1, 1, 0, 2, 250))
    same(raises(Ended, format_pair, image, disk, 64, 256, 40, 1, program=setting.program).args, (2, USAGE))
    missing = setting.path("missing")
    same(raises(Ended, check, missing, disk, program=setting.program).args, (7, f"no such file: {missing}"))


def file_calls(rio):
    same(rio.mkdir("/a"), 2)
    same(rio.create(b"/a/f"), 3)
    same(rio.write("/a/f", 0, b"hello"), 5)
    same(rio.write("/a/f", 9, b""), 0)
    same(rio.read("/a/f", 0, 100), b"hello")
    same(rio.truncate("/a/f", 4), None)
    same(rio.read("/a/f", 2, 2), b"ll")
    same(rio.stat("/a/f"), Stat(3, "file", 4))
    same(rio.stat("/a"), Stat(2, "dir", 64))
    same(rio.rename("/a/f", "/it's\"q\\"), None)
    same(rio.list("/"), ["a", "it's\"q\\"])
    same(rio.list("/a"), [])
    same(rio.rmdir("/a"), None)
    same(rio.unlink("/it's\"q\\"), None)
    same(rio.list("/"), [])
    same(rio.sync(), None)


def region_calls(rio):
    same(rio.region("/r", 2, 1), 2)
    same(rio.stat("/r"), Stat(2, "region", 8192))
    same(rio.txns(), [])
    same(rio.begin("/r"), None)
    same(rio.txns(), [2])
    same(rio.range("/r", 0, 16), None)
    same(rio.put("/r", 0, WORD), 8)
    same(rio.get("/r", 0, 16), WORD + bytes(8))
    same(rio.alloc("/r", 3), 0)
    same(rio.alloc("/r", 64), 192)
    same(rio.free("/r", 0), None)
    same(rio.commit("/r"), None)
    same(rio.begin("/r"), None)
    same(rio.abort("/r"), None)
    same(rio.get("/r", 0, 8), WORD)


def every_call(setting):
    image, disk = setting.pair()
    rio = Rio(image, disk, program=setting.program)
    file_calls(rio)
    region_calls(rio)
    same(rio.flush(1000), None)
    same(rio.wild(41984, 0xFF), None)
    same(rio.arm(client.MOST_NUMBER, 41984, 0xFF), None)
    same(rio.close(), End(0, ""))
    same(rio.close(), End(0, ""))
    same(raises(Ended, rio.sync).args, (0, ""))
    same(check(image, disk, program=setting.program), Census(1, 0, 1, 6, 246))


def file_refusals(rio):
    same(rio.request(b"read f 0 1"), b"err 1")
    same(raises(client.NotFound, rio.read, "/missing", 0, 1).number, 2)
    same(rio.create("/f"), 2)
    same(raises(client.Exists, rio.create, "/f").number, 3)
    same(raises(client.NotADirectory, rio.stat, "/f/x").number, 4)
    same(rio.mkdir("/a"), 3)
    same(raises(client.IsADirectory, rio.read, "/a", 0, 1).number, 5)
    same(rio.create("/a/g"), 4)
    same(raises(client.NotEmpty, rio.rmdir, "/a").number, 6)
    same(raises(client.IsRoot, rio.rename, "/", "/x").number, 9)
    same(raises(client.TooLarge, rio.truncate, "/f", 4_292_609).number, 10)
    same(raises(client.NoSpace, rio.truncate, "/f", 4_292_608).number, 11)
    same(raises(client.InsideItself, rio.rename, "/a", "/a/b").number, 21)


def region_refusals(rio):
    same(rio.region("/r", 2, 1), 5)
    same(raises(client.IsARegion, rio.read, "/r", 0, 1).number, 7)
    same(raises(client.NotARegion, rio.begin, "/f").number, 8)
    same(raises(client.NoTransaction, rio.put, "/r", 0, WORD).number, 14)
    rio.begin("/r")
    same(raises(client.Busy, rio.begin, "/r").number, 13)
    same(raises(client.NotCovered, rio.put, "/r", 0, WORD).number, 15)
    same(raises(client.NotAligned, rio.put, "/r", 0, b"\0").number, 20)
    same(raises(client.OutOfRange, rio.range, "/r", 8192, 8).number, 19)
    same(raises(client.UndoFull, rio.range, "/r", 0, 4080).number, 16)
    same(raises(client.HeapFull, rio.alloc, "/r", 129).number, 17)
    same(raises(client.NotABlock, rio.free, "/r", 64).number, 18)
    same(raises(client.OutOfRange, rio.wild, 42496, 0xFF).number, 19)


def refusals(setting):
    with Rio(*setting.pair(), program=setting.program) as rio:
        file_refusals(rio)
        region_refusals(rio)
        # Of 64 inodes, the root directory and the four of before have five.
        for i in range(59):
            same(rio.create(f"/n{i}"), 6 + i)
        same(raises(client.NoInode, rio.create, "/n59").number, 12)


def calls_with_lines(rio):
    """Calls by which the lines of `every_line` are sent: what each is answered by in a fake, and the call."""
    return [
        ("ok 2", 2, rio.mkdir, "/a"), ("ok 3", 3, rio.create, "/a/f"), ("ok 4", 4, rio.region, "/r", 2, 1),
        ("ok 0", 0, rio.write, "/a/f", 9, b""), ("ok 3", 3, rio.write, "/a/f", 0, memoryview(b"\0\xff\x1a")),
        ("ok ", b"", rio.read, "/a/f", 0, 0), ("ok", None, rio.truncate, "/a/f", 4_292_608),
        ("ok", None, rio.unlink, "/a/f"), ("ok", None, rio.rmdir, "/a"), ("ok", None, rio.rename, "/a", "/'\""),
        ("ok 7 region 4096", Stat(7, "region", 4096), rio.stat, "/a"), ("ok 0", [], rio.list, "/"),
        ("ok", None, rio.sync), ("ok", None, rio.begin, "/r"), ("ok", None, rio.range, "/r", 8, 2_000_000),
        ("ok 8", 8, rio.put, "/r", 8, b"01234567"), ("ok ", b"", rio.get, "/r", 8, 0), ("ok 128", 128, rio.alloc, "/r", 3),
        ("ok", None, rio.free, "/r", 64), ("ok", None, rio.commit, "/r"), ("ok", None, rio.abort, "/r"),
        ("ok 2 9 3", [9, 3], rio.txns), ("ok", None, rio.flush, 7), ("ok", None, rio.wild, 41984, 0xFF),
        ("ok", None, rio.arm, 999_999_999_999_999_999, 0, 2**64 - 1),
    ]


def lines(setting):
    replies = [reply for reply, *_ in calls_with_lines(Rio)]
    image, disk = setting.script(*replies)
    with Rio(image, disk, program=FAKE) as rio:
        for _, wanted, call, *args in calls_with_lines(rio):
            same(call(*args), wanted)
    same(sent(disk), every_line())


def answers(setting):
    """Every refusal by its number, and what a fault and a want of memory tell, over a fake."""
    numbers = [*range(1, 23), 31]
    with Rio(*setting.script(*[f"err {n}" for n in numbers], "err 30 8", "err 30 0"), program=FAKE) as rio:
        kinds = [kind.__name__ for kind in map(client.refusals().get, numbers)]
        same(kinds[:4] + kinds[-2:], ["BadRequest", "NotFound", "Exists", "NotADirectory", "Doomed", "NoMemory"])
        for n in numbers:
            refused = raises(client.refusals()[n], rio.create, "/f")
            same((refused.number, isinstance(refused, client.Refused)), (n, True))
        fault = raises(client.DeviceFault, rio.write, "/f", 4088, bytes(16))
        same((fault.number, fault.done, str(fault)[:24]), (30, 8, "err 30 8, device fault: "))
        same(raises(client.DeviceFault, rio.abort, "/r").done, 0)


def wrong_answers(setting):
    """Replies that their requests cannot have, over a fake: by the call that gets them."""
    wrong = {
        "read": ["ok", "ok 6", "ok 6G", "ok 6A", "ok 616161", "ok 61 61"],
        "stat": ["ok", "ok 2 file", "ok 2 link 4", "ok 2 file 4 5"],
        "list": ["ok", "ok 1", "ok 1 a b", "ok a"],
        "txns": ["ok", "ok 1 x", "ok 2 3 "],
        "create": ["ok", "ok ", "ok 2 3", "ok x", "ok 2 "],
        "sync": ["ok 1", "ok ", "err 23", "err 30", "err 2 1"],
    }
    args = {"read": ("/f", 0, 2), "stat": ("/f",), "list": ("/",), "txns": (), "create": ("/f",), "sync": ()}
    with Rio(*setting.script(*sum(wrong.values(), [])), program=FAKE) as rio:
        for name, replies in wrong.items():
            for _ in replies:
                raises(WrongReply, getattr(rio, name), *args[name])
        same(rio.sync(), None)


def refused_starts(setting):
    for image, disk, status, line in refused_pairs(setting):
        rio = Rio(image, disk, program=setting.program)
        same(raises(Ended, rio.sync).args, (status, line))
        same(rio.close(), End(status, line))
    same(Rio(image, disk, program=setting.program).close(), End(status, line))
    with raised(Ended, (status, line)), Rio(image, disk, program=setting.program):
        pass


@contextlib.contextmanager
def raised(kind, args):
    """A block that has to raise an exception of this kind with these arguments."""
    try:
        yield
    except kind as error:
        same(error.args, args)
    else:
        same(None, kind.__name__)


def stops(setting):
    image, disk = setting.pair()
    same(raises(Ended, Rio(image, disk, program=setting.program, stop=0).sync).args, (10, "stopped 0"))
    with Rio(image, disk, program=setting.program) as rio:
        same(rio.region("/r", 1, 1), 2)
        same(rio.region("/q", 1, 1), 3)
        for path in ("/r", "/q"):
            rio.begin(path)
            rio.range(path, 0, 8)
            rio.put(path, 0, b"\xaa" * 8)
        rio.commit("/r")
        same(raises(Ended, rio.wild, 0, 0).args, (10, "trapped 0"))
    with Rio(image, disk, program=setting.program) as rio:
        same(rio.get("/r", 0, 8), b"\xaa" * 8)
        same(rio.get("/q", 0, 8), bytes(8))
        same(rio.txns(), [])
        rio.arm(0, 512, 0)
        same(raises(Ended, rio.create, "/f").args, (10, "trapped 512"))
    with Rio(image, disk, program=setting.program, stop=client.MOST_NUMBER) as rio:
        same([name for name in rio.list("/") if name != "f"], ["q", "r"])


def stop_in_a_call(setting):
    """A stop at some step of a second request: the first stands in the next run, and the second does whole or not at all."""
    image, disk = setting.pair()
    with Rio(image, disk, program=setting.program, stop=3500) as rio:
        same(rio.create("/a"), 2)
        same(raises(Ended, rio.create, "/b").args, (10, "stopped 3500"))
        same(raises(Ended, rio.sync).args, (10, "stopped 3500"))
    with Rio(image, disk, program=setting.program) as rio:
        same(rio.list("/") in (["a"], ["a", "b"]), True)


def other_ends(setting):
    """The ends that the program cannot be brought to here, over a fake: in a call, and at the end of the input."""
    ends = {
        "exit 6 out of memory": (6, "out of memory"), "exit 8 source fault": (8, "source fault"),
        "exit 11 input limit": (11, "input limit"), "exit 9": (9, ""), "half ok 61": (9, ""), "half o": (9, ""),
        "half stopp": (9, "stopp"), "die": (-signal.SIGKILL, ""), "exit 0": (0, ""),
        "exit 7 host fault: an image": (7, "host fault: an image"), "okay": (0, "okay"),
    }
    for line, end in ends.items():
        rio = Rio(*setting.script("ok 6869", line), program=FAKE)
        same(rio.read("/f", 0, 2), b"hi")
        same(raises(Ended, rio.read, "/f", 0, 2).args, end)
        same(rio.close(), End(*end))
    boot = setting.script("boot 5 device fault at boot")
    rio = Rio(*boot, program=FAKE)
    same(raises(Ended, rio.write, "/f", 0, bytes(client.MOST_BYTES)).args, (5, "device fault at boot"))
    same(Rio(*boot, program=FAKE).close(), End(5, "device fault at boot"))
    raises(FileNotFoundError, Rio, *boot, program="/nowhere/rio")


def transactions(setting):
    with Rio(*setting.pair(), program=setting.program) as rio:
        rio.region("/r", 2, 1)
        with rio.transaction("/r") as change:
            change.range(0, 8)
            same(change.put(0, WORD), 8)
            same(change.alloc(3), 0)
            same(change.alloc(1), 192)
            change.free(0)
        same((rio.get("/r", 0, 8), rio.txns()), (WORD, []))
        with contextlib.suppress(ZeroDivisionError), rio.transaction("/r") as change:
            change.range(0, 8)
            change.put(0, bytes(8))
            same(change.get(0, 8), bytes(8))
            raise ZeroDivisionError
        same((rio.get("/r", 0, 8), rio.txns()), (WORD, []))
        rio.begin("/r")
        with raised(client.Busy, ("begin /r",)), rio.transaction("/r"):
            same("the block", "no block")
        same(rio.alloc("/r", 1), 0)


def failed_transactions(setting):
    """A commit that is refused is followed by an abort; where the program has ended nothing is sent."""
    image, disk = setting.script("ok", "err 30 0", "ok", "ok", "err 22", "ok", "ok", "exit 8 source fault")
    with Rio(image, disk, program=FAKE) as rio:
        with raised(client.DeviceFault, ("alloc /r 1",)), rio.transaction("/r") as change:
            change.alloc(1)
        with raised(client.Doomed, ("commit /r",)), rio.transaction("/r"):
            pass
        with raised(Ended, (8, "source fault")), rio.transaction("/r") as change:
            change.range(0, 8)
    begun = ["begin /r", "alloc /r 1", "abort /r", "begin /r", "commit /r", "abort /r", "begin /r", "range /r 0 8"]
    same(sent(disk), begun)


def large_data(setting):
    data = bytes((7 * i + i // 4096) % 256 for i in range(4_292_609))
    with Rio(*setting.pair("large"), program=setting.program) as rio:
        rio.write_all("/f", data[:-1])
        same(rio.read_all("/f") == data[:-1], True)
        raises(client.TooLarge, rio.write_all, "/f", data)
        same(rio.stat("/f"), Stat(2, "file", 4_292_608))
        rio.write_all("/f", bytearray(b"short"))
        same(rio.read_all("/f"), b"short")
        rio.write_all("/f", data[: client.MOST_BYTES])
        same(rio.read_all("/f") == data[: client.MOST_BYTES], True)
        rio.write_all("/f", b"")
        same(rio.read_all("/f"), b"")
        raises(client.NotFound, rio.read_all, "/missing")


def slow_data(setting):
    """A reply that comes in pieces, and a line that nobody takes for a while, over a fake."""
    image, disk = setting.script(f"bytes {client.MOST_BYTES}", f"late ok {client.MOST_BYTES}", "ok")
    data = bytes(range(256)) * 4096
    with Rio(image, disk, program=FAKE) as rio:
        same(rio.read("/f", 0, client.MOST_BYTES) == b"a" * client.MOST_BYTES, True)
        same(rio.write("/f", 0, data), client.MOST_BYTES)
        rio.sync()
    same(content(disk) == b"read /f 0 1048576\nwrite /f 0 " + data.hex().encode() + b"\nsync\n", True)


def bad_values(setting):
    """What no request has is refused before it is sent: the fake ends at the first line that it gets."""
    image, disk = setting.script("exit 6 out of memory")
    rio = Rio(image, disk, program=FAKE)
    long_name, deep = "/" + 57 * "x", 33 * "/x"
    for path in ("", "f", "//", "/f/", "/.", "/..", "/a b", "/\x7f", "/\u00e9", b"/\xff", "/a\nsync", long_name, deep):
        raises(ValueError, rio.create, path)
    raises(ValueError, rio.rename, "/f", "g")
    for bad in (-1, 10**18):
        raises(ValueError, rio.truncate, "/f", bad)
        raises(ValueError, rio.flush, bad)
        raises(ValueError, rio.arm, bad, 0, 0)
    raises(ValueError, rio.read, "/f", 0, client.MOST_BYTES + 1)
    raises(ValueError, rio.get, "/r", 0, client.MOST_BYTES + 1)
    raises(ValueError, rio.write, "/f", 0, bytes(client.MOST_BYTES + 1))
    raises(ValueError, rio.region, "/r", 0, 1)
    raises(ValueError, rio.region, "/r", 1, 0)
    raises(ValueError, rio.alloc, "/r", 0)
    raises(ValueError, rio.wild, 0, 2**64)
    raises(ValueError, rio.request, b"sync\nsync")
    raises(TypeError, rio.write, "/f", 0, "text")
    raises(TypeError, rio.write, "/f", 0, 5)
    raises(TypeError, rio.truncate, "/f", 1.5)
    raises(ValueError, Rio, image, disk, program=FAKE, stop=-1)
    same(raises(Ended, rio.stat, deep[2:]).args, (6, "out of memory"))


class Alarm(Exception):
    """An alarm went off in a call."""


@contextlib.contextmanager
def alarm():
    """A block that the signal ALRM ends."""
    def ring(number, frame):
        raise Alarm
    old = signal.signal(signal.SIGALRM, ring)
    try:
        yield
    finally:
        signal.signal(signal.SIGALRM, old)


def cut_calls(setting):
    """A call that is interrupted: no reply is taken for another one's, and no front of a line for a line."""
    image, disk = setting.script("ring", "ok")
    rio = Rio(image, disk, program=FAKE)
    with raised(Alarm, ()), alarm():
        rio.write("/f", 0, bytes(client.MOST_BYTES))
    raises(CutOff, rio.sync)
    same(rio.close(), End(0, ""))
    taken = content(disk)
    same((taken[:11], taken[-2:], len(taken) < 2_000_000), (b"write /f 0 ", b"\0\n", True))
    image, disk = setting.script("ok", "ring")
    rio = Rio(image, disk, program=FAKE)
    with raised(Alarm, ()), alarm(), rio.transaction("/r") as change:
        change.range(0, 8)
    raises(CutOff, rio.sync)
    same(rio.close(), End(0, ""))
    same([line for line in sent(disk) if line != "\0"], ["begin /r", "range /r 0 8"])


def two_at_once(setting):
    """Each of two programs ends by itself, though the other was started while its pipes were open."""
    with Rio(*setting.pair(), program=setting.program) as first, Rio(*setting.pair(), program=setting.program) as second:
        first.create("/first")
        second.create("/second")
        same(first.close(), End(0, ""))
        same(second.list("/"), ["second"])


def dropped(setting):
    """A client that is killed: the program meets the end of its input, and what was answered stands."""
    image, disk = setting.pair()
    child = os.fork()
    if child == 0:
        Rio(image, disk, program=setting.program).create("/f")
        os.kill(os.getpid(), signal.SIGKILL)
    os.waitpid(child, 0)
    same(setting.settled((image, disk)), Census(1, 1, 0, 1, 251))


def parts():
    """The parts, each with what it says of itself."""
    return {
        "rio.py: pairs are made and looked at": pairs,
        "rio.py: every call": every_call,
        "rio.py: refusals of the program": refusals,
        "rio.py: every line that is sent": lines,
        "rio.py: every refusal's exception": answers,
        "rio.py: replies that cannot be": wrong_answers,
        "rio.py: pairs that are refused": refused_starts,
        "rio.py: a stop, and a trap": stops,
        "rio.py: a stop in a call": stop_in_a_call,
        "rio.py: other ends": other_ends,
        "rio.py: transactions": transactions,
        "rio.py: transactions that fail": failed_transactions,
        "rio.py: the largest file": large_data,
        "rio.py: slow pipes": slow_data,
        "rio.py: values out of range": bad_values,
        "rio.py: calls that are cut off": cut_calls,
        "rio.py: two programs at once": two_at_once,
        "rio.py: a client that is killed": dropped,
    }
