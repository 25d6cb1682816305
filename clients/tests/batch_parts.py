"""The parts of the test on the batches of rio.py, and the ledger that they are for."""
import contextlib

import rio as client
from rio import CutOff, DeviceFault, Ended, End, Rio, Stat
from python_parts import Alarm, alarm, raised
from setting import FAKE, every_line, raises, same, sent

WORD = bytes.fromhex("0011223344556677")
MOST_UNDER_WAY = 1024
ROUNDS = 8
ACCOUNTS = 400
BALANCE = 1000


def results(replies):
    return [reply.result() for reply in replies]


def every_call(setting):
    """The results are told after the block, and in it."""
    with Rio(*setting.pair(), program=setting.program) as rio:
        with rio.batch() as batch:
            made = [batch.mkdir("/a"), batch.create("/a/f"), batch.write("/a/f", 0, b"hello"), batch.read(b"/a/f", 1, 9)]
            looked = [batch.stat("/a/f"), batch.list("/a"), batch.truncate("/a/f", 2), batch.rename("/a/f", "/g"), batch.sync()]
            same(made[3].result(), b"ello")
            region = [batch.region("/r", 2, 1), batch.begin("/r"), batch.txns(), batch.range("/r", 0, 8), batch.put("/r", 0, WORD)]
            heap = [batch.alloc("/r", 3), batch.free("/r", 0), batch.commit("/r"), batch.get("/r", 0, 16)]
            raw = [batch.request(b"unlink /g"), batch.request(b"unlink /g"), batch.rmdir("/a"), batch.flush(3)]
        same(results(made), [2, 3, 5, b"ello"])
        same(results(looked), [Stat(3, "file", 5), ["f"], None, None, None])
        same(results(region), [4, None, [4], None, 8])
        same(results(heap), [0, None, None, WORD + bytes(8)])
        same(results(raw), [b"ok", b"err 2", None, None])
        same(rio.list("/"), ["r"])
        same(batch.refused, 1)


def lines(setting):
    """Each request is the line that it is without a batch."""
    image, disk = setting.script()
    with Rio(image, disk, program=FAKE) as rio, rio.batch() as batch:
        batch.mkdir("/a"), batch.create("/a/f"), batch.region("/r", 2, 1), batch.write("/a/f", 9, b"")
        batch.write("/a/f", 0, b"\0\xff\x1a"), batch.read("/a/f", 0, 0), batch.truncate("/a/f", 4_292_608)
        batch.unlink("/a/f"), batch.rmdir("/a"), batch.rename("/a", "/'\""), batch.stat("/a"), batch.list("/"), batch.sync()
        batch.begin("/r"), batch.range("/r", 8, 2_000_000), batch.put("/r", 8, b"01234567"), batch.get("/r", 8, 0)
        batch.alloc("/r", 3), batch.free("/r", 64), batch.commit("/r"), batch.abort("/r"), batch.txns(), batch.flush(7)
        batch.wild(41984, 0xFF), batch.arm(999_999_999_999_999_999, 0, 2**64 - 1)
    same(sent(disk), every_line())


def refusals(setting):
    """A refusal is raised where its result is asked for, each time, and the others are as they are without it."""
    with Rio(*setting.pair(), program=setting.program) as rio:
        with rio.batch() as batch:
            replies = [batch.create("/f"), batch.create("/f"), batch.stat("/g"), batch.write("/f", 0, b"ab"), batch.rmdir("/f")]
        same((batch.refused, replies[0].result(), replies[3].result()), (3, 2, 2))
        for _ in range(2):
            same(str(raises(client.Exists, replies[1].result)), "err 3, exists: create /f")
        raises(client.NotFound, replies[2].result)
        raises(client.NotADirectory, replies[4].result)
        same(str(raises(client.Exists, batch.check)), "err 3, exists: create /f")
        with rio.batch() as batch:
            batch.sync()
        same((batch.check(), batch.refused), (None, 0))
        raises(ValueError, batch.sync)
        raises(ValueError, rio.batch().create, "f")
        raises(ValueError, rio.batch().request, b"sync\nsync")


def answers(setting):
    script = setting.script("err 30 8", "err 31", "ok 6A", "ok 61", "ok x", "err 30 0")
    with Rio(*script, program=FAKE) as rio, rio.batch() as batch:
        fault, memory = batch.write("/f", 4088, bytes(16)), batch.create("/f")
        wrong, right, number, doomed = batch.read("/f", 0, 1), batch.read("/f", 0, 1), batch.create("/f"), batch.abort("/r")
        same((raises(DeviceFault, fault.result).done, raises(DeviceFault, doomed.result).done), (8, 0))
        raises(client.NoMemory, memory.result)
        raises(client.WrongReply, wrong.result)
        raises(client.WrongReply, number.result)
        same((right.result(), batch.refused), (b"a", 3))


def bounded(setting):
    """A program that answers nothing for a while is sent no more than is allowed to be under way."""
    image, disk = setting.script(*["gather"] * 20)
    with Rio(image, disk, program=FAKE) as rio:
        with rio.batch() as batch:
            replies = [batch.sync() for _ in range(3000)]
        same(results(replies), [None] * 3000)
    counts = [int(line.split()[1]) for line in sent(disk)]
    same((sum(counts), max(counts) <= MOST_UNDER_WAY, min(counts[:2]) > 100), (3000, True, True))


def both_pipes_full(setting):
    """Requests of a megabyte between replies of a megabyte, which nobody asks for before all are sent."""
    data = bytes(range(256)) * 4096
    with Rio(*setting.pair("large"), program=setting.program) as rio, rio.batch() as batch:
        batch.create("/f")
        replies = []
        for count in range(ROUNDS):
            batch.write("/f", 0, data[count:] + data[:count])
            replies.append(batch.read("/f", 0, client.MOST_BYTES))
            batch.sync()
        same([reply.result() == data[count:] + data[:count] for count, reply in enumerate(replies)], [True] * ROUNDS)
        same(batch.refused, 0)


def in_order(setting):
    """A request of the Rio itself comes behind those of the batch, and before those that follow."""
    image, disk = setting.script()
    with Rio(image, disk, program=FAKE) as rio:
        with rio.batch() as batch:
            first = batch.sync()
            rio.begin("/r")
            same(first.result(), None)
            batch.commit("/r")
        rio.unlink("/r")
        rio.batch().rmdir("/a")
    same(sent(disk), ["sync", "begin /r", "commit /r", "unlink /r", "rmdir /a"])


def ends(setting):
    """The program ends in the middle: the requests before it have their replies, and the others raise."""
    with raised(Ended, (8, "source fault")), Rio(*setting.script("ok", "err 2", "exit 8 source fault"), program=FAKE) as rio:
        with rio.batch() as batch:
            replies = [batch.sync() for _ in range(5)]
    same((replies[0].result(), batch.refused), (None, 1))
    raises(client.NotFound, replies[1].result)
    for reply in replies[2:]:
        same(raises(Ended, reply.result).args, (8, "source fault"))
    same((rio.close(), raises(Ended, rio.sync).args), (End(8, "source fault"), (8, "source fault")))
    image, disk = setting.pair()
    with raised(Ended, (10, "trapped 0")), Rio(image, disk, program=setting.program) as rio, rio.batch() as batch:
        batch.create("/f"), batch.wild(0, 0), batch.create("/g")
    with Rio(image, disk, program=setting.program) as rio:
        same(rio.list("/"), ["f"])


def a_block_that_raises(setting):
    """What was asked for is made all the same, and answered."""
    with Rio(*setting.pair(), program=setting.program) as rio:
        with contextlib.suppress(ZeroDivisionError), rio.batch() as batch:
            made = batch.create("/f")
            raise ZeroDivisionError
        same((made.result(), rio.list("/")), (2, ["f"]))


def cut_off(setting):
    """An exception in the middle of a wait: no reply is taken for another one's."""
    rio = Rio(*setting.script("ring", "ok"), program=FAKE)
    with raised(Alarm, ()), alarm(), rio.batch() as batch:
        replies = [batch.sync() for _ in range(3)]
        batch.wait()
    raises(CutOff, replies[2].result)
    raises(CutOff, rio.sync)
    same(rio.close(), End(0, ""))


def transactions(setting):
    with Rio(*setting.pair(), program=setting.program) as rio:
        with rio.batch() as batch:
            batch.region("/r", 1, 1)
            with batch.transaction("/r") as change:
                change.range(0, 16)
                put, block = change.put(0, WORD), change.alloc(1)
            with contextlib.suppress(ZeroDivisionError), batch.transaction("/r") as change:
                change.range(0, 8)
                change.put(0, bytes(8))
                change.free(0)
                inside = change.get(0, 8)
                raise ZeroDivisionError
        same((put.result(), block.result(), inside.result(), batch.refused), (8, 0, bytes(8), 0))
        same((rio.get("/r", 0, 16), rio.txns()), (WORD + bytes(8), []))


def ledger(setting):
    """Transfers in a region: what each account has is known by hand here, its sum stays, and the next run finds the same."""
    balances = [BALANCE] * ACCOUNTS
    image, disk = setting.pair()
    with Rio(image, disk, program=setting.program) as rio:
        rio.region("/bank", 1, 2)
        rio.memory("/bank")[: 8 * ACCOUNTS] = b"".join(word(balance) for balance in balances)
        with rio.batch() as batch:
            for n in range(2000):
                transfer(batch, balances, n % ACCOUNTS, (7 * n + 3) % ACCOUNTS)
        same(batch.refused, 0)
    with Rio(image, disk, program=setting.program) as rio:
        found = rio.get("/bank", 0, 8 * ACCOUNTS)
    stored = [int.from_bytes(found[at : at + 8], "little") for at in range(0, len(found), 8)]
    same((stored == balances, sum(stored)), (True, ACCOUNTS * BALANCE))


def transfer(batch, balances, source, target):
    """Moves one from an account to another."""
    balances[source] -= 1
    balances[target] += 1
    with batch.transaction("/bank") as change:
        for account in (source, target):
            change.range(8 * account, 8)
            change.put(8 * account, word(balances[account]))


def word(value):
    return value.to_bytes(8, "little")


def parts():
    """The parts, each with what it says of itself."""
    return {
        "batches: every call": every_call,
        "batches: every line that is sent": lines,
        "batches: refusals": refusals,
        "batches: answers of a fake": answers,
        "batches: what is under way is bounded": bounded,
        "batches: both pipes full": both_pipes_full,
        "batches: calls beside them": in_order,
        "batches: ends": ends,
        "batches: a block that raises": a_block_that_raises,
        "batches: a wait that is cut off": cut_off,
        "batches: transactions": transactions,
        "batches: a ledger": ledger,
    }
