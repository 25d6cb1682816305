"""The parts of the test on the C client, which is compiled in the folder of the test.

Some of them run under valgrind, where there is one: those that are told apart in `run` by `watched`. It takes a second for each.
"""
import os
import shutil
import subprocess

from rio import MOST_BYTES
from setting import FAKE, HERE, Differs, every_line, refused_pairs, same, sent, shown

WARNINGS = ["-std=c11", "-Wall", "-Wextra", "-Wpedantic", "-Werror"]
MOST_UNDER_WAY = 1024
VALGRIND = ["valgrind", "-q", "--error-exitcode=3", "--leak-check=full", "--child-silent-after-fork=yes"]


def compiled(setting):
    """The program that tests the calls, which is compiled the first time."""
    program = os.path.join(setting.folder, "calls")
    if os.path.exists(program):
        return program
    compiler = shutil.which("cc")
    if compiler is None:
        raise Differs("there is no cc here, which compiles the C client")
    clients = os.path.dirname(HERE)
    sources = [os.path.join(clients, "rio.c"), os.path.join(HERE, "calls.c")]
    ended = subprocess.run([compiler, *WARNINGS, "-O1", "-g", *sources, "-o", program], capture_output=True, check=False)
    same((ended.returncode, ended.stderr.decode()), (0, ""))
    return program


def run(setting, part, program, files, told="", watched=False):
    """Runs a part of the program, which reads what it is told; what it prints are differences."""
    words = [compiled(setting), part, program, *files]
    if watched and shutil.which("valgrind"):
        words = VALGRIND + words
    ended = subprocess.run(words, input=told.encode(), stdout=subprocess.PIPE, stderr=subprocess.STDOUT, check=False)
    if ended.returncode != 0 or ended.stdout:
        raise Differs(f"status {ended.returncode}: {shown(ended.stdout.decode())}")


def compiles(setting):
    compiled(setting)


def every_call(setting):
    run(setting, "requests", setting.program, setting.pair(), watched=True)


def refusals(setting):
    run(setting, "refusals", setting.program, setting.pair())


def lines(setting):
    files = setting.script()
    run(setting, "lines", FAKE, files)
    same(sent(files[1]), every_line())


def answers(setting):
    odd = ["ok 1", "ok ", "err 23", "err 30", "err 2 1", "err 2x"]
    run(setting, "answers", FAKE, setting.script(*[f"err {n}" for n in range(1, 23)], "err 30 8", "err 30 0", "err 31", *odd))


def wrong_answers(setting):
    bytes_ = ["ok 616161", "ok", "ok 6", "ok 6A", "ok 61"]
    stats = ["ok 2 file", "ok 2 link 4", "ok 2 file 4 5"]
    items = ["ok", "ok 1", "ok 1 a b"]
    inodes = ["ok 1 x", "ok 2 3 "]
    numbers = ["ok ", "ok 18446744073709551616", "ok 2 "]
    run(setting, "wrong_answers", FAKE, setting.script(*bytes_, *stats, *items, *inodes, *numbers), watched=True)


def invalid(setting):
    run(setting, "invalid", FAKE, setting.script("exit 6 out of memory"))


def refused(setting):
    for image, disk, status, line in refused_pairs(setting)[::2]:
        run(setting, "refused", setting.program, (image, disk), f"{status} {line}")


def stops(setting):
    run(setting, "stops", setting.program, setting.pair())


def other_ends(setting):
    ends = {
        "exit 6 out of memory": "6 out of memory", "exit 7 host fault: an image": "7 host fault: an image", "exit 9": "9",
        "half ok 61": "9", "half o": "9", "half stopp": "9 stopp", "die": "-9", "okay": "0 okay",
    }
    for line, end in ends.items():
        run(setting, "ended", FAKE, setting.script("ok", line), end)


def slow(setting):
    script = setting.script(f"late ok {MOST_BYTES}", f"bytes {MOST_BYTES}", "exit 8 source fault")
    run(setting, "slow", FAKE, script, "8 source fault")


def broken_pipe(setting):
    run(setting, "broken_pipe", FAKE, setting.script("boot 5 device fault at boot"))


def large(setting):
    run(setting, "large", setting.program, setting.pair("large"))


def two_at_once(setting):
    first, second = setting.pair(), setting.pair()
    for source, name in zip(second, first):
        os.rename(source, name + "2")
    run(setting, "two", setting.program, first, watched=True)


def queued(setting):
    run(setting, "queued", setting.program, setting.pair(), watched=True)


def queued_large(setting):
    run(setting, "queued_large", setting.program, setting.pair("large"))


def queued_many(setting):
    files = setting.script(*["gather"] * 20)
    run(setting, "queued_many", FAKE, files)
    counts = [int(line.split()[1]) for line in sent(files[1])]
    same((sum(counts), max(counts) <= MOST_UNDER_WAY, min(counts[:2]) > 100), (3000, True, True))


def queued_ended(setting):
    run(setting, "queued_ended", FAKE, setting.script("err 30 8", "err 2", "exit 8 source fault"), watched=True)


def names(setting):
    run(setting, "names", setting.program, setting.script(), watched=True)


def parts():
    """The parts, each with what it says of itself."""
    return {
        "rio.c: compiles without a warning": compiles,
        "rio.c: every call": every_call,
        "rio.c: refusals of the program": refusals,
        "rio.c: every line that is sent": lines,
        "rio.c: every refusal": answers,
        "rio.c: replies that cannot be": wrong_answers,
        "rio.c: arguments out of range": invalid,
        "rio.c: pairs that are refused": refused,
        "rio.c: a stop, and a trap": stops,
        "rio.c: other ends": other_ends,
        "rio.c: slow pipes": slow,
        "rio.c: a broken pipe": broken_pipe,
        "rio.c: the largest file": large,
        "rio.c: two programs at once": two_at_once,
        "rio.c: names, and no program": names,
        "rio.c: queued calls": queued,
        "rio.c: queued calls of a megabyte": queued_large,
        "rio.c: queued calls are bounded": queued_many,
        "rio.c: queued calls at the end": queued_ended,
    }
