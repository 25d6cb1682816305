"""A pair of files that a run works on: what is refused there, and that nothing is changed by it."""
import contextlib
import os
import signal
import subprocess
import time

from parts.asking import answered, ends_well, finds
from parts.pair import SMALL, options
from parts.rows import Differs, holds, same
from parts.terminal import PATIENCE

# What is tried while a run works on `image` and `disk`: the words, and the names in them of files that are in use. The files
# other.image and other.disk are another pair; linked is a link to image, and second a second name of disk.
REFUSED = {
    "a second serve": (("serve", "image", "disk"), ("image", "disk")),
    "a second serve by other names": (("serve", "./image", "./disk"), ("./image", "./disk")),
    "a second serve by links": (("serve", "linked", "second"), ("linked", "second")),
    "serve of the image and another disk": (("serve", "image", "other.disk"), ("image",)),
    "serve of another image and the disk": (("serve", "other.image", "disk"), ("disk",)),
    "check": (("check", "image", "disk"), ("image", "disk")),
    "check of the image and another disk": (("check", "image", "other.disk"), ("image",)),
    "check of another image and the disk": (("check", "other.image", "disk"), ("disk",)),
    "registry": (("registry", "image"), ("image",)),
    "format": (("format", "image", "disk", *options(SMALL)), ("image", "disk")),
    "format of the image and another disk": (("format", "image", "other.disk", *options(SMALL)), ("image",)),
    "format of another image and the disk": (("format", "other.image", "disk", *options(SMALL)), ("disk",)),
    "format of the image and a new disk": (("format", "image", "new.disk", *options(SMALL)), ("image",)),
    "format of a new image and the disk": (("format", "new.image", "disk", *options(SMALL)), ("disk",)),
}


def pair_with_names(setting):
    """A fresh pair with what REFUSED names beside it."""
    pair = setting.pair()
    pair.copy_of(setting.fresh(), before="other.")
    os.symlink("image", pair.path("linked"))
    os.link(pair.path("disk"), pair.path("second"))
    return pair


@contextlib.contextmanager
def at_work(pair, **environment):
    """A run on the pair in a terminal, which has answered a request and waits for the next."""
    with pair.terminal("serve", "image", "disk", **environment) as run:
        answered(run, "create /first", "ok 2")
        yield run


def refused(pair, words, names):
    """Runs these words: status 7, a line that tells which file was refused, and no file made, changed or removed. `format`, which
    writes the disk first, is refused there where the image is in use, too. Where the standard error says more, it is right."""
    before = pair.digests()
    ended = pair.run(*words, lines="create /second\n")
    same(ended.status, 7, f"the status, with {ended.said!r} and {ended.told!r},")
    refusable = words[1:3] if words[0] == "format" else names
    if ended.said not in [f"host fault: {name}\n" for name in refusable]:
        raise Differs(f"it said {ended.said!r}, in place of a host fault of {' or '.join(refusable)}")
    if ended.told not in ["", *[f"rio: {name} is in use by another run\n" for name in names]]:
        raise Differs(f"it told {ended.told!r}, and in use is {' or '.join(names)}")
    same(pair.digests(), before, "the files")


def refused_row(words, names, **environment):
    """The row of a command that is refused while a run is at work, which goes on then."""

    def row(setting):
        pair = pair_with_names(setting)
        with at_work(pair, **environment) as run:
            refused(pair, words, names)
            answered(run, "create /third", "ok 3")
            ends_well(run)
        finds(pair, "first", "third")

    return row


def second_terminal(setting):
    """In a second terminal the refusal comes before a line is typed."""
    pair = setting.pair()
    with at_work(pair) as run:
        with pair.terminal("serve", "image", "disk") as second:
            line = second.line()
            holds(line in ("host fault: image", "host fault: disk"), f"it said {line!r}")
            same(second.status(), 7, "the status")
        ends_well(run)
    finds(pair, "first")


def free_behind_the_end(setting):
    """Behind the end of a run, and behind a kill, the pair is free."""
    pair = setting.pair()
    with at_work(pair) as run:
        ends_well(run)
    finds(pair, "first")
    with pair.terminal("serve", "image", "disk") as run:
        answered(run, "create /second", "ok 3")
        run.program.send_signal(signal.SIGKILL)
        same(run.status(), -signal.SIGKILL, "the status")
    finds(pair, "first", "second")


def another_pair(setting):
    """A run on another pair of the same folder is not refused."""
    pair = pair_with_names(setting)
    with at_work(pair) as run:
        same(pair.run("check", "other.image", "other.disk").status, 0, "the status of check")
        same(pair.run("serve", "other.image", "other.disk", lines="create /a\n").said, "ok 2\n", "the reply")
        ends_well(run)
    finds(pair, "first")


# How many starts side by side are tried, and how much later the second of the two comes each time, in seconds.
STARTS = 20
STEP = 0.001


def side_by_side(setting):
    """Of `format` and `serve`, begun on one pair at nearly the same time, one gets it: never are both refused."""
    for number in range(STARTS):
        pair = setting.pair()
        orders = (("format", "serve"), ("serve", "format"))
        first, second = orders[number % 2]
        statuses = started_together(pair, first, second, number // 2 * STEP)
        holds(set(statuses) <= {0, 7}, f"{first} and {second} ended with {statuses}")
        holds(0 in statuses, f"{first} and {second} were both refused, {number // 2} ms apart")
        same(pair.run("check", "image", "disk").status, 0, "the status of check")


def started_together(pair, first, second, offset):
    """Begins two commands on a pair, the second this many seconds behind the first, and gives both statuses."""
    earlier = begun(pair, first)
    time.sleep(offset)
    later = begun(pair, second)
    return [run.wait(PATIENCE) for run in (earlier, later)]


def begun(pair, command):
    """A command on the pair that has begun, with no input, and nobody to read what it says."""
    sizes = options(SMALL) if command == "format" else ()
    streams = dict.fromkeys(("stdin", "stdout", "stderr"), subprocess.DEVNULL)
    return subprocess.Popen([pair.launcher, command, "image", "disk", *sizes], cwd=pair.folder, env=pair.environment, **streams)


def rows():
    """The rows by their names."""
    made = {f"while a run is at work: {name} is refused": refused_row(*case) for name, case in REFUSED.items()}
    words, names = REFUSED["a second serve"]
    made["while a run over plain memory is at work: a second serve is refused"] = refused_row(words, names, RIO_MEMORY="plain")
    made["a second serve in a terminal is refused at once"] = second_terminal
    made["a run on another pair is not refused"] = another_pair
    made["of format and serve side by side one gets the pair"] = side_by_side
    made["behind the end of a run its pair is free"] = free_behind_the_end
    return made
