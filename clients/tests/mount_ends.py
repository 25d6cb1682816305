"""The parts of the test on how a mount ends: rio or the mount is killed, a signal comes, or it does not begin."""
import contextlib
import errno
import os
import signal
import sqlite3
import subprocess
import sys
import time

from mounted import (
    HOST, LONGEST, PAUSE, Mounted, ended_mount, fails, fill_base, look_at_base, mounted, pair_of, written,
)
from rio import Ended, Rio, check
from setting import Skipped, content, same


def killed(setting):
    """rio is killed in the middle: the mount ends by itself, and the next one finds what it has to.

    Where memory is held in IMAGE while rio runs, that is all that was written. Else IMAGE is that of the run before.
    """
    pair = pair_of(setting, "all frames")
    with mounted(setting, pair) as folder:
        written(os.path.join(folder, "before"), b"before")
        fill_base(os.path.join(folder, "base"), "delete", range(20))
    before = content(pair[0])
    mount = Mounted(setting, pair)
    try:
        written(os.path.join(mount.folder, HOST + HOST), b"after")
        fill_base(os.path.join(mount.folder, "base"), "delete", range(20, 60))
        is_held = content(pair[0]) != before
        os.kill(mount.server(), signal.SIGKILL)
        fails(errno.EIO, os.mkdir, os.path.join(mount.folder, "late"))
        line = "mount: rio ended in the middle, by signal 9: look at the pair by 'rio check', and mount again\n"
        same(mount.ended(), (1, line))
        same(os.listdir(mount.folder), [])
    finally:
        mount.stop()
    with mounted(setting, pair) as folder:
        same(content(os.path.join(folder, "before")), b"before")
        if is_held:
            same(sorted(os.listdir(folder)), sorted(["base", "before", HOST + HOST]))
            same(content(os.path.join(folder, HOST + HOST)), b"after")
        look_at_base(os.path.join(folder, "base"), 60 if is_held else 20)


def adding_program(path, first):
    """The words of a program that adds rows to a table from a number on, and prints the number of each that is committed."""
    lines = [
        "import sqlite3",
        f"base = sqlite3.connect({path!r})",
        f"n = {first}",
        "while True:",
        "    base.execute('insert into t values (?, ?)', (n, 'text' * 50))",
        "    base.commit()",
        "    print(n, flush=True)",
        "    n += 1",
    ]
    return [sys.executable, "-c", "\n".join(lines)]


def killed_at_work(setting):
    """rio is killed while rows are added: where memory is held in IMAGE, each row that was told to be committed is there."""
    pair = pair_of(setting, "all frames")
    with mounted(setting, pair) as folder:
        fill_base(os.path.join(folder, "base"), "delete", range(10))
    count = 10
    for seconds in (0.3, 0.45, 0.7):
        before = content(pair[0])
        mount = Mounted(setting, pair)
        try:
            words = adding_program(os.path.join(mount.folder, "base"), count)
            adding = subprocess.Popen(words, stdout=subprocess.PIPE, stderr=subprocess.DEVNULL)
            told = [adding.stdout.readline()]
            is_held = content(pair[0]) != before
            time.sleep(seconds)
            os.kill(mount.server(), signal.SIGKILL)
            told += adding.communicate(timeout=LONGEST)[0].splitlines()
            same(mount.ended()[0], 1)
        finally:
            mount.stop()
        with mounted(setting, pair) as folder:
            path = os.path.join(folder, "base")
            with contextlib.closing(sqlite3.connect(path)) as base:
                found = base.execute("select count(*) from t").fetchone()[0]
            look_at_base(path, found)
            same(found - count - len(told) in (0, 1) if is_held else found == count, True)
            count = found


def dropped(setting):
    """The mount itself is killed: rio saves everything, and what the mount has left on its folder is told and can be ended."""
    pair = pair_of(setting, "all frames")
    mount = Mounted(setting, pair)
    try:
        written(os.path.join(mount.folder, HOST + HOST), b"kept")
        server = mount.server()
        mount.process.kill()
        mount.process.communicate(timeout=LONGEST)
        while os.path.exists(f"/proc/{server}"):
            time.sleep(PAUSE)
        line = f"mount: {mount.folder} has a mount whose program is gone: end it by 'fusermount -u {mount.folder}'\n"
        same(ended_mount(setting, pair, mount.folder), (1, "", line))
    finally:
        subprocess.run(["fusermount", "-u", mount.folder], check=True)
    with mounted(setting, pair) as folder:
        same((os.listdir(folder), content(os.path.join(folder, HOST + HOST))), ([HOST + HOST], b"kept"))


def signals(setting):
    """A mount that is told to end saves everything, also where a file is open."""
    pair = pair_of(setting, "all frames")
    for number in (signal.SIGTERM, signal.SIGINT, signal.SIGHUP):
        mount = Mounted(setting, pair)
        try:
            file = os.open(os.path.join(mount.folder, str(int(number))), os.O_CREAT | os.O_WRONLY)
            os.write(file, b"open")
            mount.process.send_signal(number)
            same(mount.ended(), (0, ""))
            fails(errno.ENOTCONN, os.close, file)
        finally:
            mount.stop()
    with mounted(setting, pair) as folder:
        same({name: content(os.path.join(folder, name)) for name in os.listdir(folder)},
             {"15": b"open", "2": b"open", "1": b"open"})


def wrong_words(setting):
    """Each is told in one line with what to do, and nothing has changed."""
    image, disk = pair_of(setting, "all frames")
    before = content(image), content(disk)
    folder, missing = setting.path("folder"), setting.path("missing")
    os.mkdir(folder)
    damaged = setting.path("image")
    written(damaged, before[0][:-1])
    rows = [
        (image, disk, missing, f"there is no folder {missing}: make it by 'mkdir {missing}'"),
        (image, disk, image, f"{image} is no folder: give an empty one"),
        (missing, disk, folder, f"no such file: {missing}: make a pair by 'rio format'"),
        (image, missing, folder, f"no such file: {missing}: make a pair by 'rio format'"),
        (image, image, folder, "IMAGE and DISK have to be the names of two files"),
        (damaged, disk, folder, "image refused: rule 1: the pair is damaged, or of two pairs: take a copy of both files"),
    ]
    for *pair, place, line in rows:
        same(ended_mount(setting, pair, place), (1, "", f"mount: {line}\n"))
    same((content(image), content(disk)), before)
    with mounted(setting, (image, disk)) as taken:
        line = f"mount: {taken} has a mount already: give another folder, or end that mount by 'fusermount -u {taken}'\n"
        same(ended_mount(setting, (image, disk), taken), (1, "", line))


def wrong_tables(setting):
    """A file of another kind under a table's name is not touched."""
    pair = pair_of(setting, "all frames")
    with Rio(*pair, program=setting.program) as rio:
        rio.write_all("/%~names", b"mine\n")
    folder = setting.path("folder")
    os.mkdir(folder)
    line = "/%~names does not begin with the line 'rio-mount names 1': another client made it: rename it, and mount again"
    same(ended_mount(setting, pair, folder), (1, "", f"mount: {line}\n"))
    with Rio(*pair, program=setting.program) as rio:
        same(rio.read_all("/%~names"), b"mine\n")


def is_locked(setting, pair):
    """Whether the program refuses a pair because another run has it."""
    try:
        check(*pair, program=setting.program)
    except Ended as end:
        return end.status == 7
    return False


def second_mount(setting):
    """A pair that is mounted cannot be mounted again, where the program locks its files."""
    pair = pair_of(setting, "all frames")
    folder = setting.path("folder")
    os.mkdir(folder)
    with mounted(setting, pair) as first:
        written(os.path.join(first, "f"), b"first")
        if not is_locked(setting, pair):
            raise Skipped("this program takes no lock of its files")
        status, _, line = ended_mount(setting, pair, folder)
        same((status, line.endswith("the pair is in use, or cannot be read: end the other run first\n")), (1, True))
    with mounted(setting, pair) as folder:
        same(content(os.path.join(folder, "f")), b"first")


def parts():
    return {
        "mount: rio is killed": killed,
        "mount: rio is killed at work": killed_at_work,
        "mount: the mount is killed": dropped,
        "mount: signals": signals,
        "mount: words that are no use": wrong_words,
        "mount: a table that is none": wrong_tables,
        "mount: a pair in use": second_mount,
    }
