"""The parts of the test on the mount with the programs of a system on it."""
import os
import shutil

from mounted import HOST, SOME_TIME, fill_base, look_at_base, mounted, pair_of, run, written
from rio import check
from setting import content, same

GIT = ["git", "-c", "user.name=Test", "-c", "user.email=test@example.net", "-c", "safe.directory=*"]


def tree(folder):
    """What a folder has: of each path below it the kind, the rights, of files the time in nanoseconds, and the bytes."""
    found = {}
    for at, folders, files in os.walk(os.fsencode(folder)):
        for name in folders + files:
            path = os.path.join(at, name)
            told = os.lstat(path)
            is_dir = os.path.isdir(path)
            key = os.path.relpath(path, os.fsencode(folder))
            found[key] = ("dir", told.st_mode) if is_dir else ("file", told.st_mode, told.st_mtime_ns, content(path))
    return found


def same_trees(folder, wanted):
    """Two folders have the same, but for the times of folders."""
    got, wanted = tree(folder), tree(wanted)
    same(sorted(got), sorted(wanted))
    for path, told in wanted.items():
        same((path, got[path][:-1]), (path, told[:-1]))
        same(got[path][-1] == told[-1], True)


def make_source(folder):
    """A tree with names, rights and times of many kinds."""
    os.makedirs(os.path.join(folder, "d" * 100, "a b"))
    names = ["plain", "with space", "50%", "ümlaut", "x" * 255, "y" * 57, ".dot", "%~names", "d" * 100 + "/" + HOST * 2,
             "d" * 100 + "/a b/new\nline"]
    for i, name in enumerate(names):
        path = written(os.path.join(folder, name), os.urandom(3000 * i))
        os.chmod(path, 0o400 + i)
        os.utime(path, ns=(SOME_TIME, SOME_TIME + i))
    written(os.path.join(os.fsencode(folder), b"\xff\xfe"), b"no text")
    written(os.path.join(folder, "large"), os.urandom(4_292_608))
    os.chmod(os.path.join(folder, "d" * 100), 0o1750)


def tar(setting):
    """A tree goes in by tar; it comes out, and is there in the next run, with names, bytes, rights and times."""
    source, archive = setting.path("source"), setting.path("archive")
    os.mkdir(source)
    make_source(source)
    run("tar", "--format=pax", "-cf", archive, "-C", source, ".")
    pair = pair_of(setting, "few frames")
    with mounted(setting, pair) as folder:
        run("tar", "-xpf", archive, "-C", folder)
        same_trees(folder, source)
        run("diff", "-r", source, folder)
    with mounted(setting, pair) as folder:
        same_trees(folder, source)
        again = setting.path("again")
        run("tar", "--format=pax", "-cf", again, "-C", folder, ".")
        run("tar", "-df", again, "-C", source)
        run("rm", "-r", *(os.path.join(folder, name) for name in os.listdir(folder)))
        same(os.listdir(folder), [])
    # Of all that is left there are the two tables, of a page or more each.
    same(check(*pair, program=setting.program)[:3], (1, 2, 0))


def git(setting):
    """A repository is made, changed, packed, cloned and looked through, and is whole in the next run."""
    pair = pair_of(setting, "few frames")
    with mounted(setting, pair) as folder:
        work = os.path.join(folder, "work")
        run(*GIT, "init", "-q", work)
        for i in range(5):
            written(os.path.join(work, f"file {i}"), os.urandom(5000))
            run(*GIT, "-C", work, "add", ".")
            run(*GIT, "-C", work, "commit", "-qm", f"change {i}")
        run(*GIT, "-C", work, "gc", "-q")
        run(*GIT, "-C", work, "fsck", "--strict")
        run(*GIT, "clone", "-q", work, os.path.join(folder, "clone"))
        last = run(*GIT, "-C", work, "rev-parse", "HEAD")
    with mounted(setting, pair) as folder:
        clone = os.path.join(folder, "clone")
        run(*GIT, "-C", clone, "fsck", "--strict")
        same(run(*GIT, "-C", clone, "rev-parse", "HEAD"), last)
        same(run(*GIT, "-C", clone, "log", "--format=%s").split(b"\n")[:2], [b"change 4", b"change 3"])
        same(run(*GIT, "-C", clone, "status", "--porcelain"), b"")


def sqlite(setting):
    """Two tables, with a journal and with a write-ahead log, in two runs; a program of its own looks at one."""
    pair = pair_of(setting, "few frames")
    for first in (0, 100):
        with mounted(setting, pair) as folder:
            for mode in ("delete", "wal"):
                path = os.path.join(folder, mode)
                fill_base(path, mode, range(first, first + 100))
                look_at_base(path, first + 100)
    with mounted(setting, pair) as folder:
        same(sorted(os.listdir(folder)), ["delete", "wal"])
        if shutil.which("sqlite3"):
            same(run("sqlite3", os.path.join(folder, "wal"), "select count(*) from t"), b"200\n")


def deliver(folder, number, mail):
    """Drops a mail as a mail server does: written beside, brought to the device, renamed into place."""
    name = f"17645850{number:02}.M{number}P1.{HOST}"
    path = written(os.path.join(folder, "tmp", name), mail)
    with open(path, "rb") as file:
        os.fsync(file.fileno())
    os.rename(path, os.path.join(folder, "new", name))
    return name


def mail_drop(setting):
    """Mails whose names are too long for rio are dropped, seen, and there in the next run."""
    mails = [b"Subject: %d\n\n" % i + os.urandom(2000 * i).hex().encode() for i in range(30)]
    pair = pair_of(setting, "few frames")
    with mounted(setting, pair) as folder:
        for part in ("tmp", "new", "cur"):
            os.mkdir(os.path.join(folder, part))
        names = [deliver(folder, i, mail) for i, mail in enumerate(mails)]
        for name in names[::2]:
            os.rename(os.path.join(folder, "new", name), os.path.join(folder, "cur", name + ":2,S"))
    with mounted(setting, pair) as folder:
        same(os.listdir(os.path.join(folder, "tmp")), [])
        same(sorted(os.listdir(os.path.join(folder, "cur"))), [name + ":2,S" for name in names[::2]])
        for i, name in enumerate(names):
            place = os.path.join(folder, "new", name) if i % 2 else os.path.join(folder, "cur", name + ":2,S")
            same(content(place) == mails[i], True)


def parts():
    return {
        "mount: tar": tar,
        "mount: git": git,
        "mount: sqlite": sqlite,
        "mount: a mail drop": mail_drop,
    }
