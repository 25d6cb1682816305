"""The parts of the test on what the mount does as a file system, by the manual pages of its calls."""
import errno
import os

from mounted import HOST, SOME_TIME, fails, mounted, pair_of, run, written
from rio import Rio, check
from setting import content, same


def open_files(setting):
    """Files that lose their name while they are open, by removal and by a rename, and what stat says of them."""
    pair = pair_of(setting, "all frames")
    with mounted(setting, pair) as folder:
        old, new = os.path.join(folder, "old"), os.path.join(folder, "new")
        with open(written(old, b"old bytes"), "r+b", buffering=0) as file:
            os.unlink(old)
            same(os.listdir(folder), [])
            same((os.fstat(file.fileno()).st_size, os.fstat(file.fileno()).st_nlink), (9, 0))
            written(old, b"another")
            file.seek(4)
            file.write(b"word!!")
            file.seek(0)
            same(file.read(), b"old word!!")
            os.ftruncate(file.fileno(), 3)
            same(os.fstat(file.fileno()).st_size, 3)
            same(content(f"/proc/self/fd/{file.fileno()}"), b"old")
            os.rename(written(new, b"new bytes"), old)
            same((os.listdir(folder), content(old)), (["old"], b"new bytes"))
        with open(old, "r+b", buffering=0) as file:
            os.rename(written(new, b"third"), old)
            file.write(b"NEW")
            file.seek(0)
            same((file.read(), content(old), os.listdir(folder)), (b"NEW bytes", b"third", ["old"]))
        with open(old, "ab", buffering=0) as file, open(old, "ab", buffering=0) as other:
            file.write(b"1")
            os.rename(old, new)
            other.write(b"2")
            file.write(b"3")
            same((content(new), os.listdir(folder)), (b"third123", ["new"]))
    same(check(*pair, program=setting.program)[:3], (1, 3 - 1, 0))


def names_that_go(setting):
    """Removals and renames as the manual pages have them."""
    with mounted(setting, pair_of(setting, "all frames")) as folder:
        a, b, f = (os.path.join(folder, name) for name in ("a", "b", "f"))
        os.mkdir(a)
        os.mkdir(b)
        written(f, b"f")
        inner = os.path.join(a, "inner")
        written(inner)
        fails(errno.ENOTEMPTY, os.rmdir, a)
        fails(errno.ENOTEMPTY, os.rename, b, a)
        fails(errno.EISDIR, os.rename, f, b)
        fails(errno.ENOTDIR, os.rename, a, f)
        fails(errno.EINVAL, os.rename, a, os.path.join(a, "below"))
        fails(errno.EISDIR, os.unlink, a)
        fails(errno.ENOTDIR, os.rmdir, f)
        fails(errno.ENOENT, os.unlink, os.path.join(folder, "missing"))
        fails(errno.EEXIST, os.mkdir, a)
        os.rename(a, b)
        same((sorted(os.listdir(folder)), os.listdir(b)), (["b", "f"], ["inner"]))
        os.rename(f, f)
        os.rename(f, os.path.join(b, "inner"))
        same((os.listdir(folder), content(os.path.join(b, "inner"))), (["b"], b"f"))


def refused_things(setting):
    """What rio has not, by the errno that it has to have, and nothing is left of it."""
    with mounted(setting, pair_of(setting, "all frames")) as folder:
        f = written(os.path.join(folder, "f"), b"f")
        other = os.path.join(folder, "other")
        fails(errno.EPERM, os.link, f, other)
        fails(errno.EPERM, os.symlink, f, other)
        fails(errno.EPERM, os.mkfifo, other)
        fails(errno.EOPNOTSUPP, os.setxattr, f, "user.x", b"y")
        fails(errno.ENAMETOOLONG, os.mkdir, os.path.join(folder, "x" * 256))
        fails(errno.EFBIG, os.truncate, f, 4_292_609)
        with open(f, "r+b", buffering=0) as file:
            file.seek(4_292_608)
            fails(errno.EFBIG, file.write, b"x")
        deep = folder
        for _ in range(32):
            deep = os.path.join(deep, "d")
            os.mkdir(deep)
        fails(errno.ENAMETOOLONG, os.mkdir, os.path.join(deep, "d"))
        for i in range(2):
            os.truncate(written(os.path.join(folder, f"half{i}")), 3_700_000)
        fails(errno.ENOSPC, os.truncate, f, 4_000_000)
        same((sorted(os.listdir(folder)), content(f)), (["d", "f", "half0", "half1"], b"f"))


def attributes(setting):
    """Rights, owners and times, also those that are set alone, are there in the next run."""
    pair = pair_of(setting, "all frames")
    with mounted(setting, pair) as folder:
        f, d = written(os.path.join(folder, "f"), b"f"), os.path.join(folder, "d")
        os.mkdir(d, 0o700)
        os.chmod(f, 0o4711)
        os.utime(f, ns=(1, SOME_TIME))
        run("touch", "-a", "-d", "@5", f)
        if os.geteuid() == 0:
            os.chown(f, 12, 34)
            os.chown(f, -1, 35)
            os.chmod(f, 0o4711)
        since = os.stat(d).st_mtime_ns
        told = os.stat(f)
        same((told.st_mode, told.st_atime_ns, told.st_mtime_ns), (0o104711, 5_000_000_000, SOME_TIME))
    with mounted(setting, pair) as folder:
        f, d = os.path.join(folder, "f"), os.path.join(folder, "d")
        told = os.stat(f)
        same((told.st_mode, told.st_atime_ns, told.st_mtime_ns), (0o104711, 5_000_000_000, SOME_TIME))
        if os.geteuid() == 0:
            same((told.st_uid, told.st_gid), (12, 35))
        same((os.stat(d).st_mode, os.stat(d).st_mtime_ns), (0o040700, since))
        written(os.path.join(d, "x"))
        same(os.stat(d).st_mtime_ns > since, True)
        os.unlink(f)
        same(os.stat(written(f)).st_mode & 0o7000, 0)


def space_left(setting):
    """What statvfs tells is what `check` counts when the mount has ended."""
    pair = pair_of(setting, "all frames")
    with mounted(setting, pair) as folder:
        fresh = os.statvfs(folder)
        # Of 2,048 blocks the superblock, the bitmap and 32 of 1,024 inodes are reserved.
        same((fresh.f_frsize, fresh.f_blocks, fresh.f_bfree, fresh.f_files, fresh.f_ffree), (4096, 2014, 2014, 1024, 1023))
        for i in range(100):
            os.truncate(written(os.path.join(folder, f"file {i}"), b"x" * (i * 50)), i * 1500)
        for i in range(0, 100, 3):
            os.unlink(os.path.join(folder, f"file {i}"))
        os.mkdir(os.path.join(folder, "d"))
        for i in range(1, 60, 3):
            os.rename(os.path.join(folder, f"file {i}"), os.path.join(folder, "d", HOST + HOST + str(i)))
        os.rename(os.path.join(folder, "file 2"), os.path.join(folder, "file 5"))
        left = os.statvfs(folder)
    found = check(*pair, program=setting.program)
    same((left.f_bfree, left.f_bavail), (found.free, found.free))
    same(left.f_ffree, 1024 - found.dirs - found.files)
    # 34 of 100 files are removed, one is replaced, and two are the tables.
    same((found.dirs, found.files, found.regions), (2, 67, 0))


def other_clients(setting):
    """Files, regions and names that another client made."""
    pair = pair_of(setting, "all frames")
    with Rio(*pair, program=setting.program) as rio:
        rio.write_all("/50%", b"half")
        rio.write_all("/a%20b", b"space")
        rio.mkdir("/%7")
        rio.write_all("/%7/%~", b"mark")
        rio.region("/bank", 2, 1)
        with rio.transaction("/bank") as change:
            change.range(8, 8)
            change.put(8, b"balance!")
    with mounted(setting, pair) as folder:
        same(sorted(os.listdir(folder)), ["%7", "50%", "a b", "bank"])
        at = {name: os.path.join(folder, name) for name in ("50%", "a b", "bank", "%7/%~")}
        same([content(at[name]) for name in ("50%", "a b", "%7/%~")], [b"half", b"space", b"mark"])
        same(content(at["bank"]), bytes(8) + b"balance!" + bytes(8176))
        fails(errno.EPERM, os.unlink, at["bank"])
        fails(errno.EPERM, os.rename, at["a b"], at["bank"])
        fails(errno.EPERM, os.truncate, at["bank"], 0)
        fails(errno.EPERM, os.open, at["bank"], os.O_WRONLY)
        os.rename(at["bank"], os.path.join(folder, "%7", "moved"))
        os.unlink(at["50%"])
        same(sorted(os.listdir(folder)), ["%7", "a b"])
        written(at["50%"], b"new")
    with Rio(*pair, program=setting.program) as rio:
        same([name for name in rio.list("/") if "%~" not in name], ["%7", "50%25", "a%20b"])
        same((rio.read_all("/50%25"), rio.get("/%7/moved", 8, 8)), (b"new", b"balance!"))


def parts():
    return {
        "mount: open files that lose their names": open_files,
        "mount: removals and renames": names_that_go,
        "mount: what is refused": refused_things,
        "mount: rights, owners and times": attributes,
        "mount: the space that is left": space_left,
        "mount: files of other clients": other_clients,
    }
