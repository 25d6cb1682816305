"""The parts of the test on the mount's blocks, tables and calls, over the program but without libfuse."""
import os
import shutil
import time

import rio as client
from rio import Census, Ended, Rio, check
from riomount import attributes, names, operations, space
from riomount.attributes import Attributes, Owner
from riomount.names import LongNames
from riomount.space import Space, Volume
from riomount.tables import LineFile, TableFull, WrongTable
from setting import Differs, raises, same

# Of a fresh pair of 256 blocks and 64 inodes.
FRESH = (252, 252, 64, 63)
# In seconds, after which a removal that waited has been made.
A_WHILE = 1
# The machine is stopped at each of so many steps, which has to be at so many places at least.
STRIDE = 509
FEWEST_STOPS = 8


# Space


def rule_of_blocks(_setting):
    rows = [
        (0, 0), (1, 1), (64, 1), (4096, 1), (64 * 64 + 64, 2), (98_304, 24), (98_305, 26), (102_400, 26), (102_401, 27),
        (4_292_608, 1049),
    ]
    for size, blocks in rows:
        same(space.blocks_of(size), blocks)
    same(space.LARGEST_FILE, 4_292_608)


def counted_space(_setting):
    """A volume of 256 blocks and 64 inodes, of which 4 blocks are reserved."""
    fresh = space.space_of(Census(1, 0, 0, 0, 252), 1_048_576)
    same((fresh.blocks, fresh.free, fresh.inodes, fresh.free_inodes), (252, 252, 64, 63))
    used = space.space_of(Census(1, 2, 1, 6, 246), 1_048_576)
    same((used.blocks, used.free, used.inodes, used.free_inodes), (252, 246, 64, 60))
    used.made()
    used.resized(0, 98_305)
    used.resized(98_305, 98_304)
    same((used.free, used.free_inodes), (222, 59))
    used.removed(98_304)
    same((used.free, used.free_inodes), (246, 60))
    told = used.statvfs()
    same([told[field] for field in ("f_bsize", "f_frsize", "f_blocks", "f_bfree", "f_bavail")], [4096, 4096, 252, 246, 246])
    same([told[field] for field in ("f_files", "f_ffree", "f_favail", "f_namemax")], [64, 60, 60, 255])


def counted_requests(setting):
    """Requests of every kind, and what `check` then says is free."""
    image, disk = setting.pair()
    with Rio(image, disk, program=setting.program) as rio:
        volume = Volume(rio, space.space_of(Census(1, 0, 0, 0, 252), os.path.getsize(disk)))
        made = volume.mkdir(b"/a")
        same((made.inode, made.folder), (2, 1))
        for i in range(20):
            volume.create(b"/a/%d" % i)
        size = volume.write(b"/a/0", 100_000, b"x", 0)
        same(size, 100_001)
        same(volume.write(b"/a/0", 5, b"", size), 100_001)
        volume.truncate(b"/a/0", 98_304, size)
        same(volume.write(b"/a/1", 0, b"y" * 5000, 0), 5000)
        same(volume.rename(b"/a/1", b"/1", None), [2, 1])
        same(volume.rename(b"/a/0", b"/1", volume.stat(b"/1")), [2, 1])
        same(volume.rename(b"/1", b"/2", None), [1])
        same(volume.unlink(b"/a/2", 0), 2)
        # The least free inodes are those of the old /1 and of /a/2.
        same(tuple(volume.mkdir(b"/b")), (4, 1))
        same(tuple(volume.create(b"/b/x")), (5, 4))
        same(volume.rename(b"/b/x", b"/b/y", None), [4])
        volume.unlink(b"/b/y", 0)
        same(volume.rmdir(b"/b"), 1)
        raises(client.TooLarge, volume.write, b"/2", 4_292_608, b"x", 98_304)
        raises(client.TooLarge, volume.truncate, b"/2", 4_292_609, 98_304)
        counted = (volume.space.free, volume.space.free_inodes)
    found = check(image, disk, program=setting.program)
    # 24 blocks of /2, one each of / and /a; inodes of 2 directories and 18 files.
    same(tuple(found), (2, 18, 0, 26, 226))
    same(counted, (226, 44))


# Tables in a volume


def wrong_tables(setting):
    """A file that is no table is left as it is; a table that would be too large is refused."""
    with Rio(*setting.pair(), program=setting.program) as rio:
        volume = Volume(rio, Space(*FRESH))
        same(LineFile(volume, b"/t", b"title 1").read(), [])
        for text in (b"title 2\nx\n", b"title 1", b"title 1\nhalf", b""):
            rio.write_all("/t", text)
            same(str(raises(WrongTable, LineFile(volume, b"/t", b"title 1").read)), "/t does not begin with the line 'title 1'")
            same(rio.read_all("/t"), text)
        rio.write_all("/t", b"title 1\na\n")
        rio.write_all("/t.new", b"half")
        file = LineFile(volume, b"/t", b"title 1")
        same((file.read(), file.size, rio.list("/")), ([b"a"], 10, ["t"]))
        raises(TableFull, file.append, [b"x" * 4_292_600])
        raises(TableFull, file.rewrite, [b"x" * 4_292_608])
        file.append([b"b", b"c"])
        same(rio.read_all("/t"), b"title 1\na\nb\nc\n")
        file.rewrite([b"d"])
        same(rio.read_all("/t"), b"title 1\nd\n")


def change_tables(rio):
    """Adds names and attributes, and writes both tables anew."""
    volume = Volume(rio, Space(*FRESH))
    lines = LineFile(volume, b"/%~names", b"title 1")
    lines.read()
    lines.append([b"second"])
    lines.rewrite([b"first", b"second", b"third"])
    lines.append([b"fourth", b"fifth"])


def stopped_tables(setting):
    """The machine stops at steps all over a change of the tables: what is found is one of the states between two calls."""
    first = setting.pair()
    with Rio(*first, program=setting.program) as rio:
        file = LineFile(Volume(rio, Space(*FRESH)), b"/%~names", b"title 1")
        file.append([b"first"])
    states = [[b"first"], [b"first", b"second"], [b"first", b"second", b"third"],
              [b"first", b"second", b"third", b"fourth", b"fifth"]]
    found, step, ended = [], 0, False
    while not ended:
        ended = stopped_change(setting, first, step, found)
        step += STRIDE
    same([state for state in found if state not in states], [])
    same(found[-1], states[-1])
    if len(found) < FEWEST_STOPS or sorted(map(len, found)) != list(map(len, found)):
        raise Differs(f"found {found}")


def stopped_change(setting, first, step, found):
    """Makes the change on a copy until the machine stops, adds the lines that the next run finds, and whether it did not stop."""
    pair = [setting.path(name) for name in ("image", "disk")]
    for source, copy in zip(first, pair):
        shutil.copyfile(source, copy)
    ended = False
    rio = Rio(*pair, program=setting.program, stop=step)
    try:
        change_tables(rio)
        ended = True
    except Ended as end:
        same(end.last_line, f"stopped {step}")
    rio.close()
    with Rio(*pair, program=setting.program) as rio:
        found.append(LineFile(Volume(rio, Space(*FRESH)), b"/%~names", b"title 1").read())
        same(rio.list("/"), ["%~names"])
    for name in pair:
        os.remove(name)
    return ended


# Calls of libfuse, without it


def called_mount(rio, owner=Owner(0, 0, 0)):
    """The operations of a mount, to be called as libfuse does."""
    volume = Volume(rio, Space(*FRESH))
    names_file = LineFile(volume, names.NAMES_PATH, names.NAMES_TITLE)
    attributes_file = LineFile(volume, attributes.ATTRIBUTES_PATH, attributes.ATTRIBUTES_TITLE)
    return operations.Mount(volume, LongNames(names_file, volume.every_name), Attributes(attributes_file, owner))


def renames_over(setting):
    """libfuse hides an open file before another is renamed over it: for rio both are one change. A file that is only hidden
    is removed in a while, though no call follows."""
    hidden = "/.fuse_hidden0000000200000001"
    with Rio(*setting.pair(), program=setting.program) as rio:
        mount = called_mount(rio)
        for path in ("/new", "/old"):
            handle = mount("create", path, 0o644)
            mount("write", path, path.encode(), 0, handle)
        mount("fsync", "/old", 0, handle)
        lines, request = [], rio.request
        rio.request = lambda line: lines.append(line.split(b" ")[0]) or request(line)
        mount("rename", "/old", hidden)
        mount("rename", "/new", "/old")
        same([line for line in lines if line in (b"unlink", b"rename")], [b"rename"])
        same((mount("read", hidden, 9, 0, handle), rio.read_all("/old")), (b"/old", b"/new"))
        # The old file had inode 3.
        same(rio.read_all("/%~attributes").split(b"\n")[-2:], [b"3 -", b""])
        mount("release", hidden, handle)
        mount("unlink", hidden)
        handle = mount("open", "/old", os.O_RDONLY)
        mount("rename", "/old", hidden)
        same(rio.list("/"), ["%~attributes", "old"])
        time.sleep(A_WHILE)
        same((rio.list("/"), mount("read", hidden, 9, 0, handle)), (["%~attributes"], b"/new"))


def parts():
    return {
        "mount: the rule of blocks": rule_of_blocks,
        "mount: space that is counted": counted_space,
        "mount: space after every request": counted_requests,
        "mount: tables that are none": wrong_tables,
        "mount: a stop while tables change": stopped_tables,
        "mount: a rename over an open file": renames_over,
    }
