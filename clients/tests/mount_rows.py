"""The parts of the test on the mount's names, attributes and words: rows by hand, without a program."""
import errno
import os
import types

import rio as client
from rio import NoSpace
from riomount import attributes, errors, names, openfiles, serving
from riomount.attributes import Attributes, Owner, Row
from riomount.names import LongNames
from riomount.tables import TableFull
from setting import raises, same

LONG = b"1764585051.M1P2.imap-backend-07.mail.eu-west-1.example-hosting.net"
# Its first 30 bytes, and 24 digits that sha256sum gives.
LONG_STORED = b"1764585051.M1P2.imap-backend-0%~ab77862af8b4b28dccf5d942"


class ListedLines:
    """Stands in for a `LineFile`: the lines as a list, how often they were written anew, and refusals to come."""

    def __init__(self, *lines):
        self.lines = list(lines)
        self.rewrites = 0
        self.refusals = []

    @property
    def size(self):
        return sum(map(len, self.lines)) + len(self.lines)

    def read(self):
        return list(self.lines)

    def append(self, lines):
        if self.refusals:
            raise self.refusals.pop(0)
        self.lines += lines

    def rewrite(self, lines):
        self.lines = list(lines)
        self.rewrites += 1


# Names


def stored_names(_setting):
    """What names are stored as, by hand and by sha256sum."""
    rows = [
        (b"notes", b"notes"),
        (b".git", b".git"),
        (b"a b", b"a%20b"),
        (b"50%", b"50%25"),
        (b"a%20b", b"a%2520b"),
        (b"\xc3\xa4\n\x7f", b"%c3%a4%0a%7f"),
        (b"!~", b"!~"),
        (b"a" * 56, b"a" * 56),
        (b"a" * 57, b"a" * 30 + b"%~f13b2d724659eb3bf47f2dd6"),
        (b" " * 18, b"%20" * 18),
        (b" " * 19, b"%20" * 10 + b"%~b5cf2c9abac9278d89afa2b9"),
        (b"a" * 27 + b" " * 30, b"a" * 27 + b"%20" + b"%~e3c17e240db0f3cbdd458d80"),
        (b"a" * 28 + b" " * 30, b"a" * 28 + b"%~e55e9d2c1cf13c2940ccd0a2"),
        (b"a" * 29 + b" " * 30, b"a" * 29 + b"%~4872f7b278f309f1607c4629"),
        (LONG, LONG_STORED),
    ]
    for name, stored in rows:
        same(names.stored_name(name), stored)
        same(client.is_name(stored), True)
        same(names.short_name(stored), None if b"%~" in stored else name)
    same(len(names.stored_name(b"x" * 255)), 56)
    raises(names.NameTooLong, names.stored_name, b"x" * 256)


def foreign_names(_setting):
    """Names that other clients made, and those that are the mount's own."""
    for stored in (b"50%", b"%2e", b"%2f", b"%00", b"%2A", b"a%~b", b"%7", b"%41"):
        same(names.short_name(stored), None)
        same(names.is_foreign(stored), True)
    for name in (b"plain", b"a%20b", b"a b%", b"%" * 57):
        same(names.is_foreign(name), False)
    rows = [
        (b"", b"%~names", True), (b"/", b"%~names.new", True), (b"/", b"%~attributes", True), (b"/a", b"%~names", False),
        (b"/", b"%~namesake", False), (b"/", b"names", False),
    ]
    for folder, stored, own in rows:
        same(names.is_reserved(folder, stored), own)


def long_names(_setting):
    """The table keeps what is too long, once, and another run shows it."""
    file = ListedLines()
    table = LongNames(file, list)
    for name in (b"short", b"a b", LONG, b" " * 19, LONG):
        table.keep(name)
    same(file.lines, [LONG, b"%20" * 19])
    for stored, shown in ((LONG_STORED, LONG), (b"a%20b", b"a b"), (b"50%", b"50%"), (b"x%~0", b"x%~0")):
        same(LongNames(file, list).shown(stored), shown)
    same(LongNames(ListedLines(), list).shown(LONG_STORED), LONG_STORED)
    same(LongNames(ListedLines(b"", b"short", b"x" * 256), list).shown(b"short"), b"short")
    table._names[LONG_STORED] = b"another"
    raises(names.NameTaken, table.keep, LONG)


def long_names_go(_setting):
    """A table that has grown is written anew with the names in use."""
    many = [b"%0255d" % i for i in range(1100)]
    file = ListedLines()
    table = LongNames(file, lambda: [names.stored_name(many[7]), b"notes"])
    for name in many:
        table.keep(name)
    # 1,024 lines of 256 bytes are 262,144 bytes; the name behind the next one is added to a table of one name.
    same(file.rewrites, 1)
    same(file.lines, [many[7], *many[1025:]])
    same(table.shown(names.stored_name(many[7])), many[7])
    table.keep(many[8])
    same(file.lines[-1], many[8])


# Attributes


def attribute_lines(_setting):
    row = Row(0o4755, 1000, 100, 5, -6, 1_764_585_051_123_456_789)
    line = b"12 4755 1000 100 5 -6 1764585051123456789"
    same(attributes.line_of(12, row), line)
    same(attributes.row_of(line), (12, row))
    same(attributes.line_of(12, None), b"12 -")
    same(attributes.row_of(b"12 -"), (12, None))
    for wrong in (b"", b"12", b"12 --", b"x 644 0 0 0 0 0", b"12 888 0 0 0 0 0", b"12 644 0 0 0 0", b"12 644 0 0 0 0 0 0"):
        same(attributes.row_of(wrong), None)


def attribute_table(_setting):
    """Later lines count more, what is gone is gone, and a refusal loses nothing."""
    owner = Owner(7, 8, 9)
    file = ListedLines(b"2 600 1 1 1 1 1", b"no line", b"2 640 2 2 2 2 2", b"3 600 1 1 1 1 1", b"3 -")
    table = Attributes(file, owner)
    same(table.row(2, False), Row(0o640, 2, 2, 2, 2, 2))
    same((table.row(3, False), table.row(3, True)), (Row(0o644, 7, 8, 9, 9, 9), Row(0o755, 7, 8, 9, 9, 9)))
    table.keep()
    same(len(file.lines), 5)
    table.forget(2)
    table.changed(4, Row(0o600, 0, 0, 1, 2, 3))
    table.changed(4, Row(0o601, 0, 0, 1, 2, 3))
    file.refusals = [NoSpace("write")]
    raises(NoSpace, table.keep)
    same((table.waiting(), len(file.lines)), (2, 5))
    table.keep()
    same(file.lines[5:], [b"2 -", b"4 601 0 0 1 2 3"])
    same(Attributes(file, owner).row(2, False).mode, 0o644)
    for i in range(4000):
        table.changed(4, Row(0o600, 0, 0, i, i, i))
        table.keep()
    same(file.rewrites > 0, True)
    same(Attributes(file, owner).row(4, False), Row(0o600, 0, 0, 3999, 3999, 3999))


def described_files(_setting):
    row = Row(0o644, 1, 2, 3, 4, 5)
    told = attributes.described(client.Stat(9, "file", 98_305), row)
    same([told["st_" + field] for field in ("ino", "mode", "nlink", "uid", "gid", "size", "blocks")],
         [9, 0o100644, 1, 1, 2, 98_305, 26 * 8])
    same(attributes.described(client.Stat(9, "dir", 64), row)["st_mode"], 0o040644)
    same(attributes.described(client.Stat(9, "region", 64), row)["st_mode"], 0o100444)
    times = [attributes.time_of(given, 1, 2) for given in (5, attributes.TIME_NOW, attributes.TIME_OMITTED, 0)]
    same(times, [5, 2, 1, 0])


def nameless_files(_setting):
    """A file whose name is gone, and how libfuse calls it."""
    file = openfiles.Nameless(b"hello", Row(0o644, 0, 0, 0, 0, 0))
    file.write(7, b"x")
    same((file.read(0, 99), file.read(4, 2), file.read(8, 1)), (b"hello\0\0x", b"o\0", b""))
    file.write(1, b"ipp")
    file.write(99, b"")
    file.truncate(4)
    file.truncate(6)
    same(file.read(0, 99), b"hipp\0\0")
    raises(client.TooLarge, file.write, 4_292_608, b"x")
    raises(client.TooLarge, file.truncate, 4_292_609)
    name = ".fuse_hidden0000000200000001"
    rows = [("/a/" + name, name), ("/" + name + "1", None), ("/a", None), ("/" + name[:-1] + "x", None), (None, None)]
    for path, hidden in rows:
        same(openfiles.hidden_name(path), hidden)


# What a mount takes


def missing_things(setting):
    """What is not on a machine is told, with what to do."""
    missing = setting.path("missing")
    line = str(raises(serving.Missing, serving.look_for_device, missing))
    same(line, f"{missing} cannot be opened (No such file or directory): the kernel's module is loaded by 'modprobe fuse'")
    loaded = {"fusepy": types.ModuleType("fusepy"), "fuse": types.ModuleType("fuse")}
    original = serving.importlib
    serving.importlib = types.SimpleNamespace(import_module=loaded.__getitem__)
    try:
        raises(serving.Missing, serving.fuse_module)
        loaded["fuse"].FUSE = loaded["fuse"].fuse_exit = None
        same(serving.fuse_module(), loaded["fuse"])
    finally:
        serving.importlib = original


def wrong_folders(setting):
    missing, full = setting.path("missing"), setting.path("full")
    os.mkdir(full)
    empty = os.path.join(full, "empty")
    os.mkdir(empty)
    same(serving.look_at_folder(empty), None)
    rows = [
        (missing, f"there is no folder {missing}: make it by 'mkdir {missing}'"),
        (full, f"{full} is not empty: give an empty folder"),
        (__file__, f"{__file__} is no folder: give an empty one"),
        ("/proc", "/proc has a mount already: give another folder, or end that mount by 'fusermount -u /proc'"),
    ]
    for folder, line in rows:
        same(str(raises(serving.Unusable, serving.look_at_folder, folder)), line)
    gone = serving.folder_advice("/m", OSError(errno.ENOTCONN, "not connected"))
    same(gone, "/m has a mount whose program is gone: end it by 'fusermount -u /m'")


def advice(_setting):
    """The lines on ends of rio: at the beginning, and later."""
    end = client.End
    rows = [
        (serving.beginning_advice, end(2, "usage: x"), "IMAGE and DISK have to be the names of two files"),
        (serving.beginning_advice, end(3, "image refused: rule 7"),
         "image refused: rule 7: the pair is damaged, or of two pairs: take a copy of both files"),
        (serving.beginning_advice, end(7, "no such file: i"), "no such file: i: make a pair by 'rio format'"),
        (serving.beginning_advice, end(7, "host fault: d"),
         "host fault: d: the pair is in use, or cannot be read: end the other run first"),
        (serving.beginning_advice, end(70, ""), "rio ended with status 70"),
        (serving.end_advice, end(7, "host fault: i"),
         "host fault: i: the image could not be saved; what was answered is kept unless a line tells that it could not be kept in"
         " step with memory: look at the pair by 'rio check'"),
        (serving.end_advice, end(-9, ""),
         "rio ended in the middle, by signal 9: look at the pair by 'rio check', and mount again"),
        (serving.end_advice, end(10, "trapped 0"),
         "rio ended in the middle, with status 10 (trapped 0): look at the pair by 'rio check', and mount again"),
    ]
    for call, ended, line in rows:
        same(call(ended), line)


def refused_calls(_setting):
    """Each refusal of rio has an errno, by hand from the manual pages of the calls."""
    rows = {
        client.NotFound: errno.ENOENT, client.Exists: errno.EEXIST, client.NotADirectory: errno.ENOTDIR,
        client.IsADirectory: errno.EISDIR, client.NotEmpty: errno.ENOTEMPTY, client.IsARegion: errno.EPERM,
        client.TooLarge: errno.EFBIG, client.NoSpace: errno.ENOSPC, client.NoInode: errno.ENOSPC,
        client.InsideItself: errno.EINVAL, client.DeviceFault: errno.EIO, client.NoMemory: errno.ENOMEM,
        client.Doomed: errno.EIO,
    }
    for kind, number in rows.items():
        same(errors.failure_of(kind("x")).errno, number)
    same(errors.failure_of(names.NameTooLong(b"")).errno, errno.ENAMETOOLONG)
    same(errors.failure_of(TableFull(b"")).errno, errno.ENOSPC)


def parts():
    return {
        "mount: stored names": stored_names,
        "mount: names of other clients": foreign_names,
        "mount: the table of long names": long_names,
        "mount: long names that are gone": long_names_go,
        "mount: lines of attributes": attribute_lines,
        "mount: the table of attributes": attribute_table,
        "mount: what stat tells": described_files,
        "mount: a file without a name": nameless_files,
        "mount: what is missing": missing_things,
        "mount: folders that are no use": wrong_folders,
        "mount: what to do about an end": advice,
        "mount: refusals as errors": refused_calls,
    }
