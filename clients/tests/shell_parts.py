"""The parts of the test on talk as a shell: lists and trees, folders, help, batches, and what a terminal gives."""
import os
import signal
import subprocess

from rio import Rio, check
from setting import FAKE, LONGEST, content, same
from talk_parts import Terminal, saved, talk_words, talked

# What is made before the lists: by hand, with the inodes 2 to 6 in this order.
MADE = [
    "mkdir /mail", "create /mail/in", "mkdir /mail/old", "create /notes", "region /bank 2 3",
    'write /mail/in "hello"', "truncate /notes 100000",
]
MADE_SAYS = ["ok 2", "ok 3", "ok 4", "ok 5", "ok 6", "5 bytes to /mail/in", "ok"]


def with_errors(program, files, lines, *options):
    """Talks these lines, and returns the status and what is said on both streams, as lines."""
    words = talk_words(program, files, *options)
    ended = subprocess.run(words, input="\n".join(lines).encode(), capture_output=True, timeout=LONGEST, check=False)
    return ended.returncode, ended.stdout.decode().splitlines(), ended.stderr.decode().splitlines()


def lists(setting):
    """Names with and without what they are, and trees."""
    rows = [
        ("ls", ["bank@", "mail/", "notes"]),
        ("ls /mail", ["in", "old/"]),
        ("ls /mail/in", ["/mail/in"]),
        ("ls -l", ["3 names", "region     6   8192 bank", "dir        2    128 mail", "file       5 100000 notes"]),
        ("ls -l /mail/in", ["1 name", "file       3 5 /mail/in"]),
        ("tree", [
            "/", "|-- bank@  8192", "|-- mail/", "|   |-- in  5", "|   `-- old/", "`-- notes  100000",
            "2 directories, 2 files, 1 region, 108197 bytes"]),
        ("tree /mail/old", ["/mail/old", "0 directories, 0 files, 0 regions, 0 bytes"]),
        ("cat /mail/in", ["hello"]),
        ("cat /bank", ["00" * 8192]),
        ("ls /missing", ["err 2  not found"]),
        ("tree /missing", ["err 2  not found"]),
        ("cat /mail", ["err 5  is a directory"]),
    ]
    status, said = talked(setting.program, setting.pair(), MADE + [line for line, _ in rows])
    same(said, MADE_SAYS + [shown for _, says in rows for shown in says])
    same(status, 1)


def use(setting):
    """`df` counts what `rio check` counts once the run has ended, with regions of this run and of the one before."""
    files = setting.pair()
    changes = ["region /two 30 1", "unlink /bank", "region /three 1 9", "rename /notes /mail/in", "mkdir /new"]
    for lines in (MADE, changes, ["sync"]):
        status, said = talked(setting.program, files, [*lines, "df"])
        census = check(*files, program=setting.program)
        nodes = census.dirs + census.files + census.regions
        same((status, [line for line in said if line.startswith("err")]), (0, []))
        same(said[-4:], [
            "             all    used    free", f"blocks       256{census.used:>8}{census.free:>8}",
            f"inodes        64{nodes:>8}{64 - nodes:>8}", f"{4096 * census.free} bytes free"])


def first_use(setting):
    """The same by hand: a root of three names, a directory of two, and of none; 5 and 100,000 bytes in 1 and 25 pages and one of
    their numbers; a region of a header, 3 undo pages, one of the map and 2 of data. 4 of 256 blocks are reserved."""
    _, said = talked(setting.program, setting.pair(), [*MADE, "df"])
    same(said[-3:], ["blocks       256      36     216", "inodes        64       6      58", "884736 bytes free"])


def folder_of(setting):
    """A folder of the system with two files, one of them large, and folders in one another."""
    folder = setting.path("folder")
    os.makedirs(os.path.join(folder, "sub", "empty"))
    for name, data in {"a.txt": b"text\n", os.path.join("sub", "large"): bytes(range(256)) * 5000}.items():
        with open(os.path.join(folder, name), "wb") as file:
            file.write(data)
    return folder


def folders(setting):
    """A folder is copied in and out again, and is the same; what is there already is replaced in rio, and not in the system."""
    folder, back = folder_of(setting), setting.path("back")
    lines = [
        "mkdir /x", 'write /x/a.txt "old and longer"', f"import {folder} /x", f"import {folder} /x", "get /x/a.txt",
        f"export / {back}", f"export / {back}", "export /none /nowhere/x", f"import {folder} /none/x", f"import {folder}.none /x",
    ]
    status, said = talked(setting.program, setting.pair("large"), lines)
    counts = "2 files, 2 directories, 1280005 bytes"
    same(said, [
        "ok 2", "14 bytes to /x/a.txt", f"{counts} to /x", f"{counts} to /x", "text",
        f"2 files, 3 directories, 1280005 bytes to {back}", f"talk: {back} is there already, and not empty: name a new folder",
        "err 2  not found", "err 2  not found", f"talk: [Errno 2] No such file or directory: '{folder}.none'"])
    same(status, 1)
    same(subprocess.run(["diff", "-r", folder, os.path.join(back, "x")], stdout=subprocess.PIPE, check=False).stdout, b"")


def region_out(setting):
    back = setting.path("back")
    lines = ["region /r 1 1", "begin /r", "range /r 0 8", 'put /r 0 "12345678"', "commit /r", f"export / {back}"]
    same(talked(setting.program, setting.pair(), lines)[1][-1], f"1 file, 0 directories, 4096 bytes to {back}")
    same(content(os.path.join(back, "r")), b"12345678" + bytes(4088))


def bad_folders(setting):
    """What rio cannot hold is told before anything is copied."""
    folder = folder_of(setting)
    os.symlink("a.txt", os.path.join(folder, "link"))
    for name in ("with space", "n" * 57):
        os.mkdir(os.path.join(folder, name))
    with open(os.path.join(folder, "sub", "huge"), "wb") as file:
        file.truncate(4_292_609)
    status, said = talked(setting.program, setting.pair(), [f"import {folder} /x", "ls"])
    name_rule = "a name of rio has 1 to 56 letters, digits and signs of ASCII, and no space"
    same(said, [
        f"talk: {folder}/link: it is a link, a pipe or a device",
        f"{folder}/{'n' * 57}: {name_rule}",
        f"{folder}/sub/huge: a file of rio has at most 4292608 bytes",
        f"{folder}/with space: {name_rule}",
        "nothing was copied: move these elsewhere, and import again",
        "0 names",
    ])
    same(status, 1)


def helps(setting):
    """One line's help, and what is said of a line that is none: on the standard error, so that replies stay as they are."""
    lines = ["help read", "help df", "raed /f 0 1", "read /f", "help raed", "sync"]
    status, said, hints = with_errors(FAKE, setting.script("ok", "err 1", "err 1", "ok"), lines)
    same((status, said), (1, [
        "read PATH OFF LEN", "    answers up to LEN bytes of a file from byte OFF on",
        "df", "    shows how many blocks and inodes are used and free",
        "err 1  bad request", "err 1  bad request", "there is no line raed: is read meant? help read tells its form", "ok"]))
    same(hints, [
        "talk: line 3: there is no line raed: is read meant? help read tells its form",
        "talk: line 4: its form is: read PATH OFF LEN",
        "talk: 2 of 6 lines refused, first line 3: raed /f 0 1"])


def batches(setting):
    """The lines of a file, of which those that are refused are counted; empty ones are lines of the file too."""
    files, name = setting.pair(), setting.path("lines")
    with open(name, "w", encoding="ascii") as file:
        file.write("create /a\n\ncreate /a\nstat /b\nls")
    wanted = ["ok 2", "err 3  exists", "err 2  not found", "a"]
    counted = "talk: 2 of 4 lines refused, first line 3: create /a"
    same(with_errors(setting.program, files, ["create /c"], "-f", name), (1, wanted, [counted]))
    same(with_errors(setting.program, files, ["ls"]), (0, ["a"], []))
    same(with_errors(setting.program, files, [], "-f", name + "none")[:2], (1, []))


def advised(setting):
    """Where rio ends by itself a line tells what to do, on the standard error."""
    image, disk = setting.pair()
    missing = setting.path("missing")
    line = "talk: look at the name; where there is no pair yet, rio format makes one"
    same(with_errors(setting.program, (missing, disk), ["ls"]), (7, [f"no such file: {missing}"], [line]))
    stopped = "talk: the machine has stopped as in a crash: what was answered is kept, talk again"
    same(with_errors(setting.program, (image, disk), ["ls"], "--stop", "0"), (10, ["stopped 0"], [stopped]))
    killed = "talk: rio was killed by signal 9: what was answered is kept in the pair, talk again"
    same(with_errors(FAKE, setting.script("ok", "die"), ["sync", "sync"]), (137, [], [killed]))


def completion(setting):
    """Tab completes lines, paths of rio and folders of the system."""
    files, folder = setting.pair(), setting.path("folder")
    os.makedirs(os.path.join(folder, "inside"))
    with Rio(*files, program=setting.program) as rio:
        rio.mkdir("/mail")
        rio.create("/mail/received-today")
    terminal = Terminal(talk_words(setting.program, files), setting.path("state"))
    terminal.types(b"", b"rio> ")
    terminal.types(b"trun\t", b"truncate ")
    terminal.types(b"/ma\t", b"/mail/")
    terminal.types(b"rec\t", b"received-today ")
    terminal.types(b"7\n", b"ok\r\nrio> ")
    terminal.types(b"stat /mail/received-today\n", b"ok 3 file 7\r\nrio> ")
    terminal.types(b"help tr\t", b"tr")
    terminal.types(b"ee\n", b"shows all that is below a directory, with sizes\r\nrio> ")
    terminal.types(b"import " + os.fsencode(folder) + b"/in\t", b"/inside/")
    terminal.types(b" /mail/new\n", b"0 files, 0 directories, 0 bytes to /mail/new\r\nrio> ")
    terminal.types(b"raed /x\n", b"err 1  bad request\r\ntalk: there is no line raed: is read meant?")
    same(terminal.ends(b"\x04"), 0)


def history(setting):
    """The lines of a talk are there in the next one, after an end by Ctrl-D and by Ctrl-C; where they cannot be kept it is told."""
    files, state = setting.pair(), setting.path("state")
    for end, line in ((b"\x04", b"mkdir /first"), (b"\x03", b"mkdir /second")):
        terminal = Terminal(talk_words(setting.program, files), state)
        terminal.types(b"", b"rio> ")
        terminal.types(line + b"\n", b"ok")
        terminal.ends(end)
    terminal = Terminal(talk_words(setting.program, files), state)
    terminal.types(b"", b"rio> ")
    terminal.types(b"\x10", b"mkdir /second")
    terminal.types(b"\x10", b"first")
    terminal.types(b"\n", b"err 3  exists")
    same(terminal.ends(b"\x04"), 0)
    same(content(os.path.join(state, "rio", "talk_history")).decode().splitlines()[-1], "mkdir /first")
    with open(state + "file", "w", encoding="ascii"):
        pass
    terminal = Terminal(talk_words(setting.program, files), state + "file")
    terminal.types(b"", b"rio> ")
    terminal.types(b"\x04", b"talk: the lines are not kept for the next time: ")
    same(terminal.ends(b""), 0)


def closed_terminal(setting):
    """The terminal is closed: the image is saved, and the lines are kept."""
    files, state = setting.pair(), setting.path("state")
    terminal = Terminal(talk_words(setting.program, files), state)
    terminal.types(b"", b"rio> ")
    terminal.types(b"create /f\n", b"ok 2\r\nrio> ")
    os.close(terminal.screen)
    same(os.waitstatus_to_exitcode(os.waitpid(terminal.pid, 0)[1]), 128 + signal.SIGHUP)
    saved(setting, files)
    same(content(os.path.join(state, "rio", "talk_history")), b"create /f\n")


def progress(setting):
    """At a terminal a line tells how far an import is, and is gone in the end."""
    terminal = Terminal(talk_words(setting.program, setting.pair("large")), setting.path("state"))
    terminal.types(b"", b"rio> ")
    terminal.types(b"import " + os.fsencode(folder_of(setting)) + b" /x\n", b"1 of 2 files, 0.0 of 1.3 MB")
    terminal.types(b"", b"2 files, 2 directories, 1280005 bytes to /x\r\nrio> ")
    same(terminal.ends(b"\x04"), 0)


def parts():
    """The parts, each with what it says of itself."""
    return {
        "shell: lists and trees": lists,
        "shell: what is used and free": use,
        "shell: the same by hand": first_use,
        "shell: folders in and out": folders,
        "shell: a region copied out": region_out,
        "shell: folders that cannot be copied": bad_folders,
        "shell: help and hints": helps,
        "shell: a file of lines": batches,
        "shell: what to do at an end": advised,
        "shell: completion": completion,
        "shell: history": history,
        "shell: a terminal that is closed": closed_terminal,
        "shell: progress": progress,
    }
