"""The parts of the test on talk."""
import os
import pty
import select
import signal
import subprocess
import sys
import time

from rio import Census, Rio
from setting import FAKE, HERE, LONGEST, Differs, content, refused_pairs, same

TALK = os.path.join(os.path.dirname(HERE), "talk")


def talk_words(program, files, *options):
    return [sys.executable, TALK, *files, "--program", program, *options]


def talked(program, files, lines, *options):
    """Talks these lines over a pipe, and returns the status and the lines that come back."""
    words = talk_words(program, files, *options)
    said = {"stdout": subprocess.PIPE, "stderr": subprocess.DEVNULL}
    ended = subprocess.run(words, input="\n".join(lines).encode(), **said, timeout=LONGEST, check=False)
    return ended.returncode, ended.stdout.decode().splitlines()


def refused_words(program, files, *options):
    """The status of talk where it begins nothing, what it prints, and whether it says why on the standard error."""
    words = talk_words(program, files, *options)
    ended = subprocess.run(words, stdin=subprocess.DEVNULL, capture_output=True, timeout=LONGEST, check=False)
    return ended.returncode, ended.stdout, ended.stderr != b""


def answers(setting):
    """Rio's own lines: as rio answers them, with names beside refusals and text beside bytes."""
    rows = [
        ("create /notes", "ok 2"),
        ("write /notes 0 68656c6c6f20776f726c64", "ok 11"),
        ("read /notes 0 100", 'ok 68656c6c6f20776f726c64  "hello world"'),
        ("read /notes 11 1", "ok "),
        ("write /notes 5 00", "ok 1"),
        ("read /notes 4 3", "ok 6f0077"),
        ("read /missing 0 1", "err 2  not found"),
        ("create /notes", "err 3  exists"),
        ("put /r 0", "err 1  bad request"),
        ("get /r 0", "err 1  bad request"),
        ("write /notes 0 hello", "err 1  bad request"),
        ("HELP", "err 1  bad request"),
        ("region /bank 1 1", "ok 3"),
        ("put /bank 0 0000000000000000", "err 14  no transaction"),
        ("begin /bank", "ok"),
        ("txns", "ok 1 3"),
        ("list /", "ok 2 bank notes"),
        ("wild 512 0000000000000000", "trapped 512"),
    ]
    files = setting.pair()
    same(talked(setting.program, files, [line for line, _ in rows]), (10, [reply for _, reply in rows]))
    same(talked(setting.program, files, ["", "txns", "", "get /bank 0 8"]), (0, ["ok 0", "ok 0000000000000000"]))


def own_lines(setting):
    """The lines that are talk's alone, and whole files."""
    there, back = setting.path("file"), setting.path("file")
    data = bytes(range(256)) * 400
    with open(there, "wb") as file:
        file.write(data)
    spaced = setting.path("my notes")
    rows = [
        ('write /notes "hello\\n\\tit\'s \\"x\\\\y\\x21\\""', "18 bytes to /notes"),
        ("read /notes 0 100", 'ok 68656c6c6f0a09697427732022785c792122  "hello\\n\\tit\'s \\"x\\\\y!\\""'),
        ('write /notes 0 "J"', "ok 1"),
        ("get /notes", "Jello"), (None, "\tit's \"x\\y!\""),
        (f'get /notes "{spaced}"', f"18 bytes to {spaced}"),
        (f'put "{spaced}" /copy', "18 bytes to /copy"),
        ("stat /copy", "ok 3 file 18"),
        (f"put {there} /large", "102400 bytes to /large"),
        (f"get /large {back}", f"102400 bytes to {back}"),
        (f"put {there} large", "err 1  bad request"),
        (f"put {there}.none /x", f"talk: [Errno 2] No such file or directory: '{there}.none'"),
        (f"put {there} /large/", "talk: no path: b'/large/'"),
        (f"get /missing {back}", "err 2  not found"),
        ("get /missing", "err 2  not found"),
        ('write /none/f "text"', "err 2  not found"),
        ('write /f 0 "text', "err 1  bad request"),
        ("region /bank 1 1", "ok 5"), ("begin /bank", "ok"), ("range /bank 0 8", "ok"),
        ('put /bank 0 "12345678"', "ok 8"), ("get /bank 0 8", 'ok 3132333435363738  "12345678"'),
        ('put /bank 8 "12345678"', "err 15  not covered"),
        ("truncate /notes 0", "ok"), ("get /notes", "0 bytes"),
        ('write /notes "\\xff"', "1 bytes to /notes"), ("get /notes", "ff"),
    ]
    lines = [line for line, _ in rows if line is not None]
    same(talked(setting.program, setting.pair(), lines), (1, [reply for _, reply in rows]))
    same(content(back) == data, True)
    same(content(spaced), b"Jello\n\tit's \"x\\y!\"")


def helps(setting):
    status, said = talked(FAKE, setting.script(), ["help"])
    same((status, said[0][:15], len(said) > 15), (0, "Talks with rio:", True))


def faults(setting):
    script = setting.script("ok", "err 30 4", "ok 2", "ok", "err 30 7", "err 31", "err 99", "exit 8 source fault")
    lines = ["write /f 0 00", 'write /f "12345678"', "sync", "sync", "sync", "sync"]
    wanted = ["err 30 4  device fault", "err 30 7  device fault", "err 31  no memory", "err 99  unknown", "source fault"]
    same(talked(FAKE, script, lines), (8, wanted))


def ends(setting):
    """A pair that is refused, a stop and a killed program: each is told at once."""
    for image, disk, status, line in refused_pairs(setting)[::2]:
        same(talked(setting.program, (image, disk), ["list /"]), (status, [line]))
    same(talked(setting.program, setting.pair(), ["list /"], "--stop", "0"), (10, ["stopped 0"]))
    same(talked(FAKE, setting.script("ok", "die"), ["sync", "sync"]), (137, []))
    same(refused_words("/nowhere/rio", setting.script()), (1, b"", True))
    same(refused_words(FAKE, setting.script(), "--stop", "x"), (2, b"", True))


def started(setting, files, **streams):
    """Talk over pipes, once it has answered that a file was made."""
    words = talk_words(setting.program, files)
    talk = subprocess.Popen(words, stdin=subprocess.PIPE, stdout=subprocess.PIPE, **streams)
    talk.stdin.write(b"create /f\n")
    talk.stdin.flush()
    same(talk.stdout.readline(), b"ok 2\n")
    return talk


def saved(setting, files):
    """Whether the image has the file that `started` made."""
    same(setting.settled(files), Census(1, 1, 0, 1, 251))


def signals(setting):
    """Each of the signals ends it, with the image saved and nothing printed."""
    for number in (signal.SIGINT, signal.SIGTERM, signal.SIGHUP):
        files = setting.pair()
        talk = started(setting, files, stderr=subprocess.PIPE)
        talk.send_signal(number)
        said = talk.communicate(timeout=LONGEST)
        same((talk.returncode, said), (128 + number, (b"", b"")))
        saved(setting, files)


def unread(setting):
    """Nobody reads what it writes any more."""
    files = setting.pair()
    talk = started(setting, files, stderr=subprocess.PIPE)
    talk.stdout.close()
    talk.stdin.write(b"sync\nsync\n")
    talk.stdin.flush()
    same(talk.stderr.read(), b"")
    same(talk.wait(timeout=LONGEST), 128 + signal.SIGPIPE)
    talk.stdin.close()
    talk.stderr.close()
    saved(setting, files)


def killed(setting):
    """It is killed: rio meets the end of its input, and saves."""
    files = setting.pair()
    talk = started(setting, files)
    talk.kill()
    talk.communicate(timeout=LONGEST)
    saved(setting, files)


class Terminal:
    """A terminal of its own that runs talk, which keeps its lines in a folder for state."""

    def __init__(self, words, state):
        self.pid, self.screen = pty.fork()
        if self.pid == 0:
            os.environ["TERM"] = "dumb"
            os.environ["XDG_STATE_HOME"] = state
            os.execv(words[0], words)
        self.seen = b""

    def types(self, keys, wanted):
        """Types keys, and waits until this is on the screen."""
        os.write(self.screen, keys)
        self.seen = b""
        limit = time.monotonic() + LONGEST
        while wanted not in self.seen:
            if not select.select([self.screen], [], [], max(0, limit - time.monotonic()))[0]:
                raise Differs(f"the terminal shows {self.seen!r}, wanted {wanted!r}")
            try:
                self.seen += os.read(self.screen, 4096)
            except OSError as error:
                raise Differs(f"the terminal was left with {self.seen!r}, wanted {wanted!r}") from error

    def ends(self, keys):
        """Types keys until it ends, and returns the status. A Ctrl-C that comes just as the prompt is shown may be passed over."""
        for _ in range(LONGEST):
            os.write(self.screen, keys)
            limit = time.monotonic() + 1
            while time.monotonic() < limit:
                pid, status = os.waitpid(self.pid, os.WNOHANG)
                if pid:
                    os.close(self.screen)
                    return os.waitstatus_to_exitcode(status)
                time.sleep(0.02)
        raise Differs(f"it goes on after {keys!r}")


def terminals(setting):
    """At a terminal: a prompt, and an end by Ctrl-D or by Ctrl-C, which reaches all that the terminal runs in front."""
    for keys, status in ((b"\x04", 0), (b"\x03", 130), (b"sync\x03", 130)):
        files = setting.pair()
        terminal = Terminal(talk_words(setting.program, files), setting.path("state"))
        terminal.types(b"", b"rio> ")
        terminal.types(b"create /f\n", b"ok 2")
        terminal.types(b"create /f\n", b"err 3  exists\r\nrio> ")
        same(terminal.ends(keys), status)
        saved(setting, files)


def script_of_rio(setting):
    """A whole script, as rio reads it, leaves what a client finds afterwards."""
    files = setting.pair()
    same(talked(setting.program, files, ["mkdir /mail", "create /mail/in.tmp", "rename /mail/in.tmp /mail/in"])[0], 0)
    with Rio(*files, program=setting.program) as rio:
        same(rio.list("/mail"), ["in"])


def parts():
    """The parts, each with what it says of itself."""
    return {
        "talk: rio's own lines": answers,
        "talk: its own lines, and whole files": own_lines,
        "talk: help": helps,
        "talk: faults": faults,
        "talk: ends": ends,
        "talk: what a script leaves": script_of_rio,
        "talk: signals": signals,
        "talk: an output that nobody reads": unread,
        "talk: a kill": killed,
        "talk: a terminal": terminals,
    }
