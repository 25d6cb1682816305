"""What the parts of the test on a mount work with: a mount that is started and ended, and calls on files and tables."""
import contextlib
import errno
import os
import shutil
import signal
import sqlite3
import subprocess
import time

from rio import format_pair
from setting import HERE, Differs, Skipped, same

MOUNT = os.path.join(os.path.dirname(HERE), "mount")
PYTHON = "/usr/bin/python3"
LONGEST = 60
PAUSE = 0.02
UNAVAILABLE = 69
# With a name of this before it, a name is too long for rio.
HOST = "imap-backend-07.mail.eu-west-1.example-hosting.net"
# In nanoseconds since 1970.
SOME_TIME = 1_000_000_123_456_789

# By name: frames, blocks, inodes and scratch pages. Of the small one pages have to leave memory; the other holds them all.
SIZES = {"few frames": (128, 4096, 2048, 1), "all frames": (2048, 2048, 1024, 1)}


def pair_of(setting, size):
    """A fresh pair of one of the sizes."""
    pair = setting.path("image"), setting.path("disk")
    format_pair(*pair, *SIZES[size], program=setting.program)
    return pair


def look_for_python():
    """The script names the system's own Python, which is not on each machine."""
    if not os.path.exists(PYTHON):
        raise Skipped(f"there is no {PYTHON}")


def mount_words(setting, pair, folder):
    return [MOUNT, *pair, folder, "--program", setting.program]


def ended_mount(setting, pair, folder):
    """The status and the lines of a mount that does not begin."""
    look_for_python()
    words = mount_words(setting, pair, folder)
    ended = subprocess.run(words, stdin=subprocess.DEVNULL, capture_output=True, text=True, timeout=LONGEST, check=False)
    if ended.returncode == UNAVAILABLE:
        raise Skipped(ended.stderr.strip().removeprefix("mount: "))
    return ended.returncode, ended.stdout, ended.stderr


def heed_signals():
    """What starts the test may ignore signals, as nohup does, and what is started would too."""
    for number in (signal.SIGHUP, signal.SIGINT, signal.SIGTERM):
        signal.signal(number, signal.SIG_DFL)


class Mounted:
    """A pair that is mounted on `folder`. Where the machine lacks something for it, the part that wants it is skipped."""

    def __init__(self, setting, pair):
        self.folder = setting.path("mounted")
        os.mkdir(self.folder)
        look_for_python()
        words = mount_words(setting, pair, self.folder)
        streams = {"stdin": subprocess.DEVNULL, "stdout": subprocess.PIPE, "stderr": subprocess.PIPE}
        self.process = subprocess.Popen(words, **streams, preexec_fn=heed_signals)
        line = self.process.stdout.readline().decode()
        if line != f"mounted on {self.folder}\n":
            self._give_up(line)

    def _give_up(self, line):
        said = self.process.communicate(timeout=LONGEST)[1].decode()
        if self.process.returncode == UNAVAILABLE:
            raise Skipped(said.strip().removeprefix("mount: "))
        raise Differs(f"the mount says {line!r} and {said!r}, status {self.process.returncode}")

    def server(self):
        """The process of rio: the last child of the mount's children."""
        child, last = self.process.pid, None
        while child:
            last = child
            with open(f"/proc/{child}/task/{child}/children", encoding="ascii") as file:
                child = int((file.read().split() or [0])[0])
        return last

    def end(self):
        """Ends the mount as a user does, and returns its status and what it says on its standard error."""
        began = time.monotonic()
        while subprocess.run(["fusermount", "-u", self.folder], stderr=subprocess.DEVNULL, check=False).returncode != 0:
            if time.monotonic() - began > LONGEST:
                raise Differs(f"{self.folder} is in use")
            time.sleep(PAUSE)
        return self.ended()

    def ended(self):
        """Waits for the mount's own end."""
        said = self.process.communicate(timeout=LONGEST)[1].decode()
        return self.process.returncode, said

    def stop(self):
        """Ends it whatever has happened."""
        if self.process.poll() is None:
            self.process.terminate()
            self.process.communicate(timeout=LONGEST)


@contextlib.contextmanager
def mounted(setting, pair):
    """A mount for a `with` block, which gets its folder. It has to end well."""
    mount = Mounted(setting, pair)
    try:
        yield mount.folder
        same(mount.end(), (0, ""))
    finally:
        mount.stop()


def run(*words, **options):
    """Runs a program of the system, which has to end with status 0, and returns what it prints."""
    if shutil.which(words[0]) is None:
        raise Skipped(f"there is no command {words[0]}")
    ended = subprocess.run(words, stdin=subprocess.DEVNULL, capture_output=True, timeout=LONGEST, check=False, **options)
    if ended.returncode != 0:
        raise Differs(f"{words} ended with status {ended.returncode}: {ended.stderr.decode(errors='replace')}")
    return ended.stdout


def written(path, data=b""):
    with open(path, "wb") as file:
        file.write(data)
    return path


def fails(number, call, *args):
    """Makes a call that has to fail by this errno."""
    try:
        got = call(*args)
    except OSError as error:
        same(errno.errorcode[error.errno], errno.errorcode[number])
    else:
        raise Differs(f"{call.__name__}{args} gave {got!r}")


def fill_base(path, mode, rows):
    """Adds rows to a table, each by a transaction of its own."""
    with contextlib.closing(sqlite3.connect(path)) as base:
        same(base.execute(f"pragma journal_mode = {mode}").fetchone(), (mode,))
        base.execute("create table if not exists t (n integer primary key, text text)")
        base.commit()
        for n in rows:
            base.execute("insert into t values (?, ?)", (n, f"row {n} " * 20))
            base.commit()


def look_at_base(path, count):
    """The table is whole, and has the rows from 0 to below this count."""
    with contextlib.closing(sqlite3.connect(path)) as base:
        same(base.execute("pragma integrity_check").fetchone(), ("ok",))
        same(base.execute("select count(*), min(n), max(n) from t").fetchone(), (count, 0, count - 1))
