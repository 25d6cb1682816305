"""A program that runs in a pseudo-terminal of its own, and what a person does there: typing, pressing keys, closing it."""
import fcntl
import os
import select
import signal
import subprocess
import termios
import time

CTRL_C = "\x03"
CTRL_D = "\x04"
CTRL_BACKSLASH = "\x1c"

# What a step waits for at most, in seconds. It is far above what any takes on a busy machine.
PATIENCE = 60


class NoAnswer(Exception):
    """What was waited for did not come."""


def quiet(terminal):
    """Turns off the echo of what is typed, and the change of line ends, so that what is read is what the program writes. Keys
    that send signals, and lines that are sent when they end, stay."""
    settings = termios.tcgetattr(terminal)
    settings[1] &= ~termios.OPOST
    settings[3] &= ~termios.ECHO
    termios.tcsetattr(terminal, termios.TCSANOW, settings)


def take_terminal():
    """Makes the standard input the terminal of this session, whose signals do what they do by default."""
    for number in (signal.SIGINT, signal.SIGHUP, signal.SIGQUIT):
        signal.signal(number, signal.SIG_DFL)
    fcntl.ioctl(0, termios.TIOCSCTTY, 0)


class Terminal:
    """A program with a terminal as its standard input, output and error. It leads a session there, as the first program of
    a terminal window does: keys send their signals to it, and so does the closing of the terminal."""

    def __init__(self, words, folder, environment=None):
        self._ours, theirs = os.openpty()
        quiet(theirs)
        self.program = subprocess.Popen(
            words,
            cwd=folder,
            env=environment,
            stdin=theirs,
            stdout=theirs,
            stderr=theirs,
            start_new_session=True,
            preexec_fn=take_terminal,
        )
        os.close(theirs)
        self._read = b""

    def __enter__(self):
        return self

    def __exit__(self, *_error):
        if self.program.poll() is None:
            self.program.send_signal(signal.SIGKILL)
        self.program.wait()
        self.close()

    def type(self, text):
        """Types a text, of which a line has at most 4,095 letters."""
        left = text.encode()
        while left:
            left = left[os.write(self._ours, left) :]

    def line(self):
        """The next line that the program writes, without its end."""
        until = time.monotonic() + PATIENCE
        while b"\n" not in self._read:
            if not self._read_some(until):
                raise NoAnswer(f"no line came, but {self._read!r}")
        line, _, self._read = self._read.partition(b"\n")
        return line.decode()

    def rest(self):
        """All that the program writes until it ends, behind the lines that were asked for."""
        until = time.monotonic() + PATIENCE
        while self._read_some(until):
            pass
        written, self._read = self._read, b""
        return written.decode()

    def _read_some(self, until):
        """Reads what there is, or waits for it. False says that no more comes."""
        ready, _, _ = select.select([self._ours], [], [], max(0, until - time.monotonic()))
        if not ready:
            raise NoAnswer(f"nothing came in {PATIENCE} s behind {self._read!r}")
        try:
            some = os.read(self._ours, 65536)
        except OSError:
            return False
        self._read += some
        return bool(some)

    def close(self):
        """Closes the terminal, as a person closes its window. It may be called again."""
        if self._ours is not None:
            os.close(self._ours)
        self._ours = None

    def status(self):
        """Waits for the end, and gives the status, or the number of the signal that ended it as a number below 0."""
        try:
            return self.program.wait(PATIENCE)
        except subprocess.TimeoutExpired:
            raise NoAnswer(f"the program has not ended in {PATIENCE} s") from None
