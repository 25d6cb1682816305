"""A program on two pipes: requests go to it and replies come from it in the same order, with several under way at once.

What is under way is bounded: at most some MOST_QUEUED requests, or MOST_QUEUED_BYTES of them and one more, are kept before they are
sent, and at most MOST_AWAITED wait for their replies when more are taken. While requests are sent replies are read, so the two
never wait for each other with both pipes full.
"""
import collections
import contextlib
import os
import select
import subprocess

from rio_lines import is_reply, last_line
from rio_refusals import CutOff, Ended

MOST_QUEUED = 512
MOST_QUEUED_BYTES = 65_536
MOST_AWAITED = 512
# Room for a read, of which most is given back at once: more than this the system would map anew each time.
PIECE = 65_536

End = collections.namedtuple("End", "status last_line")


class Pipes:
    """The program of these words, which serves.

    A request is queued with a receiver, whose `receive` gets the reply without its line end. Where the program has ended, the call
    in which that is found raises `Ended`, and so does each later one; `end` tells it then.
    """

    def __init__(self, words):
        self.end = None
        self.told = False
        self._queued = collections.deque()
        self._queued_bytes = 0
        self._awaited = collections.deque()
        self._pieces = []
        self._busy = False
        self._halfway = False
        self._over = False
        self._finishing = False
        self._program = subprocess.Popen(
            words, stdin=subprocess.PIPE, stdout=subprocess.PIPE, bufsize=0, start_new_session=True
        )
        self._into = self._program.stdin.fileno()
        self._out = self._program.stdout.fileno()
        os.set_blocking(self._into, False)
        self._ready = select.poll()
        self._ready.register(self._into, select.POLLOUT)
        self._ready.register(self._out, select.POLLIN)

    @property
    def serves(self):
        """Whether a request can be made: the program was not found ended, and no call was cut off."""
        return self.end is None and not self._busy

    def queue(self, line, receiver):
        """Takes a line, told with its end, which is sent later, or now where there are many."""
        self._demand()
        self._queued.append((line, receiver))
        self._queued_bytes += len(line)
        if self._queued_bytes > MOST_QUEUED_BYTES or len(self._queued) >= MOST_QUEUED:
            self.exchange(MOST_AWAITED)

    def exchange(self, most_awaited=0):
        """Sends all that is queued, and reads replies until at most so many are awaited."""
        self._demand()
        # An exception from here on leaves it so: no reply could be told from another one's.
        self._busy = True
        self._send(self._unqueued())
        while len(self._awaited) > most_awaited and not self._over:
            self._receive()
        if self._over:
            self._finish()
            self.told = True
            raise Ended(*self.end)
        self._busy = False

    def close(self):
        """Sends what is queued, ends the input, waits for the program, and returns how it ended."""
        if self.serves:
            with contextlib.suppress(Ended):
                self.exchange()
        if self.end is None:
            self._finish()
        self.told = True
        return self.end

    def _demand(self):
        """Raises what a request has to raise where none can be made."""
        if self.end is not None:
            raise Ended(*self.end)
        if self._busy:
            raise CutOff("an earlier call was cut off: only close is left")

    def _unqueued(self):
        """The bytes of all queued lines, whose receivers are awaited from now on."""
        lines = [line for line, _ in self._queued]
        self._awaited.extend(receiver for _, receiver in self._queued)
        self._queued.clear()
        self._queued_bytes = 0
        return b"".join(lines)

    def _send(self, data):
        """Writes the data whole, and reads what comes meanwhile. Where the program has ended nobody takes it."""
        left = memoryview(data)
        self._halfway = True
        while left and not self._over:
            try:
                left = left[os.write(self._into, left) :]
            except BlockingIOError:
                self._await_room()
            except BrokenPipeError:
                break
        self._halfway = False

    def _await_room(self):
        """Waits until more can be written, and reads where something has come."""
        if any(pipe == self._out for pipe, _ in self._ready.poll()):
            self._receive()

    def _receive(self):
        """Reads what has come, or waits for it, and gives each whole line to the receiver that waits for it."""
        data = self._read()
        self._over = not data
        if b"\n" not in data or self._finishing:
            return
        *lines, rest = b"".join(self._pieces).split(b"\n")
        self._pieces = [rest]
        self._give(lines)

    def _read(self):
        """Reads a piece of what the program writes; b'' at its end."""
        data = os.read(self._out, PIECE)
        self._pieces.append(data)
        return data

    def _give(self, lines):
        """Gives lines to their receivers, up to the first that is no reply, which belongs to the program's end."""
        for at, line in enumerate(lines):
            if not self._awaited or not is_reply(line):
                self._over = True
                self._pieces = [b"\n".join([*lines[at:], *self._pieces])]
                return
            self._awaited.popleft().receive(line)

    def _finish(self):
        """Ends the input and waits for the program. What it writes meanwhile is no reply that somebody waits for."""
        self._finishing = True
        if self._halfway:
            # The front of a line might be a request too; a byte 0 is in none.
            self._send(b"\0\n")
        self._program.stdin.close()
        while self._read():
            continue
        self.end = End(self._program.wait(), last_line(b"".join(self._pieces)))
        self._program.stdout.close()
