"""Runs of the program: lines go in, replies come out, and at a moment the program is killed."""
import os
import select
import signal
import subprocess
import time
from dataclasses import dataclass
from typing import List, Optional, Sequence, Tuple

from .state import Shape

# How long nothing may come from a run that is waited for, in seconds.
PATIENCE = 30.0

MOST_TAKEN = 1 << 16


class Ended(Exception):
    """The program has ended or says nothing where a reply was waited for."""


@dataclass(frozen=True)
class Moment:
    """When a run is killed: as soon as any of these that is named has come.

    How many bytes of replies were taken; how many bytes of input were written, of which no more are, and then so many
    seconds; or how many seconds went by since the first one was written.
    """

    replied_bytes: Optional[int] = None
    written_bytes: Optional[int] = None
    seconds: Optional[float] = None

    def follows_input(self) -> bool:
        """Whether its seconds are those since the last byte of input."""
        return self.written_bytes is not None

    def seconds_from_start(self) -> float:
        """The most seconds from the first byte on."""
        return PATIENCE if self.seconds is None or self.follows_input() else self.seconds


class Pair:
    """An image and a disk in a folder, and the program that serves them."""

    def __init__(self, program: str, folder: str):
        self.program = program
        self.files = [os.path.join(folder, name) for name in ("image", "disk")]

    def run(self, command: str, *options: str) -> Tuple[int, str]:
        """The status of a command on both files that reads no input, and what it prints."""
        ran = subprocess.run([self.program, command, *self.files, *options], stdin=subprocess.DEVNULL, stdout=subprocess.PIPE,
                             text=True, check=False)
        return ran.returncode, ran.stdout.rstrip("\n")

    def format(self, shape: Shape) -> None:
        sizes = {"frames": shape.frames, "blocks": shape.blocks, "inodes": shape.inodes, "scratch": 1}
        status, said = self.run("format", *(word for name, size in sizes.items() for word in (f"--{name}", str(size))))
        if status != 0:
            raise Ended(f"format ends with status {status}: {said}")

    def serve(self) -> "Run":
        return Run([self.program, "serve", *self.files])


class Run:
    """A run of `serve`."""

    def __init__(self, words: Sequence[str]):
        self.process = subprocess.Popen(words, stdin=subprocess.PIPE, stdout=subprocess.PIPE, bufsize=0)
        self.input = self.process.stdin.fileno()
        self.output = self.process.stdout.fileno()
        os.set_blocking(self.input, False)
        os.set_blocking(self.output, False)
        # What was written to it, as a number of bytes, and what came back, since the last `exchange` began.
        self.written = 0
        self.taken = bytearray()

    def _take(self) -> bool:
        """Takes what has come. False where no more will."""
        piece = os.read(self.output, MOST_TAKEN)
        self.taken += piece
        return bool(piece)

    def _write(self, data: memoryview) -> None:
        """Writes as much as the pipe takes."""
        try:
            self.written += os.write(self.input, data)
        except BlockingIOError:
            pass
        except BrokenPipeError as error:
            raise Ended("the program ended before it took its input") from error

    def _wait(self, left: memoryview, seconds: float) -> bool:
        """Waits until a piece can be written or taken, and does that. False where no more comes; nothing may have come."""
        writes = [self.input] if left else []
        readable, writable, _ = select.select([self.output], writes, [], max(seconds, 0.0))
        if writable:
            self._write(left)
        return self._take() if readable else True

    def ask(self, lines: Sequence[str]) -> List[str]:
        """Sends all lines, and gives their replies."""
        data = memoryview("".join(line + "\n" for line in lines).encode())
        self.written, self.taken = 0, bytearray()
        last = time.monotonic()
        while self.taken.count(b"\n") < len(lines):
            before = self.written, len(self.taken)
            if not self._wait(data[self.written :], PATIENCE):
                raise Ended(f"the program ended with status {self.process.wait()}: {self.last_line()}")
            now = time.monotonic()
            last = now if before != (self.written, len(self.taken)) else last
            if now - last > PATIENCE:
                raise Ended(f"no reply in {PATIENCE:.0f} s")
        return self.taken.decode().splitlines()

    def exchange(self, data: bytes, replies: int, moment: Moment) -> None:
        """Writes the data and takes replies until the moment has come, or so many bytes of replies, which are all."""
        self.written, self.taken = 0, bytearray()
        left = memoryview(data)[: moment.written_bytes]
        due = replies if moment.replied_bytes is None else moment.replied_bytes
        end = time.monotonic() + moment.seconds_from_start()
        is_timed = not moment.follows_input()
        while len(self.taken) < due:
            if not is_timed and self.written == len(left):
                end, is_timed = time.monotonic() + moment.seconds, True
            if time.monotonic() >= end or not self._wait(left[self.written :], end - time.monotonic()):
                return

    def kill(self) -> Optional[int]:
        """Kills the program, and takes what it wrote. Tells the status where it had ended by itself."""
        self.process.send_signal(signal.SIGKILL)
        status = self._finish()
        return None if status == -signal.SIGKILL else status

    def end_input(self) -> None:
        self.process.stdin.close()

    def end(self) -> int:
        """Ends the input, and waits for the program's status."""
        self.end_input()
        return self._finish()

    def _finish(self) -> int:
        """Takes all that still comes, and waits for the program's status."""
        os.set_blocking(self.output, True)
        while self._take():
            pass
        status = self.process.wait()
        self.process.stdin.close()
        self.process.stdout.close()
        return status

    def last_line(self) -> str:
        """The last line that came."""
        return self.taken.decode(errors="replace").rstrip("\n").rpartition("\n")[2]
