"""Runs of the program under valgrind, and by the clock."""
import os
import re
import subprocess
import time

from .streams import PAGE_BYTES

# No copy and no clearing is long enough for a string instruction.
BY_LOOPS = "glibc.cpu.x86_rep_movsb_threshold=1000000000:glibc.cpu.x86_rep_stosb_threshold=1000000000"

# What valgrind tells of a call of fsync, and of one of write or pwrite: the stream, and how many bytes.
SYNC = re.compile(r"sys_fsync \(")
WRITE = re.compile(r"sys_p?write(?:64)? \( (\d+), \w+, (\d+)[ ,]")


class Counts:
    """What a run took: instructions, syncs, blocks that went to the disk, and writes that are no replies and their bytes. All but the
    first only where calls are told."""

    def __init__(self, told):
        collected = [line for line in told.splitlines() if "Collected" in line]
        self.instructions = int(collected[-1].split(":")[1]) if collected else 0
        self.syncs = len(SYNC.findall(told))
        sizes = [int(count) for stream, count in WRITE.findall(told) if stream != "1"]
        self.blocks = sizes.count(PAGE_BYTES)
        self.writes, self.bytes = len(sizes), sum(sizes)


class Program:
    """The program that is measured, and whether its memory is held in the image."""

    def __init__(self, path, is_held):
        self.path, self.is_held = path, is_held

    def fresh_pair(self, pair):
        """Makes the files that are served, in the working folder."""
        subprocess.run([self.path, "format", "image", "disk", *pair], stdout=subprocess.DEVNULL, check=True)

    def counted_run(self, path, pair, tells_calls):
        self.fresh_pair(pair)
        counted = subprocess.run(
            ["valgrind", "--tool=callgrind", "--callgrind-out-file=/dev/null", f"--trace-syscalls={'yes' if tells_calls else 'no'}",
             self.path, "serve", "image", "disk"],
            stdin=open(path, "rb"), stdout=subprocess.DEVNULL, stderr=subprocess.PIPE, text=True, errors="replace",
            env={**os.environ, "GLIBC_TUNABLES": BY_LOOPS})
        return Counts(counted.stderr)

    def refused_lines(self, path, pair):
        """How many lines of the stream are answered by a refusal or a fault."""
        self.fresh_pair(pair)
        served = subprocess.run([self.path, "serve", "image", "disk"], stdin=open(path, "rb"), stdout=subprocess.PIPE)
        return sum(reply.startswith(b"err") for reply in served.stdout.splitlines())

    def seconds(self, path, pair):
        """How long a run takes that reads its lines from a file."""
        self.fresh_pair(pair)
        with open(path, "rb") as source:
            began = time.monotonic()
            subprocess.run([self.path, "serve", "image", "disk"], stdin=source, stdout=subprocess.DEVNULL, check=True)
            return time.monotonic() - began
