"""The machine that is measured on: its processor, its file systems, and the programs that are there."""
import os
import platform
import subprocess
import sys
from collections import namedtuple

HERE = os.path.dirname(os.path.dirname(os.path.dirname(os.path.abspath(__file__))))
IN_MEMORY = "/dev/shm"
MEMORY_KINDS = ("tmpfs", "ramfs")

# A memory that rio serves from: its name, the crate of its program, the variable that names another program, what it outlasts.
Memory = namedtuple("Memory", "name crate variable outlasts")
HELD = Memory("held memory", "rio_held", "RIO_HELD", "the end of a run, a kill (note 1)")
PLAIN = Memory("plain memory", "rio", "RIO", "the end of a run (note 1)")
USAGE = b"usage: rio format"


def file_system(folder):
    """The kind of the file system that a folder lies on, and what it is mounted from."""
    folder, found = os.path.realpath(folder), ("", "unknown", "unknown")
    try:
        with open("/proc/self/mounts") as mounts:
            rows = [line.split() for line in mounts]
    except OSError:
        rows = []
    for source, place, kind, *_ in rows:
        inside = folder == place or folder.startswith(place.rstrip("/") + "/")
        if inside and len(place) >= len(found[0]):
            found = place, kind, source
    return found[1:]


def processor():
    """The processor's name, as the kernel tells it."""
    try:
        with open("/proc/cpuinfo") as lines:
            names = [line.split(":", 1)[1].strip() for line in lines if line.startswith("model name")]
    except OSError:
        names = []
    return names[0] if names else platform.processor() or platform.machine()


def memory_folder():
    """A folder in memory that can be written to, or None."""
    is_there = os.path.isdir(IN_MEMORY) and os.access(IN_MEMORY, os.W_OK) and file_system(IN_MEMORY)[0] in MEMORY_KINDS
    return IN_MEMORY if is_there else None


def is_rio(program):
    """Whether a program answers no words at all as rio does. One that cannot be started does not."""
    try:
        said = subprocess.run([program, "serve"], stdin=subprocess.DEVNULL, stdout=subprocess.PIPE)
    except OSError:
        return False
    return said.returncode == 2 and said.stdout.startswith(USAGE)


def build():
    """Has ./rio prove and build what is missing or older than a source."""
    subprocess.run([os.path.join(HERE, "rio"), "serve"], stdin=subprocess.DEVNULL, stdout=subprocess.DEVNULL)


def program_of(memory):
    """The path of the program of a memory, which a variable may name, or None where this checkout has none."""
    named = os.environ.get(memory.variable)
    if named:
        if not is_rio(os.path.abspath(named)):
            sys.exit(f"compare: {named}, which {memory.variable} names, is not the program")
        return os.path.abspath(named)
    built = os.path.join(HERE, "crates", memory.crate, "out", memory.crate)
    return built if is_rio(built) else None
