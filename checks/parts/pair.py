"""A pair of files in a folder of its own, and runs of the launcher there."""
import collections
import hashlib
import os
import shutil
import subprocess

from parts.terminal import PATIENCE, Terminal

Ended = collections.namedtuple("Ended", "status said told")
Ended.__doc__ = """How a run ended: its status, and what it wrote to the standard output and to the standard error."""

# Frames, blocks, inodes and scratch pages.
SMALL = (64, 256, 64, 1)
FEW_FRAMES = (32, 1024, 96, 1)


def options(sizes):
    """The options of `format` for these numbers."""
    return [f"--{name}={number}" for name, number in zip(("frames", "blocks", "inodes", "scratch"), sizes)]


def run_words(words, folder, environment, lines=""):
    """Runs a program over pipes."""
    done = subprocess.run(
        words,
        cwd=folder,
        env=environment,
        input=lines,
        capture_output=True,
        encoding="utf-8",
        timeout=PATIENCE,
        check=False,
    )
    return Ended(done.returncode, done.stdout, done.stderr)


class Pair:
    """The files `image` and `disk` of a folder, and the launcher that works on them."""

    def __init__(self, launcher, folder):
        self.launcher = launcher
        self.folder = folder
        self.environment = clean_environment()

    def format(self, sizes):
        ended = self.run("format", "image", "disk", *options(sizes))
        if ended.status != 0:
            raise ValueError(f"no pair could be made: {ended}")

    def copy_of(self, other, before=""):
        """Copies the files of another pair to these names, with this before each."""
        for name in ("image", "disk"):
            shutil.copyfile(other.path(name), self.path(before + name))

    def run(self, *words, lines="", launcher=None, **environment):
        """Runs the launcher with these words in the folder, over pipes, and gives these lines as its input."""
        return run_words([launcher or self.launcher, *words], self.folder, {**self.environment, **environment}, lines)

    def serve(self, *lines):
        """What a run on the pair answers to these lines. It has to end well."""
        ended = self.run("serve", "image", "disk", lines="".join(line + "\n" for line in lines))
        if ended.status != 0 or ended.told:
            raise ValueError(f"a run ended with {ended}")
        return ended.said.splitlines()

    def terminal(self, *words, **environment):
        """Runs the launcher with these words in a terminal."""
        return Terminal([self.launcher, *words], self.folder, {**self.environment, **environment})

    def path(self, name):
        return os.path.join(self.folder, name)

    def digests(self):
        """The checksum of each file in the folder, by its name."""
        return {name: digest(self.path(name)) for name in sorted(os.listdir(self.folder))}


def clean_environment():
    """The environment without what the launcher reads of it."""
    return {name: value for name, value in os.environ.items() if name != "RIO_MEMORY"}


def digest(path):
    with open(path, "rb") as file:
        return hashlib.sha256(file.read()).hexdigest()


class Setting:
    """What the rows work with: the launcher, and folders that no row had before. Programs can be run in those below `top`. Those of
    pairs are below `quick`, since the sync of a busy disk may take seconds."""

    def __init__(self, launcher, top, quick):
        self.launcher = launcher
        self._top = top
        self._quick = quick
        self._made = 0
        self._fresh = {}

    def folder(self):
        """An empty folder."""
        return self._folder(self._top)

    def pair(self, sizes=SMALL):
        """A fresh pair in a folder of its own."""
        pair = Pair(self.launcher, self._folder(self._quick))
        pair.copy_of(self.fresh(sizes))
        return pair

    def fresh(self, sizes=SMALL):
        """The pair of this size that the others are copied from."""
        if sizes not in self._fresh:
            made = Pair(self.launcher, self._folder(self._quick))
            made.format(sizes)
            self._fresh[sizes] = made
        return self._fresh[sizes]

    def _folder(self, top):
        self._made += 1
        made = os.path.join(top, f"row{self._made}")
        os.mkdir(made)
        return made


def quick_top():
    """Where the files of pairs are made: in memory, where the system has such a folder and no other is named."""
    shared = "/dev/shm"
    return shared if "TMPDIR" not in os.environ and os.access(shared, os.W_OK) else None
