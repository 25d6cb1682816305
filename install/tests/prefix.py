"""Folders that rio is installed below, and what stands there."""
import os

from parts.pair import clean_environment, run_words


def run(words, folder=None, lines="", **environment):
    """Runs a program over pipes, with these settings of the environment, and tells its status and what it wrote."""
    return run_words(words, folder, {**clean_environment(), **environment}, lines)


def names_below(folder):
    """All files, links and folders below a folder, by their paths from there."""
    found = []
    for place, folders, files in os.walk(folder):
        found += [os.path.relpath(os.path.join(place, name), folder) for name in folders + files]
    return sorted(found)


class Setting:
    """The checkout, folders that no row had before, and a prefix that rio is installed below once for all rows that only look."""

    def __init__(self, top, folder):
        self.top = top
        self._folder = folder
        self._made = 0
        self.prefix = os.path.join(folder, "the prefix")
        installed = self.make("install", PREFIX=self.prefix)
        if installed.status != 0:
            raise ValueError(f"make install failed: {installed.told.strip()}")

    def make(self, target, **values):
        """Calls make in the checkout."""
        return run(["make", "-s", "-C", self.top, target, *[f"{name}={value}" for name, value in values.items()]])

    def folder(self):
        """An empty folder."""
        self._made += 1
        made = os.path.join(self._folder, f"row {self._made}")
        os.mkdir(made)
        return made

    def path(self, name):
        """A path below the prefix."""
        return os.path.join(self.prefix, name)

    def search_path(self):
        """The search path of a person who has the prefix in it."""
        return self.path("bin") + os.pathsep + os.environ["PATH"]
