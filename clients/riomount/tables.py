"""Tables of the mount, which lie in files of rio, line by line.

The first line is the table's title, with its version. A line that is added is one `write` behind the file's end. Of such a
request a stop leaves all or nothing, since its bytes lie behind the old size. So there is never half a line.

A table is written anew under its name and `.new`, and that is renamed over the old one in one change. So a stop at any moment
leaves the old table or the new one. A `.new` that a stop left behind is removed by the next mount.
"""
from rio import MOST_BYTES, NotFound

from .space import LARGEST_FILE


class WrongTable(Exception):
    """The file is no table of this kind. `path` is its path in rio."""

    def __init__(self, path, title):
        super().__init__(path, title)
        self.path = path
        self.title = title

    def __str__(self):
        return f"{self.path.decode()} does not begin with the line {self.title.decode()!r}"


class TableFull(Exception):
    """The table would be larger than a file can be."""


class LineFile:
    """The lines of a table. `size` is the size of its file, 0 where there is none yet: it is made by the first line."""

    def __init__(self, volume, path, title):
        self._volume = volume
        self._path = path
        self._new_path = path + b".new"
        self._title = title
        self.size = 0

    def read(self):
        """Returns all lines behind the title. It is called once, before any other call."""
        self._remove_new()
        try:
            text = self._volume.read_all(self._path)
        except NotFound:
            return []
        title, *lines = text.split(b"\n")
        if title != self._title or not text.endswith(b"\n"):
            raise WrongTable(self._path, self._title)
        self.size = len(text)
        return lines[:-1]

    def append(self, lines):
        """Adds lines, all of them in one change. Where there is no room for them, nothing is added."""
        text = joined(lines)
        if self.size == 0:
            self.rewrite(lines)
        elif self.size + len(text) > LARGEST_FILE:
            raise TableFull(self._path)
        else:
            self.size = self._volume.write(self._path, self.size, text, self.size)

    def rewrite(self, lines):
        """Makes these the lines of the table, in one change."""
        text = joined([self._title, *lines])
        if len(text) > LARGEST_FILE:
            raise TableFull(self._path)
        self._remove_new()
        self._volume.create(self._new_path)
        for off in range(0, len(text), MOST_BYTES):
            self._volume.write(self._new_path, off, text[off : off + MOST_BYTES], off)
        self._volume.rename(self._new_path, self._path, self._volume.find(self._path))
        self.size = len(text)

    def _remove_new(self):
        left = self._volume.find(self._new_path)
        if left is not None:
            self._volume.unlink(self._new_path, left.size)


def joined(lines):
    return b"".join(line + b"\n" for line in lines)
