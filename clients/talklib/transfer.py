"""Folders of the system copied into rio, and directories of rio copied out, with a line that shows how far it is."""
import collections
import contextlib
import os
import sys
import time

from rio import MOST_BYTES, Exists, is_name

from talklib.paths import below, walk
from talklib.texts import of_them

MOST_FILE_BYTES = 4_292_608
MOST_TOLD = 10
SHOWN_EVERY = 0.1

# What is to be copied into rio: where it is, its path in rio, and the bytes of a file, None of a folder.
Source = collections.namedtuple("Source", "name path size")


class CannotCopy(Exception):
    """Why nothing, or not all, was copied, and what to do."""


class Progress:
    """A line on a terminal that tells how much of how much is copied. Elsewhere nothing is shown."""

    def __init__(self, files, size):
        self._files = files
        self._size = size
        self._done = collections.Counter()
        self._shown_at = 0
        self._is_shown = sys.stderr.isatty()

    def add(self, size):
        """One file more is copied."""
        self._done.update(files=1, size=size)
        if self._is_shown and time.monotonic() - self._shown_at >= SHOWN_EVERY:
            self._shown_at = time.monotonic()
            done, of = self._done["size"] / 1e6, self._size / 1e6
            sys.stderr.write(f"\r{self._done['files']} of {self._files} files, {done:.1f} of {of:.1f} MB\033[K")
            sys.stderr.flush()

    def end(self):
        """Takes the line away."""
        if self._is_shown:
            sys.stderr.write("\r\033[K")
            sys.stderr.flush()


@contextlib.contextmanager
def progress_of(sizes):
    """A Progress for files of these sizes, whose line is gone in the end."""
    progress = Progress(len(sizes), sum(sizes))
    try:
        yield progress
    finally:
        progress.end()


def import_folder(rio, folder, path):
    """Copies what is in a folder into the directory at a path, which is made where it is not there. Files of rio are replaced."""
    sources, troubles = sources_in(folder, path)
    if troubles:
        more = [f"and {len(troubles) - MOST_TOLD} more"] if len(troubles) > MOST_TOLD else []
        raise CannotCopy("\n".join([*troubles[:MOST_TOLD], *more, "nothing was copied: move these elsewhere, and import again"]))
    if path != "/":
        with contextlib.suppress(Exists):
            rio.mkdir(path)
    files = [source for source in sources if source.size is not None]
    with progress_of([source.size for source in files]) as progress:
        for source in sources:
            import_one(rio, source, progress)
    folders = of_them(len(sources) - len(files), "directory", "directories")
    return f"{of_them(len(files), 'file')}, {folders}, {of_them(sum(file.size for file in files), 'byte')} to {path}"


def import_one(rio, source, progress):
    """Copies a file, or makes a directory."""
    if source.size is None:
        with contextlib.suppress(Exists):
            rio.mkdir(source.path)
        return
    with open(source.name, "rb") as file:
        data = file.read(MOST_FILE_BYTES + 1)
    write_whole(rio, source.path, data)
    progress.add(len(data))


def write_whole(rio, path, data):
    """What `rio.write_all` does, with its requests sent together."""
    with rio.batch() as batch:
        made = batch.create(path)
        rest = [batch.truncate(path, len(data))]
        rest += [batch.write(path, at, data[at : at + MOST_BYTES]) for at in range(0, len(data), MOST_BYTES)]
    with contextlib.suppress(Exists):
        made.result()
    for reply in rest:
        reply.result()


def sources_in(folder, path):
    """What a folder has, a folder before what is in it; and what rio cannot hold of it, a line each."""
    sources, troubles = [], []
    with os.scandir(folder) as found:
        entries = sorted(found, key=lambda entry: entry.name)
    for entry in entries:
        trouble = trouble_with(entry)
        if trouble:
            troubles.append(f"{entry.path}: {trouble}")
            continue
        inside = below(path, entry.name)
        is_folder = entry.is_dir(follow_symlinks=False)
        sources.append(Source(entry.path, inside, None if is_folder else entry.stat().st_size))
        if is_folder:
            more, more_troubles = sources_in(entry.path, inside)
            sources += more
            troubles += more_troubles
    return sources, troubles


def trouble_with(entry):
    """Why rio cannot hold what a folder has, or None."""
    if not is_name(os.fsencode(entry.name)):
        return "a name of rio has 1 to 56 letters, digits and signs of ASCII, and no space"
    if not entry.is_dir(follow_symlinks=False) and not entry.is_file(follow_symlinks=False):
        return "it is a link, a pipe or a device"
    if entry.is_file(follow_symlinks=False) and entry.stat().st_size > MOST_FILE_BYTES:
        return f"a file of rio has at most {MOST_FILE_BYTES} bytes"
    return None


def export_directory(rio, path, folder):
    """Copies what is below a directory into a folder, which is made. Of a region the bytes are copied as they are now."""
    items = list(walk(rio, path))
    if os.path.exists(folder) and (not os.path.isdir(folder) or os.listdir(folder)):
        raise CannotCopy(f"{folder} is there already, and not empty: name a new folder")
    os.makedirs(folder, exist_ok=True)
    files = [item for item in items if item.stat.kind != "dir"]
    with progress_of([item.stat.size for item in files]) as progress:
        for item in items:
            export_one(rio, item, os.path.join(folder, os.path.relpath(item.path, path)))
            if item.stat.kind != "dir":
                progress.add(item.stat.size)
    folders = of_them(len(items) - len(files), "directory", "directories")
    return f"{of_them(len(files), 'file')}, {folders}, {of_them(sum(item.stat.size for item in files), 'byte')} to {folder}"


def export_one(rio, item, name):
    """Copies a file or the bytes of a region, or makes a folder."""
    if item.stat.kind == "dir":
        os.mkdir(name)
        return
    with rio.batch() as batch:
        ask = batch.get if item.stat.kind == "region" else batch.read
        places = range(0, item.stat.size, MOST_BYTES)
        pieces = [ask(item.path, at, min(MOST_BYTES, item.stat.size - at)) for at in places]
    with open(name, "xb") as file:
        for piece in pieces:
            file.write(piece.result())
