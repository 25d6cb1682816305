"""The line that is typed: kept over sessions, and completed by Tab from lines, paths of rio and files of the system."""
import contextlib
import os
import signal
import sys

from rio import RioError

from talklib.pages import PAGES
from talklib.paths import below

try:
    import readline
except ImportError:
    readline = None

MOST_LINES = 1000
SIGNALS = {signal.SIGINT, signal.SIGTERM, signal.SIGHUP}


def history_file():
    """Where the lines of earlier sessions are."""
    home = os.environ.get("XDG_STATE_HOME") or os.path.join(os.path.expanduser("~"), ".local", "state")
    return os.path.join(home, "rio", "talk_history")


@contextlib.contextmanager
def editing(rio):
    """A block in which a typed line is edited: with history and completion, where Python has readline."""
    if readline is None:
        yield
        return
    name = history_file()
    with contextlib.suppress(OSError):
        readline.read_history_file(name)
    readline.set_completer_delims(" ")
    readline.set_completer(Completer(rio).match)
    is_libedit = "libedit" in (readline.__doc__ or "")
    readline.parse_and_bind("bind ^I rl_complete" if is_libedit else "tab: complete")
    try:
        yield
    finally:
        readline.set_completer(None)
        keep_history(name)


def keep_history(name):
    """Writes the lines for the next session, the last MOST_LINES of them."""
    readline.set_history_length(MOST_LINES)
    try:
        os.makedirs(os.path.dirname(name), mode=0o700, exist_ok=True)
        readline.write_history_file(name)
    except OSError as error:
        print(f"talk: the lines are not kept for the next time: {name}: {error.strerror}", file=sys.stderr)


class Completer:
    """What a word that is begun may become."""

    def __init__(self, rio):
        self._rio = rio
        self._found = []

    def match(self, text, count):
        """The match of this count, or None: as readline asks."""
        if count == 0:
            before = readline.get_line_buffer()[: readline.get_begidx()].split()
            # A signal in the middle of a request would be lost in readline, and the request cut off.
            old = signal.pthread_sigmask(signal.SIG_BLOCK, SIGNALS)
            try:
                self._found = self.matches(before, text)
            finally:
                signal.pthread_sigmask(signal.SIG_SETMASK, old)
        return self._found[count] if count < len(self._found) else None

    def matches(self, before, text):
        """What a text may become behind these words."""
        if not before:
            return words(text)
        page = PAGES.get(before[0])
        place = sum(not word.startswith("-") for word in before) - 1
        kind = page.kinds[min(place, len(page.kinds) - 1)] if page and page.kinds else ""
        if kind == "word":
            return words(text)
        found = self.paths(text) if "path" in kind else []
        return found + (files(text, kind) if kind in ("file", "folder") or kind.endswith("file") and not found else [])

    def paths(self, text):
        """Paths of rio that begin so, a directory with a `/` behind it."""
        if not text.startswith("/"):
            return []
        directory, _, front = text.rpartition("/")
        try:
            names = [name for name in self._rio.list(directory or "/") if name.startswith(front)]
            with self._rio.batch() as batch:
                kinds = [batch.stat(below(directory, name)) for name in names]
            return [below(directory, name) + ending(reply.result().kind == "dir") for name, reply in zip(names, kinds)]
        except (RioError, ValueError):
            return []


def words(text):
    """The lines' first words that begin so."""
    return [word + " " for word in PAGES if word.startswith(text)]


def files(text, kind):
    """Files of the system that begin so, or folders alone, as a line can name them."""
    folder, front = os.path.split(text)
    try:
        with os.scandir(folder or ".") as found:
            entries = sorted(found, key=lambda entry: entry.name)
    except OSError:
        return []
    fitting = [entry for entry in entries if entry.name.startswith(front) and " " not in entry.name]
    return [
        os.path.join(folder, entry.name) + ending(entry.is_dir())
        for entry in fitting
        if entry.is_dir() or kind != "folder"
    ]


def ending(is_directory):
    """What is behind a path that is complete, or goes on below it."""
    return "/" if is_directory else " "
