"""The lines of talk: what each is answered by. A line that is none of them goes to rio as it is."""
import collections
import re

from rio import DeviceFault, Refused, refusals

from talklib import pages, paths, transfer, volume
from talklib.texts import FILE, PATH, QUOTED, file_name, quoted, unquoted

# What is shown for a line, whether it was refused, and a hint at what may have been meant.
Answer = collections.namedtuple("Answer", "text is_refused hint")


class Talk:
    """What the lines of a talk work with: rio, and what is known of the volume."""

    def __init__(self, rio, known_volume, manual):
        self.rio = rio
        self.volume = known_volume
        self.manual = manual

    def request(self, line):
        """Sends a line to rio, and returns its reply."""
        reply = self.rio.request(line)
        self.volume.hear(line, reply)
        return reply

    def answer(self, line):
        """The Answer to a line."""
        for form, command in COMMANDS:
            match = form.fullmatch(line)
            if match is None:
                continue
            try:
                text = command(self, match)
            except DeviceFault as fault:
                return Answer(f"err 30 {fault.done}  {fault.meaning}", True, "")
            except Refused as refused:
                return Answer(f"err {refused.number}  {refused.meaning}", True, "")
            except (OSError, ValueError, transfer.CannotCopy) as error:
                return Answer(f"talk: {error}", True, "")
            return text if isinstance(text, Answer) else Answer(text, False, "")
        return ask(self, line)


def ask(talk, line):
    """Sends one of rio's own lines, and shows its reply."""
    reply = talk.request(line)
    shown = reply.decode("ascii", "backslashreplace")
    if reply.startswith(b"err "):
        hint = pages.hint(line.decode("ascii", "backslashreplace")) if reply == b"err 1" else ""
        return Answer(f"{shown}  {meaning(reply)}", True, hint)
    if line.startswith((b"read ", b"get ")) and len(reply) > 3:
        text = quoted(bytes.fromhex(shown[3:]))
        return Answer(shown if text is None else f"{shown}  {text}", False, "")
    return Answer(shown, False, "")


def meaning(reply):
    """The name of a refusal."""
    number = int(reply.split(b" ")[1])
    return refusals()[number].meaning if number in refusals() else "unknown"


def text_of(match, group, otherwise="/"):
    return match[group].decode("ascii", "backslashreplace") if match[group] else otherwise


def show_help(talk, match):
    return pages.page_of(text_of(match, 1)) if match[1] else f"{talk.manual}\n\nRio's own lines:\n\n{pages.requests()}"


def put_file(talk, match):
    name, path = file_name(match, 1), match[3]
    with open(name, "rb") as file:
        data = file.read()
    talk.rio.write_all(path, data)
    return f"{len(data)} bytes to {path.decode()}"


def get_file(talk, match):
    name, data = file_name(match, 2), talk.rio.read_all(match[1])
    with open(name, "wb") as file:
        file.write(data)
    return f"{len(data)} bytes to {name}"


def show_file(talk, match):
    data = paths.content(talk.rio, match[1])
    if not data:
        return "0 bytes"
    return data.hex() if quoted(data) is None else data.decode("utf-8").removesuffix("\n")


def write_file(talk, match):
    data = unquoted(match[2])
    talk.rio.write_all(match[1], data)
    return f"{len(data)} bytes to {match[1].decode()}"


def write_text(talk, match):
    return ask(talk, b" ".join((match[1], match[2], match[3], unquoted(match[4]).hex().encode())))


def show_names(talk, match):
    return paths.short_list(talk.rio, text_of(match, 1))


def show_long_names(talk, match):
    return paths.long_list(talk.rio, text_of(match, 1))


def show_tree(talk, match):
    return paths.tree(talk.rio, text_of(match, 1))


def show_use(talk, _match):
    return volume.shown_use(talk.volume.use(talk.rio))


def import_folder(talk, match):
    return transfer.import_folder(talk.rio, file_name(match, 1), text_of(match, 3))


def export_directory(talk, match):
    return transfer.export_directory(talk.rio, text_of(match, 1), file_name(match, 2))


COMMANDS = [
    (re.compile(form), command)
    for form, command in (
        (rb"help(?: ([^ ]+))?", show_help),
        (rb"put " + FILE + b" " + PATH, put_file),
        (rb"(?:get|cat) " + PATH, show_file),
        (rb"get " + PATH + b" " + FILE, get_file),
        (rb"write " + PATH + b" " + QUOTED, write_file),
        (rb"(write|put) " + PATH + rb" ([0-9]+) " + QUOTED, write_text),
        (rb"ls(?: " + PATH + b")?", show_names),
        (rb"ls -l(?: " + PATH + b")?", show_long_names),
        (rb"tree(?: " + PATH + b")?", show_tree),
        (rb"df", show_use),
        (rb"import (?:" + QUOTED + rb'|([^ "]+)) ' + PATH, import_folder),
        (rb"export " + PATH + rb" (?:" + QUOTED + rb'|([^ "]+))', export_directory),
    )
]
