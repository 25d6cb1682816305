"""The lines of requests and of replies: what a request can have, and what its reply says.

The functions that read a reply are given the text behind its `ok`. They return the value that it stands for, and raise ValueError
where the request cannot be answered so.
"""
import binascii
import collections
import functools
import operator
import re

from rio_refusals import DeviceFault, WrongReply, refusals

MOST_BYTES = 1_048_576
MOST_NUMBER = 10**18 - 1
MOST_WORD = 2**64 - 1
MOST_SHOWN = 100

Stat = collections.namedtuple("Stat", "inode kind size")

NAME = re.compile(rb"[\x21-\x7e]{1,56}")
REFUSAL = re.compile(rb"err [0-9]+( [0-9]+)?")
FRONT_OF_REPLY = re.compile(rb"o|ok|ok .*|e|er|err|err .*")
NUMBER = re.compile(rb" ([0-9]+)")
STAT = re.compile(rb" ([0-9]+) (dir|file|region) ([0-9]+)")
NAMES = re.compile(rb" ([0-9]+(?: [\x21-\x7e]+)*)")
INODES = re.compile(rb" ([0-9]+(?: [0-9]+)*)")

# What a request can have


def path_bytes(path):
    """The bytes of a path that a request can have; ValueError where none can have it."""
    if isinstance(path, (str, bytes)):
        return known_path(path)
    return known_path(memoryview(path).tobytes())


@functools.lru_cache(maxsize=1024)
def known_path(path):
    """The same for str and bytes. A client names few paths often, so those that were found good are kept."""
    path = path.encode("utf-8") if isinstance(path, str) else path
    if path == b"/":
        return path
    front, *names = path.split(b"/")
    if front or not 1 <= len(names) <= 32 or not all(map(is_name, names)):
        raise ValueError(f"no path: {path!r}")
    return path


def is_name(name):
    """Whether a directory of rio can have these bytes as a name."""
    return NAME.fullmatch(name) is not None and name not in (b".", b"..")


def in_range(value, least, most):
    """The decimal digits of a number in this range."""
    value = operator.index(value)
    if not least <= value <= most:
        raise ValueError(f"not from {least} to {most}: {value}")
    return str(value)


def number(value, least=0, most=MOST_NUMBER):
    """The same as bytes, for a line."""
    return in_range(value, least, most).encode("ascii")


def digits(data):
    """The hexadecimal digits of the data of one request."""
    data = memoryview(data).tobytes()
    if len(data) > MOST_BYTES:
        raise ValueError(f"more than {MOST_BYTES} bytes of data: {len(data)}")
    return binascii.hexlify(data)


def word_digits(value):
    """The 16 hexadecimal digits of a word, the highest first."""
    in_range(value, 0, MOST_WORD)
    return b"%016x" % value


# What a reply says


def is_reply(line):
    """Whether a whole line, told without its end, is a reply; else it belongs to the program's end."""
    return line == b"ok" or line.startswith(b"ok ") or REFUSAL.fullmatch(line) is not None


def as_done(text):
    """For the requests that are answered `ok` alone."""
    if text:
        raise ValueError(text)


def as_number(text):
    """For those that are answered by a number."""
    return int(matched(NUMBER, text)[1])


def as_bytes(most, text):
    """For those that are answered by bytes, of which there may be so many. Their digits are lower-case."""
    if text[:1] != b" " or len(text) - 1 > 2 * most:
        raise ValueError(text)
    data = binascii.unhexlify(text[1:])
    if text.lower() != text:
        raise ValueError(text)
    return data


def as_stat(text):
    """For `stat`."""
    found = matched(STAT, text)
    return Stat(int(found[1]), found[2].decode(), int(found[3]))


def as_names(text):
    """For `list`."""
    return [name.decode() for name in counted(matched(NAMES, text)[1])]


def as_inodes(text):
    """For `txns`."""
    return [int(inode) for inode in counted(matched(INODES, text)[1])]


def matched(form, text):
    found = form.fullmatch(text)
    if not found:
        raise ValueError(text)
    return found


def counted(text):
    """The items of a text that has their count before them."""
    count, *items = text.split(b" ")
    if int(count) != len(items):
        raise ValueError(text)
    return items


def answered(reply, line, form):
    """What a reply to this line says, read by its form. It raises the exception of a refusal, or WrongReply."""
    if not reply.startswith(b"ok"):
        raise refusal(reply, line)
    try:
        return form(reply[2:])
    except ValueError:
        raise wrong_reply(reply, line) from None


def refusal(reply, line):
    """The exception for a reply that does not begin with ok."""
    _, number_text, *done = reply.split(b" ")
    code = int(number_text)
    kind = refusals().get(code)
    if kind is None or (kind is DeviceFault) != bool(done):
        return wrong_reply(reply, line)
    request = shown(line)
    return DeviceFault(request, int(done[0])) if done else kind(request)


def wrong_reply(reply, line):
    """The exception for a reply that its request cannot have."""
    return WrongReply(f"{shown(reply)}: {shown(line)}")


def shown(line):
    """A line for a message, cut where it is long."""
    return line.decode("ascii", "backslashreplace") if len(line) <= MOST_SHOWN else shown(line[: MOST_SHOWN - 3]) + "..."


def last_line(written):
    """What follows the replies in what was written, without its line end, and '' where that is a reply cut off."""
    line, end, more = written.partition(b"\n")
    while end and is_reply(line):
        line, end, more = more.partition(b"\n")
    if not end and FRONT_OF_REPLY.fullmatch(line):
        return ""
    text = line + end + more
    return text[: len(text) - text.endswith(b"\n")].decode("utf-8", "surrogateescape")
