"""Lines of requests: their grammar, and what each answers in a state."""
import re
from typing import Callable, Dict, NamedTuple, Optional, Tuple

from . import files, regions
from .files import Answer
from .state import Refusal, Refused, State

MOST_READ_BYTES = 1_048_576

NUMBER = r"(?:0|[1-9][0-9]{0,17})"
NAME = r"[\x21-\x2e\x30-\x7e]{1,56}"
PATH = rf"/|(?:/{NAME}){{1,32}}"
DIGITS = str.maketrans("", "", "0123456789abcdefABCDEF")


class Form(NamedTuple):
    """A request's word: what stands behind it, what it answers, and whether its reply may wait for the next one's."""

    parts: Tuple[str, ...]
    answer: Callable[..., Answer]
    waits: bool = False


# A part is a path, a number, a positive number, a length that is asked for, or data.
FORMS: Dict[str, Form] = {
    "mkdir": Form(("path",), files.mkdir),
    "create": Form(("path",), files.create),
    "region": Form(("path", "positive", "positive"), files.region),
    "write": Form(("path", "number", "data"), files.write),
    "read": Form(("path", "number", "length"), files.read, waits=True),
    "truncate": Form(("path", "number"), files.truncate),
    "unlink": Form(("path",), files.unlink),
    "rmdir": Form(("path",), files.rmdir),
    "rename": Form(("path", "path"), files.rename),
    "stat": Form(("path",), files.stat, waits=True),
    "list": Form(("path",), files.list_names, waits=True),
    "sync": Form((), files.nothing, waits=True),
    "flush": Form(("number",), files.nothing),
    "begin": Form(("path",), regions.begin),
    "range": Form(("path", "number", "number"), regions.range_of),
    "put": Form(("path", "number", "data"), regions.put),
    "get": Form(("path", "number", "length"), regions.get, waits=True),
    "alloc": Form(("path", "positive"), regions.alloc),
    "free": Form(("path", "number"), regions.free),
    "commit": Form(("path",), regions.commit),
    "abort": Form(("path",), regions.abort),
    "txns": Form((), regions.txns, waits=True),
}


def path_part(text: str) -> Optional[str]:
    is_path = re.fullmatch(PATH, text) and not {".", ".."}.intersection(files.names_of(text))
    return text if is_path else None


def number_part(text: str) -> Optional[int]:
    return int(text) if re.fullmatch(NUMBER, text) else None


def positive_part(text: str) -> Optional[int]:
    return number_part(text) or None


def length_part(text: str) -> Optional[int]:
    length = number_part(text)
    return length if length is not None and length <= MOST_READ_BYTES else None


def data_part(text: str) -> Optional[bytes]:
    is_data = len(text) <= 2 * MOST_READ_BYTES and len(text) % 2 == 0 and not text.translate(DIGITS)
    return bytes.fromhex(text) if is_data else None


PARTS = {"path": path_part, "number": number_part, "positive": positive_part, "length": length_part, "data": data_part}


class Request(NamedTuple):
    """A request: its word, and what stands behind that."""

    word: str
    values: tuple


def parsed(line: str) -> Optional[Request]:
    """The request that a line is, or None where it is none."""
    word, *texts = line.split(" ")
    form = FORMS.get(word)
    if form is None or len(texts) != len(form.parts):
        return None
    values = tuple(PARTS[part](text) for part, text in zip(form.parts, texts))
    return None if None in values else Request(word, values)


def answer(state: State, line: str) -> Answer:
    """The state after a line, and its reply without a line end."""
    request = parsed(line)
    try:
        if request is None:
            raise Refused(Refusal.BAD_REQUEST)
        return FORMS[request.word].answer(state, *request.values)
    except Refused as refused:
        return state, f"err {int(refused.refusal)}"


def may_wait(line: str) -> bool:
    """Whether the reply to a line may be written together with a later one. Such a line changes no state."""
    request = parsed(line)
    return request is None or FORMS[request.word].waits
