"""Several requests at once: a batch sends them without waiting, and reads the replies as they come.

    with rio.batch() as batch:
        batch.create("/a")
        size = batch.stat("/b")
        missing = batch.read("/c", 0, 10)
        print(size.result().size)
    print(batch.refused)

The methods are those of Rio, in the order in which they are called, and each returns a `Reply`. Its `result` is what the method of
Rio returns or raises: it waits for the reply where that has not come. Nobody has to ask for a result: `refused` counts the requests
that were refused, and `check` raises the first of their exceptions. At the end of the `with` block every request has its reply,
also where the block raised. Where the program ends, the call raises `Ended` in which that is found.

**A request is sent before the replies to those in front of it are known.** A `commit` keeps what its transaction changed until
then, also where a `put` before it was refused. What depends on a reply is asked after its `result`.

**Bounds.** Beyond what `rio_pipes` tells, a call waits until others have been answered. A Reply keeps what was answered as long as
somebody keeps the Reply. A request of the Rio itself, in the middle of a batch, waits for those of the batch first.
"""
import contextlib

from rio_lines import MOST_SHOWN, answered
from rio_requests import Requests, Transaction


class Reply:
    """The reply to a request of a batch, which may be still to come."""

    __slots__ = ("_batch", "_form", "_front", "_text")

    def __init__(self, batch, form, front):
        self._batch = batch
        self._form = form
        self._front = front
        self._text = None

    def result(self):
        """What the request's method of Rio returns or raises. It waits for the reply."""
        if self._text is None:
            self._batch.wait()
        return self._form(self._text) if self._form is as_it_is else answered(self._text, self._front, self._form)

    def receive(self, text):
        """Takes the reply's line, from the pipes."""
        self._text = text
        if text[0] != b"o"[0]:
            self._batch.refuse(self)


class Batch(Requests):
    """Requests that are sent together: see above."""

    def __init__(self, pipes):
        self._pipes = pipes
        self._is_open = True
        self._first_refused = None
        self.refused = 0

    def __enter__(self):
        return self

    def __exit__(self, kind, error, trace):
        self._is_open = False
        if self._pipes.serves:
            self._pipes.exchange()

    def wait(self):
        """Sends all requests so far, and reads their replies."""
        self._pipes.exchange()

    def check(self):
        """Waits, and raises the exception of the first request that was refused, where there is one."""
        self.wait()
        if self._first_refused is not None:
            self._first_refused.result()

    def request(self, line):
        """Sends a line of bytes as it is. The result is its reply as it is, a refusal too, each without its line end."""
        if b"\n" in line:
            raise ValueError("a request is one line")
        return self._queue(as_it_is, line)

    @contextlib.contextmanager
    def transaction(self, path):
        """Opens a transaction for a `with` block: a commit is sent at the block's end, and an abort where it raises.

        The commit is sent whatever becomes of the requests before it: see above.
        """
        self.begin(path)
        try:
            yield Transaction(self, path)
        except BaseException:
            if self._pipes.serves:
                self.abort(path)
            raise
        self.commit(path)

    def refuse(self, reply):
        """Counts a reply that is a refusal."""
        self.refused += 1
        self._first_refused = self._first_refused or reply

    def _ask(self, form, *words):
        return self._queue(form, b" ".join(words))

    def _queue(self, form, line):
        if not self._is_open:
            raise ValueError("the batch has ended: make another one")
        reply = Reply(self, form, line[: MOST_SHOWN + 1])
        self._pipes.queue(line + b"\n", reply)
        return reply


def as_it_is(line):
    """The form of a reply that nobody reads."""
    return line
