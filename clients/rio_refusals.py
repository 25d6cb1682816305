"""What the Python client of rio raises, and the exception of each refusal by its number."""


class RioError(Exception):
    """What the exceptions of this file have in common."""


class Ended(RioError):
    """The program has ended: with what status, and its last line that is no reply, or '' where it wrote none."""

    def __init__(self, status, last_line):
        super().__init__(status, last_line)
        self.status = status
        self.last_line = last_line

    def __str__(self):
        return f"the program ended with status {self.status}" + (f": {self.last_line}" if self.last_line else "")


class CutOff(RioError):
    """An exception fell into the middle of an earlier call, so that no reply can be told from its. Only `close` is left."""


class WrongReply(RioError):
    """The reply is none that the request can have."""


class Refused(RioError):
    """The request was refused: by which number, and what the number means."""

    number = 0
    meaning = "refused"

    def __init__(self, request=""):
        super().__init__(request)
        self.request = request

    def __str__(self):
        return f"err {self.number}, {self.meaning}: {self.request}"


class BadRequest(Refused):
    """The line is no request."""

    number, meaning = 1, "bad request"


class NotFound(Refused):
    """There is no such name."""

    number, meaning = 2, "not found"


class Exists(Refused):
    """The name is there already."""

    number, meaning = 3, "exists"


class NotADirectory(Refused):
    """What should be a directory is none."""

    number, meaning = 4, "not a directory"


class IsADirectory(Refused):
    """What should be a file is a directory."""

    number, meaning = 5, "is a directory"


class NotEmpty(Refused):
    """The directory has names."""

    number, meaning = 6, "not empty"


class IsARegion(Refused):
    """What should be a file is a region."""

    number, meaning = 7, "is a region"


class NotARegion(Refused):
    """What should be a region is none."""

    number, meaning = 8, "not a region"


class IsRoot(Refused):
    """The root directory cannot go, move, or be moved to."""

    number, meaning = 9, "root"


class TooLarge(Refused):
    """No file can be so large."""

    number, meaning = 10, "too large"


class NoSpace(Refused):
    """No block is free for it."""

    number, meaning = 11, "no space"


class NoInode(Refused):
    """No inode is free."""

    number, meaning = 12, "no inode"


class Busy(Refused):
    """The region has an open transaction."""

    number, meaning = 13, "busy"


class NoTransaction(Refused):
    """The region has no open transaction."""

    number, meaning = 14, "no transaction"


class NotCovered(Refused):
    """Some of these bytes are in no range of the transaction."""

    number, meaning = 15, "not covered"


class UndoFull(Refused):
    """The undo pages have no room for it."""

    number, meaning = 16, "undo full"


class HeapFull(Refused):
    """No gap of the heap is large enough."""

    number, meaning = 17, "heap full"


class NotABlock(Refused):
    """No block of the heap starts there."""

    number, meaning = 18, "not a block"


class OutOfRange(Refused):
    """The region's data, or memory, ends before."""

    number, meaning = 19, "out of range"


class NotAligned(Refused):
    """The bytes are not whole words of 8."""

    number, meaning = 20, "not aligned"


class InsideItself(Refused):
    """A directory cannot move below itself."""

    number, meaning = 21, "inside itself"


class Doomed(Refused):
    """After a device fault the transaction may only be aborted."""

    number, meaning = 22, "doomed"


class DeviceFault(Refused):
    """The disk failed in this request; `done` bytes of a `write` or `put` stand, and of all others it is 0."""

    number, meaning = 30, "device fault"

    def __init__(self, request="", done=0):
        super().__init__(request)
        self.done = done

    def __str__(self):
        return f"err 30 {self.done}, {self.meaning}: {self.request}"


class NoMemory(Refused):
    """The program had no memory for it. Nothing changed."""

    number, meaning = 31, "no memory"


def refusals():
    """The exceptions by their numbers."""
    return {kind.number: kind for kind in Refused.__subclasses__()}
