"""What is refused, as the errno that a file system has for it."""
import errno
import os

import rio

from .names import NameTaken, NameTooLong
from .tables import TableFull

ERRNO = {
    rio.BadRequest: errno.EINVAL,
    rio.NotFound: errno.ENOENT,
    rio.Exists: errno.EEXIST,
    rio.NotADirectory: errno.ENOTDIR,
    rio.IsADirectory: errno.EISDIR,
    rio.NotEmpty: errno.ENOTEMPTY,
    rio.IsARegion: errno.EPERM,
    rio.IsRoot: errno.EBUSY,
    rio.TooLarge: errno.EFBIG,
    rio.NoSpace: errno.ENOSPC,
    rio.NoInode: errno.ENOSPC,
    rio.Busy: errno.EBUSY,
    rio.OutOfRange: errno.EINVAL,
    rio.InsideItself: errno.EINVAL,
    rio.DeviceFault: errno.EIO,
    rio.NoMemory: errno.ENOMEM,
    NameTooLong: errno.ENAMETOOLONG,
    NameTaken: errno.EEXIST,
    TableFull: errno.ENOSPC,
}
# What a call of the kernel may be refused by.
REFUSED = (rio.Refused, NameTooLong, NameTaken, TableFull)


def failure(number):
    """The exception by which a call answers this errno."""
    return OSError(number, os.strerror(number))


def failure_of(refused):
    """The same for a refusal. One that no request of a mount can have is a fault of the mount."""
    return failure(ERRNO.get(type(refused), errno.EIO))


def refuse_region(stat):
    """Regions are changed by transactions, so a mount shows them, and neither writes nor removes them."""
    if stat.kind == "region":
        raise failure(errno.EPERM)
