"""A mount from its words to its end.

The pair is looked at by `rio check`, then served by rio, and what libfuse is asked for goes there until the mount ends: by
`fusermount -u`, by Ctrl-C or another signal, or because rio has ended. All that goes wrong is told in one line on the standard
error, with what to do.
"""
import contextlib
import errno
import importlib
import os
import shutil
import sys
import time

from rio import CutOff, Ended, Rio, RioError, WrongReply

from .attributes import ATTRIBUTES_PATH, ATTRIBUTES_TITLE, Attributes, Owner
from .errors import REFUSED
from .names import BYTEWISE, NAMES_PATH, NAMES_TITLE, LongNames
from .operations import Mount
from .space import Volume, checked_space
from .tables import LineFile, WrongTable

ENDED_WELL = 0
REFUSED_OR_CUT_OFF = 1
# By the convention of sysexits.h: what it takes is not there.
UNAVAILABLE = 69

DEVICE = "/dev/fuse"
PACKAGES = "apt-get install python3-fusepy fuse3"
# The most bytes of one read or write that libfuse asks for.
PIECE = 131_072

IMAGE_STATUS, VOLUME_STATUS, FILE_STATUS, USAGE_STATUS = 3, 4, 7, 2

UNSAVED = "the image could not be saved; what was answered is kept unless a line tells that it could not be kept in step with memory"


class Missing(Exception):
    """Something that a mount takes is not on this machine: what, and how to get it."""


class Unusable(Exception):
    """A word of the command is no use: why, and what to do."""


def serve(image, disk, folder, program=None):
    """Mounts a pair on a folder, waits for the mount's end, and returns the status: 0, 1, or 69 where something is missing."""
    try:
        fuse = fuse_module()
        look_for_device(DEVICE)
        look_at_folder(folder)
        mount, rio = started(image, disk, program)
    except Missing as missing:
        return told(str(missing), UNAVAILABLE)
    except Unusable as fault:
        return told(str(fault))
    except WrongTable as fault:
        return told(f"{fault}: another client made it: rename it, and mount again")
    except Ended as end:
        return told(beginning_advice(end))
    except OSError as error:
        return told(f"{error.filename or program or 'rio'}: {error.strerror}")
    return mounted(fuse, mount, rio, folder)


def told(line, status=REFUSED_OR_CUT_OFF):
    """Tells what is wrong, and returns the status for it."""
    print(f"mount: {line}", file=sys.stderr, flush=True)
    return status


# What a mount takes


def fuse_module():
    """The module that stands for libfuse. Debian calls it fusepy, others fuse, which another package is called too."""
    for name in ("fusepy", "fuse"):
        with contextlib.suppress(ImportError, OSError):
            module = importlib.import_module(name)
            if hasattr(module, "FUSE") and hasattr(module, "fuse_exit"):
                return module
    raise Missing(f"{sys.executable} has no fusepy with libfuse: install both by {PACKAGES!r}")


def look_for_device(device):
    """Raises Missing where libfuse cannot work here."""
    try:
        os.close(os.open(device, os.O_RDWR))
    except OSError as error:
        raise Missing(f"{device} cannot be opened ({error.strerror}): the kernel's module is loaded by 'modprobe fuse'") from None
    if os.geteuid() != 0 and shutil.which("fusermount") is None:
        raise Missing(f"there is no command fusermount: install it by {PACKAGES!r}")


def look_at_folder(folder):
    """Raises Unusable where nothing can be mounted on a folder."""
    try:
        names = os.listdir(folder)
    except OSError as error:
        raise Unusable(folder_advice(folder, error)) from None
    if os.path.ismount(folder):
        raise Unusable(f"{folder} has a mount already: give another folder, or end that mount by 'fusermount -u {folder}'")
    if names:
        raise Unusable(f"{folder} is not empty: give an empty folder")


def folder_advice(folder, error):
    """What to do about a folder that cannot be read."""
    if error.errno == errno.ENOENT:
        return f"there is no folder {folder}: make it by 'mkdir {folder}'"
    if error.errno == errno.ENOTDIR:
        return f"{folder} is no folder: give an empty one"
    if error.errno == errno.ENOTCONN:
        return f"{folder} has a mount whose program is gone: end it by 'fusermount -u {folder}'"
    return f"{folder} cannot be used: {error.strerror}"


# The beginning and the end of rio


def started(image, disk, program):
    """Starts rio on a pair, and returns the mount's operations and the `Rio`."""
    space = checked_space(image, disk, program)
    rio = Rio(image, disk, program=program)
    try:
        rio.sync()
        volume = Volume(rio, space)
        names = LongNames(LineFile(volume, NAMES_PATH, NAMES_TITLE), volume.every_name)
        owner = Owner(os.getuid(), os.getgid(), time.time_ns())
        attributes = Attributes(LineFile(volume, ATTRIBUTES_PATH, ATTRIBUTES_TITLE), owner)
    except BaseException:
        rio.close()
        raise
    return Mount(volume, names, attributes), rio


def mounted(fuse, mount, rio, folder):
    """Has libfuse mount a folder and ask until the end, and ends rio. Returns the status."""
    mount.on_ready = lambda: print(f"mounted on {folder}", flush=True)
    mount.on_end = fuse.fuse_exit
    options = {"fsname": "rio", "use_ino": True, "default_permissions": True, "big_writes": True}
    place = os.fsencode(os.path.realpath(folder)).decode(BYTEWISE)
    status = ENDED_WELL
    try:
        fuse.FUSE(
            mount, place, foreground=True, nothreads=True, encoding=BYTEWISE, max_read=PIECE, max_write=PIECE, **options
        )
    except RuntimeError:
        status = told(f"libfuse could not mount {folder}")
    return max(status, finished(mount, rio))


def finished(mount, rio):
    """Keeps what waits, ends rio, and tells what went wrong. Returns the status."""
    status = ENDED_WELL
    if mount.ended is None:
        try:
            mount.finish()
        except REFUSED as refused:
            reason = getattr(refused, "meaning", refused)
            status = told(f"some times and modes are not kept ({reason}): make room, and set them anew")
        except RioError as error:
            mount.ended = error
    end = rio.close()
    if isinstance(mount.ended, (CutOff, WrongReply)):
        return told(f"rio gave a wrong answer ({mount.ended}): what was answered before is kept, mount again")
    return status if end.status == 0 and mount.ended is None else told(end_advice(end))


def beginning_advice(end):
    """What to do where rio did not begin to serve a pair."""
    said = end.last_line or f"rio ended with status {end.status}"
    if end.status == USAGE_STATUS:
        return "IMAGE and DISK have to be the names of two files"
    if end.status in (IMAGE_STATUS, VOLUME_STATUS):
        return f"{said}: the pair is damaged, or of two pairs: take a copy of both files"
    if end.status == FILE_STATUS and said.startswith("no such file"):
        return f"{said}: make a pair by 'rio format'"
    if end.status == FILE_STATUS:
        return f"{said}: the pair is in use, or cannot be read: end the other run first"
    return said


def end_advice(end):
    """What to do where rio ended otherwise than it was asked to."""
    if end.status == FILE_STATUS:
        return f"{end.last_line}: {UNSAVED}: look at the pair by 'rio check'"
    how = f"by signal {-end.status}" if end.status < 0 else f"with status {end.status}"
    said = f" ({end.last_line})" if end.last_line else ""
    return f"rio ended in the middle, {how}{said}: look at the pair by 'rio check', and mount again"
