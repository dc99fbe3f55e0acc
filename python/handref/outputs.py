"""Files that are written whole or not at all, and never over what somebody else has made.

A file that is written here gets an attribute (`user.handref`) with its size and time, by which a
later call knows it as its own. A file that was changed since, or that is on a file system without
attributes, is not known.
"""
import os
import secrets
import stat
from contextlib import contextmanager
from typing import BinaryIO, Iterator

from handref import Path
from handref.texts import shown

_MARK = "user.handref"


def refuse_to_replace(out: Path, force: bool = False) -> None:
    """ValueError: this is a file that was not made here, and it is not forced."""
    if not force and os.path.isfile(out) and not _is_own(os.path.realpath(out)):
        raise ValueError(f"{shown(os.fspath(out))}: there is such a file, and handref has not made "
                         "it; --force writes over it")


def _is_own(place: str) -> bool:
    try:
        return os.getxattr(place, _MARK) == _sum(place)
    except OSError:
        return False


def _sum(place: str) -> bytes:
    info = os.stat(place)
    return b"%d %d" % (info.st_size, info.st_mtime_ns)


def _mark(place: str) -> None:
    try:
        os.setxattr(place, _MARK, _sum(place))
    except OSError:
        pass  # the next call asks for --force

# Ends of names of files that no walk takes for hands: what is not yet whole, and a journal.
PART: str = ".handref-part"
JOURNAL: str = ".handref-journal"


@contextmanager
def written(out: Path, force: bool = False) -> Iterator[BinaryIO]:
    """A file to write, which gets its name at the end, and the mode of the old one. Until then, and
    after a fault, the old one stays. A device or a pipe is written to as it is. ValueError: as
    `refuse_to_replace`."""
    place = os.path.realpath(out)
    if os.path.exists(place) and not os.path.isfile(place):
        with open(place, "wb") as file:
            yield file
        return
    refuse_to_replace(out, force)
    part = os.path.join(os.path.dirname(place), f".{secrets.token_hex(8)}{PART}")
    try:
        with open(part, "xb") as file:
            if os.path.exists(place):
                os.chmod(part, stat.S_IMODE(os.stat(place).st_mode))
            yield file
        _mark(part)
        os.replace(part, place)
    except BaseException as fault:
        if os.path.exists(part):
            os.remove(part)
        if isinstance(fault, OSError) and fault.filename in (None, part):
            raise OSError(fault.errno, fault.strerror, os.fspath(out)) from fault
        raise
