"""Texts of hand histories as sites write them, which are no notation of handref: whose they are."""
import gzip
import re
import zlib
from typing import BinaryIO, Optional, Union

# The first lines of a hand, and whether `handref import` reads such texts.
_SITES = tuple((name, is_read, re.compile(b"^(?:\xef\xbb\xbf)?" + begin, re.M)) for
               name, is_read, begin in (
    ("PokerStars", True, rb"PokerStars [^\n#]*(?:Hand|Game) #"),
    ("GGPoker", True, rb"Poker Hand #"),
    ("Winamax", True, rb"Winamax Poker - "),
    ("888poker", False, rb"(?:\*{3,} ?888poker |#Game No : )"),
    ("PartyPoker", False, rb"\*{3,} Hand History [Ff]or Game "),
    ("Full Tilt", False, rb"Full Tilt Poker [^\n#]*#"),
    ("OnGame", False, rb"\*{3,} History for hand "),
    ("Absolute Poker", False, rb"Stage #[A-Z0-9-]+"),
    ("Ignition", False, rb"(?:Ignition|Bovada|Bodog)[^\n]{0,20} Hand #"),
    ("the Winning Poker Network", False, rb"(?:Game Hand #\d|Hand #\d+(?:-\d+)? - )"),
    ("iPoker", False, rb"[^\n]{0,200}<session sessioncode=")))

HEAD = re.compile(b"|".join(pattern.pattern for _, _, pattern in _SITES), re.M)


def site_of(front: bytes) -> Optional[tuple[str, bool]]:
    """The site that has written a text, by its first bytes, and whether `handref import` reads it;
    None if none is known."""
    return next(((name, is_read) for name, is_read, pattern in _SITES if pattern.search(front)),
                None)


def site_in(path: str) -> Optional[tuple[str, bool]]:
    """The same of a file; None of one that cannot be read."""
    try:
        with open(path, "rb") as read:
            file: Union[BinaryIO, gzip.GzipFile] = \
                gzip.open(read) if path.endswith(".gz") else read
            return site_of(file.read(1 << 16))
    except (OSError, EOFError, zlib.error):
        return None


def said(name: str, is_read: bool) -> str:
    """What such a text is."""
    return f"the text of a hand history of {name}, which " + (
        "handref import reads" if is_read else "handref does not read")
