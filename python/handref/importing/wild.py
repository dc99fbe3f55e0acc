"""Finds the files that hands may be in, and says of which kind each is."""
import gzip
import hashlib
import os
import re
import stat
import sys
import zlib
from dataclasses import dataclass
from typing import BinaryIO, Optional, Sequence, Union

from handref import HandrefError, phhs, site_texts, sources, texts

KINDS = {"phh": "PHH", "ohh": "OHH", "ohh-to": "OHH", "log": "log", "text": "text", "game": "game"}
_ENDS = {".phh": "phh", ".phhs": "phh", ".ohh": "ohh", ".ohh-to": "ohh-to", ".acpc": "log",
         ".log": "log", ".game": "game"}
_OHH = re.compile(rb"\s*[\[{]\s*(?:\{\s*)?\"ohh\"\s*:")
_LOG = re.compile(rb"^(?:STATE:[0-9]|(?:TO|FROM) [0-9]+ at [0-9.]+ MATCHSTATE:|MATCHSTATE:[0-9])", re.M)
_GAME = re.compile(rb"\s*(?:#[^\n]*\s+)*GAMEDEF", re.I)
_HAND_ENDS = {"phh": phhs.NUMBER, "ohh": re.compile(rb"\"ohh\""), "ohh-to": re.compile(rb"\"ohh\""),
              "log": re.compile(rb"\n[^\n]*STATE:"), "text": site_texts.HEAD, "game": re.compile(rb"GAMEDEF")}
_PHH = re.compile(rb"(?:\A|\n)[ \t]*variant[ \t]*=[ \t]*[\"']")


@dataclass(frozen=True)
class Wild:
    """A file that people have: where its bytes are, of which kind it is, what it is called, and the
    name of what is made of it, below OUT. A file that cannot be read has a fault."""
    path: str
    kind: str
    name: str
    out: str
    size: int = 0
    fault: str = ""
    stamp: tuple[int, ...] = ()  # of a file that others can write: size, time, inode
    folder: str = ""  # where it was found, for game files beside it
    game: str = ""  # the game file of a log
    game_said: str = ""  # how it was found, where that has to be said

    @property
    def shown(self) -> str:
        """Its name on a line."""
        return texts.shown(self.name)

    def is_changed(self) -> bool:
        """Whether others have written to the file, or put another in its place, since it was found."""
        try:
            return bool(self.stamp) and self.stamp != _stamp(os.stat(self.name))
        except OSError:
            return True

    @property
    def stem(self) -> str:
        """Its name without the end, below OUT."""
        return re.sub(r"(\.[^./]+)?(\.gz)?\Z", "", self.out, count=1)


def _stamp(info: os.stat_result) -> tuple[int, ...]:
    return info.st_size, info.st_mtime_ns, info.st_ino


def kind_of(path: str, front: bytes) -> str:
    """The kind of a file by its first bytes, else by the end of its name; "" if there is none."""
    front = front.removeprefix(b"\xef\xbb\xbf")
    if site_texts.HEAD.search(front):
        return "text"
    by_name = _ENDS.get(os.path.splitext(re.sub(r"\.gz\Z", "", path))[1].lower(), "")
    for pattern, kind in ((_GAME, "game"), (_OHH, "ohh"), (_LOG, "log")):
        if pattern.match(front) or pattern is _LOG and pattern.search(front):
            return "ohh-to" if kind == "ohh" and by_name == "ohh-to" else kind
    return by_name or ("phh" if _PHH.search(front) else "")


def find(paths: Sequence[str], folder: str, kind: Optional[str] = None,
         passed: str = "") -> tuple[list[Wild], list[str]]:
    """The files among paths and in folders; and those that are none of hands. Packed files and the
    standard input are copied into `folder`; what is in the folder `passed` is not looked at."""
    found: list[Wild] = []
    others: list[str] = []
    for path in paths:
        if path == "-":
            found.append(_standard_input(folder, kind))
        elif not os.path.isdir(path):
            one = _one(path, os.path.basename(path), folder, kind, True)
            if not one.kind and not one.fault:
                one = Wild(path, "", path, one.out, fault=_NONE)
            found.append(one)
        else:
            inside = _inside(path, folder, kind, passed)
            found += [one for one in inside if one.kind or one.fault]
            others += [one.name for one in inside if not one.kind and not one.fault]
    return found, others


_NONE = "it is neither PHH nor OHH nor a log, nor a text of a site that is known"


def _inside(top: str, folder: str, kind: Optional[str], passed: str) -> list[Wild]:
    found: list[Wild] = []

    def fault(why: OSError) -> None:
        name = str(why.filename or top)
        found.append(Wild(name, "", name, os.path.relpath(name, top), fault=said(why)))

    out = os.path.realpath(passed) + os.sep if passed else ""
    for path in sources.below(top, fault):
        if out and os.path.realpath(path).startswith(out):
            continue
        found.append(_one(path, os.path.relpath(path, top), folder, kind))
    return sorted(found, key=lambda one: sources.natural(one.out))


def _one(path: str, out: str, folder: str, kind: Optional[str], is_named: bool = False) -> Wild:
    try:
        info = os.stat(path)
        if not stat.S_ISREG(info.st_mode):
            return Wild(path, "", path, out, fault="it is not a file")
        plain = _unpacked(path, folder) if path.endswith(".gz") else path
        with open(plain, "rb") as file:
            front = file.read(1 << 16)
    except (OSError, EOFError, zlib.error, HandrefError) as why:
        return Wild(path, "", path, out, fault=said(why))
    own = kind_of(path, front)
    if kind and (is_named and own != "text" or kind[:3] == own[:3]):
        own = kind  # --from says which dialect the files of OHH are in, and what a named file is
    return Wild(plain, own, path, out,
                os.path.getsize(plain), stamp=_stamp(info), folder=os.path.dirname(path) or ".")


def _unpacked(path: str, folder: str) -> str:
    name = os.path.join(folder, hashlib.sha256(os.fsencode(path)).hexdigest()[:24])
    with gzip.open(path) as packed:
        _copy(packed, name, path)
    return name


def _copy(read: "Union[BinaryIO, gzip.GzipFile]", name: str, path: str) -> str:
    """Copies what may have no end into a file, up to where no hand ends for longer than an input
    may be; gives its kind by the first bytes. HandrefError: it goes on for longer."""
    front = read.read(1 << 16)
    kind = kind_of(path, front)
    with open(name, "wb") as file:
        file.write(front)
        for block in phhs.bounded(read, _HAND_ENDS[kind or "text"], path):
            file.write(block)
    return kind


def _standard_input(folder: str, kind: Optional[str]) -> Wild:
    name = os.path.join(folder, "standard-input")
    found = _copy(sys.stdin.buffer, name, "standard input")
    own = kind or found
    return Wild(name, own, "standard input", "stdin", os.path.getsize(name),
                fault="" if own else _NONE)


def said(why: Exception) -> str:
    """A fault of a file in a few words."""
    if isinstance(why, HandrefError):
        return why.line
    return (why.strerror if isinstance(why, OSError) and why.strerror else str(why)).lower()


def sum_of(file: BinaryIO) -> str:
    """The SHA-256 of a file."""
    found = hashlib.sha256()
    while block := file.read(1 << 20):
        found.update(block)
    return found.hexdigest()
