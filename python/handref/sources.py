"""Finds files of hands, and cuts long ones into pieces that are within the limits of an input."""
import gzip
import os
import re
import stat
import sys
import tempfile
import zlib
from collections import Counter
from contextlib import contextmanager
from dataclasses import dataclass, field, replace
from functools import cached_property
from typing import IO, BinaryIO, Callable, Iterator, Optional, Sequence, Union

import handref
from handref import Notation, Piece, faults, formats, outputs, phhs, site_texts, texts

# PIECE bytes of a log have fewer hands and moves than an input may have, whatever they are: a hand
# takes 17 bytes or more, a move one. A hand of OHH or PHH that has a move takes far more.
PIECE = 1 << 20
_BLANK = re.compile(rb"\n[ \t\r]*\n")
# A hand of OHH ends here, and a line of a hand of a log begins: not an empty line or a comment.
_HAND_END = re.compile(rb"[^ \t\r\n][ \t\r]*\n[ \t\r]*\n")
_HAND_LINE = re.compile(rb"\n(?!#|SCORE:|\r?\n)(?=[\s\S]{6})")
_PHH = re.compile(rb"(\A|\n)[ \t]*variant[ \t]*=[ \t]*[\"']")
_OHH = re.compile(rb"\s*[\[{]\s*(\{\s*)?\"ohh\"\s*:")
_LOG = re.compile(rb"(?:(?:#|SCORE:)[^\n]*\n|\r?\n)*STATE:\d*:")
# What a call that was ended has left: hands that it has read already, or has written in part.
_UNFINISHED = re.compile(
    rf"(?:{re.escape(outputs.PART)}|{re.escape(outputs.JOURNAL)}(?:-[a-z]+)?)\Z")


@dataclass(frozen=True)
class Source:
    """A file of hands, and the file that is made of it. A file that cannot be read has a fault."""
    path: str
    notation: Notation
    size: int
    changed: int  # when it was, in nanoseconds
    out: str = ""
    fault: str = ""
    name: str = ""  # what it is called, where that is not its path
    inode: int = 0  # of a file that others can write
    game: str = ""  # the game file that is beside a log

    @cached_property
    def shown(self) -> str:
        """The name on a line: signs that are not seen, or end it, are written as numbers."""
        return texts.shown(self.name or self.path)

    def is_changed(self) -> bool:
        """Whether another file has its name by now, or others have written to it."""
        try:
            info = os.stat(self.path)
        except OSError:
            return self.inode > 0
        return self.inode > 0 and (info.st_size, info.st_mtime_ns, info.st_ino) != (
            self.size, self.changed, self.inode)


@dataclass(frozen=True)
class Region:
    """The bytes of a piece of a file: its place, or the bytes themselves where they are not there
    as they are (`piece`, of a packed file; `blocks`, the tables of hands of PHH). One that is in
    place of all before it is the whole file, which could not be cut to its end."""
    source: Source
    number: int
    start: int
    size: int
    piece: Optional[Piece] = None
    blocks: Optional[list[bytes]] = field(default=None, repr=False)
    hands_before: int = 0
    is_in_place: bool = False

    def data(self) -> bytes:
        """No more than a byte beyond what an input may have."""
        if self.piece:
            return self.piece.data
        if self.blocks is not None:
            return b"".join(self.blocks)
        with open(self.source.path, "rb") as file:
            file.seek(self.start)
            return file.read(min(self.size, handref.MOST_BYTES + 1))


CHANGED = "it was changed while it was read"


def refuse_changed(*found: Source) -> None:
    """OSError: others have written to one of these files, or put another in its place."""
    for source in found:
        if source.is_changed():
            raise OSError(0, CHANGED, source.name or source.path)


@contextmanager
def unchanged(*found: Source) -> Iterator[None]:
    """Reads files. OSError: one was changed meanwhile, and what was read of it is nothing; nor is
    what was wrong with it."""
    try:
        yield
    except Exception:
        refuse_changed(*found)
        raise
    refuse_changed(*found)


def of_path(path: handref.Path, notation: Notation) -> Source:
    """A file that is in this notation, whatever its name says."""
    path = os.fspath(path)
    return _found(path, notation, os.stat(path), os.path.basename(path))


def natural(text: str) -> list[tuple[int, int, str]]:
    """Puts hand-2 before hand-10."""
    return [(0, int(part), "") if part.isdecimal() and len(part) < 19 else (1, 0, part)
            for part in re.split(r"([0-9]+)", text) if part]


def sources(paths: Sequence[str],
            notation: Optional[Notation] = None) -> tuple[list[Source], Counter[str]]:
    """The files among paths and in folders, in the order of their names; and how many files of
    folders are left out, by what they are. A path `-` is the standard input. ValueError: a path is
    not a file of hands."""
    found: list[Source] = []
    others: Counter[str] = Counter()
    for path in paths:
        if path == "-":
            found.append(_standard_input(notation))
        elif not os.path.isdir(path):
            found.append(_named(path, notation))
        else:
            inside, left = _inside(path, notation)
            found += inside
            others.update(left)
    return found, others


def _standard_input(notation: Optional[Notation]) -> Source:
    """What is read once, into a file that goes away with the process. HandrefError: a hand in it is
    longer than an input."""
    if notation is None:
        raise ValueError("standard input: --from says which notation it is")
    file = tempfile.NamedTemporaryFile(prefix="handref-")
    _HELD.append(file)
    ends = {"phh": phhs.NUMBER, "acpc": _HAND_LINE}.get(notation, _HAND_END)
    try:
        for block in phhs.bounded(sys.stdin.buffer, ends, "standard input"):
            file.write(block)
        file.flush()
    except OSError as fault:
        place = file.name if faults.no_room(fault) else "standard input"
        raise OSError(fault.errno, fault.strerror, place) from fault
    return Source(file.name, notation, os.path.getsize(file.name), 0, f"stdin.{notation}",
                  name="standard input")


_HELD: list[IO[bytes]] = []


def _named(path: str, notation: Optional[Notation]) -> Source:
    """A file that the call names."""
    own = notation or formats.notation_of(path)
    try:
        info = os.stat(path)
        if not stat.S_ISREG(info.st_mode):
            return _faulty(path, own or "phh", os.path.basename(path), "it is not a file")
        own = own or notation_in(path)
    except (OSError, ValueError) as why:
        return _faulty(path, own or "phh", os.path.basename(path), _why(why))
    if own is None:
        site = site_texts.site_in(path)
        raise ValueError(f"{texts.shown(path)}: " + (
            site_texts.said(*site) if site else "neither its name nor its first bytes say a "
            "notation; --from says which it is"))
    return _found(path, own, info, os.path.basename(path))


def _inside(top: str, notation: Optional[Notation]) -> tuple[list[Source], Counter[str]]:
    """The files of hands in a folder, and how many others there are, by what they are."""
    found: list[Source] = []
    others: Counter[str] = Counter()

    def fault(why: OSError) -> None:
        name = str(why.filename or top)
        found.append(_faulty(name, "phh", os.path.relpath(name, top), _why(why)))

    for path in below(top, fault):
        if _UNFINISHED.search(path):
            others["left by a call that was ended"] += 1
            continue
        own = formats.notation_of(path)
        if path.endswith(".game"):
            continue  # it is no file of hands, and not left out: logs are read with it
        try:
            info = os.stat(path)
            if not stat.S_ISREG(info.st_mode):
                raise OSError(0, "it is not a file")
            own = own or notation_in(path)
        except OSError as why:
            if own:
                found.append(_faulty(path, own, os.path.relpath(path, top), _why(why)))
                continue
        if own is None:
            site = site_texts.site_in(path)
            others[site_texts.said(*site) if site else "not hands"] += 1
            continue
        if notation and own[:3] == notation[:3]:
            own = notation  # --from says which dialect the files of OHH are in
        found.append(_found(path, own, info, os.path.relpath(path, top)))
    return sorted(found, key=lambda source: natural(source.out)), others


def below(top: str, fault: Callable[[OSError], None]) -> Iterator[str]:
    """What is not a folder in a folder and those below it, however deep they are. Links to folders
    are not followed."""
    left = [top]
    while left:
        try:
            with os.scandir(left.pop()) as listed:
                entries = list(listed)
        except OSError as why:
            fault(why)
            continue
        for entry in entries:
            try:
                is_folder = entry.is_dir()
            except OSError:
                is_folder = False
            if not is_folder:
                yield entry.path
            elif not entry.is_symlink():
                left.append(entry.path)


def _found(path: str, notation: Notation, info: os.stat_result, out: str) -> Source:
    inode = info.st_ino if stat.S_ISREG(info.st_mode) else 0
    return Source(path, notation, info.st_size, info.st_mtime_ns, out, inode=inode)


def _faulty(path: str, notation: Notation, out: str, fault: str) -> Source:
    return Source(path, notation, 0, 0, out, fault)


def _why(why: Exception) -> str:
    return (why.strerror if isinstance(why, OSError) and why.strerror else str(why)).lower()


def notation_in(path: str) -> Optional[Notation]:
    """The notation that the first bytes of a file show. The two dialects of OHH look the same."""
    with open(path, "rb") as read:
        file: Union[BinaryIO, gzip.GzipFile] = gzip.open(read) if path.endswith(".gz") else read
        try:
            data = file.read(1 << 16).removeprefix(b"\xef\xbb\xbf")
        except (EOFError, gzip.BadGzipFile, zlib.error):
            return None
    for pattern, own in ((_OHH, "ohh"), (_LOG, "acpc")):
        if pattern.match(data):
            return own  # type: ignore[return-value]
    return "phh" if _PHH.search(data) else None


NO_GAME = "a log needs a game file: --game, or a .game file beside it"


def game_beside(source: Source) -> str:
    """The game file that is beside a log: that with its name, or the only one there; or nothing."""
    if source.name:
        return ""  # the standard input
    own = re.sub(r"(\.[^./]+)?(\.gz)?\Z", "", source.path, count=1) + ".game"
    if os.path.isfile(own):
        return own
    folder = os.path.dirname(source.path)
    found = [name for name in os.listdir(folder or ".") if name.endswith(".game")]
    return os.path.join(folder, found[0]) if len(found) == 1 else ""


def with_games(found: Sequence[Source], note: Callable[[str], None],
               keep_going: bool = True) -> list[Source]:
    """The logs with the game files that are beside them, which are said. A log without one is a
    problem of its own where the others are still of use. ValueError: they are not."""
    logs = [source for source in found if source.notation == "acpc" and not source.fault]
    games = {source: game_beside(source) for source in logs}
    without = next((source for source in logs if not games[source]), None)
    if without and not keep_going:
        raise ValueError(f"{without.shown}: {NO_GAME}")
    for game, count in Counter(games.values()).items():
        first = next(source for source in logs if games[source] == game)
        others = f" and of {texts.counted(count - 1, 'other log')}" if count > 1 else ""
        if game:
            note(f"{texts.shown(game)}: taken as the game file of {first.shown}{others}")
    return [replace(source, game=games[source], fault="" if games[source] else NO_GAME)
            if source in games else source for source in found]


# Pieces.

def may_be_replaced(source: Source) -> bool:
    """Whether the last piece of a file may be in place of those before it, where they run ahead."""
    return source.notation == "phh" and not source.path.endswith(".gz") and \
        PIECE < source.size <= handref.MOST_BYTES


def regions(source: Source, ahead: bool = False) -> Iterator[Region]:
    """The pieces of a file, in order; where they run `ahead`, those of a file of PHH that is within
    the limit of an input are given before it is known whether it can be cut to its end. NotSure: a
    file of PHH is too long for an input, and cannot be cut."""
    is_packed = source.path.endswith(".gz")
    if source.notation == "phh" and (is_packed or source.size > PIECE):
        yield from _of_tables(source, ahead and may_be_replaced(source))
    elif is_packed:
        yield from _packed(source)
    elif source.size <= PIECE:
        yield Region(source, 0, 0, source.size)
    else:
        with open(source.path, "rb") as file:
            start = number = 0
            while start < source.size:
                end = _end_of_hand(file, start + PIECE - 1, source)
                yield Region(source, number, start, end - start)
                start, number = end, number + 1


def _of_tables(source: Source, ahead: bool) -> Iterator[Region]:
    """The pieces of a file of PHH, in the order of the numbers of its hands."""
    is_packed = source.path.endswith(".gz")
    kept: list[bytes] = []
    first = size = number = 0
    try:
        with phhs.plain_file(source.path) as file:
            length = os.fstat(file.fileno()).st_size
            try:
                for place, block in enumerate(
                        phhs.tables(file, ahead) if length > PIECE else ()):
                    if kept and size + len(block) > PIECE:
                        yield Region(source, number, first, 0 if is_packed else size, None, kept,
                                     first)
                        kept, first, size, number = [], place, 0, number + 1
                    kept.append(block if block.endswith(b"\n") else block + b"\n")
                    size += len(block)
            except phhs.NotSure:
                if length > handref.MOST_BYTES:
                    raise
                kept = []  # the file is the only piece, also where others were given before
            if kept:
                yield Region(source, number, first, 0 if is_packed else size, None, kept, first)
                return
            file.seek(0)
            data = file.read(handref.MOST_BYTES + 1)
            yield Region(source, 0, 0, source.size, Piece(data, "phh", 0, 0, 0),
                         is_in_place=number > 0)
    except (EOFError, gzip.BadGzipFile, zlib.error) as fault:
        raise OSError(0, str(fault)) from fault


def _packed(source: Source) -> Iterator[Region]:
    with open(source.path, "rb") as read, gzip.open(read) as file:
        start = taken = 0
        try:
            for number, data in enumerate(_blocks(file, source.notation)):
                piece = Piece(data, source.notation, 0, 0, 0)
                yield Region(source, number, start, read.tell() - taken, piece)
                start, taken = start + len(data), read.tell()
        except (EOFError, gzip.BadGzipFile, zlib.error) as fault:
            raise OSError(0, str(fault)) from fault


def _end_of_hand(file: BinaryIO, place: int, source: Source) -> int:
    """The first place after this one where a line of a log begins, or a hand of OHH may."""
    while place < source.size:
        file.seek(place)
        block = file.read(1 << 16)
        found = block.find(b"\n") + 1
        if source.notation != "acpc":
            match = _BLANK.search(block)
            found = match.end() if match else 0
        if found:
            return place + found
        place += max(1, len(block) - 1000)  # a longer empty line is no place to cut
    return source.size


def _blocks(file: gzip.GzipFile, notation: Notation) -> Iterator[bytes]:
    """What a packed file holds, cut in the same way. Where no hand ends within the limit, it is one
    piece that is too long, and what follows is not looked at."""
    kept = b""
    while block := file.read(PIECE):
        kept += block
        if len(kept) > handref.MOST_BYTES:
            break
        if notation == "acpc":
            place = kept.rfind(b"\n") + 1 if _HAND_LINE.search(b"\n" + kept) else 0
        else:
            place = max((match.end() for match in _HAND_END.finditer(kept)), default=0)
        if place:
            yield kept[:place]
            kept = kept[place:]
    if kept:
        yield kept


def with_outs(found: Sequence[Source], end: str) -> list[Source]:
    """The files with the names of what is made of them."""
    return [replace(source, out=re.sub(r"(\.[^./]+(\.gz)?)?\Z", f".{end}", source.out, count=1))
            for source in found]
