"""Finds the hands of a long file of PHH, so that it can be cut between them.

    with open(path, "rb") as file:
        for block in phhs.tables(file): ...

A file of several hands is a document of TOML with a table for each, `[1]`, `[2]` and so on. A line
that looks like such a header may also be inside a text of many lines or a list, so the document is
walked from its first byte, text by text and bracket by bracket. Where the walk cannot say for sure
that a table begins, `NotSure` says at which line and why.
"""
import gzip
import mmap
import os
import re
import shutil
import tempfile
from array import array
from contextlib import contextmanager
from typing import IO, BinaryIO, Iterator, Optional, Sequence, Union

import handref

Bytes = Union[bytes, "mmap.mmap"]

# A line with a key and a value that ends on it: a number, a short text, or a list of these. Spaces
# are bounded, so that no line makes the search slow; what has another form is walked sign by sign.
_S = rb"[ \t]{0,9}"
_TEXT = rb"(?:\"[^\"\\\n]*\"|'[^'\n]*')"
_VALUE = (rb"(?:" + _TEXT + rb"|[^\"'\[\]{}#\n]+|\[[^\"'\[\]{}#\n]*\]"
          rb"|\[" + _S + _TEXT + _S + rb"(?:," + _S + _TEXT + _S + rb")*,?" + _S + rb"\])")
_LINE = (_S + rb"(?:[A-Za-z0-9_-]+" + _S + rb"=" + _S + _VALUE + _S + rb")?(?:#[^\n]*)?\r?\n")
_PLAIN = re.compile(rb"(?:" + _LINE + rb"){0,500}")
_ONE_PLAIN = re.compile(_LINE)
_GAP = re.compile(rb"[ \t]*(?:#[^\n]*)?\r?(?:\n|\Z)")
_HEADER = re.compile(rb"[ \t]*\[[ \t]*(?:([0-9]+)|\"([0-9]+)\"|'([0-9]+)')[ \t]*([].])")
_BRACKET = re.compile(rb"[ \t]*\[")
_SIGN = re.compile(rb"[#\"'\[\]{}\n]")
_LINE_END = re.compile(rb"\n|\Z")
_SHORT = {b'"': re.compile(rb"[\"\\\n]"), b"'": re.compile(rb"['\n]")}
_LONG = {b'"': re.compile(rb"\\|\"\"\""), b"'": re.compile(rb"'''")}
_RUN = {b'"': re.compile(rb'"{3,5}'), b"'": re.compile(rb"'{3,5}")}
_HAND = re.compile(rb"^[ \t]*hand[ \t]*=(?![ \t]*(?:\"\"|''))", re.M)
_LIKE_HEADER = re.compile(rb"\n[ \t]*\[[ \t]*[\"']?([0-9]{1,18})")
_BLOCK = 1 << 21  # bytes that are read at a time
NUMBER = re.compile(rb"\[[ \t]*[\"']?[0-9]")  # of a header, or of something else


class NotSure(ValueError):
    """A file of PHH that cannot be cut for sure: at which line, and why."""

    def __init__(self, line: int, why: str) -> None:
        super().__init__(f"line {line}: {why}")
        self.line, self.why = line, why


class Hands:
    """The hands of a file in the order of their numbers, each with its place in the file. A file
    of one hand, which has no table for it, is not cut. Of the front of a file (where it is not
    whole) the last hand may be cut, and what comes after a fault is not looked at."""

    def __init__(self, data: Bytes, is_whole: bool = True, lines_before: int = 0) -> None:
        self.data, self.is_whole, self.lines_before = data, is_whole, lines_before
        self.numbers = array("q")
        self.starts = array("q")
        self.end = 0
        self.order: Sequence[int] = range(0)
        self.is_cut = self._walk()

    def __len__(self) -> int:
        return len(self.numbers)

    def span(self, place: int) -> tuple[int, int]:
        """Where the hand is that is at this place in the order of the numbers, from 0."""
        found = self.order[place]
        return self.starts[found], (self.starts[found + 1] if found + 1 < len(self.starts)
                                    else self.end)

    # The walk.

    def _walk(self) -> bool:
        data = self.data
        at = 3 if data[:3] == b"\xef\xbb\xbf" else 0
        while found := _GAP.match(data, at):
            if found.end() == at:
                break
            at = found.end()
        size = self.end = len(data)
        if at >= size or not _BRACKET.match(data, at):
            return False
        try:
            while at < size:
                at = self._statements(self._header(at))
        except NotSure:
            if self.is_whole or len(self.numbers) < 2:
                raise
        self._sort()
        return True

    def _header(self, at: int) -> int:
        """Notes the table that begins here; gives the end of its line."""
        found = _HEADER.match(self.data, at)
        text = next(filter(None, found.groups()[:3]), b"") if found else b""
        if not found:
            raise self._not_sure(at, "this table is not a hand, whose header is a number, as [7]")
        if len(text) > 18 or text != b"0" and text.startswith(b"0"):
            raise self._not_sure(at, "the number of this hand has more than 18 digits, or a zero "
                                     "in front")
        if found[4] == b".":  # a table in that of a hand
            if not self.numbers or self.numbers[-1] != int(text):
                raise self._not_sure(at, "this table is not below that of its hand")
            closed = self._statement(at)
            return closed
        self.numbers.append(int(text))
        self.starts.append(at)
        gap = _GAP.match(self.data, found.end())
        if not gap:
            raise self._not_sure(at, "something follows the header of this table")
        return gap.end()

    def _statements(self, at: int) -> int:
        """The begin of the next header, or the end of the file."""
        data, size = self.data, self.end
        while at < size:
            found = _PLAIN.match(data, at)
            if found and found.end() > at:
                at = found.end()
            elif _BRACKET.match(data, at):
                return at
            else:
                at = self._statement(at)
        return at

    def _statement(self, at: int) -> int:
        """The end of a key and its value, which may go over many lines."""
        data, begin, depth = self.data, at, 0
        while found := _SIGN.search(data, at):
            sign, at = found[0], found.end()
            if sign == b"#":
                end = _LINE_END.search(data, at)
                at = end.start() if end else self.end
            elif sign in b"[{":
                depth += 1
            elif sign in b"]}":
                depth -= 1
            elif sign == b"\n":
                if depth <= 0:
                    return at
            else:
                at = self._text(at - 1, sign)
        if depth > 0:
            raise self._not_sure(begin, "a bracket that opens here is not closed")
        return self.end

    def _text(self, at: int, quote: bytes) -> int:
        """The end of a text that begins here."""
        data, begin = self.data, at
        is_long = data[at:at + 3] == quote * 3
        pattern, at = (_LONG if is_long else _SHORT)[quote], at + (3 if is_long else 1)
        while found := pattern.search(data, at):
            if found[0] == b"\\":
                at = found.end() + 1
            elif found[0] == b"\n":
                raise self._not_sure(begin, "a text that opens here is not closed on its line")
            elif is_long:
                run = _RUN[quote].match(data, found.start())
                return run.end() if run else found.end()
            else:
                return found.end()
        raise self._not_sure(begin, "a text that opens here is not closed")

    def _sort(self) -> None:
        numbers = self.numbers
        self.order = range(len(numbers))
        if any(numbers[place] >= numbers[place + 1] for place in range(len(numbers) - 1)):
            self.order = array("q", sorted(self.order, key=numbers.__getitem__))
            for one, two in zip(self.order, self.order[1:]):
                if numbers[one] == numbers[two]:
                    raise self.twice(max(one, two))

    def twice(self, table: int) -> NotSure:
        """That a table has the number of an earlier one."""
        return self._not_sure(self.starts[table],
                              f"the table [{self.numbers[table]}] is here a second time")

    def _not_sure(self, at: int, why: str) -> NotSure:
        return NotSure(self.lines_before + 1 + lines(self.data, at), why)


def lines(data: Bytes, end: int) -> int:
    """How many line ends there are before a place."""
    return sum(data[at:min(at + (1 << 20), end)].count(b"\n") for at in range(0, end, 1 << 20))


def has_number(block: bytes) -> bool:
    """Whether a hand has the key `hand`, with more than an empty text: by a search where all its
    lines are plain, and else by reading it."""
    at = 0
    while (found := _PLAIN.match(block, at)) and found.end() > at:
        at = found.end()
    if at == len(block):
        return bool(_HAND.search(block))
    from handref import toml
    try:
        return bool(toml.read(block.decode()).get("hand", "") != "")
    except (toml.TomlError, UnicodeDecodeError):
        return True  # the program says what is wrong with it


def tables(file: IO[bytes], ahead: bool = False) -> Iterator[bytes]:
    """The tables of the hands of a file in the order of their numbers, the first ones while the
    rest is not yet read, where it is long or they may run `ahead`; nothing if it is not cut.
    NotSure: it cannot be cut further."""
    if (ahead or os.fstat(file.fileno()).st_size > handref.MOST_BYTES) and _ascends(file):
        yield from _in_parts(file)
        return
    with own_map(file) as data:
        hands = Hands(data)
        for place in range(len(hands)):
            start, end = hands.span(place)
            yield data[start:end]


def _ascends(file: IO[bytes]) -> bool:
    """Whether the numbers of all lines that look like a header ascend: then those of the headers
    among them do."""
    last, rest = -1, b"\n"
    file.seek(0)
    while block := file.read(_BLOCK):
        block = rest + block
        end = max(block.rfind(b"\n"), len(block) - 1000)
        for found in map(int, _LIKE_HEADER.findall(block, 0, end)):
            if found < last:
                return False
            last = found
        rest = block[end:]
    return all(last <= number for number in map(int, _LIKE_HEADER.findall(rest)))


def _in_parts(file: IO[bytes]) -> Iterator[bytes]:
    """The tables of a long file whose numbers ascend. What is read is walked up to its last header;
    from there on it is walked again with what comes after it."""
    data, lines_before, last = b"", 0, -1
    file.seek(0)
    while True:
        more = file.read(_BLOCK)
        data += more
        try:
            hands = Hands(data, not more, lines_before)
        except NotSure:
            if not more or len(data) > handref.MOST_BYTES + _BLOCK:
                raise
            continue
        if not hands.is_cut:
            if more and len(data) <= handref.MOST_BYTES:
                continue  # its first table may begin in what comes
            return
        whole = len(hands) - bool(more)
        if not whole and len(data) - hands.starts[0] > handref.MOST_BYTES:
            raise handref.error_of(7, f"limit: input bytes {handref.MOST_BYTES}")
        for place in range(whole):
            if hands.numbers[place] <= last:
                raise hands.twice(place)
            last = hands.numbers[place]
            start, end = hands.span(place)
            yield data[start:end]
        if not more:
            return
        end = hands.starts[whole]
        lines_before, data = lines_before + lines(data, end), data[end:]


@contextmanager
def own_map(file: IO[bytes]) -> Iterator[Bytes]:
    """The bytes of a file; of a long one those of a copy that nobody else can cut short meanwhile."""
    file.seek(0)
    if os.fstat(file.fileno()).st_size <= handref.MOST_BYTES:
        yield file.read()
        return
    with tempfile.TemporaryFile() as copy:
        shutil.copyfileobj(file, copy, 1 << 20)
        copy.flush()
        with mmap.mmap(copy.fileno(), 0, access=mmap.ACCESS_READ) as data:
            yield data


@contextmanager
def plain_file(path: "Union[str, os.PathLike[str]]") -> Iterator[IO[bytes]]:
    """A file, unpacked if it is packed. HandrefError: what is packed has no hand that ends within
    the limit of an input."""
    if not os.fspath(path).endswith(".gz"):
        with open(path, "rb") as file:
            yield file
        return
    with tempfile.TemporaryFile() as unpacked, gzip.open(path) as packed:
        for block in bounded(packed, NUMBER, os.fspath(path)):
            unpacked.write(block)
        unpacked.flush()
        yield unpacked


def bounded(file: "Union[BinaryIO, gzip.GzipFile]", ends: "re.Pattern[bytes]",
            name: str) -> Iterator[bytes]:
    """The blocks of a file that may be of any length. HandrefError: nothing in it looks like the
    end of a hand for longer than an input may be, so the rest need not be kept."""
    size = begin = 0
    before = b""
    while block := file.read(1 << 20):
        yield block
        size += len(block)
        begin = size if ends.search(before + block) else begin
        before = block[-100:]
        if size - begin > handref.MOST_BYTES + (1 << 20):
            raise handref.error_of(7, f"limit: input bytes {handref.MOST_BYTES}", name)


def counted(text: bytes) -> int:
    """How many hands a document has; 1 if it is not sure."""
    try:
        return len(Hands(text)) or 1
    except NotSure:
        return 1


def blocks(text: bytes) -> Iterator[tuple[Optional[int], bytes]]:
    """The hands of a document with the numbers of their tables: a hand without a table has none."""
    hands = Hands(text)
    if not hands.is_cut:
        if text.strip():
            yield None, text
        return
    for place in range(len(hands)):
        start, end = hands.span(place)
        body = text.find(b"\n", start, end) + 1
        yield hands.numbers[hands.order[place]], text[body:end] if body else b""
