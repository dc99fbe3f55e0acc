"""Finds hands that are there more than once, whatever their notations, files, places and numbers.

Each hand gets two ids: of its record (all notes but its number) and of its play (no notes at all).
They are those of `handref ids`, where the program has that command, and else the sums of what
`convert` writes in PHH, which is the same for equal hands. They are kept in tables on disk, so that
memory does not grow with the hands.
"""
import csv
import hashlib
import io
import re
import sqlite3
from functools import lru_cache
from typing import Iterator, Optional, Sequence

import handref
from handref import HandrefError, UnclearOutput, hand_numbers, texts, toml
from handref.formats import PHH_KEYS, PHH_NOTES
from handref.journal import program
from handref.results import Done, Rows, numbers_of
from handref.sources import Source

COLUMNS = ("file", "hand", "as_file", "as_hand", "kind")
ID = 32  # bytes of an id
SIZE = 2 * ID + 8  # of the ids of a hand with the sum of its number
COPY, NUMBER, PLAY = "copy", "number", "play"  # kinds of duplicates
_KINDS = {COPY: "exact copy", NUMBER: "copy under another number",
          PLAY: "same play under other names or dates"}
_PLAY_KEYS = [key for key in PHH_KEYS if key not in PHH_NOTES]
_PLAY_LINE = re.compile(rb"^(?:%s) = .*\n" % "|".join(_PLAY_KEYS).encode(), re.M)


# Ids.

def ids(text: bytes, are_own: Optional[Sequence[bool]]) -> bytes:
    """The ids of the hands of a document of PHH that `convert` wrote, one after the other. A hand
    without a number there has that of its place, if it is its own; None: all have their own."""
    found = []
    for place, hand in enumerate(hand_numbers.hands(text, "phh")):
        start, end = hand_numbers.number_in(hand) or (0, 0)
        own = hand[start:end].partition(b"=")[2].strip() or b"%d" % place * (
            are_own is None or are_own[place])
        record = hand[:start] + hand[end:]
        found.append(_joined(hashlib.sha256(_play(record)).digest(),
                             hashlib.sha256(record).digest(), own))
    return b"".join(found)


def ids_of_program(text: bytes, are_own: Optional[Sequence[bool]]) -> bytes:
    """The same of what `handref ids` wrote."""
    rows = list(csv.DictReader(io.StringIO(text.decode("utf-8"), newline="")))
    if are_own is not None and len(are_own) != len(rows):
        raise UnclearOutput(0, "the output of ids is cut")
    return b"".join(_joined(bytes.fromhex(row["play"]), bytes.fromhex(row["record"]),
                            row["number"].encode() * (are_own is None or are_own[place]))
                    for place, row in enumerate(rows))


def _joined(play: bytes, record: bytes, number: bytes) -> bytes:
    return record + play + (hashlib.sha256(number).digest()[:8] if number else bytes(8))


def record_of(own: bytes) -> bytes:
    """The id of the record, of the ids of a hand."""
    return own[:ID]


def play_of(own: bytes) -> bytes:
    """The id of the play, of the ids of a hand."""
    return own[ID:2 * ID]


def _play(hand: bytes) -> bytes:
    """The lines of a hand that are no notes."""
    if not hand_numbers.has_long_text(hand):
        return b"".join(_PLAY_LINE.findall(hand))
    text = hand.decode()
    found = [(place.key, place.end) for path, place in toml.places(text).items()
             if path in {(key,) for key in _PLAY_KEYS} and place.key is not None]
    return "".join(text[start:end] + "\n" for start, end in sorted(found)).encode()


def has_ids() -> bool:
    """Whether the program has the command `ids`."""
    return _has_ids(program())


@lru_cache(maxsize=8)
def _has_ids(name: str) -> bool:
    try:
        return handref.run(["ids", "--from", "phh"]).startswith(b"hand,number,play,record")
    except HandrefError as error:
        if error.status == 2:  # these words are no command of an earlier version
            return False
        raise


# What was seen.

class Seen:
    """The hands that were seen, and where each was seen first."""
    columns = COLUMNS

    def __init__(self, with_plays: bool = False, is_kept: bool = False) -> None:
        self.with_plays, self.is_kept = with_plays, is_kept
        self.rows = sqlite3.connect("")  # a file that goes away, and is in memory while it is small
        self.rows.execute("pragma cache_size = -32000")
        self.rows.execute("pragma journal_mode = off")  # nothing of it is ever taken back
        self.rows.execute("create table seen (record blob primary key, number blob, file integer, "
                          "hand integer) without rowid")
        self.rows.execute("create table plays (play blob primary key, file integer, hand integer) "
                          "without rowid")
        self.rows.execute("create table left (file integer, hand integer, as_file integer, as_hand "
                          "integer, kind text)")
        self.sources: list[Source] = []
        self.counts: list[int] = []  # the hands of each
        self.hands = 0
        self.found = dict.fromkeys(_KINDS, 0)

    def put(self, rows: Rows, done: Done) -> None:
        """Writes a row for each hand of a file that was seen before."""
        self.sources.append(done.source)
        self.counts.append(sum(part.hands for part in done.parts))
        for part in done.parts:
            with open(part.path, "rb") as file:
                for hand in numbers_of(part, done):
                    self._put(rows, file.read(SIZE), hand)

    def _put(self, rows: Rows, own: bytes, hand: int) -> None:
        place, number = len(self.sources) - 1, own[2 * ID:]
        self.hands += 1
        if self.rows.execute("insert or ignore into seen values (?, ?, ?, ?)",
                             (record_of(own), number, place, hand)).rowcount:
            if self.rows.execute("insert or ignore into plays values (?, ?, ?)",
                                 (play_of(own), place, hand)).rowcount:
                return
            kind = PLAY
            (file, as_hand), = self.rows.execute("select file, hand from plays where play = ?",
                                                 (play_of(own),))
        else:
            (other, file, as_hand), = self.rows.execute(
                "select number, file, hand from seen where record = ?", (record_of(own),))
            kind = COPY if other == number else NUMBER
        self.found[kind] += 1
        if kind == PLAY and not self.with_plays:
            return
        self._say(rows, (place, hand), (file, as_hand), kind)

    def _say(self, rows: Rows, own: tuple[int, int], other: tuple[int, int], kind: str) -> None:
        if self.is_kept:
            self.rows.execute("insert into left values (?, ?, ?, ?, ?)", (*own, *other, kind))
        source, first = self.sources[own[0]], self.sources[other[0]]
        said = "" if kind == COPY else f" ({_KINDS[kind]})"
        rows.put({"file": name_of(source), "hand": own[1], "as_file": name_of(first),
                  "as_hand": other[1], "kind": kind},
                 f"{source.shown} hand {own[1]}: as {first.shown} hand {other[1]}{said}\n")

    def finish(self, rows: Rows) -> None:
        """Writes how many of the hands were seen before."""
        listed = [kind for kind in _KINDS if kind != PLAY or self.with_plays]
        count = sum(self.found[kind] for kind in listed)
        rows.head(f"duplicates: {count} of {texts.counted(self.hands, 'hand')}\n")
        for kind in listed:
            if self.found[kind]:
                rows.head(f"{self.found[kind]:8} {_KINDS[kind]}\n")
        if self.found[PLAY] and not self.with_plays:
            rows.head(f"not listed: {texts.counted(self.found[PLAY], 'hand')} with the same play "
                      "under other names or dates (--no-notes)\n")

    def left(self, file: int) -> Iterator[tuple[int, int, int, str]]:
        """The hands of a file that were seen before, in order: the hand, the file and the hand as
        which it was seen, and the kind."""
        yield from self.rows.execute("select hand, as_file, as_hand, kind from left where file = ? "
                                     "order by hand", (file,))

    def index(self) -> None:
        """Makes it fast to find the hands of a file."""
        self.rows.execute("create index if not exists of_file on left (file, hand)")


def name_of(source: Source) -> str:
    """What a file is called in rows."""
    return source.name or source.path
