"""What is made of the answers to all pieces, in the order of the files: lines, sums and files."""
import os
import re
import shutil
import tempfile
from dataclasses import dataclass, field
from itertools import count as numbers_from
from itertools import islice
from typing import IO, Any, BinaryIO, Iterator, Mapping, Optional, Protocol, Sequence

import handref
from handref import hand_numbers, outputs, tables
from handref.journal import Call
from handref.matches import views
from handref.sources import Source


@dataclass
class Part:
    """What was written of a piece: where it is, and how many hands of its file are before it."""
    path: str
    hands: int
    hands_before: int


@dataclass
class Done:
    """A file of which all pieces are done, and what they wrote or summed up."""
    source: Source
    parts: list[Part] = field(default_factory=list)
    rows: list[list[Any]] = field(default_factory=list)  # of each piece
    problems: list[tuple[Optional[int], str]] = field(default_factory=list)  # hand, what is said
    is_refused: bool = False  # for more than verdicts that are part of the answer
    hands: int = 0


def numbers_of(part: Part, done: Done) -> Iterator[int]:
    """The places in their file that the hands of a part have, from 1 on, without those left out."""
    left_out = {hand for hand, _ in done.problems}
    found = (place for place in numbers_from(part.hands_before + 1) if place not in left_out)
    return islice(found, part.hands)


class Output:
    """Rows and lines for the standard output. Verdicts go out as they come, and with --keep-going
    all rows do; else they are kept in a file until all is done, so that nothing is written where a
    file is refused."""

    def __init__(self, out: BinaryIO, is_kept: bool) -> None:
        self.out = out
        self.kept: IO[bytes] = tempfile.SpooledTemporaryFile(1 << 23) if is_kept else out

    def write(self, text: str) -> None:
        """Writes a line or more."""
        self.kept.write(text.encode("utf-8", "backslashreplace"))

    def flush(self) -> None:
        """Shows the lines that were written, unless they are kept."""
        if self.kept is self.out:
            self.out.flush()

    def finish(self) -> None:
        """Writes what was kept."""
        if self.kept is not self.out:
            self.kept.seek(0)
            shutil.copyfileobj(self.kept, self.out, 1 << 20)
        self.out.flush()

    def close(self) -> None:
        """Drops what was kept."""
        if self.kept is not self.out:
            self.kept.close()


class Rows:
    """Rows in one of four forms: lines to read, CSV, TSV and JSON."""

    def __init__(self, form: str, columns: Sequence[str], output: Output) -> None:
        self.form, self.columns, self.output = form, columns, output
        self.line = {"csv": tables.csv_line, "tsv": tables.tsv_line}.get(form)
        if self.line:
            output.write(self.line(columns))

    def put(self, row: Mapping[str, tables.Value], text: str = "") -> None:
        """Writes a row, or its text where it is to be read."""
        if self.form == "json":
            self.output.write(tables.json_line({name: row[name] for name in self.columns}))
        elif self.line:
            self.output.write(self.line(row[name] for name in self.columns))
        else:
            self.output.write(text)

    def head(self, text: str) -> None:
        """Writes the names of columns that are to be read."""
        if self.form == "text":
            self.output.write(text)


class Gathered(Protocol):
    """What takes the texts of all files, one file after the other, and writes rows of them."""

    @property
    def columns(self) -> Sequence[str]:
        """The names of the columns of its rows."""

    def put(self, rows: Rows, done: Done) -> None:
        """Takes a file."""

    def finish(self, rows: Rows) -> None:
        """Writes what there is at the end."""


# Verdicts and replays: rows of each file.

def put_verdicts(rows: Rows, source: Source, told: Any, hands: int, legal: int, before: int,
                 lines: Optional[Sequence[int]]) -> None:
    """The verdict on each hand of a piece, with the numbers of the whole file."""
    wrong = {hand: error for hand, error in told if hand}
    for error in (error for hand, error in told if not hand):
        _put_verdict(rows, source, None, error.line_number, error)
    if not wrong and legal < hands:
        return  # the piece does not read as a whole
    for hand in range(before + 1, before + hands + 1):
        line = lines[hand - before - 1] if lines else None
        error = wrong.get(hand)
        _put_verdict(rows, source, hand, error.line_number if error else line, error)


def _put_verdict(rows: Rows, source: Source, hand: Optional[int], line: Optional[int],
                 error: Optional[handref.HandrefError]) -> None:
    row: dict[str, tables.Value] = {"file": source.name or source.path}
    row.update(tables.verdict(hand, line, error))
    said = re.sub(r"^refused: hand \d+: ", "", error.line) if error else "legal"
    rows.put(row, f"{source.shown}: " + (f"hand {hand}: " if hand and (
        not error or error.status == 1) else "") + f"{said}\n")


def put_replays(rows: Rows, done: Done) -> None:
    """The rows of the replays of a file."""
    for part in done.parts:
        with open(part.path, encoding="utf-8", newline="\n") as file:
            for text in _each_hand(file, part.hands_before):
                for row in tables.replay_rows(handref._replayed(text.partition(" ")[2])):
                    rows.put({"file": done.source.name or done.source.path, **row})
                if rows.form == "text":
                    for line in text.splitlines(keepends=True):
                        is_of_hand = line.startswith("hand ")  # its first line, and its verdict
                        rows.output.write(f"{done.source.shown}: " * is_of_hand + line)
        os.remove(part.path)


def put_views(rows: Rows, done: Done) -> int:
    """The rows of what an agent saw of a file, and how many there are."""
    count = 0
    for part in done.parts:
        with open(part.path, encoding="utf-8", errors="surrogateescape", newline="\n") as file:
            for text in file:
                hand, _, line = text[:-1].partition(" ")
                count += 1
                rows.put(views.row(done.source.name or done.source.path,
                                   int(hand) + part.hands_before, line), f"{line}\n")
        os.remove(part.path)
    return count


def _each_hand(file: Any, before: int) -> Iterator[str]:
    """The text of each hand of a replay, with the number of the hand in the whole file."""
    kept: list[str] = []
    for line in file:
        said = re.match(r"hand (\d+)([ :])", line)
        if said:
            line = f"hand {int(said[1]) + before}{line[said.start(2):]}"
        if said and said[2] == " " and kept:
            yield "".join(kept)
            kept = []
        kept.append(line)
    if kept:
        yield "".join(kept)


# Sums over all files.

def of_report(said: handref.Report) -> list[list[Any]]:
    """The rows of the report of a piece."""
    return [["game", row.name, row.hands, row.chips] for row in said.games] + \
        [["name", row.name, row.hands, row.chips] for row in said.names]


def of_session(said: handref.Session) -> list[list[Any]]:
    """The rows of the session of a piece, and its rakes."""
    rows: list[list[Any]] = [
        [row.name, row.first, row.gaps, row.net, row.last, row.hands, row.entered, row.raised,
         row.shown, row.won] for row in said.rows]
    return [*rows, ["rake", said.rake]]


class ReportSum:
    """The reports of many files added up: games, a total, names in the order in which they come."""
    columns = tables.COLUMNS["report"]

    def __init__(self) -> None:
        self.found: dict[str, dict[str, list[int]]] = {"game": {}, "name": {}}

    def add(self, rows: Sequence[Sequence[Any]]) -> None:
        """Adds the rows of a piece."""
        for kind, name, hands, chips in rows:
            sums = self.found[kind].setdefault(name, [0, 0])
            sums[0] += hands
            sums[1] += chips

    def rows(self) -> tables.Table:
        """The games, the total and the names."""
        games, names = self.found["game"], self.found["name"]
        total = [sum(each[0] for each in games.values()), sum(each[1] for each in games.values())]
        for kind, found in (("game", _in_order(games)), ("total", [(None, total)]),
                            ("name", names.items())):
            for name, (hands, chips) in found:  # type: ignore[attr-defined]
                yield {"kind": kind, "name": name, "hands": hands, "chips": chips}

    def put(self, rows: Rows) -> None:
        """Writes the sums."""
        rows.head(f"{'game':<6}{'hands':>8}{'pots':>20}\n")
        for row in self.rows():
            name, hands, chips = row["name"], row["hands"], row["chips"]
            is_name = row["kind"] == "name"
            rows.put(row, f"{chips:>20}{hands:>8}  {tables.escaped(str(name))}\n" if is_name else
                     f"{name or 'total':<6}{hands:>8}{chips:>20}\n")
            if row["kind"] == "total":
                rows.head(f"{'net':>20}{'hands':>8}  name\n")


_GAMES = ("FT", "NT", "NS", "PO", "FO/8", "F7S", "F7S/8", "FR", "N2L1D", "F2L3D", "FB")


def _in_order(games: Mapping[str, list[int]]) -> list[tuple[str, list[int]]]:
    """The games in the order in which `report` lists them."""
    return sorted(games.items(), key=lambda each: _GAMES.index(each[0]) if each[0] in _GAMES
                  else len(_GAMES))


class SessionSum:
    """The sessions of many pieces as one: what a name has more or less at the begin of a piece than
    at the end of the one before it is a gap, as between two hands."""
    columns = tables.COLUMNS["session"]

    def __init__(self) -> None:
        self.found: dict[str, list[int]] = {}
        self.rake = 0

    def add(self, rows: Sequence[Sequence[Any]]) -> None:
        """Adds the rows of a piece, which comes after those that were added before."""
        for name, *numbers in rows[:-1]:
            own = self.found.get(name)
            if own is None:
                self.found[name] = list(numbers)
                continue
            own[1] += numbers[1] + numbers[0] - own[3]
            own[2] += numbers[2]
            own[3] = numbers[3]
            own[4:] = [one + two for one, two in zip(own[4:], numbers[4:])]
        self.rake += rows[-1][1] if rows else 0

    def rows(self) -> tables.Table:
        """The names; then the chips that the rakes took, as what has been won by nobody."""
        for name, numbers in self.found.items():
            yield dict(zip(self.columns, ("name", name, *numbers)))
        empty: dict[str, tables.Value] = dict.fromkeys(self.columns)
        yield {**empty, "kind": "rake", "net": self.rake}

    def put(self, rows: Rows) -> None:
        """Writes the rows of all names, and the rakes."""
        rows.head("".join(f"{name:>20}" for name in self.columns[2:6])
                  + "".join(f"{name:>8}" for name in self.columns[6:]) + "  name\n")
        for row in self.rows():
            _, name, *numbers = row.values()
            text = "".join(f"{number or 0:>20}" for number in numbers[:4]) + "".join(
                f"{number or 0:>8}" for number in numbers[4:])
            rows.put(row, f"{text}  {tables.escaped(str(name))}\n" if row["kind"] == "name" else
                     f"rake {self.rake}\n")


# Files that are written.

class Files:
    """The files that `convert` makes: of each file one, one of all (join), or one of each hand
    (split). A file is written beside its place, and gets its name when it is whole. What is left
    out of it is listed in a file beside it."""

    def __init__(self, call: Call, out: str, force: bool) -> None:
        self.call, self.out, self.force = call, out, force
        self.joined: list[Done] = []
        self.written: list[tuple[str, str]] = []  # the paths of files, and their places in `out`

    def take(self, done: Done) -> None:
        """Writes what is made of a file; where files are joined, at the end."""
        if self.call.layout == "join":
            self.joined.append(done)
        elif self.call.layout == "split":
            self._split(done)
        else:
            self._write(os.path.join(self.out, done.source.out) if done.source.out else self.out,
                        [done])

    def finish(self) -> None:
        """Writes the one file of all."""
        if self.call.layout == "join":
            self._write(self.out, self.joined)

    def _write(self, out: str, files: Sequence[Done]) -> None:
        count = sum(part.hands for done in files for part in done.parts)
        if count:
            with outputs.written(out, self.force) as file:
                number = 0
                for part in (part for done in files for part in done.parts):
                    for text in self._hands(part, number, count):
                        file.write(text)
                    number += part.hands
            self._note(out)
        for path in {part.path for done in files for part in done.parts}:
            os.remove(path)
        self._list_left_out(out, files)

    def _hands(self, part: Part, number: int, count: int) -> Iterator[bytes]:
        """What a part becomes in a file of `count` hands, after `number` of them."""
        to = self.call.to
        assert to
        with open(part.path, "rb") as file:
            text = file.read()
        is_each = self.call.layout == "each" and not self.call.each
        if is_each and not number and (part.hands == count or to != "phh"):
            yield text
            return
        for place, hand in enumerate(hand_numbers.placed(text, to, number, is_each), number):
            head = b"[%d]\n" % (place + 1) if to == "phh" and count > 1 else b""
            yield b"\n" * bool(place and to != "acpc") + head + hand

    def _split(self, done: Done) -> None:
        to = self.call.to
        assert to
        stem = os.path.join(self.out, os.path.splitext(done.source.out)[0])
        for part in done.parts:
            with open(part.path, "rb") as file:
                text = file.read()
            for hand, number in zip(hand_numbers.hands(text, to), numbers_of(part, done)):
                with outputs.written(f"{stem}-{number}.{to}", self.force) as new:
                    new.writelines(hand_numbers.placed(hand, to, 0))
                self._note(f"{stem}-{number}.{to}")
            os.remove(part.path)
        self._list_left_out(stem, [done])

    def _note(self, path: str) -> None:
        self.written.append((path, path[len(self.out):].lstrip(os.sep)))

    def _list_left_out(self, out: str, files: Sequence[Done]) -> None:
        """Writes the list of the hands that a file could have had, or takes an old one away."""
        lines = [f"{done.source.shown}: {said}\n" for done in files for _, said in done.problems]
        if not self.call.each:
            return
        if lines:
            with outputs.written(f"{out}.left-out", self.force) as file:
                file.write("".join(lines).encode())
            self._note(f"{out}.left-out")
        elif os.path.exists(f"{out}.left-out"):
            outputs.refuse_to_replace(f"{out}.left-out", self.force)
            os.remove(f"{out}.left-out")
