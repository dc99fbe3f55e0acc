"""What is wrong with files of hands: where, what was said, what would have been legal, what to do.

    handref explain [--from NOTATION] [--game GAME] PATH.. [LINE]

LINE is a line that the program has printed about a file; without one it is asked, piece by piece,
so files may be of any length. What is legal comes from the program, and what a line means from
docs/MESSAGES.md.
"""
import os
import sys
import tempfile
from collections import Counter, deque
from concurrent.futures import Future, ThreadPoolExecutor
from dataclasses import dataclass, replace
from itertools import islice
from typing import IO, Deque, Iterator, Optional, Sequence, Union

import handref
from handref import Game, HandrefError, Hands, Notation, Piece, faults, phhs, places
from handref.explanation import (Explanation, is_printed, of, of_line, of_piece, printed,
                                 status_of)
from handref.progress import Progress
from handref.sources import (CHANGED, NO_GAME, Region, Source, of_path, regions, sources,
                             unchanged, with_games)
from handref.texts import counted, shown

__all__ = ["Explanation", "each", "explain", "is_printed", "of_file", "of_line", "printed"]

Answer = Union[Sequence[handref.Verdict], HandrefError]


def explain(hands: Hands, notation: Notation, game: Game = None,
            line: Optional[str] = None) -> Explanation:
    """Explains a line about a file of any length, or the first fault of the file."""
    if not isinstance(hands, bytes):
        return of_file(of_path(hands, notation), game, line)
    with tempfile.NamedTemporaryFile(prefix="handref-") as file:
        file.write(hands)
        file.flush()
        source = Source(file.name, notation, len(hands), 0, name="FILE")
        found = of_file(source, game, line)
    found.file = "" if found.file == source.name else found.file
    return found


def each(found: Sequence[Source], game: Game = None,
         bar: Optional[Progress] = None) -> Iterator[Explanation]:
    """What is wrong first with each file, and how many of its hands are legal where nothing is."""
    for source in found:
        yield of_file(source, game or source.game or None, None, bar)


def of_file(source: Source, game: Game = None, line: Optional[str] = None,
            bar: Optional[Progress] = None) -> Explanation:
    """The same of a file, or what a line means that was printed about it. OSError: it was changed
    while it was read."""
    with unchanged(source):
        return _of_file(source, game, line, bar)


def _of_file(source: Source, game: Game, line: Optional[str],
             bar: Optional[Progress]) -> Explanation:
    name = source.name or source.path
    game = game if source.notation == "acpc" else None
    fault = source.fault or (NO_GAME if source.notation == "acpc" and not game else "")
    if fault:
        return Explanation(9 if fault == NO_GAME else 5, fault, name)
    if line is not None:
        return _line_about(source, game, line)
    file = _File(source, name, game)
    try:
        for region, answer in _judged(source, game):
            if not isinstance(answer, HandrefError):
                refused = next((row.refused for row in answer if row.refused), None)
                if refused is None:
                    file.pass_by(region, len(answer), bar)
                    continue
            return file.explained(region, answer)
    except phhs.NotSure as why:
        return Explanation(3, f"not cut at its hands: {why}", name)
    if not file.hands:
        return Explanation(3, "no hands", name, facts=[
            "The file is empty, or has nothing but comments."])
    is_are = "hands are" if file.hands > 1 else "hand is"
    return Explanation(0, "", name, facts=[
        f"{shown(name)}: nothing is wrong: {file.hands} {is_are} legal"])


def _not_explained(source: Source, fault: Exception) -> Explanation:
    """One of several files that cannot be read, or of which this package makes a mistake."""
    line = faults.why(fault) if isinstance(fault, OSError) else faults.bug(fault)
    return Explanation(5 if isinstance(fault, OSError) else 70, line, source.name or source.path)


def _judged(source: Source, game: Game) -> Iterator[tuple[Region, Answer]]:
    """The verdicts on the pieces of a file, in order; pieces run ahead, but not far."""
    jobs = len(os.sched_getaffinity(0))
    pool = ThreadPoolExecutor(jobs)
    waiting: "Deque[tuple[Region, Future[Answer]]]" = deque()

    def judge(region: Region) -> Answer:
        try:
            return handref.judge(region.data(), source.notation, game)
        except handref.NoProgram:
            raise  # nothing is known of the hands
        except HandrefError as error:
            return error

    try:
        for region in regions(source):
            waiting.append((region, pool.submit(judge, region)))
            if len(waiting) > 2 * jobs:
                first, answer = waiting.popleft()
                yield first, answer.result()
        while waiting:
            first, answer = waiting.popleft()
            yield first, answer.result()
    finally:
        pool.shutdown(cancel_futures=True)


@dataclass
class _File:
    """A file, and how many hands and lines of it are before the piece that is looked at."""
    source: Source
    name: str
    game: Game
    hands: int = 0
    lines: int = 0

    def pass_by(self, region: Region, hands: int, bar: Optional[Progress]) -> None:
        """Counts a piece of which all hands are legal."""
        self.hands += hands
        self.lines += region.data().count(b"\n")
        if bar:
            bar.done(region.size, hands)

    def explained(self, region: Region, answer: Answer) -> Explanation:
        """What is wrong first with a piece, said of the whole file."""
        notation: Notation = self.source.notation
        others = 0
        if isinstance(answer, HandrefError):
            error = answer
        else:
            refused = [row.refused for row in answer if row.refused]
            error, others = refused[0], len(refused) - 1
        piece = Piece(region.data(), notation, 0, self.hands, self.lines)
        if region.blocks is not None:  # tables of PHH, which may be anywhere in the file
            own = one_hand(self.source.path, self.hands + (error.hand or 1))
            piece = replace(piece, lines_before=own.lines_before)
            if error.hand:
                error = replace(error, hand=1, line=error.line.replace(
                    f"hand {error.hand}", "hand 1", 1))
                piece = own
        found = of_piece(error, self.name, piece, self.game)
        if others:
            few = "" if region.start == 0 and region.size == self.source.size else "At least "
            found.facts.append(f"{few}{counted(others, 'more hand')} of this file "
                               f"{'are' if others > 1 else 'is'} refused.")
        return found


def one_hand(path: str, hand: int) -> Piece:
    """A hand of a long file of PHH, with the lines that are before it."""
    with phhs.plain_file(path) as file:
        block = next(islice(phhs.tables(file), hand - 1, None))
        return Piece(block, "phh", 1, hand - 1, _lines_before(file, block))


def _lines_before(file: IO[bytes], block: bytes) -> int:
    """How many lines of a file are before some bytes of it."""
    file.seek(0)
    kept, lines = b"", 0
    while more := file.read(1 << 22):
        kept += more
        at = kept.find(block)
        if at >= 0:
            return lines + kept.count(b"\n", 0, at)
        cut = max(0, len(kept) - len(block))
        lines, kept = lines + kept.count(b"\n", 0, cut), kept[cut:]
    return lines


def _line_about(source: Source, game: Game, line: str) -> Explanation:
    """What a line means that was printed about a file: of a long one, about the piece that has the
    hand."""
    name = source.name or source.path
    said = printed(line)
    error = handref.error_of(status_of(said) or 0, said)
    hand, number = error.hand, error.line_number if error.status == 3 else None
    if not hand and not number:
        data = b"" if error.status in (5, 8, 9, 10, 11) else next(
            (region.data() for region in regions(source)), b"")
        return of(error, name, Piece(data, source.notation, 0, 0, 0), game)
    piece = _with_hand(source, hand, number)
    if piece is None:
        return of(error, name, Piece(b"", source.notation, 0, 0, 0), game,
                          ["The hand was not found in the file."])
    own = replace(error, hand=hand and hand - piece.hands_before,
                  line_number=number and number - piece.lines_before)
    found = of(own, name, piece, game)
    if found.spot:
        found.spot = places.moved(found.spot, piece.lines_before)
    return found


def _with_hand(source: Source, hand: Optional[int], line: Optional[int]) -> Optional[Piece]:
    """The piece of a file that has a hand, or a line."""
    if source.notation == "phh":
        pieces = list(regions(source))
        if len(pieces) == 1 and pieces[0].blocks is None:
            return Piece(pieces[0].data(), "phh", 0, 0, 0)
        count = sum(len(piece.blocks or ()) for piece in pieces)
        return one_hand(source.path, hand) if hand and hand <= count else None
    for piece in handref.pieces(source.path, source.notation):
        lines = piece.data.count(b"\n") + (not piece.data.endswith(b"\n"))
        if hand and hand <= piece.hands_before + piece.hands or \
                line and line <= piece.lines_before + lines:
            return piece
    return None


def run(paths: Sequence[str], notation: Optional[Notation], game: Game,
        line: Optional[str] = None) -> int:
    """Explains files and folders, or a line about a file, on standard output; 5 if one of several
    files was changed while it was read, and else 0. ValueError: as `found`, or a line is about one
    file. OSError: the only file cannot be read, or was changed."""
    listed, others = found(paths, notation, game)
    if line is not None and len(listed) != 1:
        raise ValueError("a line is explained of one file")
    bar = Progress(sum(source.size for source in listed), sys.stderr)
    wrong = status = 0
    meanings: set[str] = set()  # what a reason means is said once
    for source in listed:
        try:
            explained = of_file(source, game or source.game or None, line, bar)
        except (OSError, ArithmeticError, LookupError, TypeError, ValueError) as fault:
            if len(listed) == 1:
                raise
            explained = _not_explained(source, fault)
        bar.clear()
        wrong += bool(explained.line)
        status = 5 if explained.line == CHANGED else status
        explained.meaning = "" if explained.meaning in meanings else explained.meaning
        meanings.add(explained.meaning)
        if len(listed) == 1 or explained.line:
            print(explained, end="\n\n" if len(listed) > 1 else "\n", flush=True)
    if len(listed) > 1 or others:
        print(f"{counted(len(listed), 'file')}: {wrong} with something wrong, "
              f"{len(listed) - wrong} without")
    for why, count in sorted(others.items()):
        print(f"{counted(count, 'file')}: {shown(why)}")
    return status


def found(paths: Sequence[str], notation: Optional[Notation],
          game: Game) -> tuple[list[Source], Counter[str]]:
    """The files of paths and folders, with the game files that are beside logs, which are said; and
    how many other files are in folders, by what they are. ValueError: a path is not a file of
    hands, the only file is a log without a game file, or is not one and has a game file. OSError:
    the only file cannot be read."""
    listed, others = sources(paths, notation)
    is_alone = len(listed) == 1 and not others
    if is_alone and listed[0].fault:
        raise OSError(0, listed[0].fault, listed[0].path)
    if is_alone and game is not None and listed[0].notation != "acpc":
        raise ValueError(f"{listed[0].path}: --game goes with logs, and this is read as "
                         f"{listed[0].notation}")
    if game is None:
        listed = with_games(listed, lambda text: print(text, file=sys.stderr), not is_alone)
    return listed, others
