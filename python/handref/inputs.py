"""Hands from wherever they are, as inputs that are within the limits of the program.

Hands are bytes, a path, or several paths. A path is a file of any length, packed (.gz) or not, a
folder with all files of hands below it, or `-` for the standard input. A notation that is not given
is that of the name of the file, or of its first bytes; a log without a game file takes the one that
is beside it, as `handref many` does.
"""
import os
import stat
from dataclasses import dataclass, replace
from typing import Callable, Iterator, Optional, Sequence, TypeVar, Union

import handref
from handref import Game, HandrefError, Notation, Path, Piece, sources

Anything = Union[bytes, Path, Sequence[Path]]
Made = TypeVar("Made")


@dataclass
class Input:
    """Bytes that are within the limits; their file, where there is one; and how many of its hands
    and lines come before them, as far as they are known."""
    data: bytes
    notation: Notation
    game: Game = None
    source: Optional[sources.Source] = None
    file: Optional[str] = None
    hands_before: int = 0
    lines_before: int = 0


def are_several(hands: Anything) -> bool:
    """Whether hands may come from more than one file."""
    return not isinstance(hands, (bytes, str, os.PathLike)) or \
        not isinstance(hands, bytes) and os.path.isdir(hands)


def each(hands: Anything, notation: Optional[Notation], game: Game,
         make: Callable[[bytes, Notation, Game], Made], hands_of: Callable[[Made], int]) \
        -> Iterator[tuple[Input, Made]]:
    """What is made of each input, in order. What is wrong with one is said of its whole file.
    ValueError: a path is no file of hands, or its notation is not known."""
    before: Optional[Input] = None
    for own in _inputs(hands, notation, game):
        if before and before.file == own.file and own.hands_before:
            own.hands_before, own.lines_before = before.hands_before, before.lines_before
        try:
            made = make(own.data, own.notation, own.game)
        except HandrefError as error:
            if own.source:
                sources.refuse_changed(own.source)
            whole = handref.whole(error, Piece(own.data, own.notation, 0, own.hands_before,
                                               own.lines_before))
            raise replace(whole, file=error.file or own.file) from error
        yield own, made
        before = replace(own, data=b"", hands_before=own.hands_before + hands_of(made),
                         lines_before=own.lines_before + own.data.count(b"\n"))


def _inputs(hands: Anything, notation: Optional[Notation], game: Game) -> Iterator[Input]:
    """All inputs. One that is not the first of its file says that hands are before it, and not how
    many."""
    if isinstance(hands, bytes):
        yield Input(hands, _known(notation), game)
        return
    paths = [hands] if isinstance(hands, (str, os.PathLike)) else hands
    for given in paths:
        path = os.fspath(given)
        if path != "-" and _is_device(path):
            yield Input(handref.read(path), _known(notation), game, file=path)
            continue
        for source in sources.sources([path], notation)[0]:
            yield from _of_source(source, game)


def _of_source(source: sources.Source, game: Game) -> Iterator[Input]:
    name = source.name or source.path
    if source.fault:
        open(source.path, "rb").close()  # this says why it cannot be read, if it cannot
        raise OSError(0, source.fault, name)
    if source.notation == "acpc":
        game = game or sources.game_beside(source)
        if not game:
            raise ValueError(f"{source.shown}: {sources.NO_GAME}")
    with sources.unchanged(source):
        for region in sources.regions(source):
            yield Input(region.data(), source.notation,
                        game if source.notation == "acpc" else None, source, name,
                        min(region.number, 1))


def _is_device(path: str) -> bool:
    """Whether a path is neither a file nor a folder, and can be read at most once."""
    try:
        mode = os.stat(path).st_mode
    except OSError:
        return False
    return not stat.S_ISREG(mode) and not stat.S_ISDIR(mode)


def _known(notation: Optional[Notation]) -> Notation:
    if notation is None:
        raise ValueError("which notation these hands are in has to be said: phh, ohh, ohh-to or acpc")
    return notation
