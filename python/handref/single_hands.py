"""The hands of a file one by one, each as a file of its own, and what is done with each."""
import datetime
import re
from dataclasses import replace
from typing import Any, Callable, Iterable, Iterator, Optional, TypeVar, Union

import handref
from handref import Game, HandrefError, Piece, phhs, toml
from handref.formats import PHH_KEYS

Made = TypeVar("Made")

MOST_UNREAD = 1000  # hands that cannot be read and are skipped
_TABLE = re.compile(rb"^[ \t]*\[", re.M)


def document(table: dict[str, Any]) -> bytes:
    """A hand of PHH, with the keys that are read."""
    return "".join(f"{key} = {_written(table[key])}\n" for key in PHH_KEYS if key in table).encode()


def _written(value: Any) -> str:
    if isinstance(value, str):
        return '"' + "".join(f"\\u{ord(sign):04x}" if sign < " " or sign == "\x7f" else
                             "\\" + sign if sign in '"\\' else sign for sign in value) + '"'
    if isinstance(value, list):
        return "[" + ", ".join(map(_written, value)) + "]"
    if isinstance(value, dict):
        return "{" + ", ".join(f"{_written(key)} = {_written(value[key])}" for key in value) + "}"
    if isinstance(value, (datetime.date, datetime.time)):
        return value.isoformat()
    return str(value).lower()


def units(data: bytes, notation: handref.Notation) -> list[Piece]:
    """Each hand of a file as a file of its own. ValueError: a file of PHH that Python does not
    read as TOML, or that is no file of hands."""
    if notation == "phh":
        return [Piece(unit, "phh", 1, place, 0) for place, unit in enumerate(_tables(data))]
    found: list[Piece] = []
    kept, lines = b"", 0
    for unit, is_hand, _ in handref._units(data, notation):
        kept += unit
        if is_hand:
            found.append(Piece(kept, notation, 1, len(found), lines))
            lines += kept.count(b"\n")
            kept = b""
    return found


def _tables(data: bytes) -> list[bytes]:
    """The hands of a document of PHH: as they are written where it can be cut between them."""
    data = data.removeprefix(b"\xef\xbb\xbf")
    try:
        cut = list(phhs.blocks(data))
    except phhs.NotSure:
        cut = []
    if cut and cut[0][0] is not None:
        return [document(toml.read((b"[%d]\n" % number + block).decode())[str(number)])
                if number is not None and _TABLE.search(block) else block for number, block in cut]
    found = toml.read(data.decode())
    if "variant" in found or not found:
        return [data] * bool(found)
    if not all(re.fullmatch("[0-9]+", key) and isinstance(found[key], dict) for key in found):
        raise ValueError("the document is no file of hands")
    return [document(found[key]) for key in sorted(found, key=lambda key: (int(key), key))]


def together(files: Iterable[bytes], notation: handref.Notation) -> bytes:
    """One file of the hands of files of one hand each; of PHH as `units` gives them."""
    if notation != "phh":
        return (b"\n\n" if notation != "acpc" else b"\n").join(files)
    listed = list(files)
    return listed[0] if len(listed) == 1 else b"\n".join(
        b"[%d]\n%s" % (number, data) for number, data in enumerate(listed, 1))


def is_of_the_call(error: HandrefError) -> bool:
    """Whether something is wrong with the program or the game file, and not with the hands."""
    return (error.status in (0, 2, 9, 10, 11) or error.place == "game bytes"
            or isinstance(error, handref.NoProgram) and error.status > 0)


def apart(hands: list[Piece], make: Callable[[bytes], Made]) \
        -> Iterator[tuple[list[Piece], Union[Made, HandrefError]]]:
    """Makes something of groups of hands that are as great as they can be. A hand of which it
    cannot be made is a group of its own, with what is wrong with it."""
    place, size = 0, len(hands)
    while place < len(hands):
        group = hands[place:place + size]
        try:
            made: Union[Made, HandrefError] = make(
                together([each.data for each in group], group[0].notation))
            size *= 4
        except HandrefError as error:
            if is_of_the_call(error) or error.place == "seconds":
                raise
            if len(group) > 1 and error.hand != 1:
                # Those before the hand that is named may do together.
                size = max(1, error.hand - 1 if error.hand else len(group) // 4)
                continue
            made, group, size = error, group[:1], max(1, len(group) // 4)
        yield group, made
        place += len(group)


def verdicts(hands: list[Piece], game: Game = None) -> list[Optional[HandrefError]]:
    """What is wrong with each of such hands, also where some do not read: None where it is legal.
    It ends after MOST_UNREAD that cannot be read, so there may be fewer verdicts than hands."""
    found: list[Optional[HandrefError]] = []
    unread = 0
    if not hands:
        return found
    for group, made in apart(hands, lambda data: handref.judge(data, hands[0].notation, game)):
        if isinstance(made, HandrefError):
            found.append(made)
            unread += 1
            if unread == MOST_UNREAD:
                break
        elif len(made) != len(group):
            raise handref.UnclearOutput(0, "the output of judge is cut")
        else:
            found += [row.refused for row in made]
    return found


def in_its_file(error: HandrefError, hand: Piece, before: Optional[Piece] = None) -> HandrefError:
    """What was reported of a hand in a file of its own, said of the piece of a file where it is."""
    hands, lines = (before.hands_before, before.lines_before) if before else (0, 0)
    return handref.whole(replace(error, hand=1, line=re.sub(
        r"hand \d+", "hand 1", error.line, count=1)), Piece(
            hand.data, hand.notation, 1, hands + hand.hands_before, lines + hand.lines_before))
