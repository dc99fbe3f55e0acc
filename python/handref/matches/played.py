"""The hands of a log as `convert` writes them, with the SCORE lines between them."""
from dataclasses import dataclass
from decimal import Decimal, InvalidOperation
from typing import Iterator, Optional, Sequence, Union


@dataclass(frozen=True)
class Played:
    """A hand: its number, the hole cards of the seats, the cards of the board, and the net chips
    and names of the seats."""
    number: int
    holes: str
    board: str
    values: tuple[int, ...]
    names: tuple[str, ...]


@dataclass(frozen=True)
class Score:
    """A SCORE line: what each name has won since the one before it. None: it does not read."""
    said: Optional[dict[str, Decimal]]


def with_scores(data: bytes, converted: Sequence[bytes], left_out: "set[int]") -> bytes:
    """The converted hands of a piece of a log (without line ends), with its SCORE lines between
    them, and an empty line in the place of each hand that is left out."""
    found: list[bytes] = []
    hands = iter(converted)
    place = 0
    for line in data.split(b"\n"):
        line = line.rstrip(b"\r")
        if line.startswith(b"SCORE:"):
            found.append(line)
        elif line and not line.startswith(b"#"):
            place += 1
            found.append(b"" if place in left_out else next(hands))
    return b"".join(line + b"\n" for line in found)


def read(text: bytes) -> Iterator[Union[Played, Score, None]]:
    """What such lines say, in order: hands, SCORE lines, and None for a hand that is left out."""
    for line in text.decode("utf-8", "surrogateescape").split("\n")[:-1]:
        if not line:
            yield None
        elif line.startswith("SCORE:"):
            yield Score(_said(line))
        else:
            _, number, _, cards, values, names = line.split(":", 5)
            holes, _, board = cards.partition("/")
            yield Played(int(number), holes, board, tuple(map(int, values.split("|"))),
                         tuple(names.split("|")))


def _said(line: str) -> Optional[dict[str, Decimal]]:
    _, values, names = (line + "::").split(":", 2)
    named = names.removesuffix("::").split("|")
    try:
        numbers = [Decimal(value) for value in values.split("|")]
    except InvalidOperation:
        return None
    if len(numbers) != len(named) or not all(number.is_finite() for number in numbers):
        return None
    return {name: sum((number for own, number in zip(named, numbers) if own == name), Decimal())
            for name in named}
