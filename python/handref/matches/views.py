"""What an agent saw of the hands of a log: `handref many views`.

The place of an agent changes from hand to hand. So the hands of each of its places are a log of
their own, of which the program says what that seat saw, and the hands are put in order again.
"""
import os
import re
from typing import Iterator, Optional, Union

import handref
from handref import Game, UnclearOutput

_LINE = re.compile(rb"(MATCHSTATE:\d+:)(\d+)(:.*\n)")
_HAND = re.compile(rb"STATE:(\d+)(:.*:([^:]*))\Z")

COLUMNS = ("file", "hand", "number", "place", "betting", "cards")


def of(data: bytes, game: Game, who: Union[int, str]) -> list[tuple[int, bytes]]:
    """What a seat, or the agent with a name, saw of the hands of a log: the place of the hand, from
    1, and a line, without its end. HandrefError: a hand is refused, or there is no such seat."""
    words = ["--from", "acpc", "--game", os.fspath(game or "")]
    lines = handref.run(["convert", *words, "--to", "acpc"], data).split(b"\n")[:-1]
    seats: dict[int, list[bytes]] = {}
    numbers: list[bytes] = []
    for place, line in enumerate(lines):
        found = _HAND.match(line)
        if not found:
            raise UnclearOutput(0, "the output of convert is cut")
        numbers.append(found[1])
        for seat in _seats(found[3], who):
            # A log may use a number twice, so each hand gets its place as the number.
            seats.setdefault(seat, []).append(b"STATE:%d%s\n" % (place, found[2]))
    if isinstance(who, int) and not lines:
        seats[who] = []  # the program says whether there is such a seat
    said: list[tuple[int, bytes]] = []
    for seat, own in seats.items():
        said += _seen(handref.run(["views", *words, f"--seat={seat}"], b"".join(own)), numbers)
    return sorted(said, key=lambda each: each[0])  # those of a hand stay in their order


def _seats(names: bytes, who: Union[int, str]) -> Iterator[int]:
    if isinstance(who, int):
        yield who
        return
    own = who.encode("utf-8", "surrogateescape")
    for seat, name in enumerate(names.split(b"|"), 1):
        if name == own:
            yield seat


def _seen(text: bytes, numbers: "list[bytes]") -> Iterator[tuple[int, bytes]]:
    """The lines that a seat saw, with the numbers that the hands have."""
    for found in _LINE.finditer(text):
        place = int(found[2])
        yield place + 1, found[1] + numbers[place] + found[3][:-1]


def row(file: Optional[str], hand: int, line: str) -> "dict[str, Union[int, str, None]]":
    """A line as a row."""
    _, place, number, betting, cards = line.split(":", 4)
    return {"file": file, "hand": hand, "number": int(number), "place": int(place),
            "betting": betting, "cards": cards}
