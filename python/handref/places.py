"""Where in a file is what a line of the program names: a key, a path, a line and a byte, an event.

    places.of(data, "phh", error)     # Spot(line=9, column=3, text='  "p3 cbr 3",', length=10)

Lines and columns count from 1; a column is a sign, and not a byte.
"""
import json
import re
from dataclasses import dataclass, replace
from typing import Any, Optional, Union

import handref
from handref import HandrefError, single_hands, toml
from handref.formats import FACT_KEYS, OHH_NOTES

Path = tuple[Union[str, int], ...]


@dataclass(frozen=True)
class Spot:
    """Some signs of a line of a file; and the value that is there, where one is."""
    line: int
    column: int
    text: str
    length: int
    value: Any = None
    path: Path = ()


def spot(text: str, start: int, end: int, value: Any = None, path: Path = ()) -> Spot:
    """The spot between two signs of a text, or up to the end of its line."""
    begin = text.rfind("\n", 0, start) + 1
    after = text.find("\n", start)
    line = text[begin:len(text) if after < 0 else after].rstrip("\r")
    length = max(1, min(end, begin + len(line)) - start)
    return Spot(text.count("\n", 0, start) + 1, start - begin + 1, line, length, value, path)


def decoded(data: bytes) -> str:
    """A text in which a byte that is no UTF-8 is one sign."""
    return data.decode("utf-8", "surrogateescape").removeprefix("\ufeff")


def of(data: bytes, notation: str, error: HandrefError) -> Optional[Spot]:
    """The spot of what was said of a file, and None where it has none."""
    text = decoded(data)
    try:
        if error.line_number is not None and error.status == 3:
            return of_byte(text, error.line_number, error.byte or 1)
        if error.hand is None:
            return None
        finder = {"phh": _of_phh, "acpc": _of_log}.get(notation, _of_ohh)
        return finder(text, error)
    except (ValueError, LookupError, TypeError, AttributeError):
        return None  # the file has another shape than the line is about


def of_byte(text: str, line: int, byte: int) -> Spot:
    """The spot of a byte of a line."""
    start = 0
    for _ in range(line - 1):
        start = text.index("\n", start) + 1
    words = text[start:].split("\n", 1)[0].encode("utf-8", "surrogateescape")
    column = len(words[:byte - 1].decode("utf-8", "surrogateescape"))
    return spot(text, start + column, start + column + 1)


# Poker Hand History.

def table_of(text: str, hand: int) -> tuple[Optional[str], dict[str, Any]]:
    """The key of a hand in its document, None where it is all of it; and its table."""
    whole = toml.read(text)
    if "variant" in whole or not all(re.fullmatch("[0-9]+", key) for key in whole):
        if hand != 1:
            raise LookupError(hand)
        return None, whole
    key = sorted(whole, key=lambda key: (int(key), key))[hand - 1]
    return key, whole[key]


def _of_phh(text: str, error: HandrefError) -> Spot:
    top, table = table_of(text, error.hand or 1)
    found = toml.places(text, top)
    front: Path = () if top is None else (top,)
    path: Path = _path_of_phh(error)
    while path and (*front, *path) not in found:
        path = path[:-1]
    place = found.get((*front, *path))
    value: Any = table
    for step in path:
        value = value[step]
    if place is None:
        return spot(text, 0, 0, value)
    start = place.start if path and error.reason != "MissingField" else place.key or 0
    if error.reason == "ends early":
        start = place.end - 1
    return spot(text, start, place.end, value, path)


def _path_of_phh(error: HandrefError) -> Path:
    if error.action is not None:
        return ("actions", error.action - 1)
    kind, _, number = (error.place or "").partition(" ")
    if error.status == 1:
        key = {"finish": "finishing_stacks", "pot": "_rakes"}.get(kind)
        if key is None or error.reason == "no shown hand":
            return ("actions",)
        return (key, int(number.lstrip("p")) - 1)
    if error.status == 4:
        return (FACT_KEYS.get(error.reason or "", (error.note or "actions", ""))[0],)
    if number:
        return (kind, int(number) - 1)
    return (kind,)


# Open Hand History.

def seats_of(hand: dict[str, Any]) -> list[Any]:
    """The ids of the players of a hand of OHH, from p1 on: the first after the button."""
    players = sorted(hand["players"], key=lambda player: int(player["seat"]))
    button = [player["seat"] for player in players].index(hand["dealer_seat"])
    return [player["id"] for player in players[button + 1:] + players[:button + 1]]


def blocks(text: str) -> list[tuple[int, str]]:
    """The hands of a file of OHH, each with the sign at which it begins."""
    found: list[tuple[int, str]] = []
    at, begin = 0, None  # type: int, Optional[int]
    for line in [*text.split("\n"), ""]:
        if line.strip(" \t\r"):
            begin = at if begin is None else begin
        elif begin is not None:
            found.append((begin, text[begin:at - 1]))
            begin = None
        at += len(line) + 1
    return found


def _of_ohh(text: str, error: HandrefError) -> Spot:
    start, block = blocks(text)[(error.hand or 1) - 1]
    if error.reason == "Text":
        return spot(text, start, start + 1)
    hand = json.loads(block)
    path: Path = _path_of_ohh(error, hand)
    while path:
        found = _in_json(block, path)
        if found:
            begin, end, value = found
            return spot(text, start + begin, start + end, value, path)
        path = path[:-1]
    return spot(text, start, start + 1, hand)


def _path_of_ohh(error: HandrefError, hand: dict[str, Any]) -> Path:
    if error.action is not None or error.reason in ("ends early", "no shown hand"):
        return _path_of_action(error, hand["ohh"])
    if error.status == 1:
        kind, _, number = (error.place or "").partition(" ")
        if kind == "pot":
            return ("ohh", "pots", int(number) - 1, "rake")
        return _path_of_win(hand["ohh"], int(number[1:])) if kind == "win" else ("ohh", "pots")
    if error.status == 4:
        note = OHH_NOTES.get(error.note or "", "rounds")
        return ("ohh", FACT_KEYS.get(error.reason or "", ("", note))[1])
    steps = re.findall(r"([^.\[\]]+)|\[(\d+)\]", error.place or "")
    return tuple(int(item) if item else key for key, item in steps)


def _path_of_win(hand: dict[str, Any], seat: int) -> Path:
    """The last win of a seat, whose wins do not come to what it gets."""
    player = seats_of(hand)[seat - 1]
    for place, pot in reversed(list(enumerate(hand["pots"]))):
        for number, win in enumerate(pot["player_wins"]):
            if win["player_id"] == player:
                return ("ohh", "pots", place, "player_wins", number, "win_amount")
    return ("ohh", "pots")


def _path_of_action(error: HandrefError, hand: dict[str, Any]) -> Path:
    rounds = hand["rounds"]
    if error.action is None:
        return ("ohh", "rounds", len(rounds) - 1)
    if not error.action:
        return ("ohh", "rounds")
    number = error.action
    for place, each in enumerate(rounds):
        if number <= len(each["actions"]):
            return ("ohh", "rounds", place, "actions", number - 1)
        number -= len(each["actions"])
    raise LookupError


_GAP = re.compile(r"[ \t\n\r]*")


def _in_json(text: str, path: Path) -> Optional[tuple[int, int, Any]]:
    """Where the value of a path begins and ends in JSON; of two members with a name the last."""
    reader = json.JSONDecoder()

    def after(at: int) -> int:
        found = _GAP.match(text, at)
        return found.end() if found else at

    at = after(0)
    for step in path:
        opening, at = text[at], after(at + 1)
        number, found = 0, None  # type: int, Optional[int]
        while text[at] not in "]}":
            name: Any = number
            if opening == "{":
                name, at = reader.raw_decode(text, at)
                at = after(after(at) + 1)  # the colon
            found = at if name == step else found
            at, number = after(reader.raw_decode(text, at)[1]), number + 1
            at = after(at + 1) if text[at] == "," else at
        if found is None:
            return None
        at = found
    value, end = reader.raw_decode(text, at)
    return at, end, value


# Logs.

def line_of_hand(text: str, hand: int) -> tuple[int, str]:
    """The sign at which the line of a hand of a log begins, and the line."""
    at = 0
    for line in text.split("\n"):
        if line.strip("\r") and not line.startswith(("#", "SCORE:")):
            hand -= 1
            if not hand:
                return at, line
        at += len(line) + 1
    raise LookupError


def _of_log(text: str, error: HandrefError) -> Spot:
    at, line = line_of_hand(text, error.hand or 1)
    fields = line.rstrip("\r").split(":")
    starts = [sum(len(field) + 1 for field in fields[:number]) for number in range(len(fields))]
    if error.action:
        letter = list(re.finditer("[a-z][0-9]*", fields[2]))[error.action - 1]
        return spot(text, at + starts[2] + letter.start(), at + starts[2] + letter.end(), letter[0])
    if error.place and error.place.startswith("value "):
        values = list(re.finditer("[^|]+", fields[4]))
        value = values[int(error.place.split("p")[-1]) - 1]
        return spot(text, at + starts[4] + value.start(), at + starts[4] + value.end(), value[0])
    number = 3 if error.action == 0 or error.reason == "no shown hand" else 2
    begin = at + starts[number]
    return spot(text, begin, begin + len(fields[number]), fields[number])


def moved(found: Spot, lines: int) -> Spot:
    """A spot of a piece of a file, as one of the file."""
    return replace(found, line=found.line + lines)


def hand_of(data: bytes, notation: str, number: int) -> bytes:
    """A hand of a file, as a file of its own. LookupError: there is no such hand."""
    text = decoded(data)
    if notation == "acpc":
        return line_of_hand(text, number)[1].encode("utf-8", "surrogateescape") + b"\n"
    if notation != "phh":
        return blocks(text)[number - 1][1].encode("utf-8", "surrogateescape") + b"\n"
    top, table = table_of(text, number)
    return data if top is None else single_hands.document(table)
