"""Gives a hand of OHH its number, and leaves all other bytes of its text as they are."""
import json
import re
from json.decoder import scanstring  # type: ignore[attr-defined]
from typing import Any

_BLANK = re.compile(r"[ \t\r\n]*")
_READER = json.JSONDecoder(parse_int=float)  # a number of any length is read


def numbered(hand: bytes, number: int) -> bytes:
    """A hand with the member `game_number`: its own, or else this number. What does not read is
    left as it is: the program says what is wrong with it."""
    try:
        text = hand.decode()
        start, value = _member(text, "ohh")
    except (ValueError, RecursionError):
        return hand
    if not isinstance(value, dict) or "game_number" in value:
        return hand
    place = len(text[:start + 1].encode())
    return hand[:place] + b'"game_number":"%d"' % number + b"," * bool(value) + hand[place:]


def _member(text: str, wanted: str) -> tuple[int, Any]:
    """Where the value of a member of an object begins, and the value. ValueError: it has none."""
    at = _after(text, 0, "{")
    while True:
        key, at = scanstring(text, _after(text, at, '"'))
        at = _skip(text, _after(text, at, ":"))
        value, end = _READER.raw_decode(text, at)
        if key == wanted:
            return at, value
        at = _after(text, end, ",")


def _after(text: str, at: int, sign: str) -> int:
    """The place after a sign, which has to be the next one that is not blank."""
    at = _skip(text, at)
    if not text.startswith(sign, at):
        raise ValueError(f"{sign} is expected at {at}")
    return at + 1


def _skip(text: str, at: int) -> int:
    found = _BLANK.match(text, at)
    return found.end() if found else at
