"""The numbers of hands that are written into another file than that of their source.

`convert` leaves a number out where it is the place of the hand in its file, counted from 0, and
fills that place in where a hand has none. In another file the place is another one. So the hands
of a piece are first written as they are by themselves (`alone`): with the number that the source
has, or with none. In their new file those with none are numbered by their place there (`placed`).
"""
import json
import re
from typing import Iterator, Optional, Sequence

import handref
from handref import Notation, phhs, toml

# In what `convert` writes, no text has such a sign inside: a quotation mark would be escaped there.
_OHH = re.compile(rb'"game_number":"((?:[^"\\]|\\.)*)"')
_LOG = re.compile(rb"STATE:(\d*):")
_NO_OHH, _NO_LOG = b'"game_number":""', b"STATE::"


def own(units: Sequence[bytes], notation: Notation) -> Optional[list[bool]]:
    """Whether hands, each a file of its own, have a number of their own; None where all have."""
    if notation == "acpc":
        return None
    return [_has_own(unit, notation) for unit in units]


def _has_own(unit: bytes, notation: Notation) -> bool:
    if notation == "phh":
        return phhs.has_number(unit.removeprefix(b"\xef\xbb\xbf"))
    try:
        return bool(json.loads(unit)["ohh"].get("game_number", "") != "")
    except (ValueError, LookupError, TypeError, AttributeError):
        return False  # the program says what is wrong with it


def hands(text: bytes, to: Notation) -> list[bytes]:
    """The hands of what `convert` wrote, without the headers of their tables."""
    if to == "phh":
        return [block.strip(b"\n") + b"\n" for _, block in phhs.blocks(text)]
    return [line + b"\n" for line in text.split(b"\n") if line]


def alone(text: bytes, to: Notation, are_own: Optional[list[bool]]) -> list[bytes]:
    """The same hands, each with the number that its source has, or with none."""
    found = hands(text, to)
    for place, hand in enumerate(found):
        is_own = are_own is None or are_own[place]
        if to == "phh":
            if is_own and number_in(hand) is None:
                found[place] = _numbered(hand, place)
        elif not is_own:
            found[place] = _LOG.sub(_NO_LOG, hand, count=1) if to == "acpc" else \
                _OHH.sub(_NO_OHH, hand, count=1)
    return found


def _numbered(hand: bytes, number: int) -> bytes:
    """A hand with its number, where `convert` would write it."""
    line = b"hand = %d\n" % number
    before = None if has_long_text(hand) else re.search(rb"^finishing_stacks = .*\n", hand, re.M)
    end = before.end() if before else 0
    return hand[:end] + line + hand[end:]


def has_long_text(hand: bytes) -> bool:
    """Whether a hand may have a text of several lines, one of which looks like that of a key."""
    return b'"""' in hand or b"'''" in hand


def document(found: list[bytes], to: Notation) -> bytes:
    """A file of hands that are by themselves."""
    if to == "phh" and len(found) > 1:
        found = [b"[%d]\n" % number + hand for number, hand in enumerate(found, 1)]
    return (b"" if to == "acpc" else b"\n").join(found)


def placed(text: bytes, to: Notation, before: int, are_short: bool = False) -> Iterator[bytes]:
    """The hands of such a document for a file where some are before them. A hand of PHH without a
    number has none there either; where they are short, it is not written if it is the place."""
    if to == "phh":
        for place, hand in enumerate(hands(text, to), before):
            yield _short(hand, place) if are_short else hand
    elif (_NO_LOG if to == "acpc" else _NO_OHH) not in text:
        yield from hands(text, to)
    else:
        for place, hand in enumerate(hands(text, to), before):
            yield hand.replace(_NO_LOG, b"STATE:%d:" % place, 1) if to == "acpc" else \
                hand.replace(_NO_OHH, b'"game_number":"%d"' % place, 1)


def _short(hand: bytes, place: int) -> bytes:
    found = number_in(hand)
    if found is None or hand[found[0]:found[1]].strip() != b"hand = %d" % place:
        return hand
    return hand[:found[0]] + hand[found[1]:]


def number_in(hand: bytes) -> Optional[tuple[int, int]]:
    """The line with the key `hand` in a hand that `convert` wrote."""
    if not has_long_text(hand):
        found = re.search(rb"^hand = .*\n", hand, re.M)
        return found.span() if found else None
    text = hand.decode()
    place = toml.places(text).get(("hand",))
    if place is None or place.key is None:
        return None
    start, end = len(text[:place.key].encode()), len(text[:place.end].encode())
    return start, hand.index(b"\n", end) + 1
