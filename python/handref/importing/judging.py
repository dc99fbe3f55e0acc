"""What the proved program says of hands that were written: verdicts, and replays."""
import re
from typing import Optional, Sequence

import handref
from handref import Game, HandrefError, Notation, Piece, Replay, single_hands, toml

_HEADER = re.compile(r"\A[^\n]*\n")
_OTHER_TABLE = re.compile(r"^[ \t]*\[", re.M)


def body(data: bytes) -> bytes:
    """A hand of PHH without the header of its table."""
    text = data.decode()
    if not text.lstrip(" \t").startswith("["):
        return data
    rest = _HEADER.sub("", text)
    if _OTHER_TABLE.search(rest):  # it has tables of its own, or a text that looks like one
        table = toml.read(text)
        return single_hands.document(next(iter(table.values())))
    return rest.encode()


def verdicts(hands: Sequence[bytes], notation: Notation,
             game: Game = None) -> list[Optional[HandrefError]]:
    """What is wrong with each of some hands, which are files of their own: None if it is legal."""
    pieces = [Piece(data, notation, 1, place, 0) for place, data in enumerate(hands)]
    found: list[Optional[HandrefError]] = []
    while len(found) < len(pieces):
        found += single_hands.verdicts(pieces[len(found):], game)
    return found


def replays(hands: Sequence[bytes], notation: Notation, game: Game = None) -> list[Replay]:
    """The replay of each of some hands, all of which can be read."""
    if not hands:
        return []
    found = handref.replay(single_hands.together(hands, notation), notation, game, each=True)
    if len(found) != len(hands):
        raise handref.UnclearOutput(0, "the output of replay is cut")
    return found


def cause_of(refused: HandrefError) -> Optional[tuple[str, str]]:
    """The cause, and what is said of it, of a hand that handref does not judge: it does not read,
    or it stops early. None if it is refused."""
    if refused.reason == "ends early":
        return "a hand that stops early", f"after {refused.event} events"
    if refused.status == 1:
        return None
    line = re.sub(r"\b(?:hand|line) \d+(?:, byte \d+)?(?:, |: )", "", refused.line)
    return f"{refused.reason or 'not read'}", line
