"""The words that a source has for the events of a hand: items of PHH, actions of OHH, letters of a
log."""
import json
import re
from typing import Any, Optional

import handref
from handref import HandrefError, toml
from handref.places import seats_of

MOST_TEXT = 20_000  # signs that are shown of a hand that does not read
_MOVES = {"Fold", "Check", "Call", "Bet", "Raise"}


def of_refused(data: bytes, notation: handref.Notation,
               refused: HandrefError) -> tuple[str, Optional[int]]:
    """The source's words of the event that is refused, with the seat that they name; or those of a
    hand that does not read."""
    text, action = data.decode("utf-8", "replace"), refused.action
    if refused.status != 1:
        return text.strip()[:MOST_TEXT], None
    try:
        if action is None:
            return "", None
        if notation == "phh":
            words = str(toml.read(text)["actions"][action - 1]).partition("#")[0].strip()
            seat = re.search(r"p(\d+)", words)
            return words, int(seat[1]) if seat else None
        if notation == "acpc":
            fields = text[text.index("STATE:"):].split(":")
            letters = re.findall("[a-z][0-9]*", fields[2])
            return letters[action - 1] if action else fields[3], None
        return _of_ohh(json.loads(text)["ohh"], action)
    except (ValueError, LookupError, TypeError):
        return "", None


def _of_ohh(hand: dict[str, Any], action: int) -> tuple[str, Optional[int]]:
    rounds = hand["rounds"]
    if not action:
        return ", ".join(f"{part['street']} {' '.join(part['cards'])}" for part in rounds
                         if part.get("cards")), None
    said = [each for part in rounds for each in part["actions"]][action - 1]
    seat = seats_of(hand).index(said["player_id"]) + 1
    return " ".join([_action(said), f"(p{seat})"]), seat


def _action(said: dict[str, Any]) -> str:
    words = [str(said[key]) for key in ("action", "amount") if key in said]
    return " ".join([*words, *said.get("cards", ())])


def of_moves(data: bytes, notation: handref.Notation, events: str) -> list[str]:
    """The source's words of each event of a log or of OHH that is a move; of other events nothing.
    `events` are those of `replay`, and nothing is known where their moves are not as many."""
    try:
        text = data.decode()
        if notation == "acpc":
            own = re.findall("[a-z][0-9]*", text[text.index("STATE:"):].split(":")[2])
        else:
            own = [_action(each) for part in json.loads(text)["ohh"]["rounds"]
                   for each in part["actions"] if each["action"] in _MOVES]
    except (ValueError, LookupError, TypeError):
        return []
    rows = events.split(";") if events else []
    are_moves = [bool(re.match(r"p\d+ (f|cc|cbr|pb)", words)) for words in rows]
    left = iter(own)
    found = [next(left, "") if is_move else "" for is_move in are_moves]
    return found if sum(are_moves) <= len(own) else []
