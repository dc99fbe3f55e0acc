"""Which rule of `handref import` mends a fault of a file, if one does."""
import json
import os
import re
import shlex
from typing import Any, Dict, List, Optional, Sequence

import handref
from handref import HandrefError, places
from handref.importing import rules
from handref.places import Spot

# What the program says of files that an import mends, without a look at them.
MENDED = ("AmountNotWhole", "BadPlayer", "BadPost", "BadValue")
# What people have, by the words of the fact about a text that does not read.
_TEXTS = (("an empty line has to divide two hands", "documents"),
          ("byte order mark", "documents"))


def sentence(name: str, game: handref.Game = None) -> str:
    """How to mend a file by a rule."""
    words = f"--game {shlex.quote(os.fspath(game))} " if game else ""
    sees = rules.by_name(name).sees.replace("`", "")
    return (f"handref import mends it (rule {name}: {sees}):\n"
            f"  handref import --out tidy {words}FILE")


def rule_of(error: HandrefError, notation: handref.Notation, found: Optional[Spot], data: bytes,
            facts: Sequence[str]) -> Optional[str]:
    """The name of the rule that mends a fault, and None where there is none."""
    reason, value = error.reason, found.value if found else None
    if error.status == 10:
        return _of_game(error, facts)
    if reason == "AmountNotWhole":
        return "unit"
    if notation == "acpc":
        return _of_log(error, found)
    if reason == "BadAction" and re.search(r"\A *p\d+ +sm +- *(#|\Z)", str(value)):
        return "muck-dash"
    if notation == "phh":
        return None
    if reason == "Text":
        said = " ".join(facts)
        return next((name for words, name in _TEXTS if words in said), None)
    return _of_ohh(error, value, data)


def _of_ohh(error: HandrefError, value: Any, data: bytes) -> Optional[str]:
    reason, place = error.reason, error.place or ""
    if reason == "MissingMember" and place == "ohh" and data.lstrip().startswith(b"["):
        return "documents"
    if reason == "WrongType" and value is None:
        return "nulls"
    hand = _hand(error, data)
    if reason == "BadPlayer" and place == "ohh.dealer_seat":
        return "dead-button"
    said = [each for part in _members(hand.get("rounds")) for each in _members(part.get("actions"))]
    if reason == "BadPost" and not any(each.get("action") == "Post SB" for each in said):
        return "dead-small-blind"
    active = [each.get("player_id") for each in said]
    if reason in ("BadPlayer", "BadPost", "WrongSeat", "WrongKind") and any(
            player.get("id") not in active for player in _members(hand.get("players"))):
        return "not-dealt-in"
    return None


def _hand(error: HandrefError, data: bytes) -> Any:
    try:
        _, block = places.blocks(places.decoded(data))[(error.hand or 1) - 1]
        found = json.loads(block)["ohh"]
        return found if isinstance(found, dict) else {}
    except (ValueError, LookupError, TypeError, RecursionError):
        return {}


def _members(value: Any) -> List[Dict[str, Any]]:
    """The objects of a list of JSON, whatever else is in its place."""
    return [each for each in value if isinstance(each, dict)] if isinstance(value, list) else []


def _of_log(error: HandrefError, found: Optional[Spot]) -> Optional[str]:
    line = found.text if found else ""
    if error.reason == "LineShape" and re.match(r"(?:TO|FROM) |MATCHSTATE:", line):
        return "dealer-output"
    if error.reason in ("BadValue", "BadBetting") and re.search(r"[0-9]\.[0-9]", line):
        return "unit"
    return None


def _of_game(error: HandrefError, facts: Sequence[str]) -> Optional[str]:
    said = " ".join(facts)
    if error.reason == "GameShape" and re.search(
            r"has a tab|begins or ends with a space|is no number|#", said):
        return "game-file"
    return "seats-exchanged" if said.startswith("firstPlayer is 1 2 2 2") else None
