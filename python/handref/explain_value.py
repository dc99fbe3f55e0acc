"""What is wrong with a value of the input: its range, its type, the words of an action."""
import json
import re
from difflib import get_close_matches
from typing import Any, Optional

import handref
from handref import HandrefError, places
from handref.formats import GAMES
from handref.formats import PHH_AMOUNT_LISTS, PHH_AMOUNTS
from handref.places import Spot
from handref.texts import counted, shown

AMOUNT, RESULT = 10 ** 12, 10 ** 13
_ABOVE_ZERO = {*PHH_AMOUNTS, "starting_stacks", "starting_stack", "small_blind_amount",
               "big_blind_amount"}
_RESULTS = {"finishing_stacks", "_rakes", "win_amount", "rake"}
_RANGES = {"year": (1, 9999), "month": (1, 12), "day": (1, 31), "seats": (1, 255),
           "seat": (1, 255), "seat_count": (1, 255), "table_size": (1, 255)}
_LISTS = {*PHH_AMOUNT_LISTS, "actions", "players", "seats", "rounds", "pots", "player_wins",
          "cards"}
_TEXTS = {"variant", "venue", "currency", "time_zone", "street", "action", "name", "site_name",
          "game_type", "bet_type", "start_date_utc"}
_OTHERS = {"time": "a local time, as 20:15:00", "ante_trimming_status": "true or false",
           "hand": "a text or a whole number", "table": "a text or a whole number",
           "game_number": "a text or a whole number", "table_name": "a text"}
_CARD = re.compile(r"[2-9TJQKA][cdhs]|\?\?")
# What people write for the words of PHH.
_MEANT = {"fold": "f", "folds": "f", "check": "cc", "checks": "cc", "call": "cc", "calls": "cc",
          "bet": "cbr AMOUNT", "bets": "cbr AMOUNT", "raise": "cbr AMOUNT",
          "raises": "cbr AMOUNT", "show": "sm CARDS", "shows": "sm CARDS", "muck": "sm",
          "mucks": "sm", "discard": "sd CARDS", "bring": "pb"}
_FORMS = ("An action is one of: d dh pN CARDS, d db CARDS, pN f, pN cc, pN cbr AMOUNT, pN pb, "
          "pN sd, pN sd CARDS, pN sm, pN sm CARDS.")


def facts(error: HandrefError, notation: handref.Notation, found: Spot, data: bytes) -> list[str]:
    """What is at the place of a fault of the input, and what may be there."""
    reason, value = error.reason or "", found.value
    if notation == "acpc":
        return _of_line(reason, found)
    if reason in ("MissingField", "MissingMember"):
        return _of_missing(error, value)
    if reason == "UnknownVariant":
        return [f"variant is {shown(str(value))}. The games are: " + ", ".join(
            f"{code} {name}" for code, name in GAMES.items()) + "."]
    if reason in ("ListLength", "SeatCount") and isinstance(value, list):
        return [f"{error.place} has {counted(len(value), 'item')}.",
                *_seats(error, notation, data)]
    if reason == "BadAction":
        return of_action(str(value), _players(notation, data, error))
    name = re.split(r"[. \[]", re.sub(r"(\[\d+\])+\Z| \d+\Z", "", error.place or ""))[-1]
    if reason == "AmountLimit" and isinstance(value, int):
        return [_of_range(error, name, value)]
    if reason == "AmountNotWhole":
        return [f"{error.place} is {shown(_brief(value))}, and amounts are whole chips."]
    return _of_type(error, name, value) if reason == "WrongType" else []


def _of_range(error: HandrefError, name: str, value: int) -> str:
    least, most = _RANGES.get(name, (int(name in _ABOVE_ZERO), RESULT if name in _RESULTS or
                                     ".pots" in (error.place or "") else AMOUNT))
    said = f"{error.place} is {_brief(value)}"
    if value < least:
        return f"{said}: below {least}, the least that it may be."
    if value > most:
        return f"{said}: above {most}, the most that it may be."
    return f"{said}: with those before it, it comes to more than {most}."


def _of_type(error: HandrefError, name: str, value: Any) -> list[str]:
    kind = ("null" if value is None else "true or false" if isinstance(value, bool) else
            "a text" if isinstance(value, str) else "a whole number" if isinstance(value, int) else
            "a list" if isinstance(value, list) else "a table" if isinstance(value, dict) else
            "a number with a fraction" if "." in str(value) else "a day or a time")
    if name == "cards" and isinstance(value, str):
        return [f"{shown(value)} is not a card. {_CARDS}"]
    is_item = bool(re.search(r" \d+\Z|\]\Z", error.place or ""))
    wanted = _OTHERS.get(name) or (
        "a text" if name in _TEXTS or is_item and name in ("players", "actions") else
        "a list" if name in _LISTS and not is_item else "a whole number" if re.search(
            "amount|stack|seat|bet|antes|blinds|rake|year|month|day|_in|id", name) else "")
    if wanted == kind:
        return [f"{error.place} is {shown(_brief(value))}: there is no such day."
                if name == "day" else f"{error.place} is {shown(json.dumps(value))}."]
    what = kind if value is None or isinstance(value, (bool, list, dict)) else \
        f"{kind}: {shown(_brief(value))}"
    return [f"{error.place} is {what}" + (f", and has to be {wanted}." if wanted else ".")]


_CARDS = "A card is one of 23456789TJQKA and one of cdhs, or ??."


def of_action(text: str, players: Optional[int]) -> list[str]:
    """What is wrong with the words of an action of PHH, and how to write it."""
    words = text.partition("#")[0].split()
    is_deal = words[:1] == ["d"]
    seat = words[2] if is_deal and words[1:2] == ["dh"] and words[2:] else \
        words[0] if words and not is_deal else ""
    if is_deal and words[1:2] not in (["dh"], ["db"]):
        return [f"After d comes dh (hole cards) or db (the board), and not "
                f"{shown(' '.join(words[1:2])) or 'the end'}.", _FORMS]
    if seat and not re.fullmatch("p[1-9][0-9]*", seat):
        return [f"{shown(seat)} is not a player: players are p1, p2 and so on.", _FORMS]
    if seat and players and int(seat[1:]) > players:
        return [f"There is no {seat}: the hand has {counted(players, 'player')}."]
    if not is_deal and words[1:] and words[1] not in ("f", "cc", "cbr", "pb", "sd", "sm"):
        meant = _MEANT.get(words[1].lower(), "")
        amount = words[2] if len(words) > 2 else "AMOUNT"
        return [f"{shown(words[1])} is not a word of PHH." + (
            f" Write: {seat} {meant.replace('AMOUNT', amount)}" if meant else ""), _FORMS]
    if words[1:] == ["sm", "-"]:
        return [f"Write {seat} sm: it says that {seat} mucks."]
    return [*_of_cards(words[1:]), *_of_amount(words), _FORMS]


def _of_amount(words: list[str]) -> list[str]:
    if words[1:2] != ["cbr"]:
        return [f"Nothing may follow {words[1]}."] if words[1:2] in (["f"], ["cc"], ["pb"]) and \
            words[2:] else []
    if not words[2:]:
        return ["The amount is missing after cbr: the chips of the street to which it goes."]
    if not re.fullmatch("[0-9]+", words[2]):
        return [f"{shown(words[2])} is not an amount: digits alone."]
    return ["Nothing may follow the amount."] if words[3:] else []


def _of_cards(words: list[str]) -> list[str]:
    """The first of some cards that is not one."""
    if words[:1] not in (["dh"], ["db"], ["sm"], ["sd"]):
        return []
    text = (words[2:] if words[0] == "dh" else words[1:]) or [""]
    if not text[0]:
        return [f"The cards are missing after {' '.join(words)}."] * (words[0] in ("dh", "db"))
    pairs = [text[0][place:place + 2] for place in range(0, len(text[0]), 2)]
    wrong = next((pair for pair in pairs if not _CARD.fullmatch(pair)), None)
    if wrong:
        part = re.fullmatch(r"[2-9TJQKA]\?|\?[cdhs]", wrong)
        return [f"{shown(wrong)} is " + ("a card of which only a part is known, which is not read."
                                         if part else f"not a card. {_CARDS}")]
    if text[1:]:
        return ["The cards are one word, without spaces, and nothing follows them."]
    if words[0] in ("db", "sm") and "??" in pairs:
        return ["All cards are known here: ?? may be dealt to a player alone."]
    most = {"dh": 7, "db": 5, "sm": 7, "sd": 5}[words[0]]
    return [f"There are {len(pairs)} cards, and at most {most} may be here."] * (len(pairs) > most)


def _players(notation: str, data: bytes, error: HandrefError) -> Optional[int]:
    try:
        stacks = places.table_of(places.decoded(data), error.hand or 1)[1]["starting_stacks"]
        return len(stacks) if notation == "phh" else None
    except (ValueError, LookupError, TypeError):
        return None


def _seats(error: HandrefError, notation: str, data: bytes) -> list[str]:
    """How many items a list of PHH needs."""
    players = _players(notation, data, error)
    if error.reason != "ListLength" or not players or error.place == "_rakes":
        return []
    return [f"It needs one for each of the {players} players."]


def _of_missing(error: HandrefError, value: Any) -> list[str]:
    """The key that is missing, and one like it that is there."""
    name = re.split(r"[.\]]", error.place or "")[-1]
    keys = [key for key in value if isinstance(key, str)] if isinstance(value, dict) else []
    near = get_close_matches(name, keys, 1)
    return [f"{name} is missing here." + (
        f" There is {shown(near[0])}: perhaps {name} is meant." if near else "")]


def _of_line(reason: str, found: Spot) -> list[str]:
    """What is at the place of a fault of a log."""
    line, sign = found.text, shown(found.text[found.column - 1:found.column])
    fields = line.split(":")
    if reason == "LineShape":
        if not line.startswith("STATE:"):
            return [f"The line begins with {shown(fields[0][:20])}, and not with STATE."]
        if len(fields) != 6:
            return [f"The line has {len(fields)} fields between colons, and not six: STATE, hand, "
                    "betting, cards, values, names."]
        return ["The number of the hand is not one to 18 digits."
                if not re.fullmatch("[0-9]{1,18}", fields[1]) else "A name is not UTF-8."]
    if reason == "BadBetting":
        return [f"{sign} may not be here." if sign else "The line ends here."]
    if reason in ("BadCards", "SeatCount") and len(fields) == 6:
        holes, *boards = fields[3].split("/")
        seats = ", ".join(counted(part.count("|") + 1, word) for part, word in (
            (holes, "hand"), (fields[4], "value"), (fields[5], "name")))
        return [f"The betting has {counted(fields[2].count('/') + 1, 'round')}, and the cards "
                f"{counted(len(boards), 'board')}; the line has {seats}."]
    words = re.match(r"[^:|/a-z]*", line[found.column - 1:])
    if not words or not words[0]:
        return []
    if reason == "AmountLimit":
        most = AMOUNT if found.column - 1 < len(":".join(fields[:3])) else RESULT
        return [f"{shown(words[0])} is above {most}, the most that it may be."]
    return [f"{shown(words[0])} is the value here, and not a whole number of chips."]


def _brief(value: Any) -> str:
    text = str(value)
    return text if len(text) < 80 else text[:78] + "\u2026"
