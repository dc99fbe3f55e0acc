"""Hands of PHH as people have them: decimals, winnings, `sm -`, keys that handref does not keep.

A hand stays the text that it was, with its comments and its layout, but for the values that a rule
changes."""
import json
import re
from decimal import Decimal
from typing import Any, Iterator, Optional

from handref import formats, phhs, toml
from handref.importing import amounts
from handref.importing.record import Hand, LeftOut
from handref.importing.rules import Rules

LISTS = (*formats.PHH_AMOUNT_LISTS, "winnings")
_RAISE = re.compile(rf"(\A *p[0-9]+ +cbr +)({amounts.NUMBER})(?= |#|\Z)")
_DASH = re.compile(r"(\A *p[0-9]+ +sm) +-(?= *#| *\Z)")
_CARDS = re.compile(r"\A *(?:d +d([hb])(?: +p[0-9]+)?|p[0-9]+ +s[dm]) +([^ #]+) *(?:#|\Z)")
_HALF_KNOWN = re.compile(r"(?:..)*?(?:[2-9TJQKA]\?|\?[cdhs])")


class Table:
    """A hand: its text, what it says, and the edits that rules ask for."""

    def __init__(self, text: str) -> None:
        self.text = text
        document, self.places = toml.read_with_places(text)
        self.top: toml.Key = ()
        if "variant" not in document and len(document) == 1:
            key, inner = next(iter(document.items()))
            if isinstance(inner, dict) and re.fullmatch("[0-9]+", key):
                self.top, document = (key,), inner
        self.table: dict[str, Any] = document
        self.edits: dict[toml.Key, str] = {}
        self.added: list[str] = []

    def put(self, key: toml.Key, new: str) -> None:
        """Gives a value, or an item of a list, another text."""
        self.edits[key] = new

    def add(self, key: str, new: str) -> None:
        """Gives a key a text, whether it is there or not."""
        if (*self.top, key) in self.places:
            self.put((key,), new)
        else:
            self.added.append(f"{key} = {new}")

    def raw(self, key: str) -> str:
        """The text of a value."""
        place = self.places[(*self.top, key)]
        return self.text[place.start:place.end]

    def edited(self) -> str:
        """The text of the hand after all edits."""
        edits = [(self.places[(*self.top, *key)].start, self.places[(*self.top, *key)].end, new)
                 for key, new in self.edits.items()]
        if self.added:
            edits.append(self._new_keys())
        text = self.text
        for start, end, new in sorted(edits, reverse=True):
            text = text[:start] + new + text[end:]
        return text

    def _new_keys(self) -> tuple[int, int, str]:
        """Where keys may be added: before the first one, or after the header."""
        lines = "\n".join(self.added)
        if not self.top:
            first = min(place.key for place in self.places.values() if place.key is not None)
            return first, first, lines + "\n"
        place = self.places[self.top]
        return place.end, place.end, "\n" + lines


def blocks(data: phhs.Bytes) -> Iterator[tuple[int, int, int]]:
    """The hands of a file in order: their numbers, from 1, and where they begin and end. LeftOut:
    the file is not cut at its hands."""
    try:
        hands = phhs.Hands(data)
    except phhs.NotSure as why:
        raise LeftOut("a file that is not cut at its hands", why.why, why.line) from why
    if not hands.is_cut:
        yield 1, 0, len(data)
        return
    for place in range(len(hands)):
        yield (place + 1, *hands.span(place))


def read(hand: Hand, data: bytes, rules: Rules) -> None:
    """Reads a hand, and notes what its amounts need."""
    try:
        table = Table(data.decode())
    except toml.TomlError as why:
        raise LeftOut("a text that is no TOML", why.what,
                      hand.line + data.decode().count("\n", 0, why.at)) from why
    except UnicodeDecodeError as why:
        raise LeftOut("a text that is not UTF-8", "",
                      hand.line + data.count(b"\n", 0, why.start)) from why
    except (ValueError, RecursionError) as why:
        raise LeftOut("a text that is no TOML", str(why)) from why
    hand.value = table
    hand.is_money = any(table.table.get(key) for key in ("currency", "currency_symbol"))
    _refuse_what_has_no_form(table.table)
    if rules.has("unit"):
        for _, value in numbers(table.table):
            amounts.need(hand, value)
    if rules.has("muck-dash"):
        _mend_mucks(hand, table)


def numbers(table: dict[str, Any]) -> Iterator[tuple[toml.Key, amounts.Amount]]:
    """The amounts of a hand, with their places."""
    for name in formats.PHH_AMOUNTS:
        if is_number(table.get(name)):
            yield (name,), table[name]
    for name in LISTS:
        for place, value in enumerate(table[name] if isinstance(table.get(name), list) else []):
            if is_number(value):
                yield (name, place), value
    for place, action in enumerate(texts(table)):
        raised = _RAISE.match(action)
        if raised:
            yield ("actions", place), Decimal(raised[2]) if "." in raised[2] else int(raised[2])


def is_number(value: Any) -> bool:
    """Whether a value of TOML or JSON is a number."""
    return isinstance(value, (int, Decimal)) and not isinstance(value, bool)


def texts(table: dict[str, Any]) -> list[str]:
    """The actions of a hand; one that is no text is an empty one."""
    found = table.get("actions")
    return [action if isinstance(action, str) else "" for action in
            (found if isinstance(found, list) else [])]


def _refuse_what_has_no_form(table: dict[str, Any]) -> None:
    """Leaves out what PHH can say and handref cannot, and names it."""
    blinds = table.get("blinds_or_straddles")
    for place, value in enumerate(blinds if isinstance(blinds, list) else [], 1):
        if is_number(value) and value < 0:
            raise LeftOut("a late post", f"blinds_or_straddles {place} is {value}")
    board = 0
    for place, action in enumerate(texts(table), 1):
        cards = _CARDS.match(action)
        if not cards:
            continue
        if _HALF_KNOWN.match(cards[2]):
            raise LeftOut("a card of which only the rank or the suit is known",
                          f"actions {place}: {action}")
        if cards[1] == "b":
            board += len(cards[2]) // 2
            if "??" in cards[2]:
                raise LeftOut("a card of the board that is not known", f"actions {place}: {action}")
            if board > 5:
                raise LeftOut("a second board", f"actions {place}: {action}")


def _mend_mucks(hand: Hand, table: Table) -> None:
    for place, action in enumerate(texts(table.table)):
        new = _DASH.sub(r"\1", action)
        if new != action:
            table.put(("actions", place), quoted(new))
            table.table["actions"][place] = new
            hand.change("muck-dash", f"{action.split('#')[0].strip()}: written as "
                        f"{new.split('#')[0].strip()}", action, new)


def quoted(text: str) -> str:
    """A text as TOML has it."""
    return json.dumps(text, ensure_ascii=False).replace("\x7f", "\\u007f")


def in_chips(hand: Hand, times: int) -> None:
    """Writes all amounts of a hand as whole chips."""
    table: Table = hand.value
    for key, value in list(numbers(table.table)):
        if times == 1 and isinstance(value, int):
            continue
        chips = amounts.whole(value, times, " ".join(
            str(step + 1) if isinstance(step, int) else step for step in key))
        if key[0] == "actions":
            action = table.table["actions"][key[1]]
            raised = _RAISE.match(action)
            assert raised
            new = f"{raised[1]}{chips}{action[raised.end():]}"
            table.put(key, quoted(new))
            table.table["actions"][key[1]] = new
        else:
            table.put(key, str(chips))
            if len(key) == 2:
                table.table[str(key[0])][key[1]] = chips
            else:
                table.table[str(key[0])] = chips
    if times != 1:
        own = table.table.get("currency")
        new = amounts.unit_name(own, times)
        table.add("currency", quoted(new))
        table.table["currency"] = new


def kept_keys(table: Table) -> dict[str, str]:
    """The keys of a hand that handref does not keep, with the texts of their values."""
    return {key: table.raw(key) for key in table.table
            if key not in formats.PHH_KEYS and (*table.top, key) in table.places}


def winnings(table: dict[str, Any]) -> Optional[list[int]]:
    """What each player has collected, where the hand says so and names no rake."""
    found, stacks = table.get("winnings"), table.get("starting_stacks")
    if not isinstance(found, list) or not isinstance(stacks, list) or len(found) != len(stacks) \
            or "_rakes" in table or not all(isinstance(chips, int) for chips in found):
        return None
    return found
