"""Hands of OHH as people have them: lists, no empty lines, null, decimals, players who sit out, dead
blinds and buttons, and two dialects."""
import copy
import json
import mmap
import re
from decimal import Decimal
from typing import Any, Iterator, Optional, Sequence, Union

from handref import HandrefError, Notation, texts
from handref.importing import amounts, judging, ohh_play
from handref.importing.finishing import settle
from handref.importing.record import Hand, LeftOut, Written
from handref.importing.rules import Rules

DIALECTS: tuple[Notation, Notation] = ("ohh", "ohh-to")
_AMOUNT = re.compile(r"(?:(?:ante|big_blind|small_blind|win)_)?amount\Z|rake\Z|jackpot\Z"
                     r"|starting_stack\Z")
_START = re.compile(r"[^\s\[\],]")
_NEXT = re.compile(r"\n[ \t\r]*\n|\n(?=\s*\{\s*\"ohh\")")
_BLANK = re.compile(rb"\n[ \t\r]*\n")
_LATE = {"Post Dead": "a late post", "Post Extra Blind": "a late post",
         "Added Chips": "chips that are added in a hand", "Added to Pot": "chips that are added to the pot"}
_GAMES = {("Holdem", "NL"), ("Holdem", "FL"), ("Omaha", "PL"), ("OmahaHiLo", "FL")}


# Finding hands.

def blocks(data: "Union[bytes, mmap.mmap]", rules: Rules) -> Iterator[tuple[int, int, int]]:
    """The hands of a file: JSON texts, whatever is between them. Where one does not end, the
    next one begins after an empty line, or where a line begins a hand."""
    text = data[3 if data[:3] == b"\xef\xbb\xbf" else 0:].decode("latin-1")  # a sign for each byte
    shift, end, number = len(data) - len(text), 0, 0
    if not rules.has("documents"):
        yield from _by_empty_lines(data)
        return
    reader = json.JSONDecoder()
    while found := _START.search(text, end):
        start, number = found.start(), number + 1
        try:
            _, end = reader.raw_decode(text, start)
        except (ValueError, RecursionError):
            cut = _NEXT.search(text, start)
            end = cut.start() if cut else len(text)
        yield number, start + shift, end + shift


def _by_empty_lines(data: "Union[bytes, mmap.mmap]") -> Iterator[tuple[int, int, int]]:
    start = number = 0
    for cut in [*(match.span() for match in _BLANK.finditer(data)), (len(data), len(data))]:
        if data[start:cut[0]].strip():
            number += 1
            yield number, start, cut[0]
        start = cut[1]


def said_of(data: "Union[bytes, mmap.mmap]", hands: Sequence[Hand], rules: Rules) -> list[str]:
    """What is said of the places of the hands in a file."""
    if not rules.has("documents") or not hands:
        return []
    if b"[" in data[:hands[0].start]:
        return ["a JSON list: written as a hand a line"]
    if any(not re.search(rb"\n[ \t\r]*\n", data[one.end:two.start])
           for one, two in zip(hands, hands[1:])):
        return ["no empty line between two hands: written with one"]
    return []


# Reading.

def read(hand: Hand, data: bytes, rules: Rules) -> None:
    """Reads a hand, changes what needs no unit, and notes what its amounts need."""
    hand.notation = "ohh"
    value = _json(hand, data)
    hand.value = value
    if rules.has("nulls"):
        count = _without_nulls(value)
        if count:
            hand.change("nulls", f"{count} member{'s' * (count > 1)} that {'are' if count > 1 else 'is'}"
                        " null: left out")
    inner = value.get("ohh") if isinstance(value, dict) else None
    if not isinstance(inner, dict):
        raise LeftOut("a JSON text without the member ohh")
    hand.is_money = inner.get("tournament") is not True and bool(inner.get("currency"))
    if rules.has("unit"):
        for _, _, amount in list(numbers(inner)):
            amounts.need(hand, amount)
    _name_what_has_no_form(inner)
    if rules.has("not-dealt-in"):
        _without_players(hand, inner)
    if rules.has("jackpot"):
        _with_jackpots(hand, inner)


def _json(hand: Hand, data: bytes) -> Any:
    try:
        return json.loads(data.decode(), parse_float=Decimal, parse_constant=_no_number)
    except UnicodeDecodeError as why:
        raise LeftOut("a text that is not UTF-8", "",
                      hand.line + data.count(b"\n", 0, why.start)) from why
    except json.JSONDecodeError as why:
        raise LeftOut("a text that is no JSON", why.msg, hand.line + why.lineno - 1) from why
    except (ValueError, RecursionError) as why:
        raise LeftOut("a text that is no JSON", str(why)) from why


def _no_number(text: str) -> Any:
    raise ValueError(f"{text} is no number")


def _without_nulls(value: Any) -> int:
    """Drops the members of a value that are null; gives their number."""
    if isinstance(value, list):
        return sum(map(_without_nulls, value))
    if not isinstance(value, dict):
        return 0
    names = [name for name, item in value.items() if item is None]
    for name in names:
        del value[name]
    return len(names) + sum(map(_without_nulls, value.values()))


def is_number(value: Any) -> bool:
    """Whether a value is a number."""
    return isinstance(value, (int, Decimal)) and not isinstance(value, bool)


def numbers(value: Any) -> Iterator[tuple[dict[str, Any], str, amounts.Amount]]:
    """The amounts below a value: the object, the name and the number of each."""
    if isinstance(value, list):
        for item in value:
            yield from numbers(item)
    elif isinstance(value, dict):
        for name, item in value.items():
            if isinstance(item, (dict, list)):
                if name != "tournament_info":
                    yield from numbers(item)
            elif _AMOUNT.match(name) and is_number(item):
                yield value, name, item


def listed(value: Any, name: str) -> list[dict[str, Any]]:
    """The objects of a list that is a member."""
    found = value.get(name) if isinstance(value, dict) else None
    return [item for item in found if isinstance(item, dict)] if isinstance(found, list) else []


def actions(inner: dict[str, Any]) -> list[dict[str, Any]]:
    """The actions of all rounds."""
    return [action for each in listed(inner, "rounds") for action in listed(each, "actions")]


def _name_what_has_no_form(inner: dict[str, Any]) -> None:
    """Leaves out what OHH can say and handref cannot, and names it."""
    limit = inner.get("bet_limit")
    game = (inner.get("game_type"), limit.get("bet_type") if isinstance(limit, dict) else None)
    if all(isinstance(word, str) for word in game) and game not in _GAMES:
        raise LeftOut("a game that handref does not have", " ".join(map(str, game)))
    for action in actions(inner):
        word = action.get("action")
        if isinstance(word, str) and word in _LATE:
            raise LeftOut(_LATE[word], f"action {action.get('action_number')}: {word}")


def _without_players(hand: Hand, inner: dict[str, Any]) -> None:
    """Players without an action, a card or a win are not dealt in."""
    players = inner.get("players")
    if not isinstance(players, list):
        return
    at_play = [action.get("player_id") for action in actions(inner) if action.get("action") not in (
        "Sits Down", "Stands Up")]
    at_play += [win.get("player_id") for pot in listed(inner, "pots")
                for win in listed(pot, "player_wins")]
    for player in list(players):
        if isinstance(player, dict) and "id" in player and player["id"] not in at_play:
            players.remove(player)
            hand.change("not-dealt-in", f"player {player['id']} is not dealt in: left out of the hand",
                        text(player))
    gone = [action for action in actions(inner) if action.get("action") in ("Sits Down", "Stands Up")
            and action.get("player_id") not in at_play]
    for each in listed(inner, "rounds"):
        if isinstance(each.get("actions"), list):
            each["actions"] = [action for action in each["actions"] if action not in gone]


def _with_jackpots(hand: Hand, inner: dict[str, Any]) -> None:
    """A jackpot is taken from a pot as a rake is, where the pot is only whole with it."""
    for pot in listed(inner, "pots"):
        jackpot, rake, amount = pot.get("jackpot"), pot.get("rake", 0), pot.get("amount")
        wins: list[Any] = [win.get("win_amount") for win in listed(pot, "player_wins")]
        if not all(map(is_number, (jackpot, rake, amount, *wins))) or not jackpot:
            continue
        if sum(wins, 0) + rake + jackpot == amount:
            pot["rake"] = rake + jackpot
            hand.change("jackpot", f"a jackpot of {jackpot} and a rake of {rake}: "
                        f"a rake of {pot['rake']}", f"rake {rake}", f"rake {pot['rake']}")


# Writing.

def in_chips(hand: Hand, times: int) -> None:
    """Writes all amounts of a hand as whole chips."""
    inner = hand.value["ohh"]
    for holder, name, amount in list(numbers(inner)):
        if times != 1 or isinstance(amount, Decimal):
            holder[name] = amounts.whole(amount, times, name)
    if times != 1:
        inner["currency"] = amounts.unit_name(inner.get("currency"), times)


def text(value: Any) -> str:
    """JSON, in which a number with a fraction has the digits that it was read with."""
    if isinstance(value, dict):
        return "{" + ",".join(f"{json.dumps(key, ensure_ascii=False)}:{text(item)}"
                              for key, item in value.items()) + "}"
    if isinstance(value, list):
        return "[" + ",".join(map(text, value)) + "]"
    return str(value) if isinstance(value, Decimal) else json.dumps(value, ensure_ascii=False)


def finish(hands: list[Hand], units: amounts.Units, rules: Rules,
           dialect: Optional[str]) -> list[Written]:
    """Writes hands, and asks for the verdicts in one dialect or in both. The other one is `to`."""
    found = [_written(hand, units, rules, dialect) for hand in hands]
    if dialect is None:
        _judge(found, "ohh")
        _judge([each.to for each in found if each.to], "ohh-to")
    else:
        _judge(found, "ohh-to" if dialect == "ohh-to" else "ohh")
    return found


def _written(hand: Hand, units: amounts.Units, rules: Rules, dialect: Optional[str]) -> Written:
    own: Notation = "ohh-to" if dialect == "ohh-to" else "ohh"
    written = Written(hand)
    if hand.cause:
        return written
    try:
        if rules.has("unit"):
            in_chips(hand, units.of(hand))
    except LeftOut as why:
        hand.leave_out(why)
        return written
    other = None if dialect else Written(copy.deepcopy(hand))
    _put(written, own, rules)
    if other:
        _put(other, "ohh-to", rules)
        written.to = other
    return written


def _put(written: Written, dialect: Notation, rules: Rules) -> None:
    """Writes a hand in a dialect; as PHH where OHH has no form for its button or its blinds."""
    hand = written.hand
    hand.notation = dialect
    try:
        rule, said = ohh_play.why_phh(hand.value["ohh"])
        if rule and rules.has(rule):
            written.data = ohh_play.document(hand.value["ohh"], dialect)
            hand.notation = "phh"
            hand.change(rule, f"{said}: written as PHH")
        else:
            written.data = text(hand.value).encode("utf-8", "surrogatepass")
    except LeftOut as why:
        hand.leave_out(why)


def _judge(wanted: list[Written], dialect: Notation) -> None:
    for notation in (dialect, "phh"):
        some = [each for each in wanted if not each.hand.cause and each.hand.notation == notation]
        for written, refused in zip(some, judging.verdicts([each.data for each in some], notation)):
            settle(written, refused)
    _name_returned_bets([each for each in wanted if not each.hand.cause and each.refused
                         and each.hand.notation == dialect], dialect)


def _name_returned_bets(refused: list[Written], dialect: Notation) -> None:
    """Leaves out hands whose pots or wins count the bet that came back to a player."""
    some = [each for each in refused if isinstance(each.refused, HandrefError)
            and each.refused.reason == "stated" and each.refused.replayed is not None]
    for written, replay in zip(some, judging.replays([each.data for each in some], dialect)):
        error = written.refused
        assert isinstance(error, HandrefError) and error.stated is not None and error.replayed is not None
        extra = error.stated - error.replayed
        if extra > 0 and extra in replay.returned.values():
            written.hand.leave_out(LeftOut(
                "pots or wins that count the returned bet",
                f"{error.place} is {error.stated}, without the bet {error.replayed}"))


# The dialect.

def decide(found: list[Written], dialect: Optional[str]) -> list[str]:
    """Decides for one dialect, if all hands that are legal in either are legal in exactly one of
    them; else leaves out what the dialects read as different hands. Gives what is to be said."""
    if dialect or not any(each.to for each in found):
        return []
    pairs = [(each, each.to) for each in found if each.to]
    legal = [[_is_legal(one) for one, _ in pairs], [_is_legal(two) for _, two in pairs]]
    for own, other, name in ((0, 1, "ohh"), (1, 0, "ohh-to")):
        only = sum(mine and not theirs for mine, theirs in zip(legal[own], legal[other]))
        if only and not any(theirs and not mine for mine, theirs in zip(legal[own], legal[other])):
            _take(found, name)
            what = "is what it adds" if name == "ohh" else "is the total to which it goes"
            return [f"the amount of a raise {what} ({name}): in the other dialect "
                    f"{texts.counted(only, 'hand')} {'is' if only == 1 else 'are'} not legal"]
    _leave_out_unclear(pairs)
    _take(found, "ohh")
    return []


def _is_legal(written: Written) -> bool:
    return not written.hand.cause and written.refused is None


def _take(found: list[Written], dialect: str) -> None:
    for place, each in enumerate(found):
        if each.to and dialect == "ohh-to":
            found[place] = each.to
        each.to = None


def _leave_out_unclear(pairs: "list[tuple[Written, Written]]") -> None:
    """Leaves out the hands that are legal in both dialects, or in none of those that others need,
    and are not the same hand."""
    both = [(one, two) for one, two in pairs if _is_legal(one) and _is_legal(two)]
    for one, two in pairs:
        if _is_legal(one) != _is_legal(two):
            one.hand.leave_out(_UNCLEAR)
    for notation in ("ohh", "phh"):
        some = [(one, two) for one, two in both if (one.hand.notation == "phh") == (notation == "phh")]
        first = judging.replays([one.data for one, _ in some], "phh" if notation == "phh" else "ohh")
        second = judging.replays([two.data for _, two in some],
                                 "phh" if notation == "phh" else "ohh-to")
        for (one, _), own, other in zip(some, first, second):
            if own != other:
                one.hand.leave_out(_UNCLEAR)


_UNCLEAR = LeftOut("a dialect that is not clear", "its raises are legal as what they add and as the "
                   "totals to which they go; --from ohh or --from ohh-to says which")
