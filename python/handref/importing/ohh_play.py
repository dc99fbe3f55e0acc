"""Hands of OHH as PHH, where OHH has no form for them that handref reads: a button at an empty seat,
a small blind that nobody posts."""
import re
from typing import Any, Callable

from handref import Notation
from handref.importing import play
from handref.importing.record import LeftOut

_DATE = re.compile(r"([0-9]{4})-([0-9]{2})-([0-9]{2})[T ]([0-9]{2}:[0-9]{2}:[0-9]{2}(?:\.[0-9]{1,9})?)"
                   r"(?:Z|\+00:00)?")
_VARIANTS = {("Holdem", "NL"): "NT", ("Holdem", "FL"): "FT", ("Omaha", "PL"): "PO",
             ("OmahaHiLo", "FL"): "FO/8"}


def why_phh(inner: dict[str, Any]) -> tuple[str, str]:
    """The rule by which a hand is written as PHH, and why; nothing if it stays OHH."""
    players = inner.get("players")
    if not isinstance(players, list) or len(players) < 2 or "rounds" not in inner:
        return "", ""
    seats = [player.get("seat") for player in players if isinstance(player, dict)]
    button = inner.get("dealer_seat")
    words = [action.get("action") for each in _list(inner["rounds"]) for action in
             _list(each.get("actions"))]
    if isinstance(button, int) and button not in seats:
        return "dead-button", "nobody has the button"
    if words.count("Post SB") == 0 and words.count("Post BB") == 1:
        return "dead-small-blind", "nobody posts the small blind"
    return "", ""


def _list(value: Any) -> list[dict[str, Any]]:
    return [item for item in value if isinstance(item, dict)] if isinstance(value, list) else []


def document(inner: dict[str, Any], dialect: Notation) -> bytes:
    """The hand as a table of PHH. LeftOut: it says something that PHH has no form for, or that does
    not add up."""
    try:
        return _play(inner, dialect).document(1)
    except (KeyError, TypeError, AttributeError, ValueError) as why:
        raise LeftOut("a hand of OHH that does not read", str(why)) from why


def _play(inner: dict[str, Any], dialect: Notation) -> play.Play:
    own = play.Play(button=inner["dealer_seat"], small_blind=inner["small_blind_amount"],
                    big_blind=inner["big_blind_amount"])
    own.variant = _VARIANTS[inner["game_type"], inner["bet_limit"]["bet_type"]]
    own.bets = (own.big_blind, 2 * own.big_blind)
    seats = {}
    for player in inner["players"]:
        seats[player["id"]] = player["seat"]
        own.players[player["seat"]] = play.Player(player["seat"], player.get("name", ""),
                                                  player["starting_stack"])
    if len(own.players) != len(inner["players"]):
        raise LeftOut("two players at one seat")
    for each in inner["rounds"]:
        if each["street"] not in ("Preflop", "Showdown"):
            own.next_street("".join(each.get("cards", [])))
        for action in each["actions"]:
            _act(own, seats[action["player_id"]], action, dialect)
    _results(own, inner, seats)
    _notes(own, inner)
    return own


def _act(own: play.Play, seat: int, action: dict[str, Any], dialect: Notation) -> None:
    word, chips = action["action"], action.get("amount", 0)
    is_total = word == "Raise" and dialect == "ohh-to"
    does: dict[str, Callable[[], None]] = {
        "Post Ante": lambda: own.ante(seat, chips),
        "Post SB": lambda: own.blind(seat, chips, own.small_blind),
        "Post BB": lambda: own.blind(seat, chips, own.big_blind),
        "Straddle": lambda: own.blind(seat, chips, chips),
        "Dealt Cards": lambda: own.know(seat, own.cards.get(seat, "")
                                        + "".join(action.get("cards", []))),
        "Fold": lambda: own.fold(seat), "Check": lambda: own.call(seat, 0),
        "Call": lambda: own.call(seat, chips), "Bet": lambda: own.raise_by(seat, chips),
        "Raise": lambda: own.raise_to(seat, chips) if is_total else own.raise_by(seat, chips),
        "Shows Cards": lambda: own.show(seat, "".join(action["cards"])),
        "Mucks Cards": lambda: None if seat in own.folded else own.muck(seat),
        "Sits Down": lambda: None, "Stands Up": lambda: None}
    if word not in does:
        raise LeftOut("an action that is not known", str(word))
    if word == "Post SB":
        own.small_blind_of = seat
    does[word]()


def _results(own: play.Play, inner: dict[str, Any], seats: dict[Any, int]) -> None:
    """What the pots state: finishing stacks and rakes."""
    pots = inner.get("pots")
    own.has_results = pots is not None
    if pots is None:
        return
    for pot in pots:
        own.rakes.append(pot.get("rake", 0))
        for win in pot["player_wins"]:
            own.collect(seats[win["player_id"]], win["win_amount"])
    own.give_back(sum(pot["amount"] for pot in pots))


def _notes(own: play.Play, inner: dict[str, Any]) -> None:
    named = inner.get("game_number", "")
    own.notes = {"hand": play.number(named) if isinstance(named, str) else named,
                 "table": inner.get("table_name"), "venue": inner.get("site_name"),
                 "currency": inner.get("currency"), "seat_count": inner.get("table_size")}
    said = inner.get("start_date_utc")
    if said is None:
        return
    found = _DATE.fullmatch(said)
    if not found:
        raise LeftOut("a date that does not read", str(said))
    own.notes.update(year=int(found[1]), month=int(found[2]), day=int(found[3]),
                     time=play.clock(found[4]), time_zone="UTC")
