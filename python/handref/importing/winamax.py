"""The texts of Winamax."""
import re

from handref.importing import play
from handref.importing.record import LeftOut
from handref.importing.pokerstars import set_game
from handref.importing.text import M, Reader, Site, named, number

GAMES = {"Holdem no limit": "NT", "Omaha pot limit": "PO", "Holdem limit": "FT"}
_HEAD = re.compile(
    r"Winamax Poker - (?P<kind>CashGame|(?:Go Fast|Escape)(?: \".*?\")?|Tournament .*?|Expresso.*?) - "
    r"HandId: "
    r"#(?P<number>[0-9-]+) - (?P<game>[^(]+) \((?P<stakes>[^)]*)\) - (?P<year>[0-9]{4})/(?P<month>[0-9]{2})/"
    r"(?P<day>[0-9]{2}) (?P<time>[0-9]{2}:[0-9]{2}:[0-9]{2}) (?P<zone>UTC)")
_TABLE = re.compile(r"Table: '(?P<table>.*)' (?P<seats>[0-9]+)-max \((?:real|play) money\) "
                    r"Seat #(?P<button>[0-9]+) is the button")
_SEAT = re.compile(rf"Seat (?P<seat>[0-9]+): (?P<name>.+) \({named('stack')}"
                   rf"(?:, {M} bounty)?\)")


def _head(reader: Reader, line: str) -> None:
    found = _HEAD.fullmatch(line)
    if not found:
        raise LeftOut("a first line that is not known", line)
    own = reader.own
    if found["game"] not in GAMES:
        raise LeftOut("a game that handref does not have", found["game"])
    stakes = [re.fullmatch(M, text) for text in found["stakes"].split("/")]
    if len(stakes) not in (2, 3) or not all(stakes):
        raise LeftOut("a first line that is not known", line)
    numbers = [number(each[1]) for each in stakes if each]
    set_game(own, GAMES[found["game"]], *numbers[-2:])
    own.ante_named = numbers[0] if len(numbers) == 3 else 0
    reader.hand.is_money = "€" in found["stakes"]
    own.notes.update(
        hand=play.number(found["number"]), venue="Winamax", year=int(found["year"]),
        month=int(found["month"]), day=int(found["day"]), time=play.clock(found["time"]),
        time_zone="UTC", currency="EUR" if reader.hand.is_money else None)


WINAMAX = Site("Winamax", _head, _TABLE, _SEAT, sign=" ", may_be_net=True)
