"""The texts of PokerStars, and of GGPoker, which has nearly the same form."""
import re
from decimal import ROUND_DOWN, Decimal

from handref.importing import play
from handref.importing.amounts import Amount
from handref.importing.record import LeftOut
from handref.importing.text import M, SYMBOLS, Reader, Site, named, number

GAMES = {"Hold'em No Limit": "NT", "Hold'em Limit": "FT", "Omaha Pot Limit": "PO", "PLO Pot Limit": "PO",
         "PLO": "PO", "Omaha Hi/Lo Limit": "FO/8"}
_STAKES = (rf"(?P<symbol>[$€£¥₹]?){named('small')}/{named('big')}(?: - Ante {named('ante')})?"
           r"(?: (?P<currency>[A-Z]{3,4}))?")
_CASH = re.compile(rf"(?:[^(]* \()?(?P<game>[^(,]+?)(?:,| \() ?{_STAKES}\)")
_LEVEL = re.compile(rf"Tournament #(?P<tournament>[0-9]+), (?P<game>.*?) ?- (?:Match Round [^,]*, )?"
                    rf"Level ?(?:[IVXLCDM]+|[0-9]+) ?\({_STAKES}(?: ?\({named('level_ante')}\))?\)")
_WHEN = (r" - (?P<year>[0-9]{4})/(?P<month>[0-9]{2})/(?P<day>[0-9]{2}) (?:- )?"
         r"(?P<time>[0-9]{1,2}:[0-9]{2}:[0-9]{2})(?: (?P<sign>\()?(?P<zone>[A-Z]{2,5})(?(sign)\)))?(?: \[.*\])?")
_HEAD = re.compile(r"PokerStars (?:[A-Z][A-Za-z]* )*(?:Hand|Game) #(?P<number>[0-9]+): +(?:\{[^}]*\} +)?"
                   r"(?P<game>.*?)" + _WHEN)
_GG_HEAD = re.compile(r"Poker Hand #(?P<number>[A-Za-z]*[0-9]+): +(?P<game>.*?)" + _WHEN)
TABLE = re.compile(r"Table '(?P<table>.*)'(?: (?P<seats>[0-9]+)-max)?(?: \(Play Money\))? "
                   r"Seat #(?P<button>[0-9]+) is the button")
SEAT = re.compile(rf"Seat (?P<seat>[0-9]+): (?P<name>.+) \({named('stack')} in chips"
                  rf"(?:, {M} bounty)?\)(?: is sitting out| out of hand \(.*\))?")


def _head(reader: Reader, line: str, pattern: "re.Pattern[str]", venue: str) -> None:
    found = pattern.fullmatch(line)
    if not found:
        raise LeftOut("a first line that is not known", line)
    own = reader.own
    middle = found["game"]
    stakes = (_LEVEL if middle.startswith("Tournament") else _CASH).fullmatch(middle)
    if not stakes:
        raise LeftOut("a first line that is not known", line)
    is_tournament = middle.startswith("Tournament")
    name = re.sub(" +", " ", stakes["game"].strip())
    game = next((code for game, code in GAMES.items() if name == game or is_tournament and re.search(
        rf"(?:\A| |\(){re.escape(game)}\)?\Z", name) and not re.search(
            rf"(?:[0-9]\+|Card|Pineapple) {re.escape(game)}\)?\Z", name)), None)
    if game is None:
        raise LeftOut("a game that handref does not have", name)
    set_game(own, game, number(stakes["small"]), number(stakes["big"]))
    said = stakes.groupdict()
    own.ante_named = number(said.get("ante") or said.get("level_ante") or "0")
    reader.hand.is_money = not is_tournament and bool(stakes["symbol"] or stakes["currency"])
    own.notes.update(
        hand=play.number(found["number"]), venue=venue, year=int(found["year"]),
        month=int(found["month"]), day=int(found["day"]), time=play.clock(found["time"]),
        time_zone=found["zone"])
    if reader.hand.is_money:
        own.notes["currency"] = stakes["currency"] or SYMBOLS[stakes["symbol"]]


def set_game(own: play.Play, game: str, first: Amount, second: Amount) -> None:
    """The game, and its blinds. In fixed limit the stakes are the bets; the small bet is the big
    blind, and half of it, without a part of a cent, the small one."""
    own.variant = game
    own.small_blind, own.big_blind = first, second
    if game in ("FT", "FO/8"):
        half = Decimal(first) / 2
        own.bets, own.big_blind = (first, second), first
        own.small_blind = half if half == round(half, 2) else half.quantize(Decimal("0.01"), ROUND_DOWN)


POKERSTARS = Site("PokerStars", lambda reader, line: _head(reader, line, _HEAD, "PokerStars"),
                  TABLE, SEAT)
GGPOKER = Site("GGPoker", lambda reader, line: _head(reader, line, _GG_HEAD, "GGPoker"), TABLE, SEAT)
