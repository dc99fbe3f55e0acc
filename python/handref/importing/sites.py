"""Texts of sites: which site has written a file, where its hands begin, and how they are written."""
import mmap
import re
from typing import Iterator, Optional, Union

from handref import HandrefError, single_hands, site_texts
from handref.importing import amounts, judging, rakes, text
from handref.importing.finishing import settle
from handref.importing.pokerstars import GGPOKER, POKERSTARS
from handref.importing.record import Hand, LeftOut, Written
from handref.importing.rules import Rules
from handref.importing.winamax import WINAMAX

SITES = {b"PokerStars ": POKERSTARS, b"Poker Hand ": GGPOKER, b"Winamax Poker": WINAMAX}
_SPACE = re.compile(rb"(?:\s|\xef\xbb\xbf)*\Z")


def blocks(data: "Union[bytes, mmap.mmap]") -> Iterator[tuple[int, int, int]]:
    """The hands of a text: each from its first line up to that of the next one. What comes before
    the first one, and is not empty, is a hand that cannot be read."""
    start, number = 0, 0
    for found in site_texts.HEAD.finditer(data):
        if data[start:start + 8] == b"#Game No" and data[start:found.start()].count(b"\n") == 1:
            continue  # two first lines of one hand
        if start < found.start() and not (number == 0 and _SPACE.match(data[:found.start()])):
            number += 1
            yield number, start, found.start()
        start = found.start()
    if start < len(data):
        yield number + 1, start, len(data)


def site_of(data: bytes) -> Optional[text.Site]:
    """The site of a hand."""
    front = data.removeprefix(b"\xef\xbb\xbf")
    return next((site for begin, site in SITES.items() if front.startswith(begin)), None)


def read(hand: Hand, data: bytes, rules: Rules) -> None:
    """Reads a hand, and notes what its amounts need."""
    site = site_of(data)
    if site is None or not rules.has("text"):
        other = site_texts.site_of(data)
        hand.site = other[0] if other else ""
        raise LeftOut("a text that is not read" if hand.site else "a text before the first hand",
                      hand.site)
    hand.site = site.name
    try:
        lines = data.decode("utf-8-sig").split("\n")
    except UnicodeDecodeError as why:
        raise LeftOut("a text that is not UTF-8", "",
                      hand.line + data.count(b"\n", 0, why.start)) from why
    hand.value = text.read(site, hand, lines, rules)
    if rules.has("unit"):
        for amount in hand.value.amounts():
            amounts.need(hand, amount)


def finish(hands: list[Hand], units: amounts.Units, rules: Rules) -> list[Written]:
    """Writes hands as PHH, and asks for the verdict on each."""
    found = [Written(hand) for hand in hands]
    for each in found:
        _write(each, units)
    _judge([each for each in found if not each.hand.cause])
    again = [each for each in found if not each.hand.cause and each.refused
             and any(each.hand.value.rakes) and _may_be_rake(each.refused)]
    _share_rakes(again, units)
    _judge([each for each in again if not each.hand.cause])
    return found


def _write(written: Written, units: amounts.Units) -> None:
    if written.hand.cause:
        return
    try:
        written.data = written.hand.value.document(units.of(written.hand))
    except LeftOut as why:
        written.hand.leave_out(why)


def _judge(wanted: list[Written]) -> None:
    for written, refused in zip(wanted, judging.verdicts([each.data for each in wanted], "phh")):
        settle(written, refused)


def _may_be_rake(refused: Exception) -> bool:
    """Whether a hand may be refused because its rake is not that of the first pot alone."""
    return isinstance(refused, HandrefError) and (
        refused.reason == "rake too big" or (refused.place or "").startswith("finish"))


def _share_rakes(wanted: list[Written], units: amounts.Units) -> None:
    """Divides a rake among the pots of the replay, by what was collected from each. What the text
    names of pots is used where it names each of them."""
    bare = []
    for each in wanted:
        play = each.hand.value
        kept, play.rakes = play.rakes, []
        bare.append(play.document(units.of(each.hand)))
        play.rakes = kept
    for each, replay in zip(wanted, judging.replays(bare, "phh")):
        play, times = each.hand.value, units.of(each.hand)
        if len(replay.pots) < 2:
            continue
        order = play.order()
        won = [amounts.whole(play.won.get(seat, 0), times) for seat in order]
        named = [amounts.whole(chips, times) for _, chips in sorted(
            play.pots, key=lambda pot: (not pot[0].startswith("main"), text.natural(pot[0])))]
        if len(named) == len(replay.pots):
            found = [pot.chips - chips for pot, chips in zip(replay.pots, named)]
        else:
            found = rakes.of_pots(replay, won) or []
        total = sum(amounts.whole(rake, times) for rake in play.rakes)
        if sum(found) != total or any(rake < 0 for rake in found):
            continue  # the hand is refused as it is
        table = play.table(times)
        table["_rakes"] = found
        each.data = single_hands.document(table)
