"""A hand as its source says it, move by move, and how it is written as PHH.

The reader of a source adds up what the source itself says that each player puts in, gets back and
collects. These sums are written as finishing stacks, so that the proved replay compares them."""
import datetime
from dataclasses import dataclass, field
from typing import Any, NamedTuple, Optional, Union

from handref import single_hands
from handref.importing import amounts
from handref.importing.amounts import Amount
from handref.importing.record import LeftOut


class Move(NamedTuple):
    """What a seat does, and to which total it raises; or the cards that the board gets."""
    seat: int = 0
    what: str = ""
    total: Optional[Amount] = None
    cards: Optional[str] = None


@dataclass
class Player:
    """A player: the seat at the table, the name, the starting stack."""
    seat: int
    name: str
    stack: Amount


@dataclass
class Play:
    """A hand: its players by seat, what they post and do, and what they get."""
    players: dict[int, Player] = field(default_factory=dict)
    button: int = 0
    variant: str = "NT"
    small_blind: Amount = 0
    big_blind: Amount = 0
    bets: tuple[Amount, Amount] = (0, 0)  # of fixed limit
    antes: dict[int, Amount] = field(default_factory=dict)
    ante_named: Amount = 0  # by the first line of a text
    blinds: dict[int, Amount] = field(default_factory=dict)  # as they are named, straddles too
    small_blind_of: Optional[int] = None
    big_blind_of: Optional[int] = None
    cards: dict[int, str] = field(default_factory=dict)  # as far as they are known at the end
    moves: list[Move] = field(default_factory=list)
    folded: dict[int, int] = field(default_factory=dict)  # on which street, from 1
    ends: dict[int, str] = field(default_factory=dict)  # who shows (cards) or mucks ("")
    street: int = 1
    board: list[str] = field(default_factory=list)
    on: dict[int, Amount] = field(default_factory=dict)  # chips of the street
    put: dict[int, Amount] = field(default_factory=dict)
    bet: Amount = 0
    back: dict[int, Amount] = field(default_factory=dict)
    won: dict[int, Amount] = field(default_factory=dict)
    rakes: list[Amount] = field(default_factory=list)
    pots: list[tuple[str, Amount]] = field(default_factory=list)  # what was collected from each
    has_results: bool = True
    notes: dict[str, Any] = field(default_factory=dict)

    # What the source says, in order.

    def add(self, seat: int, chips: Amount) -> None:
        """A player puts chips into the pot."""
        self.put[seat] = self.put.get(seat, 0) + chips

    def left(self, seat: int) -> Amount:
        """What a player has left, by what the source says."""
        return self.players[seat].stack - self.put.get(seat, 0)

    def ante(self, seat: int, chips: Amount) -> None:
        """A player posts an ante."""
        if seat in self.antes:
            raise LeftOut("a second ante", self.players[seat].name)
        self.antes[seat] = chips
        self.add(seat, chips)

    def blind(self, seat: int, chips: Amount, named: Amount) -> None:
        """A player posts a blind or a straddle: what is posted, and what the blind is."""
        if seat in self.blinds:
            raise LeftOut("a second blind", self.players[seat].name)
        if chips != named and not (chips < named and chips == self.left(seat)):
            raise LeftOut("a blind of another size", f"{self.players[seat].name}: {chips}")
        self.blinds[seat] = named
        self.on[seat] = chips
        self.add(seat, chips)
        self.bet = max(self.bet, chips)

    def fold(self, seat: int) -> None:
        """A player folds."""
        self.folded[seat] = self.street
        self.moves.append(Move(seat, "f"))

    def call(self, seat: int, chips: Amount) -> None:
        """A player checks, or calls with these chips."""
        self.on[seat] = self.on.get(seat, 0) + chips
        self.add(seat, chips)
        self.moves.append(Move(seat, "cc"))

    def raise_by(self, seat: int, chips: Amount) -> None:
        """A player bets or raises with these chips."""
        self.raise_to(seat, self.on.get(seat, 0) + chips)

    def raise_to(self, seat: int, total: Amount) -> None:
        """A player bets or raises to this total on the street."""
        self.add(seat, total - self.on.get(seat, 0))
        self.on[seat] = self.bet = total
        self.moves.append(Move(seat, "cbr", total))

    def next_street(self, cards: str) -> None:
        """The board gets cards."""
        self.moves.append(Move(cards=cards))
        self.board += [cards[place:place + 2] for place in range(0, len(cards), 2)]
        self.street += 1
        self.on, self.bet = {}, 0

    def show(self, seat: int, cards: str) -> None:
        """A player shows cards: all of them, or some."""
        self.know(seat, cards)
        self.ends[seat] = max(cards, self.ends.get(seat, ""), key=len)

    def muck(self, seat: int) -> None:
        """A player does not show the hand."""
        self.ends.setdefault(seat, "")

    def know(self, seat: int, cards: str) -> None:
        """Cards of a player are known. LeftOut: others are known already."""
        known = self.cards.get(seat)
        if known is None or len(cards) > len(known) and _within(known, cards):
            self.cards[seat] = cards
        elif not _within(cards, known):
            raise LeftOut("cards of a player that differ", f"{self.players[seat].name}: {known} and "
                          f"{cards}")

    def collect(self, seat: int, chips: Amount) -> None:
        """A player gets chips from a pot."""
        self.won[seat] = self.won.get(seat, 0) + chips

    # What is written.

    def order(self) -> list[int]:
        """The seats in the order of play. With two players the button is last, whoever it is."""
        seats = sorted(self.players)
        after = [seat for seat in seats if seat > self.button]
        found = after + [seat for seat in seats if seat <= self.button]
        if len(found) == 2 and self.button not in found and self.small_blind_of == found[0]:
            return found[::-1]  # who posts the small blind has the place of the button
        return found

    def total_put(self) -> Amount:
        """All chips that were put in."""
        return sum(self.put.values(), 0)

    def give_back(self, pots: Amount) -> Amount:
        """What was put in and is not in the pots goes back to the player who has put in most.
        LeftOut: there is more in the pots than was put in, or it is open whose chips they are."""
        extra = self.total_put() - pots - sum(self.back.values(), 0)
        if extra == 0:
            return 0
        most = max(self.put.values())
        whose = [seat for seat, chips in self.put.items() if chips == most]
        if extra < 0 or self.back or len(whose) != 1:
            raise LeftOut("pots that are not what was put in",
                          f"in the pots {pots}, put in {self.total_put()}")
        self.back[whose[0]] = extra
        return extra

    def amounts(self) -> list[Amount]:
        """All amounts that are written."""
        found = [player.stack for player in self.players.values()]
        for each in (self.antes, self.blinds, self.put, self.back, self.won):
            found += each.values()
        found += [move.total for move in self.moves if move.total is not None]
        return found + [self.small_blind, self.big_blind, *self.bets, *self.rakes]

    def hole_cards(self) -> int:
        """How many cards a player is dealt."""
        return 4 if self.variant in ("PO", "FO/8") else 2

    def table(self, times: int) -> dict[str, Any]:
        """The hand as a table of PHH, in whole chips."""
        order = self.order()
        place = {seat: number for number, seat in enumerate(order, 1)}

        def chips(found: dict[int, Amount]) -> list[int]:
            return [amounts.whole(found.get(seat, 0), times) for seat in order]

        stacks = {seat: self.players[seat].stack for seat in order}
        table: dict[str, Any] = {
            "variant": self.variant,
            "ante_trimming_status": all(self.antes.get(seat) for seat in order) or not self.antes,
            "antes": chips(self.antes), "blinds_or_straddles": chips(self.blinds),
            "starting_stacks": chips(stacks), "actions": self._actions(place, times)}
        if self.variant in ("FT", "FO/8"):
            table["small_bet"], table["big_bet"] = (amounts.whole(bet, times) for bet in self.bets)
        else:
            table["min_bet"] = amounts.whole(self.big_blind, times)
        if self.has_results:
            table["finishing_stacks"] = chips({
                seat: stacks[seat] - self.put.get(seat, 0) + self.back.get(seat, 0)
                + self.won.get(seat, 0) for seat in order})
        if any(self.rakes):
            table["_rakes"] = [amounts.whole(rake, times) for rake in self.rakes]
        table["players"] = [self.players[seat].name for seat in order]
        table["seats"] = order
        table.update({key: value for key, value in self.notes.items() if value not in (None, "")})
        if times != 1:
            table["currency"] = amounts.unit_name(table.get("currency"), times)
        return table

    def _actions(self, place: dict[int, int], times: int) -> list[str]:
        """The deals, the moves, and the shows at the end, which is where they may always be."""
        unknown = "??" * self.hole_cards()
        found = [f"d dh p{number} {(self.cards.get(seat, '') + unknown)[:len(unknown)]}"
                 for seat, number in place.items()]
        for move in self.moves:
            if move.cards is not None:
                found.append(f"d db {move.cards}")
                continue
            player = place[int(move.seat)]  # a seat that is no number is refused
            chips = "" if move.total is None else f" {amounts.whole(move.total, times)}"
            found.append(f"p{player} {move.what}{chips}")
        for seat, cards in self.ends.items():
            if seat not in self.folded and (not cards or len(cards) == len(unknown)):
                found.append(f"p{place[seat]} sm {cards}".rstrip())
        return found

    def document(self, times: int) -> bytes:
        """The hand as the text of a table of PHH, without a header."""
        return single_hands.document(self.table(times))


def _within(some: str, cards: str) -> bool:
    """Whether some cards are among others, in any order."""
    left = [cards[place:place + 2] for place in range(0, len(cards), 2)]
    for card in (some[place:place + 2] for place in range(0, len(some), 2)):
        if card not in left:
            return False
        left.remove(card)
    return True


def number(text: str) -> Union[int, str]:
    """The number of a hand as PHH has it: an integer where its digits stay the same."""
    return int(text) if text.isascii() and text.isdecimal() and len(text) <= 18 and (
        text == "0" or text[0] != "0") else text


def clock(text: str) -> datetime.time:
    """A time of a day: hh:mm:ss, and a fraction or not. ValueError: it is not one."""
    front, _, part = text.partition(".")
    hour, minute, second = map(int, front.split(":"))
    return datetime.time(hour, minute, second, int((part + "000000")[:6]))
