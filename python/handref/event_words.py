"""The events of a hand in words, for those who read a page without JavaScript.

    [plain(said, ["Ann", "Bob", "Cy"]) for said in in_words(hand)]  # ["Ann posts 1, ..", ..]

page_hand.js says the same of the table that it shows. Words and chips are those of `replay`.
"""
import re
from typing import Any, Iterator, Optional, Sequence

Part = tuple[Optional[int], str]  # a seat, from 1, or none, and what is said of it

_SUITS = {"s": "\u2660\ufe0e", "h": "\u2665\ufe0e", "d": "\u2666\ufe0e", "c": "\u2663\ufe0e"}
_STREETS = {3: "flop", 4: "turn", 5: "river"}


def spaced(number: int) -> str:
    """A number with narrow spaces between its thousands."""
    return f"{number:,}".replace(",", "\u202f").replace("-", "\u2212")


def in_words(summary: dict[str, Any]) -> Iterator[list[Part]]:
    """What is said of the posts and of each event of a hand, and of its end where it has one."""
    table = _Table(summary)
    yield _posts(summary)
    for packed in summary["e"].split(";") if summary["e"] else []:
        text, _, added = packed.partition("+")
        yield table.said(text.split(" "), int(added or 0))
    if "f" in summary:
        yield _end(summary)


def plain(said: Sequence[Part], names: Sequence[str]) -> str:
    """Such words as a text."""
    return "".join((names[seat - 1] if seat else "") + words for seat, words in said)


class _Table:
    """The chips of a hand, which say whether an amount is a raise or a bet."""

    def __init__(self, summary: dict[str, Any]) -> None:
        self.put = list(summary["i"])
        self.left = [start - put for start, put in zip(summary["s"], self.put)]
        self.earlier = list(summary.get("a") or [0] * len(self.put))
        self.board, self.has_moved = 0, False

    def said(self, words: Sequence[str], chips: int) -> list[Part]:
        """What is said of an event that adds some chips."""
        is_move = words[1] in ("f", "cc", "cbr", "pb")
        if not is_move and self.has_moved:  # the bets of the street go to the pot
            self.earlier, self.has_moved = list(self.put), False
        self.has_moved = self.has_moved or is_move
        if words[:2] == ["d", "db"]:
            return [self._board(re.findall("..", words[2]))]
        if words[0] == "d":
            return [(int(words[2][1:]), f" is dealt {_dealt(re.findall('..', words[3]))}")]
        return [(int(words[0][1:]), " " + self._move(words, chips))]

    def _board(self, cards: Sequence[str]) -> Part:
        self.board += len(cards)
        is_street = len(cards) == (3 if self.board == 3 else 1)
        street = _STREETS.get(self.board, "board") if is_street else "board"
        return None, f"{street}: {_cards(cards)}"

    def _move(self, words: Sequence[str], chips: int) -> str:
        cards = re.findall("..", words[2]) if words[1] in ("sd", "sm") and words[2:] else []
        if words[1] == "f":
            return "folds"
        if words[1] == "sm":
            return f"shows {_cards(cards)}" if cards else "mucks"
        if words[1] == "sd":
            known = f": {_cards(cards)}" if set(cards) - {"??"} else ""
            return f"discards {_counted(len(cards), '')}{known}" if cards else "stands pat"
        seat = int(words[0][1:]) - 1
        price = max(put - before for put, before in zip(self.put, self.earlier))
        self.put[seat] += chips
        self.left[seat] -= chips
        end = ", all in" if chips and not self.left[seat] else ""
        if words[1] == "cc":
            return (f"calls {spaced(chips)}" if chips else "checks") + end
        if words[1] == "pb":
            return f"brings in {spaced(chips)}{end}"
        return f"{'raises to' if price else 'bets'} {spaced(int(words[2]))}{end}"


def _posts(summary: dict[str, Any]) -> list[Part]:
    antes = [min(ante, put) for ante, put in
             zip(summary.get("a") or [0] * len(summary["i"]), summary["i"])]
    is_each = antes[0] > 0 and len(set(antes)) == 1
    said: list[Part] = [(None, f"ante of {spaced(antes[0])} each")] if is_each else []
    for seat, (put, ante) in enumerate(zip(summary["i"], antes), 1):
        parts = [spaced(put - ante)] if put > ante else []
        parts += [f"an ante of {spaced(ante)}"] if ante and not is_each else []
        said += [(seat, f" posts {' and '.join(parts)}")] if parts else []
    return _joined(said) or [(None, "nobody posts")]


def _end(summary: dict[str, Any]) -> list[Part]:
    said: list[Part] = [(int(seat), f" gets back {spaced(chips)}")
                        for seat, chips in summary["r"].items()]
    for number, (_, shares, rake) in enumerate(summary["t"], 1):
        pot = f" of pot {number}" if len(summary["t"]) > 1 else ""
        said += [(int(seat), f" wins {spaced(share)}{pot}") for seat, share in shares.items()]
        said += [(None, f"rake {spaced(rake)}{pot}")] if rake else []
    return _joined(said) or [(None, "the end")]


def _joined(said: Sequence[Part]) -> list[Part]:
    return [(seat, words + ", " * (place < len(said))) for place, (seat, words) in
            enumerate(said, 1)]


def _cards(cards: Sequence[str]) -> str:
    return " ".join("?" if card == "??" else card[0].replace("T", "10") + _SUITS[card[1]]
                    for card in cards)


def _dealt(cards: Sequence[str]) -> str:
    return _cards(cards) if set(cards) - {"??"} else _counted(len(cards), "unknown ")


def _counted(count: int, kind: str) -> str:
    return f"a{'n' * bool(kind)} {kind}card" if count == 1 else f"{count} {kind}cards"
