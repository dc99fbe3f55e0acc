"""A hand on its way from a wild file to a notation that handref reads."""
from dataclasses import dataclass, field
from typing import Any, Optional


class LeftOut(Exception):
    """A hand that no rule covers: the cause in a few words, what it says there, and the line of the
    file (0: that of the hand)."""

    def __init__(self, cause: str, detail: str = "", line: int = 0) -> None:
        super().__init__(cause)
        self.cause, self.detail, self.line = cause, detail, line


@dataclass
class Change:
    """What a rule has changed in a hand: in words, and the texts before and after."""
    rule: str
    said: str
    before: str = ""
    after: str = ""


@dataclass
class Hand:
    """A hand of a wild file: its number and its first line there, from 1, and its bytes. `value` is
    what the reader of its source makes of it. A hand with a cause is left out."""
    number: int
    line: int
    start: int
    end: int
    value: Any = None
    is_money: bool = False  # its amounts are in a currency, whose cents are a natural unit
    parts: int = 1  # the least number by which its amounts become whole
    point: str = ""  # an amount that is written with a point, as 18450.00
    changes: list[Change] = field(default_factory=list)
    cause: str = ""
    detail: str = ""
    cause_line: int = 0
    site: str = ""  # of a text
    stated: "tuple[str, ...]" = ()  # of a log: values and names
    seats: dict[int, int] = field(default_factory=dict)  # of dealer output: the place of each player
    notation: str = "phh"  # in which it is written

    def change(self, rule: str, said: str, before: str = "", after: str = "") -> None:
        """Notes what a rule has changed."""
        self.changes.append(Change(rule, said, before, after))

    def leave_out(self, why: LeftOut) -> None:
        """Leaves the hand out."""
        self.cause, self.detail, self.cause_line = why.cause, why.detail, why.line or self.line


@dataclass
class Written:
    """A hand as it is written, and what the proved program says of it: None where it is legal."""
    hand: Hand
    data: bytes = b""
    refused: Optional[Exception] = None
    kept: dict[str, str] = field(default_factory=dict)  # keys that handref does not keep
    to: "Optional[Written]" = None  # the same hand in the other dialect of OHH, until one is chosen
