"""Amounts with a fraction as whole chips: one unit for all amounts of a file, and no rounding."""
import re
from dataclasses import dataclass
from decimal import Decimal
from fractions import Fraction
from math import gcd
from typing import Iterable, Optional, Union

from handref.importing.record import Hand, LeftOut

MOST = 10 ** 12  # chips of an amount
NUMBER = r"[0-9]+(?:\.[0-9]+)?"
MONEY_UNITS: tuple[int, ...] = (1, 100, *(10 ** places for places in range(3, 10)))
CHIP_UNITS: tuple[int, ...] = (1, 2, 4, *(10 ** places for places in range(1, 10)))

Amount = Union[int, Decimal]


def parts_of(value: Amount) -> int:
    """The least number by which an amount becomes whole. LeftOut: it has more than nine places, or
    is too large."""
    if not -MOST * 10 <= value <= MOST * 10:
        raise LeftOut("an amount above 10^12", f"{str(value)[:40]}")
    if isinstance(value, int):
        return 1
    exponent = value.as_tuple().exponent
    if not isinstance(exponent, int) or exponent < -40:
        raise LeftOut("an amount with more than nine places", f"{str(value)[:40]}")
    found = Fraction(value).denominator if exponent < 0 else 1
    if 10 ** 9 % found:
        raise LeftOut("an amount with more than nine places", f"{str(value)[:40]}")
    return found


def joined(one: int, two: int) -> int:
    """The least number that two numbers divide."""
    return one * two // gcd(one, two)


def need(hand: Hand, value: Amount) -> None:
    """Notes what an amount of a hand needs to become whole."""
    if isinstance(value, Decimal):
        hand.point = hand.point or str(value)
        hand.parts = joined(hand.parts, parts_of(value))
    elif value > MOST:
        parts_of(value)


def unit(parts: int, is_money: bool) -> int:
    """By which number amounts are multiplied: the first one that makes all of them whole. Money
    becomes cents, or a smaller part by a power of ten; chips become halves or quarters first."""
    return next(times for times in (MONEY_UNITS if is_money else CHIP_UNITS) if times % parts == 0)


def whole(value: Amount, times: int, what: str = "") -> int:
    """An amount as whole chips. LeftOut: it is not whole."""
    found = Fraction(value) * times
    if found.denominator != 1:
        raise LeftOut(f"an amount that is not whole times {times}", f"{what} {value}".strip())
    return found.numerator


def unit_name(said: object, times: int) -> str:
    """The currency of amounts that were multiplied, as `USD cents`."""
    name = "cents" if times == 100 else f"1/{times}"
    if isinstance(said, str) and re.search(rf"(\A| ){re.escape(name)}\Z", said):
        name = f"1/{times}"
    return f"{said} {name}" if said and isinstance(said, str) else name


def said_unit(times: int, point: str = "") -> str:
    """What is said of the unit of a file, in which an amount is written with a point."""
    if times == 1:
        return f"whole numbers written as {point}: chips as they are"
    return f"amounts times {times}" + (" (cents)" if times == 100 else "")


@dataclass(frozen=True)
class Units:
    """By what the amounts of a file are multiplied: those in a currency, and chips."""
    money: int = 1
    chips: int = 1

    def of(self, hand: Hand) -> int:
        """By what the amounts of a hand are multiplied."""
        return self.money if hand.is_money else self.chips


def units(hands: Iterable[tuple[bool, int]], times: Optional[int] = None,
          is_log: bool = False) -> Units:
    """The units of a file, by what each of its hands needs: whether it is money, and its parts."""
    if times:
        return Units(times, times)
    need = {True: 1, False: 1}
    for is_money, parts in hands:
        need[is_money] = joined(need[is_money], parts)
    if is_log:
        return Units(need[False], need[False])
    return Units(unit(need[True], True), unit(need[False], False))
