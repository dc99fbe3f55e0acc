"""Sums of the chips that agents won, their means, and how far these may be from the true ones."""
import math
from dataclasses import dataclass, field, replace
from fractions import Fraction
from typing import Optional, Sequence

from handref.matches.student import quantile

_MOST_POINTS = 1000  # of a line that is drawn


@dataclass
class Sum:
    """Values that are added up: net chips of hands, or what a pair of hands came to. They are kept
    as whole numbers, so that nothing is rounded before the end."""
    count: int = 0
    total: int = 0
    squares: int = 0
    parts: int = 1  # what a value is divided by: the hands that it is the sum of

    def put(self, value: int) -> None:
        """Adds a value."""
        self.count += 1
        self.total += value
        self.squares += value * value

    def add(self, other: "Sum") -> None:
        """Adds the values of another sum, which have the same parts."""
        self.count += other.count
        self.total += other.total
        self.squares += other.squares
        self.parts = other.parts

    def mean(self, blind: int) -> float:
        """Thousandths of a big blind per hand: mbb/g, as the competition has it."""
        return float(Fraction(1000 * self.total, self.count * self.parts * blind))

    def interval(self, blind: int, confidence: float = 0.95) -> Optional[float]:
        """How far on both sides the interval of the mean goes; nothing of a single value."""
        if self.count < 2:
            return None
        return 1000 * self.spread(confidence) / (self.count * self.parts * blind)

    def spread(self, confidence: float = 0.95) -> float:
        """How far on both sides the interval of the total goes, in chips; 0 of a single value."""
        if self.count < 2:
            return 0.0
        squared = Fraction(self.count * self.squares - self.total ** 2, self.count - 1)
        return quantile(self.count - 1, confidence) * math.sqrt(squared)


@dataclass
class Point:
    """How far a line is: a number of values, and what a name has won by then, with how far that may be
    from what it can expect."""
    count: int
    total: int
    spread: float


@dataclass
class Running:
    """How sums went from value to value. Of a long line every second point is dropped, as often as
    needed, so that it stays short."""
    names: tuple[str, ...]
    parts: int = 1
    sums: list[Sum] = field(default_factory=list)  # of the names, in their order
    points: list[list[Sum]] = field(default_factory=list)
    step: int = 1

    def __post_init__(self) -> None:
        self.sums = self.sums or [Sum(parts=self.parts) for _ in self.names]

    def put(self, values: Sequence[int]) -> None:
        """Adds a value of each name."""
        for own, value in zip(self.sums, values):
            own.put(value)
        if self.sums[0].count % self.step == 0:
            self.points.append([replace(own) for own in self.sums])
            if len(self.points) > 2 * _MOST_POINTS:
                self.points, self.step = self.points[1::2], 2 * self.step

    def lines(self) -> dict[str, list[Point]]:
        """The line of each name, up to its last value."""
        kept = self.points
        if kept and kept[-1][0].count < self.sums[0].count:
            kept = [*kept, self.sums]
        return {name: [Point(own[place].count, own[place].total, own[place].spread())
                       for own in kept] for place, name in enumerate(self.names)}
