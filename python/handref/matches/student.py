"""The quantile of Student's distribution, by which an interval is as wide as few values need."""
import math
from functools import lru_cache
from statistics import NormalDist

_MOST_SUMMED = 200  # degrees up to which the sum of the distribution is taken


@lru_cache(maxsize=1024)
def quantile(degrees: int, confidence: float = 0.95) -> float:
    """How many standard errors lie on both sides of a mean, so that the part `confidence` of all
    such intervals has the true mean. `degrees` is the number of values less one, at least 1."""
    if degrees < 1 or not 0 < confidence < 1:
        raise ValueError("a quantile needs one degree of freedom, and a part between 0 and 1")
    if degrees > _MOST_SUMMED:
        return _expanded(degrees, confidence)
    low, high = 0.0, math.pi / 2  # the angle whose tangent times the root of the degrees it is
    for _ in range(200):
        middle = (low + high) / 2
        if middle in (low, high):
            break
        if _within(middle, degrees) < confidence:
            low = middle
        else:
            high = middle
    return math.tan((low + high) / 2) * math.sqrt(degrees)


def _within(angle: float, degrees: int) -> float:
    """The part of the distribution between minus and plus the tangent of an angle, times the root
    of the degrees: a finite sum (Abramowitz and Stegun, Handbook of Mathematical Functions, 26.7.3
    and 26.7.4)."""
    cosine = math.cos(angle)
    power = 1.0 if degrees % 2 == 0 else cosine
    total = 0.0
    for place in range(degrees % 2, degrees - 1, 2):
        total += power
        power *= cosine * cosine * (place + 1) / (place + 2)
    if degrees % 2 == 0:
        return math.sin(angle) * total
    return 2 / math.pi * (angle + math.sin(angle) * total)


def _expanded(degrees: int, confidence: float) -> float:
    """The same for many degrees, from the quantile of the normal distribution (the same handbook,
    26.7.5): it is right to eight digits from two hundred degrees on."""
    own: float = NormalDist().inv_cdf((1 + confidence) / 2)
    terms = ((own ** 3 + own) / 4, (5 * own ** 5 + 16 * own ** 3 + 3 * own) / 96,
             (3 * own ** 7 + 19 * own ** 5 + 17 * own ** 3 - 15 * own) / 384)
    return own + sum(term / math.pow(degrees, power) for power, term in enumerate(terms, 1))
