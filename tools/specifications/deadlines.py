"""How many deadlines lie in a stretch of time: each moment counts once, however many rates have a deadline there."""
from __future__ import annotations

from fractions import Fraction
from functools import reduce
from itertools import combinations
from math import ceil, gcd
from typing import NamedTuple, Set

from commands.times import SECOND

MOST_RATES = 12  # so many are counted together; of more the sum is told


class Deadlines(NamedTuple):
    """How many moments have a deadline, or an upper bound of that."""

    moments: int
    is_exact: bool


def both(one: Fraction, other: Fraction) -> Fraction:
    """The rate of the deadlines that two rates have in common."""
    return Fraction(gcd(one.numerator * other.denominator, other.numerator * one.denominator), one.denominator * other.denominator)


def alone(rate: Fraction, span: int) -> int:
    """How many deadlines of one rate lie in a span: the k-th is k / rate seconds behind the start, cut to nanoseconds."""
    return max(0, ceil((span + 1) * rate / SECOND) - 1)


def count_deadlines(rates: Set[Fraction], span: int) -> Deadlines:
    """How many moments have a deadline up to so many nanoseconds behind the start.

    A rate that divides another one adds no moment. Of the others those that some have in common are taken away or added in turn.
    """
    apart = [rate for rate in rates if not any(other != rate and (other / rate).denominator == 1 for other in rates)]
    if len(apart) > MOST_RATES:
        return Deadlines(sum(alone(rate, span) for rate in apart), False)
    count = 0
    for size in range(1, len(apart) + 1):
        in_common = sum(alone(reduce(both, some), span) for some in combinations(apart, size))
        count += in_common if size % 2 else -in_common
    return Deadlines(count, True)
