"""Intervals with two whole bounds of 10^-12, rounded outward, and the two brackets."""
from fractions import Fraction
from functools import lru_cache
from math import ceil, floor, isqrt
from typing import Callable, NamedTuple

from tests.limits import limit

SCALE = 10**12
LIMIT = limit("figure") * SCALE
TOTAL_LIMIT = limit("equivalent") * SCALE


class Over(Exception):
    """A bound is beyond its limit."""


class Interval(NamedTuple):
    """Two bounds, the lower one first."""
    low: int
    high: int


ZERO = Interval(0, 0)


class Bounds(NamedTuple):
    """A known value: the interval of its central figures, and that of their bounds."""
    point: Interval
    range: Interval


NOTHING = Bounds(ZERO, ZERO)


def ceiling(number: int, divisor: int) -> int:
    """The least whole number that is not below a quotient."""
    return -(-number // divisor)


def nearest(number: int, divisor: int) -> int:
    """The nearest whole number to a quotient, ties away from zero."""
    size = (2 * abs(number) + divisor) // (2 * divisor)
    return size if number >= 0 else -size


def within(interval: Interval, limit: int) -> Interval:
    """An interval that is not beyond the limit."""
    if -limit <= interval.low and interval.high <= limit:
        return interval
    raise Over


def around(number: Fraction) -> Interval:
    """The least interval that holds a number."""
    scaled = number * SCALE
    return within(Interval(floor(scaled), ceil(scaled)), LIMIT)


class Outward:
    """The arithmetic of intervals."""

    def whole(self, number: int) -> Interval:
        return Interval(number * SCALE, number * SCALE)

    def scaled(self, value: Interval, numerator: int, denominator: int) -> Interval:
        low = value.low * numerator // denominator
        return within(Interval(low, ceiling(value.high * numerator, denominator)), LIMIT)

    def combined(self, sign: str, left: Interval, right: Interval) -> Interval:
        if sign == "+":
            return within(Interval(left.low + right.low, left.high + right.high), LIMIT)
        if sign == "-":
            return within(Interval(left.low - right.high, left.high - right.low), LIMIT)
        products = [a * b for a in left for b in right]
        return within(Interval(min(products) // SCALE, ceiling(max(products), SCALE)), LIMIT)


OUTWARD = Outward()


def sum_of(intervals: list[Interval], limit: int) -> Interval:
    """The exact sum, of which the end alone is tested."""
    return within(Interval(sum(low for low, _ in intervals), sum(high for _, high in intervals)), limit)


def power(base: int, exponent: int, up: bool) -> int:
    """A power of a share, rounded to one side after each product."""
    result = SCALE
    for _ in range(exponent):
        result = ceiling(result * base, SCALE) if up else result * base // SCALE
    return result


@lru_cache(maxsize=None)
def decay_bracket(tenths: int) -> Interval:
    """Two shares, of which a year leaves one at least and the other at most, at a half-life in tenths of a year:
    ten times its years leave one part of 2^10.
    """
    low = greatest(lambda share: 2**10 * power(share, tenths, True) <= SCALE)
    high = greatest(lambda share: 2**10 * power(share, tenths, False) < SCALE) + 1
    return Interval(low, high)


def greatest(holds: Callable[[int], bool]) -> int:
    """The greatest share of which a thing holds that holds of all below it."""
    low, high = 0, SCALE + 1
    while high - low > 1:
        middle = (low + high) // 2
        low, high = (middle, high) if holds(middle) else (low, middle)
    return low


def root_bracket(number: int) -> tuple[int, int]:
    """The whole numbers next to a root, which are one where it is whole."""
    low = isqrt(number)
    return low, low if low * low == number else low + 1
