"""Exact values of printed figures, for one choice of a number between the bounds of each record.

Nothing here knows of intervals: a value is a fraction, or nothing where it is blank.
"""
import random
from fractions import Fraction
from functools import lru_cache
from typing import Iterable, Iterator, Optional

from tests.oracle.expressions import value_of
from tests.oracle.rows import ZERO_KEYS, Binding, Figure
from tests.oracle.tables import HALF_LIFE, NOT_IN_GROSS
from tests.oracle.workbook import Workbook

Value = Optional[Fraction]
SHARES = 10**12
STEPS = 6


class Fractions:
    """The arithmetic of fractions."""

    def whole(self, number: int) -> Fraction:
        return Fraction(number)

    def scaled(self, value: Fraction, numerator: int, denominator: int) -> Fraction:
        return value * Fraction(numerator, denominator)

    def combined(self, sign: str, left: Fraction, right: Fraction) -> Fraction:
        return {"+": left + right, "-": left - right, "*": left * right}[sign]


FRACTIONS = Fractions()


@lru_cache(maxsize=None)
def shares_around(tenths: int) -> tuple[Fraction, Fraction]:
    """The multiples of 10^-12 next to the share that a year leaves: one where it is such a multiple. After ten
    half-lives one part of 1024 is left.
    """
    low, high = 0, SHARES
    while high - low > 1:
        middle = (low + high) // 2
        low, high = (middle, high) if 1024 * middle**tenths <= SHARES**tenths else (low, middle)
    if 1024 * low**tenths == SHARES**tenths:
        high = low
    return Fraction(low, SHARES), Fraction(high, SHARES)


class Choice:
    """A number for each record: the central one, or any between its bounds."""

    def __init__(self, is_central: bool, source: random.Random) -> None:
        self.is_central = is_central
        self.source = source
        self.chosen: dict[int, Fraction] = {}

    def number(self, figure: Optional[Figure]) -> Value:
        """What a look-up gives. Each record is an object of its own, also where two are equal."""
        if figure is None or figure.key == "NE":
            return None
        if figure.key in ZERO_KEYS:
            return Fraction(0)
        if id(figure) not in self.chosen:
            self.chosen[id(figure)] = self.choose(figure)
        return self.chosen[id(figure)]

    def choose(self, figure: Figure) -> Fraction:
        """A number of one record. Of the share that a half-life leaves, only its neighbours are known."""
        if figure.dimension == HALF_LIFE:
            return self.between(*shares_around(figure.tenths))
        return figure.value if self.is_central else self.between(figure.low, figure.high)

    def between(self, low: Fraction, high: Fraction) -> Fraction:
        """One of two bounds, or a number between them."""
        return low + (high - low) * Fraction(self.source.randrange(STEPS + 1), STEPS)


class Valuation:
    """The values of lines and totals for one choice."""

    def __init__(self, workbook: Workbook, choice: Choice) -> None:
        self.workbook = workbook
        self.choice = choice
        self.lines: dict[tuple[str, int], Value] = {}
        self.totals: dict[int, dict[str, Fraction]] = {}

    def line(self, line: str, year: int) -> Value:
        """The value of a line."""
        if (line, year) not in self.lines:
            self.lines[line, year] = self.computed(line, year)
        return self.lines[line, year]

    def computed(self, line: str, year: int) -> Value:
        """The value of the expression of a line, or nothing where a parameter has none."""
        equation = self.workbook.equation(line)
        inputs: dict[str, Fraction] = {}
        for parameter in equation.parameters:
            value = self.taken(self.workbook.bindings[line][parameter], year)
            if value is None:
                return None
            inputs[parameter] = value
        return value_of(equation.expression, inputs, FRACTIONS)

    def taken(self, binding: Binding, year: int) -> Value:
        """What a parameter takes."""
        if binding.form == "key":
            return None if binding.target == "NE" else Fraction(0)
        if binding.form == "activity":
            return self.choice.number(self.workbook.activity(binding.target, year))
        if binding.form in ("factor", "decay"):
            return self.choice.number(self.workbook.factor(binding.target, year))
        if binding.form == "prev":
            is_first = year == self.workbook.years()[0]
            return Fraction(0) if is_first else self.line(binding.target, year - 1)
        values = [self.line(line, year) for line in self.workbook.taken(binding)]
        known = [value for value in values if value is not None]
        return sum(known, Fraction(0)) if len(known) == len(values) else None

    def total(self, code: str, year: int) -> Fraction:
        """The total of a code, or the gross total."""
        if year not in self.totals:
            self.totals[year] = dict(self.counted(year))
        return self.totals[year].get(code, Fraction(0))

    def counted(self, year: int) -> Iterable[tuple[str, Fraction]]:
        """The totals of a year that have lines."""
        totals: dict[str, Fraction] = {}
        for name, line in self.workbook.lines.items():
            gas = self.workbook.equation(name).gas
            potential = self.choice.number(self.workbook.factor("GWP." + gas, year))
            value = self.line(name, year)
            if value is not None and potential is not None:
                codes = self.workbook.tables.above[line.category]
                for code in codes + (("gross",) if codes and NOT_IN_GROSS not in codes else ()):
                    totals[code] = totals.get(code, Fraction(0)) + value * potential
        return totals.items()


def outside(text: str, valuation: Valuation) -> Iterator[str]:
    """The rows of a printed table whose bounds do not hold the exact value."""
    head, header, *rows = text.splitlines()
    _, table, year_text, *_ = head.split(" ")
    columns, year = header.split(","), int(year_text)
    for row in rows:
        of = dict(zip(columns, row.split(",")))
        if table == "cells" and not holds(of["low"], valuation.line(of["code"], year), of["high"]):
            yield row
        if table == "summary" and not holds(of["low"], valuation.total(of["category"], year), of["high"]):
            yield row
        if table == "series":
            total, gross = valuation.total("0", int(of["year"])), valuation.total("gross", int(of["year"]))
            if not (holds(of["total_low"], total, of["total_high"])
                    and holds(of["gross_low"], gross, of["gross_high"])):
                yield row


def holds(low: str, value: Value, high: str) -> bool:
    """Whether printed bounds hold a value."""
    if value is None or low == "NE":
        return value is None and (low, high) == ("NE", "NE")
    return Fraction(low) <= value <= Fraction(high)
