"""Rows of a body, and the rules 4 to 7, which a row breaks by itself."""
import csv
import io
import re
from dataclasses import dataclass
from fractions import Fraction
from functools import cached_property
from typing import NamedTuple, Optional, Union

from tests.limits import limit
from tests.oracle.intervals import LIMIT, SCALE, Bounds, Interval, around, decay_bracket
from tests.oracle.tables import HALF_LIFE, POTENTIALS, Tables

HEADER = ["act", "kind", "subject", "name", "year", "value", "low", "high", "unit", "note"]
FIRST_NAMES = {1: "act", 2: "act2"}
ACTS = ("enter", "correct", "withdraw")
KINDS = ("span", "activity", "factor", "line", "bind", "uncert")
FORMS = ("activity", "factor", "line", "prev", "sum", "decay", "key")
ZERO_KEYS = ("NO", "NA", "IE")
KEYS = ZERO_KEYS + ("NE",)

FIRST_YEAR, LAST_YEAR = limit("first_year"), limit("last_year")
HALF_LIVES = range(limit("shortest_half_life"), limit("longest_half_life") + 1)
MOST_PERCENT = limit("percentage")
MOST_IN_A_SUM = limit("sum")

NAME = re.compile(r"[A-Z][A-Z0-9._-]{0,%d}" % (limit("name") - 1))
PARAMETER = re.compile(r"[A-Z0-9]{1,%d}" % limit("parameter"))
WHOLE = r"-?[0-9]{1,%d}" % limit("digits")
DECIMAL = re.compile(WHOLE + r"(\.[0-9]{1,%d})?" % limit("decimals"))
PERCENTAGE = re.compile(WHOLE + r"(\.[0-9]{1,%d})?" % limit("percentage_decimals"))
YEAR = re.compile(r"[0-9]{4}")
# A half-life as a format has it.
YEARS = {1: re.compile(r"[0-9]{1,2}"), 2: re.compile(r"[0-9]{1,2}(\.[0-9])?")}


class Refused(Exception):
    """A rule is broken; the text is what is printed of it."""


class Span(NamedTuple):
    """The years of an inventory."""
    first: int
    base: int
    last: int


@dataclass(frozen=True)
class Figure:
    """An activity or a factor: a notation key, a value with bounds in the base unit, or a half-life in tenths
    of a year.
    """
    dimension: str
    key: str = ""
    value: Fraction = Fraction(0)
    low: Fraction = Fraction(0)
    high: Fraction = Fraction(0)
    tenths: int = 0

    @cached_property
    def bounds(self) -> Bounds:
        """The intervals of a value or a half-life."""
        if self.tenths:
            bracket = decay_bracket(self.tenths)
            return Bounds(bracket, bracket)
        return Bounds(around(self.value), Interval(around(self.low).low, around(self.high).high))


class Line(NamedTuple):
    """Where a line stands, and its equation."""
    category: str
    equation: str


class Binding(NamedTuple):
    """What a parameter takes."""
    form: str
    target: str


class Uncertainty(NamedTuple):
    """Two percentages, in hundredths."""
    activity: int
    factor: int


Record = Union[Span, Figure, Line, Binding, Uncertainty]


class Key(NamedTuple):
    """The name of a record: its kind, what it is of, and its year or parameter."""
    kind: str
    of: str = ""
    part: str = ""


class Row(NamedTuple):
    """A row that breaks none of the rules 4 to 7. A row that withdraws has no record."""
    number: int
    act: str
    key: Key
    record: Optional[Record]


def format_of(body: bytes) -> int:
    """The format that a body names with its first bytes, after one byte order mark."""
    return 2 if body.removeprefix(b"\xef\xbb\xbf").startswith((b"act2,", b'"act2",')) else 1


def header_of(version: int) -> list[str]:
    """The header of a format."""
    return [FIRST_NAMES[version], *HEADER[1:]]


def records_in(body: bytes) -> list[list[str]]:
    """The records of a body. A field that is not UTF-8 holds what no text does."""
    text = body.decode("utf-8", "surrogateescape").removeprefix("\ufeff")
    return [record for record in csv.reader(io.StringIO(text, newline="")) if record]


def is_year(text: str) -> bool:
    """Whether a text is a year of those that rows have."""
    return bool(YEAR.fullmatch(text)) and FIRST_YEAR <= int(text) <= LAST_YEAR


def is_name(text: str) -> bool:
    """Whether a text is a name that is no potential."""
    return bool(NAME.fullmatch(text)) and not text.startswith("GWP.")


def is_target(form: str, text: str) -> bool:
    """Whether the target of a binding has the shape that its form asks for."""
    if form == "key":
        return text in KEYS
    if form == "sum":
        names = text.split(" ")
        return all(map(is_name, names)) and len(set(names)) == len(names) <= MOST_IN_A_SUM
    return is_name(text)


def is_percentage(text: str) -> bool:
    """Whether a text is a percentage of an uncertainty."""
    return bool(PERCENTAGE.fullmatch(text)) and 0 <= Fraction(text) <= MOST_PERCENT


class RowReader:
    """Reads one row of ten fields in a body of a format."""

    def __init__(self, number: int, fields: list[str], version: int, tables: Tables) -> None:
        self.number = number
        self.version = version
        self.of = dict(zip(HEADER, fields))
        self.tables = tables

    def row(self) -> Row:
        """The row, or the first of the rules 5 to 7 that it breaks."""
        act, kind, name, year = (self.of[column] for column in ("act", "kind", "name", "year"))
        if act not in ACTS or kind not in KINDS:
            self.refuse("5 UnknownWord", "act" if act not in ACTS else "kind")
        read = {"span": self.span, "activity": self.figure, "factor": self.figure, "line": self.line,
                "bind": self.binding, "uncert": self.uncertainty}[kind]
        record = read(act == "withdraw")
        key = {"span": Key(kind), "activity": Key(kind, name, year), "factor": Key(kind, name, year),
               "bind": Key(kind, self.of["subject"], name)}.get(kind, Key(kind, name))
        return Row(self.number, act, key, record)

    def refuse(self, rule: str, column: str) -> None:
        """The row breaks a rule in a column."""
        raise Refused(f"{rule} row {self.number} column {column}")

    def need_words(self, numbers: str, **right: bool) -> None:
        """Rule 5: words are right, and what is neither a word nor a number is empty."""
        for column in HEADER[2:9]:
            if column not in numbers.split() and not right.get(column, self.of[column] == ""):
                self.refuse("5 UnknownWord", column)

    def need_numbers(self, **right: bool) -> None:
        """Rule 6: numbers are right."""
        for column in HEADER[2:9]:
            if not right.get(column, True):
                self.refuse("6 BadNumber", column)

    def need_order(self, holds: bool) -> None:
        """Rule 7: three numbers are in order."""
        if not holds:
            raise Refused(f"7 BoundsDisorder row {self.number}")

    def span(self, withdrawn: bool) -> Optional[Record]:
        """The columns of a span."""
        self.need_words("" if withdrawn else "year value low")
        if withdrawn:
            return None
        first, last, base = (self.of[column] for column in ("year", "value", "low"))
        self.need_numbers(year=is_year(first), value=is_year(last), low=is_year(base))
        self.need_order(int(first) <= int(base) <= int(last))
        return Span(int(first), int(base), int(last))

    def figure(self, withdrawn: bool) -> Optional[Record]:
        """The columns of an activity or a factor."""
        name, year, value, unit = (self.of[column] for column in ("name", "year", "value", "unit"))
        is_right = is_name(name) or (name in POTENTIALS and self.of["kind"] == "factor")
        if withdrawn:
            self.need_words("year", name=is_right)
            self.need_numbers(year=is_year(year))
            return None
        is_half_life = unit == HALF_LIFE and self.of["kind"] == "factor"
        bounds = "" if value in KEYS and not is_half_life else " low high"
        self.need_words("year value" + bounds, name=is_right, unit=unit in self.tables.units)
        if is_half_life:
            return self.half_life()
        dimension = self.tables.units[unit].dimension
        if value in KEYS:
            self.need_numbers(year=is_year(year))
            return Figure(dimension, key=value)
        return self.bounded(dimension)

    def half_life(self) -> Figure:
        """The numbers of a half-life, which has no bounds."""
        value = self.of["value"]
        is_right = bool(YEARS[self.version].fullmatch(value)) and 10 * Fraction(value) in HALF_LIVES
        self.need_numbers(year=is_year(self.of["year"]), low=self.of["low"] == "", high=self.of["high"] == "",
                          value=is_right)
        return Figure(HALF_LIFE, tenths=int(10 * Fraction(value)))

    def bounded(self, dimension: str) -> Figure:
        """The numbers of a value, which is its own bounds where it has none."""
        value, low, high = (self.of[column] for column in ("value", "low", "high"))
        if (low, high) == ("", ""):
            low = high = value
        self.need_numbers(year=is_year(self.of["year"]), value=self.is_number(value), low=self.is_number(low),
                          high=self.is_number(high))
        figure = Figure(dimension, "", self.in_base(value), self.in_base(low), self.in_base(high))
        self.need_order(figure.low <= figure.value <= figure.high)
        return figure

    def in_base(self, text: str) -> Fraction:
        """A decimal in the base unit."""
        return Fraction(text) * self.tables.units[self.of["unit"]].ratio

    def is_number(self, text: str) -> bool:
        """Whether a text is a decimal that is not beyond the limit in the base unit."""
        return bool(DECIMAL.fullmatch(text)) and abs(self.in_base(text)) * SCALE <= LIMIT

    def line(self, withdrawn: bool) -> Optional[Record]:
        """The columns of a line."""
        category, equation = self.of["subject"], self.of["value"]
        if withdrawn:
            self.need_words("", name=is_name(self.of["name"]))
            return None
        self.need_words("", name=is_name(self.of["name"]), subject=category in self.tables.leaves,
                        value=equation in self.tables.equations)
        return Line(category, equation)

    def binding(self, withdrawn: bool) -> Optional[Record]:
        """The columns of a binding."""
        form, target = self.of["value"], self.of["low"]
        named = {"subject": is_name(self.of["subject"]), "name": bool(PARAMETER.fullmatch(self.of["name"]))}
        if withdrawn:
            self.need_words("", **named)
            return None
        self.need_words("", value=form in FORMS, low=is_target(form, target), **named)
        return Binding(form, target)

    def uncertainty(self, withdrawn: bool) -> Optional[Record]:
        """The columns of an uncertainty."""
        activity, factor = self.of["value"], self.of["low"]
        self.need_words("" if withdrawn else "value low", name=is_name(self.of["name"]))
        if withdrawn:
            return None
        self.need_numbers(value=is_percentage(activity), low=is_percentage(factor))
        return Uncertainty(int(Fraction(activity) * 100), int(Fraction(factor) * 100))


def is_text(fields: list[str]) -> bool:
    """Whether fields are UTF-8."""
    return not any("\ud800" <= letter <= "\udfff" for field in fields for letter in field)


def row_in(number: int, fields: list[str], version: int, tables: Tables) -> Row:
    """The row of a number, or the first of the rules 4 to 7 that it breaks."""
    if len(fields) != len(HEADER) or not is_text(fields):
        raise Refused(f"4 BadShape row {number}")
    return RowReader(number, fields, version, tables).row()
