"""The results of all years, as the program prints them, beside the records that they come of."""
import decimal
import functools
import re
import typing

from tools import vocabulary
from tools.book import KIND_TAKEN, Book, lines_taken_by, record_taken_by
from tools.sheets import Row

# A figure in the base unit of what it measures, or None where it is blank.
Figure = decimal.Decimal | None
NUMBER = re.compile(r"-?\d+(\.\d+)?")
ZERO = decimal.Decimal(0)
# So many times too few are enough for figures that are rounded.
FEWER = 0.99
# The columns of values in the tables that the program prints.
VALUE_OF_CELL, VALUE_OF_UNCERTAINTY = 5, 3


class Numbers(typing.NamedTuple):
    """Records by year with their sizes as they are written, and their units: to see fast which of them have
    to be looked at.
    """
    rows: list[Row]
    sizes: list[float]
    units: set[str]

    def may_be_apart(self, times: int) -> bool:
        """Tells whether one of them may be so many times another one, where neither is zero."""
        known = [size for size in self.sizes if size]
        return bool(known) and (len(self.units) > 1 or max(known) > FEWER * times * min(known))


class Results:
    """The table `cells` of each year of the span, further tables as they are asked for, and what each
    parameter takes.
    """

    def __init__(self, program: typing.Any, book: Book, refused: typing.Any) -> None:
        self.book, self.refused, self._program = book, refused, program
        self.years = range(book.span[0], book.span[1] + 1) if book.span else range(0)
        self.cells: dict[tuple[str, int], Figure] = {}
        self._series: dict[str, dict[int, decimal.Decimal]] = {}
        for year in self.years:
            for line, value in self._column("cells", year, VALUE_OF_CELL).items():
                self.cells[line, year] = value
                if value is not None:
                    self._series.setdefault(line, {})[year] = value

    def _column(self, table: str, year: int, column: int) -> dict[str, Figure]:
        """The value in a column of each row of a table, by the first field of the row."""
        rows = (line.split(",", column + 1) for line in (self._program.show(table, year) or [])[1:])
        return {row[0]: printed(row[column]) for row in rows}

    @functools.cache
    def equivalents(self, year: int) -> dict[str, Figure]:
        """What each line emits in a year in Gg of CO2 equivalent."""
        return self._column("uncertainty", year, VALUE_OF_UNCERTAINTY)

    @functools.cached_property
    def lines(self) -> list[Row]:
        """The lines that have results, by their files and the rows in them."""
        first = min(self.years, default=0)
        there = (row for name, row in self.book.lines.items() if (name, first) in self.cells)
        return sorted(there, key=lambda row: (row.sheet.name, row.line))

    @functools.cached_property
    def emitting(self) -> list[Row]:
        """The lines that emit a gas."""
        return [row for row in self.lines if gas_of(row)]

    def series(self, line: str) -> dict[int, decimal.Decimal]:
        """The values of a line by year, without the blank ones."""
        return self._series.get(line, {})

    def bindings(self, line: str) -> dict[str, Row]:
        """The bindings of a line by parameter."""
        bound: dict[str, Row] = self.book.bindings.get(line, {})
        return bound

    def taken(self, bound: Row, year: int) -> Figure:
        """What a parameter takes in a year: a half-life where it is a yearly decay factor."""
        return self.taken_by_year(bound).get(year)

    @functools.cache
    def taken_by_year(self, bound: Row) -> dict[int, Figure]:
        """What a parameter takes in each year in which there is a record for it."""
        form = bound.field("value")
        if form in KIND_TAKEN:
            records = self.records(KIND_TAKEN[form], bound.field("low"))
            return {year: figure_of(record) for year, record in records.items()}
        if form == "key":
            return dict.fromkeys(self.years, None if bound.field("low") == "NE" else ZERO)
        lines, before = lines_taken_by(bound), int(form == "prev")
        found = {year: total(self.cells.get((line, year - before)) for line in lines) for year in self.years}
        return {**found, self.years[0]: ZERO} if before else found

    def record(self, bound: Row, year: int) -> Row | None:
        """The record that a binding takes in a year, or None where it takes no figure or there is none."""
        if bound.field("value") not in KIND_TAKEN:
            return None
        return self.records(KIND_TAKEN[bound.field("value")], bound.field("low")).get(year)

    @functools.cache
    def records(self, kind: str, name: str) -> dict[int, Row]:
        """The record that an activity or a factor has in each year of the span that it has one in."""
        rows = sorted(self.book.years[kind].get(name, {}).items())
        if kind == "activity":
            return {year: row for year, row in rows if year in self.years}
        found: dict[int, Row] = {}
        for start, row in rows:
            found.update(dict.fromkeys(range(max(start, self.years[0]), self.years[-1] + 1), row))
        return found

    @functools.cache
    def numbers(self, activity: str) -> Numbers:
        """The records of an activity that are numbers."""
        records = sorted(self.book.years["activity"].get(activity, {}).items())
        known = [(row, text) for _, row in records if NUMBER.fullmatch(text := row.field("value"))]
        units = {row.field("unit") for row, _ in known}
        return Numbers([row for row, _ in known], [abs(float(text)) for _, text in known], units)

    @functools.cache
    def below(self, line: str) -> list[str]:
        """A line and the lines that it takes, directly or through others."""
        found: list[str] = []
        waiting = [line]
        while waiting:
            at = waiting.pop()
            if at not in found:
                found.append(at)
                waiting += [taken for bound in self.bindings(at).values() for taken in lines_taken_by(bound)]
        return found

    def bound_below(self, line: str) -> list[Row]:
        """The bindings of a line and of those that it takes."""
        return [bound for other in self.below(line) for bound in self.bindings(other).values()]

    def is_own(self, bound: Row) -> bool:
        """Tells whether a binding and the records that it takes are all the writer's."""
        kind, name = record_taken_by(bound) or (None, "")
        if bound.has_other_figure or kind and self.refused.that_enters(kind, name):
            return False
        rows = self.book.years[kind].get(name, {}).values() if kind else ()
        return not any(row.has_other_figure for row in rows)


def printed(text: str) -> Figure:
    """A printed value, or None where it is blank or not defined."""
    return None if text in ("NE", "-") else decimal.Decimal(text)


def total(figures: typing.Iterable[Figure]) -> Figure:
    """The sum of figures, or None where one of them is blank."""
    known = list(figures)
    return None if None in known else sum((figure for figure in known if figure), ZERO)


@functools.cache
def figure_of(record: Row) -> Figure:
    """The figure of a record in the base unit, worked out once."""
    return in_base_unit(record)


def in_base_unit(record: Row) -> Figure:
    """The figure of a record in the base unit: zero for the keys NO, NA and IE, and None for NE."""
    text = record.field("value")
    if not NUMBER.fullmatch(text):
        return None if text == "NE" else ZERO
    unit = vocabulary.units()[record.field("unit")]
    size = decimal.Decimal(text) * unit["over"]
    return size if unit["under"] == 1 else size / unit["under"]


def gas_of(line: Row) -> str | None:
    """The gas that a line emits, or None."""
    gas: str | None = vocabulary.gas_of(line.field("value"))
    return gas


def plain(figure: decimal.Decimal) -> str:
    """A figure in digits without an exponent, in six that count."""
    rounded = +figure.quantize(decimal.Decimal(1)) if abs(figure) >= 100000 else figure
    text = f"{decimal.Context(prec=6).create_decimal(rounded):f}" if abs(figure) < 100000 else f"{rounded:f}"
    return text.rstrip("0").rstrip(".") if "." in text else text
