"""Explains a row whose numbers commas have parted, since they stand there without quotes: of all readings the
one that the other rows of its record, those of its file, its unit or its bounds leave.
"""
import collections.abc
import decimal
import functools
import itertools
import re
import typing

from tools import unit_bases, units, vocabulary
from tools.asking import Asking
from tools.faults import Fault, at_row
from tools.figure_notices import MOST_OF_NO_SHARE, figures
from tools.recognisers import Recogniser
from tools.sheets import COLUMNS, Row, Sheet, joined
from tools.usual import CO2_OF_FUELS, ENERGY_OF_FUELS, of_carbon
from tools.vocabulary import listed

# What any fuel has of these in the base unit.
OF_FUELS = {"net calorific value": ENERGY_OF_FUELS[:2], "carbon content of fuel": of_carbon(CO2_OF_FUELS)[:2]}

FRONT = COLUMNS.index("value")
FIGURES = ("value", "low", "high")
DECIMAL, THOUSANDS = "where it is a decimal comma", "where it stands between thousands"
# One number has so many parts at the most: 999,999,999,999.
MOST_PARTS = 4
# A value is near the other ones of its record if it is not this many times as great or as small.
FAR = 20
# Bounds tell one reading from another if they are this many times as near.
NEARER = 3


class Reading(typing.NamedTuple):
    """A row of ten fields as it may be meant, and what its commas are then."""
    row: Row
    marks: frozenset[str]


Readings = list[Reading]


def figures_of(parts: tuple[str, ...]) -> list[tuple[str, str | None]]:
    """The numbers that the parts between commas may be, each with what the commas are."""
    first, *others = parts
    if not others:
        return [(first, None)]
    found: list[tuple[str, str | None]] = []
    whole = first.replace(".", "") if re.fullmatch(r"-?\d{1,3}(\.\d{3})+", first) else first
    if len(others) == 1 and re.fullmatch(r"-?\d+", whole) and others[0].isdecimal():
        found.append((f"{whole}.{others[0]}", DECIMAL))
    has_groups = all(re.fullmatch(r"\d{3}", part) for part in others[:-1])
    if re.fullmatch(r"-?[1-9]\d{0,2}", first) and has_groups and re.fullmatch(r"\d{3}(\.\d+)?", others[-1]):
        found.append(("".join(parts), THOUSANDS))
    return found


def split_in(parts: list[str], count: int) -> collections.abc.Iterator[list[tuple[str, ...]]]:
    """The ways to split parts in so many numbers, each of one part or more."""
    sizes = range(1, min(MOST_PARTS, len(parts) - count + 1) + 1)
    for chosen in itertools.product(sizes, repeat=count):
        if sum(chosen) == len(parts):
            rest = iter(parts)
            yield [tuple(itertools.islice(rest, size)) for size in chosen]


def ends_of(row: Row) -> collections.abc.Iterator[tuple[list[str], list[str]]]:
    """The parts of the numbers of a row of too many fields, and its unit and its note, as these may be."""
    fields = row.fields
    if row.field("kind") == "uncert":
        filled = max((at for at, text in enumerate(fields[:-1]) if text), default=0)
        yield fields[FRONT:filled + 1], ["", "", fields[-1]]
        return
    for at in range(len(fields) - 2, len(COLUMNS) - 3, -1):
        if fields[at] in vocabulary.units() or re.search("[A-Za-z]", fields[at]) and units.meant(fields[at]):
            yield fields[FRONT:at], [fields[at], ",".join(fields[at + 1:])]


def readings_of(row: Row) -> Readings:
    """The ways to read a row of too many fields. Where one has the same marks all over, so have all."""
    count = {"activity": 3, "factor": 3, "uncert": 2}.get(row.field("kind"), 0)
    for parts, end in ends_of(row) if count else ():
        found = list(readings_with(row, parts, end, count)) if len(parts) <= count * MOST_PARTS else []
        one_mark = [read for read in found if len(read.marks) == 1]
        if found:
            return one_mark or found
    return []


def readings_with(
        row: Row, parts: list[str], end: list[str], count: int) -> collections.abc.Iterator[Reading]:
    """The ways to read the parts of so many numbers before the end of a row."""
    for split in split_in(parts, count):
        for numbers in itertools.product(*map(figures_of, split)):
            marks = frozenset(mark for _, mark in numbers if mark)
            fields = [*row.fields[:FRONT], *[text for text, _ in numbers], *end]
            meant = Row(row.sheet, row.line, joined(fields))
            if marks and is_in_order(meant):
                yield Reading(meant, marks)


def decimals_of(row: Row) -> list[decimal.Decimal] | None:
    """The value of a row and its bounds, if it has some, as numbers; or None if some text is none."""
    texts = [row.field(column) for column in FIGURES]
    texts = texts if any(texts[1:]) else texts[:1]
    if not all(re.fullmatch(r"-?\d+(\.\d+)?", text) for text in texts):
        return None
    return [decimal.Decimal(text) for text in texts]


def is_in_order(row: Row) -> bool:
    """Tells whether a row has a number and no bounds or two on both sides; an uncertainty has two."""
    numbers = decimals_of(row)
    if row.field("kind") == "uncert":
        return bool(row.field("value") and row.field("low"))
    return numbers is not None and (len(numbers) == 1 or numbers[1] <= numbers[0] <= numbers[2])


@functools.lru_cache(maxsize=1000)
def marks_of(sheet: Sheet) -> dict[tuple[str, ...], set[str]]:
    """What the commas are in the rows of a file that leave no choice, by their records; of all under ()."""
    found: dict[tuple[str, ...], set[str]] = {}
    for row in sheet.meant[1:]:
        marks = marks_in(row)
        if len(marks) == 1:
            for key in (row.key[:2], ()):
                found.setdefault(key, set()).update(marks)
    return found


def marks_in(row: Row) -> set[str]:
    """What the commas of the numbers of a row may be."""
    if len(row.fields) > len(COLUMNS):
        return {mark for read in readings_of(row) for mark in read.marks}
    texts = [row.field(column) for column in FIGURES if "," in row.field(column)]
    kinds = {DECIMAL: r"-?\d+,(\d{1,2}|\d{4,})|-?0,\d+", THOUSANDS: r"-?\d{1,3}(,\d{3}){2,}"}
    return {mark for mark, form in kinds.items() for text in texts if re.fullmatch(form, text.strip())}


def comma_in_quotes(asking: Asking, row: Row, column: str) -> tuple[Fault, Row] | None:
    """The fault of a number with a comma in quotes that may stand between thousands, and the row without
    it; or None if nothing tells what it is.
    """
    text = row.field(column).strip()
    if not re.fullmatch(r"-?[1-9]\d{0,2},\d{3}", text):
        return None
    both = [Reading(row.with_fields(**{column: text.replace(",", sign)}), frozenset({mark}))
            for sign, mark in (("", THOUSANDS), (".", DECIMAL))]
    held = [read for read in both if asking.takes(read.row, None)]
    why = ", by low and high"
    if len(held) != 1 and column == "value":
        bare = [Reading(read.row.with_fields(low="", high=""), read.marks) for read in both]
        held, why = narrowed(asking, bare)
    elif len(held) != 1:
        held, why = near_value(both, column), ", by the value"
    if len(held) != 1:
        return None
    cause = "a decimal comma" if DECIMAL in held[0].marks else "a comma between thousands"
    meant = held[0].row.field(column)
    return at_row(row, f"{cause}{why}", column, meant), row.with_fields(**{column: meant})


def numbers_in_two(asking: Asking, row: Row, cause: str) -> tuple[Fault, Row | None] | None:
    """The fault of numbers that commas have parted, in a row whose unit stands further right; or
    None. The row goes on with NE if it is not known what is meant.
    """
    readings, why = narrowed(asking, readings_of(row))
    readings = [read for read in readings if asking.takes(in_table(read.row), None)]
    if not readings:
        return None
    changed = readings[0].row
    parted = [column for column in FIGURES if "." in changed.field(column) or len(readings) > 1
              or changed.field(column) not in row.fields[FRONT:]]
    parted = [column for column in parted if changed.field(column) not in row.fields]
    number = ",".join(first_parted(row, changed))
    cause += f": a comma in the number {number}{why}"
    if len(readings) == 1:
        return at_row(row, cause, "", said_of(changed, parted)), changed
    choices = [f"{said_of(read.row, parted)} {listed(sorted(read.marks), 'and')}" for read in readings]
    return at_row(row, cause, "", listed(choices)), asking.blank_figure(changed)


def narrowed(asking: Asking, readings: Readings) -> tuple[Readings, str]:
    """The readings that are left by all that tells them apart, and what left the one."""
    for each in RECOGNISERS if len(readings) > 1 else ():
        readings = each.function(asking, readings) or readings
        if len(readings) == 1:
            return readings, WHY[each.function]
    return readings, ""


def near_others(asking: Asking, readings: Readings) -> Readings:
    """The readings whose value is near those of the other records of a name, if others are far."""
    row = readings[0].row
    records = asking.ahead.records(row.key[0], row.field("name"))
    others = [other for other in records if (other.sheet, other.line) != (row.sheet, row.line)]
    known = sorted(size for size in map(size_of, others) if size)
    if not known:
        return []
    middle = known[len(known) // 2]
    near = [read for read in readings if middle < size_of(read.row) * FAR < middle * FAR * FAR]
    return near if len(near) < len(readings) else []


def marked_as_others(_: Asking, readings: Readings) -> Readings:
    """The readings whose commas are what they are in other rows of the record, else of the file."""
    row = readings[0].row
    marks = marks_of(row.sheet)
    meant = marks.get(row.key[:2]) or marks.get(()) or set()
    return [read for read in readings if len(meant) == 1 and read.marks == meant]


def in_range(asking: Asking, readings: Readings) -> Readings:
    """The readings that a fuel or a ratio may have."""
    row = readings[0].row
    measures = vocabulary.measured_by(in_table(row).field("unit"))
    takers = asking.ahead.takers(row.field("kind"), row.field("name"))
    is_of_co2 = any(unit_bases.taken_by(*taker) == "CO2" for taker in takers)
    usual = {**OF_FUELS, "ratio": (decimal.Decimal(0), decimal.Decimal(MOST_OF_NO_SHARE))}
    if is_of_co2:
        usual["emission factor of fuel"] = CO2_OF_FUELS[:2]
    if measures not in usual or row.field("name") in vocabulary.words()["potentials"]:
        return []
    least, most = usual[measures]
    return [read for read in readings if least <= size_of(read.row) <= most]


def in_table(row: Row) -> Row:
    """A row with the unit of the table that its own most likely is, if it is none."""
    if row.field("unit") in vocabulary.units():
        return row
    meant = units.meant(row.field("unit"))
    return row.with_fields(unit=meant.word if meant else "")


def size_of(row: Row) -> decimal.Decimal:
    """The value of a row in the base unit without its sign, or zero if it has no number or no unit."""
    meant = in_table(row)
    known = figures(meant)[:1] if meant.field("unit") else []
    read = units.meant(row.field("unit")) if known and meant is not row else None
    times = decimal.Decimal(read.times.numerator) / read.times.denominator if read else decimal.Decimal(1)
    return abs(known[0] * times) if known else decimal.Decimal(0)


def by_bounds(_: Asking, readings: Readings) -> Readings:
    """The reading whose bounds are much nearer to its value than those of the others, or that alone has them
    at one distance.
    """
    known = [(decimals_of(read.row) or [], read) for read in readings]
    if any(len(numbers) != 3 or not numbers[0] for numbers, _ in known):
        return []
    wide = sorted(((max(value - low, high - value) / abs(value), read) for (value, low, high), read in known),
                  key=lambda pair: pair[0])
    if wide[0][0] * NEARER < wide[1][0]:
        return [wide[0][1]]
    return [read for (value, low, high), read in known if value - low == high - value]


def near_value(readings: Readings, column: str) -> Readings:
    """The readings of a bound that is near the value, if the value is a number."""
    value = row_value(readings[0].row)
    if not value:
        return []
    bounds = [(abs(decimal.Decimal(read.row.field(column)) / value), read) for read in readings]
    return [read for times, read in bounds if 1 / decimal.Decimal(FAR) < times < FAR]


def row_value(row: Row) -> decimal.Decimal | None:
    """The value of a row as a number, or None."""
    text = row.field("value")
    return decimal.Decimal(text) if re.fullmatch(r"-?\d+(\.\d+)?", text) else None


def first_parted(row: Row, changed: Row) -> list[str]:
    """The parts of the first number that commas have parted."""
    for at, column in enumerate(FIGURES, FRONT):
        if changed.field(column) != row.fields[at]:
            size = next((size for size in range(2, MOST_PARTS + 1) for text, _ in
                         figures_of(tuple(row.fields[at:at + size])) if text == changed.field(column)), 2)
            parts: list[str] = row.fields[at:at + size]
            return parts
    return []


def said_of(row: Row, columns: list[str]) -> str:
    """What stands in columns of a row."""
    said: str = listed([f"{row.field(column)} in {column}" for column in columns], "and")
    return said


WHY = {
    near_others: ", by the other records of its name", marked_as_others: ", by the other rows of the file",
    in_range: ", by its unit", by_bounds: ", by its bounds",
}
RECOGNISERS = (
    Recogniser(
        near_others, "commas without quotes that part numbers, read as the other records of their name",
        "enter,activity,,COAL,2020,1,050,,,kt,",
        "a comma in the number 1,050, by the other records of its name; write 1050 in value",
        "enter,activity,,COAL,2020,1.05,,,Gg,"
        "\nenter,activity,,COAL,2019,1.02,,,Gg,\nenter,activity,,COAL,2021,1,,,Gg,"),
    Recogniser(
        marked_as_others, "as those that leave no choice in the file",
        "enter,activity,,COWS,2019,250,000,,,head,\nenter,activity,,COWS,2020,248,000,,,head,\n"
        "enter,activity,,COWS,2021,245,000.0,,,head,",
        "a comma in the number 250,000, by the other rows of the file; write 250000 in value",
        "enter,activity,,COWS,2019,250000.0,,,head,"),
    Recogniser(
        in_range, "as their unit allows",
        "enter,factor,,COAL.EF,2019,94,600,89,500,99,700,kg/TJ,",
        "a comma in the number 94,600, by its unit; write 94600 in value, 89500 in low and 99700 in high",
        "enter,factor,,COAL.EF,2019,94.600,89.500,99.700,t/TJ,"),
    Recogniser(
        by_bounds, "or as their bounds are nearest",
        "enter,factor,,COWS.EF,2019,126,75,6,176,4,kg/head,",
        "a comma in the number 75,6, by its bounds; write 75.6 in low and 176.4 in high",
        "enter,factor,,COWS.EF,2019,126.75,6,176.4,kg/head,"),
)
