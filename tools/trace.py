"""What a figure of a year comes of: of a line all that it takes, down to the records; of a total its lines.

Each figure is one that the program printed, or one of a row with its place.
"""
import argparse
import dataclasses
import json
import sys
from collections.abc import Iterator
from typing import Any

from tools import vocabulary
from tools.book import KIND_TAKEN, Book, book_of, lines_taken_by
from tools.printed import BLANK, Printed, by_size, figure, percent
from tools.sheets import Row
from tools.tables import say_lacking, said_of_missing, submit_all
from tools.vocabulary import Parameter

# The category that the gross total leaves out with all under it.
LAND = "3B"
# The unit of what is no more than a number.
RATIO = "1"
LineOfYear = tuple[str, int]
# So many steps of two blanks a part is written in at the most.
FARTHEST_IN = 10


@dataclasses.dataclass(frozen=True)
class Record:
    """A row of an activity or a factor that a line takes."""
    kind: str
    name: str
    year: int
    value: str
    low: str
    high: str
    unit: str
    place: str
    note: str


@dataclasses.dataclass(frozen=True)
class Taken:
    """What a parameter of a line takes: a record, lines each with its year, or what is said in words."""
    parameter: str
    measures: str
    unit: str
    form: str
    target: str
    place: str
    record: Record | None
    lines: list[LineOfYear]
    said: str


@dataclasses.dataclass(frozen=True)
class Line:
    """A line in a year, as it is printed, with what its parameters take."""
    name: str
    year: int
    category: str
    equation: str
    gas: str
    unit: str
    value: str
    low: str
    high: str
    equivalent: str
    potential: Record | None
    place: str
    note: str
    taken: list[Taken]


class Tracer:
    """The lines of a workbook in its years."""

    def __init__(self, book: Book, printed: Printed) -> None:
        self.book, self.printed = book, printed
        self.equivalents: dict[int, dict[str, str]] = {}
        self.cells: dict[int, dict[str, dict[str, str]]] = {}

    def line(self, name: str, year: int) -> Line:
        """A line in a year."""
        if year not in self.cells:
            self.cells[year] = self.printed.by("code", "cells", year)
            self.equivalents[year] = self.printed.equivalents(year)
        cell, row = self.cells[year][name], self.book.lines[name]
        parameters = vocabulary.parameters_of(cell["equation"])
        bound = self.book.bindings.get(name, {})
        taken = [self.taken(bound[parameter], parameters[parameter], year) for parameter in parameters]
        gas = "" if cell["gas"] == "-" else cell["gas"]
        return Line(
            name, year, cell["category"], cell["equation"], gas, cell["unit"], cell["value"], cell["low"],
            cell["high"], self.equivalents[year].get(name, ""),
            self.record("factor", f"GWP.{gas}", year) if gas else None, row.place, row.field("note"), taken)

    def taken(self, row: Row, parameter: Parameter, year: int) -> Taken:
        """What a binding takes in a year."""
        form, target = row.field("value"), row.field("low")
        record, lines, said = None, [], ""
        if form == "key":
            said = "blank" if target == BLANK else "zero"
        elif form in KIND_TAKEN:
            record = self.record(KIND_TAKEN[form], target, year)
            said = "" if record else f"no record of {year}, so that the line is blank"
        elif form == "prev" and year == self.book.known_span()[0]:
            said = f"zero, since {year} is the first year of the span"
        else:
            of_year = year - 1 if form == "prev" else year
            lines = [(name, of_year) for name in lines_taken_by(row)]
        return Taken(row.field("name"), parameter["measures"], parameter["unit"] or "", form, target,
                     row.place, record, lines, said)

    def record(self, kind: str, name: str, year: int) -> Record | None:
        """The record in force of an activity or a factor."""
        row = self.book.in_force(kind, name, year)
        if row is None:
            return None
        return Record(kind, name, int(row.field("year")), row.field("value"), row.field("low"),
                      row.field("high"), row.field("unit"), row.place, row.field("note"))

    def under(self, line: LineOfYear) -> list[Line]:
        """A line with all lines that it takes, over others if need be, each once, itself first."""
        waiting, found = [line], {}
        while waiting:
            at = waiting.pop()
            if at not in found:
                found[at] = self.line(*at)
                waiting += [below for taken in reversed(found[at].taken) for below in reversed(taken.lines)]
        return list(found.values())


def conversion(unit: str) -> str:
    """How a unit is converted to the base unit of what it measures; nothing for a base unit."""
    found = vocabulary.units().get(unit)
    base = vocabulary.units_that_measure(found["measures"])[0] if found else unit
    if found is None or base == unit:
        return ""
    return f"1 {unit} is {vocabulary.of_base(found)} {base}".removesuffix(" 1")


def said_of_note(note: str) -> str:
    """A note after a place."""
    return f", {json.dumps(note, ensure_ascii=False)}" if note else ""


def said_of_record(record: Record) -> str:
    """A record with its figures, their unit, and its place."""
    years = f"since {record.year}" if record.kind == "factor" else f"of {record.year}"
    bounds = f", {record.low} to {record.high}" if record.low else ""
    keys: dict[str, str] = vocabulary.words()["key_names"]
    key = f" ({keys[record.value]})" if record.value in keys else ""
    unit = "" if record.unit == RATIO else f" {record.unit}"
    converted = f" ({conversion(record.unit)})" if conversion(record.unit) else ""
    return (f"{record.kind} {record.name} {years} = {record.value}{key}{bounds}{unit}{converted}; "
            f"{record.place}{said_of_note(record.note)}")


def said_of_taken(taken: Taken) -> str:
    """What a parameter takes."""
    unit = "" if taken.unit in ("", RATIO) else f" in {taken.unit}"
    measures = f"{taken.parameter}, {taken.measures}{unit}"
    if taken.record:
        by = "the share that a year leaves by the half-life, " if taken.form == "decay" else ""
        return f"{measures}: {by}{said_of_record(taken.record)}"
    if taken.form == "key":
        name = vocabulary.words()["key_names"][taken.target]
        return f"{measures}: {taken.said}, {taken.target} ({name}); {taken.place}"
    of = {"line": "line", "prev": "the year before of line", "sum": "the sum of"}.get(taken.form, taken.form)
    said = f" = {taken.said}" if taken.said else ""
    return f"{measures}: {of} {taken.target}{said}; {taken.place}"


def figures_of(line: Line) -> str:
    """The value of a line between its bounds, with its unit and its gas."""
    if line.value == BLANK:
        return "NE, blank"
    unit = "" if line.unit == RATIO else f" {line.unit}"
    gas = f" {line.gas}" if line.gas else ""
    return f"{line.value}{unit}{gas}, {line.low} to {line.high}"


def said_of_line(line: Line) -> list[str]:
    """A line with its place, its equation and its equivalent."""
    equation = vocabulary.equations()[line.equation]
    said = [
        f"{line.name} {line.year} = {figures_of(line)}",
        f"  {said_of_category(line.category)}; {line.place}{said_of_note(line.note)}",
        f"  {line.equation}, {equation['computes']}: {equation['expression']} ({equation['source']})",
    ]
    if line.gas and line.equivalent:
        by = f"{line.equivalent}, since no GWP.{line.gas} is in force"
        if line.potential:
            by = f"{line.equivalent} Gg of CO2, by {said_of_record(line.potential)}"
        said.append(f"  equivalent {by}")
    return said


def said_of_category(code: str) -> str:
    """The code of a category with its name."""
    return f"{code} {vocabulary.categories()[code]['name']}"


def text_of(tracer: Tracer, root: LineOfYear) -> Iterator[str]:
    """A line with all that it takes, each part further in than what takes it, and each line once."""
    waiting: list[tuple[int, LineOfYear | Taken]] = [(0, root)]
    seen = set()
    while waiting:
        depth, at = waiting.pop()
        indent = "  " * min(depth, FARTHEST_IN)
        if isinstance(at, Taken):
            yield f"{indent}{said_of_taken(at)}"
            waiting += [(depth + 1, line) for line in reversed(at.lines)]
            continue
        line = tracer.line(*at)
        again = [f"{line.name} {line.year} = {figures_of(line)}; as above"]
        yield from (indent + text for text in (again if at in seen else said_of_line(line)))
        if at not in seen:
            seen.add(at)
            waiting += [(depth + 1, taken) for taken in reversed(line.taken)]


def is_under(category: str, code: str) -> bool:
    """Tells whether a category is a code of the tree or stands under it."""
    children: list[str] = vocabulary.categories()[code]["children"]
    return category == code or any(is_under(category, child) for child in children)


def is_in(category: str, total: str) -> bool:
    """Tells whether a category counts in a total, a code or `gross`."""
    if total == "gross":
        return is_under(category, "0") and not is_under(category, LAND)
    return is_under(category, total)


def lines_of_total(printed: Printed, total: str, year: int) -> list[dict[str, str]]:
    """The lines that count in a total, the greatest equivalent first, each as a percentage of the total."""
    whole = figure(printed.by("category", "summary", year)[total]["value"])
    rows = [row for row in printed.rows("uncertainty", year)
            if row["category"] != "-" and is_in(row["category"], total)]
    return [{"line": row["code"], "category": row["category"], "gas": row["gas"], "equivalent": row["value"],
             "percent_of_total": percent(figure(row["value"]), whole)}
            for row in by_size(rows, "value")]


def text_of_total(printed: Printed, book: Any, total: str, year: int) -> Iterator[str]:
    """A total with its lines by size."""
    row = printed.by("category", "summary", year)[total]
    name = "the total without land" if total == "gross" else said_of_category(total)
    yield f"{name}, {year} = {row['value']} Gg of CO2 equivalent, {row['low']} to {row['high']}"
    lines = lines_of_total(printed, total, year)
    if not lines:
        yield "  no line stands there"
        return
    yield "  its lines by size, in Gg of CO2 equivalent; the percentage of the total is worked out here"
    for line in lines:
        share = "" if line["percent_of_total"] == "-" else f", {line['percent_of_total']} %"
        share = ", counts as zero" if line["equivalent"] == BLANK else share
        yield (f"  {line['equivalent']}{share}: {line['line']}, {line['category']}, {line['gas']}; "
               f"{book.lines[line['line']].place}")


def total_of(code: str) -> str | None:
    """The total that is meant by `gross` or `total:CODE`, or None."""
    known = {"gross", *(f"total:{one}" for one in vocabulary.categories() if one not in vocabulary.MEMOS)}
    return code.removeprefix("total:") if code in known else None


def said_of_unknown(code: str, book: Any) -> str:
    """That a code is neither a line nor a total, and what may be meant."""
    category = vocabulary.same_code(code.removeprefix("total:"))
    if category and category not in vocabulary.MEMOS:
        return f"there is no line {code}; write total:{category} for {said_of_category(category)}"
    near = vocabulary.nearest(code, book.lines, 3)
    close = f"; near it {vocabulary.are(near)} {vocabulary.listed(near, 'and')}" if near else ""
    return f"there is no line {code}{close}; totals are written gross and total:1A1a"


def as_json(tracer: Tracer, code: str, year: int) -> dict[str, Any]:
    """The same as data: of a line it and all lines that it takes, of a total its lines."""
    total = total_of(code)
    if total is None:
        return {"code": code, "year": year,
                "lines": [dataclasses.asdict(line) for line in tracer.under((code, year))]}
    row = tracer.printed.by("category", "summary", year)[total]
    figures = {column: row[column] for column in ("value", "low", "high")}
    return {"code": code, "year": year, **figures, "lines": lines_of_total(tracer.printed, total, year)}


def run(program: Any, sheets: list[Any], arguments: argparse.Namespace) -> int:
    """Prints what a figure comes of, and answers the status."""
    accepted = submit_all(program, sheets, arguments.quiet)
    lacking = say_lacking(sheets, accepted, arguments.folders, "the figures are without {}")
    book, printed = book_of(accepted), Printed(program)
    code, year = arguments.code, arguments.year
    said = None
    if not printed.rows("summary", year):
        said = said_of_missing(["summary"], year, accepted)
    elif code not in book.lines and total_of(code) is None:
        said = said_of_unknown(code, book)
    if said:
        print(f"./workbook: {said}", file=sys.stderr)
        return 1
    tracer, total = Tracer(book, printed), total_of(code)
    if arguments.json:
        print(json.dumps(as_json(tracer, code, year), ensure_ascii=False, indent=1))
    else:
        for line in text_of_total(printed, book, total, year) if total else text_of(tracer, (code, year)):
            print(line)
    return 1 if lacking else 0
