"""Makes rows of activities and factors out of tables with a column for each year.

What cannot be read is told by its cell. Names, numbers and units are changed only where no choice is left;
all else is written as it stands, so that the program refuses it and its cause is told.
"""
from __future__ import annotations

import csv
import dataclasses
import decimal
import re

from tools import causes, half_lives, spreadsheet, vocabulary
from tools.asking import TOTAL
from tools.faults import shown, years_said
from tools.other_words import OTHER_KINDS, meant_by
from tools.percent_faults import EXACT, figure_of, written
from tools.sheets import COLUMNS, joined
from tools.spreadsheet import DATE, ERROR, NUMBER, TEXT, TRUTH, UNSAVED, Cell, Grid
from tools.wide import (
    A_YEAR, FEWEST_YEARS, HIGH, LOW, PERCENT, VALUE, Heading, Wide, headings_of, is_header, part_of,
    recognised, unit_said, unit_word, without_brackets)

# A distance below and one above, as -3/+7; and one to both sides.
TWO_SIDES = re.compile(rf"[{causes.MINUS}-]\s*([\d.,]+)\s*%?\s*[/;]?\s*\+\s*([\d.,]+)\s*%?")
BOTH_SIDES = re.compile(rf"(?:\u00b1|\+/-|\+-|\+/\u2212|[+{causes.MINUS}-])?\s*([\d.,]+)\s*%?")
UNIT_BEHIND = re.compile(r"(.*\S)\s*[(\[]([^()\[\]]+)[)\]]", re.DOTALL)
# A unit in a text above a table, as in TJ or Unit: TJ.
UNIT_ABOVE = re.compile(r"(?:.*\bin|units?\s*:?)\s+(\S.*)", re.IGNORECASE)
# A point in front of decimals, and not between thousands.
DECIMAL_POINT = re.compile(r"-?(\d+\.(\d{1,2}|\d{4,})|(0|\d{4,})\.\d+)")
# Why a cell of these kinds is no figure.
NO_FIGURES = {
    DATE: "a date in place of a number; the spreadsheet has made it of what was typed",
    TRUTH: "a truth value in place of a number",
    ERROR: "an error of the spreadsheet in place of a number; write the number, or a notation key",
    UNSAVED: "a formula whose value the file does not have; open the file in a spreadsheet, and save it",
}
# Why a cell of these kinds is no text beside figures.
NO_WORDS = {ERROR: "an error of the spreadsheet in place of a text; write the text, or clear the cell",
            UNSAVED: NO_FIGURES[UNSAVED]}
# Words without a digit.
WORDS = re.compile(r"(?=.*[^\W\d_])\D*", re.DOTALL)
OTHER_HEADINGS = ("words under the years in place of figures; take a second row of headings out, and write a figure "
                  "or a notation key elsewhere")
NO_TABLE = "no table with a column or a row for each year, as 1990, 1991 and 1992 side by side"
TWO_YEARS = "two years in one heading; write one of them, in all headings the first or in all the second"
MERGED = "one figure in merged cells; write a figure in each cell"
AMBIGUOUS = "a percentage below 1 without its sign; write 5 % or 0.05 %, as it is meant"
NO_PERCENTAGE = "no percentage; write one, as 5 %, or two, as -3/+7 %"
ABOVE_HUNDRED = "more than 100 percent to both sides; write bounds, in columns as 1990 low and 1990 high"
NO_YEAR = "bounds of which year? write percentages, as 5 %, or columns as 1990 low and 1990 high"
FURTHER_YEARS = "the years of a further table, or figures? write the first table's heading here, or a unit"
AS_OTHERS = "the table's other figures are written so"
AS_DECIMALS = "write none where the point stands between thousands"
NO_NAME = "figures without a name; write one in the first column"
NO_UNIT = "no unit; write one behind the name in brackets, or in a column with the heading unit"
PERCENT_FORMAT = "shown as a percentage, and its unit is no ratio"
# So many bytes in front of a file are looked at for years.
LONGEST_BEGINNING = 20_000
HUNDRED = decimal.Decimal(100)
Distances = tuple[decimal.Decimal, decimal.Decimal]


class Unreadable(Exception):
    """A cell that cannot be read, with the cause."""


@dataclasses.dataclass
class Series:
    """The figures of one name: the cells of each year's value and bounds, and what holds for all of them."""
    name: str
    label: str
    kind: str
    unit: str
    note: str
    row: int
    places: dict[str, str]
    figures: dict[int, dict[str, tuple[int, int]]] = dataclasses.field(default_factory=dict)


class Made:
    """What is made of a file: rows with the places that their columns come from, and what is told."""

    def __init__(self, file: str) -> None:
        self.file = file
        self.rows = [joined(COLUMNS)]
        self.places: list[dict[str, str]] = []
        self.lines: list[int] = []
        self.faults: list[str] = []
        self.warnings: list[str] = []
        self.tables: list[Wide] = []
        self.names: dict[str, str] = {}
        self.formulas = 0

    def fault(self, place: str, cause: str, text: str = "") -> None:
        """Tells what cannot be read."""
        self.faults.append(said_of(place, text, cause))

    def warn(self, place: str, cause: str, text: str = "") -> None:
        """Tells what is read, or left out, and may be meant otherwise."""
        self.warnings.append(said_of(f"{place} warning", text, cause))

    def place(self, line: int, column: str) -> str:
        """Where a column of the row on a line of the file of rows comes from, else where its value does."""
        places = self.places[line - 2]
        return places.get(column, places[VALUE])

    @property
    def body(self) -> bytes:
        """The rows as a file."""
        return b"".join(row + b"\n" for row in self.rows)


def said_of(place: str, text: str, cause: str) -> str:
    """What is told of a place, with the text that stands there."""
    return f"{place}{f' {shown(text)}' if text else ''}: {cause}"


def rows_of_csv(name: str, data: bytes) -> Made | None:
    """The rows of a CSV file that has a table with a column for each year, or None."""
    if not has_years(data):
        return None
    try:
        made = rows_of([spreadsheet.grid_of_csv(name, data)], name)
    except (spreadsheet.SpreadsheetFault, csv.Error):
        return None
    return made if made.tables else None


def has_years(data: bytes) -> bool:
    """Tells whether the beginning of a file has two years, so that it may be such a table."""
    return len(A_YEAR.findall(spreadsheet.decoded(data[:LONGEST_BEGINNING]))) >= FEWEST_YEARS


def rows_of(grids: list[Grid], file: str) -> Made:
    """The rows of all sheets of a file that have a table with a column for each year."""
    made = Made(file)
    for grid in grids:
        tables = [] if grid.is_hidden else recognised(grid)
        made.tables += tables
        before = None
        for table in tables:
            reader = Reader(made, table, before)
            reader.read()
            before = reader.unit_of_all
        if tables:
            continue
        if grid.is_hidden:
            made.warn(grid.shown_name, "this sheet is hidden, and is not read; show it if it is meant")
        elif grid.cells:
            made.warn(grid.shown_name, "this sheet has no table with a column or a row for each year")
    if not made.tables:
        unsaved = any(cell.kind == UNSAVED for grid in grids for cell in grid.cells.values())
        made.fault(file, f"{NO_TABLE}{f'; it has {NO_FIGURES[UNSAVED]}' if unsaved else ''}")
    return made


class Reader:
    """Reads one table."""

    def __init__(self, made: Made, table: Wide, unit_before: tuple[str, str] | None = None) -> None:
        self.made, self.table, self.grid = made, table, table.grid
        self.series: list[Series] = []
        self.meant: dict[str, list[tuple[str, str, str]]] = {}
        self.decimal_comma = decimal_comma(table)
        self.unit_of_all = table.unit or unit_above(table)
        if not any(self.grid.rows(table.top + 1, table.header - 1)):
            self.unit_of_all = self.unit_of_all or unit_before

    def read(self) -> None:
        """Makes rows of each series, and tells what is not read."""
        self.look_at_headings()
        for row, cells in self.table.rows():
            self.add(row, cells)
        for series in self.series:
            self.write(series)
        for why, ((place, text, meant), *more) in self.meant.items():
            and_more = f", and {len(more)} more like it" if more else ""
            self.made.warn(place, f"read as {meant}{and_more}; {why}", text)

    def held(self, what: str, row: int) -> tuple[str, Cell]:
        """The cell of a row in the first column that holds something, with its place; of merged cells, the
        first one. An empty cell where there is no such column.
        """
        column = self.table.column_of(what)
        if column is None:
            return "", Cell("")
        area = self.grid.area_at(row, column)
        at = (area.top, area.left) if area else (row, column)
        return self.grid.place(*at), self.grid.cell(*at)

    # Headings

    def look_at_headings(self) -> None:
        """Tells of years that stand there twice or are two, of hidden columns, and of those not read."""
        seen: dict[Heading, str] = {}
        for column, heading in sorted(self.table.years.items()):
            place = self.grid.place(self.table.header, column)
            if heading in seen:
                self.made.fault(place, f"this year stands at {seen[heading]} too", str(heading.year))
            seen.setdefault(heading, place)
            if column in self.grid.hidden_columns:
                self.made.warn(place, "this column is hidden, and is read; delete it if it is not meant")
        for column in self.table.two_years[:1]:
            self.made.fault(self.grid.place(self.table.header, column), TWO_YEARS)
        for column, held in sorted(self.table.beside.items()):
            if held == "unread":
                place, over = self.grid.place(self.table.header, column), self.table.over[column]
                self.made.warn(place, "this heading is no year, and the column is not read", over)

    # Series

    def add(self, row: int, cells: dict[int, Cell]) -> None:
        """Adds a row to the series of its name, or begins one."""
        columns = [column for column in self.table.years if column in cells]
        label, place = self.label(row)
        if not columns:
            if self.held("unit", row)[1].text and label:
                self.made.warn(place, "no figure in any year, and no row is written", label)
            return
        if is_header(cells, headings_of(cells)) and not self.unit(row, label, place)[3]:
            self.made.fault(place, FURTHER_YEARS, label)
            return
        if self.are_words(row, columns):
            self.made.fault(place, OTHER_HEADINGS, label)
            return
        if self.has_errors(row):
            return
        if TOTAL.fullmatch(label.split("\n")[0].strip()):
            self.made.warn(place, "a row of totals is not read", label)
            return
        if row in self.grid.hidden_rows:
            self.made.warn(place, "this row is hidden, and is read; delete it if it is not meant", label)
        last = self.series[-1] if self.series else None
        part = part_of(self.held("part", row)[1].text) or VALUE
        if last and part_of(without(last.label, label)) in (LOW, HIGH):
            part, label = str(part_of(without(last.label, label))), last.label
        if last is None or part == VALUE or label not in ("", last.label):
            if not label and not self.held("subject", row)[1].text.strip():
                self.made.fault(place, NO_NAME)
                return
            last = self.begun(row, label, place)
            self.series.append(last)
        for column in columns:
            heading = self.table.years[column]
            at = heading.part if part == VALUE else part
            last.figures.setdefault(heading.year, {}).setdefault(at, (row, column))

    def are_words(self, row: int, columns: list[int]) -> bool:
        """Tells whether words stand under several years in place of figures and notation keys."""
        cells = [self.grid.cell(row, column) for column in columns]
        return len(cells) > 1 and all(cell.kind == TEXT and WORDS.fullmatch(cell.text)
                                      and causes.notation_key(cell.text) not in vocabulary.words()["keys"]
                                      for cell in cells)

    def has_errors(self, row: int) -> bool:
        """Tells each error of the spreadsheet beside the figures of a row, and whether there is one."""
        places = [(row, column) for column, held in self.table.beside.items() if held != "unread"]
        errors = [place for place in places if self.grid.cell(*place).kind in NO_WORDS]
        for place in errors:
            cell = self.grid.cell(*place)
            self.made.fault(self.grid.place(*place), NO_WORDS[cell.kind], cell.text)
        return bool(errors)

    def label(self, row: int) -> tuple[str, str]:
        """What names a row, the last of several labels first, and its place."""
        name_place, name = self.held("name", row)
        if name.text.strip():
            return name.text.strip(), name_place
        found: list[str] = []
        place = self.grid.place(row, min(self.table.years))
        for column, held in sorted(self.table.beside.items(), reverse=True):
            area = self.grid.area_at(row, column)
            at = (area.top, area.left) if area else (row, column)
            text = self.grid.cell(*at).text.strip()
            if held == "label" and text:
                place = self.grid.place(*at) if not found else place
                found.append(text)
        return "\n".join(found), place

    def begun(self, row: int, label: str, place: str) -> Series:
        """A series without its figures."""
        unit, unit_place, label_alone, _ = self.unit(row, label, place)
        if not unit:
            self.made.fault(place, NO_UNIT, label)
        name = self.name(row, label_alone)
        if name in self.made.names:
            cause = f"gives the name {name}, as {self.made.names[name]} does; write another"
            self.made.fault(place, cause, label)
        self.made.names.setdefault(name, place)
        kind_place, kind = self.held("kind", row)
        places = {"name": place, "unit": unit_place, "kind": kind_place or place}
        note = self.held("note", row)[1].text
        return Series(name, label, kind_of(kind.text, unit), unit, note, row, places)

    def name(self, row: int, label: str) -> str:
        """The name of a series: its label, and the code of its category if the name has no column of its
        own; of a series with a code alone, that of the sheet and the code.
        """
        code = self.held("subject", row)[1].text.strip()
        if code and self.table.column_of("name") is None:
            label = f"{label or self.grid.name.removesuffix('.csv')}\n{vocabulary.same_code(code) or code}"
        return str(causes.name(label.replace("\n", ".")).text)

    def unit(self, row: int, label: str, place: str) -> tuple[str, str, str, bool]:
        """The unit of a series, with its place, the label without it, and whether it is the row's own."""
        unit_place, cell = self.held("unit", row)
        text, behind = without_brackets(cell.text), UNIT_BEHIND.fullmatch(label)
        if not text and behind and unit_said(behind.group(2)):
            label, text, unit_place = behind.group(1), behind.group(2), place
        is_own = bool(text)
        if not text and self.unit_of_all:
            text, unit_place = self.unit_of_all
        return unit_word(text) or text, unit_place or place, label, is_own

    # Rows

    def write(self, series: Series) -> None:
        """Writes the rows of a series, and tells the years that it lacks."""
        distances = self.distances(series)
        for year, cells in sorted(series.figures.items()):
            try:
                self.write_row(series, year, cells, distances)
            except Unreadable as fault:
                self.made.faults.append(str(fault))
        lacking = {heading.year for heading in self.table.years.values()} - set(series.figures)
        if lacking and series.kind == "activity":
            column = next(column for column, heading in self.table.years.items() if heading.year in lacking)
            cause = f"{series.name} has no figure of {years_said(lacking)}; write it, or a notation key"
            self.made.warn(self.grid.place(series.row, column), cause)

    def write_row(self, series: Series, year: int, cells: dict[str, tuple[int, int]],
                  distances: Distances | None) -> None:
        """Writes the row of a year."""
        if VALUE not in cells:
            place = self.grid.place(*next(iter(cells.values())))
            raise Unreadable(f"{place}: a bound of {year} without its value")
        figures = {part: self.figure(series, *at) for part, at in cells.items()}
        places = {part: self.grid.place(*at) for part, at in cells.items()}
        value = figure_of(figures[VALUE])
        if distances and value is not None and LOW not in figures and HIGH not in figures:
            below, above = (EXACT.multiply(abs(value), distance) / HUNDRED for distance in distances)
            figures[LOW] = written(EXACT.subtract(value, below))
            figures[HIGH] = written(EXACT.add(value, above))
        file = "" if self.made.file == self.grid.name else f"{self.made.file} "
        note = f"{series.note}; {file}{places[VALUE]}" if series.note else f"{file}{places[VALUE]}"
        fields = ["enter", series.kind, "", series.name, str(year), figures[VALUE], figures.get(LOW, ""),
                  figures.get(HIGH, ""), series.unit, " ".join(note.split())]
        if half_lives.has_decimal(fields):
            self.made.rows[0] = joined(half_lives.header_for([fields]))
        self.made.rows.append(joined(fields))
        self.made.places.append({**series.places, **places})
        self.made.lines.append(self.grid.line(*cells[VALUE]))

    def figure(self, series: Series, row: int, column: int) -> str:
        """The text of a figure as rows have it. One that is not sure stays as it is."""
        cell, place = self.grid.cell(row, column), self.grid.place(row, column)
        self.made.formulas += cell.is_formula
        area = self.grid.area_at(row, column)
        if area and (area.right > area.left or area.bottom > area.top):
            raise Unreadable(said_of(place, cell.text, MERGED))
        if cell.kind in NO_FIGURES:
            raise Unreadable(said_of(place, cell.text, NO_FIGURES[cell.kind]))
        if cell.kind == NUMBER and cell.is_percentage:
            size = vocabulary.units().get(series.unit)
            if size is None or size["measures"] != "ratio":
                raise Unreadable(said_of(place, cell.text, PERCENT_FORMAT))
            return str(written(decimal.Decimal(cell.text) * size["under"] / size["over"]))
        return cell.text if cell.kind == NUMBER else self.text_of_figure(cell.text, place)

    def text_of_figure(self, text: str, place: str) -> str:
        """A figure that is written as a text. A comma is read as in the table's other figures."""
        key = causes.notation_key(text)
        if key in vocabulary.words()["keys"]:
            return str(key)
        meant = self.with_point(text.strip())
        if meant:
            self.meant.setdefault(AS_OTHERS, []).append((place, text, meant))
            return meant
        mended = causes.number(text)
        if self.decimal_comma is None and re.fullmatch(r"-?[1-9]\d{0,2}\.\d{3}", mended.text):
            self.meant.setdefault(AS_DECIMALS, []).append((place, text, mended.text))
        return str(mended.text) if mended.sure else text

    def with_point(self, text: str) -> str | None:
        """A number of one comma or point in front of three digits, as the other figures say what that is; or
        None.
        """
        if self.decimal_comma and re.fullmatch(r"-?\d{1,3}\.\d{3}", text):
            return text.replace(".", "")
        if self.decimal_comma is not None and re.fullmatch(r"-?\d{1,3},\d{3}", text):
            return text.replace(",", "." if self.decimal_comma else "")
        return None

    # Uncertainties

    def distances(self, series: Series) -> Distances | None:
        """The distances of the bounds below and above the figures of a series in percent, or None."""
        place, cell = self.held("uncertainty", series.row)
        beside = {part: self.held(part, series.row) for part in (LOW, HIGH)}
        found: Distances | None = None
        try:
            if cell.text.strip():
                series.places |= {LOW: place, HIGH: place}
                found = self.percentages(cell, self.over("uncertainty"))
            elif any(bound.text.strip() for _, bound in beside.values()):
                series.places |= {part: at for part, (at, _) in beside.items()}
                place, cell = next(at for at in beside.values() if at[0])
                found = self.side_by_side(series, [bound for _, bound in beside.values()])
            if found and found[0] > HUNDRED:
                raise Unreadable(ABOVE_HUNDRED)
        except Unreadable as fault:
            self.made.fault(place, str(fault), cell.text)
            return None
        return found

    def over(self, what: str) -> str:
        """The text over the first column that holds something."""
        return self.table.over.get(self.table.column_of(what) or 0, "")

    def percentages(self, cell: Cell, over: str) -> Distances:
        """An uncertainty in percent: the distances below and above."""
        two, both = TWO_SIDES.fullmatch(cell.text.strip()), BOTH_SIDES.fullmatch(cell.text.strip())
        texts = list(two.groups()) if two else [both.group(1)] * 2 if both else []
        found = [figure for figure in map(figure_of, texts) if figure is not None]
        if cell.kind not in (NUMBER, TEXT) or len(found) != 2:
            raise Unreadable(NO_PERCENTAGE)
        if cell.is_percentage:
            return found[0] * HUNDRED, found[1] * HUNDRED
        if 0 < min(found) < 1 and not PERCENT.search(over) and "%" not in cell.text:
            raise Unreadable(AMBIGUOUS)
        return found[0], found[1]

    def side_by_side(self, series: Series, beside: list[Cell]) -> Distances | None:
        """The bounds in columns of their own: percentages, or of the one year of a table its bounds."""
        said = [self.over(part) for part in (LOW, HIGH)] + [cell.text for cell in beside]
        if any(map(PERCENT.search, said)) or any(cell.is_percentage for cell in beside):
            below, above = (self.percentages(cell, "%")[0] for cell in beside)
            return below, above
        if len(self.table.years) > 1:
            raise Unreadable(NO_YEAR)
        for part in (LOW, HIGH):
            column = self.table.column_of(part)
            if column is not None:
                next(iter(series.figures.values())).setdefault(part, (series.row, column))
        return None


def without(front: str, label: str) -> str:
    """A label without the one above it in front, where it begins with that."""
    return label.removeprefix(UNIT_BEHIND.sub(r"\1", front)).strip(" ,:-()")


def kind_of(text: str, unit: str) -> str:
    """The kind of a series: what a column says, else an activity where its unit is that of an amount."""
    said = meant_by(text, OTHER_KINDS) or text.strip().casefold()
    if said in ("activity", "factor"):
        return str(said)
    measures = vocabulary.measured_by(unit)
    is_amount = vocabulary.is_amount(measures) if measures else "/" not in unit
    return "activity" if is_amount else "factor"


def decimal_comma(table: Wide) -> bool | None:
    """Tells whether a comma stands in front of decimals in the figures that are texts, where these tell it
    and do not contradict each other; else None.
    """
    found = set()
    for cell in [cells[column] for _, cells in table.rows() for column in table.years if column in cells]:
        if cell.kind != TEXT:
            continue
        told = causes.number(cell.text).causes
        if any("decimal comma" in cause and "write" not in cause for cause in told):
            found.add(True)
        elif "commas between thousands" in told or DECIMAL_POINT.fullmatch(cell.text.strip()):
            found.add(False)
    return found.pop() if len(found) == 1 else None


def unit_above(table: Wide) -> tuple[str, str] | None:
    """The unit of all figures in the headings or above the table, with its place, or None."""
    labels = [column for column, held in table.beside.items() if held in ("label", "subject", "name")]
    rows = list(table.grid.rows(table.top + 1, table.header - 1))
    above = [(row, column) for row, cells in reversed(rows) for column in sorted(cells)]
    for at in [*((table.header, column) for column in labels), *above]:
        text = table.grid.cell(*at).text.strip()
        found = UNIT_BEHIND.fullmatch(text) or UNIT_ABOVE.fullmatch(text)
        unit = unit_said(found.group(found.lastindex or 0)) if found else None
        if not found and at[0] == table.header and text in vocabulary.units():
            unit = text
        if unit:
            return unit, table.grid.place(*at)
    return None
