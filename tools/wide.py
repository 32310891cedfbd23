"""Recognises a table with a column for each year in a sheet, or with a row for each: which cells are the
years, and what the columns beside them hold.
"""
from __future__ import annotations

import dataclasses
import re
from collections.abc import Iterable, Iterator

from tools import causes, units, vocabulary
from tools.other_words import OTHER_COLUMNS, meant_by
from tools.spreadsheet import DATE, NUMBER, TEXT, Area, Cell, Grid

VALUE, LOW, HIGH = "value", "low", "high"
PARTS = (VALUE, LOW, HIGH)
# Words beside a year that leave it one.
BESIDE_A_YEAR = {
    "fy", "cy", "year", "yr", "y", "est", "estimate", "estimated", "prelim", "preliminary", "prov",
    "provisional", "revised", "p", "e", "r", "bound", "limit",
}
# A first and a second half of two years, as 2019/20.
TWO_YEARS = re.compile(rf"\D*(\d{{4}})\s*[-/{causes.MINUS}]\s*(?:\d\d)?\d\d\D*")
# What people write over the columns beside the years, for what these hold.
HEADINGS = {
    "name": {"name", "series"},
    "subject": {"subject", "category", "code", "ipcc", "ipcc code", "ipcc category", "crf", "crf code"},
    "kind": {"kind", "type", "record"},
    "unit": {"unit", "units", "uom", "unit of measure", "unit of measurement", "measured in"},
    "low": {"low", "lower", "min", "minimum", "lower bound"},
    "high": {"high", "upper", "max", "maximum", "upper bound"},
    "note": {"note", "notes", "comment", "comments", "remark", "remarks", "source", "sources", "reference",
             "references", "footnote"},
}
UNCERTAINTY = re.compile(r"uncert|\bunc\b|\u00b1|\+/-|\+-|^%$|^error\b", re.IGNORECASE)
PERCENT = re.compile("%|per ?cent|pct", re.IGNORECASE)
# A row of years has so many of them, unless a column beside it is said to have the units; and from one to the
# next are at most so many.
FEWEST_YEARS, MOST_BETWEEN = 2, 10
# So far down the first row of years is looked for, in rows of so many columns; a sheet has so many tables.
MOST_ABOVE, MOST_COLUMNS, MOST_TABLES = 200, 1000, 100
A_NUMBER = re.compile(r"\s*[+-]?\d[\d.,\s]*%?\s*")
FOOTNOTE = re.compile(r"[(\[]\w[)\]]|[\u00b9\u00b2\u00b3]")
A_YEAR = re.compile(r"(?<!\d)(?:19|20)\d\d(?!\d)")
# Units that say at which temperature and pressure a volume is measured.
OF_A_STATE = re.compile(r"\b[ns]m(3|\u00b3)|\b[ns]cm\b", re.IGNORECASE)


@dataclasses.dataclass(frozen=True)
class Heading:
    """What a column holds of a year: the value, or a bound."""
    year: int
    part: str = VALUE


class Turned(Grid):
    """A sheet with rows as columns; its places are those of the sheet."""

    def place(self, row: int, column: int) -> str:
        """A place as spreadsheets write it."""
        return super().place(column, row)

    def line(self, row: int, column: int) -> int:
        """The number of the sheet's row."""
        return column


def turned(grid: Grid) -> Turned:
    """A sheet with its rows as columns."""
    other = Turned(grid.name, {(column, row): cell for (row, column), cell in grid.cells.items()})
    other.merged = [Area(area.left, area.top, area.right, area.bottom) for area in grid.merged]
    other.hidden_rows, other.hidden_columns = grid.hidden_columns, grid.hidden_rows
    return other


@dataclasses.dataclass
class Wide:
    """A table with a column for each year.

    `years` are its columns of figures, and `beside` says what other columns hold: a word of HEADINGS,
    uncertainty, part, or label for what names a series. `over` has the texts over these. The rows of figures
    are those from `first` to `last`, and after `top` begins what stands above the table. `unit` is one that
    the table has for all rows, with its place.
    """
    grid: Grid
    top: int
    header: int
    years: dict[int, Heading]
    two_years: list[int]
    first: int = 0
    last: int = 0
    beside: dict[int, str] = dataclasses.field(default_factory=dict)
    over: dict[int, str] = dataclasses.field(default_factory=dict)
    unit: tuple[str, str] | None = None

    @property
    def span(self) -> tuple[int, int]:
        """The first and the last year."""
        found = [heading.year for heading in self.years.values()]
        return min(found), max(found)

    def column_of(self, what: str) -> int | None:
        """The first column that holds something, or None."""
        return next((column for column, held in sorted(self.beside.items()) if held == what), None)

    def rows(self) -> Iterator[tuple[int, dict[int, Cell]]]:
        """The rows from the first to the last, each with its number and its cells by their columns."""
        yield from self.grid.rows(self.first, self.last)

    def rows_of_figures(self) -> Iterator[tuple[int, dict[int, Cell]]]:
        """The rows that have something under the years."""
        yield from ((row, cells) for row, cells in self.rows() if any(at in cells for at in self.years))


def recognised(grid: Grid) -> list[Wide]:
    """The tables of a sheet whose columns or rows are years, from the top."""
    found = map(tables_of, (grid, turned(grid)))
    return max(found, key=lambda tables: len(tables[0].years) if tables else 0)


def tables_of(grid: Grid) -> list[Wide]:
    """The tables of a sheet whose columns are years, from the top. One ends where the next has its years."""
    tables: list[Wide] = []
    end = max((row for row, _ in grid.cells), default=0)
    for row, cells in grid.rows():
        before = tables[-1] if tables else None
        if before is None and row > MOST_ABOVE:
            break
        headings = headings_of(cells) if len(cells) <= MOST_COLUMNS else {}
        if not is_header(cells, headings) or before and not begins_a_table(before, row, cells):
            continue
        if before is None and (years_above(grid, row, headings) or not has_figures(grid, row, headings)):
            continue
        if len(tables) == MOST_TABLES:
            return []
        top = 0
        if before:
            before.last = row - 1
            top = max((last for last, _ in before.rows_of_figures()), default=before.header)
        two = [column for column in headings if TWO_YEARS.fullmatch(cells[column].text)]
        tables.append(Wide(grid, top, row, headings, two, row + 1, end))
        look_at_second_row(tables[-1])
    for table in tables:
        find_columns_beside(table)
    return tables


def headings_of(cells: dict[int, Cell]) -> dict[int, Heading]:
    """The cells of a row that are years."""
    found = {column: heading_of(cell) for column, cell in cells.items()}
    return {column: heading for column, heading in found.items() if heading}


def begins_a_table(before: Wide, row: int, cells: dict[int, Cell]) -> bool:
    """Tells whether a row of years below a table has the headings of a further one: the same years, or beside
    years the same texts or one that says what a column holds.
    """
    texts = {column: cell.text for column, cell in cells.items()}
    header = {column: before.grid.cell(before.header, column).text for column in texts}
    same = all(texts.get(column) == header.get(column) for column in before.years)
    beside = [column for column in texts if column not in before.years]
    alike = same or all(texts[column] == header[column] for column in beside)
    return row >= before.first and (alike or any(role_of(texts[column]) for column in beside))


def years_above(grid: Grid, header: int, headings: dict[int, Heading]) -> bool:
    """Tells whether years stand above a row of them, which are its headings then and cannot be read."""
    above = [cell for _, cells in grid.rows(last=header - 1) for column, cell in cells.items()
             if column in headings]
    return sum(bool(A_YEAR.search(cell.text)) for cell in above) >= FEWEST_YEARS


def heading_of(cell: Cell) -> Heading | None:
    """The year that stands over a column, with the part of a figure that is named beside it, or None."""
    if cell.kind == DATE and re.match(r"\d{4}-", cell.text):
        return heading(cell.text[:4], [])
    if cell.kind not in (NUMBER, TEXT) or len(cell.text) > 40:
        return None
    halves = TWO_YEARS.fullmatch(cell.text)
    if halves and not causes.year(cell.text.strip()).sure:
        return heading(halves.group(1), [])
    text = FOOTNOTE.sub("", re.sub(r"(\d{4})[.,]0*(?!\d)", r"\1", cell.text.casefold()))
    numbers = re.findall(r"\d+", text)
    return heading(numbers[0], re.findall(r"[^\W\d_]+", text)) if len(numbers) == 1 else None


def heading(year: str, words: list[str]) -> Heading | None:
    """A year with the words beside it, or None where it is no year."""
    first, last = int(vocabulary.limit("first_year")), int(vocabulary.limit("last_year"))
    parts = [part_of(word) for word in words if word not in BESIDE_A_YEAR]
    if not re.fullmatch(r"\d{4}", year) or not first <= int(year) <= last or None in parts:
        return None
    return Heading(int(year), *filter(None, parts)) if len(parts) < 2 else None


def part_of(text: str) -> str | None:
    """The part of a figure that a word names, or None."""
    word = re.sub(r"\s*\b(bound|limit|estimate)\b\s*", "", text.strip().casefold()).strip()
    found = word if word in PARTS else meant_by(word, OTHER_COLUMNS) if word else None
    return found if found in PARTS else None


def is_header(cells: dict[int, Cell], headings: dict[int, Heading]) -> bool:
    """Tells whether a row is one of years: two or more of them in their order and no other number, or one
    beside the word unit.
    """
    years = [heading.year for _, heading in sorted(headings.items())]
    in_order = years in (sorted(years), sorted(years, reverse=True))
    are_near = all(abs(year - after) <= MOST_BETWEEN for year, after in zip(years, years[1:]))
    others = any(A_NUMBER.fullmatch(cell.text) for column, cell in cells.items() if column not in headings)
    beside_unit = any(role_of(cell.text) == "unit" for cell in cells.values())
    enough = len(set(years)) >= FEWEST_YEARS or beside_unit and bool(years)
    return in_order and are_near and not others and enough


def role_of(text: str) -> str | None:
    """What a column holds by the text over it, or None."""
    bare = re.sub(r"[\[(].*[\])]|%", "", text).strip(" .:").casefold()
    if UNCERTAINTY.search(text.strip()):
        return "uncertainty"
    return next((role for role, words in HEADINGS.items() if bare in words), None)


def has_figures(grid: Grid, header: int, headings: dict[int, Heading]) -> bool:
    """Tells whether anything stands below the years."""
    return any(row > header and column in headings for row, column in grid.cells)


def look_at_second_row(table: Wide) -> None:
    """Reads the second row of headings of a table, where it has one."""
    row, first = table.header + 1, min(table.years)
    below = dict(table.grid.rows(row, row)).get(row, {})
    second = {column: cell for column, cell in below.items() if column >= first and cell.kind == TEXT}
    parts = {column: part_of(cell.text) for column, cell in second.items()}
    if len(second) >= FEWEST_YEARS and all(parts.values()):
        table.years = with_parts(table, {column: part for column, part in parts.items() if part})
        table.first = row + 1
    elif set(table.years) <= set(second) and is_row_of_units(cell.text for cell in second.values()):
        table.unit = without_brackets(second[first].text), table.grid.place(row, first)
        table.first = row + 1


def is_row_of_units(texts: Iterable[str]) -> bool:
    """Tells whether texts are one unit, once for each column, and no figure."""
    found = set(map(without_brackets, texts))
    return len(found) == 1 and all(re.search("[A-Za-z%]", text) and unit_word(text) for text in found)


def without_brackets(text: str) -> str:
    """A text without brackets around all of it."""
    return re.sub(r"^[(\[]([^()\[\]]*)[)\]]$", r"\1", text.strip()).strip()


def unit_word(text: str) -> str | None:
    """The unit of the table that a text is and in which its figures stay the same, or None.

    One with a word that says what it is of is none: that word may make other figures of them.
    """
    bare = causes.without_blanks(text).text
    if bare in vocabulary.units():
        return str(bare)
    words = re.sub("[/()]", " ", units.prepared(bare)).split()
    known = [units.unit_of(word.removesuffix("^-1")) or units.multiple_of(word) for word in words]
    meant = units.meant(bare) if all(known) and not OF_A_STATE.search(bare) else None
    return str(meant.word) if meant and meant.times == 1 else None


def unit_said(text: str) -> str | None:
    """The unit that a text is or is meant to be, or None. One of another size or of something stays as it is,
    so that the program refuses it.
    """
    return unit_word(text) or (text.strip() if units.read(text.strip()) else None)


def is_unit_alone(text: str) -> bool:
    """Tells whether a text without a heading is a unit, and not the name of an animal or a letter."""
    bare = text.strip()
    is_word = bare in vocabulary.units() or len(bare) > 1 and units.unit_of(bare) not in units.ANIMALS
    return is_word and unit_word(bare) is not None


def with_parts(table: Wide, parts: dict[int, str]) -> dict[int, Heading]:
    """The columns of figures under years that stand over several of them."""
    found, year = {}, None
    for column in range(min(table.years), max(*table.years, *parts) + 1):
        area = table.grid.area_at(table.header, column)
        year = table.years.get(area.left if area else column, year)
        if year and (column in parts or column in table.years):
            found[column] = Heading(year.year, parts.get(column, year.part))
    return found


def find_columns_beside(table: Wide) -> None:
    """Says what the columns hold that are none of figures: by the text over them, else by what they hold."""
    rows = [cells for _, cells in table.rows_of_figures()]
    columns = sorted({column for cells in rows for column in cells} - set(table.years))
    for column in columns:
        table.over[column] = text_over(table, column)
        role = role_of(table.over[column])
        if role == "note" and column < min(table.years):
            role = None
        if role:
            table.beside[column] = role
    for column in columns:
        texts = [cells[column].text for cells in rows if column in cells and cells[column].kind == TEXT]
        role = table.beside.get(column) or role_by(texts)
        if role not in ("label", "unread") and table.column_of(role) not in (None, column):
            role = "unread" if column in table.beside else "label"
        if role == "label" and column > min(table.years):
            role = "unread"
        table.beside[column] = role


def text_over(table: Wide, column: int) -> str:
    """The text over a column in the rows of headings, the lowest first."""
    for row in range(table.first - 1, table.header - 1, -1):
        area = table.grid.area_at(row, column)
        text = (table.grid.cell(area.top, area.left) if area else table.grid.cell(row, column)).text
        if text.strip():
            return text.strip()
    return ""


def role_by(texts: list[str]) -> str:
    """What a column holds by its texts."""
    if all(map(A_NUMBER.fullmatch, texts)):
        return "unread"
    if all(part_of(text) for text in texts):
        return "part"
    if 2 * sum(map(is_unit_alone, texts)) > len(texts):
        return "unit"
    if all(vocabulary.same_code(text.strip()) for text in texts):
        return "subject"
    return "label"
