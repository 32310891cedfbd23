"""The cells of a file of a spreadsheet, .xlsx, .ods or .csv, as texts with their places.

Nothing is judged here: what a cell holds that is no figure and no text is said by its kind.
"""
from __future__ import annotations

import bisect
import csv
import dataclasses
import datetime
import decimal
import importlib
import io
import pathlib
import re
import typing
import warnings
import zipfile
from collections.abc import Iterator

from tools import libraries
from tools.sheets import FolderFault

NUMBER, TEXT, DATE, TRUTH, ERROR = "number", "text", "date", "truth value", "error"
# A formula whose value the file does not hold: no spreadsheet has worked it out and saved it.
UNSAVED = "formula without a saved value"
ERRORS = re.compile(r"#(DIV/0!|REF!|N/A|NAME\?|VALUE!|NUM!|NULL!|SPILL!|CALC!)|Err:\d+")
# So many digits of a number a spreadsheet keeps and shows.
DIGITS = 15
MOST_CELLS = 2_000_000
MOST_ROWS = 1 << 31
LIBRARIES = {".xlsx": "openpyxl", ".xlsm": "openpyxl", ".ods": "odf.opendocument"}
# A file of an old spreadsheet, or one that a password protects.
OLD_OR_LOCKED = b"\xd0\xcf\x11\xe0"
SEPARATORS = ",;\t|"
# The names of attributes and elements of an .ods file stand in these.
OFFICE = "urn:oasis:names:tc:opendocument:xmlns:office:1.0"
TABLE = "urn:oasis:names:tc:opendocument:xmlns:table:1.0"
TEXTS = "urn:oasis:names:tc:opendocument:xmlns:text:1.0"
KINDS_OF_ODS = {
    "float": NUMBER, "currency": NUMBER, "percentage": NUMBER, "date": DATE, "time": DATE, "boolean": TRUTH,
}


class SpreadsheetFault(FolderFault):
    """A file that cannot be read as a spreadsheet, with what to do."""


@dataclasses.dataclass(frozen=True)
class Cell:
    """A cell that is not empty.

    The text of a number has digits and a point alone; that of a date is in the form 2020-12-31. A number that
    is shown as a percentage is the number itself, as 0.05 of 5 %.
    """
    text: str
    kind: str = TEXT
    is_formula: bool = False
    is_percentage: bool = False


EMPTY = Cell("")


@dataclasses.dataclass(frozen=True)
class Area:
    """Cells that are merged to one, which the first of them holds."""
    top: int
    left: int
    bottom: int
    right: int

    def holds(self, row: int, column: int) -> bool:
        """Tells whether a cell is one of these."""
        return self.top <= row <= self.bottom and self.left <= column <= self.right


@dataclasses.dataclass
class Grid:
    """A sheet: its cells by row and column, both from 1, and what of it is merged or hidden."""
    name: str
    cells: dict[tuple[int, int], Cell] = dataclasses.field(default_factory=dict)
    merged: list[Area] = dataclasses.field(default_factory=list)
    hidden_rows: set[int] = dataclasses.field(default_factory=set)
    hidden_columns: set[int] = dataclasses.field(default_factory=set)
    is_hidden: bool = False
    in_order: list[tuple[int, dict[int, Cell]]] = dataclasses.field(default_factory=list)

    def cell(self, row: int, column: int) -> Cell:
        """The cell at a place; an empty one where none is."""
        return self.cells.get((row, column), EMPTY)

    def rows(self, first: int = 1, last: int = MOST_ROWS) -> Iterator[tuple[int, dict[int, Cell]]]:
        """The rows that have a cell, from one to another, each with its number and its cells by their
        columns.
        """
        if not self.in_order:
            found: dict[int, dict[int, Cell]] = {}
            for row, column in sorted(self.cells):
                found.setdefault(row, {})[column] = self.cells[row, column]
            self.in_order = list(found.items())
        begin = bisect.bisect_left(self.in_order, first, key=lambda row: row[0])
        end = bisect.bisect_right(self.in_order, last, key=lambda row: row[0])
        yield from self.in_order[begin:end]

    def place(self, row: int, column: int) -> str:
        """A place as spreadsheets write it, as Sheet!F12."""
        return f"{self.shown_name}!{letters_of(column)}{row}"

    def line(self, row: int, _column: int) -> int:
        """The number of the row in which a cell stands."""
        return row

    @property
    def shown_name(self) -> str:
        """The name, in quotes where spreadsheets put it in quotes."""
        return self.name if re.fullmatch(r"[\w.]+", self.name) else "'" + self.name.replace("'", "''") + "'"

    def area_at(self, row: int, column: int) -> Area | None:
        """The merged cells that a cell is one of, or None."""
        return next((area for area in self.merged if area.holds(row, column)), None)

    def put(self, row: int, column: int, cell: Cell) -> None:
        """Puts a cell that is not empty at a place."""
        self.cells[row, column] = cell
        self.in_order = []
        if len(self.cells) > MOST_CELLS:
            what = f"the sheet {self.name} has more than {MOST_CELLS:,} cells that are not empty"
            raise SpreadsheetFault(f"{what}; take out what belongs to no table")


def letters_of(column: int) -> str:
    """The letters of a column: A is the first, AA the twenty-seventh."""
    found = ""
    while column:
        column, at = divmod(column - 1, 26)
        found = chr(ord("A") + at) + found
    return found


def digits_of(number: float) -> str:
    """A number in as many digits as a spreadsheet shows, with a point and without an exponent."""
    exact = decimal.Decimal(f"{number:.{DIGITS}g}")
    text = format(exact, "f")
    text = text.rstrip("0").rstrip(".") if "." in text else text
    return "0" if text == "-0" else text


def read(path: pathlib.Path) -> list[Grid]:
    """The sheets of a file in their order."""
    ending = path.suffix.lower()
    if not path.is_file():
        raise SpreadsheetFault(f"{path} is no file")
    if ending == ".csv":
        return read_with(read_csv, path)
    if ending not in LIBRARIES:
        raise SpreadsheetFault(f"{path} is neither .xlsx nor .ods nor .csv; save it as one of these")
    with path.open("rb") as file:
        first = file.read(len(OLD_OR_LOCKED))
    if first == OLD_OR_LOCKED:
        what = f"{path} is protected by a password, or is of an old spreadsheet"
        raise SpreadsheetFault(f"{what}; save it as {ending} without a password")
    if not zipfile.is_zipfile(path):
        raise SpreadsheetFault(f"{path} is no file of a spreadsheet, or it is damaged; save it once more")
    library(ending, f"to read {path}")
    return read_with(read_ods if ending == ".ods" else read_xlsx, path)


def library(ending: str, what_for: str) -> typing.Any:
    """The library for files with an ending. What is to be done is said where it is not installed."""
    module = LIBRARIES[ending]
    try:
        return importlib.import_module(module)
    except ImportError as error:
        need = f"{what_for} the Python library {module.split('.', maxsplit=1)[0]} is needed"
        raise SpreadsheetFault(f"{need}; {libraries.install(module)}") from error


def read_with(reader: typing.Callable[[pathlib.Path], list[Grid]], path: pathlib.Path) -> list[Grid]:
    """What a reader makes of a file. A library may raise anything over a damaged one."""
    try:
        with warnings.catch_warnings():
            warnings.simplefilter("ignore")
            return reader(path)
    except (SpreadsheetFault, OSError, MemoryError):
        raise
    except Exception as error:
        what = f"{path} cannot be read as a spreadsheet: {type(error).__name__} {error}"
        raise SpreadsheetFault(f"{what}; open it in a spreadsheet, and save it once more") from error


def read_csv(path: pathlib.Path) -> list[Grid]:
    """The one sheet of a CSV file."""
    return [grid_of_csv(path.name, path.read_bytes())]


def grid_of_csv(name: str, data: bytes) -> Grid:
    """The bytes of a CSV file as a sheet with the file's name."""
    text = decoded(data)
    between = separator_of(text)
    grid = Grid(name)
    for row, fields in enumerate(csv.reader(io.StringIO(text, newline=""), delimiter=between), 1):
        for column, field in enumerate(fields, 1):
            if field.strip():
                grid.put(row, column, Cell(field, ERROR if ERRORS.fullmatch(field.strip()) else TEXT))
    return grid


def decoded(data: bytes) -> str:
    """The text of a file: UTF-8, else UTF-16 with a mark, else the letters of Western Europe."""
    data = data.replace(b"\0", b"") if not data.startswith((b"\xff\xfe", b"\xfe\xff")) else data
    try:
        return data.decode("utf-16" if data.startswith((b"\xff\xfe", b"\xfe\xff")) else "utf-8-sig")
    except UnicodeDecodeError:
        return data.decode("cp1252", "replace")


def separator_of(text: str) -> str:
    """What stands between the fields: the sign that the first lines have most, outside quotes."""
    bare = re.sub(r'"[^"]*"', "", "\n".join(text.splitlines()[:30]))
    return max(SEPARATORS, key=bare.count)


def read_xlsx(path: pathlib.Path) -> list[Grid]:
    """The sheets of an .xlsx file. Its formulas are read beside their values."""
    openpyxl = importlib.import_module("openpyxl")
    valued = openpyxl.load_workbook(path, data_only=True)
    written = openpyxl.load_workbook(path) if has_formulas(path) else valued
    try:
        return [grid_of_xlsx(sheet, written[sheet.title]) for sheet in valued.worksheets]
    finally:
        valued.close()
        written.close()


def has_formulas(path: pathlib.Path) -> bool:
    """Tells whether a part of an .xlsx file has a formula, or something that begins as one."""
    with zipfile.ZipFile(path) as parts:
        return any(re.search(rb"<(\w+:)?f\b", parts.read(name)) for name in parts.namelist()
                   if name.endswith(".xml"))


def grid_of_xlsx(sheet: typing.Any, written: typing.Any) -> Grid:
    """A sheet out of its values and of what was written in it."""
    grid = Grid(sheet.title, is_hidden=sheet.sheet_state != "visible")
    grid.merged = [Area(area.min_row, area.min_col, area.max_row, area.max_col)
                   for area in sheet.merged_cells.ranges]
    grid.hidden_rows = {row for row, shown in sheet.row_dimensions.items() if shown.hidden}
    for shown in sheet.column_dimensions.values():
        if shown.hidden:
            grid.hidden_columns |= set(range(shown.min, shown.max + 1))
    # Only the cells that the file has: the range up to the last one may have billions.
    for (row, column), cell in sorted(written._cells.items()):
        found = cell_of_xlsx(cell, sheet.cell(row, column))
        if found:
            grid.put(row, column, found)
    return grid


def cell_of_xlsx(written: typing.Any, valued: typing.Any) -> Cell | None:
    """A cell out of what was written in it and of its value, or None where it is empty."""
    is_formula = written.data_type == "f"
    value = valued.value
    if value is None or isinstance(value, str) and not value.strip():
        return Cell("", UNSAVED, True) if is_formula and value is None else None
    if isinstance(value, bool):
        return Cell(str(value).upper(), TRUTH, is_formula)
    if isinstance(value, (int, float)):
        return Cell(digits_of(value), NUMBER, is_formula, "%" in (valued.number_format or ""))
    if isinstance(value, (datetime.datetime, datetime.date)):
        return Cell(value.isoformat()[:10], DATE, is_formula)
    if isinstance(value, (datetime.time, datetime.timedelta)):
        return Cell(str(value), DATE, is_formula)
    is_error = valued.data_type == "e" or ERRORS.fullmatch(str(value).strip())
    return Cell(str(value), ERROR if is_error else TEXT, is_formula)


def read_ods(path: pathlib.Path) -> list[Grid]:
    """The sheets of an .ods file."""
    document = importlib.import_module("odf.opendocument").load(str(path))
    hidden = hidden_styles(document)
    return [grid_of_ods(table, hidden) for table in elements(document.spreadsheet, "table", nested=False)]


def hidden_styles(document: typing.Any) -> set[str]:
    """The names of the styles under which a sheet is not shown."""
    found = set()
    for style in document.automaticstyles.childNodes:
        for part in style.childNodes:
            if part.nodeType == part.ELEMENT_NODE and attribute(part, TABLE, "display") == "false":
                found.add(named_attribute(style, "name"))
    return found


def elements(parent: typing.Any, name: str, nested: bool = True) -> Iterator[typing.Any]:
    """The elements of a table of one name under another, in their order; those of groups and of headers
    too.
    """
    for child in parent.childNodes:
        if child.nodeType != child.ELEMENT_NODE:
            continue
        if child.qname == (TABLE, name):
            yield child
        elif nested and child.qname[0] == TABLE and child.qname[1].startswith("table-"):
            yield from elements(child, name)


def attribute(element: typing.Any, space: str, name: str) -> str | None:
    """An attribute as a text, or None."""
    found = element.attributes.get((space, name))
    return None if found is None else str(found)


def named_attribute(element: typing.Any, name: str) -> str:
    """An attribute by its name alone, of whichever space; or nothing."""
    found = (str(value) for (_, known), value in element.attributes.items() if known == name)
    return next(found, "")


def count_of(element: typing.Any, name: str) -> int:
    """How often an element stands there, or how far it goes."""
    return int(attribute(element, TABLE, name) or 1)


def is_shown(element: typing.Any) -> bool:
    """Tells whether a row or a column is shown."""
    return (attribute(element, TABLE, "visibility") or "visible") == "visible"


def grid_of_ods(table: typing.Any, hidden: set[str]) -> Grid:
    """A sheet of an .ods file."""
    grid = Grid(attribute(table, TABLE, "name") or "Sheet")
    grid.is_hidden = attribute(table, TABLE, "style-name") in hidden
    column = 1
    for shown in elements(table, "table-column"):
        times = count_of(shown, "number-columns-repeated")
        if not is_shown(shown):
            grid.hidden_columns |= set(range(column, column + times))
        column += times
    row = 1
    for line in elements(table, "table-row"):
        times = count_of(line, "number-rows-repeated")
        if not is_shown(line):
            grid.hidden_rows |= set(range(row, row + times))
        put_row(grid, line, row, times)
        row += times
    return grid


def put_row(grid: Grid, line: typing.Any, row: int, times: int) -> None:
    """Puts the cells of a row of an .ods file into as many rows of a sheet as it stands for."""
    column = 1
    for cell in line.childNodes:
        if cell.nodeType != cell.ELEMENT_NODE or cell.qname[0] != TABLE:
            continue
        width = count_of(cell, "number-columns-repeated")
        found = cell_of_ods(cell) if cell.qname[1] == "table-cell" else None
        for at in range(row, row + times) if found else ():
            for place in range(column, column + width):
                grid.put(at, place, typing.cast(Cell, found))
        right, bottom = count_of(cell, "number-columns-spanned"), count_of(cell, "number-rows-spanned")
        if right > 1 or bottom > 1:
            grid.merged.append(Area(row, column, row + bottom - 1, column + right - 1))
        column += width


def cell_of_ods(cell: typing.Any) -> Cell | None:
    """A cell of an .ods file, or None where it is empty."""
    kind = attribute(cell, OFFICE, "value-type") or ""
    is_formula = attribute(cell, TABLE, "formula") is not None
    text = "\n".join(str(part) for part in cell.childNodes
                     if part.nodeType == part.ELEMENT_NODE and part.qname == (TEXTS, "p"))
    if ERRORS.fullmatch(text.strip()):
        return Cell(text.strip(), ERROR, is_formula)
    if KINDS_OF_ODS.get(kind) == NUMBER:
        number = digits_of(float(attribute(cell, OFFICE, "value") or 0))
        return Cell(number, NUMBER, is_formula, kind == "percentage")
    if kind == "date":
        return Cell((attribute(cell, OFFICE, "date-value") or text)[:10], DATE, is_formula)
    if kind in KINDS_OF_ODS:
        return Cell(text.upper() if kind == "boolean" else text, KINDS_OF_ODS[kind], is_formula)
    if text.strip():
        return Cell(text, TEXT, is_formula)
    return Cell("", UNSAVED, True) if is_formula and not kind else None
