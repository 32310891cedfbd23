"""Reads the sheets of a spreadsheet that hold rows, and writes each as a CSV file of a folder.

A sheet of rows has a header with `act` or `act2` and `kind` among its headings. What a cell holds is written as it
stands, since the program judges it. What a spreadsheet makes of rows is told with its place.
"""
from __future__ import annotations

import argparse
import decimal
import pathlib
import re
import sys

from tools import half_lives, spreadsheet, template, vocabulary
from tools.faults import counted, shown
from tools.sheets import COLUMNS, FIRST_NAMES, FolderFault, joined, version_of
from tools.spreadsheet import DATE, ERROR, NUMBER, TRUTH, UNSAVED, Cell, Grid, letters_of
from tools.whole_files import differs, write_whole

NO_TEXTS = {
    DATE: "a date, which the spreadsheet made of what was typed; write a year as 2020, and a number as one",
    TRUTH: "a truth value; write a text or a number",
    ERROR: "an error of the spreadsheet; write the figure, a notation key or the text that is meant",
    UNSAVED: "a formula whose value the file does not have; open the file in a spreadsheet, and save it",
}
PERCENTAGE = "shown as a percentage, so that the cell has {}, and the row needs percent; write {}"
NO_PERCENTAGE = "shown as a percentage, and its unit is no ratio; write the figure as a number"
FIGURES = ("value", "low", "high")
# So many headings of a row make it a header.
HEADINGS = 4
SECOND_HEADER = "a second header; take this row out"
OTHER_HEADINGS = "a second header in other words: it has no act, no kind and no year; take this row out"


class Rows:
    """The rows of one sheet: what is written of it, its faults, and what is told besides."""

    def __init__(self, grid: Grid, header: int) -> None:
        self.grid, self.header = grid, header
        self.fields: list[list[str]] = []
        self.version = 1
        self.faults: list[str] = []
        self.notes: list[str] = []
        self.formulas: list[str] = []
        self.rounded: list[str] = []
        self.column_of: dict[str, int] = {}

    @property
    def body(self) -> bytes:
        """The rows as a file, under the header of the sheet's own format, or of the one that they need."""
        header = half_lives.header_for(self.fields, self.version)
        return b"".join(joined(row) + b"\n" for row in [header, *self.fields])

    def read(self) -> None:
        """Reads the header and the rows."""
        self.read_headings()
        self.look_at_areas()
        for row, cells in self.grid.rows():
            if row > self.header and not self.is_header(row, cells):
                self.read_row(row, cells)
        self.tell_gathered("formula", self.formulas, "the values that the file has are taken")
        decimals = vocabulary.limit("decimals")
        self.tell_gathered("number", self.rounded, f"more than {decimals} decimals; rounded to {decimals}")
        length, most = len(self.body), int(vocabulary.limit("body").replace(",", ""))
        if length > most:
            what = f"{length:,} bytes of rows, and at most {vocabulary.limit('body')} are taken"
            self.fault(self.header, 1, f"{what}; divide its rows among {-(-length // most)} sheets")

    def fault(self, row: int, column: int, cause: str) -> None:
        """Tells what cannot be read, with the text that stands there."""
        text = self.grid.cell(row, column).text
        self.faults.append(f"{self.grid.place(row, column)} {shown(text)}: {cause}")

    def read_headings(self) -> None:
        """Finds the columns by their headings, and tells what stands above and beside them."""
        for row, cells in self.grid.rows():
            if row < self.header:
                self.notes.append(f"{self.grid.place(row, min(cells))}: above the header; left out")
        cells = dict(self.grid.rows())[self.header]
        self.version = version_of(cell.text for cell in cells.values())
        for column, cell in sorted(cells.items()):
            heading = plain(cell)
            if heading in self.column_of:
                self.fault(self.header, column, "a second column with this heading; take one of them out")
            elif heading in COLUMNS:
                self.column_of[heading] = column
            else:
                due = f"none of the headings {', '.join(COLUMNS)}"
                place = self.grid.place(self.header, column)
                self.notes.append(f"{place} {shown(cell.text)}: {due}; left out")

    def look_at_areas(self) -> None:
        """Tells merged cells, and hidden rows and columns that have cells."""
        for area in self.grid.merged:
            if area.bottom > self.header:
                last = f"{letters_of(area.right)}{area.bottom}"
                self.fault(area.top, area.left, f"merged up to {last}; part the cells, and fill in each")
        hidden = sorted({row for row, _ in self.grid.cells} & self.grid.hidden_rows)
        hidden_columns = sorted(set(self.column_of.values()) & self.grid.hidden_columns)
        for what in [*map(str, hidden), *map(letters_of, hidden_columns)]:
            place = f"{self.grid.shown_name}!{what}:{what}"
            self.notes.append(f"{place}: hidden, and read; delete it if it is not meant")

    def is_header(self, row: int, cells: dict[int, Cell]) -> bool:
        """Tells whether a row is a header once more, which is a fault."""
        is_same = sum(plain(cell) in COLUMNS for cell in cells.values()) >= HEADINGS
        if not is_same and not self.has_other_headings(cells):
            return False
        self.fault(row, min(cells), SECOND_HEADER if is_same else OTHER_HEADINGS)
        return True

    def has_other_headings(self, cells: dict[int, Cell]) -> bool:
        """Tells whether a row has headings in other words: no act, no kind, and words in place of a year."""
        words = vocabulary.words()
        act, kind, year = (plain(cells.get(self.column_of.get(name, 0), spreadsheet.EMPTY))
                           for name in ("act", "kind", "year"))
        return bool(year) and not re.search(r"\d", year) and act not in words["acts"] and kind not in words["kinds"]

    def read_row(self, row: int, cells: dict[int, Cell]) -> None:
        """Reads a row, if it has a cell in a column of the header."""
        fields = [self.text(row, name, cells) for name in COLUMNS]
        if any(fields):
            self.fields.append(fields)

    def text(self, row: int, name: str, cells: dict[int, Cell]) -> str:
        """What stands in a column of a row, as it is written."""
        column = self.column_of.get(name, 0)
        cell = cells.get(column, spreadsheet.EMPTY)
        if cell.kind in NO_TEXTS and (name != "note" or cell.kind in (ERROR, UNSAVED)):
            self.fault(row, column, NO_TEXTS[cell.kind])
        if cell.is_percentage and name in FIGURES:
            self.look_at_percentage(row, column, cells)
        if cell.is_formula and cell.kind != UNSAVED:
            self.formulas.append(self.grid.place(row, column))
        return self.in_decimals(row, column, cell) if cell.kind == NUMBER else cell.text

    def look_at_percentage(self, row: int, column: int, cells: dict[int, Cell]) -> None:
        """Tells a figure that is shown as a percentage, but that of a ratio, which is the ratio."""
        unit, kind = (cells.get(self.column_of.get(name, 0), spreadsheet.EMPTY) for name in ("unit", "kind"))
        if unit.text == "pct" or kind.text == "uncert":
            text = cells[column].text
            percent = f"{decimal.Decimal(text) * 100:f}"
            self.fault(row, column, PERCENTAGE.format(text, percent.rstrip("0").rstrip(".")))
        elif vocabulary.measured_by(unit.text) != "ratio":
            self.fault(row, column, NO_PERCENTAGE)

    def in_decimals(self, row: int, column: int, cell: Cell) -> str:
        """A number in as many decimals as the program takes."""
        most = int(vocabulary.limit("decimals"))
        if len(cell.text.partition(".")[2]) <= most:
            return cell.text
        self.rounded.append(self.grid.place(row, column))
        number = f"{round(decimal.Decimal(cell.text), most):f}".rstrip("0").rstrip(".")
        return "0" if number == "-0" else number

    def tell_gathered(self, what: str, places: list[str], so: str) -> None:
        """Tells cells of one kind by the first of them."""
        if places:
            self.notes.append(f"{places[0]}: {counted(len(places), what)} from here on; {so}")


def plain(cell: Cell) -> str:
    """A heading without case and blanks at its ends; the first of any format as the name of its column."""
    heading = cell.text.strip().casefold()
    return COLUMNS[0] if heading in FIRST_NAMES.values() else heading


def header_of(grid: Grid) -> int | None:
    """The row of a sheet that is the header of rows, or None."""
    rows = ((row, set(map(plain, cells.values()))) for row, cells in grid.rows())
    return next((row for row, headings in rows if {"act", "kind"} <= headings), None)


def read_all(grids: list[Grid]) -> tuple[list[Rows], list[str]]:
    """The sheets that hold rows, and what is told of the others."""
    found, notes = [], []
    for grid in grids:
        header = header_of(grid)
        if grid.is_hidden and grid.cells:
            notes.append(f"{grid.shown_name}: this sheet is hidden, and is not read; show it if it is meant")
        elif header is not None:
            found.append(Rows(grid, header))
            found[-1].read()
        elif grid.cells and not template.is_list(grid):
            notes.append(f"{grid.shown_name}: no header with act and kind; this sheet is left out")
    return found, notes


def named(sheets: list[Rows]) -> dict[str, Rows]:
    """The sheets by the names of their files, which keep their order."""
    found = {}
    for number, sheet in enumerate(sheets, 1):
        name = re.sub(r"^\d+[-. ]*", "", sheet.grid.name.casefold())
        name = re.sub(r"[^\w]+", "-", name).strip("-") or "rows"
        found[f"{number}-{name}.csv"] = sheet
    return found


def check_folder(folder: pathlib.Path, files: dict[str, Rows], may_replace: bool) -> None:
    """Refuses a folder that has other files than those that are written, or one of them with other rows."""
    if folder.exists() and not folder.is_dir():
        raise FolderFault(f"{folder} is no folder")
    there = sorted(path.name for path in folder.iterdir()) if folder.exists() else []
    other = next((name for name in there if name not in files), None)
    if other is not None:
        raise FolderFault(f"{folder} has another file, {other}; name a folder that is new or empty")
    changed = [name for name, sheet in files.items() if differs(folder / name, sheet.body)]
    if changed and not may_replace:
        raise FolderFault(f"{folder} has other rows in {vocabulary.listed(changed, 'and')}; --replace writes the "
                          "file's rows over them")


def run(arguments: argparse.Namespace) -> int:
    """Writes the sheets of rows as the files of a folder, all or none, and answers the status."""
    path, folder = pathlib.Path(arguments.sheets), pathlib.Path(arguments.output)
    sheets, notes = read_all(spreadsheet.read(path))
    if not sheets:
        raise FolderFault(f"{path} has no sheet with a header of rows: {','.join(COLUMNS)}; of a table with "
                          "a column for each year ./workbook import makes rows")
    for note in [*notes, *(note for sheet in sheets for note in sheet.notes)]:
        print(note, file=sys.stderr)
    faults = [fault for sheet in sheets for fault in sheet.faults]
    if faults:
        print("\n".join(faults))
        print(f"{counted(len(sheets), 'sheet')}: {counted(len(faults), 'fault')}; nothing is written")
        return 1
    files = named(sheets)
    check_folder(folder, files, arguments.replace)
    folder.mkdir(parents=True, exist_ok=True)
    for name, sheet in files.items():
        replaced = ", in place of other rows" if differs(folder / name, sheet.body) else ""
        write_whole(folder / name, sheet.body)
        print(f"{folder / name}: {counted(len(sheet.fields), 'row')}{replaced}")
    return 0
