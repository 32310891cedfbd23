"""Sheets of rows become the same rows, and what a spreadsheet makes of rows is told by its cell."""
from __future__ import annotations

import csv
import datetime
import decimal
import importlib
import importlib.util
import os
import pathlib
import shutil
import subprocess
import tempfile
import typing
import unittest

from tests.limits import limit
from tests.workbook.running import TOP, workbook
from tools.sheets import COLUMNS

HAS_LIBRARY = importlib.util.find_spec("openpyxl") and importlib.util.find_spec("odf")
OFFICE = shutil.which("soffice")
COUNTRY = ["fuel-combustion", "small-country", "waste", "uncertainties"]
FILES = sorted((path for folder in COUNTRY for path in (TOP / "examples" / folder).glob("*.csv")),
               key=lambda path: (int(path.name.partition("-")[0]), COUNTRY.index(path.parent.name)))
ROW = ["enter", "activity", None, "GAS.TJ", 2020, 5.5, None, None, "TJ", None]
Cells = list[typing.Any]
Rows = list[Cells]


def changed(**fields: typing.Any) -> Cells:
    """The row with other fields."""
    return [fields.get(column, field) for column, field in zip(COLUMNS, ROW)]


# What stands below the header of the sheet Data, and what is told of it.
TOLD: dict[str, tuple[Rows, str]] = {
    "a date": ([changed(year=datetime.date(2020, 12, 31))], 'Data!E2 "2020-12-31": a date, which'),
    "a date as a value": ([changed(value=datetime.date(2020, 5, 1))], 'Data!F2 "2020-05-01": a date'),
    "an error": ([changed(value="#DIV/0!")], 'Data!F2 "#DIV/0!": an error of the spreadsheet'),
    "a formula never worked out": ([changed(value="=1+1")], 'Data!F2 "": a formula whose value'),
    "a truth value": ([changed(value=True)], 'Data!F2 "TRUE": a truth value'),
    "an error in a note": ([changed(note="#REF!")], 'Data!J2 "#REF!": an error of the spreadsheet'),
    "a second header in other words": (
        [["Aktion", "Art", "Thema", "Name", "Jahr", "Wert", "von", "bis", "Einheit", "Notiz"], ROW],
        'Data!A2 "Aktion": a second header in other words'),
    "two headers": ([ROW, COLUMNS, ROW], 'Data!A3 "act": a second header'),
}


def cell_of(text: str) -> typing.Any:
    """A field as people type it into a cell: numbers as numbers."""
    try:
        return decimal.Decimal(text)
    except decimal.InvalidOperation:
        return text or None


def plain(row: list[str]) -> Cells:
    """A row of a CSV file with its numbers as numbers."""
    return [cell_of(field) for field in row]


def read_csv(path: pathlib.Path) -> Rows:
    """The rows of a CSV file."""
    return [plain(row) for row in csv.reader(path.read_text(encoding="utf-8").splitlines())]


@unittest.skipUnless(HAS_LIBRARY, "python3-openpyxl and python3-odf are not installed")
class FromSheets(unittest.TestCase):
    def setUp(self) -> None:
        room = tempfile.TemporaryDirectory()
        self.addCleanup(room.cleanup)
        self.room = pathlib.Path(room.name)
        self.folder = self.room / "made"

    def book(self, sheets: dict[str, Rows]) -> typing.Any:
        """A book with these sheets."""
        book = importlib.import_module("openpyxl").Workbook()
        book.remove(book.active)
        for name, rows in sheets.items():
            sheet = book.create_sheet(name)
            for row in rows:
                sheet.append(row)
        return book

    def saved(self, book: typing.Any) -> pathlib.Path:
        """The file of a book."""
        path = self.room / "book.xlsx"
        book.save(path)
        return path

    def read(self, path: pathlib.Path) -> subprocess.CompletedProcess[str]:
        """What `from-sheets` says of a file."""
        made: subprocess.CompletedProcess[str] = workbook("from-sheets", path, "-o", self.folder)
        return made

    def country(self) -> pathlib.Path:
        """A file with a sheet for each file of the example country."""
        return self.saved(self.book({path.stem: read_csv(path) for path in FILES}))

    def same_rows(self, path: pathlib.Path) -> None:
        """Tells that a file holds the rows of the example country."""
        made = self.read(path)
        self.assertEqual((made.returncode, made.stderr), (0, ""))
        written = sorted(self.folder.iterdir(), key=lambda path: int(path.name.partition("-")[0]))
        self.assertEqual(len(written), len(FILES))
        for due, found in zip(FILES, written):
            self.assertEqual(read_csv(found), read_csv(due), due.name)

    def test_round_trip(self) -> None:
        self.same_rows(self.country())
        self.assertIn(": 0 faults", workbook("check", self.folder).stdout)

    @unittest.skipUnless(OFFICE, "libreoffice-calc is not installed")
    def test_round_trip_through_an_office(self) -> None:
        self.same_rows(in_office(self.country(), "ods"))

    def test_what_a_spreadsheet_makes_is_told(self) -> None:
        for what, (rows, said) in TOLD.items():
            with self.subTest(what):
                made = self.read(self.saved(self.book({"Data": [COLUMNS, *rows]})))
                self.assertEqual(made.returncode, 1)
                self.assertIn(said, made.stdout)
                self.assertIn("1 sheet: 1 fault; nothing is written", made.stdout)
                self.assertFalse(self.folder.exists())

    def test_merged_cells(self) -> None:
        book = self.book({"Data": [COLUMNS, ROW, ROW]})
        book["Data"].merge_cells("D2:D3")
        made = self.read(self.saved(book))
        self.assertIn('Data!D2 "GAS.TJ": merged up to D3', made.stdout)

    def test_percentages(self) -> None:
        rows = [changed(value=0.05, unit="pct"), changed(value=0.05, unit="1"), changed(value=0.05)]
        book = self.book({"Data": [COLUMNS, *rows]})
        for cell in book["Data"]["F"][1:]:
            cell.number_format = "0%"
        made = self.read(self.saved(book))
        due = "shown as a percentage, so that the cell has 0.05, and the row needs percent; write 5"
        self.assertIn(f'Data!F2 "0.05": {due}', made.stdout)
        self.assertIn('Data!F4 "0.05": shown as a percentage, and its unit is no ratio; write', made.stdout)
        self.assertIn("2 faults;", made.stdout)

    def test_a_formula_without_a_value_is_told_once(self) -> None:
        made = self.read(self.saved(self.book({"Data": [COLUMNS, changed(value="=1+1")]})))
        self.assertEqual(made.stderr, "")

    def test_the_lists_of_the_template_are_no_sheets_that_are_left_out(self) -> None:
        path = self.room / "template.xlsx"
        workbook("words", "--template", path)
        made = self.read(path)
        self.assertEqual((made.returncode, made.stderr), (0, ""))
        self.assertEqual(len(list(self.folder.iterdir())), 5)

    def test_what_is_left_out_or_hidden(self) -> None:
        titled: Rows = [["Inventory"], [*COLUMNS, "asked"], [*ROW, "by mail"], changed(year=2021)]
        book = self.book({"Data": titled, "Notes": [["to do"]], "Old": [COLUMNS, ROW]})
        book["Old"].sheet_state = "hidden"
        book["Data"].row_dimensions[4].hidden = True
        book["Data"].column_dimensions["I"].hidden = True
        made = self.read(self.saved(book))
        self.assertEqual(made.returncode, 0)
        self.assertEqual(made.stderr.splitlines(), [
            "Notes: no header with act and kind; this sheet is left out",
            "Old: this sheet is hidden, and is not read; show it if it is meant",
            "Data!A1: above the header; left out",
            f'Data!K2 "asked": none of the headings {", ".join(COLUMNS)}; left out',
            "Data!4:4: hidden, and read; delete it if it is not meant",
            "Data!I:I: hidden, and read; delete it if it is not meant",
        ])
        self.assertEqual(read_csv(self.folder / "1-data.csv"), [plain(COLUMNS), ROW, changed(year=2021)])

    @unittest.skipUnless(OFFICE, "libreoffice-calc is not installed")
    def test_formulas_are_their_values(self) -> None:
        book = self.book({"Data": [COLUMNS, changed(value="=2+3"), changed(year=2021, value="=1/3")]})
        made = self.read(in_office(self.saved(book), "ods"))
        self.assertEqual(made.stderr.splitlines(), [
            "Data!F2: 2 formulas from here on; the values that the file has are taken",
            "Data!F3: 1 number from here on; more than 12 decimals; rounded to 12",
        ])
        values = [row[5] for row in read_csv(self.folder / "1-data.csv")[1:]]
        self.assertEqual(values, [5, decimal.Decimal("0.333333333333")])

    def test_a_sheet_of_four_mebibytes(self) -> None:
        rows = [changed(year=year, note="n" * 30000) for year in range(1900, 2041)]
        made = self.read(self.saved(self.book({"Data": [COLUMNS, *rows]})))
        due = f"bytes of rows, and at most {limit('body'):,} are taken; divide its rows among 2 sheets"
        self.assertIn(due, made.stdout)

    def test_other_files_are_left_alone(self) -> None:
        self.folder.mkdir()
        (self.folder / "mine.csv").write_text("mine", encoding="utf-8")
        made = self.read(self.saved(self.book({"Data": [COLUMNS, ROW]})))
        self.assertEqual((made.returncode, made.stdout), (2, ""))
        self.assertIn("has another file, mine.csv", made.stderr)
        self.assertEqual([path.name for path in self.folder.iterdir()], ["mine.csv"])

    def test_rows_that_were_changed_by_hand_are_left_alone(self) -> None:
        path = self.saved(self.book({"Data": [COLUMNS, ROW], "More": [COLUMNS, changed(year=2021)]}))
        self.read(path)
        self.assertEqual(self.read(path).returncode, 0)
        file = self.folder / "2-more.csv"
        written, by_hand = file.read_text(encoding="utf-8"), "changed by hand"
        file.write_text(by_hand, encoding="utf-8")
        made = self.read(path)
        self.assertEqual((made.returncode, made.stdout), (2, ""))
        self.assertIn(f"{self.folder} has other rows in 2-more.csv; --replace", made.stderr)
        self.assertEqual(file.read_text(encoding="utf-8"), by_hand)
        made = workbook("from-sheets", path, "-o", self.folder, "--replace")
        self.assertEqual(made.stdout.splitlines(), [
            f"{self.folder / '1-data.csv'}: 1 row", f"{self.folder / '2-more.csv'}: 1 row, in place of other rows"])
        self.assertEqual(file.read_text(encoding="utf-8"), written)

    def test_a_file_without_rows(self) -> None:
        made = self.read(self.saved(self.book({"Data": [["year", "TJ"]]})))
        self.assertEqual(made.returncode, 2)
        self.assertIn("has no sheet with a header of rows: act,kind,", made.stderr)
        self.assertIn("of a table with a column for each year ./workbook import makes rows", made.stderr)


def in_office(path: pathlib.Path, ending: str) -> pathlib.Path:
    """A file as LibreOffice saves it after it has opened it."""
    environment = {**os.environ, "HOME": str(path.parent)}
    folder = path.parent / "office"
    command = [str(OFFICE), "--headless", "--convert-to", ending, "--outdir", str(folder), str(path)]
    subprocess.run(command, env=environment, check=True, capture_output=True)
    return folder / f"{path.stem}.{ending}"


if __name__ == "__main__":
    unittest.main()
