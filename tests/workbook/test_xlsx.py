"""The files of spreadsheets that the tools write: tables of all years, and templates of rows."""
from __future__ import annotations

import importlib
import os
import pathlib
import subprocess
import tempfile
import typing
import unittest

from tests.workbook.running import PROGRAM, TOP, workbook
from tests.workbook.test_from_sheets import COUNTRY, HAS_LIBRARY, OFFICE, in_office
from tools import vocabulary

FOLDERS = [TOP / "examples" / folder for folder in COUNTRY]
YEARS = range(1990, 2021)
NAMES = ("category name", "equation name")


def load(path: pathlib.Path) -> typing.Any:
    """A file as its library reads it."""
    return importlib.import_module("openpyxl").load_workbook(path)


def as_printed(cell: typing.Any) -> str:
    """What a cell shows."""
    if not isinstance(cell.value, (int, float)):
        return cell.value or ""
    decimals = len(cell.number_format.partition(".")[2])
    return f"{cell.value:.{decimals}f}"


def choices_of(sheet: typing.Any) -> int:
    """How many columns of a sheet have a list to choose from."""
    return len(sheet.data_validations.dataValidation)


@unittest.skipUnless(HAS_LIBRARY, "python3-openpyxl is not installed")
class Files(unittest.TestCase):
    def setUp(self) -> None:
        room = tempfile.TemporaryDirectory()
        self.addCleanup(room.cleanup)
        self.room = pathlib.Path(room.name)

    def tables(self) -> pathlib.Path:
        """The tables of the example country as a file."""
        path = self.room / "tables.xlsx"
        made = workbook("tables", *FOLDERS, "1990-2020", "-o", path)
        self.assertEqual((made.returncode, made.stdout), (0, ""))
        return path

    def test_tables_are_those_that_are_printed(self) -> None:
        book = load(self.tables())
        self.assertEqual(book.sheetnames, vocabulary.tables())
        for sheet in book:
            found: dict[str, list[str]] = {}
            headings = [cell.value for cell in sheet[1]]
            kept = [at for at, heading in enumerate(headings) if heading not in NAMES]
            for row in sheet.iter_rows(min_row=2):
                fields = [as_printed(row[at]) for at in kept]
                year = "2020" if sheet.title == "series" else fields.pop(0)
                found.setdefault(year, []).append(",".join(fields))
            due = {"2020"} if sheet.title == "series" else {str(year) for year in YEARS}
            self.assertEqual(set(found), due, sheet.title)
            for year in ("1990", "2020"):
                printed = workbook("tables", *FOLDERS, year, "--table", sheet.title).stdout.splitlines()
                if year in found:
                    self.assertEqual(found[year], printed[1:], (sheet.title, year))

    def test_names_stand_beside_codes(self) -> None:
        sheet = load(self.tables())["cells"]
        rows = [[cell.value for cell in row] for row in sheet.iter_rows()]
        due = ["year", "code", "category", "category name", "equation", "equation name"]
        self.assertEqual(rows[0][:6], due)
        row_due = [1990, "AMMONIA.CO2", "2B1", "Ammonia production", "Q37", "Ammonia, to CO2"]
        self.assertIn(row_due, [row[:6] for row in rows])

    def test_headings_have_units_and_a_filter(self) -> None:
        book = load(self.tables())
        headings = {sheet.title: [cell.value for cell in sheet[1]] for sheet in book}
        self.assertEqual(headings["summary"][3:], [
            "value (Gg CO2 eq)", "low (Gg CO2 eq)", "high (Gg CO2 eq)"])
        self.assertEqual(headings["reference"], ["year", "item", "value (Gg CO2, or percent)"])
        self.assertEqual(headings["trend"][4:], [
            "base (Gg CO2 eq)", "value (Gg CO2 eq)", "trend (percent)", "share (percent)",
            "cumulative (percent)", "key"])
        self.assertEqual(headings["uncertainty"][5:7], ["value (Gg CO2 eq)", "activity (percent)"])
        for sheet in book:
            self.assertEqual(sheet.auto_filter.ref, sheet.dimensions, sheet.title)

    def test_a_folder_that_is_missing_is_told_first(self) -> None:
        made = workbook("tables", TOP / "examples/how-to", "2020", "-o", self.room / "none/tables.xlsx")
        self.assertEqual(made.stderr, f"./workbook: there is no folder {self.room}/none\n")
        self.assertEqual((made.returncode, list(self.room.iterdir())), (2, []))

    def test_template(self) -> None:
        path = self.room / "template.xlsx"
        self.assertEqual(workbook("words", "--template", path).returncode, 0)
        book = load(path)
        lists = {(sheet.title, str(choice.sqref)): choice.formula1 for sheet in book
                 for choice in sheet.data_validations.dataValidation}
        self.assertEqual(lists["years", "A2:A5000"], '"enter,correct,withdraw"')
        self.assertEqual(lists["lines", "B2:B5000"], '"line,bind"')
        words = {"factors": ("I", list(vocabulary.units())), "activities": ("I", list(vocabulary.units())),
                 "lines": ("C", vocabulary.leaves())}
        for title, (column, due) in words.items():
            listed, _, cells = lists[title, f"{column}2:{column}5000"].partition("!")
            self.assertEqual([row[0].value for row in book[listed][cells.replace("$", "")]], due)
        headings = {sheet.title: [cell.comment and cell.comment.text for cell in sheet[1]] for sheet in book}
        self.assertEqual(headings["uncertainties"][3:7], [
            "a line", None, "percent of its activity data", "percent of its emission factor"])
        self.assertEqual(headings["years"][4:7], ["the first year", "the last year", "the base year"])
        equations = [row[0].value for row in book["equations"]["A2:A100"]]
        self.assertLessEqual(set(vocabulary.equations()) | set(vocabulary.words()["forms"]), set(equations))

    def test_a_file_that_is_there_is_left_alone(self) -> None:
        path = self.room / "inventory.xlsx"
        path.write_text("filled in", encoding="utf-8")
        commands: list[list[str | pathlib.Path]] = [["words", "--template"], ["tables", *FOLDERS, "2020", "-o"]]
        for words in commands:
            made = workbook(*words, path)
            self.assertEqual((made.returncode, made.stdout), (2, ""))
            self.assertIn(f"{path} is ", made.stderr)
            self.assertEqual(path.read_text(encoding="utf-8"), "filled in")

    def test_tables_take_the_place_of_tables_alone(self) -> None:
        path = self.room / "tables.xlsx"
        words = ("tables", TOP / "examples/how-to", "2020", "-o", path)
        self.assertEqual([workbook(*words).returncode for _ in range(2)], [0, 0])
        path.unlink()
        workbook("words", "--template", path)
        made = workbook(*words)
        self.assertEqual(made.returncode, 2)
        self.assertIn("has the sheet years, and is no file of tables; name another file", made.stderr)

    @unittest.skipUnless(OFFICE, "libreoffice-calc is not installed")
    def test_an_office_opens_them(self) -> None:
        template = self.room / "template.xlsx"
        workbook("words", "--template", template)
        for path in (self.tables(), template):
            again = load(in_office(in_office(path, "ods"), "xlsx"))
            for sheet in load(path):
                opened = again[sheet.title]
                self.assertEqual(list(opened.values), list(sheet.values), (path.name, sheet.title))
                self.assertEqual(choices_of(opened), choices_of(sheet), sheet.title)

    def test_nothing_is_half_written(self) -> None:
        refused = workbook("tables", TOP / "examples/power-plants", "2020", "-o", self.room / "tables.xlsx")
        self.assertEqual(refused.returncode, 1)
        nowhere = workbook("tables", *FOLDERS, "2020", "-o", self.room / "none/tables.xlsx")
        self.assertEqual(nowhere.returncode, 2)
        self.assertEqual(list(self.room.iterdir()), [])


class WithoutLibrary(unittest.TestCase):
    def test_how_to_install_it_is_said(self) -> None:
        with tempfile.TemporaryDirectory() as room:
            for module in ("openpyxl", "odf"):
                (pathlib.Path(room) / f"{module}.py").write_text("raise ImportError", encoding="utf-8")
            environment = {**os.environ, "GHG_PROGRAM": PROGRAM, "PYTHONPATH": room}
            for words in (["words", "--template"], ["tables", *map(str, FOLDERS), "2020", "-o"]):
                made = subprocess.run([TOP / "workbook", *words, f"{room}/made.xlsx"], env=environment,
                                      capture_output=True, text=True)
                self.assertEqual(made.returncode, 2)
                self.assertIn("install it: apt install python3-openpyxl", made.stderr)


if __name__ == "__main__":
    unittest.main()
