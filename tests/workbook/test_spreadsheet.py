"""The reading of the files of spreadsheets: what is told of each cell, of .xlsx, .ods and .csv alike."""
from __future__ import annotations

import datetime
import importlib.util
import os
import pathlib
import shutil
import subprocess
import tempfile
import typing
import unittest
from unittest import mock

from tools import libraries, spreadsheet
from tools.spreadsheet import DATE, ERROR, NUMBER, TEXT, TRUTH, UNSAVED, Area, Cell
from tools.whole_files import write_whole

HAS_OPENPYXL = importlib.util.find_spec("openpyxl") is not None
HAS_ODF = importlib.util.find_spec("odf") is not None
OFFICE = shutil.which("soffice")
# What is written into a cell, and what is read out of it.
CELLS: dict[str, tuple[typing.Any, Cell]] = {
    "A1": ("diesel oil", Cell("diesel oil")),
    "B1": (1990, Cell("1990", NUMBER)),
    "C1": (0.1 + 0.2, Cell("0.3", NUMBER)),
    "D1": (0.000000001, Cell("0.000000001", NUMBER)),
    "E1": (-12345678.5, Cell("-12345678.5", NUMBER)),
    "F1": (datetime.date(1992, 1, 1), Cell("1992-01-01", DATE)),
    "A2": ("=B1/0", Cell("#DIV/0!", ERROR, True)),
    "B2": ("=B1*2", Cell("3980", NUMBER, True)),
    "C2": (True, Cell("TRUE", TRUTH)),
    "D2": (" ", Cell("")),
    "F2": ("NE", Cell("NE")),
}


def made(path: pathlib.Path) -> None:
    """Writes a file of a spreadsheet with these cells, and with what is hidden and merged."""
    openpyxl = importlib.import_module("openpyxl")
    book = openpyxl.Workbook()
    sheet = book.active
    sheet.title = "Fuel data"
    for place, (value, _) in CELLS.items():
        sheet[place] = value
    sheet["A4"], sheet["A4"].number_format = 0.05, "0%"
    sheet["A6"] = "merged"
    sheet.merge_cells("A6:C7")
    sheet.column_dimensions["D"].hidden = True
    sheet.row_dimensions[3].hidden = True
    other = book.create_sheet("Far")
    other.sheet_state = "hidden"
    other.cell(1048576, 16384, 1)
    book.save(path)


def in_office(path: pathlib.Path, ending: str) -> pathlib.Path:
    """A file as an office saves it again, with the values of its formulas."""
    room = path.parent / f"as{ending}"
    profile = f"-env:UserInstallation=file://{path.parent}/profile"
    subprocess.run([str(OFFICE), profile, "--headless", "--convert-to", ending.removeprefix("."),
                    "--outdir", str(room), str(path)], check=True, capture_output=True, timeout=120)
    return room / f"{path.stem}{ending}"


class Files(unittest.TestCase):
    """Tests that write files."""

    def setUp(self) -> None:
        room = tempfile.TemporaryDirectory()
        self.addCleanup(room.cleanup)
        self.room = pathlib.Path(room.name)

    def said_of(self, name: str, data: bytes) -> str:
        """Why a file of these bytes cannot be read."""
        (self.room / name).write_bytes(data)
        with self.assertRaises(spreadsheet.SpreadsheetFault) as raised:
            spreadsheet.read(self.room / name)
        return str(raised.exception).replace(str(self.room), "")


@unittest.skipUnless(HAS_OPENPYXL, "python3-openpyxl is not installed")
class Cells(Files):
    maxDiff = None

    def assert_read(self, path: pathlib.Path, unsaved: bool) -> None:
        """Compares what is read with what was written."""
        grid, far = spreadsheet.read(path)
        for place, (value, due) in CELLS.items():
            row, column = int(place[1]), ord(place[0]) - ord("A") + 1
            is_formula = str(value).startswith("=")
            due = Cell("", UNSAVED, True) if is_formula and unsaved else due
            if due.kind != TRUTH:
                self.assertEqual(grid.cell(row, column), due, place)
        self.assertEqual(grid.cell(4, 1), Cell("0.05", NUMBER, is_percentage=True))
        self.assertEqual((grid.merged, grid.hidden_rows, grid.hidden_columns), ([Area(6, 1, 7, 3)], {3}, {4}))
        self.assertEqual(grid.area_at(7, 2), grid.merged[0])
        self.assertIsNone(grid.area_at(8, 2))
        self.assertEqual(grid.place(12, 28), "'Fuel data'!AB12")
        self.assertEqual((grid.is_hidden, far.is_hidden), (False, True))
        self.assertEqual(far.cells, {(1048576, 16384): Cell("1", NUMBER)})
        self.assertEqual(far.place(1048576, 16384), "Far!XFD1048576")
        self.assertEqual([row for row, _ in grid.rows()], [1, 2, 4, 6])

    def test_xlsx_that_no_office_saved(self) -> None:
        made(self.room / "a.xlsx")
        self.assert_read(self.room / "a.xlsx", unsaved=True)
        self.assertEqual(spreadsheet.read(self.room / "a.xlsx")[0].cell(2, 3), Cell("TRUE", TRUTH))

    @unittest.skipUnless(OFFICE and HAS_ODF, "LibreOffice or python3-odf is not installed")
    def test_ods_and_xlsx_that_an_office_saved(self) -> None:
        made(self.room / "a.xlsx")
        ods = in_office(self.room / "a.xlsx", ".ods")
        self.assert_read(ods, unsaved=False)
        self.assert_read(in_office(ods, ".xlsx"), unsaved=False)

    def test_a_library_that_is_missing(self) -> None:
        made(self.room / "a.xlsx")
        with mock.patch("importlib.import_module", side_effect=ImportError):
            with self.assertRaises(spreadsheet.SpreadsheetFault) as raised:
                spreadsheet.read(self.room / "a.xlsx")
        self.assertIn("a.xlsx the Python library openpyxl is needed; install it: apt install python3-openpyxl",
                      str(raised.exception))

    def test_a_python_that_is_not_that_of_debian(self) -> None:
        with mock.patch("sys.prefix", "/home/venv"), mock.patch("sys.executable", "/home/venv/bin/python3"):
            self.assertEqual(libraries.install("odf.opendocument"), (
                "install it: apt install python3-odf for the Python of Debian, and for this one "
                "/home/venv/bin/python3 -m pip install odfpy"))

    def test_a_damaged_file(self) -> None:
        made(self.room / "a.xlsx")
        data = (self.room / "a.xlsx").read_bytes()
        for at in range(0, len(data), 97):
            broken = data[:at] + b"\x7f" + data[at + 1:]
            (self.room / "b.xlsx").write_bytes(broken)
            try:
                spreadsheet.read(self.room / "b.xlsx")
            except spreadsheet.SpreadsheetFault as fault:
                self.assertIn("b.xlsx ", str(fault))


class Faults(Files):
    def test_what_is_no_file_of_a_spreadsheet(self) -> None:
        damaged = " is no file of a spreadsheet, or it is damaged; save it once more"
        for name, data, due in (
                ("a.xlsx", b"", damaged), ("a.ods", b"PK\x03\x04", damaged), ("a.xlsm", b"a,b\n", damaged),
                ("a.xlsx", b"\xd0\xcf\x11\xe0 ", " is protected by a password, or is of an old spreadsheet; "
                 "save it as .xlsx without a password"),
                ("a.xls", b"", " is neither .xlsx nor .ods nor .csv; save it as one of these")):
            self.assertEqual(self.said_of(name, data), f"/{name}{due}")

    def test_no_file(self) -> None:
        with self.assertRaisesRegex(spreadsheet.SpreadsheetFault, "no-such.xlsx is no file"):
            spreadsheet.read(self.room / "no-such.xlsx")
        os.mkfifo(self.room / "a.csv")
        with self.assertRaisesRegex(spreadsheet.SpreadsheetFault, "a.csv is no file"):
            spreadsheet.read(self.room / "a.csv")


class Csv(Files):
    def test_encodings_and_separators(self) -> None:
        for data in ('Name;1990\nM\u00fchle;"1,5"\n'.encode(), '\ufeffName,1990\nM\u00fchle,"1,5"\n'.encode(),
                     'Name\t1990\nM\u00fchle\t1,5\n'.encode("utf-16"), b'Name|1990\nM\xfchle|"1,5"\n'):
            (self.room / "a.csv").write_bytes(data)
            grid, = spreadsheet.read(self.room / "a.csv")
            self.assertEqual([[cell.text for cell in row.values()] for _, row in grid.rows()],
                             [["Name", "1990"], ["M\u00fchle", "1,5"]], data)

    def test_errors_and_empty_cells(self) -> None:
        (self.room / "my file.csv").write_bytes(b"a,, ,#REF!\n\n,Err:502\n")
        grid, = spreadsheet.read(self.room / "my file.csv")
        self.assertEqual(grid.cells, {
            (1, 1): Cell("a"), (1, 4): Cell("#REF!", ERROR), (3, 2): Cell("Err:502", ERROR)})
        self.assertEqual(grid.place(1, 4), "'my file.csv'!D1")
        self.assertEqual(grid.cell(1, 1).kind, TEXT)


class WholeFiles(Files):
    def test_a_file_takes_the_place_of_one_that_is_there(self) -> None:
        path = self.room / "a.csv"
        for data in (b"first", b"second"):
            write_whole(path, data)
            self.assertEqual(path.read_bytes(), data)
        path.chmod(0o600)
        write_whole(path, b"third")
        self.assertEqual(path.stat().st_mode & 0o777, 0o600)

    def test_what_was_there_stays_where_writing_fails(self) -> None:
        path = self.room / "a.csv"
        path.write_bytes(b"first")
        with mock.patch("os.replace", side_effect=OSError):
            self.assertRaises(OSError, write_whole, path, b"second")
        self.assertEqual([(found.name, found.read_bytes()) for found in self.room.iterdir()],
                         [("a.csv", b"first")])


if __name__ == "__main__":
    unittest.main()
