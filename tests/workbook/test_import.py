"""Sheets with a column or a row for each year: the rows that are made of them, and what is told by cell."""
from __future__ import annotations

import argparse
import contextlib
import importlib
import importlib.util
import io
import pathlib
import tempfile
import typing
import unittest

from tests.workbook.running import HEADER, PROGRAM, workbook
from tools import import_sheet
from tools.program import Program

HAS_OPENPYXL = importlib.util.find_spec("openpyxl") is not None
# Sheets, and the rows that are made of them without what each begins with and without the note.
READ = {
    "a column for each year": (
        "Fuel,Unit,1990,1991\nNatural gas,TJ,1000,NE\n\nDiesel,t,2.5,0\n",
        "activity,,NATURAL.GAS,1990,1000,,,TJ|activity,,NATURAL.GAS,1991,NE,,,TJ"
        "|activity,,DIESEL,1990,2.5,,,t|activity,,DIESEL,1991,0,,,t"),
    "a row for each year": (
        "Year,Gas,Gas EF\n,TJ,kg/TJ\n1990,1000,56100\n1991,NO,56000\n",
        "activity,,GAS,1990,1000,,,TJ|activity,,GAS,1991,NO,,,TJ"
        "|factor,,GAS.EF,1990,56100,,,kg/TJ|factor,,GAS.EF,1991,56000,,,kg/TJ"),
    "the last year first": (
        "name,unit,1991,1990\nGAS,TJ,2,1\n", "activity,,GAS,1990,1,,,TJ|activity,,GAS,1991,2,,,TJ"),
    "one year beside a unit": ("name,unit,2020\nGAS,TJ,1\n", "activity,,GAS,2020,1,,,TJ"),
    "bounds of one year": ("name,unit,low,high,2020\nGAS,TJ,1,3,2\n", "activity,,GAS,2020,2,1,3,TJ"),
    "headings of figures under years": (
        ",1990,,,1991,,\n,value,low,high,value,low,high\nGas (TJ),2,1,3,20,10,30\n",
        "activity,,GAS,1990,2,1,3,TJ|activity,,GAS,1991,20,10,30,TJ"),
    "bounds beside years": (
        "name,unit,1990,1990 low,1990 (max),1991\nGAS,TJ,2,1,3,4\n",
        "activity,,GAS,1990,2,1,3,TJ|activity,,GAS,1991,4,,,TJ"),
    "rows of bounds": (
        "Fuel,,1990,1991\nGas (TJ),value,2,20\n,lower bound,1,10\n,upper bound,3,30\n",
        "activity,,GAS,1990,2,1,3,TJ|activity,,GAS,1991,20,10,30,TJ"),
    "uncertainties in percent": (
        "name,unit,uncertainty,1990,1991\nA,TJ,5,100,NO\nB,TJ,\u00b12.5 %,100,-100\nC,TJ,-3/+7%,100,0\n",
        "activity,,A,1990,100,95,105,TJ|activity,,A,1991,NO,,,TJ"
        "|activity,,B,1990,100,97.5,102.5,TJ|activity,,B,1991,-100,-102.5,-97.5,TJ"
        "|activity,,C,1990,100,97,107,TJ|activity,,C,1991,0,0,0,TJ"),
    "bounds in percent": (
        "name,unit,low %,high %,1990,1991\nA,TJ,10,20,50,100\n",
        "activity,,A,1990,50,45,60,TJ|activity,,A,1991,100,90,120,TJ"),
    "small percentages under a sign": (
        "name,unit,uncertainty (%),1990,1991\nA,TJ,0.5,100,200\n",
        "activity,,A,1990,100,99.5,100.5,TJ|activity,,A,1991,200,199,201,TJ"),
    "the unit in front of the table": (
        "Energy in TJ\n\nFuel,1990,1991\nGas,1,2\n", "activity,,GAS,1990,1,,,TJ|activity,,GAS,1991,2,,,TJ"),
    "the unit in a heading": (
        "Fuel (TJ),1990,1991\nGas,1,2\n", "activity,,GAS,1990,1,,,TJ|activity,,GAS,1991,2,,,TJ"),
    "the unit in a second row of headings": (
        "Fuel,1990,1991\n,[TJ],[TJ]\nGas,1,2\n", "activity,,GAS,1990,1,,,TJ|activity,,GAS,1991,2,,,TJ"),
    "units as people write them": (
        "Fuel,Unit,1990,1991\nGas,terajoules,1,2\nCoal,tonnes,1,2\n",
        "activity,,GAS,1990,1,,,TJ|activity,,GAS,1991,2,,,TJ"
        "|activity,,COAL,1990,1,,,t|activity,,COAL,1991,2,,,t"),
    "a kind of its own": (
        "name,kind,unit,1990,1991\nSHARE,activity,1,0.5,0.6\n",
        "activity,,SHARE,1990,0.5,,,1|activity,,SHARE,1991,0.6,,,1"),
    "several labels": (
        "Sector,Fuel,unit,1990,1991\nHomes,Gas,TJ,1,2\nOffices,Gas,TJ,3,4\n",
        "activity,,GAS.HOMES,1990,1,,,TJ|activity,,GAS.HOMES,1991,2,,,TJ"
        "|activity,,GAS.OFFICES,1990,3,,,TJ|activity,,GAS.OFFICES,1991,4,,,TJ"),
    "categories": (
        "category,fuel,unit,1990,1991\n1.A.1.a,Gas,TJ,1,2\n1A2,Gas,TJ,3,4\n",
        "activity,,GAS.1A1A,1990,1,,,TJ|activity,,GAS.1A1A,1991,2,,,TJ"
        "|activity,,GAS.1A2,1990,3,,,TJ|activity,,GAS.1A2,1991,4,,,TJ"),
    "categories alone": (
        "category,unit,1990,1991\n1A2,TJ,3,4\n",
        "activity,,SHEET.1A2,1990,3,,,TJ|activity,,SHEET.1A2,1991,4,,,TJ"),
    "headings between rows, and once more": (
        "Fuel,unit,1990,1991\nLiquid,,,\nOil,TJ,1,2\nFuel,unit,1990,1991\nGas,TJ,3,4\nSource: customs,,,\n",
        "activity,,OIL,1990,1,,,TJ|activity,,OIL,1991,2,,,TJ"
        "|activity,,GAS,1990,3,,,TJ|activity,,GAS,1991,4,,,TJ"),
    "a further table": (
        "Energy in TJ\nFuel,1990,1991\nGas,1,2\n\nMass in t\nFuel,2000,2001\nCoal,3,4\n",
        "activity,,GAS,1990,1,,,TJ|activity,,GAS,1991,2,,,TJ"
        "|activity,,COAL,2000,3,,,t|activity,,COAL,2001,4,,,t"),
    "the same years over another unit": (
        "Energy in TJ\nFuel,1990,1991\nGas,1,2\nMass in t\nFuel,1990,1991\nCoal,3,4\n",
        "activity,,GAS,1990,1,,,TJ|activity,,GAS,1991,2,,,TJ"
        "|activity,,COAL,1990,3,,,t|activity,,COAL,1991,4,,,t"),
    "the headings once more on a further page": (
        "Energy in TJ\nFuel,1990,1991\nGas,1,2\n\nFuel,1990,1991\nOil,3,4\n",
        "activity,,GAS,1990,1,,,TJ|activity,,GAS,1991,2,,,TJ"
        "|activity,,OIL,1990,3,,,TJ|activity,,OIL,1991,4,,,TJ"),
    "a further table of other labels": (
        "Fuel,unit,1990,1991\nGas,TJ,1,2\nAnimal,unit,2000,2001\nHorses,head,2000,2005\n",
        "activity,,GAS,1990,1,,,TJ|activity,,GAS,1991,2,,,TJ"
        "|activity,,HORSES,2000,2000,,,head|activity,,HORSES,2001,2005,,,head"),
    "footnotes at years": (
        "Fuel,unit,1990(1),1991\u00b2\nGas,TJ,1,2\n", "activity,,GAS,1990,1,,,TJ|activity,,GAS,1991,2,,,TJ"),
    "bounds behind the names": (
        "Fuel,unit,1990,1991\nGas,TJ,2,4\nGas low,TJ,1,3\nGas (high),TJ,3,5\n",
        "activity,,GAS,1990,2,1,3,TJ|activity,,GAS,1991,4,3,5,TJ"),
    "columns of bounds": (
        "Year,Gas (TJ),low,high\n1990,10,9,11\n1991,20,18,22\n",
        "activity,,GAS,1990,10,9,11,TJ|activity,,GAS,1991,20,18,22,TJ"),
    "decimal commas": (
        'Fuel;unit;1990;1991\nGas;TJ;12,5;"1 200,5"\nOil;TJ;-7,25;not occurring\n',
        "activity,,GAS,1990,12.5,,,TJ|activity,,GAS,1991,1200.5,,,TJ"
        "|activity,,OIL,1990,-7.25,,,TJ|activity,,OIL,1991,NO,,,TJ"),
    "marks beside years": (
        "Fuel,unit,FY 1990,1991*,1992 (prov.)\nGas,TJ,1,2,3\n",
        "activity,,GAS,1990,1,,,TJ|activity,,GAS,1991,2,,,TJ|activity,,GAS,1992,3,,,TJ"),
}
# Sheets, and what is told of them: of faults alone nothing is written.
TOLD: dict[str, tuple[str, list[str], list[str]]] = {
    "no table": ("Fuel,unit,value\nGas,TJ,1\n", [
        "sheet.csv warning: this sheet has no table with a column or a row for each year"], [
        "sheet.csv: no table with a column or a row for each year, as 1990, 1991 and 1992 side by side"]),
    "an empty file": ("", [], [
        "sheet.csv: no table with a column or a row for each year, as 1990, 1991 and 1992 side by side"]),
    "a year twice": ("Fuel,unit,1990,1991,1991\nGas,TJ,1,2,3\n", [], [
        'sheet.csv!E1 "1991": this year stands at sheet.csv!D1 too']),
    "two years in a heading": ("Fuel,unit,1990/91,1991/92\nGas,TJ,1,2\n", [], [
        "sheet.csv!C1: two years in one heading; write one of them, in all headings the first or in all the "
        "second"]),
    "no unit": ("Fuel,1990,1991\nGas,1,2\n", [], [
        'sheet.csv!A2 "Gas": no unit; write one behind the name in brackets, or in a column with the heading '
        "unit",
        'sheet.csv!A2 unit "": empty: a unit is needed, beside a notation key too']),
    "a unit that has more than a unit": ("Fuel,unit,1990,1991\nGas,yards,1,2\n", [], [
        'sheet.csv!B2 unit "yards": no unit of the table; ./workbook words units lists them']),
    "no name": ("Fuel,unit,1990,1991\n,TJ,1,2\n", [], [
        "sheet.csv!C2: figures without a name; write one in the first column"]),
    "a name twice": ("Fuel,unit,1990,1991\nGas,TJ,1,\ngas,TJ,,2\n", [
        "sheet.csv!D2 warning: GAS has no figure of 1991; write it, or a notation key",
        "sheet.csv!C3 warning: GAS has no figure of 1990; write it, or a notation key"], [
        'sheet.csv!A3 "gas": gives the name GAS, as sheet.csv!A2 does; write another']),
    "a second row of headings in other words": (
        "Fuel,Unit,1990,1991\nBrennstoff,Einheit,Wert,Wert\nGas,TJ,1,2\n", [], [
            'sheet.csv!A2 "Brennstoff": words under the years in place of figures; take a second row of headings '
            'out, and write a figure or a notation key elsewhere']),
    "an error in a note": ("Fuel,unit,1990,1991,Source\nGas,TJ,1,2,#REF!\n", [], [
        'sheet.csv!E2 "#REF!": an error of the spreadsheet in place of a text; write the text, or clear the cell']),
    "errors, and what is no number": ("Fuel,unit,1990,1991,1992\nGas,TJ,#REF!,n/a,1\n", [], [
        'sheet.csv!C2 "#REF!": an error of the spreadsheet in place of a number; write the number, '
        "or a notation key",
        'sheet.csv!D2 value "n/a": no number; where there is none write a notation key (NO, NA, IE or NE)']),
    "a comma that the next year tells": ('Fuel,unit,1990,1991\nGas,TJ,"1,234",5\n', [], [
        'sheet.csv!C2 value "1,234": a decimal comma, by the other records of its name; write 1.234']),
    "a comma that the others tell": ('Fuel,unit,1990,1991\nGas,TJ,"1,234",5.5\n', [
        'sheet.csv!C2 warning "1,234": read as 1234; the table\'s other figures are written so'], []),
    "a point that the others tell": ('Fuel,unit,1990,1991,1992\nGas,TJ,1.234,"5,5",2.345\n', [
        'sheet.csv!C2 warning "1.234": read as 1234, and 1 more like it; the table\'s other figures are '
        "written so"], []),
    "a point that may be either": ("Fuel;unit;1990;1991\nGas;TJ;1.234;12.345\n", [
        'sheet.csv!C2 warning "1.234": read as 1.234, and 1 more like it; write none where the point stands '
        "between thousands"], []),
    "points in front of decimals": ("Fuel,unit,1990,1991\nGas,TJ,1.234,0.345\n", [], []),
    "years in headings that cannot be read": ("Animal,unit,1990 data,1991 data\nHorses,head,1995,2001\n", [
        "sheet.csv warning: this sheet has no table with a column or a row for each year"], [
        "sheet.csv: no table with a column or a row for each year, as 1990, 1991 and 1992 side by side"]),
    "figures that look like years": ("Animal (head),1990,1991\nHorses,1995,2001\nDonkeys,1,2\n", [], [
        'sheet.csv!A2 "Horses": the years of a further table, or figures? write the first table\'s heading '
        "here, or a unit"]),
    "volumes at a state": ("Fuel,unit,1990,1991\nGas,Nm3,1,2\n", [], [
        'sheet.csv!B2 unit "Nm3": the unit is written m3; write m3']),
    "years that lack": ("Fuel,unit,1990,1991,1992,1993\nGas,TJ,1,,,4\nEF,kg/TJ,56100,,,\n", [
        "sheet.csv!D2 warning: GAS has no figure of 1991 to 1992; write it, or a notation key"], []),
    "totals, and other columns": (
        "Fuel,unit,1990,1991,Change\nGas,TJ,1,2,100%\nTotal,TJ,1,2,\nGrand total,,1,2,\nOil,TJ,,,\n", [
            'sheet.csv!E1 warning "Change": this heading is no year, and the column is not read',
            'sheet.csv!A3 warning "Total": a row of totals is not read',
            'sheet.csv!A4 warning "Grand total": a row of totals is not read',
            'sheet.csv!A5 warning "Oil": no figure in any year, and no row is written'], []),
    "a unit of another size": ("Numbers (1000 head)\nAnimal,1990,1991\nCows,1.2,3\n", [], [
        'sheet.csv!A1 unit "1000 head": no unit of the table; write head (multiply by 1000)']),
    "a unit with a basis behind a name": ("Fuel,1990,1991\nGas (TJ GCV),1,2\n", [], [
        'sheet.csv!A2 "Gas (TJ GCV)": no unit; write one behind the name in brackets, or in a column with '
        "the heading unit",
        'sheet.csv!A2 unit "": empty: a unit is needed, beside a notation key too']),
    "columns of numbers, and a second one of uncertainties": (
        "No.,Fuel,unit,AD unc.,EF unc.,Base year,1990,,1992\n1,Gas,TJ,5%,7%,100,100,150,200\n", [
            'sheet.csv!A1 warning "No.": this heading is no year, and the column is not read',
            'sheet.csv!E1 warning "EF unc.": this heading is no year, and the column is not read',
            'sheet.csv!F1 warning "Base year": this heading is no year, and the column is not read',
            "sheet.csv!H1 warning: this heading is no year, and the column is not read"], []),
    "uncertainties that are none": (
        "Fuel,unit,uncertainty,1990,1991\nA,TJ,0.05,1,2\nB,TJ,about,1,2\nC,TJ,150,1,2\n", [], [
            'sheet.csv!C2 "0.05": a percentage below 1 without its sign; write 5 % or 0.05 %, as it is meant',
            'sheet.csv!C3 "about": no percentage; write one, as 5 %, or two, as -3/+7 %',
            'sheet.csv!C4 "150": more than 100 percent to both sides; write bounds, '
            "in columns as 1990 low and 1990 high"]),
    "bounds of no year": ("Fuel,unit,low,high,1990,1991\nA,TJ,1,3,2,2\n", [], [
        'sheet.csv!C2 "1": bounds of which year? write percentages, as 5 %, or columns as 1990 low and '
        "1990 high"]),
    "a bound without a value": ("Fuel,unit,1990,1991,1991 low\nA,TJ,1,,3\n", [], [
        "sheet.csv!E2: a bound of 1991 without its value"]),
    "bounds that do not hold the value": ("Fuel,unit,1990,1990 low,1990 high,1991\nA,TJ,5,6,7,1\n", [], [
        'sheet.csv!D2 low "6": low is above the value 5; in order they are 6 with low 5 and high 7: '
        "are two in each other's column? else write bounds that hold it"]),
    "a name that is too long": ("Fuel,unit,1990,1991\nNatural gas of the northern fields,TJ,5,6\n", [], [
        'sheet.csv!A2 name "NATURAL.GAS.OF.THE.NORTHERN.FIELDS": 34 letters where 24 are the most; '
        "write a shorter name, the same everywhere"]),
}


class Files(unittest.TestCase):
    """Tests in a folder of their own."""
    maxDiff = None

    def setUp(self) -> None:
        room = tempfile.TemporaryDirectory()
        self.addCleanup(room.cleanup)
        self.room = pathlib.Path(room.name)

    def imported(self, name: str, output: str | None = None) -> tuple[int, str, list[str]]:
        """The status of `import` of a file, what it prints, and what it says, in this process."""
        given = argparse.Namespace(sheet=str(self.room / name), output=output and str(self.room / output),
                                   replace=False)
        out, err = io.StringIO(), io.StringIO()
        with contextlib.redirect_stdout(out), contextlib.redirect_stderr(err), Program(PROGRAM) as program:
            status = import_sheet.run(program, given)
        return status, out.getvalue(), err.getvalue().replace(f"{self.room}/", "").splitlines()


class Texts(Files):
    def test_rows_are_made(self) -> None:
        for case, (text, due) in READ.items():
            with self.subTest(case):
                (self.room / "sheet.csv").write_text(text)
                status, printed, said = self.imported("sheet.csv")
                rows = [row.removeprefix("enter,").rsplit(",", 1)[0] for row in printed.splitlines()[1:]]
                self.assertEqual((status, "|".join(rows), len(said)), (0, due, 1), said)

    def test_what_is_told(self) -> None:
        for case, (text, warnings, faults) in TOLD.items():
            with self.subTest(case):
                (self.room / "sheet.csv").write_text(text)
                (self.room / "rows.csv").unlink(missing_ok=True)
                status, printed, said = self.imported("sheet.csv", "rows.csv")
                self.assertEqual(said[:-1], faults + warnings)
                self.assertEqual((status, printed), (1 if faults else 0, ""))
                self.assertEqual((self.room / "rows.csv").exists(), not faults)

    def test_notes_say_where_a_figure_is_from(self) -> None:
        text = "Fuel,unit,1990,1991,Notes\nGas,TJ,1,2,of customs\nOil,TJ,3,4,\n"
        (self.room / "sheet.csv").write_text(text)
        notes = [row.rsplit(",", 1)[1] for row in self.imported("sheet.csv")[1].splitlines()[1:]]
        self.assertEqual(notes, ["of customs; sheet.csv!C2", "of customs; sheet.csv!D2", "sheet.csv!C3",
                                 "sheet.csv!D3"])

    def test_check_recognises_the_table_and_goes_on_with_its_rows(self) -> None:
        (self.room / "1-fuels.csv").write_text("Fuel;unit;1990;1991\nGas;TJ;1;x\nOil;TJ;1,5;2\n")
        (self.room / "2-more.csv").write_text(f"{HEADER}enter,activity,,OIL,1991,3,,,TJ,\n")
        ran = workbook("check", ".", "--no-warnings", cwd=self.room)
        self.assertEqual(ran.stdout.splitlines(), [
            "1-fuels.csv:1: a table with a column for each year, 1990 to 1991; ./workbook import 1-fuels.csv "
            "-o ROWS.csv makes rows of it; keep this file outside the folder then",
            '1-fuels.csv:2 value "x": no number; where there is none write a notation key (NO, NA, IE or NE)',
            "2-more.csv:2: activity OIL 1991 is entered already at 1-fuels.csv:3; to change it use correct, "
            "else give this one another name or year", "2 files: 3 faults, 0 warnings"])

    def test_no_other_file_is_taken_for_such_a_table(self) -> None:
        for text in ("enter,span,,,1990,2020,2020,,,\n", f"{HEADER}enter,span,,,1990,1991,1991,,,,\n",
                     "kind,act,subject,name,year,value\nspan,enter,,,1990,1991\n", "1990\n1991\n"):
            (self.room / "1.csv").write_text(text)
            self.assertNotIn("column for each year", workbook("check", ".", cwd=self.room).stdout)


class Output(Files):
    def test_where_rows_cannot_go(self) -> None:
        (self.room / "sheet.csv").write_text("name,unit,1990,1991\nGAS,TJ,1,2\n")
        for output, due in (("sheet.csv", "sheet.csv is the sheet itself; give the rows another name"),
                            ("rows.txt", "rows.txt: the name of a file of rows ends with .csv"),
                            ("none/rows.csv", "none is no folder")):
            ran = workbook("import", "sheet.csv", "-o", output, cwd=self.room)
            self.assertEqual((ran.returncode, ran.stdout, ran.stderr), (2, "", f"./workbook: {due}\n"))
        self.assertEqual([path.name for path in self.room.iterdir()], ["sheet.csv"])

    def test_rows_that_were_changed_by_hand_are_left_alone(self) -> None:
        (self.room / "sheet.csv").write_text("name,unit,1990,1991\nGAS,TJ,1,2\n")
        words = ("import", "sheet.csv", "-o", "rows.csv")
        self.assertEqual([workbook(*words, cwd=self.room).returncode for _ in range(2)], [0, 0])
        file = self.room / "rows.csv"
        written = file.read_text()
        file.write_text("changed by hand")
        ran = workbook(*words, cwd=self.room)
        due = "./workbook: rows.csv has other rows; --replace writes the sheet's rows over them\n"
        self.assertEqual((ran.returncode, ran.stderr, file.read_text()), (2, due, "changed by hand"))
        ran = workbook(*words, "--replace", cwd=self.room)
        self.assertEqual((ran.returncode, file.read_text()), (0, written))
        self.assertIn("rows.csv: in place of other rows\n", ran.stderr)

    def test_a_sheet_that_is_none(self) -> None:
        ran = workbook("import", "no-such.xlsx", cwd=self.room)
        self.assertEqual((ran.returncode, ran.stdout, ran.stderr), (
            2, "", "./workbook: no-such.xlsx is no file\n"))

    def test_what_is_said(self) -> None:
        (self.room / "sheet.csv").write_text("name,unit,1990,1991\nGAS,TJ,1,2\nOIL,TJ,NO,\n")
        ran = workbook("import", "sheet.csv", "-o", "rows.csv", cwd=self.room)
        self.assertEqual((ran.returncode, ran.stdout), (0, ""))
        self.assertEqual(ran.stderr.splitlines()[-1], "rows.csv: 3 rows of 2 series, 1990 to 1991")


@unittest.skipUnless(HAS_OPENPYXL, "python3-openpyxl is not installed")
class Spreadsheets(Files):
    def saved(self, rows: list[list[typing.Any]], change: typing.Callable[[typing.Any], None]) -> None:
        """Saves rows as sheet.xlsx, changed before."""
        book = importlib.import_module("openpyxl").Workbook()
        book.active.title = "Fuels"
        for row in rows:
            book.active.append(row)
        change(book)
        book.save(self.room / "sheet.xlsx")

    def test_merged_cells_and_hidden_ones(self) -> None:
        def change(book: typing.Any) -> None:
            sheet = book.active
            for area in ("A1:F1", "A3:A4", "C6:D6"):
                sheet.merge_cells(area)
            sheet.column_dimensions["D"].hidden = True
            sheet.row_dimensions[4].hidden = True
            book.create_sheet("Old").sheet_state = "hidden"
        self.saved([["Consumption"], ["Sector", "Fuel (TJ)", 1990, 1991, 1992], ["Homes", "Gas", 1, 2, 3],
                    [None, "Oil", 4, 5, 6], ["Offices", "Gas", 7, 8, 9],
                    ["Shops", "Gas", 1.5, None, 2]], change)
        status, printed, said = self.imported("sheet.xlsx")
        self.assertEqual((status, printed, said), (1, "", [
            'Fuels!C6 "1.5": one figure in merged cells; write a figure in each cell',
            "Fuels!D2 warning: this column is hidden, and is read; delete it if it is not meant",
            'Fuels!B4 warning "Oil\\nHomes": this row is hidden, and is read; delete it if it is not meant',
            "Fuels!D6 warning: GAS.SHOPS has no figure of 1991; write it, or a notation key",
            "Old warning: this sheet is hidden, and is not read; show it if it is meant",
            "./workbook: 1 fault in sheet.xlsx, and nothing is written"]))

    def test_percentages_dates_and_errors(self) -> None:
        def change(book: typing.Any) -> None:
            for place in ("C2", "E4"):
                book.active[place].number_format = "0%"
            book.active["E3"].number_format = "0.0%"
        date = importlib.import_module("datetime").date
        self.saved([["Series", "Unit", "Uncertainty", date(1990, 1, 1), date(1991, 1, 1)],
                    ["Gas", "TJ", 0.05, 100, 200], ["Share", "pct", None, "#N/A", 0.125],
                    ["Coal", "t", None, 1, 0.5], ["Oil", "t", None, date(2020, 5, 1), True],
                    ["Peat", "t", None, "=D4", 5]], change)
        status, printed, said = self.imported("sheet.xlsx")
        self.assertEqual((status, printed, said[:-1]), (1, "", [
            'Fuels!D3 "#N/A": an error of the spreadsheet in place of a number; write the number, '
            "or a notation key",
            'Fuels!E4 "0.5": shown as a percentage, and its unit is no ratio',
            'Fuels!D5 "2020-05-01": a date in place of a number; '
            "the spreadsheet has made it of what was typed",
            'Fuels!E5 "TRUE": a truth value in place of a number',
            "Fuels!D6: a formula whose value the file does not have; open the file in a spreadsheet, "
            "and save it"]))

    def test_figures_with_all_their_digits(self) -> None:
        def change(book: typing.Any) -> None:
            book.active["C3"].number_format = "0%"
            book.active["D3"].number_format = "0.0%"
        self.saved([["Series", "Unit", 1990, 1991], ["Gas", "TJ", 0.1 + 0.2, 123456.789],
                    ["Share", "pct", 0.07, 0.125], ["Part", "1", 0.07, 1e-7]], change)
        status, printed, said = self.imported("sheet.xlsx")
        figures = [row.split(",")[5] for row in printed.splitlines()[1:]]
        self.assertEqual(figures, ["0.3", "123456.789", "7", "12.5", "0.07", "0.0000001"])
        self.assertEqual((status, printed.splitlines()[1].split(",")[-1]), (0, "sheet.xlsx Fuels!C2"))


if __name__ == "__main__":
    unittest.main()
