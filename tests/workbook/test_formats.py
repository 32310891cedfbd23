"""Files of both formats: read side by side, and each written in the format that it has or needs."""
import pathlib
import unittest

from tests.workbook.running import HEADER, HEADER_2, session, workbook
from tests.workbook.test_sources import Rooms
from tools import from_sheets, spreadsheet
from tools.new_folder import FILES
from tools.recognisers import LANDFILL
from tools.sheets import BYTE_ORDER_MARK, Sheet, has_rows

HALF_LIFE = "enter,factor,,WASTE.LIFE,2019,12,,,yr,"
OTHERS, WITH_TENTH = LANDFILL.replace(f"{HALF_LIFE}\n", ""), f"{HALF_LIFE.replace('12', '12.5')}\n"
REFUSED = "refused 6 BadNumber row 1 column value\n"


def reply_to(body: str) -> str:
    """What the program answers to a body."""
    return session(f"SUBMIT a {len(body.encode())}\n{body}END\n".encode()).decode()


class Folders(Rooms):
    """Tests on folders."""

    def folder(self, **files: str) -> pathlib.Path:
        """A folder of these files, each with a digit in front."""
        folder = self.room / "book"
        folder.mkdir(exist_ok=True)
        for number, (name, text) in enumerate(files.items(), 1):
            (folder / f"{number}-{name}.csv").write_text(text, encoding="utf-8")
        return folder


class Bodies(unittest.TestCase):
    """Half-lives in the two formats of bodies."""

    def test_rows_of_each_format(self) -> None:
        for value in ("1", "9", "60", "01"):
            for header in (HEADER, HEADER_2):
                self.assertEqual(reply_to(header + f"enter,factor,,HL,1990,{value},,,yr,\n"), "accepted 1\n")
        for value in ("1.0", "1.5", "59.9", "60.0", "01.5"):
            self.assertEqual(reply_to(HEADER_2 + f"enter,factor,,HL,1990,{value},,,yr,\n"), "accepted 1\n")
            self.assertEqual(reply_to(HEADER + f"enter,factor,,HL,1990,{value},,,yr,\n"), REFUSED)
        for value in ("", "0", "0.9", "60.1", "61", "1.50", "1.", ".5", "001", "100", "-1", "1,5", "NO", "NE"):
            for header in (HEADER, HEADER_2):
                self.assertEqual(reply_to(header + f'enter,factor,,HL,1990,"{value}",,,yr,\n'), REFUSED, value)

    def test_bounds_of_half_lives(self) -> None:
        for header in (HEADER, HEADER_2):
            for column, bounds in (("low", "3,6"), ("low", "3,"), ("high", ",6")):
                due = f"refused 6 BadNumber row 1 column {column}\n"
                self.assertEqual(reply_to(header + f"enter,factor,,HL,1990,4,{bounds},yr,\n"), due)

    def test_other_numbers_are_the_same_in_both(self) -> None:
        for row in ("enter,activity,,A,1990,1.50,1.5,1.5,TJ,", "enter,span,,,1990,2000,1990,,,"):
            for header in (HEADER, HEADER_2):
                self.assertEqual(reply_to(f"{header}{row}\n"), "accepted 1\n")

    def test_headers(self) -> None:
        for header in (HEADER, HEADER_2, HEADER_2.replace("act2", '"act2"'), HEADER_2.replace("kind", '"kind"'),
                       f"\ufeff{HEADER_2}", f"\n{HEADER}", HEADER_2.replace("\n", "\r\n"), HEADER_2[:-1]):
            self.assertEqual(reply_to(header), "accepted 1\n", header)
        for header in (f"\n{HEADER_2}", f" {HEADER_2}", HEADER_2.replace("act2", "Act2"), f"\ufeff\ufeff{HEADER_2}",
                       HEADER_2.replace("act2", "act22"), HEADER_2.replace("act2", "act3"), "act2\n", "act2,\n",
                       HEADER_2.replace("kind,subject", "subject,kind"), HEADER_2[:-1] + ",more\n"):
            self.assertEqual(reply_to(header), "refused 4 BadShape row 0\n", header)

    def test_a_correction_between_formats(self) -> None:
        """A half-life of one year and one of 1.0 year leave the same, and one of 2.0 years leaves more."""
        files = [HEADER + LANDFILL.replace(",12,,,yr", ",1,,,yr"), *(
            HEADER_2 + f"correct,factor,,WASTE.LIFE,2019,{value},,,yr,\n" for value in ("1.0", "2.0"))]
        shown = "SHOW cells 2021\n"
        script = "".join(f"SUBMIT s{at} {len(body)}\n{body}{shown}" for at, body in enumerate(files)) + "END\n"
        first, second, third = session(script.encode()).decode().split("accepted ")[1:]
        self.assertEqual(first[1:], second[1:])
        stocks = [[line.split(",")[5] for line in text.splitlines() if line.startswith("STOCK,")]
                  for text in (second, third)]
        self.assertGreater(float(stocks[1][0]), float(stocks[0][0]))


class Reading(Folders):
    def test_a_folder_of_both_formats(self) -> None:
        folder = self.folder(landfill=HEADER + OTHERS, life=HEADER_2 + WITH_TENTH)
        order = folder / "ORDER.txt"
        order.write_text("2-life.csv\n1-landfill.csv\n", encoding="utf-8")
        self.assertEqual(workbook("check", folder).stdout, "2 files: 0 faults, 0 warnings\n")
        self.assertIn("LANDFILL.CH4,4A,Q94,CH4,Gg,", workbook("tables", folder, "2021", "--table", "cells").stdout)
        traced = workbook("trace", folder, "2021", "STOCK").stdout
        self.assertIn("12.5", traced)
        self.assertEqual(workbook("complete", folder).returncode, 0)

    def test_two_states_of_other_formats(self) -> None:
        for name, header, life in (("old", HEADER, f"{HALF_LIFE}\n"), ("new", HEADER_2, WITH_TENTH)):
            (self.room / name).mkdir()
            (self.room / name / "1.csv").write_text(header + OTHERS + life, encoding="utf-8")
        ran = workbook("compare", self.room / "old", "--", self.room / "new", "2021")
        self.assertEqual(ran.returncode, 0, ran.stderr)
        self.assertIn("WASTE.LIFE", ran.stdout)

    def test_how_files_begin(self) -> None:
        for text, due in ((HEADER_2, True), ('"act2","kind"', True), ("act3,kind", False), ("Act2;kind", True)):
            (self.room / "rows.txt").write_text(text, encoding="utf-8")
            self.assertIs(has_rows(self.room / "rows.txt"), due, text)
        for text, version in ((HEADER, 1), (HEADER_2, 2), ("", 1), ("name,unit,1990\n", 1), (f"\n{HEADER_2}", 2)):
            self.assertEqual(Sheet("1.csv", BYTE_ORDER_MARK + text.encode()).version, version, text)


class Writing(Folders):
    def test_the_cure_of_a_half_life_is_in_its_file_alone(self) -> None:
        folder = self.folder(span=HEADER + OTHERS, life=HEADER.replace("\n", "\r\n") + WITH_TENTH)
        before = {path.name: path.read_bytes() for path in folder.iterdir()}
        ran = workbook("check", folder, "--no-warnings", "--mend", self.room / "out")
        told = '2-life.csv:2 value "12.5": a half-life with a point is of format 2; write act2 in the header'
        self.assertIn(told, ran.stdout)
        mended = {path.name: path.read_bytes() for path in (self.room / "out").iterdir()}
        self.assertEqual(mended, {**before, "2-life.csv": before["2-life.csv"].replace(b"act", b"act2", 1)})

    def test_files_keep_the_format_that_they_have(self) -> None:
        for header in (HEADER, HEADER_2):
            folder = self.folder(span=f"{header}enter,span,,,2019,2020,2019 ,,,\n")
            out = self.room / f"out-{len(header)}"
            workbook("check", folder, "--mend", out)
            due = f"{header}enter,span,,,2019,2020,2019,,,\n"
            self.assertEqual((out / "1-span.csv").read_text(encoding="utf-8"), due)

    def test_sheets_of_rows(self) -> None:
        other = HEADER_2.replace("act2", " Act2")
        for given, row, due in ((HEADER, HALF_LIFE, HEADER), (HEADER, WITH_TENTH, HEADER_2),
                                (HEADER_2, HALF_LIFE, HEADER_2), (other, HALF_LIFE, HEADER_2)):
            text = f"{given}{row.strip()}\n"
            sheets, notes = from_sheets.read_all([spreadsheet.grid_of_csv("rows.csv", text.encode())])
            self.assertEqual((len(sheets), notes, sheets[0].notes, sheets[0].faults), (1, [], [], []))
            self.assertEqual(sheets[0].body.decode(), due + row.strip() + "\n")

    def test_tables_with_a_column_for_each_year(self) -> None:
        for life, due in (("12", HEADER), ("12.5", HEADER_2)):
            (self.room / "sheet.csv").write_text(f"name,unit,kind,2019\nGAS,TJ,activity,1\nLIFE,yr,factor,{life}\n")
            ran = workbook("import", "sheet.csv", cwd=self.room)
            self.assertEqual((ran.returncode, ran.stdout.splitlines()[0]), (0, due.strip()), ran.stderr)

    def test_what_is_to_be_filled_in_is_of_format_2(self) -> None:
        ran = workbook("new", self.room / "made", "--first", "2019", "--last", "2020",
                       "--categories", "4A")
        self.assertEqual(ran.returncode, 0, ran.stderr)
        for name in FILES[:4]:
            self.assertTrue((self.room / "made" / name).read_text(encoding="utf-8").startswith(HEADER_2), name)
        for words in (["Q91"], ["templates", "fuel"]):
            self.assertIn(f"\n{HEADER_2}", workbook("words", *words).stdout)


if __name__ == "__main__":
    unittest.main()
