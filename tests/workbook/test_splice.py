"""Splicing: the rows that fill an activity, worked out by hand, and what is told of series that cannot be spliced."""
import importlib.util
import pathlib
import tempfile
import unittest

from tests.workbook.running import HEADER, workbook

HAS_MATPLOTLIB = importlib.util.find_spec("matplotlib") is not None
SPAN = "span,,,1990,1993,1990,,"
LINE = "line,1A1a,LINE,,Q10,,,|bind,LINE,FC,,activity,A,,|bind,LINE,EF,,factor,EF,,|factor,,EF,1991,2,,,kg/TJ"
A = "activity,,A,1990,10,9,12,TJ|activity,,A,1993,40,,,TJ"
B = "activity,,A,1991,50,40,60,TJ|activity,,A,1992,90,,,TJ|activity,,B,1990,80,,,t|activity,,B,1991,100,,,t" \
    "|activity,,B,1992,120,,,t"
BY_B = "A --method overlap --by B"
# The records of a folder, the words of the command, and the rows that are made: 10 + 30/3 and its bounds 9 + 31/3 and
# 12 + 28/3, rounded outward; 80/100 times 40, 50 and 60; 80 times the mean of 50/100, or its bounds, and 90/120.
FILLED = {
    "between two years": (
        A, "A --method linear", "A,1991,20.000000000000,19.333333333333,21.333333333334,TJ,linear"
        "|A,1992,30.000000000000,29.666666666666,30.666666666667,TJ,linear",
        "A in TJ, linear: 1991 to 1992 from 1990 and 1993"),
    "by another series": (
        B, "A --method surrogate --by B", "A,1990,40.000000000000,32.000000000000,48.000000000000,TJ,surrogate",
        "A in TJ, surrogate: 1990 from activity B of these years, and from both in 1991"),
    "by the overlap of two series": (
        B, BY_B, "A,1990,50.000000000000,46.000000000000,54.000000000000,TJ,overlap",
        "A in TJ, overlap: 1990 from activity B of these years, and from both in 1991 to 1992"),
    "by the years in which a factor begins": (
        f"{B}|factor,,F,1990,3,,,1|factor,,F,1992,4,,,1", "A --method surrogate --by F",
        "A,1990,67.500000000000,67.500000000000,67.500000000000,TJ,surrogate",
        "A in TJ, surrogate: 1990 from factor F of these years, and from both in 1992"),
    "years that are left": (
        B, "A --method linear", None,
        "A, not filled: 1990 and 1993, which no two years with figures enclose: extrapolation"),
    "a year in which the other series lacks": (
        B, BY_B, "A,1990,50.000000000000,46.000000000000,54.000000000000,TJ,overlap",
        "A, not filled: 1993, in which B has no figure"),
}
# The records of a folder, the words of the command, and what is told; in each the status is 1 and nothing is written.
REFUSED = {
    "two units": (
        f"{A}|activity,,A,1995,1,,,GJ", "A --method linear",
        '1.csv:9 unit "GJ": A is in TJ at 1.csv:7; a series is spliced in one unit: correct either'),
    "two units of the other series": (
        f"{B}|activity,,B,1995,1,,,kt", BY_B, '1.csv:12 unit "kt": B is in t at 1.csv:9; a'),
    "a factor": (A, "EF --method linear", "EF is a factor: a factor holds from its year until its next record, so"),
    "no such activity": (A, "A1 --method linear", "there is no activity A1; near to it: A"),
    "no figure": ("activity,,A,1990,NE,,,TJ", "A --method linear", "A has no figure"),
    "no two years": (
        "activity,,A,1990,10,,,TJ", "A --method linear",
        "linear needs two years with figures, and A has 1990; extrapolation"),
    "no year with both": (
        f"{A}|activity,,B,1991,1,,,t", BY_B,
        "no year has figures of both A and B; overlap needs one that has: enter one"),
    "a range that holds zero": (
        f"{A}|activity,,B,1991,1,,,t|activity,,B,1993,0,-1,1,t", BY_B,
        "1.csv:10: B may be zero in 1993, and overlap divides by it; correct its bounds, or take another series"),
    "a result beyond the limit": (
        "activity,,A,1990,99999999999999,,,TJ|activity,,B,1990,1,,,t|activity,,B,1991,2,,,t", BY_B,
        "the result of 1991 is beyond 10^14 TJ; see whether a figure of A or B is wrong, or take a greater unit"),
    "a result that no row may have": (
        "activity,,A,1990,90000000000,,,PJ|activity,,B,1990,1,,,t|activity,,B,1991,2,,,t", BY_B,
        "the program would refuse the rows: refused 6 BadNumber row 1 column value"),
    "a key that leaves no gap": (
        f"{A}|activity,,A,1991,NO,,,TJ", "A --method linear",
        '1.csv:9 value "NO": A is no gap in 1991; correct it to 0 to splice from it, or to NE to fill it'),
    "no gap": ("activity,,A,1990,1,,,TJ|activity,,A,1991,1,,,TJ|activity,,A,1992,1,,,TJ|activity,,A,1993,1,,,TJ",
               "A --method linear", "A lacks no year"),
}


def rows(records: str) -> str:
    """The text of a file that enters records."""
    return HEADER + "".join(f"enter,{record},\n" for record in records.split("|"))


class Splicing(unittest.TestCase):
    def setUp(self) -> None:
        made = tempfile.TemporaryDirectory()
        self.addCleanup(made.cleanup)
        self.room = pathlib.Path(made.name)
        self.folder = self.room / "folder"
        self.folder.mkdir()

    def write(self, records: str) -> None:
        """Writes the file of a folder."""
        (self.folder / "1.csv").write_text(rows(f"{SPAN}|{LINE}|{records}"), encoding="utf-8")

    def test_years_are_filled(self) -> None:
        for what, (records, words, due, said) in FILLED.items():
            with self.subTest(what):
                self.write(records)
                ran = workbook("splice", self.folder, *words.split(), "--quiet")
                filled = [f"enter,activity,,{row}" for row in due.split("|")] if due else []
                self.assertEqual(ran.stdout.splitlines()[1:], filled, ran.stderr)
                self.assertIn(said, ran.stderr)
                self.assertEqual(ran.returncode, 0 if due else 1)

    def test_refusals_have_cures(self) -> None:
        for what, (records, words, said) in REFUSED.items():
            with self.subTest(what):
                self.write(records)
                ran = workbook("splice", self.folder, *words.split(), "--quiet", "-o", self.room / "2.csv")
                self.assertIn(f"./workbook: nothing is spliced: {said}", ran.stderr)
                self.assertEqual((ran.returncode, ran.stdout), (1, ""))
                self.assertFalse((self.room / "2.csv").exists())

    def test_records_are_those_in_force(self) -> None:
        """Of corrected, withdrawn and not estimated years; what is made of them is accepted behind them."""
        self.write(f"{A}|activity,,A,1991,7,,,TJ|activity,,A,1992,NE,,,TJ")
        (self.folder / "2.csv").write_text(
            f"{HEADER}correct,activity,,A,1993,70,,,TJ,\nwithdraw,activity,,A,1991,,,,,\n", encoding="utf-8")
        made = self.folder / "3.csv"
        ran = workbook("splice", self.folder, "A", "--method", "linear", "-o", made)
        self.assertEqual((ran.returncode, ran.stdout), (0, ""), ran.stderr)
        self.assertIn(f"{made}: 2 rows", ran.stderr)
        self.assertEqual(made.read_text(encoding="utf-8"), HEADER + (
            "enter,activity,,A,1991,30.000000000000,29.333333333333,31.333333333334,TJ,linear\n"
            "correct,activity,,A,1992,50.000000000000,49.666666666666,50.666666666667,TJ,linear\n"))
        self.assertEqual(workbook("check", self.folder, "--no-warnings").returncode, 0)

    def test_words_that_do_not_go_together(self) -> None:
        self.write(A)
        (self.room / "other.csv").write_text(HEADER, encoding="utf-8")
        for words, said in {
            "--method surrogate": "--method surrogate needs --by SURROGATE, the series beside it",
            "--method linear --by B": "--method linear takes no --by",
            "--method linear -o rows.txt": "rows.txt does not end with .csv",
            f"--method linear -o {self.room}/other.csv": "other.csv has other rows; give another name",
        }.items():
            with self.subTest(words):
                ran = workbook("splice", self.folder, "A", *words.split(), cwd=self.room)
                self.assertEqual(ran.returncode, 2)
                self.assertIn(said, ran.stderr)

    def test_refused_file(self) -> None:
        self.write(f"{A}|activity,,A,1993,1,,,TJ")
        ran = workbook("splice", self.folder, "A", "--method", "linear")
        self.assertEqual((ran.returncode, ran.stdout), (1, ""))
        self.assertIn("1 of 1 file is refused, and nothing is spliced", ran.stderr)

    def test_picture(self) -> None:
        self.write(A)
        picture = self.room / "a.svg"
        ran = workbook("splice", self.folder, "A", "--method", "linear", "--plot", picture)
        if not HAS_MATPLOTLIB:
            self.assertEqual((ran.returncode, ran.stdout), (2, ""))
            self.assertIn("splice --plot needs the library matplotlib; install it: apt install", ran.stderr)
            self.skipTest("python3-matplotlib is not installed")
        text = picture.read_text(encoding="utf-8")
        for word in ("<svg", "filled, linear", "TJ", "1990"):
            self.assertIn(word, text)


if __name__ == "__main__":
    unittest.main()
