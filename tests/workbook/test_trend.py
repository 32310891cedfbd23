"""The uncertainty of the trend of the example country, beside what is worked out here in fractions.

Of a line, C is the equivalent of 1990 and D that of 2020, both as they are reported; a and f are the
percentages of its activity data and of its factor. With the sums over all lines,

    K = 100 |D sum C - C sum D| / (|sum C| |100 sum C + C|) f, and L = |D| / |sum C| a sqrt(2)

are columns K and L of Volume 1, Table 3.2, and the whole is the root of the sum of K^2 + L^2. The equivalents
are those of the model in tests/oracle, which knows nothing of the program.
"""
import csv
import json
import math
import pathlib
import tempfile
import unittest
from fractions import Fraction

from tests.oracle.intervals import nearest
from tests.oracle.model import Office, Show, Submit
from tests.oracle.printing import fixed
from tests.workbook.running import HEADER, TOP, workbook
from tests.workbook.test_country import COUNTRY, files
from tests.workbook.test_from_sheets import HAS_LIBRARY
from tests.workbook.test_xlsx import load

BASE_YEAR, YEAR = 1990, 2020
MILLION = 10**6


def due_rows() -> list[list[str]]:
    """The table that is due: each line, and the total."""
    base, now = (reported(year) for year in (BASE_YEAR, YEAR))
    base_sum, now_sum = (sum(tonnes(row["value"]) for row in rows) for rows in (base, now))
    rows, squares = list[list[str]](), [0, 0]
    for was, row in zip(base, now):
        k, j = map(ends, sides(was, row, base_sum, now_sum))
        squares = [square + side**2 + 2 * other**2 for square, side, other in zip(squares, k, j)]
        rows.append([row["code"], row["category"], row["gas"], was["value"], row["value"],
                     *printed(*k), *printed(*roots([2 * side**2 for side in j]))])
    sums = [fixed(base_sum, 3), fixed(now_sum, 3)]
    return [*rows, ["total", "-", "-", *sums, "-", "-", *printed(*roots(squares))]]


def sides(was: dict[str, str], row: dict[str, str], base_sum: int, now_sum: int) -> tuple[Fraction, Fraction]:
    """Of a line in both years K, and J, which is L without the root of 2."""
    of_base, of_now = tonnes(was["value"]), tonnes(row["value"])
    change = Fraction(100 * abs(of_now * base_sum - of_base * now_sum),
                      abs(base_sum) * abs(100 * base_sum + of_base))
    return change * Fraction(row["factor"]), Fraction(abs(of_now), abs(base_sum)) * Fraction(row["activity"])


def reported(year: int) -> list[dict[str, str]]:
    """What the model says of each line in a year: its equivalent and its percentages."""
    text = OFFICE.answer(Show("uncertainty", year))
    return list(csv.DictReader(text.splitlines()[1:]))[:-1]


def office() -> Office:
    """The model with the country's files."""
    made = Office()
    for path in files():
        assert made.answer(Submit(path.stem.encode(), path.read_bytes())).startswith("accepted ")
    return made


def tonnes(gigagrams: str) -> int:
    """A printed figure in tonnes."""
    return int(Fraction(gigagrams) * 1000)


def ends(percent: Fraction) -> tuple[int, int]:
    """A percentage in millionths, rounded down and up."""
    return math.floor(percent * MILLION), math.ceil(percent * MILLION)


def roots(squares: list[int]) -> tuple[int, int]:
    """The root of the first number, rounded down, and that of the second, rounded up."""
    low, high = squares
    return math.isqrt(low), math.isqrt(high) + (math.isqrt(high)**2 < high)


def printed(low: int, high: int) -> list[str]:
    """Millionths of a percent as hundredths, rounded down and up."""
    return [fixed(low // 10**4, 2), fixed(-(-high // 10**4), 2)]


OFFICE = office()


class Trends(unittest.TestCase):
    maxDiff = None

    def test_the_country(self) -> None:
        ran = workbook("trend", *COUNTRY, str(YEAR), "--quiet")
        self.assertEqual((ran.returncode, ran.stderr), (0, ""))
        header, *rows = csv.reader(ran.stdout.splitlines())
        self.assertEqual(header, ["code", "category", "category name", "gas", "base", "value",
                                  "k_low", "k_high", "l_low", "l_high"])
        self.assertEqual([row[:2] + row[3:] for row in rows], due_rows())
        self.assertEqual(next(row[2] for row in rows if row[0] == "LANDFILL.CH4"), "Solid waste disposal")

    def test_the_figures_of_the_page(self) -> None:
        """What docs/REVIEW.md says of the growth of the total, and works out of one line."""
        page = " ".join((TOP / "docs/REVIEW.md").read_text(encoding="utf-8").split())
        base, now, high = (tonnes(due_rows()[-1][column]) for column in (3, 4, -1))
        growth, width = nearest(10**4 * (now - base), base), high // 10
        said = [fixed(number, 2) for number in (growth, width, growth - width, growth + width)]
        self.assertIn("The total grew by {} Gg, or {} % of the base year. That is uncertain by {} percentage points, "
                      "so the growth lies between {} and {} %,".format(fixed(now - base, 3), *said), page)
        was, row = (next(row for row in reported(year) if row["code"] == "POWER.LIGNITE") for year in (BASE_YEAR, YEAR))
        k, j = sides(was, row, base, now)
        length = Fraction(math.isqrt(int(2 * (j * MILLION)**2)), 1000)
        self.assertIn(f"{row['activity'].removesuffix('.00')} and {row['factor']}: - L: {row['value']} / ", page)
        self.assertIn(f"√2 = {fixed(round(length), 3)} - K: ", page)
        self.assertIn(f"{row['factor']} = {fixed(round(k * 1000), 3)} ", page)

    def test_lines_without_percentages(self) -> None:
        ran = workbook("trend", "examples/fuel-combustion", str(YEAR), "--json")
        self.assertEqual(ran.returncode, 0, ran.stderr)
        found = json.loads(ran.stdout)
        self.assertEqual((found["year"], found["base_year"]), (YEAR, BASE_YEAR))
        sums = [sum(tonnes(row["value"]) for row in reported(year) if row["category"].startswith("1"))
                for year in (BASE_YEAR, YEAR)]
        self.assertEqual(found["total"], {"base": fixed(sums[0], 3), "value": fixed(sums[1], 3), "l_low": "-",
                                          "l_high": "-"})
        self.assertEqual(found["lines"][0], {
            "code": "AVIATION.JET", "category": "1A3a", "category_name": "Civil aviation", "gas": "CO2",
            "base": "367.796", "value": "702.845", "k_low": "-", "k_high": "-", "l_low": "-", "l_high": "-"})

    def test_files(self) -> None:
        with tempfile.TemporaryDirectory() as room:
            rows = f"{HEADER}enter,span,,,1990,1991,1990,,,\n"
            (pathlib.Path(room) / "1.csv").write_text(rows)
            ran = workbook("trend", room, "1991", "-o", f"{room}/out")
            written = (pathlib.Path(room) / "out/trendunc-1991.csv").read_text()
        self.assertEqual((ran.returncode, ran.stdout), (0, ""))
        due = "code,category,gas,base,value,k_low,k_high,l_low,l_high\ntotal,-,-,0.000,0.000,-,-,-,-\n"
        self.assertEqual(written, due)

    @unittest.skipUnless(HAS_LIBRARY, "python3-openpyxl is not installed")
    def test_a_file_of_a_spreadsheet(self) -> None:
        with tempfile.TemporaryDirectory() as room:
            path = pathlib.Path(room) / "trend.xlsx"
            for year in ("2019", "2020"):
                ran = workbook("trend", "examples/how-to", year, "-o", path, "--quiet")
                self.assertEqual((ran.returncode, ran.stderr), (0, f"{path}, trendunc: 6 rows\n"))
            headings, *rows = load(path)["trendunc"].iter_rows(values_only=True)
        self.assertEqual(headings, (
            "year", "code", "category", "category name", "gas", "base (Gg CO2 eq)", "value (Gg CO2 eq)",
            "k_low (percent)", "k_high (percent)", "l_low (percent)", "l_high (percent)"))
        self.assertEqual([row[0] for row in rows], [2020] * 6)
        self.assertEqual(rows[0][1:5], ("ACID.N2O", "2B2", "Nitric acid production", "N2O"))

    def test_what_cannot_be_shown(self) -> None:
        for words, status, due in [
            (["examples/how-to", "2030"], 1, "there is no table of 2030: the span is 2018 to 2020"),
            (["no-such-folder", "2020"], 2, "no-such-folder is no folder"),
            (["examples/power-plants", "2020"], 1, "1 of 4 files is refused, and no table is written; "
                                                   "./workbook check examples/power-plants tells why"),
        ]:
            ran = workbook("trend", *words)
            self.assertEqual((ran.returncode, ran.stdout), (status, ""))
            self.assertTrue(ran.stderr.endswith(f"./workbook: {due}\n"), ran.stderr)
        ran = workbook("trend", "examples/how-to", "20")
        self.assertEqual((ran.returncode, ran.stdout), (2, ""))
        self.assertIn("20 is no year: behind the folders stands a year of four digits", ran.stderr)


if __name__ == "__main__":
    unittest.main()
