"""The example country whole: no fault, the tables of tests/country, and which years are estimated."""
import pathlib
import tempfile
import unittest
from collections.abc import Iterable

from tests.oracle.model import FORMS, Office, output_of
from tests.workbook.running import TOP, session, workbook
from tools import vocabulary

# The folders of the country, in their order.
COUNTRY = ["examples/fuel-combustion", "examples/small-country", "examples/waste", "examples/uncertainties"]


def files() -> list[pathlib.Path]:
    """The country's files in their order."""
    return [path for folder in COUNTRY for path in sorted((TOP / folder).glob("*.csv"))]


def script(*tables: Iterable[str]) -> bytes:
    """A session script of the country's files and of tables."""
    parts = []
    for path in files():
        data = path.read_bytes()
        parts.append(b"SUBMIT %s %d\n%b" % (path.stem.encode(), len(data), data))
    return b"".join(parts) + "".join(f"SHOW {table}\n" for table in tables).encode() + b"END\n"


class Country(unittest.TestCase):
    maxDiff = None

    def test_check_finds_no_fault(self) -> None:
        ran = workbook("check", *COUNTRY)
        self.assertEqual(ran.returncode, 0)
        self.assertRegex(ran.stdout.splitlines()[-1], rf"^{len(files())} files: 0 faults, 0 warnings$")
        self.assertNotIn("no line takes", ran.stdout)

    def test_tables_are_those_of_the_program(self) -> None:
        names = vocabulary.tables()
        printed = session(script(*(f"{name} 2020" for name in names))).decode()
        due = printed.split(f"accepted {len(files())}\n")[1]
        with tempfile.TemporaryDirectory() as out:
            ran = workbook("tables", *COUNTRY, "2020", "-o", out)
            written = {path.name: path.read_text() for path in pathlib.Path(out).iterdir()}
        self.assertEqual(ran.returncode, 0)
        self.assertEqual(sorted(written), sorted(f"{name}-2020.csv" for name in names))
        for name in names:
            rows = written[f"{name}-2020.csv"]
            self.assertIn(f"table {name} 2020 rows {rows.count(chr(10))}\n{rows}", due)
        replies = [line for line in ran.stderr.splitlines() if "accepted" in line]
        self.assertEqual(len(replies), len(files()))
        self.assertIn("examples/fuel-combustion/3-fuel-consumption.csv: accepted, 403 rows", replies)

    def test_tables_are_those_that_are_stored(self) -> None:
        stored = {path.name: path.read_text() for path in sorted((TOP / "tests/country").glob("*.csv"))}
        self.assertEqual(len(stored), 8)
        for name, due in stored.items():
            ran = workbook("tables", *COUNTRY, "2020", "--table", name.removesuffix("-2020.csv"))
            self.assertEqual(ran.stdout, due, name)

    def test_tables_are_those_of_the_model(self) -> None:
        """Each table, also one that is not stored."""
        asked = script(*(f"{name} 2020" for name in vocabulary.tables()))
        self.assertEqual(session(asked), output_of(asked, FORMS, Office().answer))

    def test_one_table_is_printed(self) -> None:
        ran = workbook("tables", *COUNTRY, "2020", "--table", "summary")
        self.assertEqual(ran.stdout.encode(), session(script("summary 2020")).split(b"rows 78\n")[1])

    def test_complete_has_no_gap(self) -> None:
        ran = workbook("complete", *COUNTRY)
        self.assertEqual(ran.returncode, 0)
        rows = {line[:10]: line[11:].split() for line in ran.stdout.splitlines() if line[:2] in ("1A", "2C")}
        self.assertEqual(rows["1A1a CO2  "], ["E"] * 31)
        self.assertNotIn("!", ran.stdout)


if __name__ == "__main__":
    unittest.main()
