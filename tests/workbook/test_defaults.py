"""The rows of defaults: each file is accepted after a span, and says where its figures come from."""
import csv
import decimal
import unittest

from tests.workbook.running import HEADER, TOP, session

FILES = sorted((TOP / "defaults").glob("*.csv"))
SPAN = f"{HEADER}enter,span,,,1990,2020,1990,,,\n".encode()
HALF_LIVES = "volume-5-table-3.3.csv"
NOTE = r"^(Volume \d Table [\d.]+|\w+ Assessment Report, \d{4}).*: .*, from memory$"


def script(bodies: list[bytes]) -> bytes:
    """A session of these bodies."""
    return b"".join(b"SUBMIT s%d %d\n%b" % (at, len(body), body) for at, body in enumerate(bodies)) + b"END\n"


def rows_of(name: str) -> list[dict[str, str]]:
    """The rows of a file by the names of their columns."""
    with open(TOP / "defaults" / name, encoding="utf-8", newline="") as file:
        return list(csv.DictReader(file))


def fuels(name: str, *fronts: str) -> list[list[str]]:
    """The fuels that a file has a factor for, after each of these fronts of a name."""
    names = [row["name"] for row in rows_of(name)]
    return [[name.removeprefix(front) for name in names if name.startswith(front)] for front in fronts]


class Defaults(unittest.TestCase):
    def test_each_is_accepted_behind_a_span(self) -> None:
        for path in FILES:
            replies = session(script([SPAN, path.read_bytes()]))
            self.assertEqual(replies, b"accepted 1\naccepted 2\n", path.name)

    def test_all_are_accepted_together_with_one_report(self) -> None:
        others = [path for path in FILES if "second" not in path.name and "fifth" not in path.name]
        replies = session(script([SPAN, *(path.read_bytes() for path in others)])).decode().splitlines()
        self.assertEqual(replies, [f"accepted {at}" for at in range(1, len(others) + 2)])

    def test_each_row_names_its_table_or_report(self) -> None:
        for path in FILES:
            table = path.stem.replace("volume-", "Volume ").replace("-table-", " Table ")
            for row in rows_of(path.name):
                self.assertRegex(row["note"], NOTE, path.name)
                if path.name.startswith("volume"):
                    self.assertIn(f"{table}:", row["note"])

    def test_each_fuel_has_its_three_gases(self) -> None:
        burnt, = fuels("volume-2-table-1.4.csv", "CO2.")
        self.assertEqual(len(burnt), 53)
        for table, code in (("2.2", "1A1"), ("2.3", "1A2"), ("2.4", "1A4A"), ("2.5", "1A4B")):
            for found in fuels(f"volume-2-table-{table}.csv", f"CH4.{code}.", f"N2O.{code}."):
                self.assertEqual(found, burnt, table)

    def test_each_fuel_but_industrial_wastes_has_a_calorific_value(self) -> None:
        burnt, = fuels("volume-2-table-1.4.csv", "CO2.")
        heated, = fuels("volume-2-table-1.2.csv", "NCV.")
        self.assertEqual(heated, [fuel for fuel in burnt if fuel != "INDUSTRY.WASTE"])

    def test_half_lives_are_those_of_their_rates(self) -> None:
        rows = rows_of(HALF_LIVES)
        self.assertEqual(len(rows), 20)
        for row in rows:
            rate = decimal.Decimal(row["note"].split(" at k ")[1].split(",")[0])
            half_life = decimal.Decimal(2).ln() / rate
            self.assertIn(f"ln 2 / k is {half_life:.2f} years", row["note"])
            columns = [row[column] for column in ("value", "low", "high", "unit")]
            self.assertEqual(columns, [f"{half_life:.1f}", "", "", "yr"])


if __name__ == "__main__":
    unittest.main()
