"""What `review` says of two states of the example country, beside figures that are worked out by hand.

The lines are burnt fuel: TJ times kg/TJ, over 1,000,000, are Gg of CO2, whose potential is 1. In 2020, in Gg:

    POWER.GAS        762,800 TJ at 56,100                                   42,793.080
    POWER.LIGNITE    182,700 TJ at 101,000                                  18,452.700
    POWER.COAL       (1,242.1 + 944.6) Gg of 25.8 TJ at 94,600               5,337.034836
    INDUSTRY.COAL     47,332 TJ at 94,600                                    4,477.6072
    INDUSTRY.GAS     205,820 TJ at 56,100                                   11,546.502
    AVIATION.JET       9,830 TJ at 71,500                                      702.845
    HOMES.GAS        130,969 TJ at 56,100                                    7,347.3609
    HOMES.LPG          5,819 TJ at 63,100                                      367.1789

The second state has these changes:

    EAST.COAL is 1,300 kt         57.9 Gg more of 25.8 TJ at 94,600:         + 141.315372
    INDUSTRY.COAL takes LIGNITE   47,332 TJ at 101,000 - 94,600:             + 302.9248
    JET.KEROSENE since 2020       9,830 TJ at 70,000 - 71,500:               -  14.745
    HOMES.LPG is withdrawn                                                   - 367.1789
"""
import json
import pathlib
import shutil
import tempfile
import typing
import unittest

from tests.workbook.running import HEADER, TOP, workbook

COMBUSTION = TOP / "examples/fuel-combustion"
# Category, gas, what was reported, what holds now, the difference, and its percentage of the first.
DUE = [
    # 7,347.3609 + 367.1789 = 7,714.5398
    ("1A4b", "CO2", "7714.540", "7347.361", "-367.179", "-4.76"),
    # 4,477.6072 + 11,546.502 = 16,024.1092, and 4,780.532 + 11,546.502 = 16,327.034
    ("1A2", "CO2", "16024.109", "16327.034", "+302.925", "1.89"),
    # 42,793.080 + 18,452.700 + 5,337.034836 = 66,582.814836, and 66,724.130208
    ("1A1a", "CO2", "66582.815", "66724.130", "+141.315", "0.21"),
    ("1A3a", "CO2", "702.845", "688.100", "-14.745", "-2.10"),
]
LINES = {"1A4b": "HOMES.LPG", "1A2": "INDUSTRY.COAL", "1A1a": "POWER.COAL", "1A3a": "AVIATION.JET"}
RECORDS = {"1A4b": "line HOMES.LPG", "1A2": "binding of INDUSTRY.COAL EF", "1A1a": "activity EAST.COAL 2020",
           "1A3a": "factor JET.KEROSENE 2020"}
# What is another text in the files of the second state, and further rows that come to the same.
LPG = """\
enter,line,1A4b,HOMES.LPG,,Q10,,,,
enter,bind,HOMES.LPG,FC,,activity,HOMES.LPG,,,
enter,bind,HOMES.LPG,EF,,factor,LPG,,,
"""
KEROSENE = "enter,factor,,JET.KEROSENE,2020,70000,,,kg/TJ,\n"
IN_PLACE = {
    "4-lines.csv": [(LPG, ""), ("INDUSTRY.COAL,EF,,factor,COAL.BITUMINOUS",
                                "INDUSTRY.COAL,EF,,factor,LIGNITE")],
    "5-coal-by-mass.csv": [("EAST.COAL,2020,1242.1,1217.3,1266.9", "EAST.COAL,2020,1300,1274,1326")],
    "2-default-factors.csv": [("enter,factor,,LPG", f"{KEROSENE}enter,factor,,LPG")],
}
FURTHER = f"""{HEADER}correct,activity,,EAST.COAL,2020,1300,1274,1326,kt,
correct,bind,INDUSTRY.COAL,EF,,factor,LIGNITE,,,
{KEROSENE}withdraw,line,,HOMES.LPG,,,,,,gas alone
withdraw,bind,HOMES.LPG,FC,,,,,,
withdraw,bind,HOMES.LPG,EF,,,,,,
"""


class Recalculations(unittest.TestCase):
    maxDiff = None

    def compared(self, *after: pathlib.Path) -> dict[str, typing.Any]:
        """What differs in 2020 between the example's files and these folders."""
        ran = workbook("compare", "--quiet", "--json", COMBUSTION, "--", *after, "2020")
        self.assertEqual((ran.returncode, ran.stderr), (0, ""))
        found: dict[str, typing.Any] = json.loads(ran.stdout)["years"][0]
        return found

    def check(self, found: dict[str, typing.Any]) -> None:
        """Compares the table of categories and gases with what is due, and what it is explained by."""
        columns = ["category", "gas", "before", "after", "difference", "percent"]
        self.assertEqual([tuple(row[column] for column in columns) for row in found["gases"]], DUE)
        self.assertEqual({row["category"]: row["lines"] for row in found["gases"]},
                         {code: [line] for code, line in LINES.items()})
        self.assertEqual({row["category"]: row["rows"] for row in found["gases"]},
                         {code: [record] for code, record in RECORDS.items()})

    def places(self, found: dict[str, typing.Any]) -> dict[str, tuple[str, str]]:
        """The places of each record before and after, without the folders."""
        return {row["record"]: (pathlib.Path(row["place_before"]).name, pathlib.Path(row["place"]).name)
                for row in found["rows"]}

    def test_rows_that_are_changed_in_place(self) -> None:
        with tempfile.TemporaryDirectory() as room:
            after = pathlib.Path(room) / "after"
            shutil.copytree(COMBUSTION, after)
            for name, changes in IN_PLACE.items():
                text = (after / name).read_text()
                for before, now in changes:
                    self.assertIn(before, text)
                    text = text.replace(before, now)
                (after / name).write_text(text)
            found = self.compared(after)
        self.check(found)
        self.assertEqual(self.places(found), {
            "line HOMES.LPG": ("4-lines.csv:35", ""),
            "binding of INDUSTRY.COAL EF": ("4-lines.csv:13", "4-lines.csv:13"),
            "activity EAST.COAL 2020": ("5-coal-by-mass.csv:33", "5-coal-by-mass.csv:33"),
            "factor JET.KEROSENE 2020": ("", "2-default-factors.csv:9")})

    def test_rows_of_a_further_file(self) -> None:
        with tempfile.TemporaryDirectory() as room:
            (pathlib.Path(room) / "7-corrections.csv").write_text(FURTHER)
            found = self.compared(COMBUSTION, pathlib.Path(room))
        self.check(found)
        self.assertEqual(self.places(found), {
            "line HOMES.LPG": ("4-lines.csv:35", "7-corrections.csv:5"),
            "binding of INDUSTRY.COAL EF": ("4-lines.csv:13", "7-corrections.csv:3"),
            "activity EAST.COAL 2020": ("5-coal-by-mass.csv:33", "7-corrections.csv:2"),
            "factor JET.KEROSENE 2020": ("", "7-corrections.csv:4")})
        self.assertEqual(next(row["note"] for row in found["rows"] if row["record"] == "line HOMES.LPG"),
                         "gas alone")


if __name__ == "__main__":
    unittest.main()
