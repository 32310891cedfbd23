"""What a figure comes of. The figures due are worked out by hand: 2 kt of a fuel with 48 TJ/Gg are 96 TJ, and
at 56100 kg/TJ give 5.3856 Gg; 5 TJ of the year before give 0.2805 Gg.
"""
import json
import pathlib
import tempfile
import unittest

from tests.workbook.running import HEADER, workbook

SPAN = "enter,span,,,1990,1991,1990,,,\n"
ROWS = f"""{HEADER}{SPAN}enter,factor,,GWP.CO2,1990,1,,,1,of CO2
enter,line,1A1a,ENERGY,,Q13,,,,"of ""both"" plants
and more"
enter,bind,ENERGY,FM,,activity,FUEL,,,
enter,bind,ENERGY,NCV,,factor,NCV,,,
enter,line,1A1a,STOCK,,Q22,,,,
enter,bind,STOCK,PR,,sum,ENERGY,,,
enter,bind,STOCK,IM,,key,NO,,,
enter,bind,STOCK,EX,,prev,BUNKER,,,
enter,bind,STOCK,IB,,key,NO,,,
enter,bind,STOCK,SC,,line,BUNKER,,,
enter,line,1A2,BUNKER,,Q23,,,,
enter,bind,BUNKER,IM,,activity,BUNKER,,,
enter,bind,BUNKER,EX,,key,NA,,,
enter,bind,BUNKER,IB,,key,NO,,,
enter,bind,BUNKER,SC,,key,NO,,,
enter,line,1A1a,GAS,,Q10,,,,
enter,bind,GAS,FC,,line,ENERGY,,,
enter,bind,GAS,EF,,factor,EF,,,
enter,line,1A2,STEEL,,Q10,,,,
enter,bind,STEEL,FC,,prev,STOCK,,,
enter,bind,STEEL,EF,,factor,EF,,,
enter,line,1A2,PEAT,,Q11,,,,
enter,bind,PEAT,FC,,activity,PEAT,,,
enter,bind,PEAT,EF,,factor,EF,,,
enter,line,3B1,WOOD,,Q84,,,,
enter,bind,WOOD,C,,activity,WOOD,,,
enter,activity,,WOOD,1990,3,,,GgC,
enter,activity,,PEAT,1990,NE,,,TJ,
enter,activity,,BUNKER,1990,91,,,TJ,
enter,activity,,BUNKER,1991,NO,,,TJ,
enter,activity,,FUEL,1990,2,2,3,kt,a note
enter,activity,,FUEL,1991,2,2,3,kt,
enter,factor,,NCV,1990,48,,,TJ/Gg,
enter,factor,,EF,1990,56100,,,kg/TJ,
"""


class Traces(unittest.TestCase):
    maxDiff = None

    def traced(self, *words: str, rows: str = ROWS) -> str:
        """What is printed of a figure of the rows."""
        with tempfile.TemporaryDirectory() as room:
            (pathlib.Path(room) / "1.csv").write_text(rows)
            ran = workbook("trace", room, *words)
        self.assertEqual(ran.returncode, 0, ran.stderr)
        return ran.stdout

    def test_down_to_the_records(self) -> None:
        self.assertEqual(self.traced("1990", "GAS"), """\
GAS 1990 = 5.386 Gg CO2, 5.385 to 8.079
  1A1a Main activity electricity and heat production; 1.csv:19
  Q10, Fuel burnt, to CO2: FC * EF * 1/1000000 (Volume 2, Equation 2.1)
  equivalent 5.386 Gg of CO2, by factor GWP.CO2 since 1990 = 1; 1.csv:3, "of CO2"
  FC, energy in TJ: line ENERGY; 1.csv:20
    ENERGY 1990 = 96.000000 TJ, 96.000000 to 144.000000
      1A1a Main activity electricity and heat production; 1.csv:4, "of \\"both\\" plants\\nand more"
      Q13, Mass of fuel, to energy, by its net calorific value: FM * 1/1000 * NCV \
(No numbered equation of the Guidelines)
      FM, mass in t: activity FUEL of 1990 = 2, 2 to 3 kt (1 kt is 1000 t); 1.csv:34, "a note"
      NCV, net calorific value in TJ/Gg: factor NCV since 1990 = 48 TJ/Gg; 1.csv:36
  EF, emission factor of fuel in kg/TJ: factor EF since 1990 = 56100 kg/TJ; 1.csv:37
""")

    def test_forms_of_bindings(self) -> None:
        lines = self.traced("1991", "STEEL").splitlines()
        self.assertEqual(lines[0], "STEEL 1991 = 0.281 Gg CO2, 0.280 to 2.974")
        due = ["  FC, energy in TJ: the year before of line STOCK; 1.csv:23",
               "    STOCK 1990 = 5.000000 TJ, 5.000000 to 53.000000",
               "      PR, energy in TJ: the sum of ENERGY; 1.csv:9",
               "        ENERGY 1990 = 96.000000 TJ, 96.000000 to 144.000000",
               "      IM, energy in TJ: zero, NO (not occurring); 1.csv:10",
               "      EX, energy in TJ: the year before of line BUNKER = zero, since 1990 is the first year "
               "of the span; 1.csv:11",
               "      SC, energy in TJ: line BUNKER; 1.csv:13",
               "        BUNKER 1990 = 91.000000 TJ, 91.000000 to 91.000000"]
        self.assertEqual([line for line in lines if line in due], due)

    def test_a_line_is_shown_once(self) -> None:
        lines = self.traced("1991", "STOCK").splitlines()
        shown = [line.strip() for line in lines if line.strip().startswith("BUNKER 199")]
        self.assertEqual(shown, ["BUNKER 1990 = 91.000000 TJ, 91.000000 to 91.000000",
                                 "BUNKER 1991 = 0.000000 TJ, 0.000000 to 0.000000"])
        again = self.traced("1990", "BOTH", rows=ROWS + "".join([
            "enter,line,1A1a,BOTH,,Q23,,,,\n", "enter,bind,BOTH,IM,,line,ENERGY,,,\n",
            "enter,bind,BOTH,EX,,line,ENERGY,,,\n", "enter,bind,BOTH,IB,,key,NO,,,\n",
            "enter,bind,BOTH,SC,,key,NO,,,\n"]))
        self.assertIn("\n    ENERGY 1990 = 96.000000 TJ, 96.000000 to 144.000000; as above\n", again)

    def test_what_is_blank(self) -> None:
        self.assertIn("PEAT 1990 = NE, blank\n", self.traced("1990", "PEAT"))
        self.assertIn("  FC, energy in TJ: activity PEAT of 1990 = NE (not estimated) TJ; 1.csv:31\n",
                      self.traced("1990", "PEAT"))
        traced = self.traced("1991", "PEAT")
        self.assertIn("  FC, energy in TJ: activity PEAT = no record of 1991, so that the line is blank; "
                      "1.csv:26\n", traced)
        self.assertIn("  equivalent NE, since no GWP.CH4 is in force\n", traced)

    def test_totals_by_size(self) -> None:
        self.assertEqual(self.traced("1990", "total:0"), """\
0 National total, 1990 = -5.614 Gg of CO2 equivalent, -5.615 to -2.921
  its lines by size, in Gg of CO2 equivalent; the percentage of the total is worked out here
  -11.000, -195.94 %: WOOD, 3B1, CO2; 1.csv:28
  5.386, 95.94 %: GAS, 1A1a, CO2; 1.csv:19
  NE, counts as zero: PEAT, 1A2, CH4; 1.csv:25
  0.000, 0.00 %: STEEL, 1A2, CO2; 1.csv:22
""")

    def test_totals_without_land(self) -> None:
        lines = self.traced("1990", "gross").splitlines()
        due = "the total without land, 1990 = 5.386 Gg of CO2 equivalent, 5.385 to 8.079"
        self.assertEqual(lines[0], due)
        names = [line.split(": ")[1].split(",")[0] for line in lines[2:]]
        self.assertEqual(names, ["GAS", "PEAT", "STEEL"])
        self.assertEqual(self.traced("1990", "total:5").splitlines()[1], "  no line stands there")

    def test_as_json(self) -> None:
        made = json.loads(self.traced("1991", "STEEL", "--json"))
        self.assertEqual([(line["name"], line["year"]) for line in made["lines"]],
                         [("STEEL", 1991), ("STOCK", 1990), ("ENERGY", 1990), ("BUNKER", 1990)])
        self.assertEqual(made["lines"][2]["taken"][0]["record"], {
            "kind": "activity", "name": "FUEL", "year": 1990, "value": "2", "low": "2", "high": "3",
            "unit": "kt", "place": "1.csv:34", "note": "a note"})
        made = json.loads(self.traced("1990", "total:1A1a", "--json"))
        self.assertEqual(made, {
            "code": "total:1A1a", "year": 1990, "value": "5.386", "low": "5.385", "high": "8.079",
            "lines": [{"line": "GAS", "category": "1A1a", "gas": "CO2", "equivalent": "5.386",
                       "percent_of_total": "100.00"}]})

    def test_chains_are_followed_to_their_end(self) -> None:
        rows = ["enter,line,RA,L0000,,Q13,,,,", "enter,bind,L0000,FM,,key,NO,,,",
                "enter,bind,L0000,NCV,,key,NO,,,"]
        for number in range(1, 1200):
            rows += [f"enter,line,RA,L{number:04},,Q22,,,,",
                     f"enter,bind,L{number:04},PR,,line,L{number - 1:04},,,"]
            rows += [f"enter,bind,L{number:04},{name},,key,NO,,," for name in ("IM", "EX", "IB", "SC")]
        body = HEADER + SPAN + "\n".join(rows) + "\n"
        traced = self.traced("1990", "L1199", rows=body)
        self.assertEqual(traced.count("L0000 1990 = 0.000000 TJ"), 1)
        self.assertEqual(max(len(line) - len(line.lstrip()) for line in traced.splitlines()), 22)
        self.assertEqual(len(json.loads(self.traced("1990", "L1199", "--json", rows=body))["lines"]), 1200)


class Refusals(unittest.TestCase):
    def test_what_is_none(self) -> None:
        with tempfile.TemporaryDirectory() as room:
            (pathlib.Path(room) / "1.csv").write_text(ROWS)
            for words, due in {
                ("1990", "GAZ"):
                    "there is no line GAZ; near it is GAS; totals are written gross and total:1A1a",
                ("1990", "1a1"): "there is no line 1a1; write total:1A1 for 1A1 Energy industries",
                ("1990", "total:1.A.1"): "there is no line total:1.A.1; write total:1A1 for 1A1 Energy "
                                         "industries",
                ("1990", "total:MB"): "there is no line total:MB; totals are written gross and total:1A1a",
                ("1992", "GAS"): "there is no table of 1992: the span is 1990 to 1991",
            }.items():
                ran = workbook("trace", room, *words)
                self.assertEqual((ran.returncode, ran.stdout), (1, ""))
                self.assertTrue(ran.stderr.endswith(f"./workbook: {due}\n"), ran.stderr)

    def test_a_refused_file_is_told(self) -> None:
        ran = workbook("trace", "examples/power-plants", "2020", "gross")
        self.assertEqual(ran.returncode, 1)
        self.assertIn("1 of 4 files is refused, and the figures are without it; ./workbook check", ran.stderr)


if __name__ == "__main__":
    unittest.main()
