"""What differs between two states. The figures due are worked out by hand: 1000 TJ at 56100 kg/TJ are 56.1
Gg, and 1100 TJ are 61.71 Gg; 2 TJ at 1000 kg/TJ of CH4 are 0.002 Gg, with 25 0.05 Gg of CO2 equivalent.
"""
import json
import pathlib
import subprocess
import tempfile
import unittest

from tests.workbook.running import HEADER, PROGRAM, workbook

ROWS = f"""{HEADER}enter,span,,,1990,1992,1990,,,
enter,factor,,GWP.CO2,1990,1,,,1,
enter,factor,,GWP.CH4,1990,25,,,1,
enter,line,1A1a,GAS,,Q10,,,,
enter,bind,GAS,FC,,activity,GAS,,,
enter,bind,GAS,EF,,factor,EF,,,
enter,line,1A2,STEEL,,Q10,,,,
enter,bind,STEEL,FC,,prev,FUEL,,,
enter,bind,STEEL,EF,,factor,EF,,,
enter,line,1A2,FUEL,,Q23,,,,
enter,bind,FUEL,IM,,activity,GAS,,,
enter,bind,FUEL,EX,,key,NO,,,
enter,bind,FUEL,IB,,key,NO,,,
enter,bind,FUEL,SC,,key,NO,,,
enter,line,1A2,COKE,,Q11,,,,
enter,bind,COKE,FC,,activity,COKE,,,
enter,bind,COKE,EF,,factor,COKE,,,
enter,line,MB,SHIPS,,Q10,,,,
enter,bind,SHIPS,FC,,activity,SHIPS,,,
enter,bind,SHIPS,EF,,factor,EF,,,
enter,activity,,GAS,1990,1000,,,TJ,
enter,activity,,GAS,1991,1000,900,1100,TJ,
enter,activity,,GAS,1992,1000.50,,,TJ,
enter,activity,,COKE,1991,2,,,TJ,
enter,activity,,SHIPS,1991,10,,,TJ,
enter,factor,,EF,1990,56100,,,kg/TJ,
enter,factor,,COKE,1990,1000,,,kg/TJ,
"""


def plants(categories: list[str], terajoules: str, factor: int) -> str:
    """A plant in each of some categories, all with one factor, each with an activity of its own."""
    rows = [f"{HEADER}enter,span,,,1990,1990,1990,,,\nenter,factor,,GWP.CO2,1990,1,,,1,\n"
            f"enter,factor,,EF,1990,{factor},,,kg/TJ,\n"]
    for number, category in enumerate(categories, 1):
        name = f"P{number:03}"
        rows.append(f"enter,line,{category},{name},,Q10,,,,\nenter,bind,{name},FC,,activity,{name},,,\n"
                    f"enter,bind,{name},EF,,factor,EF,,,\nenter,activity,,{name},1990,{terajoules},,,TJ,\n")
    return "".join(rows)


class Comparisons(unittest.TestCase):
    maxDiff = None

    def compared(self, after: str, *words: str, before: str = ROWS, status: int = 0) -> str:
        """What is printed of two states of one file each."""
        with tempfile.TemporaryDirectory() as room:
            for name, rows in (("old", before), ("new", after)):
                (pathlib.Path(room) / name).mkdir()
                (pathlib.Path(room) / name / "1.csv").write_text(rows)
            options = [word for word in words if word.startswith("--")]
            years = [word for word in words if not word.startswith("--")]
            ran = workbook("compare", *options, "old", "--", "new", *years, cwd=room)
        self.assertEqual(ran.returncode, status, ran.stderr)
        return ran.stdout

    def test_a_corrected_activity(self) -> None:
        after = ROWS + "correct,activity,,GAS,1991,1100,900,1100,TJ,the new balance\n"
        self.assertEqual(self.compared(after), """\
nothing differs in 1990
national total in Gg of CO2 equivalent:
  1991: 112.250 to 117.860, +5.610, 5.00 %
  1992: 112.228 to 117.838, +5.610, 5.00 %
1991, totals in Gg of CO2 equivalent:
  0 National total: 112.250 to 117.860, +5.610, 5.00 %
  1 Energy: 112.250 to 117.860, +5.610, 5.00 %
  1A Fuel combustion activities: 112.250 to 117.860, +5.610, 5.00 %
  1A1 Energy industries: 56.100 to 61.710, +5.610, 10.00 %
  1A1a Main activity electricity and heat production: 56.100 to 61.710, +5.610, 10.00 %
  total without land: 112.250 to 117.860, +5.610, 5.00 %
1991, categories by gas in Gg of CO2 equivalent:
  1A1a, CO2: 56.100 to 61.710, +5.610, 10.00 %
    line GAS, by new/1.csv:29
1991, lines:
  GAS, 1A1a, CO2, in Gg of CO2 equivalent: 56.100 to 61.710, +5.610, 10.00 %
1991, rows:
  activity GAS 1991: 1000 (900 to 1100) TJ to 1100 (900 to 1100) TJ; new/1.csv:29, before old/1.csv:23, \
"the new balance"
    in GAS, +5.610
1992, totals in Gg of CO2 equivalent:
  0 National total: 112.228 to 117.838, +5.610, 5.00 %
  1 Energy: 112.228 to 117.838, +5.610, 5.00 %
  1A Fuel combustion activities: 112.228 to 117.838, +5.610, 5.00 %
  1A2 Manufacturing industries and construction: 56.100 to 61.710, +5.610, 10.00 %
  total without land: 112.228 to 117.838, +5.610, 5.00 %
1992, categories by gas in Gg of CO2 equivalent:
  1A2, CO2: 56.100 to 61.710, +5.610, 10.00 %
    line STEEL, by new/1.csv:29
1992, lines:
  STEEL, 1A2, CO2, in Gg of CO2 equivalent: 56.100 to 61.710, +5.610, 10.00 %
1992, rows:
  activity GAS 1991: 1000 (900 to 1100) TJ to 1100 (900 to 1100) TJ; new/1.csv:29, before old/1.csv:23, \
"the new balance"
    in STEEL, +5.610
""")

    def rows(self, after: str, year: int, before: str = ROWS) -> list[tuple[str, str, str, list[str]]]:
        """The rows that made a year differ, each with its lines."""
        made = json.loads(self.compared(after, "--json", str(year), before=before))["years"][0]
        return [(row["record"], row["before"], row["after"], row["lines"]) for row in made["rows"]]

    def test_rows_of_each_kind(self) -> None:
        for change, year, due in [
            ("correct,factor,,GWP.CH4,1990,28,,,1,", 1991,
             [("factor GWP.CH4 1990", "25 1", "28 1", ["COKE"])]),
            ("enter,factor,,EF,1991,55000,,,kg/TJ,", 1991,
             [("factor EF 1991", "none", "55000 kg/TJ", ["GAS", "STEEL", "SHIPS"])]),
            ("withdraw,activity,,GAS,1992,,,,,", 1992,
             [("activity GAS 1992", "1000.50 TJ", "none", ["GAS"])]),
            ("correct,bind,COKE,EF,,factor,EF,,,", 1991,
             [("binding of COKE EF", "factor COKE", "factor EF", ["COKE"])]),
            ("correct,line,1A5,GAS,,Q10,,,,", 1991, [("line GAS", "1A1a Q10", "1A5 Q10", ["GAS"])]),
            ("correct,span,,,1991,1992,1991,,,", 1991,
             [("span", "1990 1992 1990", "1991 1992 1991", ["STEEL"])]),
            ("correct,activity,,GAS,1992,1000.5,1000.5,1000.500,TJ,", 1992, []),
        ]:
            self.assertEqual(self.rows(f"{ROWS}{change}\n", year), due, change)

    def test_lines_that_move_by_less_than_a_tonne(self) -> None:
        """200 plants of 1 TJ at 94600 kg/TJ have 94.6 t each and 18,920 t together; at 94900 they have 94.9 t,
        also printed as 0.095, and 18,980 t.
        """
        before = plants(["1A1a"] * 200, "1", 94600)
        said = self.compared(f"{before}correct,factor,,EF,1990,94900,,,kg/TJ,\n", "1990", before=before)
        self.assertIn("""\
  1A1a, CO2: 18.920 to 18.980, +0.060, 0.32 %
    200 lines by less than a tonne, by new/1.csv:805
1990, lines:
1990, rows:
  factor EF 1990: 94600 kg/TJ to 94900 kg/TJ; new/1.csv:805, before old/1.csv:4
    in 200 lines by less than a tonne
""", said)

    def test_one_line_beside_others_that_move_by_less(self) -> None:
        """At 94950 each has 94.95 t, printed as 0.095; the first, now of 2 TJ, has 189.9 t, and all together
        have 199 x 94.95 + 189.9 = 19,084.95 t. 165 of 18,920 are 0.87 percent.
        """
        before = plants(["1A1a"] * 200, "1", 94600)
        after = f"{before}correct,factor,,EF,1990,94950,,,kg/TJ,\ncorrect,activity,,P001,1990,2,,,TJ,\n"
        said = self.compared(after, "1990", before=before)
        self.assertIn("""\
  1A1a, CO2: 18.920 to 19.085, +0.165, 0.87 %
    line P001, and 199 lines by less than a tonne, by new/1.csv:806, new/1.csv:805
1990, lines:
  P001, 1A1a, CO2, in Gg of CO2 equivalent: 0.095 to 0.190, +0.095, 100.00 %
1990, rows:
  activity P001 1990: 1 TJ to 2 TJ; new/1.csv:806, before old/1.csv:8
    in P001, +0.095
  factor EF 1990: 94600 kg/TJ to 94950 kg/TJ; new/1.csv:805, before old/1.csv:4
    in P001, +0.095, and 199 lines by less than a tonne
""", said)

    def test_a_total_that_differs_alone(self) -> None:
        """Four categories of 10.1 t each have 40.4 t, and of 10.4 t each 41.6 t."""
        before = plants(["1A1a", "1A1b", "1A1c", "1A2"], "0.1", 101000)
        after = f"{before}correct,factor,,EF,1990,104000,,,kg/TJ,\n"
        found = json.loads(self.compared(after, "--json", "1990", before=before))["years"][0]
        self.assertEqual([(row["category"], row["before"], row["after"]) for row in found["categories"]
                          if row["category"] == "0"], [("0", "0.040", "0.042")])
        self.assertEqual((found["gases"], found["lines"]), ([], []))
        self.assertEqual([(row["record"], row["lines"], row["lines_of_less"]) for row in found["rows"]],
                         [("factor EF 1990", [], ["P001", "P002", "P003", "P004"])])

    def test_rows_that_change_no_figure(self) -> None:
        """1100 TJ are 61.71 Gg, 5.61 more; at 55000 kg/TJ 1000 TJ are 55 Gg, 1.1 less. Beside these rows stand
        others of which nothing comes.
        """
        gas, less = "correct,activity,,GAS,1991,1100,900,1100,TJ,\n", "correct,factor,,EF,1990,55000,,,kg/TJ,\n"
        more, fewer = ("activity GAS 1991", "+5.610"), ("factor EF 1990", "-1.100")
        for change, row, due, same in [
            (gas, "correct,factor,,EF,1990,56100,50000,60000,kg/TJ,", more, ["factor EF 1990"]),
            (gas, "correct,factor,,EF,1990,56.1,,,t/TJ,", more, ["factor EF 1990"]),
            (less, "correct,activity,,GAS,1991,1000000,900000,1100000,GJ,", fewer, ["activity GAS 1991"]),
            (gas, "correct,bind,FUEL,EX,,key,NA,,,", more, ["binding of FUEL EX"]),
            (gas, "correct,span,,,1990,1993,1991,,,", more, ["span"]),
            (gas, "enter,factor,,EF,1991,56100,,,kg/TJ,", more, []),
            (gas, "correct,factor,,EF,1990,56100.0,56100,56100.00,kg/TJ,", more, []),
            (gas, "correct,activity,,GAS,1990,1000,900,1100,TJ,", more, []),
        ]:
            found = json.loads(self.compared(f"{ROWS}{change}{row}\n", "--json", "1991"))
            self.assertEqual([(of["record"], of["difference_of_first"]) for of in found["years"][0]["rows"]],
                             [due], row)
            self.assertEqual([of["record"] for of in found["rows_without_effect"]], same, row)

    def test_rows_that_change_no_figure_stand_at_the_end(self) -> None:
        wider = "correct,factor,,EF,1990,56100,50000,60000,kg/TJ,new bounds\n"
        due = ("nothing differs in 1991\nrows that change no figure, as by other bounds or another unit:\n"
               "  factor EF 1990: 56100 kg/TJ to 56100 (50000 to 60000) kg/TJ; new/1.csv:29, before old/1.csv:27, "
               "\"new bounds\"\n")
        self.assertEqual(self.compared(ROWS + wider, "1991"), due)

    def test_the_greatest_comes_first(self) -> None:
        after = ROWS + "correct,factor,,COKE,1990,2000,,,kg/TJ,\ncorrect,activity,,GAS,1991,999,,,TJ,\n"
        names = [row[0] for row in self.rows(after, 1991)]
        self.assertEqual(names, ["activity GAS 1991", "factor COKE 1990"])

    def test_lines_outside_the_tree(self) -> None:
        after = ROWS + "correct,activity,,SHIPS,1991,20,,,TJ,\n"
        self.assertIn("  SHIPS, MB, CO2, in Gg of CO2: 0.561 to 1.122, +0.561, 100.00 %\n",
                      self.compared(after, "1991"))

    def test_a_gas_without_a_potential(self) -> None:
        """In 1991 2 TJ at 1000 kg/TJ are 0.002 Gg of CH4, and 3 TJ 0.003 Gg."""
        potential = "enter,factor,,GWP.CH4,1990,25,,,1,\n"
        before = ROWS.replace(potential, "")
        after = before + "correct,activity,,COKE,1991,3,,,TJ,the new survey\n"
        said = self.compared(after, "1991", before=before)
        self.assertIn("  COKE, 1A2, CH4, in Gg of CH4: 0.002 to 0.003, +0.001, 50.00 %\n", said)
        self.assertIn("  activity COKE 1991: 2 TJ to 3 TJ; new/1.csv:28, before old/1.csv:24, \"the new survey\"\n",
                      said)
        self.assertIn("  COKE, 1A2, CH4, in Gg of CO2 equivalent: NE to 0.050, +0.050\n",
                      self.compared(ROWS, "1991", before=before))

    def test_what_one_state_lacks(self) -> None:
        after = ROWS + ("withdraw,line,,COKE,,,,,,\nwithdraw,bind,COKE,FC,,,,,,\nwithdraw,bind,COKE,EF,,,,,,"
                        "closed\n")
        self.assertIn("  COKE, 1A2, CH4, in Gg of CO2 equivalent: 0.050 to -, -0.050, -100.00 %\n",
                      self.compared(after, "1991"))
        self.assertIn("  COKE, 1A2, CH4, in Gg of CO2 equivalent: - to 0.050, +0.050\n",
                      self.compared(ROWS, "1991", before=after))
        self.assertIn("  1A2, CH4: 0.050 to 0.000, -0.050, -100.00 %\n", self.compared(after, "1991"))
        self.assertIn("1991, rows:\n  line COKE, with its 2 bindings: 1A2 Q11 to none; ",
                      self.compared(after, "1991"))
        self.assertNotIn("binding of", self.compared(after, "1991"))
        self.assertNotIn("binding of", self.compared(ROWS, "1991", before=after))

    def test_a_row_that_the_second_state_has_no_more(self) -> None:
        gone = "enter,activity,,GAS,1990,1000,,,TJ,\n"
        after, line = ROWS.replace(gone, ""), ROWS[:ROWS.index(gone)].count("\n") + 1
        self.assertIn(f"  activity GAS 1990: 1000 TJ to none; before old/1.csv:{line}\n", self.compared(after, "1990"))
        self.assertIn(f"  activity GAS 1990: none to 1000 TJ; new/1.csv:{line}\n",
                      self.compared(ROWS, "1990", before=after))

    def test_spans_that_differ(self) -> None:
        after = ROWS.replace("enter,span,,,1990,1992,1990,,,", "enter,span,,,1990,1993,1991,,,")
        self.assertIn("not compared, since the second state alone has them: 1993\n"
                      "the base year is 1990 in the first state and 1991 in the second\n", self.compared(after))
        self.assertIn("not compared, since the first state alone has them: 1993\n", self.compared(ROWS, before=after))

    def test_a_folder_named_as_a_year(self) -> None:
        with tempfile.TemporaryDirectory() as room:
            for name in ("old", "1991"):
                (pathlib.Path(room) / name).mkdir()
                (pathlib.Path(room) / name / "1.csv").write_text(ROWS)
            ran = workbook("compare", "old", "--", "old", "1991", cwd=room)
            self.assertEqual((ran.returncode, ran.stderr), (
                2, "./workbook: 1991 is a year and a folder; write ./1991 for the folder, or 1991-1991 for the year\n"))
            self.assertEqual(workbook("compare", "old", "--", "./1991", "1991-1991", cwd=room).returncode, 0)

    def test_a_file_of_both_states_is_sent_once(self) -> None:
        with tempfile.TemporaryDirectory() as room:
            for name, rows in (("old/1", ROWS), ("more/2", f"{HEADER}withdraw,activity,,GAS,1991,,,,,\n")):
                (pathlib.Path(room) / name).parent.mkdir()
                (pathlib.Path(room) / f"{name}.csv").write_text(rows)
            ran = workbook("compare", "old", "--", "old", "more", "1991", cwd=room)
        self.assertEqual(ran.stderr, "old/1.csv: accepted, 27 rows\nmore/2.csv: accepted, 1 row\n")
        self.assertIn("  1A1a, CO2: 56.100 to 0.000, -56.100, -100.00 %\n    line GAS, by more/2.csv:2\n",
                      ran.stdout)

    def test_nothing_differs(self) -> None:
        self.assertEqual(self.compared(ROWS), "nothing differs in 1990 to 1992\n")

    def test_a_refused_file(self) -> None:
        after = ROWS + "correct,factor,,EF,1990,5e4,,,kg/TJ,\n"
        self.assertEqual(self.compared(after, status=2), "")
        ran = workbook("compare", "examples/power-plants", "--", "examples/power-plants", "2020")
        self.assertEqual((ran.returncode, ran.stdout), (1, "nothing differs in 2020\n"))
        self.assertEqual(ran.stderr.count("1 of 4 files is refused, and the figures are without it"), 2)

    def test_a_store_as_of_two_submissions(self) -> None:
        more = [f"{HEADER}correct,activity,,GAS,1991,{value},,,TJ,the {value}\n" for value in (1100, 1200)]
        bodies = [ROWS, *more]
        script = "".join(f"SUBMIT s{at} {len(body)}\n{body}" for at, body in enumerate(bodies)) + "END\n"
        with tempfile.TemporaryDirectory() as room:
            store = f"{room}/country.db"
            subprocess.run([PROGRAM, "compile", "--store", "country.db"], input=script.encode(), check=True,
                           capture_output=True, cwd=room)
            ran = workbook("compare", "--store", store, "2", "3", "1991")
            back = workbook("compare", "--store", store, "3", "2", "1991")
            wrong = [workbook("compare", "--store", store, *words)
                     for words in (["2", "4"], ["2"], ["2", "--", "3"], ["0", "3"])]
        self.assertEqual(ran.returncode, 0, ran.stderr)
        self.assertIn("  GAS, 1A1a, CO2, in Gg of CO2 equivalent: 61.710 to 67.320, +5.610, 9.09 %\n",
                      ran.stdout)
        self.assertIn("  activity GAS 1991: 1100 TJ to 1200 TJ; country.db/s2:2, before country.db/s1:2, "
                      "\"the 1200\"\n", ran.stdout)
        self.assertIn("  1A1a, CO2: 67.320 to 61.710, -5.610, -8.33 %\n    line GAS, by country.db/s1:2\n",
                      back.stdout)
        for one in wrong[:3]:
            due = (f"with --store the words are the numbers of two submissions of {store}, of which the last "
                   "is 3, and years")
            self.assertEqual((one.returncode, one.stderr), (2, f"./workbook: {due}\n"))
        self.assertEqual(wrong[3].returncode, 2)

    def test_words(self) -> None:
        for words, due in {
            ("examples/how-to", "examples/how-to"):
                "-- has to stand once, between the folders of the two states",
            ("examples/how-to", "--"): "a folder has to stand on both sides of --",
            ("examples/how-to", "--", "examples/how-to", "2017", "2018"):
                "there is no 2017 in both states: both have 2018 to 2020",
            ("examples/how-to", "--", "examples/how-to", "2016-2018"):
                "there is no 2016 to 2017 in both states: both have 2018 to 2020",
            ("examples/how-to", "--", "no-such-folder"): "no-such-folder is no folder",
        }.items():
            ran = workbook("compare", *words)
            self.assertEqual((ran.returncode, ran.stdout), (2, ""))
            self.assertTrue(ran.stderr.endswith(f"./workbook: {due}\n"), ran.stderr)

    def test_its_own_words_are_told_before_a_program_that_is_missing(self) -> None:
        ran = workbook("compare", "examples/how-to", "examples/how-to", "--program", "/no/such/program")
        self.assertIn("-- has to stand once", ran.stderr)


if __name__ == "__main__":
    unittest.main()
