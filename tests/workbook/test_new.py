"""`new` makes a folder in which all that is missing are the figures."""
import csv
import itertools
import pathlib
import re
import tempfile
import unittest

from tests.workbook.running import workbook
from tools import new_folder, vocabulary
from tools.place_notices import words_of_parameters

SPAN = ("--first", "2019", "--last", "2020")
# What cannot be carried out, and what is said of it.
REFUSED = {
    ("--first", "2020", "--last", "2019", "--categories", "2A1"): "2020 to 2019 is no span of years",
    ("--first", "1900", "--last", "2100", "--categories", "2A1"): "1900 to 2100 is no span of years",
    (*SPAN, "--categories", "9Z"): "there is no category 9Z; ./workbook words categories lists them",
    (*SPAN, "--categories", "1.B.1.a"): "there is no category 1.B.1.a; this tree has 1B1 undivided; write 1B1",
    (*SPAN, "--categories", "1C"): "no line is made, and no folder",
    (*SPAN, "--categories", "2.F.1"): "no equation emits the gases of 2.F.1; ./workbook words templates other-gases",
    (*SPAN, "--categories", "2B3=NONE"): '"NONE" is no notation key: NO, NA, IE or NE',
    (*SPAN, "--categories", "1A1a:hard coal"): '"HARD COAL" is no name: a letter, then letters, digits, ".", "_" '
                                               'and "-"; write HARD.COAL',
    (*SPAN, "--categories", "3C3:UREA"): "3C3 has one set of lines; write it without a colon",
    (*SPAN, "--categories", "3A1:COWS,"): '"" is no name',
    (*SPAN, "--categories", "3A1:1COW"): '"1COW" is no name',
    (*SPAN, "--categories", "1A4a:COKE.OF.REFINERY"): "the name COKE.OF.REFINERY.1A4A.CO2 would have 25",
    (*SPAN, "--categories", "2A1", "2A2:CEMENT"): "the name CEMENT.CO2 would mean two things at 2A1 and 2A2",
    (*SPAN, "--categories", "1B2:COWS", "3A1:COWS"): "the name COWS would mean two things at 1B2 and 3A1",
}


def fill_in(folder: pathlib.Path) -> None:
    """Writes figures into each empty row."""
    for name in ("2-factors.csv", "3-activities.csv", "5-uncertainties.csv"):
        rows = list(csv.reader((folder / name).read_text(encoding="utf-8").splitlines()))
        for row in rows[1:]:
            row[5] = "7" if row[8] == vocabulary.HALF_LIFE_UNIT else "0.5"
            row[6] = "5" if row[1] == "uncert" else ""
        with (folder / name).open("w", encoding="utf-8", newline="") as file:
            csv.writer(file, lineterminator="\n").writerows(rows)


class New(unittest.TestCase):
    def setUp(self) -> None:
        room = tempfile.TemporaryDirectory()
        self.addCleanup(room.cleanup)
        self.folder = pathlib.Path(room.name) / "made/inventory"

    def test_figures_alone_are_missing(self) -> None:
        made = workbook("new", self.folder, *SPAN, "--uncertainties", "--categories", "1.A.1.a:GAS,COAL", "3A1")
        self.assertEqual((made.returncode, made.stderr.splitlines()), (0, [
            "1A1a: defaults/ has nothing of GAS; near it: NATURAL.GAS",
            "1A1a: defaults/ has nothing of COAL; near it: ANTHRACITE, COKING.COAL, BITUMINOUS, SUB.BITUMINOUS, "
            "LIGNITE, BKB, PATENT.FUEL"]))
        ran = workbook("check", self.folder)
        checked = ran.stdout.splitlines()
        self.assertEqual((ran.returncode, len(checked)), (1, 13))
        self.assertIn('3-activities.csv:2-3 value "": activity GAS.1A1A has no figure yet (fuel burnt); '
                      "write a number in TJ, or a notation key (NO, NA, IE or NE)", checked)
        self.assertIn('5-uncertainties.csv:2-8 value "": the uncertainty has no percentages yet; write percent of the '
                      "activity data into value, and of the emission factor into low", checked)
        self.assertEqual(checked[-1], "5 files: 0 faults, 1 warning; 5 of 32 figures are filled in, 15 %")

    def test_lines_of_all_categories_are_sound(self) -> None:
        codes = ("0", *vocabulary.MEMOS)
        made = workbook("new", self.folder, *SPAN, "--uncertainties", "--categories", *codes)
        *told, last = made.stderr.splitlines()
        without = {line.split()[0] for line in told}
        self.assertIn("./workbook words templates", last)
        leaves = [leaf for code in codes for leaf in vocabulary.leaves_under(code)]
        self.assertEqual(without, set(leaves) - set(new_folder.tier_1()))
        fill_in(self.folder)
        checked = workbook("check", self.folder, "--no-warnings")
        self.assertEqual(checked.stdout, "5 files: 0 faults, 0 warnings\n")
        total = workbook("tables", self.folder, "2020", "--table", "uncertainty").stdout.splitlines()[-1]
        self.assertNotIn("-", total.rsplit(",", 2)[1:])
        shown = workbook("tables", self.folder, "2020", "--table", "cells").stdout
        self.assertNotIn(",NE", shown)
        self.assertEqual(set(leaves) - without, {line.split(",")[1] for line in shown.splitlines()[1:]})

    def test_no_name_is_that_of_another_parameter(self) -> None:
        for row in itertools.chain.from_iterable(new_folder.tier_1().values()):
            words = words_of_parameters(row["equation"])
            parts = set(re.split("[ ._-]", row["target"]))
            if row["form"] in ("activity", "factor", "line", "sum") and not parts & words.get(row["parameter"], set()):
                others = [other for other, own in words.items() if row["parameter"] in words and parts & own]
                self.assertEqual(others, [], row)

    def test_categories_with_a_notation_key_need_no_figure(self) -> None:
        for key in vocabulary.words()["keys"]:
            folder = self.folder / key
            workbook("new", folder, *SPAN, "--categories", f"0={key}", f"RA={key}")
            self.assertEqual([path.name for path in sorted(folder.iterdir())],
                             ["1-years-and-potentials.csv", "4-lines.csv"])
            checked = workbook("check", folder, "--no-warnings").stdout
            self.assertEqual(checked, "2 files: 0 faults, 0 warnings\n")
            shown = workbook("complete", folder).stdout
            self.assertIn(f"2B3  N2O   {key} {key}\n", shown)

    def test_notes_say_where_defaults_stand(self) -> None:
        workbook("new", self.folder, *SPAN, "--categories", "1A1a:LIGNITE", "3A1:DAIRY", "3C4", "4A:FOOD")
        factors = (self.folder / "2-factors.csv").read_text(encoding="utf-8")
        for due in ("CO2.LIGNITE,2019,,,,kg/TJ,CO2 of the fuel; a default: defaults/volume-2-table-1.4.csv\n",
                    "; defaults ENTERIC.DAIRY.*: defaults/volume-4-table-10.11.csv\n",
                    "; defaults N2O.PASTURE.*: defaults/volume-4-table-11.1.csv\n",
                    "; defaults HALFLIFE.FOOD.*: defaults/volume-5-table-3.3.csv\n"):
            self.assertIn(due, factors)

    def test_names_of_defaults_fit(self) -> None:
        animals = [name.removeprefix("ENTERIC.") for name in new_folder.default_files() if name.startswith("ENTERIC.")]
        rows = [row for leaf in ("3A1", "3A2", "3C6")
                for row in new_folder.rows_of(leaf, new_folder.Choice(animals, ""))]
        new_folder.check_names(rows, new_folder.figures(rows))

    def test_no_figure_has_the_name_of_a_line(self) -> None:
        for leaf in new_folder.tier_1():
            rows = new_folder.rows_of(leaf, new_folder.chosen([leaf])[leaf])
            figures = {figure.name for figure in new_folder.figures(rows)}
            self.assertEqual({row["line"] for row in rows} & figures, set(), leaf)

    def test_all_that_cannot_be_is_told_at_once(self) -> None:
        made = workbook("new", self.folder, *SPAN, "--categories", "9Z", "2F1", "2A1", "1A1a:9")
        self.assertEqual([line[:len("./workbook: ") + 5] for line in made.stderr.splitlines()],
                         ["./workbook: there", "./workbook: no eq", './workbook: "9" i'])

    def test_the_hint_can_be_copied(self) -> None:
        folder = self.folder.parent / "my inventory"
        made = workbook("new", folder, *SPAN, "--categories", "2A1")
        self.assertIn(f"./workbook check '{folder}' tells", made.stdout)

    def test_terms_are_summed(self) -> None:
        workbook("new", self.folder, *SPAN, "--categories", "4A:PAPER,FOOD")
        lines = (self.folder / "4-lines.csv").read_text(encoding="utf-8")
        self.assertIn("enter,bind,LANDFILL.CH4,GEN,,sum,PAPER.GENERATED FOOD.GENERATED,,,", lines)

    def test_what_cannot_be_is_told(self) -> None:
        for words, said in REFUSED.items():
            with self.subTest(words[5:]):
                made = workbook("new", self.folder, *words)
                self.assertEqual((made.returncode, made.stdout), (2, ""))
                self.assertIn(f"./workbook: {said}", made.stderr)
                self.assertFalse(self.folder.exists())

    def test_a_folder_with_files_is_left_alone(self) -> None:
        self.folder.mkdir(parents=True)
        (self.folder / "notes.txt").write_text("mine", encoding="utf-8")
        made = workbook("new", self.folder, *SPAN, "--categories", "2A1")
        self.assertEqual(made.returncode, 2)
        self.assertEqual([path.name for path in self.folder.iterdir()], ["notes.txt"])
        self.assertEqual([path.name for path in self.folder.parent.iterdir()], ["inventory"])


if __name__ == "__main__":
    unittest.main()
