"""The copy of a folder with its cures, and warnings of one cause as one."""
import pathlib
import tempfile
import unittest

from tests.workbook import mixed
from tests.workbook.running import HEADER, HERE, workbook
from tests.workbook.test_recognised import checked
from tools.gathered import cause_of
from tools.recognisers import SMALL, files_of
from tools.faults import warn_of
from tools.sheets import Sheet

MISTAKES = HERE / "twenty/farms/mistakes"
# Rows with what `--mend` writes of them, or None if it leaves them as they are.
MENDED = [
    ("enter,activity,,COAL,2019,\"1,050.5\",,,kt,", "enter,activity,,COAL,2019,1050.5,,,kt,"),
    ("enter,activity,,COAL,2019,1,050,,,ktonnes,", "enter,activity,,COAL,2019,1050,,,kt,"),
    ("enter,activity,,COAL,2019,2,123,,,furlongs,", None),
    ("enter,activity,,DIESEL,2019,42.7,,,PJ (GCV),", None),
    ("enter,factor,,SOILS.EF1,2018,0.0157,,,kg N2O/kg N,", None),
    ("enter,factor,,SOILS.EF1,2018,0.01,,,kg N2O-N/kg N,", "enter,factor,,SOILS.EF1,2018,0.01,,,kg/kg,"),
    ("enter,activity,,COAL,2019,1050000,,,lb,", None),
    ("enter,activity,,COAL,2019,TBD,,,ktonnes,", "enter,activity,,COAL,2019,TBD,,,kt,"),
]


def fault_lines(text: str) -> set[str]:
    """The printed lines of faults."""
    return {line for line in text.splitlines()[:-1] if " warning: " not in line}


class Mending(unittest.TestCase):
    maxDiff = None

    def test_the_copy_has_the_faults_that_are_left(self) -> None:
        before = {path: path.read_bytes() for path in MISTAKES.iterdir()}
        with tempfile.TemporaryDirectory() as room:
            out = pathlib.Path(room) / "out"
            ran = workbook("check", MISTAKES, "--no-warnings", "--mend", out)
            printed, cured = ran.stdout.split(f"written to {out}, with the cures of\n")
            cures = {line.strip() for line in cured.splitlines()[:-1]}
            left = fault_lines(workbook("check", out, "--no-warnings").stdout)
            self.assertEqual(left, set(printed.splitlines()) - cures)
            self.assertGreater(len(cures), 9)
        self.assertEqual({path: path.read_bytes() for path in MISTAKES.iterdir()}, before)

    def test_rows(self) -> None:
        for row, due in MENDED:
            with self.subTest(row), tempfile.TemporaryDirectory() as room:
                folder = pathlib.Path(room) / "folder"
                folder.mkdir()
                body = files_of(mixed.MIXED, row)[0].replace("\n", "\r\n")
                (folder / "1.csv").write_bytes(body.encode())
                workbook("check", folder, "--mend", f"{room}/out")
                mended = (pathlib.Path(room) / "out/1.csv").read_bytes().decode()
                due = body.replace(row, due) if due else body
                pairs = zip(mended.split("\n"), due.split("\n"))
                self.assertEqual([pair for pair in pairs if pair[0] != pair[1]], [])
                self.assertEqual(len(mended), len(due))

    def test_places_that_are_refused(self) -> None:
        with tempfile.TemporaryDirectory() as room:
            folder = pathlib.Path(room) / "folder"
            folder.mkdir()
            (folder / "1.csv").write_text(HEADER)
            for out in (room, str(folder / "out"), f"{room}/none/out"):
                self.assertEqual(workbook("check", folder, "--mend", out).returncode, 2)
            self.assertEqual([path.name for path in folder.iterdir()], ["1.csv"])

    def test_several_folders(self) -> None:
        with tempfile.TemporaryDirectory() as room:
            texts = {"a": "enter,span,,,2019,2020,2019 ,,,\n", "b": "enter,factor,,gwp.CH4,2019,28,,,1,\n"}
            for name, text in texts.items():
                (pathlib.Path(room) / name).mkdir()
                (pathlib.Path(room) / name / "1.csv").write_text(HEADER + text)
            workbook("check", f"{room}/a", f"{room}/b", "--mend", f"{room}/out")
            mended = [(pathlib.Path(room) / f"out/{name}/1.csv").read_text() for name in "ab"]
            self.assertEqual(mended, [
                HEADER + "enter,span,,,2019,2020,2019,,,\n", HEADER + "enter,factor,,GWP.CH4,2019,28,,,1,\n"])
            self.assertIn("2019 ,", (pathlib.Path(room) / "a/1.csv").read_text())


class Gathered(unittest.TestCase):
    def test_many_warnings_of_one_cause_are_one(self) -> None:
        rows = "\n".join(f"enter,activity,,SPARE{at},2019,{at},,,kt," for at in range(1, 13))
        printed = checked(SMALL, rows)
        cause = "no line takes activity SPARE1 (2019); 12 like this, the next at 1.csv:38 and 1.csv:39"
        self.assertEqual(printed, [f"1.csv:37 warning: {cause}", "1 file: 0 faults, 12 warnings"])

    def test_the_largest_by_their_emissions(self) -> None:
        rows = "\n".join(f"enter,factor,,SPARE{at},2019,{at},,,kg/TJ," for at in range(1, 12))
        rows += "\n-enter,activity,,COAL,2020\n-enter,activity,,COWS,2020"
        printed = checked(SMALL, rows)
        head = printed.index("of the largest emissions, in Gg of CO2 equivalents in 2021:")
        # 1020 kt * 25.8 TJ/Gg * 94600 kg/TJ, and 245000 head * 126 kg/head * 28
        self.assertEqual(printed[head + 1:-1], ["  2,489.494 at 1.csv:14", "  864.360 at 1.csv:20"])

    def test_causes(self) -> None:
        sheet = Sheet("1.csv", b"")
        one = cause_of(warn_of(sheet, "activity COAL has no record of 2019; line COAL.CO2 is blank there"))
        cause = "activity GAS has no record of 2018 to 2020; lines A and B are blank there"
        more = cause_of(warn_of(sheet, cause))
        self.assertEqual(one, more)
        self.assertNotEqual(one, cause_of(warn_of(sheet, "activity COAL is negative: -3 kt in 2019")))


if __name__ == "__main__":
    unittest.main()
