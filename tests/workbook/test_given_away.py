"""What results and a year's cycle give away: each mistake is told at its place with its cause, and of right
inventories nothing is told.
"""
import contextlib
import io
import pathlib
import tempfile
import unittest

from tests.workbook.inventories import RIGHT, files_of, write
from tests.workbook.mistakes import MISTAKES, NOT_TOLD, STILL_RIGHT, Mistake, changed
from tests.workbook.running import PROGRAM
from tools import command


def told(files: list[list[str]]) -> list[str]:
    """The lines that check prints of files."""
    with tempfile.TemporaryDirectory() as room:
        write(files, pathlib.Path(room))
        arguments = command.parser().parse_args(["check", room, "--program", PROGRAM])
        with contextlib.redirect_stdout(io.StringIO()) as printed:
            arguments.function(arguments)
    return printed.getvalue().splitlines()


def outcome(mistake: Mistake) -> tuple[str, list[str]]:
    """Whether a mistake is named, or only its place, or not even that; and what was printed."""
    files = changed(mistake)
    place = next(f"{at}.csv:{line}" for at, rows in enumerate(files, 1)
                 for line, row in enumerate(rows, 2) if row.startswith(mistake.place))
    printed = told(files)
    there = [line for line in printed if line.startswith((f"{place} ", f"{place}:", f"{place}-"))]
    if any(all(word in line for word in mistake.words) for line in there):
        return "named", printed
    return "place" if there else "not found", printed


class GivenAway(unittest.TestCase):
    maxDiff = None

    def test_right_inventories(self) -> None:
        for name, text in RIGHT.items():
            with self.subTest(name):
                printed = told(files_of(text))
                self.assertRegex(printed[0], "^[0-9]+ files?: 0 faults, 0 warnings$", printed)

    def test_inventories_that_stay_right(self) -> None:
        for name, edits in STILL_RIGHT:
            with self.subTest(name, edits=edits):
                printed = told(changed(Mistake(name, edits, "", ())))
                self.assertRegex(printed[0], "^[0-9]+ files?: 0 faults, 0 warnings$", printed)

    def test_mistakes(self) -> None:
        for mistake in MISTAKES:
            with self.subTest(mistake):
                found, printed = outcome(mistake)
                self.assertEqual(found, "named", printed)

    def test_mistakes_that_are_not_told(self) -> None:
        for mistake in NOT_TOLD:
            with self.subTest(mistake):
                self.assertEqual(outcome(mistake)[0], "not found")


if __name__ == "__main__":
    unittest.main()
