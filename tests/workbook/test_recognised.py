"""Each recogniser tells of its example and not of the right inventory beside it; the list has its words."""
import contextlib
import io
import pathlib
import tempfile
import unittest

from tests.workbook.running import PROGRAM
from tools import command
from tools.recognised import TABLES
from tools.recognisers import files_of


def checked(base: str, example: str) -> list[str]:
    """The lines that check prints of an example."""
    with tempfile.TemporaryDirectory() as room:
        for at, body in enumerate(files_of(base, example), 1):
            (pathlib.Path(room) / f"{at}.csv").write_text(body, encoding="utf-8", errors="surrogateescape")
        arguments = command.parser().parse_args(["check", room, "--program", PROGRAM])
        with contextlib.redirect_stdout(io.StringIO()) as printed:
            arguments.function(arguments)
    return printed.getvalue().splitlines()


class Recognised(unittest.TestCase):
    maxDiff = None

    def test_examples_are_told_of(self) -> None:
        for each in (each for table in TABLES.values() for each in table):
            with self.subTest(each.name):
                printed = checked(each.base, each.example)
                self.assertTrue(any(each.says in line for line in printed), printed)

    def test_nothing_is_told_of_what_is_right(self) -> None:
        for each in (each for table in TABLES.values() for each in table):
            for rows in ("", each.right):
                with self.subTest(each.name, rows=rows):
                    self.assertRegex(checked(each.base, rows)[0], r"^[0-9]+ files?: 0 faults, 0 warnings$")

    def test_the_list_has_each(self) -> None:
        with contextlib.redirect_stdout(io.StringIO()) as printed, self.assertRaises(SystemExit):
            command.parser().parse_args(["check", "--list"])
        lines = printed.getvalue().splitlines()
        for each in (each for table in TABLES.values() for each in table):
            self.assertIn(f"  {each.told}", lines)


if __name__ == "__main__":
    unittest.main()
