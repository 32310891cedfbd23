"""A rule that `check` has no explanation of: it tells when the rule is broken, and goes on without the row."""
import unittest
from unittest import mock

from tools.check import Check
from tools.program import Program, Reply, read_reply
from tools.sheets import COLUMNS, Sheet, joined

LATE = b"enter,activity,,LATE,1990,1,,,t,"
RIGHT = b"enter,activity,,A,1990,1,,,t,"


class Answers(Program):
    """Answers as a program would that has one rule more."""

    def __init__(self, of_the_whole: str) -> None:
        self.of_the_whole = of_the_whole

    def submit(self, body: bytes) -> Reply:
        rows = body.splitlines()
        if LATE in rows:
            return read_reply(f"refused 14 Late row {rows.index(LATE)}")
        return read_reply(self.of_the_whole)


class Unexplained(unittest.TestCase):
    def told(self, of_the_whole: str) -> tuple[list[str], int]:
        """The faults of a file with a row that is late, and how many files are left out."""
        data = b"\n".join([joined(COLUMNS), RIGHT, LATE, RIGHT, LATE, b""])
        check = Check(Answers(of_the_whole), [Sheet("1.csv", data)])
        with mock.patch("tools.check.broken_if", {14: "the row is late", 15: "all is late"}.__getitem__):
            check.run()
        return list(map(str, check.faults)), len(check.left)

    def test_a_row(self) -> None:
        due = [f"1.csv:{line}: the program answers: refused 14 Late row {row}: the row is late"
               for line, row in ((3, 2), (5, 3))]
        self.assertEqual(self.told("accepted 1"), (due, 0))

    def test_a_file(self) -> None:
        told, left = self.told("refused 15 AllLate")
        self.assertEqual((told[2:], left), (["1.csv:1: the program answers: refused 15 AllLate: all is late"], 1))


if __name__ == "__main__":
    unittest.main()
