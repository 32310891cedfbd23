"""Each folder of `faults` holds one kind of fault, and in due.txt the lines that `./workbook check` has to
print of it.
"""
import pathlib
import unittest
from collections.abc import Callable

from tests.workbook.running import HERE, workbook


class Faults(unittest.TestCase):
    """A test for each folder."""
    maxDiff = None


def of_folder(folder: pathlib.Path) -> Callable[[Faults], None]:
    """The test of a folder."""
    def test(self: Faults) -> None:
        ran = workbook("check", folder)
        due = (folder / "due.txt").read_text(encoding="utf-8")
        self.assertEqual(ran.stdout, due)
        self.assertEqual(ran.stderr, "")
        self.assertEqual(ran.returncode, 0 if ": 0 faults" in due else 1)
    return test


for folder in sorted((HERE / "faults").iterdir()):
    setattr(Faults, "test_" + folder.name.replace("-", "_"), of_folder(folder))

if __name__ == "__main__":
    unittest.main()
