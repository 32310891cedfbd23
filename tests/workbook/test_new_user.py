"""An inventory with more than twenty different mistakes is mended after one check.

Of each folder of `twenty`, `mistakes` holds the inventory, and `mended` what was written after one check.
Where the lines due were written before the check, `mistakes` has them in `due.txt`.
"""
import unittest

from tests.workbook.running import HERE, workbook

INVENTORIES = sorted((HERE / "twenty").iterdir())


class TwentyMistakes(unittest.TestCase):
    maxDiff = None

    def test_one_check_tells_all(self) -> None:
        for inventory in INVENTORIES:
            ran = workbook("check", inventory / "mistakes")
            due = inventory / "mistakes/due.txt"
            if due.exists():
                self.assertEqual(ran.stdout, due.read_text(encoding="utf-8"))
            self.assertEqual(ran.returncode, 1, inventory.name)

    def test_mended_as_told_there_is_no_fault(self) -> None:
        for inventory in INVENTORIES:
            ran = workbook("check", inventory / "mended", "--no-warnings")
            files = len(list((inventory / "mended").glob("*.csv")))
            self.assertEqual(ran.stdout, f"{files} files: 0 faults, 0 warnings\n", inventory.name)
            self.assertEqual(ran.returncode, 0)


if __name__ == "__main__":
    unittest.main()
