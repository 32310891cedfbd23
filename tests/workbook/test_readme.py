"""The first page: its rows make its table as they stand."""
import re
import unittest

from tests.workbook.running import TOP, workbook

# A block of lines that are further in.
BLOCK = re.compile(r"(?:^    .*\n)+", re.MULTILINE)


class FirstPage(unittest.TestCase):
    def test_its_rows_make_its_table(self) -> None:
        blocks = [re.sub("^    ", "", block, flags=re.MULTILINE)
                  for block in BLOCK.findall((TOP / "README.md").read_text("utf-8"))]
        rows, (command, table) = blocks[0], blocks[1].split("\n", 1)
        self.assertEqual((TOP / "examples/first/1.csv").read_text("utf-8"), rows)
        launcher, *words = command.split()
        checked, ran = workbook("check", "examples/first"), workbook(*words)
        self.assertEqual(launcher, "./workbook")
        self.assertIn("1 file: 0 faults", checked.stdout)
        self.assertEqual((ran.returncode, ran.stdout), (0, table), ran.stderr)


if __name__ == "__main__":
    unittest.main()
