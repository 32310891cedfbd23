"""Mistakes of basis, of decimal commas and of habit in a right inventory of many kinds: each is told with its
cause.
"""
import re
import unittest

from tests.workbook import mixed, right
from tests.workbook.test_recognised import checked
from tools import unit_bases, vocabulary
from tools.recognisers import files_of


class Mixed(unittest.TestCase):
    def tell(self, mistakes: list[tuple[str, str]]) -> None:
        """Each of some mistakes is told on one line that has a pattern."""
        for rows, due in mistakes:
            with self.subTest(rows):
                printed = checked(mixed.MIXED, rows)
                self.assertTrue(any(re.search(due, line) for line in printed), printed)

    def test_the_inventory_is_right(self) -> None:
        self.assertEqual(checked(mixed.MIXED, ""), ["1 file: 0 faults, 0 warnings"])
        self.assertEqual(len(files_of(mixed.MIXED, "")), 1)

    def test_nothing_is_told_of_right_inventories(self) -> None:
        for name, lines in right.INVENTORIES.items():
            with self.subTest(name):
                printed = checked(right.rows_of(lines), "")
                self.assertEqual(printed, ["1 file: 0 faults, 0 warnings"])

    def test_parameters_of_the_bases_are_those_of_equations(self) -> None:
        named = [unit_bases.GAS_FACTORS, *unit_bases.TAKEN.values(), *unit_bases.PER.values()]
        found = [name.split(".") for names in named for name in names.split()]
        for code, parameter in [*found, *unit_bases.OF_20_C, *unit_bases.OF_GAS]:
            self.assertIn(parameter, vocabulary.parameters_of(code), code)

    def test_units_of_another_basis(self) -> None:
        self.tell(mixed.OF_BASIS)

    def test_commas_without_quotes(self) -> None:
        self.tell([(rows, re.escape(due)) for rows, due in mixed.OF_COMMAS])

    def test_slips_of_habit(self) -> None:
        self.tell([(rows, re.escape(due)) for rows, due in mixed.OF_HABIT])


if __name__ == "__main__":
    unittest.main()
