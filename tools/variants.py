"""Variants of an inventory that the program compiles for a report: with one gas alone, as equivalent or as
mass, and without land. They are made of the accepted files and of rows that correct them.
"""
from collections.abc import Iterable
from typing import Any

from tools import vocabulary
from tools.book import Book
from tools.printed import Printed, Row
from tools.program import Program, ProgramFailed
from tools.sheets import COLUMNS, Sheet, joined
from tools.trace import LAND, is_under

# A category outside the tree, at which a line counts in no total and can still be taken.
OUTSIDE = "MC"


def body_of(rows: Iterable[list[str]]) -> bytes:
    """Rows as a body."""
    return b"".join(joined(row) + b"\n" for row in [COLUMNS, *rows])


class Variants:
    """A session of the program over the accepted files, which is corrected from one variant to the next."""

    def __init__(self, program: Program, sheets: list[Sheet], book: Book) -> None:
        self.program, self.book = program, book
        self.begun: set[str] = set()
        for sheet in sheets:
            self.submit(sheet.data)

    def submit(self, body: bytes) -> None:
        """Submits a body, which the program has to accept."""
        reply = self.program.submit(body)
        if not reply.accepted:
            raise ProgramFailed(f"the program answered a variant of the inventory with: {reply.text}")

    def of_gas(self, gas: str, as_mass: bool, years: Iterable[int]) -> dict[int, dict[str, Row]]:
        """The totals of each year with the potentials of all other gases at zero, and that of the gas as it
        is, or at one where its mass is asked for.
        """
        rows = []
        for row in self.potentials():
            of_gas = row.field("name") == f"GWP.{gas}"
            if of_gas and not as_mass:
                rows.append(["correct", *row.fields[1:]])
            else:
                rows.append(["correct", *row.fields[1:5], "1" if of_gas else "0", "", "", "1", ""])
        self.submit(body_of(rows + self.end() + (self.begin(gas) if as_mass else [])))
        printed = Printed(self.program)
        return {year: printed.by("category", "summary", year) for year in years}

    def potentials(self) -> list[Any]:
        """The rows of all potentials."""
        return [row for key, row in self.book.rows.items()
                if key[0] == "factor" and key[1].startswith("GWP.")]

    def begin(self, gas: str) -> list[list[str]]:
        """The row by which a gas without a potential in the first year has one."""
        first, name = self.book.known_span()[0], f"GWP.{gas}"
        if self.book.in_force("factor", name, first):
            return []
        self.begun.add(gas)
        return [["enter", "factor", "", name, str(first), "1", "", "", "1", ""]]

    def end(self) -> list[list[str]]:
        """The rows that take out what was entered for a mass."""
        first, begun, self.begun = str(self.book.known_span()[0]), self.begun, set()
        return [["withdraw", "factor", "", f"GWP.{gas}", first, "", "", "", "", ""] for gas in sorted(begun)]

    def without_land(self, year: int, tables: Iterable[str]) -> dict[str, list[Row]]:
        """Tables of a year where all lines on land stand outside the tree."""
        rows = [["correct", "line", OUTSIDE, name, "", row.field("value"), "", "", "", ""]
                for name, row in sorted(self.book.lines.items()) if is_under(row.field("subject"), LAND)]
        self.submit(body_of(rows))
        printed = Printed(self.program)
        return {table: printed.rows(table, year) for table in tables}


def gases_of(book: Book) -> list[str]:
    """The gases that lines emit, in the order of the program."""
    emitted = {vocabulary.gas_of(row.field("value")) for row in book.lines.values()}
    return [gas for gas in vocabulary.gases() if gas in emitted]
