"""The program's tables as rows by the names of their columns, and what two printed figures differ by."""
import decimal
from collections.abc import Iterable
from typing import Any

Row = dict[str, str]
# What the table `uncertainty` has in its last row in place of a line.
TOTAL = "total"
BLANK = "NE"


class Printed:
    """The tables of a session, each asked for once."""

    def __init__(self, program: Any) -> None:
        self.program = program
        self.known: dict[tuple[str, int], list[Row]] = {}

    def rows(self, table: str, year: int) -> list[Row]:
        """The rows of a table, or none where the program has no such table."""
        key = (table, year)
        if key not in self.known:
            self.known[key] = named_rows(self.program.show(table, year))
        return self.known[key]

    def forget(self) -> None:
        """Forgets the tables that were asked for."""
        self.known.clear()

    def by(self, column: str, table: str, year: int) -> dict[str, Row]:
        """The rows of a table by one of their columns."""
        return {row[column]: row for row in self.rows(table, year)}

    def equivalents(self, year: int) -> dict[str, str]:
        """The equivalent of each line in the tree that emits a gas."""
        rows = self.rows("uncertainty", year)
        return {row["code"]: row["value"] for row in rows if row["code"] != TOTAL}


def named_rows(lines: list[str] | None) -> list[Row]:
    """The rows of a table by the names of its columns, or none where there is no table."""
    header, *others = [line.split(",") for line in lines or [""]]
    return [dict(zip(header, fields)) for fields in others]


def figure(text: str) -> decimal.Decimal:
    """A printed figure as a number; a blank counts as zero, as it does in totals."""
    return decimal.Decimal(0 if text in (BLANK, "-", "") else text)


def difference(before: str, after: str) -> str:
    """What a figure differs by from one before, with its sign."""
    return f"{figure(after) - figure(before):+f}"


def percent(part: decimal.Decimal, whole: decimal.Decimal) -> str:
    """A part as a percentage of the size of a whole, to the nearest hundredth, ties away from zero; or a dash
    where the whole is zero.
    """
    if whole == 0:
        return "-"
    near = (100 * part / abs(whole)).quantize(decimal.Decimal("0.01"), decimal.ROUND_HALF_UP)
    return f"{near:f}" if near else "0.00"


def by_size(rows: Iterable[Row], column: str) -> list[Row]:
    """Rows by the size of a figure, the greatest first; of one size in the order in which they come."""
    return sorted(rows, key=lambda row: -abs(figure(row[column])))
