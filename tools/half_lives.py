"""Half-lives: how each format of a file writes them, and how a yearly rate of decay comes to one."""
from __future__ import annotations

import decimal
import re
from collections.abc import Iterable

from tools import vocabulary
from tools.sheets import COLUMN_AT, HEADERS, Row, joined

# Years with a decimal, which format 2 alone has, and those that are no whole number.
WITH_DECIMAL, WITH_TENTH = re.compile(r"[0-9]{1,2}\.[0-9]"), re.compile(r"[0-9]{1,2}\.[1-9]")
ONE_PLACE = decimal.Decimal("0.1")


def limits() -> tuple[decimal.Decimal, decimal.Decimal]:
    """The shortest half-life and the longest, in years."""
    shortest, longest = (decimal.Decimal(vocabulary.limit(f"{which}_half_life")) for which in ("shortest", "longest"))
    return shortest, longest


def form(version: int) -> str:
    """What a half-life is in a format."""
    shortest, longest = limits()
    years = f"years from {shortest:.0f} to {longest:.0f}"
    return f"a whole number of {years}" if version == 1 else f"a number of {years} with at most one decimal"


def rounded(years: decimal.Decimal, version: int) -> str | None:
    """A half-life as a format has it, or None where it is too short or too long."""
    near = years.quantize(ONE_PLACE if version > 1 else decimal.Decimal(1), decimal.ROUND_HALF_UP)
    shortest, longest = limits()
    return f"{near:f}" if shortest <= near <= longest else None


def has_tenth(fields: list[str]) -> bool:
    """Tells whether a row has a half-life that is no whole number of years."""
    return has(WITH_TENTH, fields)


def has_decimal(fields: list[str]) -> bool:
    """Tells whether a row has a half-life that format 2 alone has."""
    return has(WITH_DECIMAL, fields)


def has(pattern: re.Pattern[str], fields: list[str]) -> bool:
    """Tells whether a row has a half-life of a form."""
    if len(fields) != len(COLUMN_AT):
        return False
    kind, value, unit = (fields[COLUMN_AT[column]] for column in ("kind", "value", "unit"))
    return kind == "factor" and unit == vocabulary.HALF_LIFE_UNIT and bool(pattern.fullmatch(value))


def header_for(rows: Iterable[list[str]], version: int = 1) -> list[str]:
    """The header of rows that a tool writes: that of format 2 if one of them needs it, or if the file has it."""
    return HEADERS[2 if version == 2 or any(map(has_decimal, rows)) else 1]


def needed(rows: Iterable[Row]) -> bytes:
    """The header of rows of a file that has none."""
    return joined(header_for(row.fields for row in rows))
