"""The figures that are still missing: rows of activities and factors whose value is empty, and rows of
uncertainties without their two percentages.
"""
from __future__ import annotations

import dataclasses
from collections.abc import Iterable

from tools import half_lives, vocabulary
from tools.faults import Fault
from tools.sheets import Row, Sheet

# The columns of the figures that a row has to have, by its kind.
FIGURES = {"activity": ("value",), "factor": ("value",), "uncert": ("value", "low")}
WITHOUT = "the uncertainty has no percentages yet"
PERCENTAGES = "percent of the activity data into value, and of the emission factor into low"


def figures_of(row: Row | None) -> tuple[str, ...]:
    """The columns of the figures that a row has to have."""
    return FIGURES.get(row.field("kind"), ()) if row is not None and row.field("act") != "withdraw" else ()


def lacking(row: Row | None) -> tuple[str, ...]:
    """Those columns, if none of them is filled in."""
    is_empty = row is not None and not any(row.field(column).strip() for column in figures_of(row))
    return figures_of(row) if is_empty else ()


def is_of_missing(fault: Fault) -> bool:
    """Tells whether a fault is that of a missing figure: of an uncertainty, of its first one."""
    return fault.column == "value" and bool(lacking(fault.row))


def first_ones(faults: Iterable[Fault]) -> list[Fault]:
    """Faults, of which the two of an uncertainty without percentages are one."""
    faults = list(faults)
    without = {(id(fault.sheet), fault.line) for fault in faults
               if is_of_missing(fault) and len(lacking(fault.row)) > 1}
    return [fault for fault in faults if fault.column != "low" or (id(fault.sheet), fault.line) not in without]


def named(faults: Iterable[Fault]) -> list[Fault]:
    """Faults, of which those of missing figures say which it is, so that each record has its own line."""
    return [said(fault) if is_of_missing(fault) else fault for fault in first_ones(faults)]


def others(faults: Iterable[Fault]) -> list[Fault]:
    """Faults without those of missing figures."""
    return [fault for fault in first_ones(faults) if not is_of_missing(fault)]


def said(fault: Fault) -> Fault:
    """The fault of a missing figure with the name, the unit and the note of its row."""
    row = fault.row
    if row is None:
        return fault
    if row.field("kind") == "uncert":
        return dataclasses.replace(fault, cause=WITHOUT, write=PERCENTAGES)
    note = f" ({row.field('note')})" if row.field("note") else ""
    cause = f"{row.field('kind')} {row.field('name')} has no figure yet{note}"
    return dataclasses.replace(fault, cause=cause, write=what_to_write(row))


def what_to_write(row: Row) -> str:
    """What stands in the value of a row."""
    unit = row.field("unit")
    if unit == vocabulary.HALF_LIFE_UNIT:
        return half_lives.form(row.sheet.version)
    number = "a ratio" if unit == "1" else f"a number in {unit}"
    return f"{number}, or a notation key ({vocabulary.listed(vocabulary.words()['keys'])})"


def progress(faults: Iterable[Fault], sheets: Iterable[Sheet]) -> str:
    """How many of the figures that have a row are filled in; nothing if none is missing."""
    if not any(map(is_of_missing, faults)):
        return ""
    rows = [row for sheet in sheets for row in sheet.meant[1:]]
    due = sum(len(figures_of(row)) for row in rows)
    there = due - sum(len(lacking(row)) for row in rows)
    return f"; {there} of {due} figures are filled in, {100 * there // due} %"
