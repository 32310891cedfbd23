"""Writes the tables of years as a file of a spreadsheet, with a sheet for each table."""
from __future__ import annotations

import pathlib
import re
import sys
import typing
import zipfile

from tools import spreadsheet, vocabulary
from tools.faults import counted
from tools.sheets import FolderFault
from tools.xlsx import Spreadsheet

# The table that has a row for each year itself, and the one that `review` prints.
OF_ALL_YEARS, OF_REVIEW = "series", "trendunc"
# Columns of codes, with the heading of what is written beside them.
NAMES = {"category": "category name", "equation": "equation name"}
TEXTS = {"code", "category", "equation", "gas", "unit", "item", "flag", "key"}
# The units of the columns of figures, in each table but these: in `cells` the unit is a column.
COLUMNS = {
    "Gg CO2 eq": "value low high base previous total total_low total_high gross gross_low gross_high",
    "percent": "activity factor combined_low combined_high trend share cumulative change "
               "k_low k_high l_low l_high",
}
UNITS = {column: unit for unit, columns in COLUMNS.items() for column in columns.split()}
OTHER_UNITS: dict[str, dict[str, str | None]] = {
    "cells": {"value": None, "low": None, "high": None},
    "reference": {"value": "Gg CO2, or percent"},
}
NUMBER = re.compile(r"-?\d+(?:\.\d+)?")
WIDTHS = {"code": 26, "category name": 40, "equation name": 40}
NARROWEST = 14


def name_of(column: str, code: str) -> str:
    """The name of a category or an equation, or nothing if a code is none."""
    if column == "category":
        return vocabulary.categories()[code]["name"] if code in vocabulary.categories() else ""
    return vocabulary.equations()[code]["computes"] if code in vocabulary.equations() else ""


def with_unit(table: str, column: str) -> str:
    """A heading: a column with the unit of its figures, if it has one."""
    unit = OTHER_UNITS.get(table, {}).get(column, UNITS.get(column))
    return f"{column} ({unit})" if unit else column


def columns_of(table: str, header: list[str]) -> list[str]:
    """The columns of a sheet: the year, and those of the table with names beside codes."""
    return ([] if table == OF_ALL_YEARS else ["year"]) + with_names(header)


def with_names(header: list[str]) -> list[str]:
    """The columns of a table with those of names beside codes."""
    found = []
    for column in header:
        found += [column, NAMES[column]] if column in NAMES else [column]
    return found


def fields_of(table: str, year: int, header: list[str], line: str) -> list[str]:
    """The fields of a row of a sheet, as texts."""
    return ([] if table == OF_ALL_YEARS else [str(year)]) + named_fields(header, line)


def named_fields(header: list[str], line: str) -> list[str]:
    """The fields of a row of a table, with names beside codes."""
    found = []
    for column, field in zip(header, line.split(",")):
        found += [field, name_of(column, field)] if column in NAMES else [field]
    return found


def cells_of(book: Spreadsheet, sheet: typing.Any, columns: list[str],
             fields: list[str]) -> list[typing.Any]:
    """The cells of a row: figures as numbers, in the decimals that were printed."""
    return [book.number(sheet, field) if column not in TEXTS and NUMBER.fullmatch(field) else field
            for column, field in zip(columns, fields)]


def add_table(book: Spreadsheet, table: str, shown: dict[int, list[str]]) -> int:
    """Adds the sheet of a table with the rows of its years, and answers how many these are."""
    years = [max(shown)] if table == OF_ALL_YEARS else sorted(shown)
    header = shown[years[0]][0].split(",")
    columns = columns_of(table, header)
    headings = [with_unit(table, column) for column in columns]
    widths = {at: WIDTHS.get(heading, max(NARROWEST, len(heading) + 2))
              for at, heading in enumerate(headings, 1)}
    sheet = book.add(table, headings, widths)
    lines = [(year, line) for year in years for line in shown[year][1:]]
    for year, line in lines:
        sheet.append(cells_of(book, sheet, columns, fields_of(table, year, header, line)))
    book.choose_rows(sheet, len(headings), len(lines) + 1)
    return len(lines)


def is_meant(output: str | None) -> bool:
    """Tells whether tables are to be written as a file of a spreadsheet."""
    return output is not None and output.lower().endswith(".xlsx")


def check_place(path: pathlib.Path) -> None:
    """Refuses to write over a file that is none of tables."""
    if not path.exists():
        return
    try:
        names = spreadsheet.library(".xlsx", f"to write {path}").load_workbook(path, read_only=True).sheetnames
    except (zipfile.BadZipFile, KeyError, ValueError) as error:
        raise FolderFault(f"{path} is there already, and is no file of tables; name another file") from error
    other = next((name for name in names if name not in [*vocabulary.tables(), OF_REVIEW]), None)
    if other is not None:
        raise FolderFault(f"{path} has the sheet {other}, and is no file of tables; name another file")


def write(path: pathlib.Path, shown: dict[tuple[str, int], list[str]]) -> None:
    """Writes the tables of years as a file, and says how many rows each has."""
    check_place(path)
    book = Spreadsheet(path)
    by_table: dict[str, dict[int, list[str]]] = {}
    for (table, year), lines in shown.items():
        by_table.setdefault(table, {})[year] = lines
    counts = {table: add_table(book, table, years) for table, years in by_table.items()}
    book.save()
    for table, count in counts.items():
        print(f"{path}, {table}: {counted(count, 'row')}", file=sys.stderr)
