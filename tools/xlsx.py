"""Writes files of spreadsheets (.xlsx): sheets with a header that stays in sight."""
from __future__ import annotations

import decimal
import io
import pathlib
import typing

from tools import spreadsheet
from tools.spreadsheet import letters_of
from tools.whole_files import write_whole


class Spreadsheet:
    """A file .xlsx that is made sheet by sheet."""

    def __init__(self, path: pathlib.Path) -> None:
        self.path = path
        self.library = spreadsheet.library(".xlsx", f"to write {path}")
        self.book = self.library.Workbook(write_only=True)

    def add(self, name: str, header: list[str], widths: dict[int, int],
            about: dict[str, str] | None = None) -> typing.Any:
        """Adds a sheet with a header, with columns of these widths, and with comments at headings."""
        sheet = self.book.create_sheet(name)
        sheet.freeze_panes = "A2"
        for column, width in widths.items():
            sheet.column_dimensions[letters_of(column)].width = width
        headings = [self.cell(sheet, heading) for heading in header]
        for heading in headings:
            heading.font = self.library.styles.Font(bold=True)
            if about and heading.value in about:
                heading.comment = self.library.comments.Comment(about[heading.value], "workbook")
        sheet.append(headings)
        return sheet

    def cell(self, sheet: typing.Any, value: str | decimal.Decimal) -> typing.Any:
        """A cell of a sheet, for a row that is appended to it."""
        return self.library.cell.WriteOnlyCell(sheet, value)

    def number(self, sheet: typing.Any, text: str) -> typing.Any:
        """A cell with a number, which shows as many decimals as its text has."""
        cell = self.cell(sheet, decimal.Decimal(text))
        decimals = len(text.partition(".")[2])
        cell.number_format = f"0.{'0' * decimals}" if decimals else "0"
        return cell

    def choose_rows(self, sheet: typing.Any, columns: int, last: int) -> None:
        """Gives the headings of a sheet a filter, by which rows are chosen."""
        sheet.auto_filter.ref = f"A1:{letters_of(columns)}{last}"

    def choose(self, sheet: typing.Any, column: int, last: int, words: str, is_strict: bool) -> None:
        """Gives the cells of a column a list to choose from; a strict one takes no other word."""
        validation = self.library.worksheet.datavalidation
        letter = letters_of(column)
        made = validation.DataValidation("list", formula1=words, allow_blank=True, showErrorMessage=is_strict,
                                         sqref=f"{letter}2:{letter}{last}")
        sheet.data_validations.append(made)

    def save(self) -> None:
        """Writes the file, whole or not at all."""
        made = io.BytesIO()
        self.book.save(made)
        write_whole(self.path, made.getvalue())
