"""Shows on a terminal how far long work has come. Nothing is shown elsewhere."""
from __future__ import annotations

import sys

from tools.faults import counted
from tools.sheets import Sheet


class Progress:
    """How many of the files and rows of a folder are done, on the last line of a terminal."""

    def __init__(self, sheets: list[Sheet], is_quiet: bool) -> None:
        self.files, self.rows = len(sheets), sum(len(sheet.rows) - 1 for sheet in sheets)
        self.file, self.before_file, self.row = 0, 0, 0
        self.name = ""
        self.is_shown = sys.stderr.isatty() and not is_quiet
        self.width = 0

    def __enter__(self) -> Progress:
        return self

    def __exit__(self, *_: object) -> None:
        self.clear()

    def before(self, sheet: Sheet) -> None:
        """Shows the file that is next, and what is done of all."""
        self.file, self.before_file, self.name = self.file + 1, self.row, sheet.name
        self.show_rows(self.row, self.name)
        self.row += len(sheet.rows) - 1

    def within(self, rows: int) -> None:
        """Shows how many rows of the file are done."""
        self.show_rows(self.before_file + rows, self.name)

    def after(self, what: str) -> None:
        """Shows what is done once all rows are."""
        self.show_rows(self.rows, what)

    def show_rows(self, rows: int, what: str) -> None:
        """Shows how many rows are done, and what is next."""
        done = f"{rows:,} of {counted(self.rows, 'row')} done"
        self.show(f"{self.file} of {counted(self.files, 'file')}, {done}: {what}")

    def show(self, text: str) -> None:
        """Shows a text in place of the one before."""
        if self.is_shown:
            print(f"\r{text.ljust(self.width)}", end="", file=sys.stderr, flush=True)
            self.width = len(text)

    def clear(self) -> None:
        """Takes the text away, so that other lines may follow."""
        self.show("")
        if self.is_shown:
            print("\r", end="", file=sys.stderr, flush=True)
