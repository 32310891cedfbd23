"""A fault or a warning as one line: the place as an editor counts it, the text found, the cause and what
to write.
"""
import dataclasses
from collections.abc import Iterable, Sequence

from tools.sheets import Row, Sheet
from tools.vocabulary import listed

LONGEST = 60


@dataclasses.dataclass
class Fault:
    """A fault that the program found.

    It follows from another where that one's row would have prevented it.
    """
    sheet: Sheet
    line: int
    column: str = ""
    text: str | None = None
    cause: str = ""
    write: str | None = None
    follows: str | None = None
    row: Row | None = None
    last_line: int | None = None

    @property
    def place(self) -> str:
        """The file and the line."""
        return f"{self.sheet.name}:{self.line}"

    def same_but_for_the_line(self) -> tuple[str, str | None, str, str | None, str | None]:
        """What like faults have in common."""
        return (self.column, self.text, self.cause, self.write, self.follows)

    def __str__(self) -> str:
        until = f"-{self.last_line}" if self.last_line else ""
        where = f" {self.column}" if self.column else ""
        found = f" {shown(self.text)}" if self.text is not None else ""
        write = f"; write {self.write}" if self.write else ""
        follows = f" (follows from {self.follows})" if self.follows else ""
        return f"{self.place}{until}{where}{found}: {written_out(self.cause + write)}{follows}"


# What is told of a row that was refused, if anything, and the row to go on with.
Explained = tuple[Fault | None, Row | None]
# What is told of a file that was refused, if anything, and its rows to go on with.
Rewritten = tuple[Fault | None, list[Row] | None]


def at_row(row: Row, cause: str, column: str = "", write: str | None = None,
           follows: str | None = None) -> Fault:
    """A fault of a row, or of a column of it."""
    text = row.field(column) if column else None
    return Fault(row.sheet, row.line, column, text, cause, write, follows, row)


def warn(row: Row, cause: str) -> Fault:
    """A warning of a row."""
    fault = at_row(row, cause)
    fault.column = "warning"
    return fault


def warn_of(sheet: Sheet, cause: str) -> Fault:
    """A warning of a whole file."""
    return Fault(sheet, 1, "warning", None, cause)


def shown(text: str) -> str:
    """A text in quotes on one line, with what cannot be seen written out."""
    return f'"{written_out(text[:LONGEST])}{"..." if len(text) > LONGEST else ""}"'


def written_out(text: str) -> str:
    """A text with what cannot be seen written out."""
    return text if text.isascii() and text.isprintable() else "".join(map(seen, text))


def seen(letter: str) -> str:
    """A letter, or how it is written where it cannot be seen."""
    code = ord(letter)
    if 0xDC80 <= code <= 0xDCFF:
        return f"<{code - 0xDC00:02X}>"
    if letter == " " or (letter.isprintable() and not letter.isspace()):
        return letter
    return {"\n": "\\n", "\r": "\\r", "\t": "\\t"}.get(letter, f"<U+{code:04X}>")


def in_order(faults: Iterable[Fault], sheets: Sequence[Sheet]) -> list[Fault]:
    """Faults by the order of the files and then by lines; like ones of lines in sequence are one."""
    at = {id(sheet): place for place, sheet in enumerate(sheets)}
    found: list[Fault] = []
    for fault in sorted(faults, key=lambda fault: (at[id(fault.sheet)], fault.line)):
        before = found[-1] if found else None
        if before and before.sheet is fault.sheet and (before.last_line or before.line) + 1 == fault.line \
                and before.same_but_for_the_line() == fault.same_but_for_the_line():
            before.last_line = fault.line
        else:
            found.append(dataclasses.replace(fault))
    return found


def counted(number: int, what: str) -> str:
    """A number with its noun: 1 fault, 2 faults."""
    return f"{number} {what}{'' if number == 1 else 's'}"


def years_said(years: Iterable[int]) -> str:
    """Years as runs: 1990 to 1995, 1997."""
    runs: list[list[int]] = []
    for year in sorted(years):
        if runs and runs[-1][1] == year - 1:
            runs[-1][1] = year
        else:
            runs.append([year, year])
    return listed([str(first) if first == last else f"{first} to {last}" for first, last in runs], "and")
