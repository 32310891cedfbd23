"""Writes a copy of folders with every cure that leaves no choice. The folders themselves stay as they are."""
import bisect
import os
import pathlib
import re
import shutil
import tempfile

from tools.faults import Fault, in_order
from tools.sheets import COLUMNS, FolderFault, Row, Sheet

# How a cause ends that says itself what to do, without a choice.
TELLS_ALL = re.compile(r"(\bout|in quotes|at the end|column too)$")


class Cures:
    """The rows with the cures that leave no choice, by their file and line; the faults that these cure; and
    the files whose own fault leaves a choice, which stay as they are.
    """

    def __init__(self) -> None:
        self.rows: dict[tuple[int, int], Row | None] = {}
        self.faults: list[Fault] = []
        self.left: set[int] = set()

    def add(self, fault: Fault | None, row: Row, changed: Row | None) -> None:
        """Keeps what a fault says to write in a row, if that leaves no choice."""
        if fault is None or (fault.sheet, fault.line) != (row.sheet, row.line):
            return
        key = (id(row.sheet), row.line)
        if changed is None:
            mended = None
            is_cure = fault.cause.endswith("; take it out") and not fault.column
        else:
            mended = merged(self.rows.get(key) or original(row), row, changed)
            is_cure = mended is not None and leaves_no_choice(fault, row, changed)
        if is_cure:
            self.rows[key] = mended
            self.faults.append(fault)

    def add_header(self, fault: Fault, header: Row) -> None:
        """Keeps the header that a fault says to write."""
        self.rows[id(header.sheet), header.line] = header
        self.faults.append(fault)

    def add_of_file(self, fault: Fault) -> None:
        """Keeps a fault of a whole file, which is written without it; or leaves it if that is a choice."""
        if " or " in fault.cause:
            self.left.add(id(fault.sheet))
        else:
            self.faults.append(fault)

    def settle(self, faults: list[Fault]) -> None:
        """Leaves the rows of too many or too few fields as they are of which another fault is left."""
        cured = {id(fault) for fault in self.faults}
        for fault in faults:
            key = (id(fault.sheet), fault.line)
            is_of_shape = isinstance(fault.row, Row) and len(original(fault.row).fields) != len(COLUMNS)
            if id(fault) not in cured and key in self.rows and is_of_shape:
                del self.rows[key]
                self.faults = [other for other in self.faults if (id(other.sheet), other.line) != key]

    def of_sheet(self, sheet: Sheet) -> bytes | None:
        """The bytes of a file with its cures, or None if it stays as it is."""
        rows = [self.rows.get((id(sheet), row.line), row) for row in sheet.meant]
        if id(sheet) in self.left:
            return None
        if sheet.meant is not sheet.rows:
            return b"".join(row.raw + b"\n" for row in rows if row)
        if all(mended is row for mended, row in zip(rows, sheet.rows)):
            return None
        return spliced(sheet, rows)


def leaves_no_choice(fault: Fault, row: Row, changed: Row) -> bool:
    """Tells whether a changed row is what a fault says to write, and no stand-in."""
    is_told = fault.write is not None or bool(TELLS_ALL.search(fault.cause))
    is_blank = changed.field("value") == "NE" and row.field("value") != "NE" and fault.write != "NE"
    return is_told and not is_blank and not changed.has_other_figure


def original(row: Row) -> Row:
    """The row of a file as it is read, of which another row is made."""
    rows: list[Row] = row.sheet.meant
    at = bisect.bisect_left(rows, row.line, key=lambda other: other.line)
    return rows[at] if at < len(rows) and rows[at].line == row.line else row


def merged(before: Row, row: Row, changed: Row) -> Row | None:
    """A row with what changed between two others, the first of which may have a stand-in; or None if that
    cannot be told from the stand-in.
    """
    if len(before.fields) != len(COLUMNS) or len(row.fields) != len(COLUMNS):
        return changed if before.raw == row.raw else None
    new = {column: changed.field(column) for column in COLUMNS if changed.field(column) != row.field(column)}
    mended: Row = before.with_fields(**new)
    return mended


def spliced(sheet: Sheet, rows: list[Row | None]) -> bytes:
    """The bytes of a file with other rows in place of its own, and all else as it is."""
    found, at = [], 0
    for row, mended in zip(sheet.rows, rows):
        begins = sheet.data.index(row.raw, at)
        found += [sheet.data[at:begins], mended.raw if mended else b""]
        at = begins + len(row.raw)
    return b"".join([*found, sheet.data[at:]])


def places(out: str, folders: list[str]) -> dict[pathlib.Path, pathlib.Path]:
    """Where the copy of each folder goes: one to the new folder itself, several below it by their names."""
    place = pathlib.Path(out)
    found = {pathlib.Path(folder): place for folder in folders}
    if len(found) > 1:
        found = {folder: place / folder.resolve().name for folder in found}
    if place.exists():
        raise FolderFault(f"{place} is there already; --mend writes a new folder")
    if not place.absolute().parent.is_dir():
        raise FolderFault(f"{place.absolute().parent} is no folder; --mend writes a new folder in it")
    if any(place.resolve().is_relative_to(folder.resolve()) for folder in found):
        raise FolderFault(f"{place} is within a folder that is read; --mend writes a new folder beside it")
    if len(set(found.values())) < len(found):
        raise FolderFault("two folders have one name; --mend writes each below its name")
    return found


def write(out: str, folders: list[str], sheets: list[Sheet], faults: list[Fault], cures: Cures) -> list[str]:
    """Writes the copy of folders with the cures of some faults, and answers the lines that name these."""
    cures.settle(faults)
    place = pathlib.Path(out)
    found = places(out, folders)
    room = pathlib.Path(tempfile.mkdtemp(prefix=".mend-", dir=place.absolute().parent))
    try:
        for folder, target in found.items():
            shutil.copytree(folder, room / "copy" / target.relative_to(place))
        for sheet in sheets:
            data, path = cures.of_sheet(sheet), pathlib.Path(sheet.name)
            target = found[path.parent] if len(found) > 1 else place
            if data is not None:
                (room / "copy" / target.relative_to(place) / path.name).write_bytes(data)
        os.rename(room / "copy", place)
    finally:
        shutil.rmtree(room, ignore_errors=True)
    told = [fault for fault in cures.faults if id(fault.sheet) not in cures.left]
    return [f"written to {place}, with the cures of", *[f"  {fault}" for fault in in_order(told, sheets)]]
