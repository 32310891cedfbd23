"""The command `import`: a sheet with a column for each year as a file of rows."""
from __future__ import annotations

import argparse
import pathlib
import re
import sys

from tools import spreadsheet
from tools.check import Check
from tools.faults import Fault, counted, in_order
from tools.program import Program
from tools.sheets import FolderFault, Sheet
from tools.whole_files import differs, write_whole
from tools.wide_rows import Made, rows_of


def run(program: Program, arguments: argparse.Namespace) -> int:
    """Writes the rows of a sheet if each of its cells can be read, and answers the status."""
    path = pathlib.Path(arguments.sheet)
    output = pathlib.Path(arguments.output) if arguments.output else None
    look_at_output(output, path)
    made = rows_of(spreadsheet.read(path), path.name)
    faults = list(dict.fromkeys(made.faults + refused(program, made)))
    for line in [*faults, *made.warnings]:
        print(line, file=sys.stderr)
    if faults:
        told = counted(len(faults), "fault")
        print(f"./workbook: {told} in {path}, and nothing is written", file=sys.stderr)
        return 1
    if output is None:
        print(made.body.decode("utf-8"), end="")
    else:
        write_rows(output, made.body, arguments.replace)
    print(said_of(made, output or path), file=sys.stderr)
    return 0


def look_at_output(output: pathlib.Path | None, path: pathlib.Path) -> None:
    """Refuses an output that would take the place of the sheet, or that no folder of rows would have read."""
    if output is None:
        return
    if output.suffix.lower() != ".csv":
        raise FolderFault(f"{output}: the name of a file of rows ends with .csv")
    if not output.parent.is_dir():
        raise FolderFault(f"{output.parent} is no folder")
    if output.exists() and path.exists() and output.samefile(path):
        raise FolderFault(f"{output} is the sheet itself; give the rows another name")


def write_rows(output: pathlib.Path, body: bytes, may_replace: bool) -> None:
    """Writes the rows, over a file that has others only if that may be, and says so."""
    if differs(output, body):
        if not may_replace:
            raise FolderFault(f"{output} has other rows; --replace writes the sheet's rows over them")
        print(f"{output}: in place of other rows", file=sys.stderr)
    write_whole(output, body)


def refused(program: Program, made: Made) -> list[str]:
    """What the program refuses of the rows, each by its cell."""
    sheet = Sheet(made.file, made.body)
    check = Check(program, [sheet])
    check.run()
    return [at_cell(fault, made) for fault in in_order(check.faults, [sheet])]


def at_cell(fault: Fault, made: Made) -> str:
    """A fault of a row as one of the cell that the row comes from."""
    if fault.line < 2:
        return str(fault)
    until = f"-{fault.last_line}" if fault.last_line else ""
    told = str(fault).removeprefix(fault.place + until)
    named = re.compile(rf"{re.escape(made.file)}:(\d+)")
    return made.place(fault.line, fault.column) + named.sub(
        lambda found: made.place(int(found.group(1)), "value"), told)


def said_of(made: Made, where: pathlib.Path) -> str:
    """How many rows there are, of what and of which years."""
    years = [year for table in made.tables for year in table.span]
    rows = counted(len(made.rows) - 1, "row")
    said = f"{where}: {rows} of {len(made.names)} series, {min(years)} to {max(years)}"
    if made.formulas:
        said += f"; {counted(made.formulas, 'cell')} with formulas, whose values are read"
    return said
