"""Stores of both versions, made and read by the sqlite3 of the standard library.

Version 1 has the table `accepted`, and version 2 the table `accepted2`. The program moves the rows of the first to the
second when it opens a store.
"""
import contextlib
import pathlib
import shutil
import sqlite3
import tempfile
from collections.abc import Iterator, Sequence

from tests.oracle.rows import format_of
from tests.service.serving import HEADER

COLUMNS_1 = "seq INTEGER PRIMARY KEY, id TEXT UNIQUE NOT NULL, body BLOB NOT NULL"
COLUMNS = "seq INTEGER PRIMARY KEY, id TEXT UNIQUE NOT NULL, format INTEGER NOT NULL, body BLOB NOT NULL"
TABLE_1, TABLE = f"CREATE TABLE accepted({COLUMNS_1})", f"CREATE TABLE accepted2({COLUMNS})"
LINES = 20
YEARS = range(2016, 2021)

# A row with its number, its id and its body; in version 2 with its format before the body.
Submitted = tuple[int, str, bytes]
AnyRow = tuple[object, ...]


def make(path: pathlib.Path, *statements: str, rows: Sequence[Submitted] = (),
         rows_1: Sequence[Submitted] = ()) -> None:
    """Makes a database by these statements, and puts rows into its tables."""
    with contextlib.closing(sqlite3.connect(path)) as connection, connection:
        connection.execute("PRAGMA synchronous = OFF")
        for statement in statements:
            connection.execute(statement)
        if rows_1:
            connection.executemany("INSERT INTO accepted VALUES (?, ?, ?)", rows_1)
        if rows:
            connection.executemany("INSERT INTO accepted2 VALUES (?, ?, ?, ?)", map(with_format, rows))


def with_format(row: Submitted) -> tuple[int, str, int, bytes]:
    """A row as version 2 has it."""
    seq, name, body = row
    return seq, name, format_of(body), body


def all_rows(path: pathlib.Path, table: str) -> list[AnyRow]:
    """The rows of a table, whatever its columns are; none if there is no such table."""
    with contextlib.closing(sqlite3.connect(path)) as connection:
        there = connection.execute("SELECT count(*) FROM sqlite_master WHERE name = ?", [table]).fetchone()[0]
        return connection.execute(f"SELECT * FROM {table} ORDER BY 1").fetchall() if there else []


def rows_of(path: pathlib.Path) -> list[Submitted]:
    """The rows of a store of version 2 without their formats, which are those of their bodies."""
    rows = []
    for seq, name, version, body in all_rows(path, "accepted2"):
        if not (isinstance(seq, int) and isinstance(name, str) and isinstance(body, bytes)):
            raise AssertionError(f"row {seq!r} of {name!r} has columns of other types")
        if version != format_of(body):
            raise AssertionError(f"row {seq} of {name!r} has format {version!r}")
        rows.append((seq, name, body))
    return rows


def list_of(path: pathlib.Path) -> list[AnyRow]:
    """The list of a store with its log, out of a copy: the rows of the one table that has some."""
    with tempfile.TemporaryDirectory() as room:
        for file in path.parent.glob(f"{path.name}*"):
            shutil.copy(file, room)
        copy = pathlib.Path(room) / path.name
        first = all_rows(copy, "accepted")
        second: list[AnyRow] = [*rows_of(copy)]
    if first and second:
        raise AssertionError("both tables have rows")
    return first or second


def submissions(count: int) -> Iterator[Submitted]:
    """So many submissions: one with lines over five years, and others that correct one activity each."""
    rows = [f"enter,span,,,{YEARS[0]},{YEARS[-1]},{YEARS[0]},,,", f"enter,factor,,GWP.CO2,{YEARS[0]},1,,,1,"]
    for line in range(LINES):
        rows += [f"enter,line,1A1a,L{line},,Q10,,,,", f"enter,bind,L{line},FC,,activity,A{line},,,",
                 f"enter,bind,L{line},EF,,factor,F{line},,,", f"enter,factor,,F{line},{YEARS[0]},56100,,,kg/TJ,",
                 *(f"enter,activity,,A{line},{year},{1000 + line},,,TJ," for year in YEARS)]
    yield 1, "s1", HEADER + "".join(f"{row}\n" for row in rows).encode()
    for number in range(2, count + 1):
        year = YEARS[number // LINES % len(YEARS)]
        row = f"correct,activity,,A{number % LINES},{year},{1000 + number},,,TJ,correction {number}\n"
        yield number, f"s{number}", HEADER + row.encode()
