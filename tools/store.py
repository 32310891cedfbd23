"""Reads the submissions of a store, and changes no byte of it.

SQLite itself would make a file beside a store to read its log. So the store and its log are copied first, and
the copy is read.
"""
from __future__ import annotations

import contextlib
import pathlib
import shutil
import sqlite3
import tempfile
import typing

from tools.sheets import FolderFault, Sheet

# While a run writes, a copy may have one half of a change. It is made again then, so often.
MOST_TRIES = 5
# The table of a store, and that of a store that no run has moved yet. Of the two one at least is empty.
TABLES = ("accepted2", "accepted")
IS_THERE = "select count(*) from sqlite_master where type = 'table' and name = ?"
QUERY = "select seq, id, body from {} order by seq"


class StoreFault(FolderFault):
    """A store that cannot be read, with what to do."""


def submissions(path: pathlib.Path) -> list[Sheet]:
    """What a store has accepted, in its order, each under its id after the name of the store."""
    if not path.is_file():
        raise StoreFault(f"{path} is no file")
    with tempfile.TemporaryDirectory() as room:
        copy = copied(path, pathlib.Path(room))
        try:
            with contextlib.closing(sqlite3.connect(copy)) as store:
                found = {table: store.execute(QUERY.format(table)).fetchall() for table in TABLES
                         if store.execute(IS_THERE, [table]).fetchone() != (0,)}
        except sqlite3.Error as error:
            raise StoreFault(f"{path} is no store of submissions: {error}") from error
    if not found:
        raise StoreFault(f"{path} is no store of submissions: it has no table {TABLES[0]}")
    if all(found.get(table) for table in TABLES):
        raise StoreFault(f"{path} has rows in {' and in '.join(TABLES)}; go back to a backup")
    rows: list[typing.Any] = next(filter(None, found.values()), [])
    for number, (seq, name, body) in enumerate(rows, 1):
        if seq != number or not isinstance(name, str) or not isinstance(body, bytes):
            raise StoreFault(f"{path}: row {seq} is none that the program wrote; go back to a backup")
    return [Sheet(f"{path.name}/{name}", body) for _, name, body in rows]


def copied(path: pathlib.Path, room: pathlib.Path) -> pathlib.Path:
    """A copy of a store and of its log, both of one moment."""
    files = [path, path.with_name(f"{path.name}-wal")]
    for _ in range(MOST_TRIES):
        before = list(map(seen, files))
        for file in files:
            with contextlib.suppress(FileNotFoundError):
                shutil.copyfile(file, room / file.name)
        if before == list(map(seen, files)):
            return room / path.name
        for file in files:
            (room / file.name).unlink(missing_ok=True)
    raise StoreFault(f"{path} changes while it is read; try again when nothing is submitted")


def seen(file: pathlib.Path) -> tuple[int, int] | None:
    """What tells whether a file has changed, or None where there is none."""
    try:
        state = file.stat()
    except FileNotFoundError:
        return None
    return state.st_size, state.st_mtime_ns
