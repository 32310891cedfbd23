"""Files that are no store for the built program, and what docs/STORE.md says to do with each.

The files are made, and mended, by the sqlite3 of the standard library.
"""
import contextlib
import pathlib
import shutil
import sqlite3
import typing
import unittest
from collections.abc import Callable

from tests.service.serving import GAS
from tests.store.test_store import POTENTIAL, Stores, session, submit
from tests.store.versions import TABLE, TABLE_1, make, rows_of

VIEW = "CREATE VIEW w AS SELECT seq FROM accepted2"
NOTES = "CREATE TABLE notes(seq INTEGER REFERENCES Accepted ON DELETE CASCADE, text)"
TABLE_OF_KEY = TABLE.replace("NOT NULL", "NOT NULL REFERENCES accepted(id) ON DELETE CASCADE", 1)


class Cause(typing.NamedTuple):
    """What makes a store with one row none, and how that is mended."""
    name: str
    made: Callable[[pathlib.Path], None]
    mended: Callable[[pathlib.Path], None]


def said(*statements: str) -> Callable[[pathlib.Path], None]:
    """Statements that the library runs on a file."""
    def run(path: pathlib.Path) -> None:
        with contextlib.closing(sqlite3.connect(path)) as connection, connection:
            for statement in statements:
                connection.execute(statement)
    return run


def begun(*statements: str) -> Callable[[pathlib.Path], None]:
    """Makes the file anew, as a database in which these statements come first."""
    def run(path: pathlib.Path) -> None:
        path.unlink()
        make(path, *statements, TABLE, rows=[(1, "a", GAS)])
    return run


def begun_1(*statements: str) -> Callable[[pathlib.Path], None]:
    """Makes the file anew, as a store of version 1 in which these statements come after the table."""
    def run(path: pathlib.Path) -> None:
        path.unlink()
        make(path, TABLE_1, *statements, rows_1=[(1, "a", GAS)])
    return run


def dumped(path: pathlib.Path) -> None:
    """Puts a database in the place of the file that is made of its dump."""
    with contextlib.closing(sqlite3.connect(path)) as connection:
        dump = "\n".join(connection.iterdump())
    path.unlink()
    with contextlib.closing(sqlite3.connect(path)) as connection:
        connection.executescript(dump)


def tables_alone(path: pathlib.Path) -> None:
    """Puts a store in the place of the file that has the rows, and nothing else."""
    rows = rows_of(path)
    path.unlink()
    make(path, TABLE, rows=rows)


def linked(path: pathlib.Path) -> None:
    """Gives the file a second name."""
    (path.parent / "second").hardlink_to(path)


def copied(path: pathlib.Path) -> None:
    """Puts a copy in the place of the file."""
    shutil.copy(path, path.parent / "copy").replace(path)


def beside(path: pathlib.Path) -> pathlib.Path:
    """Where SQLite has the journal of a file."""
    return path.with_name(f"{path.name}-journal")


def cut_off(path: pathlib.Path) -> None:
    """Leaves the file and its journal as another program does that is cut off while it writes."""
    with contextlib.closing(sqlite3.connect(path)) as connection:
        connection.execute("PRAGMA cache_size = 1")
        connection.execute("BEGIN")
        connection.execute("CREATE TABLE other(a)")
        connection.executemany("INSERT INTO other VALUES (?)", [(b"x" * 3000,)] * 100)
        left = [(each.name, each.read_bytes()) for each in (path, beside(path))]
        connection.rollback()
    for name, content in left:
        (path.parent / name).write_bytes(content)


def looked_at(path: pathlib.Path) -> None:
    """What `sqlite3 FILE .schema` does."""
    with contextlib.closing(sqlite3.connect(path)) as connection:
        connection.execute("SELECT sql FROM sqlite_master").fetchall()


CAUSES = (
    Cause("both tables have rows", said(TABLE_1, "INSERT INTO accepted SELECT seq, id, body FROM accepted2"),
          said("DELETE FROM accepted")),
    Cause("a hard link", linked, copied),
    Cause("a journal", cut_off, looked_at),
    Cause("a folder named as the journal", lambda path: beside(path).mkdir(), lambda path: beside(path).rmdir()),
    Cause("a link named as the journal", lambda path: beside(path).symlink_to("none"),
          lambda path: beside(path).unlink()),
    Cause("auto_vacuum", begun("PRAGMA auto_vacuum = FULL"), dumped),
    Cause("incremental auto_vacuum", begun("PRAGMA auto_vacuum = INCREMENTAL"), dumped),
    Cause("UTF-16", begun("PRAGMA encoding = 'UTF-16'"), dumped),
    Cause("a partial index", said("CREATE INDEX i ON accepted2(id) WHERE seq > 1"), said("DROP INDEX i")),
    Cause("an index on an expression", said("CREATE INDEX i ON accepted2(length(body))"), said("DROP INDEX i")),
    Cause("a trigger on the table", said("CREATE TRIGGER t AFTER INSERT ON accepted2 BEGIN SELECT 1; END"),
          said("DROP TRIGGER t")),
    Cause("a trigger on the first table",
          said(TABLE_1, "CREATE TRIGGER t AFTER INSERT ON accepted BEGIN SELECT 1; END"), said("DROP TRIGGER t")),
    Cause("a foreign key to the first table", said("CREATE TABLE notes(id TEXT REFERENCES accepted(id))"),
          said("DROP TABLE notes")),
    Cause("rows that refer to rows of the first table", begun_1(NOTES, "INSERT INTO notes VALUES (1, 'seen')"),
          said("ALTER TABLE notes RENAME TO old", "CREATE TABLE notes(seq INTEGER, text)",
               "INSERT INTO notes SELECT * FROM old", "DROP TABLE old")),
    Cause("a second table that refers to the first", begun_1(TABLE_OF_KEY), said("DROP TABLE accepted2")),
    Cause("a trigger on a view",
          said(VIEW, "CREATE TRIGGER t INSTEAD OF INSERT ON w BEGIN SELECT 1; END"), tables_alone),
    Cause("a virtual table", said("CREATE VIRTUAL TABLE v USING rtree(a, b, c)"), tables_alone),
    Cause("a view that is not read", said("CREATE VIEW w AS SELECT sum(seq) OVER () FROM accepted2"), tables_alone),
)


class Causes(Stores):
    def test_each_is_refused_and_mended(self) -> None:
        for cause in CAUSES:
            with self.subTest(cause.name):
                self.store = self.room / f"{cause.name.replace(' ', '-')}.db"
                make(self.store, TABLE, rows=[(1, "a", GAS)])
                cause.made(self.store)
                before = self.store.read_bytes()
                self.assertEqual(self.run_over(session(submit(b"a", GAS))), (6, b""))
                self.assertEqual(self.store.read_bytes(), before)
                cause.mended(self.store)
                self.assertEqual(self.run_over(session(submit(b"a", GAS))), (0, b"repeated 1\n"))
                self.assertEqual(rows_of(self.store), [(1, "a", GAS)])

    def run_over(self, given: bytes) -> tuple[int, bytes]:
        """A run over the store of this cause."""
        return self.run_with(given, "--store", self.store.name)

    def test_links_to_a_store_and_to_nothing(self) -> None:
        given = session(submit(b"a", GAS))
        self.store.symlink_to("kept/real.db")
        self.assertEqual(self.run_with(given), (6, b""))
        (self.room / "kept").mkdir()
        make(self.room / "kept/real.db", TABLE, rows=[(1, "a", GAS)])
        self.assertEqual(self.run_with(given), (0, b"repeated 1\n"))
        self.assertEqual(sorted(path.name for path in self.room.rglob("*.db*")), ["book.db", "real.db", "real.db-wal"])
        self.store.unlink()
        self.assertEqual(self.run_with(given), (0, b"accepted 1\n"))

    def test_a_gap_in_the_numbers(self) -> None:
        make(self.store, TABLE, rows=[(1, "a", GAS), (3, "c", POTENTIAL)])
        given = session(submit(b"a", GAS), submit(b"c", POTENTIAL))
        self.assertEqual(self.run_with(given), (6, b""))
        self.assertEqual(self.run_with(given, "--store", "new.db"), (0, b"accepted 1\naccepted 2\n"))
        self.assertEqual(self.run_with(given, "--store", "new.db"), (0, b"repeated 1\nrepeated 2\n"))

    def test_what_is_left_alone(self) -> None:
        others = ("CREATE INDEX i ON accepted2(id, seq DESC)", "CREATE TABLE other(a)", VIEW,
                  "CREATE TABLE notes(seq INTEGER REFERENCES accepted2)",
                  "CREATE INDEX j ON other(a) WHERE a > 1", "CREATE INDEX k ON other(length(a))",
                  "CREATE TRIGGER t AFTER INSERT ON other BEGIN DELETE FROM other; END")
        make(self.store, TABLE, *others, "INSERT INTO notes VALUES (1)", rows=[(1, "a", GAS)])
        given = session(submit(b"a", GAS), submit(b"c", POTENTIAL))
        self.assertEqual(self.run_with(given), (0, b"repeated 1\naccepted 2\n"))
        self.assertEqual(rows_of(self.store), [(1, "a", GAS), (2, "c", POTENTIAL)])
        with contextlib.closing(sqlite3.connect(self.store)) as connection:
            kept = [sql for sql, in connection.execute("SELECT sql FROM sqlite_master WHERE name <> 'accepted'")]
        self.assertEqual(set(others) - set(kept), set())


if __name__ == "__main__":
    unittest.main()
