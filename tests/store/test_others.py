"""The built program with a store whose file has other tables: these stay as they are, and change nothing that is told.

The sqlite3 of the standard library makes them, and reads them.
"""
import contextlib
import pathlib
import sqlite3
import unittest

from tests.service.serving import GAS
from tests.store.test_store import CELLS, POTENTIAL, Stores, session, submit
from tests.store.versions import TABLE, TABLE_1, Submitted, list_of, make, rows_of, submissions

# Some 200 rows with each type of value, some longer than a page.
ROWS = """WITH RECURSIVE numbers(n) AS (SELECT 1 UNION ALL SELECT n + 1 FROM numbers WHERE n < 200)
SELECT n, 'name ' || n, CASE n % 5 WHEN 0 THEN NULL WHEN 1 THEN n * 0.1 WHEN 2 THEN 'text'
WHEN 3 THEN zeroblob(n * 50) ELSE -n END FROM numbers"""
BEFORE = ("CREATE TABLE aside(seq INTEGER PRIMARY KEY, name TEXT UNIQUE, value)",
          "CREATE INDEX by_value ON aside(value DESC, name)", f"INSERT INTO aside {ROWS}")
AFTER = ("CREATE TABLE zones(seq INTEGER PRIMARY KEY AUTOINCREMENT, id TEXT UNIQUE NOT NULL, body BLOB)",
         "CREATE INDEX of_bodies ON zones(length(body)) WHERE body IS NOT NULL", f"INSERT INTO zones {ROWS}",
         "CREATE TABLE pairs(a, b, value, PRIMARY KEY (b, a)) WITHOUT ROWID", f"INSERT INTO pairs {ROWS}")


def others(path: pathlib.Path) -> list[str]:
    """Statements that make all but the tables of the store, and their rows. SQLite finds no fault in the file."""
    with contextlib.closing(sqlite3.connect(path)) as connection:
        faults = connection.execute("PRAGMA integrity_check").fetchall()
        statements = [line for line in connection.iterdump() if "accepted" not in line]
    return [*statements, str(faults)]


class Others(Stores):
    def begin(self, table: str, rows: list[Submitted]) -> list[str]:
        """Makes a store with this table, its rows, and others before and after it. Answers the others."""
        self.store.unlink(missing_ok=True)
        make(self.store, *BEFORE, table, *AFTER, **{"rows" if table == TABLE else "rows_1": rows})
        found = others(self.store)
        self.assertEqual(sum(line.startswith("INSERT INTO") for line in found), 601)
        return found

    def test_a_run_over_either_version(self) -> None:
        given = session(submit(b"a", GAS), submit(b"c", POTENTIAL), b"SHOW cells 1990\n")
        for table in (TABLE, TABLE_1):
            with self.subTest(table):
                before = self.begin(table, [(1, "a", GAS)])
                self.assertEqual(self.run_with(given), (0, b"repeated 1\naccepted 2\n" + CELLS))
                self.assertEqual(others(self.store), before)
                self.assertEqual(rows_of(self.store), [(1, "a", GAS), (2, "c", POTENTIAL)])

    def test_a_run_that_moves_two_thousand_rows(self) -> None:
        rows = list(submissions(2000))
        before = self.begin(TABLE_1, rows)
        self.assertEqual(self.run_with(session()), (0, b""))
        self.assertEqual(others(self.store), before)
        self.assertEqual(rows_of(self.store), rows)
        alone = self.room / "alone.db"
        make(alone, TABLE_1, rows_1=rows)
        shown = self.run_with(session(b"SHOW summary 2020\n"))
        self.assertEqual(self.run_with(session(b"SHOW summary 2020\n"), "--store", alone.name), shown)
        self.assertEqual((list_of(alone), others(self.store)), (rows, before))


if __name__ == "__main__":
    unittest.main()
