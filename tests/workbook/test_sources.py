"""A store of submissions in place of folders and after it, and the years of `tables`."""
from __future__ import annotations

import contextlib
import pathlib
import re
import sqlite3
import subprocess
import tempfile
import typing
import unittest
from unittest import mock

from tests.workbook.running import HEADER, PROGRAM, TOP, session, workbook
from tools import store
from tools.sheets import read_folders

COUNTRY = ["examples/fuel-combustion", "examples/small-country", "examples/waste", "examples/uncertainties"]
MADE = "CREATE TABLE accepted(seq INTEGER PRIMARY KEY, id TEXT UNIQUE NOT NULL, body BLOB NOT NULL)"
MADE_2 = ("CREATE TABLE accepted2(seq INTEGER PRIMARY KEY, id TEXT UNIQUE NOT NULL, format INTEGER NOT NULL, "
          "body BLOB NOT NULL)")
SPAN = f"{HEADER}enter,span,,,2019,2021,2019,,,\n".encode()


def script_of(folders: list[str]) -> bytes:
    """The files of folders as the script of a session, each under its name."""
    parts = [f"SUBMIT {pathlib.PurePath(sheet.name).stem} {len(sheet.data)}\n".encode() + sheet.data
             for sheet in read_folders([str(TOP / folder) for folder in folders])[0]]
    return b"".join(parts) + b"END\n"


class Rooms(unittest.TestCase):
    """Tests in a folder of their own."""
    maxDiff = None

    def setUp(self) -> None:
        room = tempfile.TemporaryDirectory()
        self.addCleanup(room.cleanup)
        self.room = pathlib.Path(room.name)

    def bytes_there(self) -> dict[str, bytes]:
        """What the folder holds."""
        return {path.name: path.read_bytes() for path in self.room.iterdir()}


class Stores(Rooms):
    def kept(self, rows: list[tuple[typing.Any, ...]], table: str = MADE) -> str:
        """A store with rows that another tool wrote."""
        path = self.room / "book.db"
        with contextlib.closing(sqlite3.connect(path)) as book, book:
            book.execute(table)
            book.executemany("INSERT INTO accepted VALUES (?, ?, ?)", rows)
        return str(path)

    def kept_in_format(self, rows: list[tuple[typing.Any, ...]], path: str) -> None:
        """Puts rows into the table of version 2 of a store."""
        with contextlib.closing(sqlite3.connect(path)) as book, book:
            book.execute(MADE_2)
            book.executemany("INSERT INTO accepted2 VALUES (?, ?, ?, ?)", rows)

    def by_the_program(self, folders: list[str]) -> str:
        """A store that the program wrote."""
        subprocess.run([PROGRAM, "compile", "--store", "book.db"], input=script_of(folders), cwd=self.room,
                       check=True, capture_output=True)
        return str(self.room / "book.db")

    def test_the_tables_of_the_country_and_no_byte_changes(self) -> None:
        path = self.by_the_program(COUNTRY)
        before = self.bytes_there()
        self.assertGreater(len(before["book.db"]), 100_000)
        with tempfile.TemporaryDirectory() as out:
            ran = workbook("tables", "--store", path, "2020", "-o", out)
            self.assertEqual(ran.returncode, 0, ran.stderr)
            for due in sorted((TOP / "tests/country").glob("*.csv")):
                self.assertEqual((pathlib.Path(out) / due.name).read_bytes(), due.read_bytes(), due.name)
        self.assertEqual(self.bytes_there(), before)
        self.assertIn("book.db/6-industry: accepted, ", ran.stderr)

    def test_check_and_complete_say_the_same_as_of_the_folders(self) -> None:
        path = self.by_the_program(["examples/how-to"])
        before = self.bytes_there()
        of_store, of_folder = ([workbook(name, *words) for name in ("check", "complete")]
                               for words in (["--store", path], ["examples/how-to"]))
        kept = re.sub(r"^([\w-]+)\.csv:", r"book.db/\1:", of_folder[0].stdout, flags=re.MULTILINE)
        self.assertEqual(of_store[0].stdout, kept)
        self.assertEqual([ran.returncode for ran in of_store], [0, 0])
        self.assertEqual(of_store[1].stdout.splitlines()[:5], of_folder[1].stdout.splitlines()[:5])
        self.assertEqual(self.bytes_there(), before)

    def test_files_behind_a_store(self) -> None:
        path = self.by_the_program(["examples/how-to"])
        (self.room / "1.csv").write_text(f"{HEADER}enter,activity,,PEAT.TJ,2018,1,,,TJ,\n")
        ran = workbook("check", str(self.room), "--store", path, "--no-warnings")
        self.assertEqual((ran.returncode, ran.stdout.splitlines()), (1, [
            "1.csv:2: activity PEAT.TJ 2018 is entered already at book.db/4-notation-keys:6; to change it "
            "use correct, else give this one another name or year", "5 files: 1 fault, 0 warnings"]))
        ran = workbook("tables", str(self.room), "--store", path, "2018")
        self.assertIn(f"; ./workbook check {self.room} --store {path} tells why", ran.stderr)

    def test_a_store_that_is_none(self) -> None:
        (self.room / "text.db").write_text("act,kind\n" * 1000)
        (self.room / "empty.db").write_bytes(b"")
        for name, due in (("no-such.db", "is no file"), (".", "is no file"),
                          ("text.db", "is no store of submissions: file is not a database"),
                          ("empty.db", "is no store of submissions: it has no table accepted2")):
            ran = workbook("check", "--store", str(self.room / name))
            said = f"./workbook: {self.room / name} {due}\n"
            self.assertEqual((ran.returncode, ran.stdout, ran.stderr), (2, "", said))

    def test_rows_that_the_program_did_not_write(self) -> None:
        cases: list[tuple[list[tuple[typing.Any, ...]], str]] = [
            ([(2, "a", SPAN)], MADE), ([(1, "a", SPAN), (3, "b", SPAN)], MADE),
            ([(1, "a", SPAN.decode())], MADE), ([(1, 5, SPAN)], "CREATE TABLE accepted(seq, id, body)")]
        for rows, table in cases:
            path = self.kept(rows, table)
            ran = workbook("check", "--store", path)
            self.assertEqual((ran.returncode, ran.stdout), (2, ""))
            due = f"row {rows[-1][0]} is none that the program wrote; go back to a backup"
            self.assertEqual(ran.stderr, f"./workbook: {path}: {due}\n")
            (self.room / "book.db").unlink()

    def test_the_tables_of_both_versions(self) -> None:
        rows: list[tuple[typing.Any, ...]] = [(1, "a", SPAN)]
        of_2: list[tuple[typing.Any, ...]] = [(1, "a", 1, SPAN)]
        none: list[tuple[typing.Any, ...]] = []
        for first, second in ((rows, none), (none, of_2), (none, none)):
            path = pathlib.Path(self.kept(first))
            self.kept_in_format(second, str(path))
            kept = [(sheet.name, sheet.data) for sheet in store.submissions(path)]
            self.assertEqual(kept, [("book.db/a", SPAN)] if first or second else [])
            path.unlink()
        path = pathlib.Path(self.kept(rows))
        self.kept_in_format(of_2, str(path))
        with self.assertRaisesRegex(store.StoreFault, "book.db has rows in accepted2 and in accepted; go back"):
            store.submissions(path)
        path.unlink()
        self.kept_in_format(of_2, str(path))
        self.assertEqual(workbook("check", "--store", path, "--no-warnings").stdout,
                         "1 file: 0 faults, 0 warnings\n")

    def test_a_store_without_submissions(self) -> None:
        path = self.kept([])
        ran = workbook("check", "--store", path)
        self.assertEqual((ran.returncode, ran.stdout, ran.stderr), (
            2, "", f"./workbook: {path} has no submissions\n"))
        (self.room / "1.csv").write_bytes(SPAN)
        self.assertEqual(workbook("check", str(self.room), "--store", path, "--no-warnings").returncode, 0)

    def test_a_store_that_changes_while_it_is_read(self) -> None:
        path = pathlib.Path(self.kept([(1, "a", SPAN)]))
        states = iter(range(100))
        with mock.patch("tools.store.seen", side_effect=lambda file: (next(states), 0)):
            with self.assertRaisesRegex(store.StoreFault, "book.db changes while it is read; try again"):
                store.submissions(path)
        changes = iter([1, None, 2, None, 2, None, 2, None])
        with mock.patch("tools.store.seen", side_effect=lambda file: next(changes)):
            self.assertEqual([sheet.name for sheet in store.submissions(path)], ["book.db/a"])

    def test_nothing_to_read(self) -> None:
        for words in (["check"], ["complete"], ["tables", "2020"]):
            ran = workbook(*words)
            self.assertEqual((ran.returncode, ran.stdout, ran.stderr), (
                2, "", "./workbook: nothing to read; give a folder, --store FILE or --url URL\n"))


class Years(Rooms):
    def years_of(self, *words: str) -> list[str]:
        """The years of which `tables` prints the reference approach."""
        ran = workbook("tables", *words, "--table", "reference", cwd=self.room)
        self.assertEqual(ran.returncode, 0, ran.stderr)
        found = [line.removeprefix("reference ") for line in ran.stdout.splitlines()]
        return [year for year in found if year.isdecimal()]

    def test_several_years_and_ranges(self) -> None:
        (self.room / "book").mkdir()
        (self.room / "book/1.csv").write_bytes(SPAN)
        for words, due in ((["book", "2019-2021"], ["2019", "2020", "2021"]),
                           (["book", "2021", "2019"], ["2019", "2021"]),
                           (["book", "2019", "2020-2021", "2020"], ["2019", "2020", "2021"]),
                           (["book", "2020-2020"], []), (["book", "2020"], [])):
            self.assertEqual(self.years_of(*words), due, words)

    def test_a_folder_that_is_named_like_a_year(self) -> None:
        (self.room / "2020").mkdir()
        (self.room / "2020/1.csv").write_bytes(SPAN)
        self.assertEqual(self.years_of("2020", "2019-2020"), ["2019", "2020"])

    def test_tables_of_one_year_are_printed_as_the_program_prints_them(self) -> None:
        (self.room / "1.csv").write_bytes(SPAN)
        printed = workbook("tables", str(self.room), "2020", "--table", "summary").stdout
        shown = session(b"SUBMIT a %d\n%bSHOW summary 2020\nEND\n" % (len(SPAN), SPAN)).decode()
        self.assertEqual(printed, shown.split("\n", 2)[2])

    def test_files_of_several_years(self) -> None:
        (self.room / "1.csv").write_bytes(SPAN)
        words = ["2019-2021", "--table", "series", "-o", str(self.room / "out")]
        ran = workbook("tables", str(self.room), *words)
        names = sorted(path.name for path in (self.room / "out").iterdir())
        self.assertEqual((ran.returncode, names),
                         (0, [f"series-{year}.csv" for year in (2019, 2020, 2021)]))

    def test_years_outside_the_span(self) -> None:
        (self.room / "1.csv").write_bytes(SPAN)
        ran = workbook("tables", str(self.room), "2018-2020", "2023", "-o", str(self.room / "out"))
        self.assertEqual(ran.returncode, 1)
        due = "./workbook: there is no table of 2018 and 2023: the span is 2019 to 2021\n"
        self.assertTrue(ran.stderr.endswith(due), ran.stderr)
        self.assertFalse((self.room / "out").exists())

    def test_what_is_no_range_of_years(self) -> None:
        for word in ("2021-2019", "2019-", "2019-20", "19-21"):
            ran = workbook("tables", "examples/how-to", word)
            self.assertEqual(ran.returncode, 2)
            due = f"{word} is no year: behind the folders stands a year of four digits\n"
            self.assertTrue(ran.stderr.endswith(due), ran.stderr)

    def test_options_between_the_words(self) -> None:
        ran = workbook("tables", "examples/how-to", "--table", "series", "2020")
        self.assertEqual((ran.returncode, len(ran.stdout.splitlines())), (0, 4))


if __name__ == "__main__":
    unittest.main()
