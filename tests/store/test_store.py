"""The built program with a store: what one run keeps the next one has, and stores that fail.

The rows of a store are read, and made, by the sqlite3 of the standard library.
"""
import contextlib
import os
import pathlib
import resource
import shutil
import signal
import sqlite3
import subprocess
import tempfile
import unittest
from collections.abc import Callable, Sequence

from tests.service.serving import GAS, HEADER, PROGRAM, SECONDS
from tests.store.versions import TABLE, TABLE_1, Submitted, all_rows, list_of, make, rows_of, submissions, with_format
from tests.workbook.test_country import files, script

DUMPS = pathlib.Path(__file__).resolve().parent
CELLS = b"""table cells 1990 rows 2
code,category,equation,gas,unit,value,low,high
ELEC.GAS,1A1a,Q10,CO2,Gg,56.100,54.300,58.300
"""
FURTHER = HEADER + b"enter,activity,,FURTHER,2016,1,,,TJ,\n"
POTENTIAL = HEADER + b"enter,factor,,GWP.CO2,1990,1,,,1,\n"
HALF_LIFE = HEADER.replace(b"act", b"act2", 1) + b"enter,factor,,WOOD,1990,1.5,,,yr,\n"


def submit(name: bytes, body: bytes) -> bytes:
    """A submission as a command."""
    return b"SUBMIT %b %d\n%b" % (name, len(body), body)


def session(*commands: bytes) -> bytes:
    """A script of commands."""
    return b"".join([*commands, b"END\n"])


GAS_THEN_CELLS = session(submit(b"a", GAS), b"SHOW cells 1990\n")


def without_room() -> None:
    """Lets a program write files of at most 1 MiB, and go on where one would be longer."""
    signal.signal(signal.SIGXFSZ, signal.SIG_IGN)
    resource.setrlimit(resource.RLIMIT_FSIZE, (1 << 20, 1 << 20))


def as_another_user() -> None:
    """Gives up the rights of root, for those of a user who owns nothing."""
    if os.geteuid() == 0:
        os.setgroups([])
        os.setgid(65534)
        os.setuid(65534)


class Stores(unittest.TestCase):
    maxDiff = None

    def setUp(self) -> None:
        folder = tempfile.TemporaryDirectory()
        self.addCleanup(folder.cleanup)
        self.room = pathlib.Path(folder.name)
        self.store = self.room / "book.db"

    def run_with(self, given: bytes, *words: str, before: Callable[[], None] | None = None,
                 under: Sequence[str] = ()) -> tuple[int, bytes]:
        """The status of a run, by the command `under` if one is given, and what it prints."""
        command = [*under, PROGRAM, "compile", *(words or ("--store", "book.db"))]
        ran = subprocess.run(command, input=given, cwd=self.room, stdout=subprocess.PIPE, timeout=SECONDS,
                             preexec_fn=before, check=False)
        return ran.returncode, ran.stdout

    def started(self) -> subprocess.Popen[bytes]:
        """A run that waits for its script."""
        return subprocess.Popen([PROGRAM, "compile", "--store", "book.db"], stdin=subprocess.PIPE,
                                stdout=subprocess.PIPE, cwd=self.room)


class Kept(Stores):
    def test_accepted_in_one_run_is_repeated_in_the_next(self) -> None:
        self.assertEqual(self.run_with(GAS_THEN_CELLS), (0, b"accepted 1\n" + CELLS))
        self.assertEqual(self.run_with(GAS_THEN_CELLS), (0, b"repeated 1\n" + CELLS))
        self.assertEqual(rows_of(self.store), [(1, "a", GAS)])
        self.assertEqual(self.run_with(session(b"SHOW cells 1990\n"), "--store=book.db"), (0, CELLS))

    def test_table_is_the_one_of_the_page(self) -> None:
        self.run_with(session())
        with contextlib.closing(sqlite3.connect(self.store)) as connection:
            columns = {table: connection.execute(f"PRAGMA table_info({table})").fetchall()
                       for table in ("accepted", "accepted2")}
            names = connection.execute("SELECT name FROM sqlite_master WHERE type = 'table'").fetchall()
        self.assertEqual(sorted(names), [("accepted",), ("accepted2",)])
        seq, id_, body = ("seq", "INTEGER", 0, 1), ("id", "TEXT", 1, 0), ("body", "BLOB", 1, 0)
        self.assertEqual({table: [column[1:4] + column[5:] for column in of] for table, of in columns.items()}, {
            "accepted": [seq, id_, body], "accepted2": [seq, id_, ("format", "INTEGER", 1, 0), body]})

    def test_refused_and_repeated_are_not_kept(self) -> None:
        given = session(submit(b"a", GAS), submit(b"a", GAS), submit(b"a", POTENTIAL), submit(b"b", GAS),
                        submit(b"c", POTENTIAL))
        due = b"accepted 1\nrepeated 1\nrefused 2 IdReused 1\nrefused 9 Exists row 1\naccepted 2\n"
        self.assertEqual(self.run_with(given), (0, due))
        self.assertEqual(rows_of(self.store), [(1, "a", GAS), (2, "c", POTENTIAL)])

    def test_a_script_that_is_cut_keeps_what_was_accepted(self) -> None:
        given = submit(b"a", GAS) + submit(b"c", POTENTIAL)[:40]
        self.assertEqual(self.run_with(given), (3, b"accepted 1\nnot a script: command 2\n"))
        self.assertEqual(rows_of(self.store), [(1, "a", GAS)])

    def test_country_entered_in_one_run_and_asked_in_a_later(self) -> None:
        entered = b"".join(b"accepted %d\n" % number for number in range(1, len(files()) + 1))
        self.assertEqual(self.run_with(script()), (0, entered))
        shown = self.run_with(b"SHOW summary 2020\nEND\n")
        due = (pathlib.Path(__file__).parents[1] / "country/summary-2020.csv").read_bytes()
        self.assertEqual(shown, (0, b"table summary 2020 rows %d\n%b" % (due.count(b"\n"), due)))
        again = self.run_with(script())
        self.assertEqual(again, (0, entered.replace(b"accepted", b"repeated")))
        self.assertEqual([row[1] for row in rows_of(self.store)], [path.stem for path in files()])

    def test_a_store_of_one_row_that_sqlite3_made(self) -> None:
        make(self.store, TABLE, rows=[(1, "a", GAS)])
        self.assertEqual(self.run_with(session(submit(b"a", GAS))), (0, b"repeated 1\n"))
        self.assertEqual(rows_of(self.store), [(1, "a", GAS)])

    def test_a_kept_header_alone(self) -> None:
        for rows, shown in (([(1, "b", HEADER)], b"no table\n"), ([(1, "a", GAS), (2, "b", HEADER)], CELLS)):
            self.store.unlink(missing_ok=True)
            make(self.store, TABLE, rows=rows)
            given = session(submit(b"b", HEADER), b"SHOW cells 1990\n")
            self.assertEqual(self.run_with(given), (0, b"repeated %d\n%b" % (len(rows), shown)))
            self.assertEqual(rows_of(self.store), rows)

    @unittest.skipUnless(os.access("/usr/bin/sqlite3", os.X_OK), "there is no sqlite3")
    def test_the_tool_sqlite3_reads_a_store(self) -> None:
        self.run_with(session(submit(b"a", GAS), submit(b"c", POTENTIAL), submit(b"b", HEADER)))
        query = "select seq, id, length(body) from accepted2"
        ran = subprocess.run(["/usr/bin/sqlite3", "-init", "/dev/null", "book.db", query], cwd=self.room,
                             stdin=subprocess.DEVNULL, capture_output=True, timeout=SECONDS, check=False)
        self.assertEqual((ran.returncode, ran.stdout), (0, b"1|a|291\n2|c|86\n3|b|52\n"))

    def test_a_store_that_sqlite3_made(self) -> None:
        make(self.store, TABLE, rows=[(1, "a", GAS), (2, "c", POTENTIAL)])
        given = session(submit(b"c", POTENTIAL), b"SHOW cells 1990\n")
        self.assertEqual(self.run_with(given), (0, b"repeated 2\n" + CELLS))

    def test_a_copy_by_sqlite3_is_a_store(self) -> None:
        self.run_with(GAS_THEN_CELLS)
        with contextlib.closing(sqlite3.connect(self.store)) as connection, \
                contextlib.closing(sqlite3.connect(self.room / "copy.db")) as copy:
            connection.backup(copy)
        self.assertEqual(self.run_with(GAS_THEN_CELLS, "--store", "copy.db"), (0, b"repeated 1\n" + CELLS))

    def test_one_file_is_left_by_a_run_that_ends(self) -> None:
        self.run_with(GAS_THEN_CELLS)
        (self.room / "book.db-wal").unlink()
        self.assertEqual(self.run_with(GAS_THEN_CELLS), (0, b"repeated 1\n" + CELLS))

    def test_both_files_are_a_copy(self) -> None:
        self.run_with(GAS_THEN_CELLS)
        for path in self.room.glob("book.db*"):
            (self.room / path.name.replace("book", "copy")).write_bytes(path.read_bytes())
        self.assertEqual(self.run_with(GAS_THEN_CELLS, "--store", "copy.db"), (0, b"repeated 1\n" + CELLS))

    def test_a_run_that_is_killed(self) -> None:
        bodies = [HEADER + b"enter,activity,,A%d,1990,1,,,t,\n" % number for number in range(200)]
        commands = [submit(b"s%d" % number, body) for number, body in enumerate(bodies, 1)]
        with self.started() as process:
            assert process.stdin and process.stdout
            process.stdin.write(b"".join(commands))
            process.stdin.flush()
            replies = [process.stdout.readline() for _ in range(20)]
            process.kill()
        self.assertEqual(replies, [b"accepted %d\n" % number for number in range(1, 21)])
        status, printed = self.run_with(session(*commands))
        words = [line.split() for line in printed.splitlines()]
        self.assertEqual((status, [int(number) for _, number in words]), (0, list(range(1, 201))))
        kept = [word for word, _ in words].index(b"accepted") if b"accepted" in printed else 200
        self.assertGreaterEqual(kept, 20)
        self.assertEqual({word for word, _ in words[:kept]}, {b"repeated"})
        self.assertEqual({word for word, _ in words[kept:]} - {b"accepted"}, set())


class Refused(Stores):
    def test_words_that_are_no_command(self) -> None:
        for words in (["--store"], ["--store", "s", "--store", "s"], ["--store", ".x"], ["--store", "-x"],
                      ["--store", "a/b"], ["--store", "s" * 65], ["--store="], ["--workers", "0"],
                      ["--workers", "65"], ["--keep", "s"]):
            self.assertEqual(self.run_with(session(), *words), (2, b"bad command line\n"), words)
        self.assertEqual(list(self.room.iterdir()), [])
        self.assertEqual(self.run_with(session(), "--workers=1", "--store", "s" * 64), (0, b""))

    def test_names_of_logs_and_journals(self) -> None:
        for end in ("-wal", "-shm", "-journal"):
            with self.subTest(end=end):
                self.assertEqual(self.run_with(GAS_THEN_CELLS, "--store", "book.db" + end), (6, b""))
        self.assertEqual(list(self.room.iterdir()), [])

    def test_a_text_file(self) -> None:
        self.store.write_bytes(GAS * 20)
        self.assertEqual(self.run_with(GAS_THEN_CELLS), (6, b""))
        self.assertEqual(self.store.read_bytes(), GAS * 20)

    def test_a_folder(self) -> None:
        self.store.mkdir()
        self.assertEqual(self.run_with(GAS_THEN_CELLS), (6, b""))

    def test_a_file_and_a_folder_that_may_not_be_written(self) -> None:
        self.run_with(GAS_THEN_CELLS)
        # A copy, as the other user may not come to the folder of the program.
        shutil.copy(PROGRAM, self.room / "program")
        (self.room / "program").chmod(0o755)
        self.addCleanup(self.room.chmod, 0o700)
        for folder, file, name in ((0o777, 0o444, "book.db"), (0o555, 0o444, "book.db"),
                                   (0o777, 0o000, "book.db"), (0o555, 0o444, "new.db")):
            self.room.chmod(folder)
            self.store.chmod(file)
            ran = subprocess.run(["./program", "compile", "--store", name], input=GAS_THEN_CELLS,
                                 cwd=self.room, stdout=subprocess.PIPE, timeout=SECONDS,
                                 preexec_fn=as_another_user, check=False)
            self.assertEqual((ran.returncode, ran.stdout), (6, b""), (folder, file, name))
            self.assertFalse((self.room / "new.db").exists())
        self.room.chmod(0o700)
        self.store.chmod(0o644)
        self.assertEqual(rows_of(self.store), [(1, "a", GAS)])

    def test_a_store_that_sqlite3_has(self) -> None:
        self.run_with(GAS_THEN_CELLS)
        with contextlib.closing(sqlite3.connect(self.store)) as connection:
            connection.execute("BEGIN EXCLUSIVE")
            self.assertEqual(self.run_with(GAS_THEN_CELLS), (6, b""))
        self.assertEqual(self.run_with(GAS_THEN_CELLS), (0, b"repeated 1\n" + CELLS))

    def test_a_store_that_another_run_has(self) -> None:
        with self.started() as process:
            assert process.stdin and process.stdout
            process.stdin.write(submit(b"a", GAS))
            process.stdin.flush()
            self.assertEqual(process.stdout.readline(), b"accepted 1\n")
            self.assertEqual(self.run_with(GAS_THEN_CELLS), (6, b""))
            process.stdin.write(b"END\n")
        self.assertEqual(process.returncode, 0)
        self.assertEqual(rows_of(self.store), [(1, "a", GAS)])

    def test_a_disk_without_room(self) -> None:
        long = HEADER + b"enter,activity,,A,1990,1,,,t,%b\n" % (b"n" * (3 << 20))
        given = session(submit(b"a", GAS), submit(b"long", long), submit(b"c", POTENTIAL))
        self.assertEqual(self.run_with(given, before=without_room), (6, b"accepted 1\n"))
        self.assertEqual(rows_of(self.store), [(1, "a", GAS)])
        self.assertEqual(self.run_with(given), (0, b"repeated 1\naccepted 2\naccepted 3\n"))

    def test_a_first_submission_that_could_not_be_kept(self) -> None:
        long = HEADER + b"enter,activity,,A,1990,1,,,t,%b\n" % (b"n" * (3 << 20))
        given = session(submit(b"long", long), b"SHOW cells 1990\n")
        self.run_with(session())
        self.assertEqual(self.run_with(given, before=without_room), (6, b""))
        self.assertEqual(rows_of(self.store), [])
        self.assertEqual(self.run_with(session(submit(b"long", long))), (0, b"accepted 1\n"))
        self.assertEqual(rows_of(self.store), [(1, "long", long)])

    def test_a_kept_row_that_is_refused(self) -> None:
        for rows, due in (
                ([(1, "a", GAS), (2, "b", b"")], b"kept row 2 refused 4 BadShape row 0\n"),
                ([(1, "a", GAS), (2, "b", GAS)], b"kept row 2 refused 9 Exists row 1\n"),
                ([(1, "a b", GAS)], b"kept row 1 refused 1 BadId\n")):
            self.store.unlink(missing_ok=True)
            make(self.store, TABLE, rows=rows)
            self.assertEqual(self.run_with(GAS_THEN_CELLS), (9, due))
            self.assertEqual(rows_of(self.store), rows)

    def test_a_gap_in_the_numbers(self) -> None:
        rows = [(1, "a", GAS), (3, "c", POTENTIAL)]
        make(self.store, TABLE, rows=rows)
        self.assertEqual(self.run_with(GAS_THEN_CELLS), (6, b""))
        self.assertEqual(rows_of(self.store), rows)

    def test_another_table_of_that_name(self) -> None:
        seq, id_, body = "seq INTEGER PRIMARY KEY", "id TEXT UNIQUE NOT NULL", "body BLOB NOT NULL"
        kept: Submitted = (1, "a", GAS)
        for name, more, row in (("accepted", "", kept), ("accepted2", " format INTEGER NOT NULL,", with_format(kept))):
            for columns in (f"(a, b,{more and ' c,'} d)", f"(seq, id,{more and ' format,'} body)",
                            f"(seq INTEGER, {id_},{more} {body})", f"(seq INTEGER UNIQUE, {id_},{more} {body})",
                            f"(seq INT PRIMARY KEY, {id_},{more} {body})",
                            f"({seq}, id TEXT NOT NULL,{more} {body})", f"({seq}, id TEXT UNIQUE,{more} {body})",
                            f"({seq}, id BLOB UNIQUE NOT NULL,{more} {body})",
                            f"({seq}, id TEXT NOT NULL,{more} {body}, UNIQUE (id, body))",
                            f"({seq}, {id_},{more} body BLOB)", f"({seq}, {id_},{more} body BLOB UNIQUE NOT NULL)",
                            f"({seq}, {id_},{more} body TEXT NOT NULL)", f"({seq}, {id_},{more} words BLOB NOT NULL)",
                            f"({seq}, {id_},{more} {body}) STRICT", f"({seq}, {id_},{more} {body}) WITHOUT ROWID"):
                self.is_refused_as_it_is(name, columns, [])
                self.is_refused_as_it_is(name, columns, [row])
            for columns in (f"{seq}, {id_}", f"{seq}, {id_},{more} {body}, note TEXT"):
                self.is_refused_as_it_is(name, f"({columns})", [])
        self.is_refused_as_it_is("accepted", f"({seq}, {body}, {id_})", [(1, GAS, "a")])
        for form in ("format NOT NULL", "format TEXT NOT NULL", "format INTEGER"):
            self.is_refused_as_it_is("accepted2", f"({seq}, {id_}, {form}, {body})", [with_format(kept)])

    def test_a_table_with_more_than_columns(self) -> None:
        columns = TABLE.removeprefix("CREATE TABLE accepted2")
        for more in ("CREATE TRIGGER t AFTER INSERT ON accepted2 BEGIN DELETE FROM accepted2; END",
                     "CREATE INDEX i ON accepted2(length(body))"):
            self.is_refused_as_it_is("accepted2", columns, [], more)
            self.is_refused_as_it_is("accepted2", columns, [with_format((1, "a", GAS))], more)

    def is_refused_as_it_is(self, name: str, columns: str, rows: Sequence[tuple[object, ...]], *more: str) -> None:
        """Makes a store with this table and these rows, and looks that a run fails and changes neither."""
        self.store.unlink(missing_ok=True)
        table = f"CREATE TABLE {name}{columns}"
        make(self.store, table)
        with contextlib.closing(sqlite3.connect(self.store)) as connection, connection:
            for row in rows:
                connection.execute(f"INSERT INTO {name} VALUES ({', '.join('?' * len(row))})", row)
            for statement in more:
                connection.execute(statement)
        before = all_rows(self.store, name)
        self.assertEqual(len(before), len(rows))
        self.assertEqual(self.run_with(GAS_THEN_CELLS), (6, b""), table)
        with contextlib.closing(sqlite3.connect(self.store)) as connection:
            there = connection.execute("SELECT sql FROM sqlite_master WHERE type = 'table' AND name = ?", [name])
            self.assertEqual(there.fetchall(), [(table,)])
        self.assertEqual(all_rows(self.store, name), before)

    def test_what_else_a_table_says_is_not_compared(self) -> None:
        seq, id_, body = "seq INTEGER PRIMARY KEY", "id TEXT UNIQUE NOT NULL", "body BLOB NOT NULL"
        form = "format INTEGER NOT NULL"
        for columns in (f"SEQ INTEGER PRIMARY KEY AUTOINCREMENT, {id_}, {form}, {body}",
                        f"{seq}, id VARCHAR(40) COLLATE NOCASE UNIQUE NOT NULL, {form}, {body}",
                        f"{seq}, {id_}, {form}, body NOT NULL",
                        f"{seq}, {id_} DEFAULT 'x', {form} DEFAULT 7, {body} DEFAULT x'00'",
                        f"{seq}, {id_}, {form}, {body}, CHECK (length(id) > 0)"):
            self.store.unlink(missing_ok=True)
            make(self.store, f"CREATE TABLE accepted2({columns})", "CREATE UNIQUE INDEX i ON accepted2(body)",
                 "CREATE TABLE other(a)")
            self.assertEqual(self.run_with(GAS_THEN_CELLS), (0, b"accepted 1\n" + CELLS), columns)
            self.assertEqual(rows_of(self.store), [(1, "a", GAS)])

    def test_a_rule_of_the_table_that_a_submission_breaks(self) -> None:
        for rule in ("COLLATE NOCASE", "CHECK (id <> 'A')"):
            self.store.unlink(missing_ok=True)
            make(self.store, TABLE.replace("NOT NULL,", f"NOT NULL {rule},", 1))
            given = session(submit(b"a", GAS), submit(b"A", POTENTIAL), submit(b"c", POTENTIAL))
            self.assertEqual(self.run_with(given), (6, b"accepted 1\n"), rule)
            self.assertEqual(rows_of(self.store), [(1, "a", GAS)])

    def test_a_view_of_that_name(self) -> None:
        for name, more in (("accepted", ""), ("accepted2", " 1 AS format,")):
            self.store.unlink(missing_ok=True)
            make(self.store, f"CREATE VIEW {name} AS SELECT 1 AS seq, 'a' AS id,{more} x'00' AS body")
            self.assertEqual(self.run_with(GAS_THEN_CELLS), (6, b""))
            with contextlib.closing(sqlite3.connect(self.store)) as connection:
                objects = connection.execute("SELECT type, name FROM sqlite_master").fetchall()
            self.assertIn(("view", name), objects)


class Moved(Stores):
    """Stores of version 1, whose rows the first run moves."""

    def is_moved(self, rows: list[Submitted]) -> None:
        """Looks that a store has these rows in the table of version 2 alone, and answers each once more."""
        self.assertEqual(rows_of(self.store), rows)
        self.assertEqual(all_rows(self.store, "accepted"), [])
        again = session(*(submit(name.encode(), body) for _, name, body in rows))
        self.assertEqual(self.run_with(again), (0, b"".join(b"repeated %d\n" % seq for seq, _, _ in rows)))
        self.assertEqual(rows_of(self.store), rows)

    def test_stores_kept_as_text(self) -> None:
        due: dict[str, list[Submitted]] = {"without-rows": [], "with-a-row": [(1, "a", GAS)],
                                           "with-two-thousand-rows": list(submissions(2000))}
        self.assertEqual(sorted(path.stem for path in DUMPS.glob("*.sql")), sorted(f"version-1-{name}" for name in due))
        for name, rows in due.items():
            with self.subTest(name):
                self.store.unlink(missing_ok=True)
                with contextlib.closing(sqlite3.connect(self.store)) as connection:
                    connection.executescript((DUMPS / f"version-1-{name}.sql").read_text("utf-8"))
                self.assertEqual(list_of(self.store), rows)
                self.assertEqual(self.run_with(session()), (0, b""))
                self.is_moved(rows)
                number = len(rows) + 1
                further = self.run_with(session(submit(b"c", FURTHER)))
                self.assertEqual(further, (0, b"accepted %d\n" % number))
                self.assertEqual(rows_of(self.store), [*rows, (number, "c", FURTHER)])

    def test_each_row_has_the_format_of_its_body(self) -> None:
        marked = b"\xef\xbb\xbf" + HALF_LIFE.replace(b"WOOD", b"FOOD")
        quoted = HALF_LIFE.replace(b"WOOD", b"PAPER").replace(b"act2", b'"act2"')
        bodies = [GAS, HALF_LIFE, POTENTIAL, marked, quoted]
        rows = [(seq, f"s{seq}", body) for seq, body in enumerate(bodies, 1)]
        make(self.store, TABLE_1, rows_1=rows)
        self.assertEqual(self.run_with(b"SHOW cells 1990\nEND\n"), (0, CELLS))
        self.assertEqual([row[2] for row in all_rows(self.store, "accepted2")], [1, 2, 1, 2, 2])
        self.is_moved(rows)

    def test_two_thousand_rows(self) -> None:
        rows = list(submissions(2000))
        make(self.store, TABLE_1, rows_1=rows)
        status, printed = self.run_with(b"SHOW summary 2020\nEND\n")
        self.assertEqual(status, 0)
        self.is_moved(rows)
        whole = session(*(submit(name.encode(), body) for _, name, body in rows), b"SHOW summary 2020\n")
        fresh = self.run_with(whole, "--workers", "1")
        self.assertEqual(fresh, (0, b"".join(b"accepted %d\n" % seq for seq, _, _ in rows) + printed))

    def test_rows_in_both_tables(self) -> None:
        rows: list[Submitted] = [(1, "a", GAS)]
        make(self.store, TABLE_1, TABLE, rows=rows, rows_1=rows)
        before = self.store.read_bytes()
        self.assertEqual(self.run_with(session(submit(b"a", GAS))), (6, b""))
        self.assertEqual(self.store.read_bytes(), before)
        self.assertEqual((all_rows(self.store, "accepted"), rows_of(self.store)), (rows, rows))

    def test_empty_tables_beside_one_with_rows(self) -> None:
        rows: list[Submitted] = [(1, "a", GAS), (2, "c", POTENTIAL)]
        none: list[Submitted] = []
        for of_1, of_2 in ((rows, none), (none, rows)):
            self.store.unlink(missing_ok=True)
            make(self.store, TABLE, TABLE_1, rows=of_2, rows_1=of_1)
            self.assertEqual(self.run_with(session()), (0, b""))
            self.is_moved(rows)

    def test_a_gap_in_the_numbers(self) -> None:
        rows: list[Submitted] = [(1, "a", GAS), (3, "c", POTENTIAL)]
        make(self.store, TABLE_1, rows_1=rows)
        self.assertEqual(self.run_with(GAS_THEN_CELLS), (6, b""))
        self.assertEqual(all_rows(self.store, "accepted"), rows)
        self.assertEqual(all_rows(self.store, "accepted2"), [])

    def test_a_kept_row_that_is_refused(self) -> None:
        rows: list[Submitted] = [(1, "a", GAS), (2, "b", GAS)]
        make(self.store, TABLE_1, rows_1=rows)
        for _ in range(2):
            self.assertEqual(self.run_with(GAS_THEN_CELLS), (9, b"kept row 2 refused 9 Exists row 1\n"))
            self.assertEqual(list_of(self.store), rows)

    def test_a_disk_without_room(self) -> None:
        rows: list[Submitted] = [(1, "a", GAS), *((seq, f"n{seq}", HEADER + b"\n" * (1 << 19)) for seq in range(2, 8))]
        make(self.store, TABLE_1, rows_1=rows)
        self.assertEqual(self.run_with(session(), before=without_room), (6, b""))
        self.assertEqual(list_of(self.store), rows)
        self.assertEqual(all_rows(self.store, "accepted2"), [])
        self.assertEqual(self.run_with(session()), (0, b""))
        self.is_moved(rows)


if __name__ == "__main__":
    unittest.main()
