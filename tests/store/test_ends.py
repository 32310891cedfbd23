"""The built program with a store: how runs end, what they leave in the file, and calls of the system that fail."""
import os
import pathlib
import resource
import shutil
import signal
import socket
import subprocess
import unittest

from tests.service.serving import GAS, HEADER, HOST, PROGRAM, SECONDS, Service, get, post, reply, table
from tests.store.test_store import (CELLS, FURTHER, GAS_THEN_CELLS, POTENTIAL, Stores, session, submit,
                                    without_room)
from tests.store.versions import TABLE_1, Submitted, list_of, make, rows_of
from tests.tracing import failing, telling, traced

# The bytes of a log that has nothing.
EMPTY_LOG = 41
LONG = HEADER + b"enter,activity,,A,1990,1,,,t,%b\n" % (b"n" * (1 << 20))
KEEPER_FAULT = reply("503 Service Unavailable", "keeper fault")


def limited() -> None:
    """Lets a program write files of at most 1 MiB, and die by the signal where one would be longer."""
    resource.setrlimit(resource.RLIMIT_FSIZE, (1 << 20, 1 << 20))


def private() -> None:
    """Lets new files be read and written by their owner alone."""
    os.umask(0o077)


def without_input() -> None:
    """Gives a program an input of which no byte can be read."""
    os.dup2(os.open("/", os.O_RDONLY), 0)


def without_output() -> None:
    """Gives a program an output that takes no byte."""
    os.dup2(os.open("/dev/full", os.O_WRONLY), 1)


def clear(folder: pathlib.Path) -> None:
    """Takes all files of a folder away."""
    for path in folder.iterdir():
        path.unlink()


@traced
class Interrupted(Stores):
    def test_calls_that_a_signal_interrupts(self) -> None:
        for call, due in (("fdatasync", (0, b"accepted 1\n")), ("pwrite64", (6, b""))):
            with self.subTest(call):
                clear(self.room)
                given = session(submit(b"a", GAS))
                self.assertEqual(self.run_with(given, under=failing(call, "EINTR", 2)), due)
                self.assertEqual(self.run_with(given)[0], 0)
                self.assertEqual(rows_of(self.store), [(1, "a", GAS)])


@traced
class Syncs(Stores):
    def test_a_sync_that_fails(self) -> None:
        first = self.syncs_of(POTENTIAL)
        for body, number in ((POTENTIAL, first), (LONG, first), (LONG, first + 1)):
            with self.subTest(length=len(body), number=number):
                clear(self.room)
                self.fails(body, number)

    def syncs_of(self, body: bytes) -> int:
        """The number of the first sync of a submission of this body, which is the second of a new store."""
        told = self.room / "told"
        before = []
        with Service(2, "--store", "book.db", folder=self.room,
                     under=telling("fdatasync", told)) as service:
            for name, each in (("a", GAS), ("b", body)):
                before.append(told.read_text("utf-8").count("fdatasync("))
                self.assertEqual(service.exchange(post(name, each))[:12], b"HTTP/1.1 201")
        return before[1] + 1

    def fails(self, body: bytes, number: int) -> None:
        """Lets the sync of this number fail, which is one of a second submission, and starts the service anew."""
        given = [("a", GAS), ("b", body), ("c", FURTHER), ("a", GAS)]
        due = [reply("201 Created", "accepted 1"), KEEPER_FAULT, KEEPER_FAULT, reply("200 OK", "repeated 1")]
        with Service(5, "--store", "book.db", folder=self.room, under=failing("fdatasync", "EIO", number)) as service:
            self.assertEqual([service.exchange(post(*each)) for each in given], due)
            self.assertEqual(service.exchange(get("cells", 1990)), table(CELLS.split(b"\n", 1)[1]))
            self.assertEqual(service.status(), 0)
        is_kept = len(list_of(self.store)) == 2
        self.assertEqual(list_of(self.store), [(1, "a", GAS), (2, "b", body)][:1 + is_kept])
        again = reply("200 OK", "repeated 2") if is_kept else reply("201 Created", "accepted 2")
        with Service(2, "--store", "book.db", folder=self.room) as service:
            self.assertEqual([service.exchange(post(*each)) for each in given[1:3]],
                             [again, reply("201 Created", "accepted 3")])
            self.assertEqual(service.status(), 0)
        self.assertEqual(rows_of(self.store), [(1, "a", GAS), (2, "b", body), (3, "c", FURTHER)])


class Sizes(Stores):
    """Limits on the size of files."""

    def test_an_output_without_room(self) -> None:
        with open(self.room / "printed", "wb") as printed:
            printed.seek(1 << 20)
            ran = subprocess.run([PROGRAM, "compile", "--store", "book.db"], input=GAS_THEN_CELLS, cwd=self.room,
                                 stdout=printed, timeout=SECONDS, preexec_fn=without_room, check=False)
        self.assertEqual((ran.returncode, (self.room / "printed").read_bytes()), (5, b""))
        self.assertEqual(self.run_with(GAS_THEN_CELLS), (0, b"repeated 1\n" + CELLS))

    def test_death_by_the_signal(self) -> None:
        given = session(submit(b"a", GAS), submit(b"long", LONG))
        self.assertEqual(self.run_with(given, before=limited), (-signal.SIGXFSZ, b"accepted 1\n"))
        self.assertEqual(list_of(self.store), [(1, "a", GAS)])
        self.assertEqual(self.run_with(given), (0, b"repeated 1\naccepted 2\n"))


class Modes(Stores):
    def test_a_store_for_its_owner_alone(self) -> None:
        self.assertEqual(self.run_with(GAS_THEN_CELLS, before=private), (0, b"accepted 1\n" + CELLS))
        modes = {path.name: oct(path.stat().st_mode & 0o777) for path in self.room.iterdir()}
        self.assertEqual(modes, {"book.db": "0o600", "book.db-wal": "0o600"})


class Ends(Stores):
    """A run that ends by itself leaves one file, which has the rows that it moved."""

    def begin(self, rows: list[Submitted]) -> None:
        """Makes a store of version 1 with these rows. The run that moves them writes them to its log."""
        clear(self.room)
        make(self.store, TABLE_1, rows_1=rows)

    def is_one_file(self, rows: list[Submitted]) -> None:
        """Looks whether the log is empty, and whether a copy of the file alone has these rows."""
        log = self.room / "book.db-wal"
        self.assertLessEqual(log.stat().st_size if log.exists() else 0, EMPTY_LOG)
        self.assertEqual(rows_of(pathlib.Path(shutil.copy(self.store, self.room / "copy.db"))), rows)

    def test_each_status_of_a_session(self) -> None:
        one: list[Submitted] = [(1, "a", GAS)]
        asked = session(b"SHOW cells 1990\n")
        for given, before, rows, due in (
                (asked, None, one, (0, CELLS)), (b"END", None, one, (3, b"not a script: command 1\n")),
                (asked, without_input, one, (4, b"")), (asked, without_output, one, (5, b"")),
                (session(submit(b"long", LONG)), without_room, one, (6, b"")),
                (asked, None, [*one, (2, "b", GAS)], (9, b"kept row 2 refused 9 Exists row 1\n"))):
            with self.subTest(due=due):
                self.begin(rows)
                self.assertEqual(self.run_with(given, before=before), due)
                self.is_one_file(rows)

    def test_each_status_of_a_service(self) -> None:
        rows: list[Submitted] = [(1, "a", GAS)]
        self.begin(rows)
        with socket.socket() as link:
            link.bind((HOST, 0))
            link.listen()
            words = ["--port", str(link.getsockname()[1]), "--connections", "1", "--store", "book.db"]
            ran = subprocess.run([PROGRAM, "serve", *words], stdin=subprocess.DEVNULL, capture_output=True,
                                 cwd=self.room, timeout=SECONDS, check=False)
        self.assertEqual((ran.returncode, ran.stdout), (7, b""))
        self.is_one_file(rows)
        with Service(1, "--store", "book.db", folder=self.room) as service:
            self.assertEqual(service.exchange(post("c", POTENTIAL)), reply("201 Created", "accepted 2"))
            self.assertEqual(service.status(), 0)
        self.is_one_file([*rows, (2, "c", POTENTIAL)])


if __name__ == "__main__":
    unittest.main()
