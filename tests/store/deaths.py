"""Deaths of the built program: it takes submissions into a store, and is killed at a random moment.

A store lives several times. In each life the program, as `compile` or as `serve`, is sent submissions that a
seeded generator draws: new ones, corrections, repeated ones and ones that are refused. It is killed once some
replies have come, and a moment more has gone by. Then the store has what was acknowledged, or that and the
submission that was under way; the library of sqlite3 finds no fault in it; and a new run repeats each of its
submissions.
"""
import contextlib
import pathlib
import random
import shutil
import signal
import sqlite3
import subprocess
import tempfile
import time
import typing

from tests.service.serving import HEADER, PROGRAM, SECONDS, Service, post, read_to_the_end, reply
from tests.store.test_store import session, submit
from tests.store.versions import TABLE, make, rows_of

NAME = "book.db"
# How many lives a store has, and how many submissions it is sent at most in one, and before the first.
LIVES, SENT, SENT_BEFORE = 8, 24, 100
# The most seconds from the start, or from the last reply that is waited for, to a death.
START, PAUSE = 0.03, 0.004
KILLED = -signal.SIGKILL
# What a submission does.
KINDS = ("enter", "enter", "correct", "repeat", "refuse", "reuse")
# The bytes of a note.
LENGTHS = (0, 0, 0, 40, 400, 4000, 40000)
# The code of a reply of the service, by how its text begins.
CODES = {"accepted": "201 Created", "repeated": "200 OK", "refused 2": "409 Conflict",
         "refused 9": "422 Unprocessable Entity"}

# A row of a store: the id and the body.
Row = tuple[str, bytes]


class Sent(typing.NamedTuple):
    """A submission, and the text of the reply to it if the program lives on."""
    name: str
    body: bytes
    due: str


def agree(what: str, found: object, due: object) -> None:
    """Refuses what is not as it has to be."""
    if found != due:
        raise AssertionError(f"{what}: {found!r:.300} instead of {due!r:.300}")


def answer(sent: Sent) -> bytes:
    """The whole reply of the service to a submission."""
    code = next(code for words, code in CODES.items() if sent.due.startswith(words))
    return reply(code, sent.due)


class Deaths:
    """Stores in an empty folder, and what happened to them."""

    def __init__(self, room: pathlib.Path, seed: int) -> None:
        self.room = room
        self.seed = seed
        self.random = random.Random(seed)
        self.kept: list[Row] = []
        self.drawn = self.lives = self.deaths = self.acknowledged = self.under_way = 0

    def happen(self, count: int) -> None:
        """Lives of stores, until so many of them ended by death."""
        while self.deaths < count:
            if self.lives % LIVES == 0:
                self.begin()
            self.lives += 1
            try:
                self.live()
            except AssertionError as fault:
                raise AssertionError(f"seed {self.seed}, life {self.lives}: {fault}") from fault

    def begin(self) -> None:
        """Begins with no store, or with one of version 2 that the library of sqlite3 makes."""
        for file in self.room.glob(f"{NAME}*"):
            file.unlink()
        self.kept = []
        if self.random.random() < 0.5:
            self.kept = accepted(self.submissions(SENT_BEFORE))
            make(self.room / NAME, TABLE, rows=[(seq, *row) for seq, row in enumerate(self.kept, 1)])

    # ---- what is sent

    def submissions(self, most: int) -> list[Sent]:
        """At most so many submissions, and at least one."""
        rows = list(self.kept)
        all_sent = []
        for _ in range(self.random.randint(1, most)):
            sent = self.submission(rows)
            rows += accepted([sent])
            all_sent.append(sent)
        return all_sent

    def submission(self, rows: list[Row]) -> Sent:
        """A submission to a store of these rows."""
        self.drawn += 1
        fresh, name = f"s{self.drawn}", f"A{self.drawn}"
        kind = self.random.choice(KINDS) if rows else "enter"
        if kind == "enter":
            return Sent(fresh, self.body("enter", name), f"accepted {len(rows) + 1}")
        at = self.random.randrange(len(rows))
        kept, body = rows[at]
        if kind == "repeat":
            return Sent(kept, body, f"repeated {at + 1}")
        if kind == "reuse":
            return Sent(kept, self.body("enter", name), f"refused 2 IdReused {at + 1}")
        entered = body[len(HEADER):].split(b",")[3].decode()
        if kind == "correct":
            return Sent(fresh, self.body("correct", entered), f"accepted {len(rows) + 1}")
        return Sent(fresh, self.body("enter", entered), "refused 9 Exists row 1")

    def body(self, act: str, name: str) -> bytes:
        """A body of one row: an activity of that name."""
        note = "n" * self.random.choice(LENGTHS)
        return HEADER + f"{act},activity,,{name},1990,{self.random.randrange(10**6)},,,t,{note}\n".encode()

    # ---- the lives

    def live(self) -> None:
        """One life, and a look at what it left."""
        sent = self.submissions(SENT)
        replies = self.random.choice([0, self.random.randint(0, len(sent)), len(sent)])
        pause = self.random.uniform(0, PAUSE if replies else START)
        heard, status = self.random.choice([self.compile, self.serve])(sent, replies, pause)
        if status != KILLED:
            agree("status of what was not killed, and replies", (status, heard), (0, len(sent)))
        self.deaths += status == KILLED
        self.acknowledged += heard
        due = self.kept + accepted(sent[:heard])
        self.kept = self.rows(self.room)
        if self.kept not in (due, due + accepted(sent[heard:heard + 1])):
            raise AssertionError(f"kept is {names(self.kept)}, and acknowledged was {names(due)}")
        self.under_way += self.kept != due
        self.repeat()

    def compile(self, sent: list[Sent], replies: int, pause: float) -> tuple[int, int]:
        """A session that is killed so long after so many replies: how many came, and its status."""
        with tempfile.TemporaryFile() as script:
            script.write(session(*(submit(each.name.encode(), each.body) for each in sent)))
            script.seek(0)
            with subprocess.Popen([PROGRAM, "compile", "--store", NAME], stdin=script,
                                  stdout=subprocess.PIPE, cwd=self.room) as process:
                assert process.stdout
                lines = [process.stdout.readline() for _ in range(replies)]
                time.sleep(pause)
                process.kill()
                printed = b"".join(lines + process.stdout.readlines())
        due = b"".join(b"%b\n" % each.due.encode() for each in sent)
        agree("replies of a session", printed, due[:len(printed)])
        return printed.count(b"\n"), process.returncode

    def serve(self, sent: list[Sent], replies: int, pause: float) -> tuple[int, int]:
        """The same of a service, which gets one submission more before it is killed, if there is one."""
        with Service(len(sent), "--store", NAME, folder=self.room) as service:
            for each in sent[:replies]:
                agree("reply of a service", service.exchange(post(each.name, each.body)), answer(each))
            last = self.last_reply(service, sent[replies:], pause)
        if last:
            due = answer(sent[replies])
            agree("last reply of a service", last, due[:len(last)])
            replies += last == due
        return replies, service.process.returncode

    def last_reply(self, service: Service, rest: list[Sent], pause: float) -> bytes:
        """What comes of a service that is killed so long after the first of these was sent."""
        with contextlib.ExitStack() as links:
            link = links.enter_context(service.connect()) if rest else None
            if link:
                link.sendall(post(rest[0].name, rest[0].body))
            time.sleep(pause)
            service.process.kill()
            last = read_to_the_end(link) if link else b""
        return last

    # ---- what is left

    def repeat(self) -> None:
        """Looks whether a new run, over the store or over a copy, repeats each submission and keeps it."""
        given = session(*(submit(name.encode(), body) for name, body in self.kept))
        due = b"".join(b"repeated %d\n" % seq for seq in range(1, len(self.kept) + 1))
        with self.copy(self.room) as folder:
            folder = self.random.choice([self.room, folder])
            ran = subprocess.run([PROGRAM, "compile", "--store", NAME], input=given,
                                 stdout=subprocess.PIPE, cwd=folder, timeout=SECONDS, check=False)
            agree("what a new run prints", (ran.returncode, ran.stdout), (0, due))
            agree("rows after a new run", self.rows(folder), self.kept)

    def rows(self, folder: pathlib.Path) -> list[Row]:
        """The rows of the store of a folder, in which the library of sqlite3 finds no fault.

        The library gets a copy, since it writes the log of what it reads into the file.
        """
        with self.copy(folder) as room:
            with contextlib.closing(sqlite3.connect(room / NAME)) as connection:
                agree("integrity", connection.execute("PRAGMA integrity_check").fetchall(), [("ok",)])
            rows = rows_of(room / NAME)
        agree("numbers of rows", [seq for seq, _, _ in rows], list(range(1, len(rows) + 1)))
        return [(name, body) for _, name, body in rows]

    @contextlib.contextmanager
    def copy(self, folder: pathlib.Path) -> typing.Iterator[pathlib.Path]:
        """A new folder with a copy of the store of another one, and of its log."""
        with tempfile.TemporaryDirectory(dir=self.room) as room:
            for file in folder.glob(f"{NAME}*"):
                shutil.copy(file, room)
            yield pathlib.Path(room)


def accepted(sent: list[Sent]) -> list[Row]:
    """The rows that a store gets of these submissions."""
    return [(each.name, each.body) for each in sent if each.due.startswith("accepted")]


def names(rows: list[Row]) -> str:
    """The last ids of rows, with the lengths of the bodies."""
    return " ".join([f"{len(rows)} rows", "..", *(f"{name}:{len(body)}" for name, body in rows[-20:])])
