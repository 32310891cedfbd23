"""Random workbooks: sessions of submissions, some of them faulty, with tables asked in between."""
import csv
import io
import random
from itertools import cycle, islice
from typing import NamedTuple

from tests.oracle.changes import Changes, Row
from tests.oracle.faults import Faults
from tests.oracle.model import MOST_BODY_BYTES, Office, Show, Submit, Written
from tests.oracle.printing import TABLES as PRINTED
from tests.oracle.review import MOST_VERSIONS, Desk, Freeze, Recalc, Trend
from tests.oracle.rows import HEADER, header_of
from tests.oracle.tables import HALF_LIFE, TABLES
from tests.oracle.workbook import Workbook

# About as many as a session enters: so that some sessions in a row have all equations.
LINES = 13
# One session of so many has a body that is too long: few, since it is.
LONG = 50
# The names that versions have, most often, and others that none has.
VERSIONS = (b"V1", b"V2", b"R-2020.1", b"GWP.CO2", b"V")
NO_VERSIONS = (b"v1", b"1990", b"_V", b"V,1", b"V\xc3\x89", b"\xff", b"V" * 60)
NOTES = ("", "", "", "a note", 'with "quotes", and a comma', "of two\nlines", "à la carte", "-")


class Step(NamedTuple):
    """A command, what the model answers to it, and the workbook afterwards."""
    command: Written
    reply: str
    workbook: Workbook


class Author:
    """Writes the session of one seed, in view of what the model holds at each step."""

    def __init__(self, seed: int) -> None:
        self.random = random.Random(seed)
        self.is_long = seed % LONG == 1
        self.office = Office()
        first = seed * LINES % len(TABLES.equations)
        self.codes = islice(cycle(TABLES.equations), first, None)
        self.uncertain = self.random.choice((0.5, 1))
        self.steps: list[Step] = []

    def session(self) -> list[Step]:
        """All steps."""
        self.submit(self.changes().opening())
        if self.is_long:
            self.send(Submit(b"long", b"," * (MOST_BODY_BYTES + 1)))
        for _ in range(self.random.randint(3, 5)):
            self.submit(self.new_lines())
            self.now_and_then()
        for _ in range(self.random.randint(6, 10)):
            self.submit(self.several_changes())
            self.now_and_then()
        self.show_all()
        return self.steps

    def changes(self) -> Changes:
        """Changes to what is in force."""
        return Changes(self.random, self.office.compilation.workbook, self.uncertain)

    def new_lines(self) -> list[Row]:
        """Some lines of the next equations, in one body and in any order of rows."""
        changes = self.changes()
        rows = [row for _ in range(self.random.randint(2, 5)) for row in changes.new_line(next(self.codes))]
        self.random.shuffle(rows)
        return rows

    def several_changes(self) -> list[Row]:
        """Some changes, one after the other."""
        changes = self.changes()
        return [row for _ in range(self.random.randint(1, 3)) for row in changes.any()]

    def now_and_then(self) -> None:
        """What may come between two submissions: a fault, a repetition, a table."""
        if self.random.random() < 0.5:
            changes = self.changes()
            before = changes.any() if self.random.random() < 0.5 else []
            self.submit(before + Faults(changes).any())
        if self.random.random() < 0.15:
            self.resubmit()
        if self.random.random() < 0.05:
            self.send(Submit(b"of-shape", self.shapeless()))
        if self.random.random() < 0.4:
            self.send(Show(self.random.choice(list(PRINTED)), self.year()))

    def submit(self, rows: list[Row]) -> None:
        """Sends rows under a new id."""
        self.send(Submit(f"s{len(self.steps)}".encode(), self.body_of(rows)))

    def body_of(self, rows: list[Row]) -> bytes:
        """The body that has rows."""
        text = io.StringIO(newline="")
        ends = self.random.choice(("\n", "\n", "\r\n"))
        quotes = self.random.choice((csv.QUOTE_MINIMAL, csv.QUOTE_MINIMAL, csv.QUOTE_ALL))
        csv.writer(text, quoting=quotes, lineterminator=ends).writerow(header_of(self.version_for(rows)))
        writer = csv.DictWriter(text, HEADER, restval="", lineterminator=ends)
        for row in rows:
            writer.writerow({**row, "note": self.random.choice(NOTES)})
        return text.getvalue().encode("utf-8-sig" if self.random.random() < 0.1 else "utf-8")

    def version_for(self, rows: list[Row]) -> int:
        """The format of rows: most often the one that takes the half-lives among them."""
        has_tenth = any(each.get("unit") == HALF_LIFE and "." in each.get("value", "") for each in rows)
        return 2 if self.random.random() < (0.95 if has_tenth else 0.3) else 1

    def resubmit(self) -> None:
        """Sends what was accepted once more, or something else under its id, or under a bad id."""
        kept = self.random.choice(self.office.accepted or [Submit(b"none", b"")])
        self.send(self.random.choice((kept, Submit(kept.id, kept.body + b"\n"), Submit(b"a/b", kept.body),
                                      Submit(b"x" * 41, kept.body))))

    def shapeless(self) -> bytes:
        """Rule 4: a body without the header of its format, or with a row that is none."""
        header = ",".join(header_of(self.random.choice((1, 2)))).encode()
        return self.random.choice((
            b"", header.upper(), header + b",more\n", header + b"\nenter,span\n", header + b"\n,,,,,,,,,,\n",
            header + b"\n\n\n,,,,,,,,,\xff\n", b"\n" + header + b"\n", header.replace(b"act", b"act1"),
            header.replace(b"act", b"act2"), b"\xef\xbb\xbf" * 2 + header))

    def year(self) -> int:
        """A year, which seldom lies outside the span."""
        years = self.office.compilation.workbook.years() or range(1990, 1991)
        return years[-1] + 1 if self.random.random() < 0.05 else self.random.choice(years)

    def show_all(self) -> None:
        """Asks for each table of a year, and for what is none."""
        year = self.year()
        for table in PRINTED:
            self.send(Show(table, year))
        self.send(Show("cells", self.year()))
        self.send(Show("total", year))

    def send(self, command: Written) -> None:
        """Sends a command."""
        self.steps.append(Step(command, self.answer(command), self.office.compilation.workbook))

    def answer(self, command: Written) -> str:
        """What the model answers to a command."""
        return self.office.answer(command)


class Reviewer(Author):
    """Writes the same session as one of `review`, with versions and requests of its own in between."""

    def __init__(self, seed: int) -> None:
        super().__init__(seed)
        self.desk, self.own = Desk(self.office), random.Random(-1 - seed)
        self.has_many = self.own.random() < 0.1

    def answer(self, command: Written) -> str:
        """What the model answers to a command."""
        return self.desk.answer(command)

    def submit(self, rows: list[Row]) -> None:
        """Sends rows under a new id, and then what may come after."""
        super().submit(rows)
        if self.has_many and self.own.random() < 0.1:
            for number in range(MOST_VERSIONS):
                self.send(Freeze(b"N%d" % number))
        if self.own.random() < 0.4:
            self.send(Freeze(self.own.choice(VERSIONS if self.own.random() < 0.9 else NO_VERSIONS)))
        if self.own.random() < 0.4:
            self.send(Recalc(self.own.choice([*VERSIONS, *self.desk.versions]), self.own_year()))
        if self.own.random() < 0.4:
            self.send(Trend(self.own_year()))

    def own_year(self) -> int:
        """A year of the span, the one before it or the one after it."""
        years = self.office.compilation.workbook.years() or range(1990, 1991)
        return self.own.randint(years[0] - 1, years[-1] + 1)

    def show_all(self) -> None:
        """Asks also for each table of a review, of each year."""
        super().show_all()
        for year in self.office.compilation.workbook.years():
            self.send(Trend(year))
            for name in list(self.desk.versions)[:len(VERSIONS)]:
                self.send(Recalc(name, year))


def session_of(seed: int) -> list[Step]:
    """The session of a seed."""
    return Author(seed).session()


def review_of(seed: int) -> list[Step]:
    """The session of a seed with versions and requests of a review."""
    return Reviewer(seed).session()
