"""Which years of each category and gas are estimated, and where the records have gaps.

Whether a line's year has a value is what the program prints of it. Why it has none, or a zero, is told by the
records that the line takes.
"""
import argparse
import sys
import typing
from collections.abc import Callable, Iterator, Sequence

from tools import as_json, notices, vocabulary
from tools.book import Book, book_of, lines_taken_by, record_in, record_taken_by
from tools.faults import Fault, years_said
from tools.program import Program
from tools.refused import Refused
from tools.service import Service
from tools.sheets import Row, Sheet
from tools.sources import words_of
from tools.tables import say_lacking, submit_all

GAP = "!"
# The state of a category and gas is that of its least complete line.
LEAST_COMPLETE = [GAP, "NE", "E", "IE", "NO", "NA"]
WITHOUT_YEARS = "./workbook: no span is in force, so that there are no years"
OF_A_SERVICE = "A service gives no records: E has a value, and NE is blank, whatever makes it so."
ZERO = ["0.000", "0.000", "0.000"]
ZERO_OF_OTHERS = ["0.000000", "0.000000", "0.000000"]

# The figures of each line, as the tables print them, by year.
Cells = dict[int, dict[str, list[str]]]

Item = typing.TypeVar("Item")


class Taking(typing.Generic[Item]):
    """What lines take in a year, over the lines that they take, which must be in a book with a span."""

    def __init__(self, book: Book, of_record: Callable[[Row, int], set[Item]]) -> None:
        self.book, self.of_record = book, of_record
        self.known: dict[tuple[str, int], set[Item]] = {}

    def by(self, line: str, year: int) -> set[Item]:
        """What `of_record` finds among all bindings that a line takes in a year."""
        waiting = [] if (line, year) in self.known else [(line, year)]
        while waiting:
            at = waiting[-1]
            bound = self.book.bindings.get(at[0], {}).values()
            below = [taken for row in bound for taken in self.lines_below(row, at[1])]
            unknown = [taken for taken in below if taken not in self.known]
            waiting += unknown
            if not unknown:
                found: set[Item] = set()
                found.update(*(self.of_record(row, at[1]) for row in bound))
                self.known[at] = found.union(*(self.known[taken] for taken in below))
                waiting.pop()
        return self.known[line, year]

    def lines_below(self, bound: Row, year: int) -> list[tuple[str, int]]:
        """The lines that a binding takes, with the year of them that it takes."""
        if bound.field("value") == "prev":
            year -= 1
        return [(line, year) for line in lines_taken_by(bound)] if year >= self.book.known_span()[0] else []


class States:
    """The state of each line in each year, by the notation keys and the gaps among what it takes."""

    def __init__(self, book: Book, cells: Cells) -> None:
        self.book, self.cells, self.taking = book, cells, Taking(book, self.of_record)

    def of(self, line: str, year: int) -> str:
        """E where the line has a value; a notation key; or ! where a record is missing."""
        figures = self.cells[year][line]
        taken = self.taking.by(line, year)
        if figures[0] == "NE":
            return GAP if GAP in taken else "NE"
        keys = [key for key in ("NO", "IE", "NA") if key in taken]
        return keys[0] if keys and figures in (ZERO, ZERO_OF_OTHERS) else "E"

    def of_lines(self, lines: list[str], year: int) -> str:
        """The least complete state of some lines."""
        return min((self.of(line, year) for line in lines), key=LEAST_COMPLETE.index)

    def of_record(self, bound: Row, year: int) -> set[str]:
        """The notation key or the gap of a binding by key, or to an activity or a factor."""
        form, target = bound.field("value"), bound.field("low")
        if form == "key":
            return {target}
        if record_taken_by(bound):
            row = self.book.in_force(*record_in(bound), year)
            if row is None:
                return {GAP}
            return {row.field("value")} & set(vocabulary.words()["keys"])
        return set()


def read_cells(program: Program | Service, years: Sequence[int]) -> Cells:
    """The figures of each line in each year, as the program prints them."""
    found = {}
    for year in years:
        rows = [line.split(",") for line in (program.show("cells", year) or [])[1:]]
        found[year] = {row[0]: row[5:] for row in rows}
    return found


def matrix(book: Book, cells: Cells, years: Sequence[int]) -> dict[tuple[str, str], list[str]]:
    """The states of each category and gas, by year."""
    states = States(book, cells)
    found: dict[tuple[str, str], list[str]] = {}
    for name, row in sorted(book.lines.items()):
        gas = vocabulary.gas_of(row.field("value"))
        if gas:
            found.setdefault((row.field("subject"), gas), []).append(name)
    order, gases = list(vocabulary.categories()), vocabulary.gases()
    keys = sorted(found, key=lambda key: (order.index(key[0]), gases.index(key[1])))
    return {key: [states.of_lines(found[key], year) for year in years] for key in keys}


def print_matrix(rows: dict[tuple[str, str], list[str]], years: Sequence[int], as_csv: bool) -> None:
    """Prints the states, one row for a category and gas."""
    if as_csv:
        print(",".join(["category", "gas", *map(str, years)]))
        for (code, gas), states in rows.items():
            print(",".join([code, gas, *states]))
        return
    print(f"{'':10} " + " ".join(f"{year % 100:02}" for year in years))
    for (code, gas), states in rows.items():
        print(f"{code:5}{gas:5} " + " ".join(f"{state:2}" for state in states).rstrip())


def gaps(book: Book, years: Sequence[int]) -> Iterator[str]:
    """The activities that lines take and that lack years of the span."""
    taken = book.taken()
    for name, records in sorted(book.years["activity"].items()):
        lacking = [year for year in years if year not in records]
        if lacking and ("activity", name) in taken:
            row = records[min(records)]
            yield f"activity {name} ({row.place}) has no record of {years_said(lacking)}"


def said_of(warnings: list[Fault]) -> list[str]:
    """Warnings as items of a list."""
    return [f"{warning.cause} ({warning.place})" for warning in warnings]


def without_line(book: Book) -> list[str]:
    """The leaf categories of the tree at which no line stands."""
    there = {row.field("subject") for row in book.lines.values()}
    return [f"{code} {vocabulary.categories()[code]['name']}" for code in vocabulary.leaves()
            if code not in there and code not in vocabulary.MEMOS]


def print_list(heading: str, items: list[str]) -> None:
    """Prints a list with its heading."""
    print(f"\n{heading}: {'none' if not items else ''}".rstrip())
    for item in items:
        print(f"  {item}")


def run_of_service(service: Service, arguments: argparse.Namespace) -> int:
    """Prints the states that the tables of a service tell, and answers the status. Without the records E has
    a value, which may be a zero by a key, and NE is blank.
    """
    book = book_of([service.sheet()])
    if book.span is None:
        print(WITHOUT_YEARS, file=sys.stderr)
        return 1
    years = range(book.span[0], book.span[1] + 1)
    rows = matrix(book, read_cells(service, years), years)
    if arguments.json:
        print(as_json.completed(rows, years, {"Categories without a line": without_line(book)}))
        return 0
    print_matrix(rows, years, arguments.csv)
    if not arguments.csv:
        print_list("Categories without a line", without_line(book))
        print(f"\n{OF_A_SERVICE}")
    return 0


def run(program: Program, sheets: list[Sheet], arguments: argparse.Namespace) -> int:
    """Prints the states of all categories and gases, then lists, and answers the status."""
    accepted = submit_all(program, sheets, arguments.quiet)
    lacking = say_lacking(sheets, accepted, words_of(arguments), "the years are without {}")
    book = book_of(accepted)
    if book.span is None:
        print(WITHOUT_YEARS, file=sys.stderr)
        return 1
    years = range(book.span[0], book.span[1] + 1)
    rows = matrix(book, read_cells(program, years), years)
    wrongs = {
        "Gaps in a series": list(gaps(book, years)),
        "Factors that begin late": said_of(notices.late_factors(book, Refused(), *book.span)),
        "Missing potentials": said_of(notices.without_potential(book, Refused())),
    }
    others = {
        "Taken by no line": said_of(notices.orphans(book, Refused(), sheets)),
        "Categories without a line": without_line(book),
    }
    if arguments.json:
        print(as_json.completed(rows, years, {**wrongs, **others}))
    else:
        print_matrix(rows, years, arguments.csv)
    if not (arguments.csv or arguments.json):
        for heading, items in {**wrongs, **others}.items():
            print_list(heading, items)
    wrong = lacking or any(wrongs.values()) or any(GAP in states for states in rows.values())
    return 1 if wrong else 0
