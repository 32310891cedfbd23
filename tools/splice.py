"""Fills the years that an activity lacks, by a splicing technique of Volume 1, Chapter 5.

The program computes the rows. Here stand the series that it is given, and what is said of the rows.
"""
import argparse
import dataclasses
import importlib
import itertools
import pathlib
import re
import sys
from collections.abc import Iterable, Iterator

from tools import report, vocabulary
from tools.book import Book, book_of
from tools.faults import at_row, counted, years_said
from tools.program import Program, spliced
from tools.sheets import COLUMN_AT, FolderFault, Row, Sheet
from tools.tables import say_lacking, submit_all
from tools.whole_files import check_place, differs, write_whole

METHODS = ("linear", "surrogate", "overlap")
HEADER = "year,y,y_low,y_high,x,x_low,x_high"
NOTHING = ["", "", ""]
# The key of what is to be estimated still; the others say that there is nothing to estimate.
NOT_ESTIMATED = "NE"
ENDS = "extrapolation is not linear interpolation (Volume 1, Chapter 5); take --method surrogate or overlap with --by"
HOLDS_ON = "a factor holds from its year until its next record, so that it lacks no year; activities alone are spliced"


class NotSpliced(Exception):
    """A series that cannot be spliced, with what to do."""


@dataclasses.dataclass
class Series:
    """An activity, or a factor: the records of its years, and those of them that are figures."""
    kind: str
    name: str
    records: dict[int, Row]

    def __post_init__(self) -> None:
        keys = vocabulary.words()["keys"]
        self.figures = {year: row for year, row in sorted(self.records.items()) if row.field("value") not in keys}
        if not self.figures:
            raise NotSpliced(f"{self.name} has no figure")
        first, *others = self.figures.values()
        self.unit = first.field("unit")
        other = next((row for row in others if row.field("unit") != self.unit), None)
        if other:
            cause = f"{self.name} is in {self.unit} at {first.place}; a series is spliced in one unit: correct either"
            raise NotSpliced(str(at_row(other, cause, "unit")))

    def columns(self, year: int) -> list[str]:
        """The figure of a year with its bounds, or nothing."""
        row = self.figures.get(year)
        return [row.field(column) for column in ("value", "low", "high")] if row else NOTHING


@dataclasses.dataclass
class Splicing:
    """A series, the one beside it if the technique has one, and the rows that the program made, by year."""
    method: str
    y: Series
    x: Series | None
    rows: dict[int, list[str]] = dataclasses.field(default_factory=dict)

    def body(self) -> bytes:
        """The years of both series, as the program reads them."""
        years = sorted({*self.y.figures, *(self.x.figures if self.x else ())})
        lines = [[str(year), *self.y.columns(year), *(self.x.columns(year) if self.x else NOTHING)]
                 for year in years]
        return "".join(f"{line}\n" for line in [HEADER, *map(",".join, lines)]).encode()

    def both(self) -> list[int]:
        """The years that have both series and that the technique takes."""
        both = [year for year in self.y.figures if self.x and year in self.x.figures]
        return both[:1] if self.method == "surrogate" else both

    def said(self) -> Iterator[str]:
        """Which years are filled, and from which."""
        if self.x:
            others = f"{self.x.kind} {self.x.name} of these years, and from both in {years_said(self.both())}"
            yield f"{years_said(self.rows)} from {others}"
            return
        for before, after in itertools.pairwise(self.y.figures):
            within = [year for year in self.rows if before < year < after]
            if within:
                yield f"{years_said(within)} from {before} and {after}"

    def left(self, span: tuple[int, int] | None) -> list[int]:
        """The years of the span that are not filled and lack a figure that is to be estimated."""
        first, last = span or (min(self.y.records), max(self.y.records))
        years = (year for year in range(first, last + 1) if year not in self.rows)
        return [year for year in years if value_in(self.y, year) in ("", NOT_ESTIMATED)]

    def said_of_left(self, years: list[int]) -> str:
        """Why years are not filled."""
        if self.x:
            return f"not filled: {years_said(years)}, in which {self.x.name} has no figure"
        return f"not filled: {years_said(years)}, which no two years with figures enclose: {ENDS}"


def value_in(series: Series, year: int) -> str:
    """The figure or the key of a year, or nothing where there is no record."""
    return series.records[year].field("value") if year in series.records else ""


def series_of(book: Book, name: str, kinds: Iterable[str]) -> Series:
    """The series of a name, of the first of some kinds that has it."""
    for kind in kinds:
        if name in book.years[kind]:
            return Series(kind, name, book.years[kind][name])
    if name in book.years["factor"]:
        raise NotSpliced(f"{name} is a factor: {HOLDS_ON}")
    known = [other for kind in kinds for other in book.years[kind]]
    near = vocabulary.nearest(name, known, 3)
    close = f"; near to it: {vocabulary.listed(near, 'and')}" if near else ""
    raise NotSpliced(f"there is no {vocabulary.listed(list(kinds))} {name}{close}")


def why_not(line: str, splicing: Splicing) -> str:
    """A refusal of the program in plain words, with the cure."""
    y, x, method = splicing.y, splicing.x, splicing.method
    found = re.fullmatch(r"not spliced: (no base|zero|over)(?: (\d+))?", line)
    if not found:
        return f"the program says: {line}"
    what, year = found[1], int(found[2] or 0)
    if what == "no base" and x is None:
        return f"linear needs two years with figures, and {y.name} has {years_said(y.figures)}; {ENDS}"
    if what == "no base" or x is None:
        return (f"no year has figures of both {y.name} and {x.name if x else ''}; {method} needs one that has: "
                "enter one, or take another series")
    if what == "zero":
        cure = "correct its bounds, or take another series"
        return str(at_row(x.figures[year], f"{x.name} may be zero in {year}, and {method} divides by it; {cure}"))
    return (f"the result of {year} is beyond {vocabulary.limit('figure')} {y.unit}; see whether a figure of "
            f"{y.name} or {x.name} is wrong, or take a greater unit")


def fill(program: Program, splicing: Splicing) -> bytes:
    """The body of the rows that the program makes. One of a year that is not estimated so far corrects it."""
    words = ["--method", splicing.method, "--name", splicing.y.name, "--unit", splicing.y.unit]
    status, text = spliced(program.path, words, splicing.body())
    if status:
        raise NotSpliced(why_not(text.strip(), splicing))
    header, *lines = text.splitlines()
    for fields in (line.split(",") for line in lines):
        year = int(fields[COLUMN_AT["year"]])
        key = value_in(splicing.y, year)
        if key and key != NOT_ESTIMATED:
            cause = f"{splicing.y.name} is no gap in {year}; correct it to 0 to splice from it, or to NE to fill it"
            raise NotSpliced(str(at_row(splicing.y.records[year], cause, "value")))
        splicing.rows[year] = ["correct" if key else fields[0], *fields[1:]]
    return "".join(f"{line}\n" for line in [header, *map(",".join, splicing.rows.values())]).encode()


def check_words(arguments: argparse.Namespace) -> None:
    """Refuses words that do not go together, places that cannot be written to, and a lacking library."""
    if (arguments.by is None) != (arguments.method == "linear"):
        needs = "takes no --by" if arguments.by else "needs --by SURROGATE, the series beside it"
        raise FolderFault(f"--method {arguments.method} {needs}")
    for path, ending in ((arguments.output, ".csv"), (arguments.plot, ".svg")):
        if path and not path.lower().endswith(ending):
            raise FolderFault(f"{path} does not end with {ending}")
        if path:
            check_place(pathlib.Path(path))
    if arguments.plot:
        report.needed("matplotlib", "splice --plot")


def write_rows(path: str | None, body: bytes) -> None:
    """Writes the rows to a file, or to standard output."""
    if path is None:
        sys.stdout.write(body.decode())
        return
    if differs(pathlib.Path(path), body):
        raise FolderFault(f"{path} has other rows; give another name, or take that file away")
    write_whole(pathlib.Path(path), body)
    count = len(body.splitlines()) - 1
    print(f"{path}: {counted(count, 'row')}", file=sys.stderr)


def write_plot(path: str, splicing: Splicing) -> None:
    """Writes the series with its filled years as a picture."""
    pictures = importlib.import_module("tools.pictures")
    columns = [COLUMN_AT[column] for column in ("value", "low", "high")]
    known = [[row.fields[at] or row.field("value") for at in columns] for row in splicing.y.figures.values()]
    filled = [[fields[at] for at in columns] for fields in splicing.rows.values()]
    parts = [pictures.Points(name, years, [tuple(map(float, point)) for point in points])
             for name, years, points in (("figures", list(splicing.y.figures), known),
                                         (f"filled, {splicing.method}", list(splicing.rows), filled))]
    text = pictures.Pictures().points(splicing.y.name, parts, splicing.y.unit)
    write_whole(pathlib.Path(path), text.encode())


def carry_out(program: Program, book: Book, arguments: argparse.Namespace) -> int:
    """Splices the series of a book, writes the rows, says of what they are, and answers the status."""
    y = series_of(book, arguments.name, ["activity"])
    x = series_of(book, arguments.by, ["activity", "factor"]) if arguments.by else None
    splicing = Splicing(arguments.method, y, x)
    body = fill(program, splicing)
    left = splicing.left(book.span)
    if splicing.rows:
        for said in splicing.said():
            print(f"{y.name} in {y.unit}, {splicing.method}: {said}", file=sys.stderr)
    if left:
        print(f"{y.name}, {splicing.said_of_left(left)}", file=sys.stderr)
    if not splicing.rows:
        raise NotSpliced(f"{y.name} has no year to fill" if left else f"{y.name} lacks no year")
    reply = program.submit(body)
    if not reply.accepted:
        raise NotSpliced(f"the program would refuse the rows: {reply.text}")
    write_rows(arguments.output, body)
    if arguments.plot:
        write_plot(arguments.plot, splicing)
    return 0


def run(program: Program, sheets: list[Sheet], arguments: argparse.Namespace) -> int:
    """Splices an activity of files that are all accepted, and answers the status."""
    check_words(arguments)
    accepted = submit_all(program, sheets, arguments.quiet)
    if say_lacking(sheets, accepted, arguments.folders, "nothing is spliced"):
        return 1
    try:
        return carry_out(program, book_of(accepted), arguments)
    except NotSpliced as error:
        print(f"./workbook: nothing is spliced: {error}", file=sys.stderr)
        return 1
