"""One page with what the program prints of an inventory: its tables in the layouts of the Guidelines, with
pictures, and what each figure comes of.
"""
import argparse
import dataclasses
import importlib
import os
import pathlib
import re
import shlex
import sys
from collections.abc import Iterator, Sequence
from typing import Any

from tools import check, libraries, vocabulary
from tools.complete import GAP, matrix, read_cells, without_line
from tools.faults import counted
from tools.given_away import warnings_of
from tools.notices import warn_left
from tools.printed import BLANK, Printed, Row, by_size, difference, figure, named_rows, percent
from tools.program import Program, found_program
from tools.progress import Progress
from tools.review import Review
from tools.sheets import FolderFault, Sheet, read_folders
from tools.tables_file import OF_REVIEW
from tools.trace import Tracer, conversion, is_in, is_under, said_of_category
from tools.variants import Variants, gases_of
from tools.whole_files import check_place

TEMPLATES = pathlib.Path(__file__).resolve().parent / "templates"
# The Debian packages of the libraries that the report is made with.
LIBRARIES = ("jinja2", "matplotlib")
NATIONAL, GROSS = "0", "gross"
# The codes whose totals make the areas of the trend, and how many bars a picture has at the most.
PARTS = ["1", "2", "3A", "3B", "3C", "3D", "4", "5"]
MOST_BARS = 25
# How many years of figures stand beside each other on a page, and of states.
FIGURES_ON_A_PAGE, STATES_ON_A_PAGE = 11, 40
EQUIVALENT = "Gg of CO2 equivalent"
# The columns of the uncertainty of the trend, which a report of the base year is without.
OF_TREND = ("k_low", "k_high", "l_low", "l_high")


@dataclasses.dataclass
class Inventory:
    """An inventory whose files are all accepted, in a session of the program."""
    sheets: list[Sheet]
    book: Any
    printed: Printed
    warnings: list[str]
    year: int
    trend: list[Row]

    @property
    def years(self) -> range:
        """The years of the span."""
        return range(self.book.span[0], self.book.span[1] + 1)

    @property
    def base(self) -> int:
        """The base year of the span."""
        return int(self.book.rows["span",].field("low"))

    def summaries(self) -> dict[int, dict[str, Row]]:
        """The totals of each year by their codes."""
        return {year: self.printed.by("category", "summary", year) for year in self.years}


@dataclasses.dataclass(frozen=True)
class Cell:
    """A text of a table; which printed figure it is, by its table, year, row and column; and the notation
    keys of what is left out of it.
    """
    text: str
    of: str = ""
    keys: str = ""


def said_of_keys(states: list[str]) -> str:
    """The notation keys among states; a missing record leaves what is not estimated."""
    return ", ".join(sorted({BLANK if key == GAP else key for key in states} - {"E"}))


def cell(row: Row, column: str, table: str, year: int, *keys: str) -> Cell:
    """A cell with a printed figure."""
    return Cell(row[column], " ".join([table, str(year), *(row[key] for key in keys), column]))


def codes_used(inventory: Inventory) -> list[str]:
    """The codes of the tree with a line, those above them, and the sectors, in the order of the tree."""
    there = {row.field("subject") for row in inventory.book.lines.values()}
    return [code for code in vocabulary.categories() if code not in vocabulary.MEMOS
            and (len(code) == 1 or any(is_under(leaf, code) for leaf in there))]


def depth(code: str) -> int:
    """How far a code stands below the national total."""
    return 0 if code in (NATIONAL, GROSS) else len(code)


def name_of(code: str) -> str:
    """The name of a code."""
    return "Total without land (3B)" if code == GROSS else str(vocabulary.categories()[code]["name"])


class Tables:
    """The tables of the report, as rows of cells; notation keys stand where no line of a code has a value."""

    def __init__(self, inventory: Inventory, gases: dict[str, dict[bool, dict[int, dict[str, Row]]]]) -> None:
        self.inventory, self.gases = inventory, gases
        self.year, self.printed = inventory.year, inventory.printed
        self.codes = [*codes_used(inventory), GROSS]
        self.summaries = inventory.summaries()
        self.states = matrix(inventory.book, read_cells(inventory.printed.program, inventory.years),
                             inventory.years)
        self.pairs = {code: [pair for pair in self.states if is_in(pair[0], code)] for code in self.codes}

    def keys(self, code: str, year: int, gas: str = "", as_mass: bool = False) -> list[str]:
        """The states of a year of the categories at a code or under it, of those that have lines of a gas. As
        an equivalent a gas without a potential is not estimated.
        """
        at = year - self.inventory.years[0]
        pairs = [pair for pair in self.pairs[code] if gas in ("", pair[1])]
        return [self.states[pair][at] if as_mass or self.has_potential(pair[1], year) else BLANK for pair in pairs]

    def has_potential(self, gas: str, year: int) -> bool:
        """Tells whether a potential of a gas is in force in a year."""
        return self.inventory.book.in_force("factor", f"GWP.{gas}", year) is not None

    def keyed(self, shown: Cell, code: str, year: int, gas: str = "", as_mass: bool = False) -> Cell:
        """A figure of a code, or the notation keys where no line has a value, or where there is no line."""
        keys = self.keys(code, year, gas, as_mass) or [BLANK]
        return Cell(said_of_keys(keys)) if "E" not in keys and figure(shown.text) == 0 else shown

    def of_gas(self, code: str, gas: str, as_mass: bool) -> Cell:
        """The total of a code of one gas, or a notation key where nothing was estimated, or nothing."""
        keys = self.keys(code, self.year, gas, as_mass)
        if not keys:
            return Cell("")
        form = "mass" if as_mass else "equivalent"
        row = self.gases[gas][as_mass][self.year][code]
        shown = cell(row, "value", f"{form}:{gas}", self.year, "category")
        keyed = self.keyed(shown, code, self.year, gas, as_mass)
        return keyed if keyed is not shown else dataclasses.replace(shown, keys=said_of_keys(keys))

    def by_gas(self, as_mass: bool) -> list[tuple[str, list[Cell]]]:
        """The codes with a cell for each gas, and as equivalents with the total and its bounds."""
        rows = []
        for code in self.codes:
            cells = [self.of_gas(code, gas, as_mass) for gas in self.gases]
            if not as_mass:
                cells += [self.total(code, self.year, column) for column in ("value", "low", "high")]
            rows.append((code, cells))
        return rows

    def total(self, code: str, year: int, column: str = "value") -> Cell:
        """The total of a code in a year."""
        return self.keyed(cell(self.summaries[year][code], column, "summary", year, "category"), code, year)

    def by_year(self) -> list[tuple[list[int], list[tuple[str, list[Cell]]]]]:
        """The codes with a cell for each year, as many years in a part as a page has room for."""
        return [(part, [(code, [self.total(code, year) for year in part]) for code in self.codes])
                for part in self.parts(FIGURES_ON_A_PAGE)]

    def completeness(self) -> list[tuple[list[int], list[tuple[str, str, list[str]]]]]:
        """The categories and gases with a state for each year, in parts as for a page."""
        first = self.inventory.years[0]
        return [(part, [(code, gas, states[part[0] - first:part[-1] - first + 1])
                        for (code, gas), states in self.states.items()])
                for part in self.parts(STATES_ON_A_PAGE)]

    def parts(self, most: int) -> list[list[int]]:
        """The years of the span in parts."""
        years = list(self.inventory.years)
        return [years[at:at + most] for at in range(0, len(years), most)]

    def change(self, code: str) -> tuple[Cell, Cell, str]:
        """The total of a code in the base year and in this one, and by which percentage they differ, if both
        have a value.
        """
        before, after = self.total(code, self.inventory.base), self.total(code, self.year)
        if not (before.of and after.of):
            return before, after, "-"
        return before, after, percent(figure(difference(before.text, after.text)), figure(before.text))

    def rows(self, table: str, keys: Sequence[str], rows: list[Row] | None = None,
             shown: str = "") -> list[dict[str, Cell]]:
        """The rows of a table of the year, or those of a variant, as cells by their columns."""
        found = self.printed.rows(table, self.year) if rows is None else rows
        return [{column: cell(row, column, shown or table, self.year, *keys) for column in row}
                for row in found]

    def key_categories(self, table: str, rows: list[Row] | None, shown: str) -> list[dict[str, Cell]]:
        """The rows of an assessment of key categories, of the whole inventory or of a variant."""
        found = self.rows(table, ["category", "gas"], rows, shown)
        for row in found:
            code, gas = row["category"].text, row["gas"].text
            for column, year in (("value", self.year), ("base", self.inventory.base)):
                if column in row:
                    row[column] = self.keyed(row[column], code, year, gas)
        return found

    def uncertainty(self) -> list[dict[str, Cell]]:
        """The rows of Table 3.2, each with the value of the base year and what it adds to the trend."""
        base = self.inventory.base
        before = self.printed.by("code", "uncertainty", base)
        trend = {row["code"]: row for row in self.inventory.trend}
        rows = self.rows("uncertainty", ["code"])
        for row in rows:
            code = row["code"].text
            row["base"] = cell(before[code], "value", "uncertainty", base, "code")
            row |= {column: cell(trend[code], column, OF_REVIEW, self.year, "code") for column in OF_TREND}
        return rows

    def reference(self) -> list[tuple[int, dict[str, Cell]]]:
        """The comparison of both approaches in each year."""
        found = []
        for year in self.inventory.years:
            rows = self.printed.by("item", "reference", year)
            found.append((year, {item: cell(row, "value", "reference", year, "item")
                                 for item, row in rows.items()}))
        return found

    def changes(self) -> list[dict[str, Cell]]:
        """The categories and gases that changed by more than 20 percent since the year before, and those that
        were zero then.
        """
        rows = [row for row in self.printed.rows("checks", self.year)
                if row["flag"] == "yes" or (row["previous"] != "-" and row["flag"] == "-"
                                            and figure(row["value"]) != 0)]
        return self.rows("checks", ["category", "gas"], by_size(rows, "change"))

    def children(self, code: str) -> list[str]:
        """The codes under a code that have lines, in the order of the tree."""
        return [child for child in vocabulary.categories()[code]["children"] if child in self.codes]

    def memos(self) -> list[tuple[str, list[str]]]:
        """The codes outside the tree, each with its lines."""
        return [(code, self.lines_at(code)) for code in vocabulary.MEMOS]

    def lines_at(self, code: str) -> list[str]:
        """The lines at a code, those that emit by size, and then the others by name."""
        equivalents = self.printed.equivalents(self.year)
        lines = sorted(self.inventory.book.lines.items())
        return sorted((name for name, row in lines if row.field("subject") == code),
                      key=lambda name: (name not in equivalents, -abs(figure(equivalents.get(name, "")))))


class Drawings:
    """The pictures of the report, over the years in which something was estimated."""

    def __init__(self, tables: Tables) -> None:
        pictures = importlib.import_module("tools.pictures")
        self.made, self.tables, self.series = pictures.Pictures(), tables, pictures.Series
        years = list(tables.inventory.years)
        self.years = [year for year in years if tables.total(NATIONAL, year).of] or years

    def totals(self) -> list[Any]:
        """The lines of the net and the gross total."""
        rows = self.tables.summaries
        return [self.series(name, [float(rows[year][code]["value"]) for year in self.years])
                for name, code in (("net total", NATIONAL), ("total without land", GROSS))]

    def by_category(self) -> str:
        """Areas of the categories over the years, with the net and the gross total."""
        rows = self.tables.summaries
        parts = [self.series(said_of_category(code),
                             [float(rows[year][code]["value"]) for year in self.years]) for code in PARTS]
        return str(self.made.areas(self.years, [part for part in parts if any(part.figures)], self.totals(),
                                   EQUIVALENT))

    def by_gas(self) -> str:
        """Areas of the gases without land over the years, with the net and the gross total."""
        parts = [self.series(gas, [float(of[False][year][GROSS]["value"]) for year in self.years])
                 for gas, of in self.tables.gases.items()]
        return str(self.made.areas(self.years, [part for part in parts if any(part.figures)], self.totals(),
                                   EQUIVALENT))

    def key_categories(self, rows: list[dict[str, Cell]]) -> str:
        """The shares of key categories; nothing where no share is defined."""
        known = [row for row in rows if row["share"].text != "-"][:MOST_BARS]
        if not known:
            return ""
        return str(self.made.key_categories(
            [f"{row['category'].text} {row['gas'].text}" for row in known],
            [float(row["share"].text) for row in known], [float(row["cumulative"].text) for row in known],
            [row["key"].text == "yes" for row in known]))

    def uncertainty(self, rows: list[dict[str, Cell]]) -> str:
        """The parts of the lines with a value in the squared uncertainty of the total, where that has one."""
        lines, total = rows[:-1], rows[-1]
        if total["combined_high"].text == "-":
            return ""
        squares = {row["code"].text: float(figure(row["value"].text) * figure(row["combined_high"].text)) ** 2
                   for row in lines if figure(row["value"].text)}
        whole = sum(squares.values()) or 1
        names = sorted(squares, key=lambda name: -squares[name])[:MOST_BARS]
        said = {row["code"].text: f"{row['value'].text} ± {row['combined_high'].text} %" for row in lines}
        return str(self.made.bars(names, [100 * squares[name] / whole for name in names],
                                  [said[name] for name in names], "percent of the squared uncertainty"))

    def reference(self) -> str:
        """Both approaches over the years."""
        rows = [row for year, row in self.tables.reference() if year in self.years]
        return str(self.made.lines(self.years, [
            self.series(name, [float(row[item].text) for row in rows])
            for name, item in (("reference approach", "reference"), ("sectoral approach", "sectoral"))],
            "Gg of CO2"))

    def changes(self) -> str:
        """The changes above 20 percent, those above 100 as 100."""
        rows = [row for row in self.tables.changes() if row["change"].text != "-"][:MOST_BARS]
        if not rows:
            return ""
        return str(self.made.bars(
            [f"{row['category'].text} {row['gas'].text}" for row in rows],
            [float(row["change"].text) for row in rows], [f"{row['change'].text} %" for row in rows],
            "percent since the year before, at most 100 drawn", 100))


def needed(module: str, command: str = "report") -> Any:
    """A library that a command needs, or what to do where it is not installed."""
    try:
        return importlib.import_module(module)
    except ImportError as error:
        need = f"{command} needs the library {module}"
        raise FolderFault(f"{need}; {libraries.install(module)}") from error


def gases_apart(path: str, inventory: Inventory) -> tuple[dict[str, Any], dict[str, list[Row]]]:
    """The totals of each gas alone, as equivalents and as masses; and the key categories without land."""
    with Program(path) as program:
        variants = Variants(program, inventory.sheets, inventory.book)
        years = {False: inventory.years, True: [inventory.year]}
        gases = {gas: {as_mass: variants.of_gas(gas, as_mass, years[as_mass]) for as_mass in (False, True)}
                 for gas in gases_of(inventory.book)}
    with Program(path) as program:
        variants = Variants(program, inventory.sheets, inventory.book)
        return gases, variants.without_land(inventory.year, ("level", "trend"))


def page_of(inventory: Inventory, path: str, title: str, progress: Progress) -> str:
    """The page of an inventory."""
    jinja2 = needed("jinja2")
    progress.after("each gas alone, and all without land")
    gases, without_land = gases_apart(path, inventory)
    progress.after("tables and pictures")
    tables = Tables(inventory, gases)
    made = jinja2.Environment(loader=jinja2.FileSystemLoader(TEMPLATES), autoescape=True, trim_blocks=True,
                              lstrip_blocks=True, undefined=jinja2.StrictUndefined)
    made.globals.update(
        depth=depth, name_of=name_of, conversion=conversion, equation=vocabulary.equations().get,
        key_names=vocabulary.words()["key_names"])
    keys = {(table, land): tables.key_categories(table, rows, shown)
            for table in ("level", "trend")
            for land, rows, shown in ((True, None, table), (False, without_land[table], f"{table}:land"))}
    return str(made.get_template("report.html").render(
        title=title, without_line=without_line(inventory.book), inventory=inventory,
        tables=tables, gases=list(gases), keys=keys,
        of_trend=OF_TREND if inventory.year != inventory.base else (),
        drawings=Drawings(tables), line=Tracer(inventory.book, inventory.printed).line,
        style=(TEMPLATES / "report.css").read_text(encoding="utf-8"),
        script=(TEMPLATES / "report.js").read_text(encoding="utf-8")))


def read_words(words: list[str]) -> tuple[list[str], int | None]:
    """The folders, and the year that may stand after them."""
    if len(words) > 1 and re.fullmatch("[0-9]{4}", words[-1]):
        return words[:-1], int(words[-1])
    return words, None


def write(path: pathlib.Path, text: str) -> None:
    """Writes a file beside its place, and then puts it there."""
    beside = path.with_name(f".{path.name}.{os.getpid()}")
    try:
        beside.write_text(text, encoding="utf-8", errors="backslashreplace", newline="\n")
        beside.replace(path)
    except OSError as error:
        beside.unlink(missing_ok=True)
        raise OSError(error.errno, error.strerror, str(path)) from error


def warned(program: Program, checked: check.Check, left: list[tuple[str, str]]) -> Iterator[str]:
    """The warnings of `check`."""
    yield from map(str, warnings_of(program, checked))
    yield from warn_left(left)


def run(arguments: argparse.Namespace) -> int:
    """Writes the report, and answers the status: 1 where there are faults or is no such year."""
    for module in LIBRARIES:
        needed(module)
    output = pathlib.Path(arguments.output)
    check_place(output)
    path = found_program(arguments.program)
    folders, year = read_words(arguments.words)
    sheets, left = read_folders(folders)
    with Review(path) as program, Progress(sheets, arguments.quiet) as progress:
        checked = check.Check(program, sheets)
        checked.run(progress)
        progress.after("warnings")
        span = checked.book.span
        lacking = said_of_faults(checked.faults, folders) or said_of_span(span, year)
        if lacking:
            progress.clear()
            print(f"./workbook: {lacking}", file=sys.stderr)
            return 1
        shown = year or checked.book.known_span()[1]
        inventory = Inventory(sheets, checked.book, Printed(program), list(warned(program, checked, left)),
                              shown, named_rows(program.trend(shown)))
        named = " ".join(pathlib.Path(folder).name for folder in folders)
        text = page_of(inventory, path, arguments.title or named, progress)
    write(output, text)
    print(f"{output}: {inventory.year}, {len(inventory.book.lines)} lines", file=sys.stderr)
    return 0


def said_of_faults(faults: list[Any], folders: list[str]) -> str:
    """That there is no report where files have faults, or nothing."""
    if not faults:
        return ""
    tells = f"./workbook check {shlex.join(folders)} tells them"
    return f"the files have {counted(len(faults), 'fault')}, and no report is written; {tells}"


def said_of_span(span: tuple[int, int] | None, year: int | None) -> str:
    """Why there is no report of a year, or nothing."""
    if span is None:
        return "there is no report: no span is in force"
    if year is not None and not span[0] <= year <= span[1]:
        return f"there is no report of {year}: the span is {span[0]} to {span[1]}"
    return ""


def add_words(made: argparse.ArgumentParser) -> None:
    """Adds the words of the command."""
    made.usage = "./workbook report [--title TEXT] [--program PATH] [--quiet] FOLDER.. [YEAR] -o FILE"
    what = "the folders, and the year of the report; without it the last year of the span"
    made.add_argument("words", nargs="+", metavar="FOLDER", help=what)
    made.add_argument("-o", "--output", required=True, metavar="FILE", help="the file to write")
    title = "the country and the agency, as the page names them; without it the folders"
    made.add_argument("--title", metavar="TEXT", help=title)
