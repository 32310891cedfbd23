"""Warnings about lines: what the program takes, and is most likely another equation, category or binding."""
import re
from collections.abc import Iterator

from tools import vocabulary
from tools.book import Book, lines_taken_by, record_taken_by
from tools.faults import Fault, warn
from tools.sheets import Row
from tools.vocabulary import MEMOS, are, listed

# The equation of the stock that the parameters of vocabulary.OF_LAST_YEAR take.
STOCK = "Q91"
# What stocks measure.
STOCKS = "carbon"

# The equations of the coal, oil and gas industries, whose stages have a factor each for one activity: mining
# and what follows it (Volume 2, section 4.1), venting and flaring (Volume 2, Table 4.2.4).
OF_STAGES = {"Q14", "Q15", "Q16", "Q17"}

# Words of names of enteric fermentation and of manure, and the category of each.
OF_LIVESTOCK = {"3A1": {"ENTERIC", "FERMENTATION"}, "3A2": {"MANURE", "SLURRY", "DUNG", "LAGOON", "LAGOONS"}}

# The equation of a line, its activities, and the forms and targets of its ratios and of factors of stages, all
# with their parameters.
Taken = tuple[str, frozenset[tuple[str, str]], frozenset[tuple[str, str, str]]]


def all_of_lines(book: Book) -> list[Fault]:
    """Every warning about lines and their bindings."""
    kinds = (double_lines, other_codes, other_gases, stocks_of_the_year, flows_of_last_year, always_blank,
             other_volumes)
    return [warning for kind in kinds for warning in kind(book)]


def other_volumes(book: Book) -> list[Fault]:
    """Lines that emit a gas by an equation of another volume than that of their category, but for measured
    emissions, whose ratios are 1.
    """
    found = []
    for row in by_place(book):
        code, equation = row.field("subject"), row.field("value")
        volumes = vocabulary.volume_of_category(code), vocabulary.volume_of_equation(equation)
        if None in volumes or volumes[0] == volumes[1] or not vocabulary.gas_of(equation):
            continue
        if row.has_other_figure:
            continue
        if is_measured(book, row.field("name"), equation):
            continue
        what = vocabulary.equations()[equation]["computes"]
        cause = f"line {row.field('name')} at {code} ({vocabulary.categories()[code]['name']}) has {equation}"
        cause += f" of Volume {volumes[1]} ({what})"
        other = vocabulary.elsewhere(code, equation)
        found.append(warn(row, f"{cause}; {other[0] if other else 'is the category another?'}"))
    return found


def is_measured(book: Book, line: str, equation: str) -> bool:
    """Tells whether all ratios that a line takes are factors of 1."""
    bound, ratios = book.bindings.get(line, {}), []
    for name, parameter in vocabulary.parameters_of(equation).items():
        if parameter["measures"] == "ratio" and name in bound:
            record = book.some_record("factor", bound[name].field("low"))
            ratios.append(record is not None and record.field("value") == "1" and record.field("unit") != "pct")
    return bool(ratios) and all(ratios)


def other_codes(book: Book) -> Iterator[Fault]:
    """Lines at a category that has the code of theirs in other guidelines."""
    for row in by_place(book):
        code, equation = row.field("subject"), row.field("value")
        other = vocabulary.elsewhere(code, equation)
        volume = vocabulary.volume_of_category(code)
        same_volume = volume in (None, vocabulary.volume_of_equation(equation))
        if other and same_volume and not row.has_other_figure and code not in vocabulary.places_of(equation):
            what = vocabulary.categories()[code]["name"]
            yield warn(row, f"line {row.field('name')} at {code} ({what}) has {equation}; {other[0]}")


def other_gases(book: Book) -> list[Fault]:
    """Lines that emit another gas than their name has, and their factors whose name has another one."""
    found = []
    for row in by_place(book):
        line, equation = row.field("name"), row.field("value")
        gas = vocabulary.gas_of(equation)
        if gas is None:
            continue
        named = vocabulary.gas_in(line)
        if named not in (None, gas):
            others = vocabulary.equations_alike(equation, named)
            meant = f"; {others[0]} gives {named}" if others else ""
            found.append(warn(row, f"line {line} has {equation}, which gives {gas}{meant}"))
        for bound in book.bindings.get(line, {}).values():
            kind, name = record_taken_by(bound) or (None, "")
            other = vocabulary.gas_in(name)
            if kind == "factor" and other not in (None, named or gas):
                meant = "".join(gas if part == other else part for part in re.split("([._-])", name))
                is_there = f"; is {meant} meant?" if meant in book.years["factor"] else ""
                found.append(warn(bound, f"line {line} gives {gas}, and takes factor {name}{is_there}"))
    return found


def stocks_of_the_year(book: Book) -> list[Fault]:
    """Bindings that take the stock of this year where that of the year before is due."""
    found = []
    for line, parameter in sorted(vocabulary.OF_LAST_YEAR):
        for row in by_place(book):
            bindings = book.bindings.get(row.field("name"), {}) if row.field("value") == line else {}
            bound = bindings.get(parameter)
            taken = book.lines.get(bound.field("low")) if bound and bound.field("value") == "line" else None
            if bound and taken and taken.field("value") == STOCK:
                cause = f"{parameter} of {line} is the stock at the end of the year before, and line"
                cause += f" {bound.field('low')} is taken of the same year, so that each year's figure is that of"
                cause += f" the next; write enter,bind,{row.field('name')},{parameter},,prev,{bound.field('low')},,,"
                found.append(warn(bound, cause))
    return found


def flows_of_last_year(book: Book) -> Iterator[Fault]:
    """Bindings that take what another line gave the year before, where that is no stock."""
    for row in by_place(book):
        for bound in book.bindings.get(row.field("name"), {}).values():
            taken = book.lines.get(bound.field("low")) if bound.field("value") == "prev" else None
            given = vocabulary.given_by(taken.field("value")) if taken else STOCKS
            if given != STOCKS:
                cause = f"{bound.field('name')} of line {row.field('name')} takes what line"
                cause += f" {bound.field('low')} gave the year before, and {given} is no stock"
                yield warn(bound, f"{cause}; is line meant?")


def always_blank(book: Book) -> list[Fault]:
    """Lines that take an activity or a line, and are blank since another parameter is bound to NE."""
    found = []
    for row in by_place(book):
        bound = list(book.bindings.get(row.field("name"), {}).values())
        blank = [other for other in bound if (other.field("value"), other.field("low")) == ("key", "NE")]
        blank = [other for other in blank if not other.has_other_figure]
        if blank and any(other.field("value") == "activity" or lines_taken_by(other) for other in bound):
            names = listed([other.field("name") for other in blank], "and")
            cause = f"line {row.field('name')} is blank in all years: {names} {are(blank)} bound to NE"
            found.append(warn(blank[0], f"{cause}; NO, NA and IE are zero"))
    return found


def double_lines(book: Book) -> list[Fault]:
    """Lines of one equation over the same activities that no share tells apart."""
    found: list[Fault] = []
    seen: dict[tuple[Taken, str], Row] = {}
    for row in by_place(book):
        name = row.field("name")
        if row.field("subject") in MEMOS:
            continue
        key = what_it_takes(book, name, row.field("value"))
        if key is None:
            continue
        # an equation of two sources, as enteric fermentation and manure: two categories take one herd
        is_of_two = " or " in vocabulary.equations()[key[0]]["computes"]
        source = next(iter(livestock_of([name])), row.field("subject")) if is_of_two else ""
        before = seen.setdefault((key, source), row)
        if before is not row:
            activities = listed(sorted({taken for _, taken in key[1]}), "and")
            both = f"line {name} and line {before.field('name')} ({before.place}) are both {key[0]}"
            found.append(warn(row, f"{both} of activity {activities}; is it counted twice?"))
    return found


def livestock_of(names: list[str]) -> list[str]:
    """The categories of livestock that names speak of."""
    parts = {part for name in names for part in vocabulary.parts_of(name)}
    return [code for code, words in OF_LIVESTOCK.items() if words & parts]


def what_it_takes(book: Book, name: str, code: str) -> Taken | None:
    """The equation of a line, its activities and what its ratios are bound to;

    None where it takes no activity.
    """
    parameters = vocabulary.parameters_of(code)
    bound = book.bindings.get(name, {})
    activities = frozenset((parameter, row.field("low")) for parameter, row in bound.items()
                           if row.field("value") == "activity")
    shares = frozenset((parameter, row.field("value"), row.field("low")) for parameter, row in bound.items()
                       if parameters[parameter]["measures"] == "ratio"
                       or code in OF_STAGES and row.field("value") == "factor")
    return (code, activities, shares) if activities else None


def by_place(book: Book) -> list[Row]:
    """The lines by their files and the rows in them."""
    return sorted(book.lines.values(), key=lambda row: (row.sheet.name, row.line))
