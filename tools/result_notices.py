"""Warnings of what the tables of all years give away: values that cannot be, gaps, jumps, and years that are
alike.
"""
import collections
import decimal
import functools
import re
import typing

from tools import vocabulary
from tools.book import lines_taken_by, record_taken_by
from tools.counting_notices import amounts_taken
from tools.fuels import KINDS, fuels_of
from tools.faults import Fault, counted, warn, years_said
from tools.recognisers import LANDFILL, Recogniser
from tools.results import NUMBER, ZERO, Figure, Results, figure_of, gas_of, plain
from tools.sheets import Row
from tools.vocabulary import listed

# The equations whose result has either sign: the apparent consumption of secondary fuels, of which a country
# may export more than it imports, what is computed of it, and changes of carbon stocks.
EITHER_SIGN = {"Q21", "Q23", "Q25", "Q26", "Q83", "Q84", "Q86"}
KEYS = {"NO", "NA", "IE", "NE"}
# The equations of what goes into a stock that decays.
OF_DEPOSITS = {"Q90"}
# So many figures alike are no chance.
FIGURES_ALIKE = 3
YEARS_SHOWN = 3
MOST_PERCENT = 20
# A record changes much where it does by more than this, and by so many times its change in the middle of the
# years. The least change keeps a record that never moves comparable.
HUNDREDFOLD = 100
# So many years with changes of stocks are no chance, where each is so many times nearer with the other sign.
FEWEST_YEARS, NEARER = 3, 4
MOST_CHANGE, EXCEPTIONAL, LEAST_CHANGE = decimal.Decimal("0.1"), 3, decimal.Decimal("0.02")
# Two thirds of the greater of two years: so much a term of a sum changes that is told of by itself.
OF_TERMS = decimal.Decimal("0.66")
OF_DISASTERS = {"Q82", "Q88", "Q89"}


class Change(typing.NamedTuple):
    """A change of a line to a year, in Gg of CO2 equivalent and in percent."""
    size: decimal.Decimal
    year: int
    percent: decimal.Decimal
    line: str


class KindApart(typing.NamedTuple):
    """How far the approaches are apart for a kind of fuels, in Gg CO2 and in percent."""
    size: decimal.Decimal
    kind: str
    percent: decimal.Decimal


def below_zero(results: Results) -> list[Fault]:
    """Lines below zero that cannot be: those of which no line that they take is below zero too."""
    found = []
    for row in results.lines:
        name = row.field("name")
        years = negative_years(results, row)
        taken = [other for other in results.below(name) if other != name and other in results.book.lines]
        if not years or any(negative_years(results, results.book.lines[other]) for other in taken):
            continue
        if not takes_negative_activity(results, name, years[0]):
            found.append(warn(row, said_of_negative(results, row, years)))
    return found


def negative_years(results: Results, row: Row) -> list[int]:
    """The years in which a line is below zero, where it cannot be."""
    if row.field("value") in EITHER_SIGN:
        return []
    return [year for year, value in results.series(row.field("name")).items() if value < 0]


def takes_negative_activity(results: Results, line: str, year: int) -> bool:
    """Tells whether a line takes an activity below zero, which is told of by itself."""
    records = (results.record(bound, year) for bound in results.bindings(line).values())
    return any(record and record.field("kind") == "activity" and record.field("value").startswith("-")
               for record in records)


def said_of_negative(results: Results, row: Row, years: list[int]) -> str:
    """What is below zero, and the greatest of what is taken off in the first of these years."""
    name, equation = row.field("name"), vocabulary.equations()[row.field("value")]
    value = plain(results.cells[name, years[0]] or ZERO)
    what = f"Gg {gas_of(row)}" if gas_of(row) else equation["output"]["unit"]
    more = f", and in {counted(len(years) - 1, 'more year')}" if len(years) > 1 else ""
    cause = f"line {name} is below zero: {value} {what} in {years[0]}{more}"
    bindings = results.bindings(name)
    off_one = re.search(r"\(1 - \(([A-Z +]+)\)\)", equation["expression"])
    if off_one:
        shares = [bindings[parameter] for parameter in off_one.group(1).split(" + ") if parameter in bindings]
        size = sum((results.taken(bound, years[0]) or ZERO for bound in shares), ZERO)
        named = listed([f"{bound.field('name')} ({bound.field('low')})" for bound in shares
                        if bound.field("value") == "factor"], "and")
        cause += f"; {named}, which are taken off one, are {plain(size)} together: are they what is left?"
    for parameter in re.findall(r"(?<!1 )- ([A-Z][A-Z0-9]*)", equation["expression"]):
        taken = results.taken(bindings[parameter], years[0]) if parameter in bindings else None
        if taken:
            cause += f"; {parameter}, which is taken off, is {plain(taken)} ({bindings[parameter].place})"
    return cause


def blank_between(results: Results) -> list[Fault]:
    """Records that are NE between years with figures, with the lines that are blank there."""
    lines: dict[tuple[str, str], set[str]] = {}
    for row in results.lines:
        name = row.field("name")
        known = results.series(name)
        first, last = min(known, default=0), max(known, default=0)
        blank = [year for year in results.years if first < year < last and year not in known]
        if not blank:
            continue
        for bound in results.bindings(name).values():
            record = record_taken_by(bound)
            if record and any(is_not_estimated(results.record(bound, year)) for year in blank):
                lines.setdefault(record, set()).add(name)
    return [warn(*said_of_blank(results, kind, name, sorted(blank)))
            for (kind, name), blank in sorted(lines.items())]


def blank_at_the_edges(results: Results) -> list[Fault]:
    """Activities that are NE in the first or the last years of the span, and have figures in most others."""
    found, taken = [], results.book.taken()
    for name, years in sorted(results.book.years["activity"].items()):
        if len(results.numbers(name).rows) == len(years):
            continue
        records = results.records("activity", name)
        blank = [year for year, row in records.items() if is_not_estimated(row) and not row.has_other_figure]
        if not blank:
            continue
        known = [year for year, row in records.items() if NUMBER.fullmatch(row.field("value"))]
        blank = [year for year in blank if known and not min(known) < year < max(known)]
        if blank and len(known) >= FEWEST_YEARS and len(blank) < len(known) and ("activity", name) in taken:
            lines = sorted({bound.field("subject") for bound in taken["activity", name]})
            said = f"activity {name} is NE in {years_said(blank)}, and has figures in {years_said(known)}; what line"
            found.append(warn(records[blank[0]], f"{said} {lines[0]} gives is blank there, and totals count zero"))
    return found


def nothing_by_a_key(results: Results) -> list[Fault]:
    """Lines that are zero or blank in all years since a factor is a notation key, whatever amount they take."""
    found = []
    for row in results.lines:
        name = row.field("name")
        values = results.series(name).values()
        if any(values):
            continue
        taken = amounts_taken(row.field("value"))
        amounts = {parameter: bound for parameter, bound in results.bindings(name).items() if parameter in taken}
        known = next((bound for bound in amounts.values() if any(results.taken(bound, year) for year in results.years)),
                     None)
        for parameter, bound in results.bindings(name).items():
            key = key_of(results, bound) if known and parameter not in amounts else None
            if key and known and results.is_own(bound):
                what, why = ("zero", "counts as zero") if values else ("blank", "leaves it blank")
                said = f"line {name} is {what} in all years, whatever {known.field('low')} is: {parameter} is {key},"
                found.append(warn(bound, f"{said} which {why}; a factor that does not apply is 1"))
                break
    return found


def key_of(results: Results, bound: Row) -> str | None:
    """The notation key that a binding takes in all years, by itself, but for NE, or by a factor; or None."""
    if bound.field("value") == "key":
        return str(bound.field("low")) if bound.field("low") != "NE" else None
    rows = results.book.years["factor"].get(bound.field("low"), {}).values() if bound.field("value") == "factor" else ()
    keys = {row.field("value") for row in rows}
    return f"{keys.pop()} by factor {bound.field('low')}" if len(keys) == 1 and keys <= KEYS else None


def is_not_estimated(record: Row | None) -> bool:
    """Tells whether a record is NE."""
    return record is not None and record.field("value") == "NE"


def said_of_blank(results: Results, kind: str, name: str, lines: list[str]) -> tuple[Row, str]:
    """The first row of a record that is NE between figures, and what is said of it."""
    records = {year: results.book.in_force(kind, name, year) for year in results.years}
    blank_rows = {year: row for year, row in records.items() if row is not None and is_not_estimated(row)}
    years, row = list(blank_rows), next(iter(blank_rows.values()))
    blank = f"{'line' if len(lines) == 1 else 'lines'} {listed(lines[:YEARS_SHOWN], 'and')}"
    more = f" and {len(lines) - YEARS_SHOWN} more" if len(lines) > YEARS_SHOWN else ""
    said = f"{kind} {name} is NE in {years_said(years)}, between years with figures; {blank}{more}"
    return row, f"{said} {'is' if len(lines) == 1 else 'are'} blank there, and totals count zero"


def approaches_apart(results: Results) -> list[Fault]:
    """Years in which the reference approach is more than 5 percent from the sectoral one, or from the lines
    of the one kind of fuels that it has.
    """
    of_co2 = [row for row in results.emitting if gas_of(row) == "CO2"]
    rows = [row for row in of_co2 if row.field("subject") == "RA"]
    if not rows:
        return []
    burnt = [row for row in of_co2 if row.field("subject").startswith("1A")]
    kinds = {kind for row in rows for kind in kinds_of_fuels(results, row)}
    alike = [row for row in burnt if kinds & kinds_of_fuels(results, row)]
    own = alike if len(kinds) == 1 else burnt
    apart = {}
    for year in results.years:
        one, other = sum_of(results, rows, year), sum_of(results, own, year)
        if one and other and abs(one - other) * 20 > abs(other):
            apart[year] = (100 * (one - other) / abs(other), one, other)
    if not apart:
        return []
    worst = max(apart, key=lambda year: abs(apart[year][0]))
    percent, one, other = apart[worst]
    what = "the sectoral approach" if own == burnt else f"what lines of {min(kinds)} give under 1A"
    said = f"the reference approach is {one} Gg CO2 and {what} {other} in {worst}, {percent:+.2f} %"
    others = [year for year in apart if year != worst]
    more = f"; above 5 % in {years_said(others)} too" if others else ""
    by_kind = kinds_apart(results, rows, own, worst)
    at = next((row for row in rows if by_kind and by_kind[0][1] in kinds_of_fuels(results, row)), rows[0])
    most = "; most of it is " + listed([f"{kind}, {kind_percent:+.1f} %" for _, kind, kind_percent in by_kind[:2]],
                                       "and") if by_kind else ""
    swapped = imports_and_exports(results, rows, by_kind[0], worst) if by_kind else None
    return [warn(at, f"{said}{more}{most}; {swapped or fuels_of_one(results, rows, own)}")]


def imports_and_exports(results: Results, rows: list[Row], kind: KindApart, year: int) -> str | None:
    """The line of apparent consumption by which the approaches agree for a kind of fuels if its imports are its
    exports; or None.
    """
    of_kind = [row for row in rows if kind.kind in kinds_of_fuels(results, row)]
    reference = sum_of(results, of_kind, year) or ZERO
    sectoral = reference / (1 + kind.percent / 100)
    lines = [name for row in of_kind for name in results.below(row.field("name"))]
    for line in lines if len(of_kind) == 1 else []:
        bindings = results.bindings(line)
        if {"IM", "EX"} <= bindings.keys():
            amounts = [results.taken(bindings[name], year) or ZERO for name in ("IM", "EX")]
            consumed = results.cells.get((line, year)) or ZERO
            other = reference * (consumed - 2 * (amounts[0] - amounts[1])) / consumed if consumed else ZERO
            if abs(other - sectoral) * 20 <= abs(sectoral):
                return f"with IM and EX of line {line} in each other's place they agree: are these swapped?"
    return None


def stock_changes_with_other_sign(results: Results) -> list[Fault]:
    """Changes of stocks in the reference approach with which the approaches agree if they have the other sign."""
    of_co2 = [row for row in results.emitting if gas_of(row) == "CO2"]
    reference = [row for row in of_co2 if row.field("subject") == "RA"]
    burnt = [row for row in of_co2 if row.field("subject").startswith("1A")]
    found: list[Fault] = []
    for kind in (*KINDS, "") if reference else ():
        rows = [[row for row in lines if not kind or kind in kinds_of_fuels(results, row)]
                for lines in (reference, burnt)]
        changes = stock_changes(results, rows[0])
        first = next((bound for row in rows[0] for bound in bound_to_changes(results, row)), None)
        apart = [apart_by_sign(results, rows, changes, year) for year in results.years]
        known = [each for each in apart if each]
        if first and len(known) >= FEWEST_YEARS and not found and are_nearer(known):
            said = f"with the other sign of {listed(sorted(names_of_changes(results, rows[0])), 'and')} the reference"
            said += f" approach{' of ' + kind if kind else ''} agrees with the sectoral one in all years"
            found.append(warn(first, f"{said}; SC is above zero where stocks grow"))
    return found


def bound_to_changes(results: Results, row: Row) -> list[Row]:
    """The bindings of a line and of those that it takes with the change of stocks, where that is an activity."""
    return [bound for bound in results.bound_below(row.field("name"))
            if bound.field("name") == "SC" and bound.field("value") == "activity"]


def names_of_changes(results: Results, rows: list[Row]) -> set[str]:
    """The activities that lines of the reference approach take as changes of stocks."""
    return {bound.field("low") for row in rows for bound in bound_to_changes(results, row)}


def stock_changes(results: Results, rows: list[Row]) -> dict[int, decimal.Decimal]:
    """The CO2 that changes of stocks take off lines of the reference approach, by year: of each line its own by
    the share of its apparent consumption that they are.
    """
    found: dict[int, decimal.Decimal] = {}
    for row in rows:
        for bound in bound_to_changes(results, row):
            for year in results.years:
                consumed = results.cells.get((bound.field("subject"), year))
                change, given = results.taken(bound, year), results.cells[row.field("name"), year]
                if consumed and change and given:
                    found[year] = found.get(year, ZERO) + given * change / consumed
    return found


def apart_by_sign(results: Results, rows: list[list[Row]], changes: dict[int, decimal.Decimal],
                  year: int) -> tuple[decimal.Decimal, decimal.Decimal] | None:
    """How far the approaches are apart in a year, as they are and with the other sign of the changes of stocks; or
    None where one of them is nothing, or no stock changes.
    """
    one, other = (sum_of(results, lines, year) for lines in rows)
    if not one or not other or not changes.get(year):
        return None
    return abs(one - other), abs(one + 2 * changes[year] - other)


def are_nearer(apart: list[tuple[decimal.Decimal, decimal.Decimal]]) -> bool:
    """Tells whether of each pair of differences the second is far less than the first."""
    return all(other * NEARER <= one for one, other in apart) and any(one for one, _ in apart)


def kinds_apart(results: Results, rows: list[Row], burnt: list[Row], year: int) -> list[KindApart]:
    """The kinds of fuels that both approaches have and that are more than 5 percent apart in a year, the
    largest difference first.
    """
    found = []
    for kind in KINDS:
        one, other = (sum_of(results, [row for row in lines if kind in kinds_of_fuels(results, row)], year)
                      for lines in (rows, burnt))
        if one and other and abs(one - other) * 20 > abs(other):
            found.append(KindApart(abs(one - other), kind, 100 * (one - other) / abs(other)))
    return sorted(found, reverse=True)


def sum_of(results: Results, rows: list[Row], year: int) -> Figure:
    """The sum of what lines give in a year as it is printed, without the blank ones in the sectoral approach,
    or None where a line of the reference approach is blank.
    """
    values = [results.cells[row.field("name"), year] for row in rows]
    is_reference = any(row.field("subject") == "RA" for row in rows)
    return None if is_reference and None in values else sum((value for value in values if value), ZERO)


def fuels_of_one(results: Results, rows: list[Row], burnt: list[Row]) -> str:
    """The kinds of fuels, by names, that one approach alone has, where each line of the other names its own; or
    what to ask for.
    """
    each = [[kinds_of_fuels(results, row) for row in lines] for lines in (rows, burnt)]
    kinds = [{kind for own in of_lines for kind in own} for of_lines in each]
    alone = [f"lines of {listed(sorted(kinds[one] - kinds[other]), 'and')} stand {where} alone"
             for one, other, where in ((0, 1, "at RA"), (1, 0, "under 1A"))
             if kinds[one] - kinds[other] and all(each[other])]
    asked = "is a line of burnt fuel missing under 1A, or a change of stocks, a bunker or a use as feedstock in one"
    return "; ".join(alone) or f"{asked} of them alone?"


def kinds_of_fuels(results: Results, row: Row) -> set[str]:
    """The kinds of fuels that the names of a line and of what it takes are of, each by its first fuel."""
    name = row.field("name")
    names = [name, *(bound.field("low") for bound in results.bound_below(name))]
    fuels = {fuel for name in names for fuel in fuels_of([name])[:1]}
    return {kind for kind, words in KINDS.items() if fuels & set(words)}


def large_changes(results: Results) -> list[Fault]:
    """Changes of lines above 20 percent from one year to the next, the largest first, gathered at the
    activity that makes them.
    """
    gathered = [(row, sorted(changes, key=lambda change: -abs(change.size)))
                for row, changes in changes_by_cause(results)]
    gathered.sort(key=lambda pair: -abs(pair[1][0].size))
    return [warn(row, said_of_changes(results, row, changes)) for row, changes in gathered]


@functools.cache
def changes_by_cause(results: Results) -> list[tuple[Row, list[Change]]]:
    """The changes of lines above 20 percent, by the record that makes them."""
    found: dict[int, list[Change]] = {}
    records: dict[int, Row] = {}
    for year in results.years[1:]:
        before, now = results.equivalents(year - 1), results.equivalents(year)
        for line, value in before.items():
            change = change_of(line, year, value, now[line])
            record = cause_of_change(results, line, year) if change else None
            if change and record:
                records[id(record)] = record
                found.setdefault(id(record), []).append(change)
    return [(records[at], changes) for at, changes in found.items()]


def terms_that_jump(results: Results) -> list[Fault]:
    """Activities that become three times as much or a third in one year, where they usually change less, and which
    are so small a term that no line changes much.
    """
    taken = results.book.taken()
    told = {row.field("name") for row, _ in changes_by_cause(results)}
    deposits = {bound.field("low") for row in results.lines if row.field("value") in OF_DEPOSITS
                for bound in results.bindings(row.field("name")).values()}
    found = []
    for name in sorted(results.book.years["activity"].keys() - told - deposits):
        bound, sizes = taken.get(("activity", name), []), results.numbers(name).sizes
        if not bound or any(is_fitful(results, each) for each in bound) or not may_jump(sizes):
            continue
        years = [year for year, change in changes_of(results, name).items()
                 if OF_TERMS <= change < 1 and exceptional(results, name, year)]
        if years:
            rows = [results.book.years["activity"][name][at] for at in (years[0] - 1, years[0])]
            was, now = (f"{row.field('value')} {row.field('unit')}" for row in rows)
            said = f"activity {name} is {now} in {years[0]}, and was {was} the year before; line"
            found.append(warn(rows[1], f"{said} {bound[0].field('subject')} hardly shows it; is a figure wrong?"))
    return found


def is_fitful(results: Results, bound: Row) -> bool:
    """Tells whether a binding is of a change of stocks, or of what a fire or a storm takes."""
    line = results.book.lines.get(bound.field("subject"))
    return bound.field("name") == "SC" or line is not None and line.field("value") in OF_DISASTERS


def may_jump(sizes: list[float]) -> bool:
    """Tells whether figures as they are written become twice as much or half from one to the next."""
    return any(not one <= 2 * other <= 4 * one for one, other in zip(sizes, sizes[1:]))


def deposits_that_jump(results: Results) -> list[Fault]:
    """Activities that go into a stock and change by more than 20 percent in one year, where they usually change
    less: what the stock gives hardly shows it.
    """
    taken: dict[str, Row] = {}
    for row in results.lines:
        if row.field("value") in OF_DEPOSITS:
            bound = results.bindings(row.field("name")).values()
            taken.update({each.field("low"): row for each in bound if each.field("value") == "activity"})
    found = []
    for name, line in sorted(taken.items()):
        changes = {year: change for year, change in changes_of(results, name).items() if change * 100 > MOST_PERCENT}
        exceptions = [year for year in changes if exceptional(results, name, year)]
        if exceptions and not is_return(results, name, exceptions[0]):
            found.append(warn(*said_of_deposits(results, name, line, exceptions[0])))
    return found


def said_of_deposits(results: Results, name: str, line: Row, year: int) -> tuple[Row, str]:
    """The record of a year in which a deposit changes much, and what is said of it."""
    before, row = (results.book.years["activity"][name][at] for at in (year - 1, year))
    one, other = figure_of(before) or ZERO, figure_of(row) or ZERO
    percent = 100 * (other - one) / abs(one) if one else ZERO
    said = f"activity {name} changes by {percent:+.1f} % in {year}, from {before.field('value')}"
    said += f" {before.field('unit')} to {row.field('value')} {row.field('unit')}, and line {line.field('name')} takes"
    return row, f"{said} it into a stock, which shows it over many years alone; is a figure wrong?"


def change_of(line: str, year: int, before: Figure, now: Figure) -> Change | None:
    """The change of a line to a year, where it is above 20 percent of a year before that is not zero."""
    if not before or now is None or abs(now - before) * 100 <= MOST_PERCENT * abs(before):
        return None
    return Change(now - before, year, 100 * (now - before) / abs(before), line)


def said_of_changes(results: Results, row: Row, changes: list[Change]) -> str:
    """Changes by one activity, of which the largest is said in full."""
    size, year, percent, line = changes[0]
    before = results.book.in_force(row.field("kind"), row.field("name"), year - 1)
    others = listed([change.line for change in changes[1:4]], "and")
    more = f" and {len(changes) - 4} more" if len(changes) > 4 else ""
    also = f", and so {'does' if len(changes) == 2 else 'do'} {others}{more}" if others else ""
    said = f"line {line} changes by {percent:+.1f} % in {year}, {size:+} Gg CO2 equivalent{also}: activity"
    said += f" {row.field('name')} is {row.field('value')} {row.field('unit')}"
    was = f", and was {before.field('value')} {before.field('unit')} in {year - 1}" if before else ""
    return f"{said}{was}"


def cause_of_change(results: Results, line: str, year: int) -> Row | None:
    """The activity that changes most beyond its usual change between two years among those of a line; or
    None.
    """
    below = results.bound_below(line)
    if year == results.years[1] and any(bound.field("value") == "prev" for bound in below):
        return None
    names = [bound.field("low") for bound in below if bound.field("value") == "activity"]
    changes = [(exceptional(results, name, year), name) for name in names]
    most, name = max(changes, default=(ZERO, ""))
    record: Row | None = results.book.in_force("activity", name, year)
    return record if most and not is_return(results, name, year) else None


def is_return(results: Results, name: str, year: int) -> bool:
    """Tells whether an activity comes back to what it was two years before, which is told of already."""
    if year - 2 not in results.years or not exceptional(results, name, year - 1):
        return False
    one, other = (results.book.in_force("activity", name, at) for at in (year - 2, year))
    if one is None or other is None:
        return False
    figures = figure_of(one), figure_of(other)
    return None in figures or apart(*(abs(figure or ZERO) for figure in figures)) < 2 * MOST_CHANGE


def exceptional(results: Results, name: str, year: int) -> decimal.Decimal:
    """How many times the usual change of an activity its change to a year is, or zero where that is usual."""
    change = changes_of(results, name)[year]
    if change <= MOST_CHANGE:
        return ZERO
    others = sorted_changes(results, name).copy()
    others.remove(change)
    middle = others[len(others) // 2] if others else ZERO
    return change / (middle + LEAST_CHANGE) if change > EXCEPTIONAL * middle else ZERO


@functools.cache
def sorted_changes(results: Results, name: str) -> list[decimal.Decimal]:
    """The changes of an activity, the least first."""
    return sorted(changes_of(results, name).values())


@functools.cache
def changes_of(results: Results, name: str) -> dict[int, decimal.Decimal]:
    """How much of the greater of two years' figures an activity changes by to each year of the span. What
    begins or ends, with a notation key before or after, does not change.
    """
    figures = ((year, figure_of(row)) for year, row in results.book.years["activity"].get(name, {}).items())
    sizes = {year: abs(figure) for year, figure in figures if figure is not None}
    known = results.numbers(name).rows
    first, last = (int(row.field("year")) for row in (known[0], known[-1])) if known else (0, 0)
    return {year: apart(sizes[year - 1], sizes[year])
            if first < year <= last and year - 1 in sizes and year in sizes else ZERO
            for year in results.years[1:]}


def apart(one: decimal.Decimal, other: decimal.Decimal) -> decimal.Decimal:
    """How much of the greater of two sizes they are apart, but for a hundred times, which is told of by
    itself.
    """
    least, most = (one, other) if one < other else (other, one)
    if not most or most >= HUNDREDFOLD * least > 0:
        return ZERO
    return (most - least) / most


def whole_stock_at_first(results: Results) -> list[Fault]:
    """Changes of a stock that are the whole stock in the first year of the span, since nothing is known of
    the year before.
    """
    found = []
    for row in results.lines:
        name, first = row.field("name"), results.cells[row.field("name"), results.years[0]]
        bound = prev_of_own_stock(results, row) if row.field("value") in ("Q83", "Q86") else None
        if bound and first:
            found.append(warn(bound, said_of_stock(name, lines_taken_by(bound), first, results.years[0])))
    return found


def prev_of_own_stock(results: Results, row: Row) -> Row | None:
    """The binding that takes the stock of the year before, where a line takes the stock of this year and that
    one, by itself or through a line that is zero in the first year; or None.
    """
    bindings = results.bindings(row.field("name")).values()
    own = [lines_taken_by(bound) for bound in bindings if bound.field("value") in ("line", "sum")]
    through = [name for names in own for name in names if results.cells.get((name, results.years[0])) == 0]
    for bound in [*bindings, *(other for name in through for other in results.bindings(name).values())]:
        if bound.field("value") == "prev" and lines_taken_by(bound) in own:
            return bound
    return None


def said_of_stock(line: str, stock: list[str], first: decimal.Decimal, year: int) -> str:
    """What is said of a change that is a whole stock."""
    said = f"line {line} counts the whole stock of {listed(stock, 'and')} in the first year of the span,"
    said += f" {plain(first)} GgC in {year}, since prev is zero there; let the span begin a year earlier, or"
    return f"{said} take off the stock of the year before (docs/WORKBOOK.md)"


def years_alike(results: Results) -> list[Fault]:
    """Years in which all activities of a file, that move in other years, have the figures of the year
    before.
    """
    alike: dict[tuple[int, int], list[Row]] = {}
    apart: set[tuple[int, int]] = set()
    for years in results.book.years["activity"].values():
        own = {year: row for year, row in years.items() if year in results.years}
        open_years = [(year, row) for year, row in own.items()
                      if year - 1 in own and (id(row.sheet), year) not in apart]
        counts = collections.Counter(row.field("value") for row in own.values() if open_years)
        for year, row in open_years:
            others = len(counts) - (counts[row.field("value")] == 1)
            if others > 1 and are_alike(own[year - 1], row):
                alike.setdefault((id(row.sheet), year), []).append(row)
            elif others > 1:
                apart.add((id(row.sheet), year))
    found = []
    for (sheet, year), rows in alike.items():
        if len(rows) >= FIGURES_ALIKE and (sheet, year) not in apart:
            said = f"all {len(rows)} activities of this file that change in other years have in {year}"
            row = min(rows, key=lambda row: row.line)
            found.append(warn(row, f"{said} the figures of {year - 1}; was that year copied?"))
    return found


def are_alike(one: Row, other: Row) -> bool:
    """Tells whether two records have the same figure that is none of nothing."""
    figure = figure_of(one)
    return figure is not None and figure != 0 and figure == figure_of(other)


def untaken_lines(results: Results) -> list[Fault]:
    """Lines that give carbon, energy, nitrogen or anything else for others, and that no line takes."""
    taken = results.book.lines_taken()
    found = []
    for row in results.lines:
        name = row.field("name")
        if gas_of(row) or name in taken:
            continue
        output = vocabulary.equations()[row.field("value")]["output"]
        said = f"line {name} gives {output['measures']} ({output['unit']}), and no line takes it"
        found.append(warn(row, f"{said}; it is in no total"))
    return found


def base_year_without_values(results: Results) -> list[Fault]:
    """A base year in which no line has a value, where other years have."""
    row = results.book.rows[("span",)]
    known = {year for line in results.emitting for year in results.series(line.field("name"))}
    if not known or int(row.field("low")) in known:
        return []
    said = f"no line has a value in the base year, {row.field('low')}; the years with values are"
    return [warn(row, f"{said} {years_said(known)}")]


# A right inventory of a stock of carbon in mineral soils, whose stock before the span is taken off.
STOCKS = """\
enter,span,,,2019,2021,2019,,,
enter,factor,,GWP.CO2,2019,1,,,1,
enter,line,3B3,STOCK,,Q85,,,,
enter,bind,STOCK,SREF,,factor,REFERENCE,,,
enter,bind,STOCK,FLU,,factor,ONE,,,
enter,bind,STOCK,FMG,,factor,ONE,,,
enter,bind,STOCK,FI,,factor,ONE,,,
enter,bind,STOCK,A,,activity,GRASS,,,
enter,line,3B3,BEFORE,,Q83,,,,
enter,bind,BEFORE,G,,prev,STOCK,,,
enter,bind,BEFORE,L,,activity,FIRST,,,
enter,line,3B3,CHANGE,,Q83,,,,
enter,bind,CHANGE,G,,line,STOCK,,,
enter,bind,CHANGE,L,,line,BEFORE,,,
enter,line,3B3,GRASS.CO2,,Q84,,,,
enter,bind,GRASS.CO2,C,,line,CHANGE,,,
enter,factor,,REFERENCE,2019,95,,,t/ha,
enter,factor,,ONE,2019,1,,,1,
enter,activity,,GRASS,2019,100,,,kha,
enter,activity,,GRASS,2020,101,,,kha,
enter,activity,,GRASS,2021,101.5,,,kha,
enter,activity,,FIRST,2019,-9405,,,GgC,
enter,activity,,FIRST,2020,0,,,GgC,
enter,activity,,FIRST,2021,0,,,GgC,
"""
# The rows of the reference approach beside the small inventory, with a third more coal, and with as much.
APPROACH = """\
enter,line,RA,COAL.USE,,Q20,,,,
enter,bind,COAL.USE,PR,,activity,COAL.MINED,,,
enter,bind,COAL.USE,IM,,key,NO,,,
enter,bind,COAL.USE,EX,,key,NO,,,
enter,bind,COAL.USE,IB,,key,NO,,,
enter,bind,COAL.USE,SC,,key,NO,,,
enter,line,RA,COAL.RA,,Q25,,,,
enter,bind,COAL.RA,AC,,line,COAL.USE,,,
enter,bind,COAL.RA,CONV,,factor,COAL.NCV,,,
enter,bind,COAL.RA,CC,,factor,COAL.C,,,
enter,bind,COAL.RA,XC,,key,NO,,,
enter,bind,COAL.RA,COF,,factor,ALL,,,
enter,factor,,COAL.C,2019,25.8,,,tC/TJ,
enter,factor,,ALL,2019,1,,,1,
enter,activity,,COAL.MINED,2019,{},,,kt,
enter,activity,,COAL.MINED,2020,{},,,kt,
enter,activity,,COAL.MINED,2021,{},,,kt,
"""
# Coal that is mined, and taken out of stocks or put there: as much is burnt as the small inventory has.
STOCKS_OF_COAL = APPROACH.replace("SC,,key,NO", "SC,,activity,COAL.SC").format(980, 1080, 1000) + """\
enter,activity,,COAL.SC,2019,{}20,,,kt,
enter,activity,,COAL.SC,2020,{}30,,,kt,
enter,activity,,COAL.SC,2021,{}20,,,kt,
"""
DEPOSITS = """\
enter,span,,,2019,2024,2019,,,
enter,activity,,WASTE,2021,506,,,kt,
enter,activity,,WASTE,2022,{},,,kt,
enter,activity,,WASTE,2023,512,,,kt,
enter,activity,,WASTE,2024,509,,,kt,
"""
WETLANDS = """\
enter,line,3B4,PEAT.LOSS,,Q87,,,,
enter,bind,PEAT.LOSS,A,,activity,PEAT.AREA,,,
enter,bind,PEAT.LOSS,EF,,factor,PEAT.EF,,,
enter,factor,,PEAT.EF,2019,5,,,t/ha,
enter,activity,,PEAT.AREA,2019,10,,,kha,
enter,activity,,PEAT.AREA,2020,11,,,kha,
enter,activity,,PEAT.AREA,2021,12,,,kha,
"""
TAKEN = """\
enter,line,3B4,PEAT.CHANGE,,Q83,,,,
enter,bind,PEAT.CHANGE,G,,key,NO,,,
enter,bind,PEAT.CHANGE,L,,line,PEAT.LOSS,,,
enter,line,3B4,PEAT.CO2,,Q84,,,,
enter,bind,PEAT.CO2,C,,line,PEAT.CHANGE,,,
"""
STRAW = """\
enter,span,,,2019,2023,2019,,,
enter,bind,SOILS.N2O,FCR,,activity,STRAW.N,,,
enter,activity,,STRAW.N,2019,295,,,t,
enter,activity,,STRAW.N,2020,300,,,t,
enter,activity,,STRAW.N,2021,{},,,t,
enter,activity,,STRAW.N,2022,305,,,t,
enter,activity,,STRAW.N,2023,308,,,t,
-enter,span,,,2019,2021
enter,activity,,COAL,2022,1010,,,kt,
enter,activity,,COAL,2023,1015,,,kt,
enter,activity,,COWS,2022,244000,,,head,
enter,activity,,COWS,2023,244500,,,head,
enter,activity,,FERTILISER.N,2022,41000,,,t,
enter,activity,,FERTILISER.N,2023,41300,,,t,
enter,activity,,MANURE.N,2022,20500,,,t,
enter,activity,,MANURE.N,2023,20600,,,t,
"""
IMPORTS = """\
enter,line,2A1,CEMENT.CO2,,Q31,,,,
enter,bind,CEMENT.CO2,CL,,activity,CLINKER,,,
enter,bind,CEMENT.CO2,IM,,activity,IMPORTS,,,
enter,bind,CEMENT.CO2,EX,,key,NO,,,
enter,bind,CEMENT.CO2,EF,,factor,CLINKER.EF,,,
enter,factor,,CLINKER.EF,2019,0.52,,,t/t,
enter,activity,,CLINKER,2019,1000,,,kt,
enter,activity,,CLINKER,2020,1010,,,kt,
enter,activity,,CLINKER,2021,1020,,,kt,
enter,activity,,IMPORTS,2019,{},,,kt,
enter,activity,,IMPORTS,2020,{},,,kt,
enter,activity,,IMPORTS,2021,{},,,kt,
"""

RECOGNISERS: tuple[Recogniser, ...] = (
    Recogniser(
        below_zero, "emissions and stocks below zero that cannot be, with what is taken off",
        example=IMPORTS.format(900, 1900, 950), right=IMPORTS.format(100, 110, 105),
        says="line CEMENT.CO2 is below zero: -462.8 Gg CO2 in 2020; IM, which is taken off, is 1900000"),
    Recogniser(
        blank_between, "records that are `NE` between years with figures",
        example="enter,activity,,COWS,2020,NE,,,head,",
        says="activity COWS is NE in 2020, between years with figures; line COWS.CH4 is blank there",
        right="enter,activity,,COWS,2019,NE,,,head,"),
    Recogniser(
        blank_at_the_edges, "activities that are `NE` in first or last years",
        example="enter,span,,,2019,2022,2019,,,\n-enter,span,,,2019,2021\nenter,activity,,COAL,2022,1010,,,kt,\n"
                "enter,activity,,COWS,2022,NE,,,head,\nenter,activity,,FERTILISER.N,2022,41000,,,t,\n"
                "enter,activity,,MANURE.N,2022,20500,,,t,",
        says="activity COWS is NE in 2022, and has figures in 2019 to 2021; what line COWS.CH4 gives is blank",
        right="enter,activity,,COWS,2021,NE,,,head,"),
    Recogniser(
        nothing_by_a_key, "lines zero or blank since a factor is a key",
        example="enter,bind,COWS.CH4,EF,,key,NO,,,\n-enter,factor,,COWS.EF",
        says="line COWS.CH4 is zero in all years, whatever COWS is: EF is NO, which counts as zero",
        right="enter,bind,SOILS.N2O,FON,,key,NO,,,\n-enter,activity,,MANURE.N"),
    Recogniser(
        approaches_apart, "a reference approach more than 5 percent from the sectoral one, or from the lines"
        " of its one kind of fuels",
        example=APPROACH.format(1300, 1365, 1326), right=APPROACH.format(1000, 1050, 1020),
        says="the reference approach is 3172.884 Gg CO2 and the sectoral approach 2440.680 in 2019, +30"),
    Recogniser(
        whole_stock_at_first, "changes of a stock that are the whole stock in the first year",
        example="enter,bind,CHANGE,L,,prev,STOCK,,,\n-enter,bind,BEFORE\n-enter,line,3B3,BEFORE\n"
                "-enter,activity,,FIRST",
        says="line CHANGE counts the whole stock of STOCK in the first year of the span, 9500 GgC in 2019",
        right="enter,activity,,FIRST,2019,-9400,,,GgC,", base=STOCKS),
    Recogniser(
        years_alike, "a year whose figures are all those of the year before",
        example="enter,activity,,COAL,2021,1050,,,kt,\nenter,activity,,COWS,2021,248000,,,head,\n"
                "enter,activity,,FERTILISER.N,2021,42000,,,t,\nenter,activity,,MANURE.N,2021,20800,,,t,",
        says="all 4 activities of this file that change in other years have in 2021 the figures of 2020",
        right="enter,activity,,COAL,2021,1050,,,kt,\nenter,activity,,COWS,2021,248000,,,head,"),
    Recogniser(
        untaken_lines, "lines that give carbon, energy or nitrogen, and that no line takes",
        example=WETLANDS, right=WETLANDS + TAKEN,
        says="line PEAT.LOSS gives carbon (GgC), and no line takes it; it is in no total"),
    Recogniser(
        base_year_without_values, "a base year without values",
        example="-enter,span\nenter,span,,,2017,2021,2017,,,\n-enter,factor,,GWP\n"
                "enter,factor,,GWP.CO2,2017,1,,,1,\nenter,factor,,GWP.CH4,2017,28,,,1,\n"
                "enter,factor,,GWP.N2O,2017,265,,,1,",
        says="no line has a value in the base year, 2017; the years with values are 2019 to 2021",
        right="-enter,span\nenter,span,,,2019,2021,2020,,,"),
    Recogniser(
        deposits_that_jump, "deposits in a landfill that change by more than 20 percent in one year, which the stock"
        " hides",
        example=DEPOSITS.format(268), right=DEPOSITS.format(480), base=LANDFILL,
        says="activity WASTE changes by -47.0 % in 2022, from 506 kt to 268 kt, and line WASTE.C takes it into"),
    Recogniser(
        large_changes, "changes of a line above 20 percent, where its activity usually changes less, the"
        " largest first",
        example="enter,activity,,COWS,2021,145000,,,head,",
        says="line COWS.CH4 changes by -41.5 % in 2021, -363.384 Gg CO2 equivalent: activity COWS is 145000",
        right="enter,activity,,COWS,2021,205000,,,head,"),
    Recogniser(
        terms_that_jump, "small terms of a line that triple in one year",
        example=STRAW.format(2900), right=STRAW.format(310),
        says="activity STRAW.N is 2900 t in 2021, and was 300 t the year before; line SOILS.N2O hardly shows it"),
    Recogniser(
        stock_changes_with_other_sign, "changes of stocks with the other sign, with which the approaches agree",
        example=STOCKS_OF_COAL.format("", "-", ""), right=STOCKS_OF_COAL.format("-", "", "-"),
        says="with the other sign of COAL.SC the reference approach of coal agrees with the sectoral one"),
)
