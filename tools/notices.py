"""What the program takes and a compiler would want to know of. A warning refuses nothing."""
from tools import headers, vocabulary
from tools.book import Book
from tools.cycle_notices import new_years
from tools.faults import Fault, counted, warn, warn_of, years_said
from tools.figure_notices import all_of_figures
from tools.line_notices import all_of_lines
from tools.refused import Refused
from tools.results import Results
from tools.sheets import Row, Sheet
from tools.unchecked import unchecked_defaults
from tools.vocabulary import MEMOS, listed, nearest

# A file of nothing but factors, as one of defaults, may have more than these that no line takes: they are one
# warning.
FEW = 3
NAMES_SHOWN = 6


def all_warnings(results: Results, sheets: list[Sheet], left: list[Sheet]) -> list[Fault]:
    """Every warning about a workbook, but for those that only follow from a refused row."""
    book, refused = results.book, results.refused
    found = headers_alone([sheet for sheet in sheets if sheet not in left])
    found += rows_in_quotes(sheets) + orphans(book, refused, sheets)
    found += all_of_lines(book) + all_of_figures(results) + unchecked_defaults(book)
    span = book.rows.get(("span",))
    if not span and refused.that_sets(("span",)):
        return found
    if not span:
        return found + [warn_of(sheets[0], "no span is in force, so that there is no table")]
    first, last = book.known_span()
    found += outside(book, first, last)
    found += holes(book, refused, first, last) + late_factors(book, refused, first, last)
    found += without_potential(book, refused) + without_uncertainty(book, refused)
    return found + ([] if refused.has_activity_of(last) else without_last_year(book, span, last))


def headers_alone(sheets: list[Sheet]) -> list[Fault]:
    """Files without a row."""
    cause = "a header alone: the file has no rows"
    return [warn_of(sheet, cause) for sheet in sheets if len(sheet.rows) == 1]


def rows_in_quotes(sheets: list[Sheet]) -> list[Fault]:
    """Rows in which a closed quote holds what looks like further rows."""
    cause = "what looks like further rows stands in quotes, and counts as text"
    rows = (row for sheet in sheets if b'"' in sheet.data for row in headers.close_quotes(sheet)[1])
    return [warn(row, cause) for row in rows if headers.holds_rows(row)]


def untaken(book: Book, refused: Refused, kind: str) -> list[str]:
    """The names of a kind that no line takes, nor was meant to."""
    taken = set(book.taken()) | refused.meant_records
    return [name for name in sorted(book.years[kind])
            if (kind, name) not in taken and not name.startswith("GWP.")]


def orphans(book: Book, refused: Refused, sheets: list[Sheet]) -> list[Fault]:
    """Activities and factors that no line takes."""
    found = [warn(book.known_record("activity", name), orphan_activity(book, name))
             for name in untaken(book, refused, "activity")]
    by_sheet: dict[int, list[tuple[str, Row]]] = {}
    for name in untaken(book, refused, "factor"):
        row = book.known_record("factor", name)
        by_sheet.setdefault(id(row.sheet), []).append((name, row))
    for rows in by_sheet.values():
        sheet = rows[0][1].sheet
        if len(rows) > FEW and all(row.field("kind") == "factor" for row in sheet.rows[1:]):
            names = shortened([row for _, row in rows])
            found.append(warn(rows[0][1], f"no line takes {len(rows)} of its factors: {names}"))
        else:
            found += [warn(row, f"no line takes factor {name}{other_name(book, 'factor', name)}")
                      for name, row in rows]
    return found


def orphan_activity(book: Book, name: str) -> str:
    """What is said of an activity that no line takes."""
    years = book.years["activity"][name]
    return f"no line takes activity {name} ({years_said(years)}){other_name(book, 'activity', name)}"


def other_name(book: Book, kind: str, name: str) -> str:
    """A name that is meant most likely: that of a potential, or one that a line takes, with the years that it
    lacks.
    """
    potential = vocabulary.potential_like(name)
    if kind == "factor" and potential:
        return f"; is it {potential}?"
    own, other = set(book.years[kind][name]), "activity" if kind == "factor" else "factor"
    if (other, name) in book.taken() and name in book.years[other] and not own & set(book.years[other][name]):
        return f"; is it the {other}, which has no record of {years_said(own)}?"
    near, lacking = taken_like(book, kind, name)
    of = f", which has no record of {years_said(lacking)}" if lacking else ""
    return f"; is it {near}{of}?" if near else ""


def taken_like(book: Book, kind: str, name: str) -> tuple[str | None, set[int]]:
    """The nearest name that a line takes, where one measures the same, and the years of an activity that it
    lacks; or None and no years.
    """
    known = [taken for of_kind, taken in book.taken() if of_kind == kind and taken in book.years[kind]
             and book.measured_by(kind, taken) == book.measured_by(kind, name)]
    near = next((other for other in nearest(name, known, 3, 0.8) if not is_of_another_place(name, other)), None)
    if near is None or kind != "activity":
        return near, set()
    return near, set(book.years[kind][name]) - set(book.years[kind][near])


def is_of_another_place(name: str, other: str) -> bool:
    """Tells whether two names differ in a category or a gas alone, as those of the tables do: these are two
    factors, and no slip of typing.
    """
    one, two = name.split("."), other.split(".")
    apart = [pair for pair in zip(one, two) if pair[0] != pair[1]]
    known = {code.upper() for code in vocabulary.categories()} | set(vocabulary.gases())
    return len(one) == len(two) and bool(apart) and all(set(pair) <= known for pair in apart)


def outside(book: Book, first: int, last: int) -> list[Fault]:
    """Records that no year of the span reads."""
    found = []
    new = set(map(id, new_years(book)))
    for name, years in sorted(book.years["activity"].items()):
        beyond = [year for year, row in years.items() if not first <= year <= last and id(row) not in new]
        if beyond:
            cause = f"activity {name} of {years_said(beyond)} is outside the span, {first} to {last}"
            found.append(warn(years[min(beyond)], f"{cause}; no line reads it"))
    for name, years in sorted(book.years["factor"].items()):
        beyond = [year for year in years if year > last]
        if beyond:
            cause = f"factor {name} of {years_said(beyond)} begins after the span, {first} to {last}"
            found.append(warn(years[min(beyond)], cause))
    return found


def lines_of(bindings: list[Row]) -> str:
    """The lines of bindings, as the subject of a sentence."""
    names = sorted({row.field("subject") for row in bindings})
    if len(names) == 1:
        return f"line {names[0]} is"
    if len(names) > NAMES_SHOWN:
        names = [*names[:NAMES_SHOWN - 1], f"{len(names) - NAMES_SHOWN + 1} more"]
    return f"lines {listed(names, 'and')} are"


def holes(book: Book, refused: Refused, first: int, last: int) -> list[Fault]:
    """Activities that lines take and that lack years of the span, but for those of which another name is told
    to be this one.
    """
    found, taken = [], book.taken()
    told = [taken_like(book, "activity", name) for name in untaken(book, refused, "activity")]
    last = reached(book, refused, last)
    for name, years in sorted(book.years["activity"].items()):
        elsewhere = {year for near, lacked in told for year in lacked if near == name}
        known = elsewhere.union(years, withdrawn_years(book, name))
        lacking = years_lacking(known, first, last)
        if lacking and ("activity", name) in taken and not refused.that_enters("activity", name):
            blank = f"{lines_of(taken['activity', name])} blank there"
            cause = f"activity {name} has no record of {years_said(lacking)}; {blank}"
            found.append(warn(years[min(years)], cause))
    return found


def withdrawn_years(book: Book, name: str) -> set[int]:
    """The years of which the record of an activity was withdrawn. The withdrawal is told of."""
    return {int(key[2]) for key in book.withdrawn if key[:2] == ("activity", name) and key not in book.rows}


def years_lacking(known: set[int], first: int, last: int) -> list[int]:
    """The years of a span that an activity lacks, where it has years before and after one of them, or most
    years of the span. One that has few is taken to begin or to end there.
    """
    span = range(first, last + 1)
    lacking = [year for year in span if year not in known]
    is_between = any(min(known) < year < max(known) for year in lacking)
    return lacking if is_between or len(lacking) < len(span) - len(lacking) else []


def reached(book: Book, refused: Refused, last: int) -> int:
    """The last year of the span of which some activity has a record, or was meant to have one."""
    if refused.has_activity_of(last):
        return last
    return min(last, max((max(years) for years in book.years["activity"].values()), default=last))


def first_withdrawn(book: Book, name: str, begins: int) -> bool:
    """Tells whether a record of a factor was withdrawn before the year in which it begins. The withdrawal is
    told of.
    """
    return any(key[:2] == ("factor", name) and int(key[2]) < begins and key not in book.rows
               for key in book.withdrawn)


def late_factors(book: Book, refused: Refused, first: int, last: int) -> list[Fault]:
    """Factors that lines take and that begin after the first year."""
    found = []
    taken = book.taken()
    for name, years in sorted(book.years["factor"].items()):
        begins = min(years)
        if first_withdrawn(book, name, begins):
            continue
        if first < begins <= last and ("factor", name) in taken and not refused.that_enters("factor", name):
            lines, blank = lines_of(taken["factor", name]), years_said(range(first, begins))
            found.append(warn(years[begins], f"factor {name} begins in {begins}; {lines} blank in {blank}"))
    return found


def emitted(book: Book) -> dict[str, list[Row]]:
    """The lines that emit a gas, by gas."""
    found: dict[str, list[Row]] = {}
    for name, row in sorted(book.lines.items()):
        gas = vocabulary.gas_of(row.field("value"))
        if gas:
            found.setdefault(gas, []).append(row)
    return found


def without_potential(book: Book, refused: Refused) -> list[Fault]:
    """Gases that lines emit and that no potential is in force for in some year."""
    found = []
    first = book.known_span()[0]
    for gas, rows in emitted(book).items():
        if refused.that_enters("factor", f"GWP.{gas}"):
            continue
        years = book.years["factor"].get(f"GWP.{gas}")
        lines = f"{len(rows)} {'line emits' if len(rows) == 1 else 'lines emit'} {gas}"
        if not years:
            found.append(warn(rows[0], f"{lines}, and there is no factor GWP.{gas}; totals count it as zero"))
        elif min(years) > first:
            row = years[min(years)]
            cause = f"{lines}, and GWP.{gas} begins in {min(years)}; totals before count it as zero"
            found.append(warn(row, cause))
    return found


def has_keys_alone(book: Book, line: Row) -> bool:
    """Whether each parameter of a line is a notation key."""
    bindings = book.bindings.get(line.field("name"), {}).values()
    return bool(bindings) and all(bound.field("value") == "key" for bound in bindings)


def without_uncertainty(book: Book, refused: Refused) -> list[Fault]:
    """The lines of the tree that emit a gas and have no uncertainty, where others have one. One that is a
    notation key in all its parameters has no value.
    """
    emitting = [row for rows in emitted(book).values() for row in rows if row.field("subject") not in MEMOS]
    lacking = [row for row in emitting if row.field("name") not in book.uncertainties]
    lacking = [row for row in lacking
               if not refused.that_sets(("uncert", row.field("name"))) and not has_keys_alone(book, row)]
    if not book.uncertainties or not lacking:
        return []
    lines = f"{counted(len(lacking), 'line')} {'has' if len(lacking) == 1 else 'have'} no uncertainty"
    cause = f"{lines}, and others have one; where one of them has a value, the total has none"
    return [warn(lacking[0], f"{cause}: {shortened(lacking)}")]


def shortened(rows: list[Row]) -> str:
    """The names of rows, the first of them where they are many."""
    names = [row.field("name") for row in rows]
    more = f" and {len(names) - NAMES_SHOWN} more" if len(names) > NAMES_SHOWN else ""
    return f"{', '.join(names[:NAMES_SHOWN])}{more}"


def without_last_year(book: Book, span: Row, last: int) -> list[Fault]:
    """A span whose last year no activity reaches."""
    if not book.years["activity"] or any(last in years for years in book.years["activity"].values()):
        return []
    latest = max(max(years) for years in book.years["activity"].values())
    cause = f"the span goes to {last}, and no activity has a record of it; the latest is of {latest}"
    return [warn(span, cause)]


def warn_left(left: list[tuple[str, str]]) -> list[str]:
    """The files that ORDER.txt leaves out, and what a folder has that is not read."""
    return [f"{name} warning: {why}" for name, why in left]
