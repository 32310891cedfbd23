"""Explains the refusals that name a cycle of lines, a node beyond the limits, or a limit of the workbook:
rules 11 to 13. They are judged with all rows of a file applied.
"""
from tools import vocabulary
from tools.after import After
from tools.book import Book, lines_taken_by, record_in, record_taken_by
from tools.faults import Fault, Rewritten, at_row
from tools.sheets import Row, Sheet
from tools.vocabulary import limit, listed


def cycle(line: str, after: After) -> Rewritten:
    """The fault of lines that take each other in a cycle, and the rows with one of its bindings blank."""
    path = bindings_to_itself(line, after.book)
    own = [bound for bound in path if after.is_own(bound)]
    if not own:
        return None, None
    of_last_year = [bound for bound in own if after.book.is_of_last_year(bound)]
    if of_last_year:
        bound = of_last_year[0]
        code = after.book.lines[bound.field("subject")].field("value")
        cause = f"{bound.field('name')} of {code} is what the line gave the year before"
        return at_row(bound, cause, "value", "prev"), after.changed(bound, value="prev")
    steps = [f"{bound.field('subject')} takes {taken} ({bound.place})"
             for bound, taken in zip(path, following(path, line))]
    cause = f"lines take each other's values of the same year in a cycle: {listed(steps, 'and')}"
    cause += "; bind one of them to last year by prev, or to an activity"
    return at_row(own[0], cause, "low"), after.blank(own[0])


def following(path: list[Row], line: str) -> list[str]:
    """The line that each binding of a path takes on it."""
    return [bound.field("subject") for bound in path[1:]] + [line]


def bindings_to_itself(line: str, book: Book) -> list[Row]:
    """The bindings by which a line takes itself in the same year, over as few lines as there are."""
    reached: dict[str, Row] = {}
    waiting = [line]
    while waiting:
        name = waiting.pop(0)
        for bound in book.bindings.get(name, {}).values():
            for taken in lines_taken_by(bound) if bound.field("value") != "prev" else []:
                if taken == line:
                    return path_to(name, reached) + [bound]
                if taken not in reached:
                    reached[taken] = bound
                    waiting.append(taken)
    return []


def path_to(name: str, reached: dict[str, Row]) -> list[Row]:
    """The bindings over which a line was reached."""
    path: list[Row] = []
    while name in reached:
        path.insert(0, reached[name])
        name = reached[name].field("subject")
    return path


def overflow(node: str, sheet: Sheet, after: After) -> tuple[Fault, list[Row] | None]:
    """The fault of a node beyond the limits, and the rows with one of its figures blank."""
    kind, *rest = node.split(":")
    year = int(rest[-1])
    equivalents = f"{limit('equivalent')} Gg of CO2 equivalent"
    if kind in ("total", "gross"):
        code = rest[0] if kind == "total" else "0"
        cause = f"the total of {code} in {year} is beyond {equivalents} with the rows of this file"
        cause += "; look for a figure in a wrong unit"
        return Fault(sheet, 1, "", None, cause), None
    inputs = inputs_of(rest[0], year, after.book)
    what = f"line {rest[0]} in {year}, or a result on the way to it, is beyond {limit('figure')} units"
    if kind == "equiv":
        what = f"line {rest[0]} in {year} is beyond {equivalents}"
        gas = f"GWP.{vocabulary.gas_of(after.book.lines[rest[0]].field('value'))}"
        potential = after.book.in_force("factor", gas, year)
        inputs += [(gas, potential)] if potential else []
    figures = [f"{name} is {row.field('value')} {row.field('unit')} ({row.place})" for name, row in inputs]
    cause = f"{what}: {listed(figures, 'and')}; look at the units"
    own = [row for _, row in inputs if after.is_own(row)]
    if not own:
        return Fault(sheet, 1, "", None, cause), None
    greatest = max(own, key=lambda row: abs(float(row.field("value"))))
    return at_row(greatest, cause, "value"), after.changed(greatest, value="NE", low="", high="")


def inputs_of(line: str, year: int, book: Book) -> list[tuple[str, Row]]:
    """The figures that a line takes in a year, by their parameters, with those of the lines that it takes."""
    found, seen, waiting = [], set(), [line]
    while waiting:
        name = waiting.pop(0)
        if name in seen:
            continue
        seen.add(name)
        for parameter, bound in book.bindings.get(name, {}).items():
            waiting += lines_taken_by(bound)
            if record_taken_by(bound):
                row = book.in_force(*record_in(bound), year)
                if row is not None and row.field("value") not in vocabulary.words()["keys"]:
                    found.append((parameter if name == line else f"{parameter} of {name}", row))
    return found


def too_many(named: str, sheet: Sheet, rows: list[Row]) -> tuple[Fault, list[Row] | None]:
    """The fault of a limit of the whole workbook, and the rows without its span where that is too long."""
    spans = [row for row in rows[1:] if named == "span" and row.field("kind") == "span"]
    if spans:
        cause = f"more than {limit('span')} years from the first to the last"
        return at_row(spans[-1], cause, "value"), [row for row in rows if row not in spans]
    return Fault(sheet, 1, "", None, f"more than {limit(named)} {named} with this file"), None
