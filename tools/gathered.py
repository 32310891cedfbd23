"""Warnings of one cause as one, and those that concern the largest emissions."""
import dataclasses
import decimal
import re

from tools.book import Book, lines_taken_by, record_taken_by
from tools.faults import Fault
from tools.program import Program
from tools.sheets import Row
from tools.vocabulary import MEMOS, listed

# So many warnings of one cause are printed each by itself; of more, the first and the places of so many.
FEW = 3
LARGEST = 10
NOTHING = decimal.Decimal(0)
# Words that differ with the number of things that a warning speaks of.
OF_NUMBER = frozenset(
    "is are has have line lines record records year years more and to or its of in there".split())


def cause_of(warning: Fault) -> tuple[str, ...]:
    """What warnings have in common that differ in names, codes, years and figures alone."""
    words = re.findall(r"(?<![\w.%/-])[a-z]+(?![\w.%/-])", warning.cause)
    return tuple(word for word in words if word not in OF_NUMBER)


def gathered(warnings: list[Fault]) -> list[Fault]:
    """Warnings, of which many of one cause are one with their number and the first places."""
    alike: dict[tuple[str, ...], list[Fault]] = {}
    groups = [alike.setdefault(cause_of(warning), []) for warning in warnings]
    for warning, group in zip(warnings, groups):
        group.append(warning)
    found = []
    for warning, group in zip(warnings, groups):
        if len(group) <= FEW:
            found.append(warning)
        elif warning is group[0]:
            places = listed([other.place for other in group[1:FEW]], "and")
            more = f"; {len(group)} like this, the next at {places}"
            found.append(dataclasses.replace(warning, cause=warning.cause + more))
    return found


def largest(warnings: list[Fault], book: Book, program: Program) -> list[str]:
    """The lines that say which of many warnings concern the largest emissions, and how large these are."""
    if len(warnings) <= LARGEST or not book.span:
        return []
    last, takers = book.span[1], takers_in(book)
    sizes = emissions(book, program, last)
    found = []
    for warning in warnings:
        size = max((sizes.get(line, NOTHING) for line in lines_of(warning, takers)), default=NOTHING)
        found += [(size, warning)] if size else []
    found.sort(key=lambda pair: -pair[0])
    head = f"of the largest emissions, in Gg of CO2 equivalents in {last}:"
    rows = [f"  {size:,.3f} at {warning.place}" for size, warning in found[:LARGEST]]
    return [head, *rows] if rows else []


def emissions(book: Book, program: Program, year: int) -> dict[str, decimal.Decimal]:
    """The size of the emission of each line in a year, in Gg of CO2 equivalents, without memo items."""
    found: dict[str, decimal.Decimal] = {}
    for text in (program.show("cells", year) or [])[1:]:
        line, category, _, gas, _, value = text.split(",")[:6]
        potential = book.in_force("factor", f"GWP.{gas}", year) if category not in MEMOS else None
        times = potential.field("value") if potential else ""
        if all(re.fullmatch(r"-?\d+(\.\d+)?", text) for text in (value, times)):
            found[line] = abs(decimal.Decimal(value)) * decimal.Decimal(times)
    return found


def takers_in(book: Book) -> dict[tuple[str, str], set[str]]:
    """The lines that take each record and each line."""
    found: dict[tuple[str, str], set[str]] = {}
    for line, bound in book.bindings.items():
        for row in bound.values():
            taken = [("line", name) for name in lines_taken_by(row)]
            record = record_taken_by(row)
            for each in [*taken, record] if record else taken:
                found.setdefault(each, set()).add(line)
    return found


def lines_of(warning: Fault, takers: dict[tuple[str, str], set[str]]) -> set[str]:
    """The lines that a warning concerns: that of its row, or those that take its record, and all that take
    these.
    """
    row = warning.row
    if not isinstance(row, Row):
        return set()
    kind, name = row.field("kind"), row.field("name")
    of_line = {"line": name, "uncert": name, "bind": row.field("subject")}.get(kind)
    waiting = [of_line] if of_line else list(takers.get((kind, name), ()))
    found: set[str] = set()
    while waiting:
        line = waiting.pop()
        if line not in found:
            found.add(line)
            waiting += takers.get(("line", line), ())
    return found
