"""Tells that two bindings of a line have each other's parameter or target: rule 10."""
from tools import vocabulary
from tools.after import After
from tools.book import Book
from tools.faults import Rewritten, at_row
from tools.sheets import Row
from tools.vocabulary import Parameter


def explain(bound: Row, holder: Row, wanted: Parameter, after: After) -> Rewritten | None:
    """The fault of a binding whose record measures what another one of its line is to take, where the record
    of that measures what this one is to take, and the rows to go on with; or None.
    """
    known = vocabulary.parameters_of(holder.field("value"))
    for name, other in after.book.bindings.get(holder.field("name"), {}).items():
        if other is bound or name not in known or not after.is_own(other):
            continue
        theirs, ours = measured_by(other, after.book), measured_by(bound, after.book)
        if theirs != ours and theirs == vocabulary.record_of(wanted) \
                and ours == vocabulary.record_of(known[name]):
            column = "name" if is_of_its_form(bound, ours) and is_of_its_form(other, theirs) else "low"
            return swapped(bound, other, column, after)
    return None


def measured_by(bound: Row, book: Book) -> str | None:
    """What the record measures that a binding names, whatever its kind, or None."""
    record = book.named_by(bound)
    return vocabulary.measured_by(record.field("unit")) if record else None


def is_of_its_form(bound: Row, measures: str | None) -> bool:
    """Tells whether a binding takes an amount as an activity, or anything else as a factor."""
    return vocabulary.is_amount(measures) == (bound.field("value") == "activity")


def swapped(bound: Row, other: Row, column: str, after: After) -> Rewritten:
    """The fault of two bindings with each other's parameter, in name, or with each other's target, in low."""
    first, second = sorted((bound, other), key=lambda row: row.line)
    meant = {id(first): second.field(column), id(second): first.field(column)}
    cause = f"this row and {second.place} have each other's {'parameter' if column == 'name' else 'target'}"
    write = f"{second.field(column)} here and {first.field(column)} there"
    rows = [row.with_fields(**{column: meant[id(row)]}) if id(row) in meant else row for row in after.rows]
    return at_row(first, cause, column, write), rows
