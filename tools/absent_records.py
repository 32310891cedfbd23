"""Explains a binding to an activity or a factor that there is not: rule 10."""
from collections.abc import Collection, Container

from tools import vocabulary
from tools.after import After
from tools.asking import article
from tools.book import Book, record_in
from tools.faults import Fault, Rewritten, at_row
from tools.sheets import Row
from tools.vocabulary import Parameter, nearest, said_of_wanted


def explain(bound: Row, wanted: Parameter, after: After) -> Rewritten:
    """The fault of a binding of the file's own to a record that is not there, and the rows to go on with."""
    kind, name = record_in(bound)
    if name in vocabulary.words()["keys"] and not vocabulary.is_decay(wanted):
        fault = at_row(bound, f"{name} is a notation key and no name of {article(kind)}", "value", "key")
        return fault, after.changed(bound, value="key")
    reasons = (refused_record, record_of_another_kind, line_of_this_name, later_record, name_in_a_refused_row)
    found = (reason(bound, wanted, after) for reason in (*reasons, no_such_name))
    fault = next(fault for fault in found if fault)
    return fault, after.without_target(bound, wanted)


def refused_record(bound: Row, _wanted: Parameter, after: After) -> Fault | None:
    """The row that enters the record was refused."""
    refused = after.refused.that_enters(*record_in(bound))
    return lost_with(refused, bound, "its row was refused")


def record_of_another_kind(bound: Row, wanted: Parameter, after: After) -> Fault | None:
    """A factor has the name of an activity that is not there, or the other way round."""
    kind, name = record_in(bound)
    other = "factor" if kind == "activity" else "activity"
    record = after.book.some_record(other, name) or after.refused.that_enters(other, name)
    if not record:
        return None
    after.refused.meant_records.add((other, name))
    cause = f"{name} is no {kind} but {article(other)} ({record.place})"
    measures = vocabulary.measured_by(record.field("unit"))
    if vocabulary.is_decay(wanted):
        return at_row(bound, cause, "low")
    if measures == wanted["measures"] and vocabulary.is_amount(measures) == (kind == "activity"):
        return at_row(bound, f"{cause}; write {kind} in kind of its rows, or {other} here", "value")
    if measures in (None, wanted["measures"]):
        return at_row(bound, cause, "value", other)
    cause += f" in {record.field('unit')}, and {said_of_wanted(wanted)} is taken here"
    left = [found for found in after.records_left(wanted) if found[0] == kind]
    if len(left) == 1:
        after.refused.meant_records.add(left[0])
        place = after.book.known_record(*left[0]).place
        cause += f"; {kind} {left[0][1]} ({place}) measures that, and no line takes it"
    return at_row(bound, cause, "low")


def line_of_this_name(bound: Row, wanted: Parameter, after: After) -> Fault | None:
    """A line has the name."""
    kind, name = record_in(bound)
    line = after.line_of(name)
    if not line or vocabulary.is_decay(wanted):
        return None
    cause = f"{name} is no {kind} but a line ({line.place})"
    code = line.field("value")
    if code in vocabulary.equations() and vocabulary.given_by(code) == wanted["measures"]:
        is_its_own = bound.field("low") == bound.field("subject")
        form = "prev" if is_its_own or after.book.is_of_last_year(bound) else "line"
        return at_row(bound, cause, "value", form)
    return at_row(bound, f"{cause}, and {said_of_wanted(wanted)} is taken here", "low")


def later_record(bound: Row, _wanted: Parameter, after: After) -> Fault | None:
    """A later file enters the record."""
    kind, name = record_in(bound)
    cause = after.in_later_file(kind, name)
    if not cause:
        return None
    after.refused.meant_records.add((kind, name))
    return at_row(bound, cause, "low")


def name_in_a_refused_row(bound: Row, _wanted: Parameter, after: After) -> Fault | None:
    """The name stands in a row that was refused, in whatever column."""
    _, name = record_in(bound)
    refused = after.refused.that_has(name)
    return lost_with(refused, bound, "the row in which this name stands was refused")


def lost_with(refused: Row | None, bound: Row, why: str) -> Fault | None:
    """The record is not there because of this row that was refused, if there is one."""
    if not refused:
        return None
    kind, name = record_in(bound)
    return at_row(bound, f"there is no {kind} {name}, since {why}", "low", follows=refused.place)


def no_such_name(bound: Row, wanted: Parameter, after: After) -> Fault:
    """No row has the name: the nearest that is there, else the row that would enter it."""
    kind, name = record_in(bound)
    near = nearest_record(kind, name, wanted, after.book)
    left = [other for of_kind, other in after.records_left(wanted) if of_kind == kind]
    meant = near or (left if len(left) == 1 else [])
    after.refused.meant_records.update((kind, other) for other in meant)
    places = [f"{other} ({after.book.known_record(kind, other).place})" for other in meant]
    if near:
        which = f"; the nearest is {places[0]}"
    elif after.refused.unread:
        which = after.refused.where_else()
    else:
        unit = wanted["unit"] or vocabulary.HALF_LIFE_UNIT
        span = after.book.span or after.ahead.span()
        year = str(span[0]) if span else "YEAR"
        which = f": no row enters it; write a row enter,{kind},,{name},{year},VALUE,,,{unit},"
        which += f"; or take {places[0]}, which no line takes" if places else ""
    return at_row(bound, f"there is no {kind} of this name{which}", "low")


def nearest_record(kind: str, name: str, wanted: Parameter, book: Book) -> list[str]:
    """The name of a kind that is most likely meant, where one is near: of those that measure what is wanted,
    else of all.
    """
    known, taken = book.years[kind], book.taken()
    measured = [other for other in known if book.measured_by(kind, other) == vocabulary.record_of(wanted)]
    return nearest_of(kind, name, measured, taken) or nearest_of(kind, name, known, taken)


def nearest_of(kind: str, name: str, known: Collection[str], taken: Container[tuple[str, str]]) -> list[str]:
    """The nearest of some names of a kind, where one is near: one of the same parts in another order, else
    the nearest of those that no line takes, else the nearest.
    """
    parts = sorted(vocabulary.parts_of(name))
    same = [other for other in known if sorted(vocabulary.parts_of(other)) == parts]
    free = [other for other in known if (kind, other) not in taken]
    begun = [other for other in free if len(other) > 3 and (other.startswith(name) or name.startswith(other))]
    return (same or nearest(name, free, 1, 0.7) or begun or nearest(name, known, 1, 0.8))[:1]
