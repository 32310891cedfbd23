"""Explains a row whose fields stand one column too far left or right, since a comma is missing or there is
one more; and one of which two fields stand in each other's column.
"""
import itertools
from collections.abc import Container, Iterable, Iterator

from tools import vocabulary
from tools.ahead import word_meant
from tools.asking import Asking, article
from tools.faults import Explained, at_row, shown
from tools.other_words import OTHER_KINDS
from tools.recognisers import Recogniser
from tools.sheets import COLUMN_AT, COLUMNS, Row, joined
from tools.vocabulary import limit, listed


TOO_FAR_LEFT = "one column too far left; write one more comma in front of it, and one less at the end"
TWO_TOO_FAR_LEFT = "two columns too far left; write two more commas in front of it, and two less at the end"
TOO_FAR_RIGHT = "one column too far right; take out a comma in front of it, and write one at the end"
# The columns that are filled in rows of each kind, and those that may be.
FILLED = {
    "span": ["year", "value", "low"], "line": ["subject", "name", "value"],
    "bind": ["subject", "name", "value", "low"], "uncert": ["name", "value", "low"],
    "activity": ["name", "year", "value", "unit"], "factor": ["name", "year", "value", "unit"],
}
MAY_BE_FILLED = {"activity": ["low", "high"], "factor": ["low", "high"]}


def blanks_around(asking: Asking, row: Row) -> Explained | None:
    """The fault of a row with a blank at the end of most of its fields, and the row without them, where
    the program takes it so; or None.
    """
    bare = [field.strip() for field in row.fields]
    odd = sum(field != text for field, text in zip(row.fields, bare))
    changed = Row(row.sheet, row.line, joined(bare))
    if len(bare) != len(COLUMNS) or 2 * odd <= len(COLUMNS) or not asking.takes(changed, None):
        return None
    return at_row(row, "blanks around the fields; take them out"), changed


def word_of_a_column(kind: str) -> tuple[str, Container[str]] | None:
    """A column that holds a word of the vocabulary in a row of a kind, and these words; or None."""
    if kind in ("activity", "factor"):
        return "unit", vocabulary.units()
    if kind == "line":
        return "value", vocabulary.equations()
    return ("value", vocabulary.words()["forms"]) if kind == "bind" else None


def shifted(asking: Asking, row: Row) -> Explained | None:
    """The fault and the row as it is meant, where the program takes it so, or None."""
    column = word_of_a_column(row.field("kind"))
    if len(row.fields) != len(COLUMN_AT) or not column:
        return shifted_kind(asking, row)
    due, words = COLUMN_AT[column[0]], column[1]
    if row.fields[due] in words:
        return None
    if row.fields[due - 1] in words and not row.fields[-1]:
        meant = moved_right(row, due - 1)
        return first_of(asking, row, meant, TOO_FAR_LEFT)
    if row.fields[due - 2] in words and not any(row.fields[-2:]):
        meant = moved_right(row, due - 2, 2)
        return first_of(asking, row, meant, TWO_TOO_FAR_LEFT)
    if row.fields[due + 1] in words:
        return first_of(asking, row, moved_left(row, due), TOO_FAR_RIGHT)
    return None


def shifted_kind(asking: Asking, row: Row) -> Explained | None:
    """The fault of a row without a kind whose kind stands in subject, and the row as it is meant; or
    None.
    """
    if row.field("kind").strip() or row.field("subject") not in vocabulary.words()["kinds"]:
        return None
    meant = [(row.field("subject"), row.fields[:1] + row.fields[2:] + [""])]
    return first_of(asking, row, meant, TOO_FAR_RIGHT)


def swapped_fields(asking: Asking, row: Row) -> Explained | None:
    """The fault of two fields of a row that stand in each other's column, and the row as it
    is meant, where the program takes it so; or None.
    """
    words = vocabulary.words()
    if row.field("act") in words["kinds"] and row.field("kind") in words["acts"]:
        meant = row.with_fields(act=row.field("kind"), kind=row.field("act"))
        return at_row(row, *said_of_swapped(meant, "act", "kind")), meant
    if len(row.fields) != len(COLUMNS):
        return None
    pairs = list(itertools.combinations(COLUMNS[:-1], 2))
    if row.field("note") in vocabulary.units():
        pairs.append(("unit", "note"))
    for one, other in pairs:
        meant = row.with_fields(**{one: row.field(other), other: row.field(one)})
        if meant.fields != row.fields and has_known_words(asking, meant) and asking.takes(meant, None):
            return at_row(row, *said_of_swapped(meant, one, other)), meant
    return None


def rest_of_another_kind(asking: Asking, row: Row) -> Explained | None:
    """The fault of a row whose rest is that of another kind, and the row as it is meant; or None.

    A kind that is misspelt, or left out, is told as such.
    """
    own = row.field("kind")
    if own not in FILLED and (not own.strip() or word_meant(own, FILLED, OTHER_KINDS) in FILLED):
        return None
    for kind in [kind for kind in FILLED if FILLED[kind] != FILLED.get(own)]:
        meant = row.with_fields(kind=kind)
        if has_known_words(asking, meant) and asking.takes(meant, None):
            return at_row(row, f"the rest of the row is that of {article(kind)}", "kind", kind), meant
    return None


def has_known_words(asking: Asking, row: Row) -> bool:
    """Tells whether a row has the columns of its kind filled, and a line has a category and an equation,
    a binding a parameter of its line, an uncertainty a line, or a figure a year of the workbook and a
    name that other rows have.
    """
    kind, name = row.field("kind"), row.field("name")
    filled = {column for column in COLUMNS[2:-1] if row.field(column)}
    due = set(FILLED.get(kind, [""]))
    if not due <= filled <= due.union(MAY_BE_FILLED.get(kind, [])):
        return False
    if kind in ("activity", "factor"):
        first, last = asking.span() or (int(limit("first_year")), int(limit("last_year")))
        year = row.field("year")
        is_year = len(year) == 4 and year.isdecimal() and first <= int(year) <= last
        measures = vocabulary.measured_by(row.field("unit"))
        is_free = not name.startswith("GWP.") or (kind, measures) == ("factor", "ratio")
        is_known = asking.ahead.is_known(kind, name) or asking.ahead.is_in_two_rows(name)
        return is_year and bool(measures) and is_free and is_known
    if kind == "line":
        has_equation = row.field("value") in vocabulary.equations()
        return has_equation and row.field("subject") in vocabulary.leaves()
    if kind == "uncert":
        return asking.ahead.row_of("line", name) is not None
    line = asking.book.lines.get(row.field("subject"))
    return kind == "span" or line is not None and name in vocabulary.parameters_of(line.field("value"))


def first_of(asking: Asking, row: Row, candidates: Iterable[tuple[str, list[str]]],
             where: str) -> Explained | None:
    """The fault and the first of some rows that the program takes, or None."""
    for text, fields in candidates:
        meant = Row(row.sheet, row.line, joined(fields))
        if asking.takes(meant, None):
            cause = f"the fields from {shown(text)} on stand {where}"
            return at_row(row, cause), meant
    return None


def moved_right(row: Row, last: int, columns: int = 1) -> Iterator[tuple[str, list[str]]]:
    """The row with some empty fields more in front of a field, each up to the last that may be meant; and
    that field.
    """
    for at in range(last, 1, -1):
        yield row.fields[at], row.fields[:at] + [""] * columns + row.fields[at:-columns]


def moved_left(row: Row, last: int) -> Iterator[tuple[str, list[str]]]:
    """The row without one of its empty fields, each up to the last that may be meant; and what stands
    after it.
    """
    for at in range(last, 1, -1):
        if not row.fields[at]:
            yield next(filter(None, row.fields[at:])), row.fields[:at] + row.fields[at + 1:] + [""]


def astray(asking: Asking, row: Row) -> Explained | None:
    """The fault of a figure or an uncertainty whose name stands in subject, or of percentages in other
    columns, and the row as it is meant, where the program takes it so; or None.
    """
    if row.field("kind") == "span":
        return years_astray(asking, row)
    if row.field("kind") == "uncert" and row.field("name"):
        return percentages_astray(asking, row)
    unit = unit_astray(asking, row)
    if unit:
        return unit
    named = ("activity", "factor", "uncert")
    if row.field("kind") not in named or row.field("name") or not row.field("subject"):
        return None
    meant = row.with_fields(subject="", name=row.field("subject"))
    if not asking.takes(meant, "name"):
        return None
    what = "an uncertainty" if row.field("kind") == "uncert" else article(row.field("kind"))
    cause = f"the name of {what} stands in name; move it there"
    return at_row(row, cause, "subject"), meant


def unit_astray(asking: Asking, row: Row) -> Explained | None:
    """The fault of a figure after its unit, both in front of the column of the unit; or None."""
    value, low = row.field("value"), row.field("low")
    meant = row.with_fields(value=low, low="", unit=value)
    if value not in vocabulary.units() or not low or row.field("unit") or not asking.takes(meant, None):
        return None
    cause = "the unit stands in value and the value in low"
    return at_row(row, cause, "", f"{low} in value, nothing in low and {value} in unit"), meant


def years_astray(asking: Asking, row: Row) -> Explained | None:
    """The fault of a span whose three years stand in other columns, or None."""
    columns = ("subject", "name", "year", "value", "low", "high", "unit")
    years = [row.field(column) for column in columns if row.field(column)]
    blank = dict.fromkeys(columns, "")
    meant = row.with_fields(**{**blank, **dict(zip(("year", "value", "low"), years))})
    if len(years) != 3 or meant.fields == row.fields or not asking.takes(meant, None):
        return None
    write = "{} in year, {} in value and {} in low".format(*years)
    return at_row(row, "the three years of a span stand in year, value and low", "", write), meant


def percentages_astray(asking: Asking, row: Row) -> Explained | None:
    """The fault of an uncertainty whose two percentages stand in other columns, or None."""
    columns = ("year", "value", "low", "high")
    texts = [row.field(column) for column in columns if row.field(column)]
    if len(texts) != 2:
        return None
    meant = row.with_fields(year="", value=texts[0], low=texts[1], high="")
    if meant.fields == row.fields or not asking.takes(meant, None):
        return None
    changed = [column for column in columns if row.field(column) != meant.field(column)]
    write = listed([f"{meant.field(column) or 'nothing'} in {column}" for column in changed], "and")
    return at_row(row, "the two percentages stand in value and low", changed[0], write), meant


def said_of_swapped(meant: Row, one: str, other: str) -> tuple[str, str, str]:
    """The cause of two fields in each other's column, and how the row is meant."""
    write = f"{meant.field(one) or 'nothing'} in {one} and {meant.field(other) or 'nothing'} in {other}"
    return f"{one} and {other} are swapped", "", write


# What is tried where a word is none of its column, in this order; and where a number is none.
OF_WORDS = (
    Recogniser(
        blanks_around, "blanks around the fields",
        "-enter,activity,,COAL,2019\nenter, activity, , COAL, 2019, 1000, , , kt, ",
        "blanks around the fields; take them out", "enter,activity,,COAL,2019,1000,,,kt, by ship"),
    Recogniser(
        shifted, "fields one column or two too far left or right",
        "-enter,activity,,COAL,2019\nenter,activity,COAL,2019,1000,,,kt,,",
        'the fields from "COAL" on stand one column too far left; write one more comma in front of it',
        "enter,activity,,COAL,2019,1000,,,kt,"),
    Recogniser(
        astray, "a name, a unit, years or percentages in another column",
        "-enter,activity,,COAL,2019\nenter,activity,COAL,,2019,1000,,,kt,",
        "the name of an activity stands in name; move it there", "enter,activity,,COAL,2019,1000,,,kt,"),
    Recogniser(
        swapped_fields, "any two fields in each other's column, as name and year, or unit and note",
        "-enter,activity,,COAL,2019\nenter,activity,,2019,COAL,1000,,,kt,",
        "name and year are swapped; write COAL in name and 2019 in year",
        "enter,activity,,COAL,2019,1000,,,kt,"),
    Recogniser(
        rest_of_another_kind, "a row whose rest is that of another kind",
        "-enter,bind,COWS.CH4,N\nenter,factor,COWS.CH4,N,,activity,COWS,,,",
        "the rest of the row is that of a bind; write bind", "enter,bind,COWS.CH4,N,,activity,COWS,,,"),
)
OF_NUMBERS = tuple(each for each in OF_WORDS if each.function is not astray)
