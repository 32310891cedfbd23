"""Explains a record in a unit of another dimension, one that is entered already, and one that is not there to
correct or withdraw: rules 8 and 9.
"""
import itertools
from collections.abc import Collection

from tools import units, vocabulary
from tools.ahead import is_below, said_of_later
from tools.asking import Asking, article, line_above
from tools.faults import Explained, at_row, years_said
from tools.number_faults import year_between
from tools.recognisers import Recogniser
from tools.sheets import Key, Row
from tools.vocabulary import listed, nearest

# So many years beside the records a further one may be.
YEARS_BESIDE = 5


def unit_of_another_dimension(asking: Asking, row: Row) -> Explained:
    """A unit that its record cannot have."""
    kind, name, unit = row.field("kind"), row.field("name"), row.field("unit")
    measures = vocabulary.measured_by(unit)
    if kind == "activity" and unit == vocabulary.HALF_LIFE_UNIT:
        return activity_of_years(asking, row)
    if name.startswith("GWP."):
        cause = f"measures {measures}, and a warming potential is a ratio"
        return at_row(row, cause, "unit", "1"), row.with_fields(unit="1")
    record = asking.book.some_record(kind, name)
    if not record:
        cause = f"measures {measures}, and another record of {kind} {name} measures something else"
        return at_row(row, cause, "unit"), None
    other = record.field("unit")
    known = listed(vocabulary.units_that_measure(vocabulary.measured_by(other)))
    cause = f"measures {measures}, and {kind} {name} is in {other} ({vocabulary.measured_by(other)})"
    turned = units.upside_down(unit, vocabulary.measured_by(other))
    cause += f" at {record.place}; "
    cause += f"where it is upside down, write {turned}" if turned else \
        f"write the figure in {known}, or give this record another name"
    return at_row(row, cause, "unit"), asking.blank_figure(row.with_fields(unit=other))


def activity_of_years(asking: Asking, row: Row) -> Explained:
    """An activity in the unit of half-lives, which are factors.

    It goes on as one where the program takes it.
    """
    changed = row.with_fields(kind="factor")
    fault = at_row(row, "a half-life is a factor and no activity", "kind", "factor")
    return fault, changed if asking.takes(changed, None) else None


def exists(asking: Asking, row: Row) -> Explained:
    """A record that is entered already."""
    key = row.key
    entered = asking.book.entered.get(key)
    if entered and entered.is_added:
        return None, row.with_fields(act="correct")
    where = f" at {entered.place}" if entered and key in asking.book.rows else ""
    cause = f"{said_of_key(key)} is entered already{where}"
    line = asking.refused.that_sets(("line", key[1])) if key[0] == "bind" else None
    if line and is_below(row, line):
        return at_row(row, cause, follows=line.place), None
    meant = bound_for_another(asking, row, cause) if key[0] == "bind" else None
    if meant:
        return meant
    if entered and asking.book.rows.get(key) is entered and entered.fields[:9] == row.fields[:9]:
        return at_row(row, f"{cause}, with the same figures; take one of the two out"), None
    other = "take one of the two out"
    if key[0] in ("activity", "factor"):
        meant = not_dragged_on(asking, row, entered, cause)
        if meant:
            return meant
        other = "give this one another name or year"
        between, lacking = year_between(row), asking.year_lacking(row)
        names = asking.ahead.names_lacking(key[0], row.field("unit"))
        if between:
            other += f"; between the rows beside it is {between}"
        elif lacking:
            other += f"; no row is of {lacking}"
        elif len(names) == 1:
            other += f"; no row enters {names[0]}, which is taken"
            asking.refused.rows.setdefault((key[0], names[0]), row)
    elif key[0] == "line":
        other = "give this one another name, here and in its bindings"
    return at_row(row, f"{cause}; to change it use correct, else {other}"), None


def not_dragged_on(asking: Asking, row: Row, entered: Row | None, cause: str) -> Explained | None:
    """A second figure that one file has of a year, where the next year lacks: that is the one meant.

    Where another year lacks, one of the two may be of that. Else None.
    """
    lacking = asking.years_lacking(row) if entered and entered.sheet is row.sheet else []
    meant = {"between the rows beside it is": year_between(row), "no row is of": year_behind(asking, row)}
    for why, year in meant.items():
        changed = row.with_fields(year=year) if year in lacking else None
        if changed and asking.takes(changed, None):
            return at_row(row, f"{cause}, and {why} {year}", "year", year), changed
    if len(lacking) != 1:
        return None
    cause += f", and no row is of {lacking[0]}; where one of the two is of {lacking[0]}, write that there"
    return at_row(row, f"{cause}, else take one of them out"), None


def year_behind(asking: Asking, row: Row) -> str | None:
    """The year that follows the row above, where that is of the same name and no year before it lacks; in
    a file that goes backwards, the one before. Else None.
    """
    same = itertools.takewhile(lambda above: above.key[:2] == row.key[:2], row.sheet.rows_above(row.line))
    records = asking.book.years[row.field("kind")].get(row.field("name"), {})
    years = {record.line: year for year, record in records.items() if record.sheet is row.sheet}
    above = [years.get(other.line) for other in itertools.islice(same, 2)]
    if not above or above[0] is None:
        return None
    step = -1 if above[1:] == [above[0] + 1] else 1
    left = [int(year) for year in asking.years_lacking(row)]
    return None if any((year - above[0]) * step < 0 for year in left) else str(above[0] + step)


def bound_for_another(asking: Asking, row: Row, cause: str) -> Explained | None:
    """A binding that is entered already, of a row that is meant for the line above it, or for the one
    parameter that is left of its line and takes what it names; or None.
    """
    line, parameter = row.field("subject"), row.field("name")
    above = line_above(row)
    if above and above != line and parameter in asking.ahead.parameters_left(above):
        cause = f"{cause}; the line above is {above}, which has no binding of {parameter}"
        return at_row(row, cause, "subject", above), row.with_fields(subject=above)
    left = [name for name, known in asking.ahead.parameters_left(line).items()
            if asking.ahead.measured_by(row) == vocabulary.record_of(known)]
    if len(left) != 1:
        return None
    cause = f"{cause}; {left[0]} has no binding"
    return at_row(row, cause, "name", left[0]), row.with_fields(name=left[0])


def absent(asking: Asking, row: Row) -> Explained:
    """Nothing to correct or withdraw. A correction goes on as an entry."""
    key, act = row.key, row.field("act")
    entered, gone = asking.refused.that_sets(key), asking.book.withdrawn.get(key)
    if entered and not (gone and is_below(gone, entered)):
        cause = f"there is no {said_of_key(key)} to {act}, since its row was refused"
        return at_row(row, cause, follows=entered.place), None
    doubled = asking.refused.that_doubles(key, asking.book) if key[-1] in asking.years_lacking(row) else None
    if doubled:
        return at_row(row, f"there is no {said_of_key(key)} to {act}", follows=doubled.place), None
    behind = asking.ahead.entry_behind(row)
    if behind:
        return at_row(row, entered_behind(row, behind)), None
    if gone:
        instead = "use enter" if act == "correct" else "take the row out"
        cause = f"there is no {said_of_key(key)} to {act}, since {gone.place} withdraws it; {instead}"
        return at_row(row, cause), row.with_fields(act="enter") if act == "correct" else None
    meant = of_another_kind(asking, row) or of_another_parameter(asking, row)
    if meant:
        return meant
    years = asking.book.years.get(key[0], {}).get(key[1]) if len(key) > 1 else None
    there = f"; there are records of {years_said(years)}" if years else ""
    year = meant_year(int(key[-1]), years) if years else None
    if year:
        cause = f"there is no {said_of_key(key)} to {act}; is {year} meant?{there}"
        return at_row(row, cause, "year"), row.with_fields(year=str(year))
    near = nearest_name(asking, key)
    other = f"; the nearest name is {near}" if near else ""
    instead = "" if near else "; use enter" if act == "correct" else "; take the row out"
    changed = row.with_fields(act="enter") if act == "correct" and not near else None
    return at_row(row, f"there is no {said_of_key(key)} to {act}{instead}{there}{other}"), changed


def meant_year(year: int, years: Collection[int]) -> int | None:
    """The year of a record that is meant by one far from all of them: the last with the same digits, else the
    nearest; or None for a year beside them.
    """
    if min(years) - YEARS_BESIDE <= year <= max(years) + YEARS_BESIDE:
        return None
    alike = [each for each in years if sorted(str(each)) == sorted(str(year))]
    return max(alike) if alike else min(years, key=lambda each: abs(each - year))


def of_another_kind(asking: Asking, row: Row) -> Explained | None:
    """A change of a factor where an activity has its name and year, or the other way round; or None."""
    kind = {"activity": "factor", "factor": "activity"}.get(row.field("kind"), "")
    there = asking.book.rows.get((kind, *row.key[1:]))
    if there is None:
        return None
    cause = f"{row.field('name')} is no {row.field('kind')} but {article(kind)} ({there.place})"
    return at_row(row, cause, "kind", kind), row.with_fields(kind=kind)


def of_another_parameter(asking: Asking, row: Row) -> Explained | None:
    """A change of a binding that the equation of its line has not, or None."""
    line = asking.book.lines.get(row.field("subject")) if row.field("kind") == "bind" else None
    known = vocabulary.parameters_of(line.field("value")) if line else {}
    if not line or row.field("name") in known:
        return None
    cause = vocabulary.said_of_no_parameter(line.field("value"), row.field("name"))
    near = nearest(row.field("name"), known, 1, 0.75)
    if near:
        return at_row(row, cause, "name", near[0]), row.with_fields(name=near[0])
    return at_row(row, f"{cause}; take the row out", "name"), None


def nearest_name(asking: Asking, key: Key) -> str | None:
    """The nearest name that there is, where the key's own is none."""
    named = list(asking.book.years.get(key[0], asking.book.lines))
    if key[0] == "uncert":
        named = list(asking.book.uncertainties)
    if len(key) == 1 or key[1] in named:
        return None
    near = nearest(key[1], named, 1, 0.75)
    there = [name for name in near if (key[0], name, *key[2:]) in asking.book.rows]
    return there[0] if there else None


def entered_behind(row: Row, entry: Row) -> str:
    """That the record that a row changes is entered after it, and what to move."""
    what = said_of_key(row.key)
    if entry.sheet is not row.sheet:
        return said_of_later(what, entry)
    return f"there is no {what} to {row.field('act')} yet; move it behind {entry.place}, which enters it"


def said_of_key(key: Key) -> str:
    """A record as a sentence names it."""
    if key[0] == "bind":
        return f"binding of {key[2]} of {key[1]}"
    if key[0] == "uncert":
        return f"uncertainty of {key[1]}"
    return " ".join(part for part in key if part)


RECORDS = (
    Recogniser(
        unit_of_another_dimension,
        "a unit that measures something else than those of the other records of its name",
        "enter,activity,,COAL,2021,1020,,,TJ,",
        "measures energy, and activity COAL is in kt (mass) at 1.csv:",
        "enter,activity,,COAL,2021,1020,,,Gg,"),
    Recogniser(
        exists, "what is entered already, with the year, the line or the name that is meant",
        "enter,activity,,COAL,2019,1000,,,kt,\n\nenter,activity,,COAL,2019,1001,,,kt,",
        "activity COAL 2019 is entered already at 1.csv:",
        "enter,activity,,COAL,2019,1000,,,kt,\n\ncorrect,activity,,COAL,2019,1001,,,kt,"),
    Recogniser(
        absent, "a correction or a withdrawal of what is not there, before its entry or after its withdrawal",
        "enter,activity,,COAL,2019,1000,,,kt,\n\ncorrect,activity,,COAL,2018,990,,,kt,",
        "there is no activity COAL 2018 to correct; use enter; there are records of 2019 to 2021",
        "enter,activity,,COAL,2019,1000,,,kt,\n\ncorrect,activity,,COAL,2019,990,,,kt,"),
)
