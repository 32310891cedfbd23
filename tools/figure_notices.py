"""Warnings about figures: what the program takes, and is most likely another number or in another unit."""
import decimal
import typing
from collections.abc import Iterator

from tools import vocabulary
from tools.book import Book
from tools.faults import Fault, counted, warn
from tools.results import NUMBER, ZERO, Results, figure_of
from tools.sheets import Row
from tools.usual import usual_row

# The ratios that are no share of anything, by equation: corrections, emission factors of metals, biomass
# below ground to that above, and scales of rice, soils and wastewater. None is near this.
NO_SHARES = {
    "Q32": {"CF"}, "Q33": {"CF"}, "Q40": {"EFB", "EFE", "EFO"}, "Q41": {"EFP", "EFS"},
    "Q76": {"SFW", "SFP", "SFO", "SFS"}, "Q78": {"R"}, "Q79": {"R"}, "Q80": {"R"}, "Q81": {"R"}, "Q82": {"R"},
    "Q85": {"FLU", "FMG", "FI"}, "Q99": {"I"}, "Q102": {"FNON", "FIND"},
}
MOST_OF_NO_SHARE = 10
# Where the template other-gases has the potential of a gas in place of a factor.
OTHER_GASES = ("5B", "Q32", "EF")
# The units of ratios, and how many of each are one.
UNITS_OF_RATIOS = (("pct", 100), ("kg/t", 1000))
# The changes of stocks of the reference approach have a sign.
SIGNED = {"SC"}
HUNDREDFOLD = 100
# The bindings that take each record.
Taken = dict[tuple[str, str], list[Row]]


class Records(typing.NamedTuple):
    """The records of an activity or a factor by years, with what it measures."""
    kind: str
    name: str
    measures: str | None
    rows: list[Row]


def all_of_figures(results: Results) -> list[Fault]:
    """Every warning about figures, but for those of activities and factors whose unit is a fault."""
    book, mismeasured = results.book, results.refused.mismeasured
    records, taken = named_records(book), book.taken()
    found = [*ratios(book, records, taken), *negatives(book, records, taken),
             *hundredfold(results, records, taken), *shares_as_percentages(book), *distances(records)]
    return [warning for warning in found if warning.row is None or warning.row.key[:2] not in mismeasured]


def figures(row: Row) -> list[decimal.Decimal]:
    """The figures of a record in the base unit, without what is no number."""
    unit = vocabulary.units()[row.field("unit")]
    texts = [row.field(column) for column in ("value", "low", "high")]
    numbers = (decimal.Decimal(text) for text in texts if NUMBER.fullmatch(text))
    return [number * unit["over"] / unit["under"] for number in numbers]


def named_records(book: Book) -> list[Records]:
    """Each activity and factor, with what it measures and its records by years, without those whose figure is
    not the writer's, but for the potentials and what has a name like one.
    """
    found = []
    for kind, named in book.years.items():
        for name, years in sorted(named.items()):
            rows = [row for _, row in sorted(years.items()) if not row.has_other_figure]
            if rows and not vocabulary.potential_like(name):
                found.append(Records(kind, name, vocabulary.measured_by(rows[0].field("unit")), rows))
    return found


def ratios(book: Book, records: list[Records], taken: Taken) -> Iterator[Fault]:
    """Ratios outside 0 to 1, or beyond what those may be that are no shares: once for each name."""
    for kind, name, measures, rows in records:
        bound = taken.get((kind, name), [])
        if measures != "ratio" or bound and all(is_of_other_gas(book, binding) for binding in bound):
            continue
        most = MOST_OF_NO_SHARE if any(is_no_share(book, binding) for binding in bound) else 1
        odd = [row for row in rows if any(not 0 <= figure <= most for figure in figures(row))]
        if odd:
            row, low, high = odd[0], odd[0].field("low"), odd[0].field("high")
            bounds = f" ({low} to {high})" if low else ""
            more = f", and {len(odd) - 1} more of its records" if odd[1:] else ""
            figure = f"{row.field('value')}{bounds} {row.field('unit')}"
            said = f"{kind} {name} is a ratio outside 0 to {most}: {figure}{more}"
            yield warn(row, said + asked_of_ratio(book, row, bound))


def asked_of_ratio(book: Book, row: Row, bound: list[Row]) -> str:
    """The unit of a ratio in which a figure above one is usual for what takes it, else is a share."""
    figure = figures(row)[0] if row.field("value") not in vocabulary.words()["keys"] else decimal.Decimal(0)
    if figure <= 1 or vocabulary.units()[row.field("unit")]["under"] != 1:
        return ""
    lines = [(book.lines.get(binding.field("subject")), binding) for binding in bound]
    known = [usual_row(line, binding.field("name"), [binding.field("low")]) for line, binding in lines if line]
    for each in filter(None, known):
        least, greatest = (decimal.Decimal(each[column] or 0) for column in ("least", "greatest"))
        units = [word for word, size in UNITS_OF_RATIOS if least / 2 <= figure / size <= greatest * 2]
        if units:
            return f"; is it in {units[0]}?"
    return "; is it in pct?" if figure <= 100 and row.field("unit") == "1" else ""


def is_no_share(book: Book, bound: Row) -> bool:
    """Tells whether a binding is of a ratio that may be above 1."""
    line = book.lines.get(bound.field("subject"))
    return line is not None and bound.field("name") in NO_SHARES.get(line.field("value"), ())


def is_of_other_gas(book: Book, bound: Row) -> bool:
    """Tells whether a binding is of the potential of a gas that no equation emits, which the template
    other-gases has at 5B.
    """
    line = book.lines.get(bound.field("subject"))
    return line is not None and (line.field("subject"), line.field("value"), bound.field("name")) == OTHER_GASES


def negatives(book: Book, records: list[Records], taken: Taken) -> Iterator[Fault]:
    """Negative activities: once for each name."""
    for kind, name, measures, rows in records:
        if kind != "activity" or measures == "ratio":
            continue
        odd = [row for row in rows if row.field("value").startswith("-") and figures(row)[0] < 0]
        bound = taken.get((kind, name), []) if odd else []
        if odd and not (bound and all(has_a_sign(book, binding) for binding in bound)):
            more = f", and in {counted(len(odd) - 1, 'more year')}" if odd[1:] else ""
            figure = f"{odd[0].field('value')} {odd[0].field('unit')} in {odd[0].field('year')}"
            yield warn(odd[0], f"activity {name} is negative: {figure}{more}")


def has_a_sign(book: Book, bound: Row) -> bool:
    """Tells whether a binding is of a change of stocks, or takes the stock before the span beside that of the
    year before.
    """
    first = book.bindings.get(bound.field("subject"), {}).get("G")
    before_span = bound.field("name") == "L" and first is not None and first.field("value") == "prev"
    return bound.field("name") in SIGNED or before_span


def distances(records: list[Records]) -> Iterator[Fault]:
    """Bounds that lie at one distance to both sides of zero, and not of the value: once for each name."""
    for kind, name, _, rows in records:
        odd = [row for row in rows if row.field("low") and is_of_distances(row)]
        if odd:
            more = f", and in {counted(len(odd) - 1, 'more record')}" if odd[1:] else ""
            bounds = f"from {odd[0].field('low')} to {odd[0].field('high')}{more}"
            cause = f"{kind} {name} is {odd[0].field('value')} {bounds}"
            yield warn(odd[0], f"{cause}; low and high are bounds, and no distances")


def is_of_distances(row: Row) -> bool:
    """Tells whether the bounds of a figure that is not zero are the same but for their sign."""
    if row.field("value") in vocabulary.words()["keys"]:
        return False
    value, least, most = (decimal.Decimal(row.field(column)) for column in ("value", "low", "high"))
    return value != 0 and most > 0 and least == -most


def hundredfold(results: Results, records: list[Records], taken: Taken) -> Iterator[Fault]:
    """Activities that grow or shrink a hundredfold from one record to the next, but for changes of stocks: once
    for each name.
    """
    for kind, name, _, rows in records:
        if kind != "activity" or not results.numbers(name).may_be_apart(HUNDREDFOLD):
            continue
        bound = taken.get((kind, name), [])
        if bound and all(has_a_sign(results.book, binding) for binding in bound):
            continue
        numbers = [row for row in rows if NUMBER.fullmatch(row.field("value"))]
        known = [figure_of(row) or ZERO for row in numbers]
        for at, (one, other) in enumerate(zip(known, known[1:])):
            least, most = sorted((abs(one), abs(other)))
            if one * other > 0 and most >= HUNDREDFOLD * least:
                were = " and ".join(f"{of.field('value')} {of.field('unit')} in {of.field('year')}"
                                    for of in numbers[at:at + 2])
                yield warn(numbers[at + 1], f"activity {name} is {were}; is a unit or a point wrong?")
                break


def shares_as_percentages(book: Book) -> list[Fault]:
    """Uncertainties of which both percentages are below 1."""
    found = []
    rows = [row for row in book.uncertainties.values() if not row.has_other_figure]
    for row in sorted(rows, key=lambda row: row.line):
        both = [decimal.Decimal(row.field(column)) for column in ("value", "low")]
        if all(0 < percentage < 1 for percentage in both):
            figures_said = f"{row.field('value')} and {row.field('low')}"
            cause = f"both percentages of {row.field('name')} are below 1: {figures_said}; are they shares?"
            found.append(warn(row, cause))
    return found
