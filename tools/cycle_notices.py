"""Warnings of a year's cycle: corrections, withdrawals and new years that do not do what is meant."""
import collections
import decimal
import functools

from tools import vocabulary
from tools.book import Book
from tools.faults import Fault, counted, warn, years_said
from tools.recognisers import Recogniser
from tools.results import NUMBER, Results, figure_of
from tools.sheets import Row, Sheet
from tools.vocabulary import listed

FIGURES = ("value", "low", "high", "unit")
FIGURES_SHOWN = 3
# How far from its own figure a correction is, and how near that of another record.
FAR, NEARLY = decimal.Decimal("0.15"), decimal.Decimal("0.02")
# A correction leaves the years beside it where it is so far from them and so many times more than is usual, and is
# so near another year; of fewer years nothing is usual.
LEAST_APART, FAR_MORE, NEAR_ANOTHER = decimal.Decimal("0.03"), 3, decimal.Decimal("0.01")
FEWEST_YEARS = 5


class Cycle:
    """The rows of the files in their order, and those of the span and of what is corrected by their records,
    beside the results.
    """

    def __init__(self, sheets: list[Sheet], results: Results) -> None:
        self.results, self.book = results, results.book
        self.in_order = [row for sheet in sheets for row in sheet.meant[1:] if len(row.fields) == 10]
        kept = {("span",), *(row.key for row in self.in_order if row.field("act") == "correct")}
        self.rows: dict[tuple[str, ...], list[Row]] = {}
        for row in self.in_order:
            if row.key in kept:
                self.rows.setdefault(row.key, []).append(row)

    @functools.cached_property
    def order(self) -> dict[int, int]:
        """The place of each row."""
        return {id(row): at for at, row in enumerate(self.in_order)}

    @functools.cached_property
    def spans(self) -> list[int]:
        """The places of the rows of the span."""
        return [self.order[id(row)] for row in self.rows.get(("span",), [])]

    @functools.cached_property
    def corrections(self) -> list[tuple[Row, Row]]:
        """Each correction of a record that is in force, with the row that set it before."""
        found = []
        for key, rows in self.rows.items():
            if len(rows) > 1 and key in self.book.rows:
                found += [(one, other) for one, other in zip(rows, rows[1:])
                          if other.field("act") == "correct" and one.field("act") != "withdraw"]
        return found

    def are_of_one_cycle(self, one: Row, other: Row) -> bool:
        """Tells whether no row of the span stands between two rows."""
        return not any(self.order[id(one)] < at < self.order[id(other)] for at in self.spans)


def figures_said(row: Row) -> str:
    """The figure of a record with its bounds and unit."""
    bounds = f" ({row.field('low')} to {row.field('high')})" if row.field("low") else ""
    return f"{row.field('value')}{bounds} {row.field('unit')}".strip()


def record_said(row: Row) -> str:
    """The record that a row speaks of."""
    kind = row.field("kind")
    if kind == "bind":
        return f"{row.field('name')} of line {row.field('subject')}"
    if kind == "span":
        return "the span"
    of_year = f" of {row.field('year')}" if kind in ("activity", "factor") else ""
    return f"{'the uncertainty of ' if kind == 'uncert' else f'{kind} '}{row.field('name')}{of_year}"


def corrected_twice(cycle: Cycle) -> list[Fault]:
    """Records that one cycle corrects twice, to different figures."""
    found = []
    for one, other in cycle.corrections:
        both = one.field("act") == "correct" and other.field("kind") != "span"
        if both and cycle.are_of_one_cycle(one, other) and not are_same(one, other):
            said = f"{record_said(other)} is corrected twice: to {target(one)} at {one.place}, and here to"
            found.append(warn(other, f"{said} {target(other)}, which holds"))
    return found


def target(row: Row) -> str:
    """What a row sets."""
    return str(row.field("low")) if row.field("kind") == "bind" else figures_said(row)


def are_same(one: Row, other: Row) -> bool:
    """Tells whether two rows set the same, in whatever units."""
    return all(numbers(one, column) == numbers(other, column) for column in ("subject", *FIGURES))


def numbers(row: Row, column: str) -> str | decimal.Decimal:
    """A field, or its number in the base unit where it is one; and what a unit measures."""
    text = row.field(column)
    unit = vocabulary.units().get(row.field("unit"))
    if column == "unit":
        return vocabulary.measured_by(text) or text
    if not NUMBER.fullmatch(text):
        return text
    return decimal.Decimal(text) * unit["over"] / unit["under"] if unit else decimal.Decimal(text)


def corrected_to_the_same(cycle: Cycle) -> list[Fault]:
    """Corrections that change nothing."""
    found = []
    for one, other in cycle.corrections:
        if are_same(one, other):
            said = f"this correction changes nothing: {record_said(other)} is {target(one)} already"
            found.append(warn(other, f"{said} ({one.place})"))
    return found


def corrected_to_another(cycle: Cycle) -> list[Fault]:
    """Corrections of an activity to a figure that is far from its own, and near that of another activity of
    the year or of another year of its own.
    """
    found = []
    for one, other in cycle.corrections:
        units = {row.field("unit") for row in (one, other)}
        is_known = other.field("kind") == "activity" and units <= vocabulary.units().keys()
        was, figure = (figure_of(row) if is_known else None for row in (one, other))
        if not was or not figure or abs(figure - was) <= FAR * abs(was):
            continue
        near = {abs(known / figure - 1): row for row in beside(cycle, other) if (known := figure_of(row))}
        if near and min(near) <= NEARLY:
            row = near[min(near)]
            said = f"{record_said(other)} was {figures_said(one)} ({one.place}), and this is nearly"
            found.append(warn(other, f"{said} {record_said(row)}, {figures_said(row)} ({row.place}); "
                                     "is that meant?"))
    return found


def corrected_in_another_year(cycle: Cycle) -> list[Fault]:
    """Corrections of one year of an activity to a figure outside its bounds and within those of the last year
    before this cycle, which a cycle corrects most often.
    """
    found = []
    pairs = [pair for pair in cycle.corrections if pair[1].field("kind") == "activity"]
    for one, other in pairs:
        years = cycle.book.years["activity"].get(other.field("name"), {})
        order = cycle.order.get(id(other), 0)
        earlier = [year for year, row in years.items()
                   if row.sheet is not other.sheet and cycle.order.get(id(row), order) < order]
        row, figure = years.get(max(earlier, default=0)), numbers(other, "value")
        is_alone = sum(pair[1].field("name") == other.field("name") for pair in pairs) == 1
        if row and is_alone and int(other.field("year")) < max(earlier):
            if is_within(one, figure) is False and is_within(row, figure):
                said = f"{record_said(other)} was {figures_said(one)} ({one.place}), and this is outside"
                said += f" these bounds and within those of {row.field('year')}, {figures_said(row)}"
                found.append(warn(other, f"{said} ({row.place}); is {row.field('year')} meant?"))
    return found


def corrected_out_of_line(cycle: Cycle) -> list[Fault]:
    """Corrections of one year of an activity that leave its neighbours, by far more than its other years do, and
    are nearly the figure of another year.
    """
    found = []
    pairs = [pair for pair in cycle.corrections if pair[1].field("kind") == "activity"
             and {row.field("unit") for row in pair} <= vocabulary.units().keys()]
    counts = collections.Counter(pair[1].field("name") for pair in pairs)
    for one, other in pairs:
        figures = figures_by_year(cycle, other.field("name"))
        year, was, figure = int(other.field("year")), figure_of(one), figure_of(other)
        if counts[other.field("name")] > 1 or not was or not figure or len(figures) < FEWEST_YEARS:
            continue
        before = {**figures, year: was}
        apart = {at: from_neighbours(before, at) for at in before}
        usual = sorted(apart.values())[len(apart) // 2]
        if from_neighbours({**before, year: figure}, year) <= max(LEAST_APART, FAR_MORE * max(usual, apart[year])):
            continue
        near = {abs(known / figure - 1): at for at, known in figures.items() if at != year and known}
        if near and min(near) <= NEAR_ANOTHER:
            meant = cycle.book.years["activity"][other.field("name")][near[min(near)]]
            said = f"{record_said(other)} was {figures_said(one)} ({one.place}), near the years beside it, and this is"
            found.append(warn(other, f"{said} not: it is nearly that of {near[min(near)]}, {figures_said(meant)}"
                                     f" ({meant.place}); is {near[min(near)]} meant?"))
    return found


def figures_by_year(cycle: Cycle, name: str) -> dict[int, decimal.Decimal]:
    """The figures of an activity by year, without blank ones."""
    rows = cycle.book.years["activity"].get(name, {})
    return {year: figure for year, row in rows.items() if (figure := figure_of(row))}


def from_neighbours(figures: dict[int, decimal.Decimal], year: int) -> decimal.Decimal:
    """How far a figure is from those of the years beside it, as a share of these."""
    beside_it = [figures[at] for at in (year - 1, year + 1) if at in figures]
    middle = sum(beside_it, decimal.Decimal(0)) / len(beside_it) if beside_it else figures[year]
    return abs(figures[year] / middle - 1) if middle else decimal.Decimal(0)


def is_within(row: Row, figure: str | decimal.Decimal) -> bool | None:
    """Tells whether a figure is within the bounds of a record, or None where it has none."""
    bounds = numbers(row, "low"), numbers(row, "high")
    if isinstance(figure, str) or isinstance(bounds[0], str) or isinstance(bounds[1], str):
        return None
    return bounds[0] <= figure <= bounds[1]


def beside(cycle: Cycle, row: Row) -> list[Row]:
    """The records of other activities in the same unit of the year of a row."""
    rows = (years.get(int(row.field("year"))) for name, years in cycle.book.years["activity"].items()
            if name != row.field("name"))
    return [other for other in rows if other and other.field("unit") == row.field("unit")]


def bounds_dropped(cycle: Cycle) -> list[Fault]:
    """Corrections of a figure that leave out the bounds that it had."""
    found = []
    for one, other in cycle.corrections:
        kept = other.field("low") or other.field("kind") not in ("activity", "factor")
        if one.field("low") and not kept and NUMBER.fullmatch(other.field("value")):
            said = f"{record_said(other)} had the bounds {one.field('low')} to {one.field('high')}"
            said += f" {one.field('unit')} ({one.place}), and this correction drops them"
            found.append(warn(other, f"{said}; low and high of the figure are then the figure itself"))
    return found


def base_year_changed(cycle: Cycle) -> list[Fault]:
    """A correction of the span that changes the base year."""
    row, rows = cycle.book.rows.get(("span",)), cycle.rows.get(("span",), [])
    before = [other for other in rows if row and other.place != row.place]
    if row is None or row.field("act") != "correct" or not before:
        return []
    if before[-1].field("low") == row.field("low") or not NUMBER.fullmatch(before[-1].field("low")):
        return []
    said = f"the base year changes from {before[-1].field('low')} ({before[-1].place}) to {row.field('low')}"
    return [warn(row, f"{said}, and the table trend of each year with it")]


def earlier_factor_holds_on(cycle: Cycle) -> list[Fault]:
    """Withdrawals of a factor after which the one of an earlier year holds on."""
    found = []
    for key, row in cycle.book.withdrawn.items():
        if key[0] != "factor" or key in cycle.book.rows or key[1] not in cycle.book.years["factor"]:
            continue
        years = cycle.book.years["factor"][key[1]]
        earlier = [year for year in years if year < int(key[2])]
        if earlier:
            holds = years[max(earlier)]
            later = [year for year in years if year > int(key[2])]
            until = f" to {min(later) - 1}" if later else " on"
            said = f"after this withdrawal the factor {key[1]} of {max(earlier)}, {figures_said(holds)}"
            found.append(warn(row, f"{said} ({holds.place}), holds from {key[2]}{until}"))
    return found


def first_factor_withdrawn(cycle: Cycle) -> list[Fault]:
    """Withdrawals of the first record of a factor that lines take, after which the next one begins later."""
    taken = cycle.book.taken()
    found = []
    for key, row in cycle.book.withdrawn.items():
        years = cycle.book.years["factor"].get(key[1], {}) if key[0] == "factor" else {}
        bound = taken.get((key[0], key[1]))
        if key in cycle.book.rows or not bound or not years or min(years) < int(key[2]):
            continue
        blank = [year for year in cycle.results.years if year < min(years)]
        if blank:
            lines = listed(sorted({other.field("subject") for other in bound})[:FIGURES_SHOWN], "and")
            said = f"after this withdrawal factor {key[1]} begins in {min(years)} ({years[min(years)].place})"
            found.append(warn(row, f"{said}, and what takes it is blank in {years_said(blank)}: {lines}"))
    return found


def gaps_of_withdrawals(cycle: Cycle) -> list[Fault]:
    """Withdrawals of an activity that lines take, in a year of the span."""
    taken = cycle.book.taken()
    found = []
    for key, row in cycle.book.withdrawn.items():
        if key[0] != "activity" or key in cycle.book.rows:
            continue
        bound = taken.get((key[0], key[1]))
        if bound and int(key[2]) in cycle.results.years:
            lines = listed(sorted({other.field("subject") for other in bound})[:FIGURES_SHOWN], "and")
            said = f"after this withdrawal activity {key[1]} has no record of {key[2]}"
            found.append(warn(row, f"{said}, and what takes it is blank there: {lines}"))
    return found


def year_behind_the_span(cycle: Cycle) -> list[Fault]:
    """New years of activities, to which the span does not go."""
    span = cycle.book.rows.get(("span",))
    if span is None:
        return []
    first, last = cycle.book.known_span()
    rows = new_years(cycle.book)
    if not rows:
        return []
    years = sorted({int(row.field("year")) for row in rows})
    row = min(rows, key=lambda row: cycle.order.get(id(row), 0))
    said = f"{counted(len(rows), 'activity').replace('activitys', 'activities')} of {years_said(years)}"
    said += f" {'stands' if len(rows) == 1 else 'stand'} after the span, {first} to {last}, and no line reads"
    said += f" {'it' if len(rows) == 1 else 'them'}"
    return [warn(row, f"{said}; write a row correct,span,,,{first},{years[-1]},{span.field('low')},,,")]


def new_years(book: Book) -> list[Row]:
    """The activities of the years after the span, that have the last year of it too and that lines take."""
    last, taken = book.known_span()[1], book.taken()
    named = [years for name, years in book.years["activity"].items() if ("activity", name) in taken]
    return [row for years in named if last in years for year, row in years.items() if year > last]


# The rows of a new year after the small inventory.
NEW_YEAR = """\
enter,activity,,COAL,2022,1010,,,kt,
enter,activity,,COWS,2022,244000,,,head,
enter,activity,,FERTILISER.N,2022,40900,,,t,
enter,activity,,MANURE.N,2022,20600,,,t,
"""
FIVE_YEARS = """\
enter,span,,,2019,2023,2019,,,
enter,activity,,COAL,2022,1010,,,kt,
enter,activity,,COAL,2023,1000,,,kt,
enter,activity,,COWS,2022,242000,,,head,
enter,activity,,COWS,2023,239000,,,head,
enter,activity,,FERTILISER.N,2022,40900,,,t,
enter,activity,,FERTILISER.N,2023,40700,,,t,
enter,activity,,MANURE.N,2022,20600,,,t,
enter,activity,,MANURE.N,2023,20500,,,t,"""
LONGER = "correct,span,,,2019,2022,2019,,,\n"

RECOGNISERS: tuple[Recogniser, ...] = (
    Recogniser(
        corrected_twice, "a record that one cycle corrects twice, to different figures",
        example="correct,activity,,COAL,2020,1055,,,kt,\n\ncorrect,activity,,COAL,2020,1060,,,kt,",
        says="activity COAL of 2020 is corrected twice: to 1055 kt at 1.csv:37, and here to 1060 kt",
        right=f"correct,activity,,COAL,2020,1055,,,kt,\n\n{LONGER}{NEW_YEAR}"
              "correct,activity,,COAL,2020,1060,,,kt,"),
    Recogniser(
        corrected_to_the_same, "corrections that change nothing",
        example="correct,activity,,COAL,2020,1050000,,,t,",
        says="this correction changes nothing: activity COAL of 2020 is 1050 kt already",
        right="correct,activity,,COAL,2020,1050500,,,t,"),
    Recogniser(
        corrected_to_another, "a correction that is near the figure of another activity, and far from its own",
        example="correct,activity,,MANURE.N,2021,40600,,,t,",
        says="activity MANURE.N of 2021 was 20700 t (1.csv:36), and this is nearly activity FERTILISER.N of 2021",
        right="correct,activity,,MANURE.N,2021,21400,,,t,"),
    Recogniser(
        corrected_in_another_year, "a correction outside the bounds of its year and within those of the last year",
        example="enter,activity,,COAL,2020,1050,1040,1060,kt,\nenter,activity,,COAL,2021,1020,1010,1030,kt,\n\n"
                f"{LONGER}{NEW_YEAR}correct,activity,,COAL,2020,1025,1015,1035,kt,",
        says="outside these bounds and within those of 2021, 1020 (1010 to 1030) kt (1.csv:16); is 2021 meant?",
        right="enter,activity,,COAL,2020,1050,1040,1060,kt,\nenter,activity,,COAL,2021,1020,1010,1030,kt,\n\n"
              f"{LONGER}{NEW_YEAR}correct,activity,,COAL,2021,1025,1015,1035,kt,"),
    Recogniser(
        corrected_out_of_line, "a correction that leaves the years beside it and is nearly another year's figure",
        example=f"{FIVE_YEARS}\n\ncorrect,activity,,COWS,2019,238500,,,head,", right=f"{FIVE_YEARS}\n\n"
        "correct,activity,,COWS,2019,250900,,,head,",
        says="was 250000 head (1.csv:21), near the years beside it, and this is not: it is nearly that of 2023"),
    Recogniser(
        bounds_dropped, "corrections that leave out the bounds that a figure had",
        example="correct,factor,,COAL.EF,2019,95100,,,kg/TJ,",
        says="factor COAL.EF of 2019 had the bounds 89500 to 99700 kg/TJ (1.csv:13), and this correction",
        right="correct,factor,,COAL.EF,2019,95100,90000,99900,kg/TJ,"),
    Recogniser(
        base_year_changed, "a correction of the span that changes the base year",
        example=f"{LONGER.replace('2022,2019', '2022,2020')}{NEW_YEAR}",
        says="the base year changes from 2019 (1.csv:2) to 2020", right=f"{LONGER}{NEW_YEAR}"),
    Recogniser(
        earlier_factor_holds_on, "the withdrawal of a factor after which an earlier one holds on",
        example="enter,factor,,COWS.EF,2021,131,,,kg/head,\n\nwithdraw,factor,,COWS.EF,2021,,,,,",
        says="after this withdrawal the factor COWS.EF of 2019, 126 kg/head (1.csv:20), holds from 2021 on",
        right="enter,factor,,COWS.EF,2021,131,,,kg/head,\n\nwithdraw,factor,,COWS.EF,2021,,,,,\n"
              "enter,factor,,COWS.EF,2021,132,,,kg/head,"),
    Recogniser(
        first_factor_withdrawn, "the withdrawal of the first record of a factor, after which it begins later",
        example="enter,factor,,COWS.EF,2021,131,,,kg/head,\n\nwithdraw,factor,,COWS.EF,2019,,,,,",
        says="after this withdrawal factor COWS.EF begins in 2021 (1.csv:37), and what takes it is blank in 2019",
        right="enter,factor,,COWS.EF,2021,131,,,kg/head,\n\nwithdraw,factor,,COWS.EF,2019,,,,,\n"
              "enter,factor,,COWS.EF,2019,127,,,kg/head,"),
    Recogniser(
        gaps_of_withdrawals, "the withdrawal of an activity that lines take",
        example="withdraw,activity,,COAL,2020,,,,,",
        says="after this withdrawal activity COAL has no record of 2020, and what takes it is blank there",
        right="enter,activity,,COAL,2020,1050,,,kt,\n\nwithdraw,activity,,COAL,2020,,,,,\n"
              "enter,activity,,COAL,2020,1049,,,kt,"),
    Recogniser(
        year_behind_the_span, "a new year without the span, with the row to write",
        example=f"{NEW_YEAR}", right=f"{LONGER}{NEW_YEAR}",
        says="4 activities of 2022 stand after the span, 2019 to 2021, and no line reads them; write a row"),
)
