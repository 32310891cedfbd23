"""Warnings of global warming potentials: those that no report has together, swapped ones, those of another
horizon, and those that change within the span.
"""
import decimal
import functools
import itertools

from tools.faults import Fault, warn
from tools.fuels import DEFAULTS, rows_of
from tools.recognisers import Recogniser
from tools.results import Results, figure_of, plain
from tools.sheets import Row
from tools.vocabulary import listed

Number = decimal.Decimal
# The potentials of a report by gas; a gas may have several, as CH4 of fossil and of other sources.
Values = dict[str, tuple[Number, ...]]
HORIZON = "over 100 years"
# Those that `defaults/` does not have: of other reports and horizons, and with climate-carbon feedbacks.
OTHERS: dict[str, dict[str, str]] = {
    "the Third Assessment Report over 100 years": {"CH4": "23", "N2O": "296", "CF4": "5700", "C2F6": "11900"},
    "the Fifth Assessment Report with feedbacks over 100 years":
        {"CH4": "34 36", "N2O": "298", "CF4": "7350", "C2F6": "12340"},
    "the Sixth Assessment Report over 100 years":
        {"CH4": "27.9 27 28 29.8 30", "N2O": "273", "CF4": "7380", "C2F6": "12400"},
    "the Second Assessment Report over 20 years": {"CH4": "56", "N2O": "280", "CF4": "4400", "C2F6": "6200"},
    "the Third Assessment Report over 20 years": {"CH4": "62", "N2O": "275", "CF4": "3900", "C2F6": "8000"},
    "the Fourth Assessment Report over 20 years": {"CH4": "72", "N2O": "289", "CF4": "5210", "C2F6": "8630"},
    "the Fifth Assessment Report over 20 years":
        {"CH4": "84 85 86 87", "N2O": "264 268", "CF4": "4880 4950", "C2F6": "8210"},
    "the Sixth Assessment Report over 20 years":
        {"CH4": "81.2 79.7 82.5", "N2O": "273", "CF4": "5300", "C2F6": "8940"},
    "the Second Assessment Report over 500 years":
        {"CH4": "6.5", "N2O": "170", "CF4": "10000", "C2F6": "14000"},
    "the Third Assessment Report over 500 years": {"CH4": "7", "N2O": "156", "CF4": "8900", "C2F6": "18000"},
    "the Fourth Assessment Report over 500 years":
        {"CH4": "7.6", "N2O": "153", "CF4": "11200", "C2F6": "18200"},
}


@functools.cache
def reports() -> dict[str, Values]:
    """The potentials of each report and horizon, those over 100 years first."""
    found: dict[str, Values] = {}
    for path in sorted(DEFAULTS.glob("potentials-*.csv")):
        named = path.stem.removeprefix("potentials-").replace("-", " ").title()
        figures = rows_of(path.stem).items()
        values = {name.removeprefix("GWP."): each.defaults for name, each in figures}
        found[f"the {named} {HORIZON}"] = values
    for of, others in OTHERS.items():
        found[of] = {gas: tuple(map(Number, texts.split())) for gas, texts in others.items()}
    return found


def in_force(results: Results) -> dict[str, Row]:
    """The potentials of the last year of the span but for that of CO2, by gas, if they are the writer's."""
    found = {}
    for gas in ("CH4", "N2O", "CF4", "C2F6"):
        row = results.book.in_force("factor", f"GWP.{gas}", results.years[-1])
        if row and not row.has_other_figure and figure_of(row):
            found[gas] = row
    return found


def having(figures: dict[str, Number]) -> list[str]:
    """The reports and horizons that have all these potentials."""
    return [of for of, values in reports().items()
            if all(figure in values.get(gas, ()) for gas, figure in figures.items())]


def figures_in_force(results: Results) -> dict[str, Number]:
    """The figures of the potentials in force."""
    return {gas: figure_of(row) or Number(0) for gas, row in in_force(results).items()}


def potentials_of_no_report(results: Results) -> list[Fault]:
    """Potentials that no report has together, and are not only swapped."""
    rows, figures = in_force(results), figures_in_force(results)
    if not figures or having(figures) or swapped(figures):
        return []
    common = max(reports(), key=lambda of: sum(figure in reports()[of].get(gas, ())
                                               for gas, figure in figures.items()))
    found = []
    for gas, figure in figures.items():
        due = reports()[common].get(gas, ())
        if figure in due:
            continue
        own = having({gas: figure})
        is_of = f"is of {own[0]}" if own else "is of no report"
        others = [other for other in figures if figures[other] in reports()[common].get(other, ())]
        those = f", and {listed([f'GWP.{other}' for other in others], 'and')} of {common}" if others else ""
        has = f"; there GWP.{gas} is {plain(due[0])}" if due and (own or others) else ""
        found.append(warn(rows[gas], f"GWP.{gas} of {plain(figure)} {is_of}{those}{has}"))
    return found


def swapped(figures: dict[str, Number]) -> tuple[str, str] | None:
    """Two gases whose potentials a report has the other way round, or None."""
    for one, other in itertools.combinations(figures, 2):
        turned = {**figures, one: figures[other], other: figures[one]}
        if any(HORIZON in of for of in having(turned)):
            return one, other
    return None


def swapped_potentials(results: Results) -> list[Fault]:
    """Two potentials that stand for each other."""
    rows, figures = in_force(results), figures_in_force(results)
    pair = swapped(figures) if figures and not having(figures) else None
    if pair is None:
        return []
    one, other = pair
    of = having({**figures, one: figures[other], other: figures[one]})[0]
    said = f"GWP.{one} is {plain(figures[one])} and GWP.{other} {plain(figures[other])} ({rows[other].place})"
    return [warn(rows[one], f"{said}; they are swapped: {of} has {plain(figures[other])} and"
                            f" {plain(figures[one])}")]


def potentials_of_another_horizon(results: Results) -> list[Fault]:
    """Potentials that reports have together over 20 or 500 years alone."""
    rows, figures = in_force(results), figures_in_force(results)
    of = having(figures) if figures else []
    if not of or any(HORIZON in each for each in of):
        return []
    names = listed([f"GWP.{gas} of {plain(figure)}" for gas, figure in figures.items()], "and")
    said = f"{names} {'is' if len(figures) == 1 else 'are'} those of {of[0]}"
    return [warn(next(iter(rows.values())), f"{said}; inventories take those {HORIZON}")]


def potentials_that_change(results: Results) -> list[Fault]:
    """Potentials that change within the span, and of CO2 one that is not 1."""
    found = []
    for name, years in sorted(results.book.years["factor"].items()):
        if not name.startswith("GWP."):
            continue
        rows = [row for year, row in sorted(years.items()) if year <= results.years[-1]]
        pairs = [(one, other) for one, other in zip(rows, rows[1:])
                 if int(other.field("year")) > results.years[0] and figure_of(one) != figure_of(other)]
        for one, other in pairs[:1]:
            figures = f"{one.field('value')} to {other.field('value')}"
            said = f"{name} changes from {figures} in {other.field('year')}"
            found.append(warn(other, f"{said}; all years of a series take the same potentials"))
        if name == "GWP.CO2" and figure_of(rows[-1]) not in (None, 1):
            found.append(warn(rows[-1], f"GWP.CO2 is {rows[-1].field('value')}, and it is 1 in every report"))
    return found


RECOGNISERS: tuple[Recogniser, ...] = (
    Recogniser(
        potentials_that_change, "potentials that change within the span, and of CO2 one that is not 1",
        example="enter,factor,,GWP.CH4,2020,25,,,1,", says="GWP.CH4 changes from 28 to 25 in 2020",
        right="enter,factor,,GWP.CH4,2018,25,,,1,"),
    Recogniser(
        potentials_of_no_report, "potentials that no report has together",
        example="enter,factor,,GWP.CH4,2019,25,,,1,",
        says="GWP.CH4 of 25 is of the Fourth Assessment Report over 100 years, and GWP.N2O of the",
        right="enter,factor,,GWP.CH4,2019,25,,,1,\nenter,factor,,GWP.N2O,2019,298,,,1,"),
    Recogniser(
        swapped_potentials, "swapped potentials",
        example="enter,factor,,GWP.CH4,2019,265,,,1,\nenter,factor,,GWP.N2O,2019,28,,,1,",
        says="GWP.CH4 is 265 and GWP.N2O 28 (1.csv:5); they are swapped",
        right="enter,factor,,GWP.CH4,2019,21,,,1,\nenter,factor,,GWP.N2O,2019,310,,,1,"),
    Recogniser(
        potentials_of_another_horizon, "potentials over 20 or 500 years",
        example="enter,factor,,GWP.CH4,2019,84,,,1,\nenter,factor,,GWP.N2O,2019,264,,,1,",
        says="GWP.CH4 of 84 and GWP.N2O of 264 are those of the Fifth Assessment Report over 20 years",
        right="enter,factor,,GWP.CH4,2019,27.9,,,1,\nenter,factor,,GWP.N2O,2019,273,,,1,"),
)
