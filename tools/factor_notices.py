"""Warnings of factors, in a record or given by a line: such as no fuel, animal or process has, those that are
off by a known ratio, and those that jump.
"""
import decimal
import functools
import typing

from tools import vocabulary
from tools.book import record_taken_by
from tools.factor_hints import (
    DEFAULT_APART, RATIOS, Odd, hint, of_a_default_off_by_ten, of_a_sibling, of_another_fuel, of_other_animals,
    of_swapped_digits)
from tools.faults import Fault, warn
from tools.figure_notices import MOST_OF_NO_SHARE, NO_SHARES
from tools.fuels import fuels_of
from tools.line_notices import is_measured
from tools.recognisers import Recogniser
from tools.results import NUMBER, Results, figure_of, gas_of, plain
from tools.sheets import Row
from tools.usual import usual, usual_row
from tools.vocabulary import HALF_LIFE_UNIT

Number = decimal.Decimal
# Those by which activities jump that are given in another unit for a year, and how near these are met.
RATIOS_OF = {"energy": ("3.6, GJ in a MWh", "41.868, GJ in a toe"), "carbon": (RATIOS[0][1],),
             "gas": (RATIOS[0][1],)}
NEAR, LEAST_OF_THESE = Number("0.12"), 3
# How near to each other the figures of years are beside one with two digits swapped, how far that is from them, and
# how near the figure that is meant.
STEADY_YEARS, FAR_YEAR, NEAR_YEAR = 1.1, 1.15, 1.04
# A default of another fuel is told of where it is so far from those of its own, and these so wide.
FAR, WIDE_OF_FUELS = Number("0.25"), Number("1.5")
# Coke goes for coal in many names.
OF_COAL_TOO = {"COKE", "GAS.COKE"}
# How many odd factors of one kind are compared with each other.
MOST_SWAPPED = 50
# A factor that changes by more than this from one record to the next jumps.
JUMP = Number("1.3")
STEADY = ("net calorific value", "carbon content of fuel", "mass per head or per head and year",
          "mass per head and day", "excretion per live mass and day")
JUMP_OF_OTHERS = Number(5)
# The equations whose factors have defaults, and change with the plant, the engine or what is thrown away.
OF_PLANTS = {"Q11", "Q12", "Q16", "Q17", "Q38", "Q39", "Q90", "Q99"}


@functools.cache
def factors(results: Results) -> list[tuple[Row, str, Row]]:
    """Each binding of a line with a factor, a rate, a half-life or a line that gives one, with the line and the
    parameter.
    """
    found = []
    for line in results.lines:
        parameters = vocabulary.parameters_of(line.field("value"))
        for parameter, bound in results.bindings(line.field("name")).items():
            if parameter in parameters and bound.field("value") in ("factor", "activity", "decay", "line"):
                found.append((line, parameter, bound))
    return found


class Unusual(typing.NamedTuple):
    """A factor that is not usual, the row that has it, and what its name says that it is."""
    odd: Odd
    row: Row
    bound: Row


def unusual_factors(results: Results) -> list[Fault]:
    """Factors that no fuel, animal or process has, with the known ratio by which they are off."""
    found: dict[int, Unusual] = {}
    for line, parameter, bound in factors(results):
        known = usual(results, line, parameter, bound)
        if known is None or not results.is_own(bound) or is_of_another_gas(line, bound):
            continue
        measures = vocabulary.parameters_of(line.field("value"))[parameter]["measures"]
        figure, taken = None, results.taken_by_year(bound)
        for year in results.years:
            before, figure = figure, taken.get(year)
            is_new = figure and figure is not before
            odd = Odd(figure, known, line, parameter, measures, gas_of(line)) if figure and is_new else None
            if odd and is_odd(odd) and (is_beyond(odd) or is_whole(results, line)):
                row = results.record(bound, year) or bound
                if not is_told_or_measured(results, line, parameter, odd.figure):
                    found.setdefault(id(row), Unusual(odd, row, bound))
                break
    told = [each for each in found.values() if not comes_of_another(results, each, found)]
    pairs = [(each, swapped_with(each, told)) for each in told]
    seconds = {id(other.row) for at, (each, other) in enumerate(pairs) if other and other in told[at:]}
    return [warn(each.row, said_of_unusual(each, other)) for each, other in pairs if id(each.row) not in seconds]


def comes_of_another(results: Results, one: Unusual, found: dict[int, Unusual]) -> bool:
    """Tells whether what a line gives is not usual since a factor that it takes is not."""
    if one.bound.field("value") != "line":
        return False
    below = [results.record(bound, results.years[0]) or bound for bound in results.bound_below(one.bound.field("low"))]
    return any(id(row) in found for row in below)


def is_beyond(odd: Odd) -> bool:
    """Tells whether a figure is out of what is usual by more than its margin."""
    return not odd.known.has(odd.figure, odd.known.margin)


def is_whole(results: Results, line: Row) -> bool:
    """Tells whether all that a line takes is the writer's, so that it is known what it is of."""
    return all(results.is_own(bound) for bound in results.bindings(line.field("name")).values())


def is_odd(odd: Odd) -> bool:
    """Tells whether a figure is out of what is usual, by more than its margin, or as the default of another fuel
    or animal.
    """
    if is_beyond(odd) or of_a_sibling(odd) or of_a_default_off_by_ten(odd):
        return True
    if not odd.known.named or odd.known.has(odd.figure, Number(1)) or OF_COAL_TOO.intersection(odd.known.named):
        return is_far_default(odd)
    return bool(of_another_fuel(odd) or of_other_animals(odd) or of_swapped_digits(odd))


def is_far_default(odd: Odd) -> bool:
    """Tells whether a figure is the default of another fuel and far from those of its own, of which almost
    anything is usual.
    """
    known = odd.known.range
    is_far = known.defaults and odd.known.distance(odd.figure) > FAR and known.greatest > WIDE_OF_FUELS * known.least
    return bool(is_far and odd.known.named and of_another_fuel(odd))


def swapped_with(one: Unusual, others: typing.Collection[Unusual]) -> Unusual | None:
    """Another factor that is not usual, where each of the two has the other's figure; or None."""
    if len(others) > MOST_SWAPPED:
        return None
    for other in others:
        are_alike = other.odd.measures == one.odd.measures and other.odd.gas == one.odd.gas
        is_other = other.odd.known.has(one.odd.figure, Number(1)) and one.odd.known.has(other.odd.figure, Number(1))
        if other.row is not one.row and are_alike and is_other:
            return other
    return None


def is_of_another_gas(line: Row, bound: Row) -> bool:
    """Tells whether the name of a factor has another gas than its line gives, which is told of by itself."""
    return vocabulary.gas_in(bound.field("low")) not in (None, gas_of(line))


def is_told_or_measured(results: Results, line: Row, parameter: str, figure: Number) -> bool:
    """Tells whether a figure is a ratio above one, which is told of by itself, or that of a measured
    emission.
    """
    name, equation = line.field("name"), line.field("value")
    if vocabulary.parameters_of(equation)[parameter]["measures"] != "ratio":
        return bool(line.has_other_figure)
    most = MOST_OF_NO_SHARE if parameter in NO_SHARES.get(equation, ()) else 1
    return figure > most or bool(is_measured(results.book, name, equation))


def said_of_unusual(one: Unusual, swapped: Unusual | None) -> str:
    """A factor that is not usual, with what is, and what it is most likely."""
    odd, bound, row = one.odd, one.bound, one.row
    parameter = vocabulary.parameters_of(odd.line.field("value"))[odd.parameter]
    unit, given = (parameter["unit"] or "").replace("1", ""), bound.field("value")
    if given == "decay":
        unit, given = HALF_LIFE_UNIT, "half-life"
    what = f"line {bound.field('low')} gives" if given == "line" else f"{given} {bound.field('low')} is"
    is_other = row is not bound and row.field("unit") != parameter["unit"] and row.field("value") != plain(odd.figure)
    written = f" ({row.field('value')} {row.field('unit')})" if is_other else ""
    shown = odd.known.shown or odd.known.range
    least, greatest = plain(shown.least), plain(shown.greatest)
    between = least if least == greatest else f"{least} to {greatest}"
    of = odd.known.of
    said = f"{what} {plain(odd.figure)} {unit}".rstrip() + f"{written}, and {of} {verb(of)} {between}"
    said += f" ({odd.known.range.source})"
    if swapped:
        other = f"{swapped.bound.field('low')} ({swapped.row.place})"
        return f"{said}; it and {other} have each other's figures: are the two swapped?"
    likely = hint(odd)
    if likely:
        return f"{said}; compare it with its source: {likely}"
    if odd.gas and fuels_of([bound.field("low")]):
        return f"{said}; line {odd.line.field('name')} takes it: is another factor meant, or another unit?"
    return f"{said}; is it of something else, or in another unit?"


def verb(of: str) -> str:
    """The verb after what is usual of something."""
    return "is" if " of " in of else "has"


def defaults_times_a_ratio(results: Results) -> list[Fault]:
    """Factors that are 44/28 or 44/12 of a default, of equations that have this ratio themselves."""
    found, told = [], set()
    for line, parameter, bound in factors(results):
        row = usual_row(line, parameter)
        record = results.record(bound, results.years[-1]) if row else None
        figure = figure_of(record) if record and not record.has_other_figure else None
        if not row or not record or not figure or id(record) in told:
            continue
        for text in row["defaults"].split():
            for ratio, word in own_ratios(line):
                if abs(figure / ratio / Number(text) - 1) < DEFAULT_APART and not is_default(figure, row):
                    told.add(id(record))
                    said = f"factor {record.field('name')} is {record.field('value')} {record.field('unit')},"
                    said += f" {word} of the default {text} {row['unit']} of {parameter} ({row['source']})"
                    taker = line.field("value") if gas_of(line) else "Q84"
                    found.append(warn(record, f"{said}; {taker} takes it times {word} itself"))
    return found


def own_ratios(line: Row) -> list[tuple[Number, str]]:
    """The ratios of molecules that the equation of a line has itself, or that Q84 has which takes its carbon, each
    with how it is written.
    """
    words = ((Number(44) / 12, "44/12"), (Number(44) / 28, "44/28"))
    is_of_carbon = line.field("subject").startswith("3B") and not gas_of(line)
    expression = vocabulary.equations()[line.field("value")]["expression"]
    return [pair for pair in words if pair[1] in expression or is_of_carbon and pair is words[0]]


def is_default(figure: Number, row: dict[str, str]) -> bool:
    """Tells whether a figure is one of the defaults itself."""
    return any(abs(figure / Number(text) - 1) < DEFAULT_APART for text in row["defaults"].split())


def factors_that_jump(results: Results) -> list[Fault]:
    """Factors that change from one record to the next by more than such a factor does."""
    found, told = [], set()
    for line, parameter, bound in factors(results):
        record = record_taken_by(bound)
        measures = vocabulary.record_of(vocabulary.parameters_of(line.field("value"))[parameter]) or ""
        if record is None or record in told or vocabulary.is_amount(measures) or not results.is_own(bound):
            continue
        least = jump_of(line, parameter, measures)
        rows = [row for _, row in sorted(results.book.years[record[0]][record[1]].items())]
        pairs = [(one, other) for one, other in zip(rows, rows[1:]) if times_of(one, other) > least]
        if pairs and any(int(other.field("year")) <= results.years[-1] for _, other in pairs):
            told.add(record)
            found.append(warn(pairs[0][1], said_of_jump(record, *pairs[0])))
    return found


def jump_of(line: Row, parameter: str, measures: str) -> Number:
    """How many times its figure before a factor has to be to be told of: little for what a fuel or an animal
    has, much for what a plant or a rule changes.
    """
    is_co2 = measures == "emission factor of fuel" and gas_of(line) == "CO2"
    return JUMP if measures in STEADY or is_co2 or has_default(line, parameter) else JUMP_OF_OTHERS


def has_default(line: Row, parameter: str) -> bool:
    """Tells whether a parameter has a default that does not come of a plant."""
    row = usual_row(line, parameter)
    return bool(row and row["defaults"]) and line.field("value") not in OF_PLANTS


def times_of(one: Row, other: Row) -> Number:
    """How many times one figure another is, or the inverse where that is more; zero where one is blank or
    nothing.
    """
    figures = figure_of(one), figure_of(other)
    if not figures[0] or not figures[1] or one.has_other_figure or other.has_other_figure:
        return Number(0)
    least, most = sorted((abs(figures[0]), abs(figures[1])))
    return most / least


def said_of_jump(record: tuple[str, str], one: Row, other: Row) -> str:
    """A factor that jumps, with the known ratio by which it does."""
    kind, name = record
    figures = [f"{row.field('value')} {row.field('unit')} in {row.field('year')}" for row in (one, other)]
    times = times_of(one, other)
    known = [(size, word) for size, word, _ in RATIOS if abs(times / size - 1) < Number("0.01")]
    by = f"by {known[0][1]}" if known else f"{plain(times.quantize(Number('0.01')))} times"
    return f"{kind} {name} jumps from {figures[0]} to {figures[1]}, {by}; is one of them wrong?"


def activities_by_a_ratio(results: Results) -> list[Fault]:
    """Activities that move little but for one jump, which is by a known ratio of units."""
    found = []
    for name in sorted(results.book.years["activity"]):
        numbers = results.numbers(name)
        if not numbers.may_be_apart(LEAST_OF_THESE):
            continue
        rows = numbers.rows
        times = [times_of(one, other) for one, other in zip(rows, rows[1:])]
        jumps = [at for at, size in enumerate(times) if fitting(rows[at], size)]
        others = [size for at, size in enumerate(times) if at not in jumps]
        if jumps and len(others) > 1 and 0 < min(others) and max(others) < JUMP:
            one, other = rows[jumps[0]:jumps[0] + 2]
            if swapped_in_a_year(rows, jumps[0] + 1):
                continue
            found.append(warn(other, said_of_ratio(name, one, other, fitting(one, times[jumps[0]]))))
    return found


def years_with_swapped_digits(results: Results) -> list[Fault]:
    """Activities of which one year's figure is that of the years beside it with two digits in each other's place."""
    found = []
    for name in sorted(results.book.years["activity"]):
        rows, sizes, _ = results.numbers(name)
        for at in [at for at, three in enumerate(zip(sizes, sizes[1:], sizes[2:]), 1) if is_far(*three)]:
            meant, row = swapped_in_a_year(rows, at), rows[at]
            if meant:
                said = f"activity {name} is {row.field('value')} {row.field('unit')} in {row.field('year')}, far from"
                said += " the years beside it; with two digits in each other's place"
                found.append(warn(row, f"{said} it is {meant}, near them: is that meant?"))
    return found


def is_far(before: float, size: float, after: float) -> bool:
    """Tells whether a figure is far from those of the years beside it, which are near each other."""
    one, other = (before, after) if before <= after else (after, before)
    return other <= STEADY_YEARS * one and not other / FAR_YEAR <= size <= one * FAR_YEAR


def swapped_in_a_year(rows: list[Row], at: int) -> str | None:
    """A figure with two digits next to each other swapped, where that is near both figures beside it and the
    figure itself is far; or None.
    """
    if not 0 < at < len(rows) - 1 or len({row.field("unit") for row in rows[at - 1:at + 2]}) > 1:
        return None
    sizes, text = [abs(float(row.field("value"))) for row in rows[at - 1:at + 2]], rows[at].field("value")
    if not is_far(*sizes):
        return None
    one, other = sorted((sizes[0], sizes[2]))
    pairs = (text[:place] + text[place + 1] + text[place] + text[place + 2:] for place in range(len(text) - 1))
    known = [pair for pair in pairs if pair != text and NUMBER.fullmatch(pair) and pair[0] != "0"]
    return next((pair for pair in known if one / NEAR_YEAR <= abs(float(pair)) <= other * NEAR_YEAR), None)


def fitting(row: Row, times: Number) -> str | None:
    """The ratio of units of what an activity measures by which it jumps, far from all growth, or None."""
    if times < LEAST_OF_THESE:
        return None
    words = RATIOS_OF.get(vocabulary.measured_by(row.field("unit")) or "", ())
    return next((word for size, word, _ in RATIOS if word in words and abs(times / size - 1) < NEAR), None)


def said_of_ratio(name: str, one: Row, other: Row, word: str | None) -> str:
    """An activity that jumps by a known ratio."""
    figures = [f"{row.field('value')} {row.field('unit')} in {row.field('year')}" for row in (one, other)]
    return f"activity {name} is {figures[0]} and {figures[1]}, some {word} times apart; is a unit wrong?"


# A right inventory of coal in TJ.
COAL = """\
enter,span,,,2018,2022,2018,,,
enter,factor,,GWP.CO2,2018,1,,,1,
enter,line,1A1a,COAL.CO2,,Q10,,,,
enter,bind,COAL.CO2,FC,,activity,COAL,,,
enter,bind,COAL.CO2,EF,,factor,COAL.EF,,,
enter,factor,,COAL.EF,2018,94600,,,kg/TJ,
enter,activity,,COAL,2018,25200,,,TJ,
enter,activity,,COAL,2019,25800,,,TJ,
enter,activity,,COAL,2020,26100,,,TJ,
enter,activity,,COAL,2021,26500,,,TJ,
enter,activity,,COAL,2022,25700,,,TJ,
"""

RECOGNISERS: tuple[Recogniser, ...] = (
    Recogniser(
        defaults_times_a_ratio, "factors that are 44/28 or 44/12 of a default, of equations that have this"
        " ratio themselves",
        example="enter,factor,,SOILS.EF1,2019,0.0157,,,kg/kg,",
        says="factor SOILS.EF1 is 0.0157 kg/kg, 44/28 of the default 0.01 kg/kg of EF1",
        right="enter,factor,,SOILS.EF1,2019,0.013,,,kg/kg,"),
    Recogniser(
        unusual_factors, "factors that no fuel, animal or process has, or that another one has as its default, with"
        " what leads to a usual figure: a known ratio (44/12, 44/28, 3.6, 41.868, 10/9, 10, 1000), a tonne, a litre or"
        " a m3 of the fuel, two digits in each other's place, the rest of a share, another factor's figure",
        example="enter,factor,,COAL.EF,2019,25.8,,,t/TJ,",
        says="compare it with its source: times 44/12, CO2 for C, it is 94600: is it of carbon?",
        right="enter,factor,,COAL.EF,2019,101,,,t/TJ,"),
    Recogniser(
        factors_that_jump, "factors that jump from one record to the next",
        example="enter,factor,,COWS.EF,2021,66,,,kg/head,",
        says="factor COWS.EF jumps from 126 kg/head in 2019 to 66 kg/head in 2021, 1.91 times",
        right="enter,factor,,COWS.EF,2021,131,,,kg/head,"),
    Recogniser(
        years_with_swapped_digits, "digits swapped in one year",
        example="enter,activity,,COAL,2020,52800,,,TJ,", right="enter,activity,,COAL,2020,30100,,,TJ,", base=COAL,
        says="activity COAL is 52800 TJ in 2020, far from the years beside it; with two digits in each other's place"),
    Recogniser(
        activities_by_a_ratio, "activities that jump by a ratio of units",
        example="enter,activity,,COAL,2021,95400,,,TJ,",
        says="activity COAL is 26100 TJ in 2020 and 95400 TJ in 2021, some 3.6, GJ in a MWh times apart",
        right="enter,activity,,COAL,2021,28500,,,TJ,", base=COAL),
)
