"""Warnings of what stands in the place of another: a line at the category of another source, a factor of
another fuel or another parameter, gains for losses, and bunkers that the reference approach leaves in.
"""
import collections
import csv
import decimal
import functools
import pathlib
from collections.abc import Iterator

from tools import unit_bases, vocabulary
from tools.book import lines_taken_by
from tools.faults import Fault, warn, years_said
from tools.fuels import BIOMASS, KINDS, fuels_of
from tools.line_notices import OF_LIVESTOCK, is_measured, livestock_of
from tools.recognisers import Recogniser
from tools.results import Results, gas_of, plain
from tools.sheets import Row
from tools.usual import animals_of, usual_row
from tools.vocabulary import listed

# The categories of the source that an equation is of, by their first signs.
SOURCES = {
    "Q14": "1B1", "Q15": "1B2 1B3", "Q16": "1B2 1B3 1C", "Q17": "1B2 1B3", "Q31": "2A1", "Q33": "2A2",
    "Q34": "2A3", "Q37": "2B1", "Q38": "2B2 2B3", "Q39": "2B2 2B3", "Q40": "2C1", "Q41": "2C3", "Q42": "2C3",
    "Q44": "2C3", "Q45": "2C3", "Q46": "2D", "Q55": "3A", "Q59": "3A2", "Q61": "3C6", "Q69": "3C4",
    "Q70": "3C4", "Q71": "3C4", "Q72": "3C5", "Q73": "3C5", "Q74": "3C2", "Q75": "3C3", "Q77": "3C7",
    "Q88": "3C1", "Q89": "3C1", "Q94": "4A", "Q95": "4B 4C", "Q96": "4B 4C", "Q97": "4C", "Q100": "4D",
    "Q103": "4D",
}
# The equations of gains and of losses of biomass.
GAINS, LOSSES = {"Q78", "Q79"}, {"Q80", "Q81", "Q82"}
# How far out of what is usual a figure is another's.
NEAR = decimal.Decimal("1.05")
# The category of what is burnt in ships and aircraft and is no bunker, what that is, and words of its names.
NO_BUNKERS = {
    ("1A4c", "fishing vessels"): {
        "FISHING", "FISHERY", "FISHERIES", "FISH", "TRAWLERS", "PECHE", "FISCHEREI", "PESCA", "VISSERIJ"},
    ("1A5", "armed forces"): {"MILITARY", "ARMY", "NAVY", "MILITAIRE", "MILITAR"},
}
# What a mass may be of, of which each has its factor; and pairs of them, of which the first is the one that
# another activity is due for.
SUBSTANCES = ("N", "urea", "clinker", "cement", "NH3", "HNO3", "limestone")
OTHERS_OF = (("urea", "N"), ("clinker", "cement"), ("HNO3", "N"), ("NH3", "N"), ("NH3", "urea"),
             ("limestone", "urea"))
# The factors of managed soils that are shares of nitrogen, and how others call them.
OF_SOILS = {"EF1": "direct N2O of inputs", "EF2": "organic soils", "EF3": "manure and grazing animals",
            "EF4": "N2O of nitrogen that volatilises", "EF5": "N2O of nitrogen that is leached",
            "FG": "the share of fertiliser that volatilises", "FM": "the share of manure that volatilises",
            "FL": "the share that is leached"}
OF_NAMES = {"GASF": "FG", "FRACGASF": "FG", "GASM": "FM", "FRACGASM": "FM", "LEACH": "FL", "FRACLEACH": "FL",
            "LEACHING": "FL"}
OF_WAYS = {"Q72": {"VOLATILISED", "VOLATILIZED", "VOLATILISATION", "VOLATILIZATION", "VOLAT", "DEPOSITION",
                   "DEPOSITED", "ATMOSPHERIC", "NH3", "NOX"},
           "Q73": {"LEACHED", "LEACHING", "LEACH", "RUNOFF", "LIXIVIATION", "AUSWASCHUNG", "LIXIVIACION"}}
# What coal becomes, and what goes for one fuel in many names.
OF_COKE = ("COKE", "GAS.COKE", "PETROLEUM.COKE")
# The equations of apparent consumption; the parameters that a fuel has a factor for; and the equations of other
# gases, whose factors fuels of a kind share.
APPARENT = {"Q20", "Q21", "Q22", "Q23"}
OF_FUELS = {"Q10": ("EF",), "Q11": ("EF",), "Q12": ("EF",), "Q13": ("NCV",), "Q25": ("CC", "CONV"), "Q26": ("CC",)}
OF_KINDS = {"Q11", "Q12"}
# Words of names that tell which of the parameters of an equation a figure is due for.
PARAMETER_WORDS = pathlib.Path(__file__).resolve().parent / "parameter-words.csv"
# The equations of livestock; and animals that go for each other in names.
OF_ANIMALS = {"Q55", "Q56", "Q58", "Q59", "Q60", "Q62", "Q63", "Q64"}
ALIKE = {"DAIRY": "CATTLE", "BUFFALO": "CATTLE", "GOATS": "SHEEP", "MULES": "HORSES"}
# The most CH4 that a tonne of COD yields, and not one of BOD, with its margin (Volume 5, Table 6.2).
MOST_OF_COD = decimal.Decimal("0.3")


def other_sources(results: Results) -> Iterator[Fault]:
    """Lines at a category of the same volume whose source another equation is of."""
    for row in results.lines:
        category, equation = row.field("subject"), row.field("value")
        due = SOURCES.get(equation, category).split()
        is_same = vocabulary.volume_of_category(category) == vocabulary.volume_of_equation(equation)
        is_there = category.startswith(tuple(due)) or row.has_other_figure
        if is_same and not is_there and not is_measured(results.book, row.field("name"), equation):
            at = [f"{code} ({vocabulary.categories()[code]['name']})" for code in due]
            of = f"line {row.field('name')} at {category} ({vocabulary.categories()[category]['name']})"
            what = vocabulary.equations()[equation]["computes"]
            yield warn(row, f"{of} has {equation} ({what}), which is of {listed(at)}; is the category another?")


def gases_apart(results: Results) -> Iterator[Fault]:
    """Lines of one fuel and of different gases at different categories, but for CO2 of biomass at MC: the one
    that stands alone, or else the last one.
    """
    fuels: dict[tuple[str, str], list[Row]] = {}
    for row in results.lines:
        bound = results.bindings(row.field("name")).get("FC")
        is_memo = row.field("subject") == "MC" or row.has_other_figure
        if row.field("value") in OF_FUELS and bound and bound.field("value") != "key" and not is_memo:
            fuels.setdefault((bound.field("value"), bound.field("low")), []).append(row)
    for (kind, fuel), rows in fuels.items():
        codes = collections.Counter(row.field("subject") for row in rows)
        if len(codes) != 2 or len({row.field("value") for row in rows}) < len(rows):
            continue
        alone = min(reversed(rows), key=lambda row: codes[row.field("subject")])
        others = [row for row in rows if row.field("subject") != alone.field("subject")]
        names, code = [row.field("name") for row in others], others[0].field("subject")
        are = f"line{'s' * (len(names) > 1)} {listed(names, 'and')} at {code}"
        said = f"line {alone.field('name')} at {alone.field('subject')} ({category_of(alone)}) takes {kind} {fuel}"
        yield warn(alone, f"{said}, and so do{'es' * (len(names) == 1)} {are} ({category_of(others[0])}); "
                          "where is that fuel burnt?")


def category_of(row: Row) -> str:
    """The name of the category of a line."""
    return str(vocabulary.categories()[row.field("subject")]["name"])


def manure_for_enteric(results: Results) -> Iterator[Fault]:
    """Lines of enteric fermentation at the category of manure by their names, or the other way round."""
    for row in results.lines:
        category, name = row.field("subject"), row.field("name")
        names = [name, *(bound.field("low") for bound in results.bindings(name).values())]
        own = livestock_of(names)
        if row.field("value") == "Q55" and category in OF_LIVESTOCK and own and category not in own:
            said = f"line {name} at {category} ({vocabulary.categories()[category]['name']}) is of {own[0]}"
            yield warn(row, f"{said} ({vocabulary.categories()[own[0]]['name']}) by its names")


def gains_for_losses(results: Results) -> Iterator[Fault]:
    """Changes of a stock whose gains are lines of losses, or whose losses are lines of gains, but for sums of
    losses alone.
    """
    for row in results.lines:
        bindings = results.bindings(row.field("name"))
        if any(bound.field("value") == "key" for bound in bindings.values()):
            continue
        for parameter, wrong, what in (("G", LOSSES, "loses"), ("L", GAINS, "gains")):
            bound = bindings.get(parameter)
            taken = lines_taken_by(bound) if bound and row.field("value") == "Q83" else []
            lines = [results.book.lines[name] for name in taken if name in results.book.lines]
            if bound and lines and all(line.field("value") in wrong for line in lines):
                is_of = "gains" if parameter == "G" else "losses"
                said = f"{parameter} of line {row.field('name')} is of {is_of}, and line"
                yield warn(bound, f"{said} {taken[0]} is carbon that biomass {what}; are G and L swapped?")
                break


def swapped_figures(results: Results) -> Iterator[Fault]:
    """Two parameters of a line of which the one has a figure that is usual of the other, and is not its own, but
    for factors that several lines take in one place.
    """
    counts = collections.Counter((bound.field("low"), bound.field("name")) for row in results.lines
                                 for bound in results.bindings(row.field("name")).values())
    for row in results.lines:
        name = row.field("name")
        bindings = {parameter: bound for parameter, bound in results.bindings(name).items()
                    if bound.field("value") == "factor" and results.is_own(bound)
                    and counts[bound.field("low"), bound.field("name")] == 1}
        usual = {parameter: usual_row(row, parameter, [bound.field("low")])
                 for parameter, bound in bindings.items()}
        for one, bound in bindings.items():
            other = next((each for each in bindings if are_swapped(results, bindings, usual, one, each)), None)
            if other:
                figures = [f"{bindings[each].field('low')}, "
                           f"{plain(results.taken(bindings[each], results.years[0]) or decimal.Decimal(0))}, at {each}"
                           for each in (one, other)]
                yield warn(bound, f"line {name} has {' and '.join(figures)}; are {one} and {other} swapped?")
                break


def are_swapped(results: Results, bindings: dict[str, Row], usual: dict[str, dict[str, str] | None],
                one: str, other: str) -> bool:
    """Tells whether the figure of one parameter is not usual of it and is of another one, whose figure is
    usual of the one.
    """
    figures = [results.taken(bindings[parameter], results.years[0]) for parameter in (one, other)]
    known = [usual[parameter] for parameter in (one, other)]
    measures = [vocabulary.parameters_of(results.book.lines[bindings[one].field("subject")].field("value"))[each]
                ["measures"] for each in (one, other)]
    if one == other or measures[0] != measures[1] or not all(known) or not all(figures) or figures[0] == figures[1]:
        return False
    return not is_usual(known[0], figures[0]) and is_usual(known[1], figures[0]) and is_usual(known[0], figures[1])


def is_usual(row: dict[str, str] | None, figure: decimal.Decimal | None) -> bool:
    """Tells whether a figure is within what is usual."""
    if row is None or figure is None:
        return False
    least, greatest = decimal.Decimal(row["least"] or 0), decimal.Decimal(row["greatest"])
    return least / NEAR <= figure <= greatest * NEAR


def factors_of_other_fuels(results: Results) -> Iterator[Fault]:
    """Lines of fuel burnt whose CO2 factor or calorific value is of another fuel by its name."""
    for row in results.lines:
        name = row.field("name")
        parameters = OF_FUELS.get(row.field("value"))
        if not parameters:
            continue
        bindings = results.bindings(name)
        taken = [bound.field("low") for bound in results.bound_below(name) if bound.field("value") == "activity"]
        own = fuels_of(taken) or fuels_of([name])
        for bound in (bindings[parameter] for parameter in parameters if parameter in bindings):
            of = fuels_of([bound.field("low")]) if bound.field("value") == "factor" else ()
            if own and of and are_others(own, of, row.field("value") in OF_KINDS):
                fuels = [each[0].replace(".", " ").lower() for each in (own, of)]
                said = f"line {name} is of {fuels[0]} by the names of what it takes, and factor {bound.field('low')}"
                yield warn(bound, f"{said} is of {fuels[1]}; is another factor meant?")


def are_others(own: tuple[str, ...], of: tuple[str, ...], by_kind: bool) -> bool:
    """Tells whether fuels are other ones, or of another kind; what coal becomes goes for coal."""
    if any(fuel in OF_COKE for fuel in own + of):
        return False
    if not by_kind:
        return not set(own) & set(of)
    kinds = [{kind for kind, words in (*KINDS.items(), ("biomass", BIOMASS)) if set(words) & set(fuels)}
             for fuels in (own, of)]
    return all(kinds) and not kinds[0] & kinds[1]


def animals_of_others(results: Results) -> Iterator[Fault]:
    """Lines of livestock that take a factor, a line or a herd of other animals by the names."""
    for row in results.lines:
        if row.field("value") not in OF_ANIMALS:
            continue
        bindings = {parameter: bound for parameter, bound in results.bindings(row.field("name")).items()
                    if bound.field("value") in ("activity", "factor", "line")}
        named = {parameter: alike(animals_of([bound.field("low")])) for parameter, bound in bindings.items()}
        named[""] = alike(animals_of([row.field("name")]))
        for parameter, bound in sorted(bindings.items(), key=lambda pair: pair[1].field("value") == "activity"):
            rest = {animal for other, animals in named.items() if other != parameter for animal in animals}
            if rest and named[parameter] and not rest & named[parameter]:
                animals = [listed(sorted(each), "and").lower() for each in (rest, named[parameter])]
                said = f"line {row.field('name')} is of {animals[0]} by its names, and {parameter} takes"
                said += f" {bound.field('value')} {bound.field('low')} of {animals[1]}"
                yield warn(bound, f"{said}; is another one meant?")
                break


def alike(animals: tuple[str, ...]) -> set[str]:
    """Animals, without those that names confound."""
    return {ALIKE.get(animal, animal) for animal in animals}


@functools.cache
def words_of_parameters(equation: str) -> dict[str, frozenset[str]]:
    """The words of parameter-words.csv by the parameters of an equation."""
    with open(PARAMETER_WORDS, encoding="utf-8", newline="") as file:
        rows = [row for row in csv.DictReader(file) if equation in row["equation"].split()]
    return {row["parameter"]: frozenset(row["words"].split()) for row in rows}


def names_of_other_parameters(results: Results) -> Iterator[Fault]:
    """Parameters that take what is another parameter of the equation by its name, as exports at IM."""
    for row in results.lines:
        words = words_of_parameters(row.field("value"))
        bindings = results.bindings(row.field("name")) if words else {}
        for parameter, bound in bindings.items():
            if parameter not in words or bound.field("value") in ("key", "decay"):
                continue
            named = lines_taken_by(bound) or [bound.field("low")]
            parts = {part for name in named for part in vocabulary.parts_of(name)}
            other = next((each for each, own in words.items() if parts & own), None)
            if other and not parts & words[parameter] and are_measured_alike(row, parameter, other):
                said = f"{parameter} of line {row.field('name')} takes {named[0]}, which is {other} of"
                yield warn(bound, f"{said} {row.field('value')} by its name; is it bound to the wrong parameter?")
                break


def are_measured_alike(line: Row, one: str, other: str) -> bool:
    """Tells whether two parameters of a line measure the same."""
    parameters = vocabulary.parameters_of(line.field("value"))
    return bool(parameters[one]["measures"] == parameters[other]["measures"])


def other_oxygen_demands(results: Results) -> Iterator[Fault]:
    """Wastewater whose organic matter is BOD, by Q99, with the CH4 that a tonne of COD yields."""
    for row in results.lines:
        bindings = results.bindings(row.field("name"))
        if row.field("value") != "Q100" or not {"X", "TOW"} <= bindings.keys():
            continue
        lines = [[results.book.lines[name] for taken in lines_taken_by(bindings[parameter])
                  for name in results.below(taken) if name in results.book.lines] for parameter in ("X", "TOW")]
        yields = [results.bindings(line.field("name"))["BO"] for line in lines[0] if line.field("value") == "Q98"]
        load = next((line for line in lines[1] if line.field("value") == "Q99"), None)
        bound = next((each for each in yields if 0 < (results.taken(each, results.years[0]) or 0) <= MOST_OF_COD), None)
        if load and bound:
            said = f"{bound.field('low')} is {plain(results.taken(bound, results.years[0]) or decimal.Decimal(0))}, CH4"
            said += f" of a tonne of COD, and line {row.field('name')} takes BOD by line {load.field('name')} (Q99)"
            yield warn(bound, f"{said}; of BOD it is 0.6 (Volume 5, Table 6.2)")


def bunkers_left_in(results: Results) -> Iterator[Fault]:
    """Lines of the reference approach without bunkers, of a fuel that a line of bunkers burns and that no other
    line of the reference approach takes off.
    """
    at_bunkers = [row for row in results.emitting if row.field("subject") == "MB" and gas_of(row) == "CO2"]
    apparent = [row for row in results.lines if row.field("value") in APPARENT]
    off = {name for row in apparent if "IB" in results.bindings(row.field("name"))
           for name in below(results, results.bindings(row.field("name"))["IB"])}
    for row in apparent:
        bindings = results.bindings(row.field("name"))
        bound = bindings.get("IB")
        if bound is None or any(results.taken(bound, year) for year in results.years):
            continue
        own = fuels_of([row.field("name"), *(each.field("low") for each in bindings.values()
                                             if each.field("value") == "activity")])
        for other in at_bunkers:
            activities = [each.field("low") for each in results.bound_below(other.field("name"))
                          if each.field("value") == "activity"]
            if set(own[:1]) & set(fuels_of(activities)) and not off & set(activities):
                said = f"IB of line {row.field('name')} is nothing, and line {other.field('name')} at MB burns"
                yield warn(bound, f"{said} {activities[0]} ({other.place}); take the bunkers off here")
                break


def below(results: Results, bound: Row) -> list[str]:
    """The activities that a binding takes, by itself or through lines."""
    if bound.field("value") == "activity":
        return [bound.field("low")]
    return [other.field("low") for line in lines_taken_by(bound) for other in results.bound_below(line)
            if other.field("value") == "activity"]


def stocks_added_before(results: Results) -> Iterator[Fault]:
    """Stocks of the year before the span that stand with the wrong sign, so that the change of the first year
    is twice the stock.
    """
    for row in results.lines:
        bindings = results.bindings(row.field("name"))
        gain, loss = bindings.get("G"), bindings.get("L")
        if row.field("value") != "Q83" or gain is None or loss is None or gain.field("value") != "prev":
            continue
        first = results.years[0]
        record, figure = results.record(loss, first), results.taken(loss, first)
        if record and figure and figure > 0 and loss.field("value") == "activity":
            said = f"activity {record.field('name')} is {record.field('value')} {record.field('unit')} in {first},"
            said += f" and L of line {row.field('name')} is taken off the stock of the year before, which is zero"
            yield warn(record, f"{said} there; give the stock before the span as a negative figure")


def stocks_before_in_later_years(results: Results) -> Iterator[Fault]:
    """Stocks of the year before the span that are entered once more in later years, in each of which they are taken
    off again.
    """
    for row in results.lines:
        bindings = results.bindings(row.field("name"))
        gain, loss = bindings.get("G"), bindings.get("L")
        if row.field("value") != "Q83" or gain is None or loss is None or gain.field("value") != "prev":
            continue
        later = [year for year in results.years[1:] if results.taken(loss, year)]
        record = results.record(loss, later[0]) if later else None
        if record and results.taken(loss, results.years[0]):
            said = f"{loss.field('value')} {record.field('name')} is {record.field('value')} {record.field('unit')} in"
            said += f" {years_said(later)}, and L of line {row.field('name')} is the stock before the span, which is of"
            yield warn(record, f"{said} {results.years[0]} alone; enter 0 from {results.years[1]} on")


def fuel_of_others_at_bunkers(results: Results) -> Iterator[Fault]:
    """Lines of international bunkers that are of fishing vessels or of the armed forces by their names."""
    for row in results.emitting:
        if row.field("subject") != "MB":
            continue
        names = [row.field("name"), *(bound.field("low") for bound in results.bindings(row.field("name")).values())]
        parts = {part for name in names for part in vocabulary.parts_of(name)}
        for (category, what), words in NO_BUNKERS.items():
            if parts & words:
                said = f"line {row.field('name')} at MB is of {what} by its names, and their fuel is no bunker"
                yield warn(row, f"{said}: it stands at {category}, wherever it was bought")
                break


def records_of_two_substances(results: Results) -> Iterator[Fault]:
    """Activities that parameters take as the mass of two substances, as nitrogen and urea, and those that are
    nitrogen by their names and taken as something else.
    """
    takers: dict[str, list[tuple[str | None, Row]]] = {}
    for row in results.lines:
        for parameter, bound in results.bindings(row.field("name")).items():
            if bound.field("value") == "activity":
                of = unit_bases.taken_by(row.field("value"), parameter)
                takers.setdefault(bound.field("low"), []).append((of, bound))
    for name, taken in sorted(takers.items()):
        known = {of: bound for of, bound in reversed(taken) if of and of in SUBSTANCES}
        if name.split(".")[-1] == "N" and set(known) == {"urea"}:
            known["N"] = known["urea"]
        pair = next((pair for pair in OTHERS_OF if set(pair) <= set(known)), None)
        if pair:
            wrong, own = reversed(pair) if pair[0].upper() in vocabulary.parts_of(name) else pair
            yield warn(known[wrong], said_of_substances(results, name, known, wrong, own))


def said_of_substances(results: Results, name: str, known: dict[str, Row], wrong: str, own: str) -> str:
    """What is said of an activity of one substance that a parameter takes as another one."""
    bound, elsewhere = known[wrong], known[own]
    line = results.book.lines[bound.field("subject")]
    where = f"as line {elsewhere.field('subject')} takes it" if elsewhere is not bound else "by its name"
    ratio = unit_bases.RATIOS.get((own, wrong))
    by = f": times {ratio}" if ratio else ""
    said = f"line {line.field('name')} takes activity {name}, which is {unit_bases.said(own)} {where}, and"
    said += f" {bound.field('name')} of {line.field('value')} is {unit_bases.said(wrong)}"
    return f"{said}; enter that as an activity of its own{by}"


def parameters_of_others(results: Results) -> Iterator[Fault]:
    """Factors of managed soils that are another parameter by their names, as EF4 at EF5."""
    for row in results.lines:
        for parameter, bound in results.bindings(row.field("name")).items():
            if parameter not in OF_SOILS or bound.field("value") != "factor":
                continue
            said = [OF_NAMES.get(part, part) for part in vocabulary.parts_of(bound.field("low"))]
            named = [part for part in said if part in OF_SOILS]
            if named and parameter not in named:
                what = f"{parameter} of line {row.field('name')} takes factor {bound.field('low')}"
                yield warn(bound, f"{what}, which is {named[0]} by its name ({OF_SOILS[named[0]]}); is {parameter}"
                                  f" ({OF_SOILS[parameter]}) meant?")


def ways_of_nitrogen(results: Results) -> Iterator[Fault]:
    """Lines of nitrogen that is leached by their names, with the equation of nitrogen that volatilises, or the
    other way round.
    """
    for row in results.lines:
        parts = {part for part in vocabulary.parts_of(row.field("name"))}
        for equation, words in OF_WAYS.items():
            if row.field("value") in OF_WAYS and row.field("value") != equation and parts & words:
                own = vocabulary.equations()[row.field("value")]["computes"]
                due = vocabulary.equations()[equation]["computes"]
                yield warn(row, f"line {row.field('name')} has {row.field('value')} ({own}), and by its name it is"
                                f" {equation} ({due}); is the equation another?")


# Coal that is mined and burnt in ships; a forest that grows and is cut; and grassland with the stock before.
MINE = "enter,line,{0},MINE.CH4,,Q14,,,,\nenter,bind,MINE.CH4,P,,activity,COAL,,,\n" \
       "enter,bind,MINE.CH4,EF,,factor,MINE.EF,,,\nenter,factor,,MINE.EF,2019,18,,,m3/t,"
FOREST = """\
enter,line,3B1,GROWTH,,Q78,,,,
enter,bind,GROWTH,A,,activity,FOREST,,,
enter,bind,GROWTH,GW,,factor,GROWTH,,,
enter,bind,GROWTH,R,,factor,{2},,,
enter,bind,GROWTH,CF,,factor,{3},,,
enter,line,3B1,LOGS,,Q80,,,,
enter,bind,LOGS,H,,activity,LOGS,,,
enter,bind,LOGS,BCEF,,factor,BCEF,,,
enter,bind,LOGS,R,,factor,ROOTS,,,
enter,bind,LOGS,CF,,factor,CARBON,,,
enter,line,3B1,NET,,Q83,,,,
enter,bind,NET,G,,line,{0},,,
enter,bind,NET,L,,line,{1},,,
enter,line,3B1,FOREST.CO2,,Q84,,,,
enter,bind,FOREST.CO2,C,,line,NET,,,
enter,factor,,GROWTH,2019,4,,,t/ha,
enter,factor,,ROOTS,2019,0.29,,,1,
enter,factor,,CARBON,2019,0.47,,,t/t,
enter,factor,,BCEF,2019,0.77,,,t/m3,
enter,activity,,FOREST,2019,900,,,kha,
enter,activity,,FOREST,2020,901,,,kha,
enter,activity,,FOREST,2021,902,,,kha,
enter,activity,,LOGS,2019,2.1,,,Mm3,
enter,activity,,LOGS,2020,2.2,,,Mm3,
enter,activity,,LOGS,2021,2.15,,,Mm3,
"""
PETROL = """\
enter,line,1A3b,PETROL.CO2,,Q10,,,,
enter,bind,PETROL.CO2,FC,,activity,PETROL,,,
enter,bind,PETROL.CO2,EF,,factor,{0}.CO2,,,
enter,factor,,{0}.CO2,2019,{1},,,kg/TJ,
enter,activity,,PETROL,2019,9100,,,TJ,
enter,activity,,PETROL,2020,9000,,,TJ,
enter,activity,,PETROL,2021,8900,,,TJ,
"""
GRASS = """\
enter,line,3B3,STOCK,,Q85,,,,
enter,bind,STOCK,SREF,,factor,SREF,,,
enter,bind,STOCK,FLU,,factor,ONE,,,
enter,bind,STOCK,FMG,,factor,ONE,,,
enter,bind,STOCK,FI,,factor,ONE,,,
enter,bind,STOCK,A,,activity,GRASS,,,
enter,line,3B3,BEFORE,,Q83,,,,
enter,bind,BEFORE,G,,prev,STOCK,,,
enter,bind,BEFORE,L,,activity,STOCK.FIRST,,,
enter,line,3B3,CHANGE,,Q83,,,,
enter,bind,CHANGE,G,,line,STOCK,,,
enter,bind,CHANGE,L,,line,BEFORE,,,
enter,line,3B3,GRASS.CO2,,Q84,,,,
enter,bind,GRASS.CO2,C,,line,CHANGE,,,
enter,factor,,SREF,2019,47,,,t/ha,
enter,factor,,ONE,2019,1,,,1,
enter,activity,,GRASS,2019,100,,,kha,
enter,activity,,GRASS,2020,101,,,kha,
enter,activity,,GRASS,2021,102,,,kha,
enter,activity,,STOCK.FIRST,2019,{0}4650,,,GgC,
enter,activity,,STOCK.FIRST,2020,0,,,GgC,
enter,activity,,STOCK.FIRST,2021,0,,,GgC,
"""
JETS = """\
enter,line,RA,RA.JET,,Q23,,,,
enter,bind,RA.JET,IM,,activity,JET.BOUGHT,,,
enter,bind,RA.JET,EX,,key,NO,,,
enter,bind,RA.JET,IB,,{0},,,
enter,bind,RA.JET,SC,,key,NO,,,
enter,line,RA,RA.JET.CO2,,Q26,,,,
enter,bind,RA.JET.CO2,AC,,line,RA.JET,,,
enter,bind,RA.JET.CO2,CC,,factor,JET.C,,,
enter,bind,RA.JET.CO2,XC,,key,NO,,,
enter,bind,RA.JET.CO2,COF,,factor,ONE,,,
enter,line,MB,FLIGHTS.CO2,,Q10,,,,
enter,bind,FLIGHTS.CO2,FC,,activity,JET.ABROAD,,,
enter,bind,FLIGHTS.CO2,EF,,factor,JET.CO2,,,
enter,line,1A3a,HERE.CO2,,Q10,,,,
enter,bind,HERE.CO2,FC,,activity,JET.HERE,,,
enter,bind,HERE.CO2,EF,,factor,JET.CO2,,,
enter,factor,,JET.C,2019,19.5,,,tC/TJ,
enter,factor,,JET.CO2,2019,71500,,,kg/TJ,
enter,factor,,ONE,2019,1,,,1,
enter,activity,,JET.BOUGHT,2019,3000,,,TJ,
enter,activity,,JET.BOUGHT,2020,3000,,,TJ,
enter,activity,,JET.BOUGHT,2021,3000,,,TJ,
enter,activity,,JET.HERE,2019,2000,,,TJ,
enter,activity,,JET.HERE,2020,2000,,,TJ,
enter,activity,,JET.HERE,2021,2000,,,TJ,
enter,activity,,JET.ABROAD,2019,1000,,,TJ,
enter,activity,,JET.ABROAD,2020,1000,,,TJ,
enter,activity,,JET.ABROAD,2021,1000,,,TJ,
"""

SHIPS = """\
enter,line,{0},{1}.CO2,,Q10,,,,
enter,bind,{1}.CO2,FC,,activity,{1}.OIL,,,
enter,bind,{1}.CO2,EF,,factor,OIL.CO2,,,
enter,factor,,OIL.CO2,2019,77400,,,kg/TJ,
enter,activity,,{1}.OIL,2019,1100,,,TJ,
enter,activity,,{1}.OIL,2020,1150,,,TJ,
enter,activity,,{1}.OIL,2021,1120,,,TJ,
"""
UREA = """\
enter,line,3C3,UREA.CO2,,Q75,,,,
enter,bind,UREA.CO2,M,,activity,{0},,,
enter,bind,UREA.CO2,EF,,factor,UREA.EF,,,
enter,factor,,UREA.EF,2019,0.2,,,t/t,
enter,activity,,{0},2019,41000,,,t,
enter,activity,,{0},2020,42000,,,t,
enter,activity,,{0},2021,40500,,,t,
"""
LEACHED = """\
enter,line,3C5,{0},,Q73,,,,
enter,bind,{0},FSN,,activity,FERTILISER.N,,,
enter,bind,{0},FON,,activity,MANURE.N,,,
enter,bind,{0},FP,,key,NO,,,
enter,bind,{0},FCR,,key,NO,,,
enter,bind,{0},FSOM,,key,NO,,,
enter,bind,{0},FL,,factor,SHARE.FL,,,
enter,bind,{0},EF5,,factor,{1},,,
enter,factor,,SHARE.FL,2019,0.3,,,kg/kg,
enter,factor,,{1},2019,0.0075,,,kg/kg,
"""
VOLATILE = """\
enter,line,3C5,{0}.N2O,,Q72,,,,
enter,bind,{0}.N2O,FSN,,activity,FERTILISER.N,,,
enter,bind,{0}.N2O,FG,,factor,SOILS.FG,,,
enter,bind,{0}.N2O,FON,,activity,MANURE.N,,,
enter,bind,{0}.N2O,FP,,key,NO,,,
enter,bind,{0}.N2O,FM,,factor,SOILS.FM,,,
enter,bind,{0}.N2O,EF4,,factor,SOILS.EF4,,,
enter,factor,,SOILS.FG,2019,0.1,,,kg/kg,
enter,factor,,SOILS.FM,2019,0.2,,,kg/kg,
enter,factor,,SOILS.EF4,2019,0.01,,,kg/kg,
"""

# Sheep beside cows; and wastewater of people.
SHEEP = """\
enter,line,3A1,SHEEP.CH4,,Q55,,,,
enter,bind,SHEEP.CH4,N,,activity,SHEEP,,,
enter,bind,SHEEP.CH4,EF,,factor,{},,,
enter,factor,,SHEEP.EF,2019,8,,,kg/head,
enter,activity,,SHEEP,2019,900000,,,head,
enter,activity,,SHEEP,2020,905000,,,head,
enter,activity,,SHEEP,2021,902000,,,head,
"""
SEWAGE = """\
enter,line,4D1,LOAD,,Q99,,,,
enter,bind,LOAD,P,,activity,PEOPLE,,,
enter,bind,LOAD,BOD,,factor,BOD,,,
enter,bind,LOAD,I,,factor,WITH.INDUSTRY,,,
enter,line,4D1,PLANT.EF,,Q98,,,,
enter,bind,PLANT.EF,BO,,factor,YIELD,,,
enter,bind,PLANT.EF,MCF,,factor,PLANT.MCF,,,
enter,line,4D1,SEWAGE.CH4,,Q100,,,,
enter,bind,SEWAGE.CH4,X,,line,PLANT.EF,,,
enter,bind,SEWAGE.CH4,TOW,,line,LOAD,,,
enter,bind,SEWAGE.CH4,S,,key,NO,,,
enter,bind,SEWAGE.CH4,R,,key,NO,,,
enter,factor,,BOD,2019,60,,,g/person/day,
enter,factor,,WITH.INDUSTRY,2019,1.25,,,1,
enter,factor,,YIELD,2019,{},,,kg/kg,
enter,factor,,PLANT.MCF,2019,0.3,,,1,
enter,activity,,PEOPLE,2019,5400000,,,person,
enter,activity,,PEOPLE,2020,5410000,,,person,
enter,activity,,PEOPLE,2021,5420000,,,person,
"""
IRON = """\
enter,line,2C1,STEEL.CO2,,Q40,,,,
enter,bind,STEEL.CO2,BOF,,activity,{0}.STEEL,,,
enter,bind,STEEL.CO2,EFB,,factor,BOF.EF,,,
enter,bind,STEEL.CO2,EAF,,activity,{1}.STEEL,,,
enter,bind,STEEL.CO2,EFE,,factor,EAF.EF,,,
enter,bind,STEEL.CO2,OHF,,key,NO,,,
enter,bind,STEEL.CO2,EFO,,key,NO,,,
enter,factor,,BOF.EF,2019,1.46,,,t/t,
enter,factor,,EAF.EF,2019,0.08,,,t/t,
enter,activity,,BOF.STEEL,2019,3000,,,kt,
enter,activity,,BOF.STEEL,2020,3050,,,kt,
enter,activity,,BOF.STEEL,2021,3020,,,kt,
enter,activity,,EAF.STEEL,2019,900,,,kt,
enter,activity,,EAF.STEEL,2020,910,,,kt,
enter,activity,,EAF.STEEL,2021,905,,,kt,
"""

METHANE = """\
enter,line,{},COAL.CH4,,Q11,,,,
enter,bind,COAL.CH4,FC,,line,COAL.TJ,,,
enter,bind,COAL.CH4,EF,,factor,COAL.CH4.EF,,,
enter,factor,,COAL.CH4.EF,2019,1,,,kg/TJ,"""
RECOGNISERS: tuple[Recogniser, ...] = (
    Recogniser(
        animals_of_others, "what is of other animals by its name",
        example=SHEEP.format("COWS.EF"), right=SHEEP.format("SHEEP.EF"),
        says="line SHEEP.CH4 is of sheep by its names, and EF takes factor COWS.EF of cattle"),
    Recogniser(
        names_of_other_parameters, "exports at IM, and other parameters by their names",
        example=IRON.format("EAF", "BOF"), right=IRON.format("BOF", "EAF"),
        says="BOF of line STEEL.CO2 takes EAF.STEEL, which is EAF of Q40 by its name"),
    Recogniser(
        other_oxygen_demands, "BOD with the yield of COD",
        example=SEWAGE.format("0.25"), right=SEWAGE.format("0.6"),
        says="YIELD is 0.25, CH4 of a tonne of COD, and line SEWAGE.CH4 takes BOD by line LOAD (Q99)"),
    Recogniser(
        other_sources, "a line at a category whose source another equation is of",
        example=MINE.format("1B2"), right=MINE.format("1B1"),
        says="line MINE.CH4 at 1B2 (Oil and natural gas) has Q14 (Coal mined, to CH4), which is of 1B1"),
    Recogniser(
        gases_apart, "the gases of one fuel at different categories",
        example=METHANE.format("1A2"), right=METHANE.format("1A1a"),
        says="line COAL.CH4 at 1A2 (Manufacturing industries and construction) takes line COAL.TJ, and so does line "
             "COAL.CO2 at 1A1a"),
    Recogniser(
        manure_for_enteric, "enteric fermentation at the category of manure, and the other way round",
        example="enter,line,3A2,COWS.ENTERIC,,Q55,,,,\nenter,bind,COWS.ENTERIC,N,,activity,COWS,,,\n"
                "enter,bind,COWS.ENTERIC,EF,,factor,COWS.EF,,,",
        says="line COWS.ENTERIC at 3A2 (Manure management) is of 3A1 (Enteric fermentation) by its names",
        right="enter,line,3A2,COWS.MANURE,,Q55,,,,\nenter,bind,COWS.MANURE,N,,activity,COWS,,,\n"
              "enter,bind,COWS.MANURE,EF,,factor,COWS.EF,,,"),
    Recogniser(
        gains_for_losses, "gains of a carbon stock that are losses, and the other way round",
        example=FOREST.format("LOGS", "GROWTH", "ROOTS", "CARBON"),
        right=FOREST.format("GROWTH", "LOGS", "ROOTS", "CARBON"),
        says="G of line NET is of gains, and line LOGS is carbon that biomass loses; are G and L swapped?"),
    Recogniser(
        swapped_figures, "two parameters with figures that are usual of each other",
        example=FOREST.format("GROWTH", "LOGS", "CARBON", "ROOTS"),
        right=FOREST.format("GROWTH", "LOGS", "ROOTS", "CARBON"),
        says="line GROWTH has ROOTS, 0.29, at CF and CARBON, 0.47, at R; are CF and R swapped?"),
    Recogniser(
        factors_of_other_fuels, "a CO2 factor or a calorific value of another fuel, by the names",
        example=PETROL.format("DIESEL", 74100), right=PETROL.format("GASOLINE", 69300),
        says="line PETROL.CO2 is of motor gasoline by the names of what it takes, and factor DIESEL.CO2 is of gas"),
    Recogniser(
        bunkers_left_in, "bunkers that the reference approach does not take off",
        example=JETS.format("key,NO"), right=JETS.format("activity,JET.ABROAD").replace("BOUGHT", "SOLD"),
        says="IB of line RA.JET is nothing, and line FLIGHTS.CO2 at MB burns JET.ABROAD"),
    Recogniser(
        stocks_added_before, "the stock before the span with the wrong sign",
        example=GRASS.format(""), right=GRASS.format("-"),
        says="activity STOCK.FIRST is 4650 GgC in 2019, and L of line BEFORE is taken off"),
    Recogniser(
        stocks_before_in_later_years, "the stock before the span once more in later years",
        example=GRASS.format("-").replace("FIRST,2020,0", "FIRST,2020,-4650"), right=GRASS.format("-"),
        says="activity STOCK.FIRST is -4650 GgC in 2020, and L of line BEFORE is the stock before the span"),
    Recogniser(
        fuel_of_others_at_bunkers, "fuel of fishing vessels and of armed forces at international bunkers",
        example=SHIPS.format("MB", "FISHING"), right=SHIPS.format("MB", "TANKERS"),
        says="line FISHING.CO2 at MB is of fishing vessels by its names, and their fuel is no bunker"),
    Recogniser(
        records_of_two_substances, "one activity taken as two substances, as nitrogen and urea",
        example=UREA.format("FERTILISER.N"), right=UREA.format("UREA"),
        says="line UREA.CO2 takes activity FERTILISER.N, which is nitrogen as line SOILS.N2O takes it"),
    Recogniser(
        parameters_of_others, "a factor of soils that is another parameter by its name, as EF4 at EF5",
        example=LEACHED.format("RUN.N2O", "SOILS.EF4"), right=LEACHED.format("RUN.N2O", "SOILS.EF5"),
        says="EF5 of line RUN.N2O takes factor SOILS.EF4, which is EF4 by its name"),
    Recogniser(
        ways_of_nitrogen, "leached nitrogen by the equation of nitrogen that volatilises, and the other way round",
        example=VOLATILE.format("LEACHED"), right=VOLATILE.format("AIRBORNE"),
        says="line LEACHED.N2O has Q72 (Nitrogen volatilised from soils, to indirect N2O), and by its name"),
)
