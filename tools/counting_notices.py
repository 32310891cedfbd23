"""Warnings of what is counted twice, in the wrong place or not at all: quantities that two lines take, shares
above one, a line beside its parts, and bunkers and biomass in national totals.
"""
import collections
import decimal
import functools
import re

from tools import vocabulary
from tools.book import lines_taken_by
from tools.faults import Fault, warn, years_said
from tools.line_notices import OF_STAGES, what_it_takes
from tools.fuels import fuels_of, is_of_biomass, is_of_bunkers, is_of_fossil_fuel
from tools.recognisers import Recogniser
from tools.results import ZERO, Results, gas_of, plain
from tools.sheets import Row
from tools.vocabulary import MEMOS, listed

# What a line takes, by year.
Amounts = dict[int, decimal.Decimal]
# The equations that compute the same emission in other ways: of two of them over one quantity one is enough.
ALIKE = ({"Q31", "Q32"}, {"Q35", "Q36"}, {"Q38", "Q39"}, {"Q42", "Q44"}, {"Q10", "Q46"})
# The equations that add quantities up or convert them.
ADDING = {"Q13", "Q20", "Q21", "Q22", "Q23", "Q67", "Q83"}
# The parameters that are shares of one whole by equation, and the parameter that tells which whole that is.
SHARES = {"Q57": ("MS", ""), "Q59": ("MS", "N"), "Q60": ("MS", "N"), "Q63": ("MS", "N"), "Q64": ("MS", "N"),
          "Q101": ("T", "U")}
# Ratios of all that a line takes, by which no two lines share it.
NO_SPLIT = {("Q90", "DOCF"), ("Q93", "F"), ("Q94", "OX")}
# The equations whose amounts are one quantity together, the nitrogen of soils.
TOGETHER = ("Q69", "Q73")
# What counts an amount once more where a line takes it twice, and the equations that hand such amounts on.
COUNTED_TWICE, HANDING_ON = ("mass", "energy"), (*sorted(ADDING), "Q68")
PASTURE, OF_PASTURE = "Q64", "FP"
# Manure that is managed and that stays on pasture: the systems of a herd.
SYSTEMS = ("Q59", "Q64")
# What ships and aircraft burn.
OF_VESSELS = {"JET.KEROSENE", "JET.GASOLINE", "AV.GASOLINE", "OTHER.KEROSENE", "GAS.DIESEL.OIL", "RESIDUAL.OIL"}
# Shares are written with two or three digits.
MOST_OF_SHARES = decimal.Decimal("1.005")
# The CO2 factors of Volume 2, Table 1.4 that only biomass has, in kg/TJ.
OF_BIOMASS_ALONE = {decimal.Decimal(factor) for factor in (112000, 70800, 79600)}
# How far the parts of a line may be from the whole.
APART = decimal.Decimal("0.005")
# Of so many years in which the parts are the whole one may be apart.
FEW_APART = 4


def same_quantity_twice(results: Results) -> list[Fault]:
    """Two lines that emit the same gas of one quantity, of which one takes it through another line, or by
    another equation, where no share tells them apart.
    """
    found: list[Fault] = []
    seen: dict[tuple[str, tuple[str, str, str], frozenset[str]], Row] = {}
    for row in results.emitting:
        name = row.field("name")
        if row.field("subject") in MEMOS or not any(results.series(name).values()):
            continue
        for activity, is_direct in sorted(quantities(results, name).items()):
            key = (activity, family(row), told_apart(results, name, is_direct))
            before = seen.setdefault(key, row)
            if before is row:
                continue
            if are_double(results, before, row):
                break
            said = f"line {name} and line {before.field('name')} ({before.place}) both emit {gas_of(row)} of"
            found.append(warn(row, f"{said} activity {activity}; is it counted twice?"))
            break
    return found


def are_double(results: Results, one: Row, other: Row) -> bool:
    """Tells whether two lines take all the same by one equation, which is told of by itself."""
    taken = [what_it_takes(results.book, row.field("name"), row.field("value")) for row in (one, other)]
    return taken[0] is not None and taken[0] == taken[1]


@functools.cache
def quantities(results: Results, line: str) -> dict[str, bool]:
    """The activities that are amounts and that a line takes, by whether it takes them itself, without those
    that are taken off on the way.
    """
    found: dict[str, bool] = {}
    taken_off: set[str] = set()
    for other in results.below(line):
        off = subtracted(results.book.lines[other].field("value")) if other in results.book.lines else ()
        for parameter, bound in results.bindings(other).items():
            names = [bound.field("low")] if bound.field("value") == "activity" else []
            if parameter in off:
                taken_off.update(names, *(activities(results, name) for name in lines_taken_by(bound)))
            elif names and is_amount(results, names[0]):
                found.setdefault(names[0], other == line)
    return {name: is_direct for name, is_direct in found.items() if name not in taken_off}


def activities(results: Results, line: str) -> list[str]:
    """The activities that a line takes, directly or through others."""
    return [bound.field("low") for bound in results.bound_below(line) if bound.field("value") == "activity"]


@functools.cache
def subtracted(code: str) -> list[str]:
    """The parameters that an equation takes off."""
    return re.findall(r"- ([A-Z][A-Z0-9]*)", vocabulary.equations()[code]["expression"])


def is_amount(results: Results, activity: str) -> bool:
    """Tells whether an activity is an amount."""
    measures = results.book.measured_by("activity", activity)
    return measures is not None and bool(vocabulary.is_amount(measures))


def family(row: Row) -> tuple[str, str, str]:
    """The gas of a line with the least equation that computes the same, and its category where the equation
    is of two sources, as enteric fermentation and manure.
    """
    code = row.field("value")
    alike = next((codes for codes in ALIKE if code in codes), None)
    of_two = not alike and " or " in vocabulary.equations()[code]["computes"]
    return gas_of(row) or "", min(alike or {code}), row.field("subject") if of_two else ""


@functools.cache
def told_apart(results: Results, line: str, is_direct: bool) -> frozenset[str]:
    """What tells lines of one quantity apart: the shares and half-lives that a line takes, directly or
    through others, and the equations of these others but for those that add and convert. Of a line whose
    emission other equations compute too its own ratios are factors. What a line takes itself is not told apart by
    what comes with its other amounts.
    """
    code = results.book.lines[line].field("value")
    skipped = amounts_taken(code) if is_direct else []
    through = [bound for parameter, bound in results.bindings(line).items() if parameter not in skipped]
    others = list(dict.fromkeys(other for bound in through for taken in lines_taken_by(bound)
                                for other in results.below(taken) if other != line))
    has_shares = others if any(code in alike for alike in ALIKE) else [line, *others]
    shares = {bound.field("low") for other in has_shares for bound in results.bindings(other).values()
              if is_share(results, bound)}
    if code in OF_STAGES:
        shares.update(bound.field("low") for bound in results.bindings(line).values()
                      if bound.field("value") == "factor")
    below = [results.book.lines.get(other) for other in others]
    return frozenset(shares.union(row.field("value") for row in below if row) - ADDING)


def is_share(results: Results, bound: Row) -> bool:
    """Tells whether a binding is of a ratio of less than one, or of a half-life."""
    if bound.field("value") == "decay":
        return True
    line = results.book.lines.get(bound.field("subject"))
    parameters = vocabulary.parameters_of(line.field("value")) if line else {}
    parameter = parameters.get(bound.field("name"))
    is_record = bound.field("value") in ("activity", "factor")
    if not line or not parameter or parameter["measures"] != "ratio" or not is_record:
        return False
    if (line.field("value"), bound.field("name")) in NO_SPLIT:
        return False
    return results.taken(bound, results.years[0]) != 1


def shares_above_one(results: Results) -> list[Fault]:
    """Shares of one whole whose sum is above one: those of a sum of lines, and the systems of a herd."""
    wholes: dict[tuple[str, str], list[Row]] = {}
    for row in results.lines:
        name = row.field("name")
        for parameter, bound in results.bindings(name).items():
            if bound.field("value") == "sum":
                for other in lines_taken_by(bound):
                    add_shares(results, other, f"{parameter} of line {name}", wholes)
        if row.field("value") in SYSTEMS and "N" in results.bindings(name):
            herd = results.bindings(name)["N"].field("low")
            wholes.setdefault(("herd", herd), []).append(results.bindings(name)["MS"])
    found, told = [], set()
    for (what, of), bindings in wholes.items():
        over = years_above_one(results, bindings)
        names = tuple(sorted({bound.field("low") for bound in bindings}))
        if over and names not in told:
            told.add(names)
            year, size = next(iter(over.items()))
            whole = f"under {what}" if what != "herd" else f"of {of}"
            said = f"the shares {listed(names, 'and')} {whole} are {plain(size)} together in"
            row = latest(results, bindings, year)
            found.append(warn(row, f"{said} {years_said(over)}; they are parts of one"))
    return found


def latest(results: Results, bindings: list[Row], year: int) -> Row:
    """The record that begins last of those that bindings take in a year, and of these the last one."""
    records = [record for bound in bindings if (record := results.record(bound, year))]
    return max(reversed(records), key=lambda record: str(record.field("year")))


def add_shares(results: Results, line: str, of: str, wholes: dict[tuple[str, str], list[Row]]) -> None:
    """Adds the share of a line to those of its whole under a sum."""
    row = results.book.lines.get(line)
    parameter, whole = SHARES.get(row.field("value"), ("", "")) if row else ("", "")
    bindings = results.bindings(line)
    if parameter in bindings:
        which = bindings[whole].field("low") if whole in bindings else ""
        wholes.setdefault((of, which), []).append(bindings[parameter])
        if whole == "U" and whole in bindings:
            wholes.setdefault((of, "U"), []).append(bindings[whole])


def years_above_one(results: Results, bindings: list[Row]) -> dict[int, decimal.Decimal]:
    """The years in which the shares that bindings take are above one together, each record once."""
    found = {}
    each = {bound.field("low"): bound for bound in bindings
            if bound.field("value") in ("activity", "factor")}
    for year in results.years:
        shares = [results.taken(bound, year) for bound in each.values()]
        size = sum((share for share in shares if share), ZERO)
        if len(each) > 1 and size > MOST_OF_SHARES:
            found[year] = size
    return found


class Group:
    """Lines that may be the parts of another one, with what each of them takes."""

    def __init__(self) -> None:
        self.lines: dict[int, Row] = {}
        self.of_lines: list[Amounts] = []

    def add(self, line: Row, amounts: Amounts) -> None:
        """Adds a line."""
        self.lines[id(line)] = line
        self.of_lines.append(amounts)

    @functools.cache
    def together(self, year: int) -> decimal.Decimal | None:
        """What the lines take together in a year, or None where one of them takes nothing."""
        amounts = [amounts.get(year) or ZERO for amounts in self.of_lines]
        return sum(amounts, ZERO) if all(amounts) else None


def whole_beside_parts(results: Results) -> list[Fault]:
    """Lines that stand beside the lines which split them: the quantities of these are its own together."""
    found = []
    lines = [row for row in results.emitting if row.field("subject") not in MEMOS]
    amounts = {row.field("name"): amounts_of(results, row) for row in lines}
    groups, names_of_files = groups_of_lines(lines, amounts), list({row.sheet.name: None for row in lines})
    for row in lines:
        own = amounts[row.field("name")]
        for group in groups_of_parts(row, groups, names_of_files):
            years = years_of_whole(row, own, group)
            if years:
                parts = [part for part in group.lines.values() if part is not row]
                names = listed([part.field("name") for part in parts], "and")
                said = f"line {row.field('name')} takes as much as {names} ({parts[0].place}) together in"
                found.append(warn(row, f"{said} {years_said(years)}; {way_out(results, row, years)}"))
                break
    return found


def way_out(results: Results, row: Row, years: list[int]) -> str:
    """What to do with a line that its parts split: without another line of its activities, IE in these may do
    as well.
    """
    name, taken = row.field("name"), results.book.taken()
    others = {bound.field("subject") for activity in activities(results, name)
              for bound in taken.get(("activity", activity), []) if bound.field("subject") != name}
    above = [other for other in results.book.lines if other != name and name in results.below(other)]
    if above:
        return f"take {listed(above, 'and')} of the parts, and withdraw it"
    if others:
        takes = "takes" if len(others) == 1 else "take"
        return f"withdraw it alone: {listed(sorted(others)[:3], 'and')} {takes} its activity too"
    if len(years) < len(results.series(name)):
        return "withdraw it"
    return "withdraw it, or enter its activity as IE in these years"


def groups_of_lines(lines: list[Row], amounts: dict[str, Amounts]) -> dict[tuple[str, ...], Group]:
    """The lines of one equation by their category, by the first part of their names and by their file, the
    last two near each other in the tree; and by each beginning of their names.
    """
    groups: dict[tuple[str, ...], Group] = collections.defaultdict(Group)
    for row in lines:
        code, category, name = row.field("value"), row.field("subject"), row.field("name")
        parts = vocabulary.parts_of(name)
        keys = [(code, "in", category), (code, "first", category[:3], parts[0]),
                (code, "file", category[:3], row.sheet.name)]
        lengths = [len(".".join(parts[:at])) for at in range(1, len(parts))]
        for key in keys + [(code, "name", name[:length]) for length in lengths]:
            groups[key].add(row, amounts[name])
    return groups


def groups_of_parts(row: Row, groups: dict[tuple[str, ...], Group], files: list[str]) -> list[Group]:
    """The groups of lines that may be the parts of another one, which may be in them too."""
    name, code, category = row.field("name"), row.field("value"), row.field("subject")
    first = vocabulary.parts_of(name)[0]
    keys = [(code, "name", name), (code, "in", category), (code, "first", category[:3], first)]
    keys += [(code, "file", category[:3], file) for file in files if file != row.sheet.name]
    return [groups[key] for key in keys if key in groups]


def years_of_whole(row: Row, own: Amounts, group: Group) -> list[int]:
    """The years in which the quantities of the other lines of a group are that of a line together, where all
    are above zero: these have to be all such years but for few, of which a record was corrected, and the
    quantity none that stays the same.
    """
    is_in = id(row) in group.lines
    if len(group.lines) - is_in < 2:
        return []
    years, others_apart = [], 0
    for year, amount in own.items():
        together = group.together(year) if amount else None
        if together is None:
            continue
        others = together - amount if is_in else together
        if abs(others - amount) <= APART * abs(amount):
            years.append(year)
            continue
        others_apart += 1
        if others_apart * FEW_APART > len(own):
            return []
    if others_apart * FEW_APART > len(years):
        return []
    is_one_year = len(years) == len(own) == 1
    return years if is_one_year or len({own[year] for year in years}) > 1 else []


def amounts_of(results: Results, row: Row) -> Amounts:
    """The first amount that a line takes, or all of them where they are one quantity, by year."""
    bindings, code = results.bindings(row.field("name")), row.field("value")
    bound = [bindings[name] for name in amounts_taken(code)
             if name in bindings and bindings[name].field("value") != "key"]
    taken = [results.taken_by_year(each) for each in (bound if code in TOGETHER else bound[:1])]
    if len(taken) == 1:
        return {year: taken[0].get(year) or ZERO for year in results.years}
    found = {year: sum((each.get(year) or ZERO for each in taken), ZERO) for year in results.years}
    return found if taken else {}


@functools.cache
def amounts_taken(code: str) -> list[str]:
    """The parameters of an equation that are amounts."""
    return [parameter["name"] for parameter in vocabulary.equations()[code]["parameters"]
            if not vocabulary.is_decay(parameter) and vocabulary.is_amount(parameter["measures"])]


def bunkers_in_totals(results: Results) -> list[Fault]:
    """Fuel of international bunkers at a national category, by the name of a line or of what it takes, or
    since a line at MB takes the same.
    """
    found = []
    at_bunkers: dict[tuple[str | None, str], Row] = {}
    for row in results.emitting:
        if row.field("subject") == "MB":
            at_bunkers.update({(gas_of(row), activity): row
                               for activity in quantities(results, row.field("name"))})
    for row in results.emitting:
        name, code = row.field("name"), row.field("subject")
        if not code.startswith("1A"):
            continue
        taken = quantities(results, name)
        keys = [(gas_of(row), activity) for activity in taken]
        there = [at_bunkers[key] for key in keys if key in at_bunkers]
        there = [other for other in there if not is_mostly_national(results, other)]
        of_bunkers = "fuel of international bunkers stands at MB, outside the totals"
        if there:
            said = f"line {name} at {code} takes the fuel of line {there[0].field('name')} at MB"
            found.append(warn(row, f"{said} ({there[0].place}); {of_bunkers}"))
        elif is_of_bunkers([name, *taken]):
            found.append(warn(row, f"line {name} at {code} is of bunkers by its names; {of_bunkers}"))
    return found


def national_at_bunkers(results: Results) -> list[Fault]:
    """Lines at MB of a fuel that no ship or aircraft burns, of which most lines stand at national categories."""
    found = []
    for row in results.emitting:
        if row.field("subject") == "MB" and is_mostly_national(results, row):
            activity = next(iter(quantities(results, row.field("name"))))
            other = next(line for line in takers_of(results, activity) if line.field("subject") != "MB")
            said = f"line {row.field('name')} at MB takes activity {activity}, and line {other.field('name')}"
            said += f" ({other.place}) takes it at {other.field('subject')}"
            found.append(warn(row, f"{said}; MB is outside the totals: is its category {other.field('subject')}?"))
    return found


def is_mostly_national(results: Results, row: Row) -> bool:
    """Tells whether a line at MB is of a fuel that no ship or aircraft burns, and of the lines that take it fewer
    stand at MB than elsewhere.
    """
    activity = next(iter(quantities(results, row.field("name"))), "")
    fuels = fuels_of([activity]) or fuels_of([row.field("name")])
    if not fuels or OF_VESSELS & set(fuels) or is_of_bunkers([row.field("name"), activity]):
        return False
    at = [line.field("subject") == "MB" for line in takers_of(results, activity)]
    return at.count(True) < at.count(False)


@functools.cache
def takers_of(results: Results, activity: str) -> list[Row]:
    """The lines that emit a gas of an activity, but for those of the reference approach and of biomass."""
    return [line for line in results.emitting if line.field("subject") not in ("RA", "MC")
            and activity in quantities(results, line.field("name"))]


def biomass_in_totals(results: Results) -> list[Fault]:
    """CO2 of biomass that is burnt for energy, at a national category."""
    found = []
    for row in results.emitting:
        name, code = row.field("name"), row.field("subject")
        if code.startswith("1A") and row.field("value") == "Q10":
            bound, names = results.bindings(name).get("EF"), names_of(results, name)
            why = "by its names" if is_of_biomass(names) else ""
            if bound and not why and not is_of_fossil_fuel(names):
                taken = results.taken(bound, results.years[-1])
                why = f"by its factor, {plain(taken)} kg/TJ" if taken in OF_BIOMASS_ALONE else ""
            if why:
                said = f"line {name} at {code} is CO2 of biomass, {why}"
                found.append(warn(row, f"{said}; that stands at MC, outside the totals"))
    return found


def others_at_biomass(results: Results) -> list[Fault]:
    """Lines at MC that are of another gas than CO2, or of a fossil fuel by their names."""
    found = []
    for row in results.emitting:
        name, gas = row.field("name"), gas_of(row)
        if row.field("subject") != "MC":
            continue
        why = f"gives {gas}" if gas != "CO2" else "is of a fossil fuel by its names"
        if gas != "CO2" or is_of_fossil_fuel(names_of(results, name)):
            said = f"line {name} at MC {why}, and MC is of CO2 of biomass alone, outside the totals"
            found.append(warn(row, f"{said}; enter it at the category in which the fuel is burnt"))
    return found


def names_of(results: Results, line: str) -> list[str]:
    """The names of a line, and of the activities and factors that it takes."""
    bindings = results.bindings(line).values()
    factors = [bound.field("low") for bound in bindings if bound.field("value") == "factor"]
    return [line, *quantities(results, line), *factors]


def line_in_a_sum_twice(results: Results) -> list[Fault]:
    """Sums of lines of which one takes another one already."""
    found = []
    for row in results.lines:
        for parameter, bound in results.bindings(row.field("name")).items():
            taken = lines_taken_by(bound) if bound.field("value") == "sum" else []
            for other in taken:
                within = [name for name in added(results, other) if name in taken]
                if within:
                    said = f"{parameter} of line {row.field('name')} takes {within[0]} twice: by itself, and"
                    found.append(warn(bound, f"{said} in line {other}, which takes it"))
    return found


def added(results: Results, line: str) -> list[str]:
    """The lines that a line adds up, directly or through others."""
    found = []
    for other in results.below(line):
        row = results.book.lines.get(other)
        if row and row.field("value") in ADDING:
            off = subtracted(row.field("value"))
            found += [name for parameter, bound in results.bindings(other).items() if parameter not in off
                      and bound.field("value") != "prev" for name in lines_taken_by(bound)]
    return found


def amount_in_a_line_twice(results: Results) -> list[Fault]:
    """Lines of which two parameters take one amount, by itself or within what other lines add up."""
    found = []
    for row in results.emitting:
        name, seen = row.field("name"), dict[tuple[str, str], str]()
        for parameter, bound in results.bindings(name).items():
            if parameter not in amounts_taken(row.field("value")) or bound.field("value") == "prev":
                continue
            own = handed_on(results, bound)
            twice = next((key for key in own if key in seen), None)
            if twice:
                what, taken = twice
                said = f"line {name} takes {what} {taken} twice, at {seen[twice]} and at {parameter}"
                found.append(warn(bound, f"{said}; is it counted twice?"))
                break
            seen.update(dict.fromkeys(own, parameter))
    return found


def handed_on(results: Results, bound: Row) -> list[tuple[str, str]]:
    """The activities and lines whose amounts a binding takes, directly or through lines that hand them on."""
    form = bound.field("value")
    found, waiting = [], [(form, bound.field("low"))] if form == "activity" else []
    waiting += [("line", name) for name in (lines_taken_by(bound) if form in ("line", "sum") else [])]
    while waiting:
        key = waiting.pop()
        found.append(key)
        row = results.book.lines.get(key[1]) if key[0] == "line" else None
        if row and row.field("value") in HANDING_ON:
            off = subtracted(row.field("value"))
            for parameter, other in results.bindings(key[1]).items():
                if parameter not in off and measured(row, parameter) in COUNTED_TWICE:
                    forms = other.field("value")
                    waiting += [("activity", other.field("low"))] if forms == "activity" else []
                    waiting += [("line", name) for name in lines_taken_by(other)] if forms in ("line", "sum") else []
    return found


def measured(line: Row, parameter: str) -> str:
    """What a parameter of a line measures."""
    return str(vocabulary.parameters_of(line.field("value"))[parameter]["measures"])


def pasture_as_applied(results: Results) -> list[Fault]:
    """Nitrogen that animals leave on pasture as manure that is applied, or as any other input to soils."""
    found = []
    for row in results.lines:
        for parameter, bound in results.bindings(row.field("name")).items():
            taken = [name for name in lines_taken_by(bound) if bound.field("value") in ("line", "sum")]
            lines = [results.book.lines.get(name) for name in taken]
            there = [line.field("name") for line in lines if line and line.field("value") == PASTURE]
            if there and parameter != OF_PASTURE and row.field("value") != "Q83":
                said = f"{parameter} of line {row.field('name')} takes line {there[0]}, nitrogen that animals leave on"
                found.append(warn(bound, f"{said} pasture ({PASTURE}); {OF_PASTURE} of Q71, Q72 and Q73 takes that,"
                                         " and it is counted twice in both"))
    return found


def carbon_in_two_lines(results: Results) -> list[Fault]:
    """Changes of carbon that two lines turn into CO2, with the same sign."""
    found: list[Fault] = []
    seen: dict[tuple[str, int], Row] = {}
    for row in results.emitting:
        if row.field("value") != "Q84":
            continue
        twice = [key for key in signed(results, row.field("name"), 1) if key in seen]
        for key in signed(results, row.field("name"), 1):
            seen.setdefault(key, row)
        if twice:
            before = seen[twice[-1]]
            said = f"line {row.field('name')} and line {before.field('name')} ({before.place}) both count the"
            found.append(warn(row, f"{said} carbon of line {twice[-1][0]}; is it counted twice?"))
    return found


def signed(results: Results, line: str, sign: int) -> list[tuple[str, int]]:
    """The lines that a line adds up or takes off, directly or through others, each with its sign."""
    found = []
    row = results.book.lines.get(line)
    if row and row.field("value") in (*ADDING, "Q84"):
        off = subtracted(row.field("value"))
        for parameter, bound in results.bindings(line).items():
            of_bound = -sign if parameter in off else sign
            if bound.field("value") in ("line", "sum"):
                for other in lines_taken_by(bound):
                    found += [(other, of_bound), *signed(results, other, of_bound)]
    return found


# Pigs whose manure is in a pit and in heaps.
PIGS = """\
enter,line,3A2,PIT.N2O,,Q59,,,,
enter,bind,PIT.N2O,N,,activity,PIGS,,,
enter,bind,PIT.N2O,NEX,,factor,PIGS.NEX,,,
enter,bind,PIT.N2O,MS,,factor,PIT,,,
enter,bind,PIT.N2O,EF3,,factor,PIT.EF3,,,
enter,line,3A2,HEAP.N2O,,Q59,,,,
enter,bind,HEAP.N2O,N,,activity,PIGS,,,
enter,bind,HEAP.N2O,NEX,,factor,PIGS.NEX,,,
enter,bind,HEAP.N2O,MS,,factor,HEAP,,,
enter,bind,HEAP.N2O,EF3,,factor,HEAP.EF3,,,
enter,factor,,PIGS.NEX,2019,9.3,,,kg/head,
enter,factor,,PIT.EF3,2019,0.002,,,kg/kg,
enter,factor,,HEAP.EF3,2019,0.005,,,kg/kg,
enter,factor,,PIT,2019,80,,,pct,
enter,factor,,HEAP,2019,{},,,pct,
enter,activity,,PIGS,2019,500000,,,head,
enter,activity,,PIGS,2020,510000,,,head,
enter,activity,,PIGS,2021,520000,,,head,
"""
# A line that burns another fuel, by the fuel's name, or by one that says nothing.
BURNT = """\
enter,line,{0},{1}.CO2,,Q10,,,,
enter,bind,{1}.CO2,FC,,activity,{1},,,
enter,bind,{1}.CO2,EF,,factor,{1}.EF,,,
enter,factor,,{1}.EF,2019,{2},,,kg/TJ,
enter,activity,,{1},2019,1000,,,TJ,
enter,activity,,{1},2020,1010,,,TJ,
enter,activity,,{1},2021,1020,,,TJ,
"""
# Two plants that burn as much coal as COAL.CO2 together, or another amount.
PLANTS = """\
enter,line,1A1a,COAL.CO2.A,,Q10,,,,
enter,bind,COAL.CO2.A,FC,,activity,PLANT.A,,,
enter,bind,COAL.CO2.A,EF,,factor,COAL.EF,,,
enter,line,1A1a,COAL.CO2.B,,Q10,,,,
enter,bind,COAL.CO2.B,FC,,activity,PLANT.B,,,
enter,bind,COAL.CO2.B,EF,,factor,COAL.EF,,,
enter,activity,,PLANT.A,2019,10000,,,TJ,
enter,activity,,PLANT.A,2020,10000,,,TJ,
enter,activity,,PLANT.A,2021,10000,,,TJ,
enter,activity,,PLANT.B,2019,{},,,TJ,
enter,activity,,PLANT.B,2020,{},,,TJ,
enter,activity,,PLANT.B,2021,{},,,TJ,
"""
FOREST = """\
enter,line,3B1,GROWTH,,Q78,,,,
enter,bind,GROWTH,A,,activity,FOREST,,,
enter,bind,GROWTH,GW,,factor,GROWTH,,,
enter,bind,GROWTH,R,,factor,ROOTS,,,
enter,bind,GROWTH,CF,,factor,CARBON,,,
enter,line,3B1,LOGS,,Q80,,,,
enter,bind,LOGS,H,,activity,LOGS,,,
enter,bind,LOGS,BCEF,,factor,BCEF,,,
enter,bind,LOGS,R,,factor,ROOTS,,,
enter,bind,LOGS,CF,,factor,CARBON,,,
enter,line,3B1,NET,,Q83,,,,
enter,bind,NET,G,,line,GROWTH,,,
enter,bind,NET,L,,line,LOGS,,,
enter,line,3B1,FOREST.CO2,,Q84,,,,
enter,bind,FOREST.CO2,C,,{},,,
enter,factor,,GROWTH,2019,4,,,t/ha,
enter,factor,,ROOTS,2019,0.29,,,1,
enter,factor,,CARBON,2019,0.47,,,t/t,
enter,factor,,BCEF,2019,0.77,,,t/m3,
enter,activity,,FOREST,2019,900,,,kha,
enter,activity,,FOREST,2020,901,,,kha,
enter,activity,,FOREST,2021,902,,,kha,
enter,activity,,LOGS,2019,2.1,,,Mm3,
enter,activity,,LOGS,2020,2.2,,,Mm3,
enter,activity,,LOGS,2021,2.15,,,Mm3,
"""
SECOND = "enter,line,3B6,MORE.CO2,,Q84,,,,\nenter,bind,MORE.CO2,C,,line,GROWTH,,,"
# Cows whose dung stays on pasture.
GRAZING = """\
enter,line,3C4,DUNG,,Q64,,,,
enter,bind,DUNG,N,,activity,COWS,,,
enter,bind,DUNG,NEX,,factor,COWS.NEX,,,
enter,bind,DUNG,MS,,factor,GRAZING,,,
enter,factor,,COWS.NEX,2019,102,,,kg/head,
enter,factor,,GRAZING,2019,38,,,pct,
enter,bind,SOILS.N2O,{0},,{1},,,
enter,line,3C4,GRAZING.N2O,,Q71,,,,
enter,bind,GRAZING.N2O,FP,,{2},,,
enter,bind,GRAZING.N2O,EF3,,factor,GRAZING.EF3,,,
enter,factor,,GRAZING.EF3,2019,0.02,,,kg/kg,
"""
# CH4 and N2O of the gas that BURNT has.
COOKING = """\
enter,line,1A4b,COOKING.CH4,,Q11,,,,
enter,bind,COOKING.CH4,FC,,activity,GAS,,,
enter,bind,COOKING.CH4,EF,,factor,COOKING.CH4,,,
enter,line,1A4b,COOKING.N2O,,Q12,,,,
enter,bind,COOKING.N2O,FC,,activity,GAS,,,
enter,bind,COOKING.N2O,EF,,factor,COOKING.N2O,,,
enter,factor,,COOKING.CH4,2019,5,,,kg/TJ,
enter,factor,,COOKING.N2O,2019,0.1,,,kg/TJ,
"""
COAL_ONCE_MORE = """\
enter,line,{0},MILLS.CO2,,Q10,,,,
enter,bind,MILLS.CO2,FC,,line,COAL.TJ,,,
enter,bind,MILLS.CO2,EF,,factor,COAL.EF,,,
"""

RECOGNISERS: tuple[Recogniser, ...] = (
    Recogniser(
        same_quantity_twice, "two lines that emit the gas of one quantity, through other lines or by another"
        " equation of it",
        example=COAL_ONCE_MORE.format("1A2"), right=PIGS.format(20),
        says="line MILLS.CO2 and line COAL.CO2 (1.csv:9) both emit CO2 of activity COAL; is it"),
    Recogniser(
        shares_above_one, "shares of one whole that are more than one together",
        example=PIGS.format(30), right=PIGS.format(20),
        says="the shares HEAP and PIT of PIGS are 1.1 together in 2019 to 2021; they are parts of one"),
    Recogniser(
        whole_beside_parts, "a line beside the lines that split it",
        example=PLANTS.format(15800, 17090, 16316), right=PLANTS.format(3000, 3100, 3050),
        says="line COAL.CO2 takes as much as COAL.CO2.A and COAL.CO2.B (1.csv:37) together in 2019 to 2021"),
    Recogniser(
        bunkers_in_totals, "fuel of international bunkers in a national category",
        example=BURNT.format("1A3a", "BUNKERS", 71500), right=BURNT.format("MB", "BUNKERS", 71500),
        says="line BUNKERS.CO2 at 1A3a is of bunkers by its names"),
    Recogniser(
        national_at_bunkers, "a national fuel at MB",
        example=BURNT.format("MB", "GAS", 56100) + COOKING, right=BURNT.format("1A4b", "GAS", 56100) + COOKING,
        says="line GAS.CO2 at MB takes activity GAS, and line COOKING.CH4"),
    Recogniser(
        biomass_in_totals, "CO2 of biomass in a national category",
        example=BURNT.format("1A4b", "WOOD", 112000), right=BURNT.format("MC", "WOOD", 112000),
        says="line WOOD.CO2 at 1A4b is CO2 of biomass, by its names; that stands at MC, outside the totals"),
    Recogniser(
        others_at_biomass, "fossil fuels, CH4 and N2O at MC",
        example=BURNT.format("MC", "PEAT", 106000), right=BURNT.format("1A4b", "PEAT", 106000),
        says="line PEAT.CO2 at MC is of a fossil fuel by its names"),
    Recogniser(
        line_in_a_sum_twice, "a line that a sum takes by itself and within another line",
        example=FOREST.format("sum,NET GROWTH"), right=FOREST.format("line,NET"),
        says="C of line FOREST.CO2 takes GROWTH twice: by itself, and in line NET, which takes it"),
    Recogniser(
        carbon_in_two_lines, "carbon that two lines turn into CO2",
        example=FOREST.format("line,NET") + SECOND, right=FOREST.format("line,NET"),
        says="line MORE.CO2 and line FOREST.CO2 (1.csv:50) both count the carbon of line GROWTH"),
    Recogniser(
        amount_in_a_line_twice, "an amount that two parameters of a line take, by itself or within a sum",
        example="enter,bind,SOILS.N2O,FON,,activity,FERTILISER.N,,,\n-enter,activity,,MANURE.N",
        right="enter,bind,SOILS.N2O,FON,,key,NO,,,\n-enter,activity,,MANURE.N",
        says="line SOILS.N2O takes activity FERTILISER.N twice, at FSN and at FON"),
    Recogniser(
        pasture_as_applied, "nitrogen that animals leave on pasture as manure that is applied",
        example=GRAZING.format("FON", "line,DUNG", "key,NO"),
        right=GRAZING.format("FON", "activity,MANURE.N", "line,DUNG"),
        says="FON of line SOILS.N2O takes line DUNG, nitrogen that animals leave on pasture (Q64)"),
)
