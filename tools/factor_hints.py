"""What a factor that is not usual is most likely: the default of another fuel or animal, one with digits in
another order, the rest of a share, or a figure in another unit. Each is said only where the figure is usual
then, and asks for the source first.
"""
import collections.abc
import decimal
import typing

from tools import unit_bases
from tools.fuels import rows_of
from tools.sheets import Row
from tools.usual import ANIMALS, CO2_OF_FUELS, Usual, default_of_animals, default_of_fuel, usual_values
from tools.results import plain

Number = decimal.Decimal
Ratio = tuple[Number, str, str]
# What a factor is off by, and what that speaks of.
RATIOS: tuple[Ratio, ...] = (
    (Number(44) / 12, "44/12, CO2 for C", "is it of carbon"),
    (Number(12) / 44, "12/44, C for CO2", "is it of CO2"),
    (Number(44000) / 12, "44000/12, kg CO2 for t C", "is it t of carbon"),
    (Number(44) / 28, "44/28, N2O for N2O-N", "is it of nitrogen"),
    (Number(28) / 44, "28/44, N2O-N for N2O", "is it of N2O"),
    (Number("4.1868"), "4.1868, GJ in a Gcal", "is it in Gcal or Mcal"),
    (1 / Number("4.1868"), "1/4.1868, Gcal in a GJ", "is it for a Gcal"),
    (Number(1000) / Number("41.868"), "1000/41.868, GJ for a toe", "is it for a toe"),
    (Number("0.365"), "0.365, kg a year for g a day", "is it of a day in g"),
    (1 / Number("0.365"), "1/0.365, g a day for kg a year", "is it of a year in kg"),
    (Number(365), "365, days of a year", "is it of a day"),
    (1 / Number(365), "1/365, a day of a year", "is it of a year"),
    (Number(100), "100, percent for a share", "is it a share under the unit pct"),
    (1 / Number(100), "1/100, a share for percent", "is it in percent"),
    (Number(1000) / Number("3.6"), "1000/3.6, MWh in a TJ", "is it for a MWh, as in kg/MWh or g/kWh"),
    (Number("3.6"), "3.6, GJ in a MWh", "is it for a MWh or a GWh"),
    (1 / Number("3.6"), "1/3.6, MWh in a GJ", "is it of a MWh or a GWh"),
    (1 / Number("41.868"), "1/41.868, toe in a GJ", "is it for a toe or a ktoe"),
    (Number("41.868"), "41.868, GJ in a toe", "is it of a toe or a ktoe"),
    (Number(10) / 9, "10/9, net for gross calorific value of gases", "is it for gross calorific value"),
    (Number(10), "10", "is the point one place off"),
    (1 / Number(10), "1/10", "is the point one place off"),
    (Number(1000), "1000", "is its unit a thousand times off"),
    (1 / Number(1000), "1/1000", "is its unit a thousand times off"),
    (Number(1000000), "1000000", "is its unit a million times off"),
    (1 / Number(1000000), "1/1000000", "is its unit a million times off"),
)
OF_CAO: Ratio = (Number(44) / 56, "44/56, CO2 for CaO", "is it the content of CaO")
TAKE_CAO = (("Q31", "EF"), ("Q32", "EF"), ("Q33", "EF"))
KCAL: Ratio = (Number("0.0041868"), "0.0041868, GJ/t in a kcal/kg", "is it in kcal/kg")
PER_M2: Ratio = (Number(10), "10, t/ha in a kg/m2", "is it in kg/m2")
# What a parameter takes where a ratio of molecules may be met.
LEADS_TO = {"44/12, CO2 for C": "CO2", "44000/12, kg CO2 for t C": "CO2", "12/44, C for CO2": "C",
            "44/28, N2O for N2O-N": "N2O", "28/44, N2O-N for N2O": "N2O-N"}
# Ratios that are met seldom: with them a figure has to be within what is usual.
RARE = ("365", "0.365", "4.1868")
# What is measured where a ratio may be met that is no matter of every factor.
OF_TIME = ("mass per person and day", "mass per person and year", "mass per head and day",
           "mass per head or per head and year", "mass per area and day", "mass per area",
           "excretion per live mass and day", "energy per head and day")
OF_ENERGY = ("net calorific value", "carbon content of fuel", "emission factor of fuel")
MET_IN = {"365": OF_TIME, "0.365": OF_TIME, "4.1868": OF_ENERGY, "41.868": OF_ENERGY, "3.6": OF_ENERGY,
          "100": ("ratio",)}
# How near to what is usual a ratio leads.
WITHIN, BY_VOLUME = Number("1.005"), Number("1.06")
VOLUMES = ("litre of fuel", "m3 of fuel", "m3")
WIDE, NARROW = 20, 8
GASES_ALONE = "10/9, net for gross calorific value of gases"
POINT = "is the point one place off"
DEFAULT_APART = Number("0.006")
# So near to a default a ratio is the one that is met.
WELL_MET = Number("0.03")
# Tonnes in a m3 of a fuel.
DENSITY = {"MOTOR.GASOLINE": "0.74", "AV.GASOLINE": "0.74", "GAS.DIESEL.OIL": "0.84", "JET.KEROSENE": "0.8",
           "OTHER.KEROSENE": "0.8", "LPG": "0.54", "RESIDUAL.OIL": "0.96", "NATURAL.GAS": "0.00075"}
FUELS_SHOWN = 3
# The parameters in whose place the rest of the share may stand, and what the share is.
OFF_ONE = {
    **dict.fromkeys((("Q34", "CR"), ("Q39", "DF"), ("Q63", "FL"), ("Q68", "FF"), ("Q68", "FU"), ("Q68", "FC"),
                     ("Q72", "FG"), ("Q72", "FM"), ("Q73", "FL"), ("Q94", "OX")), "taken off"),
    ("Q39", "ASUF"): "abated",
}
# A half-life in years of a rate in percent, and what the parameter measures that takes it.
HUNDRED_LN_2, DECAY = Number("69.3147"), "yearly decay factor"
# The mass of an animal is of no time.
TIMELESS = ("Q62", "TAM")
MANURE, ENTERIC = "3A2", "3A1"
# Parameters with a default each, of which one may stand in the place of the other.
SIBLINGS = {("Q72", "EF4"): ("Q73", "EF5"), ("Q73", "EF5"): ("Q72", "EF4")}
# A default has so many digits that its digits alone tell of it.
DIGITS = 3


class Odd(typing.NamedTuple):
    """A figure of a parameter of a line that is not usual, with what it measures, the gas of the line, and what
    is usual.
    """
    figure: Number
    known: Usual
    line: Row
    parameter: str
    measures: str
    gas: str | None

    @property
    def taker(self) -> tuple[str, str]:
        """The equation and the parameter."""
        return self.line.field("value"), self.parameter


def of_co2(odd: Odd) -> str | None:
    """A factor of CO2 in the place of one of CH4 or N2O."""
    is_other = odd.gas in ("CH4", "N2O") and odd.measures == "emission factor of fuel"
    return "is it of CO2?" if is_other and CO2_OF_FUELS.least <= odd.figure <= CO2_OF_FUELS.greatest else None


def of_another_fuel(odd: Odd) -> str | None:
    """The default of another fuel."""
    other = default_of_fuel(odd.figure, odd.measures, odd.gas, odd.known)
    return f"{plain(odd.figure)} is that of {other}: is another factor meant?" if other else None


def of_other_animals(odd: Odd) -> str | None:
    """A factor of other animals, or of enteric fermentation in the place of manure, or the other way round."""
    category = odd.line.field("subject")
    if odd.line.field("value") != "Q55" or category not in (MANURE, ENTERIC):
        return None
    if category == MANURE:
        own = default_of_animals(odd.figure, odd.known.named)
        return f"{plain(odd.figure)} is that of enteric fermentation of {own}: is that meant?" if own else None
    other = default_of_animals(odd.figure, tuple(animal for animal in ANIMALS if animal not in odd.known.named))
    rows = [row for row in usual_values().get(("Q55", "EF"), ()) if set(row["words"].split()) == set(odd.known.named)]
    is_manure = any(Number(row["least"]) <= odd.figure <= Number(row["greatest"]) for row in rows)
    if is_manure and not odd.known.has(odd.figure, Number(1)):
        return f"is it of manure, which is {MANURE}{', or of ' + other if other else ''}?"
    return f"{plain(odd.figure)} is that of {other}: is another factor meant?" if other else None


def is_abated(odd: Odd) -> str | None:
    """A factor after abatement, which the equation takes off too."""
    if odd.taker != ("Q39", "EF") or odd.figure >= odd.known.range.least:
        return None
    return "is it after abatement? Q39 takes that off once more, by DF and ASUF; Q38 takes such a factor"


def of_a_sibling(odd: Odd) -> str | None:
    """The default of another parameter that is taken beside this one."""
    sibling = SIBLINGS.get(odd.taker)
    rows = usual_values().get(sibling, ()) if sibling else ()
    defaults = {Number(text) for row in rows for text in row["defaults"].split()}
    if not sibling or odd.figure not in defaults or odd.figure in odd.known.range.defaults:
        return None
    return f"{plain(odd.figure)} is that of {sibling[1]} of {sibling[0]}: is another factor meant?"


def of_a_default_off_by_ten(odd: Odd) -> str | None:
    """The digits of a default with the point in another place."""
    for default in odd.known.range.defaults:
        digits = [figure.normalize().as_tuple().digits for figure in (odd.figure, default)]
        if digits[0] == digits[1] and len(digits[0]) >= DIGITS and odd.figure not in odd.known.range.defaults:
            return f"the digits are those of the default {plain(default)}: is the point in another place?"
    return None


def of_swapped_digits(odd: Odd) -> str | None:
    """A default with two digits in each other's place."""
    for default in odd.known.range.defaults:
        one, other = in_digits(odd.figure, default)
        swapped = (one[:at] + one[at + 1] + one[at] + one[at + 2:] for at in range(len(one) - 1))
        if one != other and len(one) == len(other) and other in swapped:
            return f"two digits of the default {plain(default)} are swapped: is that meant?"
    return None


def in_digits(one: Number, other: Number) -> tuple[str, str]:
    """Two figures as digits to one place, without the zeros and the point in common."""
    place = min(int(figure.normalize().as_tuple().exponent) for figure in (one, other))
    first, second = (str(int(figure.scaleb(-place))) for figure in (one, other))
    return first, second


def rest_of_a_share(odd: Odd) -> str | None:
    """A share in the place of what is left of it."""
    rest = 1 - odd.figure
    if odd.taker not in OFF_ONE or rest <= 0 or not odd.known.has(rest, Number(1)):
        return None
    share = f"{odd.parameter} is the share that is {OFF_ONE[odd.taker]}"
    return f"1 less it is {plain(rest)}, and {share}: is it what is left?"


def off_by_a_ratio(odd: Odd) -> str | None:
    """A figure that is usual after a known ratio."""
    ratios = known_ratios(odd)
    times = [f"times {word}, it is {plain(odd.figure * size)}: {asked}" for size, word, asked in ratios]
    return f"{'; or '.join(times)}?" if times else None


def is_met_in(ratio: Ratio, odd: Odd) -> bool:
    """Tells whether a ratio may be met in a factor, by what that measures and what the parameter takes."""
    if ratio[1] in LEADS_TO:
        return unit_bases.taken_by(*odd.taker) == LEADS_TO[ratio[1]]
    if ratio[1] == GASES_ALONE and "gas" not in odd.known.of:
        return False
    if odd.taker == TIMELESS and size_of(ratio) in RARE:
        return False
    return odd.measures in MET_IN.get(size_of(ratio), (odd.measures,))


def size_of(ratio: Ratio) -> str:
    """The size of a ratio as it is written, without the one that it is under."""
    return ratio[1].split(",")[0].removeprefix("1/").removeprefix("1000/")


def ratios_of(odd: Odd) -> collections.abc.Iterator[Ratio]:
    """The ratios that may be met in a figure."""
    yield from (ratio for ratio in RATIOS if is_met_in(ratio, odd))
    if odd.taker in TAKE_CAO:
        yield OF_CAO
    if odd.measures == "mass per area":
        yield PER_M2
    if odd.measures == "net calorific value":
        yield KCAL
    yield from ratios_of_amounts(odd)


def ratios_of_amounts(odd: Odd) -> collections.abc.Iterator[Ratio]:
    """What leads from a figure for an amount of a fuel, as a tonne or a litre, to one for its energy."""
    heats = rows_of("volume-2-table-1.2")
    for fuel in odd.known.named[:FUELS_SHOWN]:
        heat = heats[f"NCV.{fuel}"].defaults[0] if f"NCV.{fuel}" in heats else None
        density = Number(DENSITY.get(fuel, 0))
        if odd.measures == "net calorific value" and density:
            volume = "m3" if density > Number("0.1") else "1000 m3"
            size = density if density > Number("0.1") else density * 1000
            yield 1 / size, f"1/{plain(size)}, {volume} of it in a tonne", f"is it for a {volume}"
        if heat and odd.measures == "emission factor of fuel" and odd.gas == "CO2":
            yield 1000 / heat, f"1000/{plain(heat)}, GJ in a tonne of it", "is it for a tonne of fuel"
            yield 1000000 / heat, f"1000000/{plain(heat)}, GJ in a tonne of it", "is it in t for a tonne of fuel"
            if density:
                by = "litre" if density > Number("0.1") else "m3"
                size = heat * density if density > Number("0.1") else heat * density * 1000
                of_m3 = heat * density
                yield 1000 / of_m3, f"1000/{plain(of_m3)}, GJ in a m3 of it", "is it for a m3 of fuel"
                yield 1000000 / size, f"1000000/{plain(size)}, MJ in a {by} of it", f"is it in kg for a {by} of fuel"


def margin_of(ratio: Ratio) -> Number:
    """How near to what is usual a ratio has to lead."""
    if size_of(ratio) in RARE:
        return Number(1)
    return BY_VOLUME if ratio[1].endswith((" of it", "in a tonne")) and ratio[2].endswith(VOLUMES) else WITHIN


def known_ratios(odd: Odd) -> list[Ratio]:
    """The known ratio that leads from a figure nearest to a default, with the next one where neither meets it;
    or none, also where almost anything is usual and no default is met.
    """
    known = odd.known
    distances = {known.distance(odd.figure * ratio[0]): ratio for ratio in ratios_of(odd)
                 if known.has(odd.figure * ratio[0], margin_of(ratio))}
    is_narrow = not known.range.defaults and known.range.greatest <= NARROW * known.range.least
    distances = {distance: ratio for distance, ratio in distances.items()
                 if ratio[2] != POINT or is_narrow or known.range.defaults and distance <= DEFAULT_APART}
    nearest = sorted(distances)
    is_met = bool(nearest) and nearest[0] <= DEFAULT_APART
    is_wide = known.range.greatest > WIDE * known.range.least
    if not nearest or is_wide and not is_met:
        return []
    is_alone = nearest[0] <= WELL_MET or len(nearest) < 2 or nearest[1] > 3 * nearest[0]
    return [distances[distance] for distance in nearest[:1 if is_alone else 2]]


def of_a_rate(odd: Odd) -> str | None:
    """A rate of decay in percent in the place of a half-life."""
    life = HUNDRED_LN_2 / odd.figure if odd.measures == DECAY else None
    if life is None or not odd.known.has(life, Number(1)):
        return None
    return f"a rate of {plain(odd.figure)} % a year is a half-life of {plain(round(life, 1))} years: is it the rate?"


def of_all_above(odd: Odd) -> str | None:
    """All of a tree to what is above ground in the place of what is below."""
    rest = odd.figure - 1
    if odd.parameter != "R" or odd.measures != "ratio" or not odd.known.has(rest, Number(1)):
        return None
    return f"less one it is {plain(rest)}, and {odd.line.field('value')} takes 1 + R itself: is it 1 + R?"


def of_one_digit(odd: Odd) -> str | None:
    """A default with another digit in one place."""
    for default in odd.known.range.defaults:
        one, other = in_digits(odd.figure, default)
        if len(one) == len(other) > 2 and sum(a != b for a, b in zip(one, other)) == 1:
            return f"one digit of the default {plain(default)} is another: is that meant?"
    return None


HINTS = (of_co2, of_another_fuel, of_other_animals, of_a_sibling, is_abated, of_swapped_digits, off_by_a_ratio,
         rest_of_a_share, of_a_rate, of_all_above, of_a_default_off_by_ten, of_one_digit)


def hint(odd: Odd) -> str | None:
    """What a figure that is not usual is most likely, or None."""
    return next(filter(None, (each(odd) for each in HINTS)), None)
