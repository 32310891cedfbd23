"""Explains a unit that says what its figure is of, as `TJ (GCV)` or `kg N2O/kg N`: whether the parameters
that take the record are of that, and how to come to what they are of. No such word is dropped silently.
"""
import collections.abc
import fractions
import functools
import re
import typing

from tools import causes, unit_bases, units, vocabulary
from tools.asking import Asking, base_unit
from tools.faults import Explained, at_row
from tools.recognisers import Recogniser
from tools.sheets import Row
from tools.unit_bases import (
    ASH_FREE, DRY, ELECTRICITY, EQUIVALENTS, GROSS, HEAT, LIVESTOCK_UNITS, NET, NORMAL, OF_20_C, OF_GAS, PLACES,
    PRODUCT, RATIOS, SAME, STACKED, STANDARD, UNDER_BARK, Words)

# What a net calorific value is of a gross one (Volume 2, Section 1.4.1.2), and words in the names of fuels.
NET_OF_GROSS = {
    "0.95": "OIL COAL LIGNITE COKE ANTHRACITE DIESEL GASOLINE PETROL KEROSENE NAPHTHA", "0.9": "GAS LNG",
}
GASES = ("CO2", "CH4", "N2O", "CF4", "C2F6")
# Gases that no equation gives.
NO_EQUATIONS = ("NOx", "SO2", "NMVOC")
ELEMENTS = ("C", "N", "N2O-N", "CH4-C")
# What is measured of energy in a denominator: a figure for one of a gross one is divided.
PER_ENERGY = ("emission factor of fuel", "carbon content of fuel")
# What is measured in units that say themselves what they are of.
SAID_BY_UNITS = ("gas", "carbon", "carbon content of fuel")
# A cubic metre at 20 C of one at another temperature.
TO_20_C = {NORMAL: "1.07", STANDARD: "1.02"}
# The organic matter of wastewater and the CH4 that it yields are both of one oxygen demand (Volume 5, Table 6.2).
OF_DEMAND, DEMANDS = {("Q98", "BO"), ("Q100", "TOW"), ("Q100", "S")}, ("BOD", "COD")
YIELDS = "0.6 for one of BOD, 0.25 for one of COD"
DAYS_OF_A_YEAR, OF_CROPS = 365, "mass per area and day"
# The units of gas by the cubic metres of which a kilogram each makes one.
OF_VOLUMES = {"kg-gas": 1, "t-gas": 1000, "Gg-gas": 1000000}
# What timber takes up as logs in a stack and under its bark, to solid volume over bark.
OF_TIMBER = {STACKED: "about 0.7", UNDER_BARK: "about 1.15"}


class Asked(typing.NamedTuple):
    """A unit with what it says; its record, with what it measures and the equations and parameters that take
    it; the unit of the table to write, with how to come to a figure in it; whether the text is read as
    that; and the potentials of gases.
    """
    words: Words
    name: str
    measures: str | None
    takers: list[tuple[str, str]]
    meant: units.Meant | None
    is_read: bool
    potential: collections.abc.Callable[[str], str | None]

    def write(self, how: str = "") -> str:
        """What to do to come to a figure in a unit of the table."""
        size = self.meant.said if self.meant and self.meant.times != 1 else ""
        unit = f"write {self.meant.word}" if self.meant else ""
        return ", and ".join(filter(None, (how, size, unit)))

    def due(self) -> list[tuple[str, str]]:
        """What parameters take that take the record, each with its name in a sentence."""
        taken = ((unit_bases.taken_by(*taker), said_of(taker)) for taker in self.takers)
        return [(of, taker) for of, taker in dict.fromkeys(taken) if of]

    def due_per(self) -> list[tuple[str, str]]:
        """What parameters are for one of that take the record, each with its name in a sentence."""
        taken = ((unit_bases.per_what(*taker), said_of(taker)) for taker in self.takers)
        return [(of, taker) for of, taker in dict.fromkeys(taken) if of]

    @property
    def taker(self) -> str:
        """The first parameter that takes the record as the subject of a sentence."""
        return f"{said_of(self.takers[0])} takes" if self.takers else "equations take"


class Told(typing.NamedTuple):
    """What is said of a unit, and whether the figure stays as it is."""
    cause: str
    is_same: bool = False


def said_of(taker: tuple[str, str]) -> str:
    """A parameter with its equation."""
    return f"{taker[1]} of {taker[0]}"


def gross_values(asked: Asked) -> Told | None:
    """A figure of gross calorific values."""
    if GROSS not in asked.words.numerator + asked.words.denominator or asked.measures in units.COUNTED:
        return None
    parts = set(asked.name.replace("-", ".").replace("_", ".").split("."))
    found = [(ratio, of) for ratio, of in NET_OF_GROSS.items() if parts & set(of.split())]
    ratio = found[0][0] if found else "0.9 (natural gas) or 0.95 (coal, oil)"
    does = "divide" if asked.measures in PER_ENERGY else "multiply"
    cause = f"gross calorific value, and energy is net here: {asked.write(f'{does} by about {ratio}')}"
    return Told(f"{cause}, in all its records; what it is multiplied by has to be of net values too")


def net_values(asked: Asked) -> Told | None:
    """A figure of net calorific values, which is right."""
    if NET not in asked.words.numerator + asked.words.denominator or not asked.meant or not asked.is_read:
        return None
    return Told(f"energy is of net calorific values here: the unit is written {asked.meant.word}", True)


def equivalents(asked: Asked) -> Told | None:
    """A figure in equivalents."""
    if EQUIVALENTS not in asked.words.numerator:
        return None
    for due, taker in asked.due():
        gas = {"N2O-N": "N2O", "C": "CO2"}.get(due, due)
        ratio = f" and multiply by {RATIOS[gas, due]}" if gas != due else ""
        if gas == "CO2":
            mass = asked.write(f"multiply by {RATIOS[gas, due]}" if gas != due else "")
            return Told(f"CO2 equivalents, and {taker} takes {unit_bases.said(due)}: {mass} if they count CO2 alone")
        if gas in GASES:
            potential = asked.potential(gas)
            by = f"GWP.{gas}" + (f", {potential} here" if potential else "")
            mass = asked.write(f"divide by {by}{ratio}")
            return Told(f"CO2 equivalents, and {taker} takes {unit_bases.said(due)}: {mass}")
        return Told(f"CO2 equivalents, and {taker} takes {unit_bases.said(due)}: another figure is needed")
    alone = asked.write() or "write its mass"
    return Told(f"CO2 equivalents: {alone} if they count CO2 alone; divide by its potential for another gas")


def other_substances(asked: Asked) -> Told | None:
    """A figure of another substance than that of its parameter, if the one is made out of the other."""
    for said in asked.words.numerator:
        for due, taker in asked.due():
            if (said, due) in RATIOS and said != due:
                cause = f"{unit_bases.said(said)}, and {taker} takes {unit_bases.said(due)}"
                return Told(f"{cause}: {asked.write(f'multiply by {RATIOS[said, due]}')}")
    return None


def other_denominators(asked: Asked) -> Told | None:
    """A figure for one of another substance than that of its parameter."""
    for said in asked.words.denominator:
        for due, taker in asked.due_per():
            if (said, due) in RATIOS and said != due:
                cause = f"for one of {unit_bases.said(said)}, and {taker} is for one of {unit_bases.said(due)}"
                return Told(f"{cause}: {asked.write(divided_by(RATIOS[said, due]))}")
    return None


def divided_by(ratio: str) -> str:
    """How to divide by a ratio, in the shortest words."""
    inverse = re.match("1 over |1/", ratio)
    return f"multiply by {ratio[inverse.end():]}" if inverse else f"divide by {ratio}"


def other_gases_of_factors(asked: Asked) -> Told | None:
    """A factor of a gas that is not the gas of its line."""
    for said in asked.words.numerator:
        for taker in asked.takers:
            due = unit_bases.taken_by(*taker) or ""
            if {said, due} <= set(GASES + ELEMENTS + NO_EQUATIONS) and said != due and (said, due) not in SAME:
                others = vocabulary.equations_alike(taker[0], said)
                gives = f" ({others[0]} gives {said})" if others else ""
                return Told(f"{unit_bases.said(said)}, and {said_of(taker)} takes {unit_bases.said(due)}{gives}; "
                            f"write the figure of {unit_bases.said(due)}")
    return None


def product_for_nitrogen(asked: Asked) -> Told | None:
    """A mass of product in place of its nitrogen."""
    for due, taker in asked.due():
        if PRODUCT in asked.words.numerator and due == "N":
            how = "multiply by the nitrogen in it, as 0.46 of urea"
            return Told(f"mass of a product, and {taker} takes its nitrogen: {asked.write(how)}")
    return None


def ash_free_fuels(asked: Asked) -> Told | None:
    """A mass of fuel without water and ash."""
    if ASH_FREE not in asked.words.numerator + asked.words.denominator:
        return None
    return Told("fuel without water and ash: write it as it is burnt, or a calorific value of the same")


def dry_weights(asked: Asked) -> Told | None:
    """A mass of dry matter, or a factor for one, if both weights may be meant."""
    is_mass = asked.measures == "mass" and DRY in asked.words.numerator
    is_due = DRY in [due for due, _ in asked.due() + asked.due_per()]
    if is_due or not is_mass and DRY not in asked.words.denominator:
        return None
    what, does = ("the factor", "divide") if is_mass else ("the mass", "multiply")
    is_of_both = not is_mass and DRY in asked.words.numerator
    else_do = "" if is_of_both else f", else {does} by the fraction of dry matter"
    return Told(f"dry weight: {asked.write()} if {what} that it is multiplied by is of dry weight too{else_do}")


def electricity(asked: Asked) -> Told | None:
    """Electricity or heat in place of fuel, or a factor for it."""
    made = [[of for of in (ELECTRICITY, HEAT) if of in words]
            for words in (asked.words.numerator, asked.words.denominator)]
    if made[1] and asked.measures in PER_ENERGY:
        how = "multiply by the efficiency of the plants"
        return Told(f"for {made[1][0]} made, and {asked.taker} the energy of fuel: {asked.write(how)}")
    if not made[0] or asked.measures not in ("energy", None):
        return None
    how = "divide by the efficiency of the plants"
    cause = f"{made[0][0]}, and {asked.taker} the energy of fuel: {asked.write(how)}"
    return Told(f"{cause}; {made[0][0]} that is bought has no emission of its own")


def animal_places(asked: Asked) -> Told | None:
    """Animal places or livestock units in place of animals."""
    if PLACES in asked.words.numerator:
        how = "multiply by the part of the year in which they are taken"
        return Told(f"animal places, and {asked.taker} animals: {asked.write(how)}")
    if LIVESTOCK_UNITS in asked.words.numerator:
        how = "divide by the units of one animal"
        return Told(f"livestock units, and {asked.taker} animals: {asked.write(how)}")
    return None


def volumes_at_other_states(asked: Asked) -> Told | None:
    """Cubic metres of gas at 0 or 15 C."""
    said = [of for of in asked.words.numerator + asked.words.denominator if of in TO_20_C]
    if said and OF_20_C & set(asked.takers):
        how = f"multiply by {TO_20_C[said[0]]}"
        due = f"{asked.taker} those at 20 \u00b0C, of 0.67 kg"
        return Told(f"cubic metres at {said[0]}, and {due}: {asked.write(how)}")
    if said and OF_GAS & set(asked.takers):
        is_volume = asked.measures == "volume"
        other, does = ("the factor", "multiply") if is_volume else ("the volume", "divide")
        else_do = f"else {does} by {TO_20_C[said[0]]} to come to those at 20 \u00b0C"
        return Told(f"cubic metres at {said[0]}: {asked.write()} if {other} is of them too, {else_do}")
    return None


def oxygen_demands(asked: Asked) -> Told | None:
    """Organic matter of wastewater, or CH4 for it, by one of its two oxygen demands."""
    said = [of for of in asked.words.numerator + asked.words.denominator if of in DEMANDS]
    # An emission factor of domestic wastewater is for BOD, as its unit may say.
    takers = OF_DEMAND | ({("Q100", "X")} if "COD" in said else set())
    if not said or not takers & set(asked.takers):
        return None
    other = "the organic matter" if asked.measures == "ratio" else "the yield BO"
    return Told(f"{said[0]}: {asked.write()} if {other} that it is multiplied by is of {said[0]} too; BO is {YIELDS}")


def volumes_of_timber(asked: Asked) -> Told | None:
    """Timber in stacked cubic metres, or without its bark."""
    said = [of for of in asked.words.numerator if of in OF_TIMBER]
    if not said or asked.measures not in ("volume", None) or not asked.meant:
        return None
    how = f"multiply by {OF_TIMBER[said[0]]}"
    return Told(f"{said[0]}, and {asked.taker} solid volume over bark: {asked.write(how)}")


def other_periods(asked: Asked) -> Told | None:
    """A figure of a year where one of a day is due, or the other way round."""
    said = units.read(asked.words.bare)
    due = units.read(base_unit(asked.measures)) if asked.measures else None
    if said is None or due is None or not asked.takers:
        return None
    days = said.powers.get("days", 0), due.powers.get("days", 0)
    of_both = [{what: power for what, power in reading.measured.items() if what != "days"}
               for reading in (said, due)]
    if of_both[0] != of_both[1] or days not in ((-1, 0), (0, -1)):
        return None
    size = said.size / due.size
    if days == (-1, 0):
        how = asked.write(f"multiply by {units.written(size * DAYS_OF_A_YEAR)}")
        return Told(f"of a day, and {asked.taker} that of a year: {how}")
    if said.powers.get("years") != -1:
        return None
    divided = f"multiply by {units.written(size)} and divide by" if size != 1 else "divide by"
    of = "the days of cultivation" if asked.measures == OF_CROPS else str(DAYS_OF_A_YEAR)
    return Told(f"of a year, and {asked.taker} that of a day: {asked.write(f'{divided} {of}')}")


def volumes_of_gas(asked: Asked) -> Told | None:
    """A volume of CH4, or of gas with CH4 in it, where its mass is due."""
    said = units.read(asked.words.bare)
    is_volume = said is not None and said.measured == {"volume": 1}
    takers = [said_of(taker) for taker in asked.takers if unit_bases.taken_by(*taker) == "CH4"]
    if said is None or not is_volume or asked.measures != "gas" or not takers:
        return None
    word, size = max(((word, size) for word, size in OF_VOLUMES.items() if size <= said.size),
                     key=lambda pair: pair[1], default=("kg-gas", 1))
    kilograms = "0.716" if NORMAL in asked.words.numerator else "0.67"
    times = units.written(said.size / size * fractions.Fraction(kilograms))
    cause = f"a volume, and {takers[0]} takes the mass of CH4: multiply by {times}"
    return Told(f"{cause}, and by the share of CH4 in it, as 0.5 of biogas, and write {word}")


def masses_of_gas(asked: Asked) -> Told | None:
    """A mass of CH4 for one of coal, where its volume is due."""
    said = units.read(asked.words.bare)
    if said is None or said.powers.get("mass") != 0 or said.measured or asked.measures != "volume of gas per tonne":
        return None
    kilograms = said.size * 1000 / fractions.Fraction("0.67")
    cause = f"a mass, and {asked.taker} the volume of CH4, of 0.67 kg in a m3"
    return Told(f"{cause}: {asked.write(f'multiply by {units.written(kilograms)}')}")


def unknown_words(asked: Asked) -> Told | None:
    """Words beside a unit of which it is not known whether they change the figure."""
    def is_harmless(word: str) -> bool:
        return any(vocabulary.is_said_of(*taker, word.strip(",;")) for taker in asked.takers)

    odd = [word for word in asked.words.others if not is_harmless(word)]
    if not odd or not asked.takers or not asked.meant or not asked.is_read:
        return None
    cause = f"the unit is written {asked.meant.word}"
    return Told(f"{cause}: {asked.write()} if {' '.join(odd)} changes no figure")


def right_substances(asked: Asked) -> Told | None:
    """A unit that says what its parameter takes: the figure is right."""
    for said in asked.words.numerator:
        takers = [taker for due, taker in asked.due() if said == due or (said, due) in SAME]
        if takers and asked.meant and asked.is_read and asked.measures not in SAID_BY_UNITS:
            cause = f"{takers[0]} takes {unit_bases.said(said)}, as here: the unit is written {asked.meant.word}"
            return Told(cause, True)
    return None


# A right inventory of cement, urea and burnt waste, coal mining and effluent.
KILNS = """\
enter,span,,,2019,2020,2019,,,
enter,factor,,GWP.CO2,2019,1,,,1,
enter,factor,,GWP.CH4,2019,28,,,1,
enter,line,2A1,CEMENT.CO2,,Q31,,,,
enter,bind,CEMENT.CO2,CL,,activity,CLINKER,,,
enter,bind,CEMENT.CO2,IM,,key,NO,,,
enter,bind,CEMENT.CO2,EX,,key,NO,,,
enter,bind,CEMENT.CO2,EF,,factor,CEMENT.EF,,,
enter,factor,,CEMENT.EF,2019,0.52,,,t/t,
enter,activity,,CLINKER,2019,1600,,,kt,
enter,activity,,CLINKER,2020,1620,,,kt,
enter,line,3C3,UREA.CO2,,Q75,,,,
enter,bind,UREA.CO2,M,,activity,UREA,,,
enter,bind,UREA.CO2,EF,,factor,UREA.EF,,,
enter,factor,,UREA.EF,2019,0.2,,,t/t,
enter,activity,,UREA,2019,15000,,,t,
enter,activity,,UREA,2020,14800,,,t,
enter,line,1B1,MINE.CH4,,Q14,,,,
enter,bind,MINE.CH4,P,,activity,MINED,,,
enter,bind,MINE.CH4,EF,,factor,MINE.EF,,,
enter,factor,,MINE.EF,2019,18,,,m3/t,
enter,activity,,MINED,2019,310,,,kt,
enter,activity,,MINED,2020,300,,,kt,
enter,line,4B,COMPOST.CH4,,Q95,,,,
enter,bind,COMPOST.CH4,M,,activity,COMPOST,,,
enter,bind,COMPOST.CH4,EF,,factor,COMPOST.EF,,,
enter,bind,COMPOST.CH4,R,,key,NO,,,
enter,factor,,COMPOST.EF,2019,4,,,g/kg,
enter,activity,,COMPOST,2019,140,,,kt,
enter,activity,,COMPOST,2020,145,,,kt,
"""
# Right inventories of wastewater, and of a forest that is cut.
WATER = """\
enter,span,,,2019,2020,2019,,,
enter,factor,,GWP.CO2,2019,1,,,1,
enter,factor,,GWP.CH4,2019,28,,,1,
enter,line,4D2,MILL.EF,,Q98,,,,
enter,bind,MILL.EF,BO,,factor,YIELD,,,
enter,bind,MILL.EF,MCF,,factor,LAGOON,,,
enter,line,4D2,MILL.CH4,,Q100,,,,
enter,bind,MILL.CH4,X,,line,MILL.EF,,,
enter,bind,MILL.CH4,TOW,,activity,LOAD,,,
enter,bind,MILL.CH4,S,,key,NO,,,
enter,bind,MILL.CH4,R,,key,NO,,,
enter,factor,,YIELD,2019,0.6,,,kg/kg,
enter,factor,,LAGOON,2019,0.8,,,1,
enter,activity,,LOAD,2019,50,,,kt,
enter,activity,,LOAD,2020,52,,,kt,
"""
# The effluent of a town, beside a right inventory.
EFFLUENT = """\
enter,line,4D1,TOWN.N,,Q102,,,,
enter,bind,TOWN.N,P,,activity,PEOPLE,,,
enter,bind,TOWN.N,PR,,factor,PROTEIN,,,
enter,bind,TOWN.N,FNPR,,factor,TOWN.FNPR,,,
enter,bind,TOWN.N,FNON,,factor,TOWN.FNON,,,
enter,bind,TOWN.N,FIND,,factor,TOWN.FIND,,,
enter,bind,TOWN.N,NS,,key,NO,,,
enter,line,4D1,TOWN.N2O,,Q103,,,,
enter,bind,TOWN.N2O,N,,line,TOWN.N,,,
enter,bind,TOWN.N2O,EF,,factor,TOWN.EF,,,
enter,factor,,TOWN.FNPR,2019,0.16,,,kg/kg,
enter,factor,,TOWN.FNON,2019,1.1,,,1,
enter,factor,,TOWN.FIND,2019,1.25,,,1,
enter,factor,,TOWN.EF,2019,0.005,,,kg/kg,
enter,activity,,PEOPLE,2019,310000,,,person,
enter,activity,,PEOPLE,2020,312000,,,person,
enter,activity,,PEOPLE,2021,313000,,,person,
"""
LOGS = """\
enter,span,,,2019,2020,2019,,,
enter,factor,,GWP.CO2,2019,1,,,1,
enter,line,3B1,CUT,,Q80,,,,
enter,bind,CUT,H,,activity,LOGS,,,
enter,bind,CUT,BCEF,,factor,BCEF,,,
enter,bind,CUT,R,,factor,ROOTS,,,
enter,bind,CUT,CF,,factor,CARBON,,,
enter,line,3B1,CHANGE,,Q83,,,,
enter,bind,CHANGE,G,,key,NO,,,
enter,bind,CHANGE,L,,line,CUT,,,
enter,line,3B1,FOREST.CO2,,Q84,,,,
enter,bind,FOREST.CO2,C,,line,CHANGE,,,
enter,factor,,BCEF,2019,0.77,,,t/m3,
enter,factor,,ROOTS,2019,0.29,,,1,
enter,factor,,CARBON,2019,0.47,,,t/t,
enter,activity,,LOGS,2019,2415,,,m3,
enter,activity,,LOGS,2020,2450,,,m3,
"""
RECOGNISERS = (
    Recogniser(
        gross_values, "gross calorific values, as `TJ (GCV)`, with their usual ratio to net ones",
        "enter,factor,,COAL.NCV,2019,27.1,,,GJ/t GCV,",
        "gross calorific value, and energy is net here: multiply by about 0.95, and write GJ/t",
        "enter,factor,,COAL.NCV,2019,25.8,,,GJ/t,27.1 by the gross calorific value"),
    Recogniser(
        equivalents, "CO2 equivalents, as `kg CO2e/head`, with the potential of the gas",
        "enter,factor,,COWS.EF,2019,3528,,,kg CO2e/head,",
        "CO2 equivalents, and EF of Q55 takes CH4: divide by GWP.CH4, 28 here, and write kg/head",
        "enter,factor,,COWS.EF,2019,126,,,kg/head,3528 kg CO2e"),
    Recogniser(
        other_substances, "N2O for N2O-N, CO2 for carbon, carbon for dry matter, product for nitrogen, dry "
        "for wet weight, and the other way round, with the ratio",
        "enter,factor,,SOILS.EF1,2019,0.0157,,,kg N2O/kg N,",
        "N2O, and EF1 of Q69 takes N2O-N: multiply by 28/44, and write kg/kg",
        "enter,factor,,SOILS.EF1,2019,0.01,,,kg/kg,of N2O-N"),
    Recogniser(
        other_denominators, "a factor for cement in place of clinker",
        "enter,factor,,CEMENT.EF,2019,0.39,,,t CO2/t cement,",
        "for one of cement, and EF of Q31 is for one of clinker: divide by the clinker fraction",
        "enter,factor,,CEMENT.EF,2019,0.52,,,t/t,for a t of clinker and not of cement", KILNS),
    Recogniser(
        other_gases_of_factors, "a factor of another gas than that of its line",
        "enter,factor,,COAL.EF,2019,1,,,kg CH4/TJ,",
        "CH4, and EF of Q10 takes CO2 (Q11 gives CH4); write the figure of CO2",
        "enter,factor,,COAL.EF,2019,94.6,,,t/TJ,CH4 has a factor of its own"),
    Recogniser(
        product_for_nitrogen, "fertiliser in place of its nitrogen",
        "enter,activity,,FERTILISER.N,2019,120000,,,t product,",
        "mass of a product, and FSN of Q69 takes its nitrogen: multiply by the nitrogen in it",
        "enter,activity,,FERTILISER.N,2019,41.2,,,kt,in 120 kt of product"),
    Recogniser(
        ash_free_fuels, "fuel without its water and ash", "enter,activity,,COAL,2019,850,,,kt daf,",
        "fuel without water and ash: write it as it is burnt", "enter,activity,,COAL,2019,1010,,,kt,850 daf"),
    Recogniser(
        dry_weights, "dry weights",
        "enter,activity,,COMPOST,2019,56,,,kt dry,",
        "dry weight: write kt if the factor that it is multiplied by is of dry weight too",
        "enter,activity,,COMPOST,2019,141,,,kt,56 dry", KILNS),
    Recogniser(
        electricity, "electricity or heat in place of fuel",
        "enter,line,1A2,COKE.CO2,,Q10,,,,\nenter,bind,COKE.CO2,FC,,activity,COKE,,,\n"
        "enter,bind,COKE.CO2,EF,,factor,COAL.EF,,,\nenter,activity,,COKE,2019,290,,,GWh el,\n"
        "enter,activity,,COKE,2020,2100,,,TJ,\nenter,activity,,COKE,2021,2100,,,TJ,",
        "electricity, and FC of Q10 takes the energy of fuel: divide by the efficiency of the plants",
        "enter,line,1A2,COKE.CO2,,Q10,,,,\nenter,bind,COKE.CO2,FC,,activity,COKE,,,\n"
        "enter,bind,COKE.CO2,EF,,factor,COAL.EF,,,\nenter,activity,,COKE,2019,590,,,GWh,\n"
        "enter,activity,,COKE,2020,2100,,,TJ,\nenter,activity,,COKE,2021,2100,,,TJ,"),
    Recogniser(
        animal_places, "animal places and livestock units in place of animals",
        "enter,activity,,COWS,2019,260000,,,animal places,",
        "animal places, and N of Q55 takes animals: multiply by the part of the year in which they are taken",
        "enter,activity,,COWS,2019,249000,,,head,in 260000 places"),
    Recogniser(
        volumes_at_other_states, "cubic metres at 0 or 15 \u00b0C",
        "enter,factor,,MINE.EF,2019,16.8,,,Nm3/t,", "those at 20 \u00b0C, of 0.67 kg: multiply by 1.07",
        "enter,factor,,MINE.EF,2019,17.9,,,m3/t,16.8 at 0 C", KILNS),
    Recogniser(
        oxygen_demands, "BOD or COD of wastewater",
        "enter,activity,,LOAD,2019,50,,,kt BOD,",
        "BOD: write kt if the yield BO that it is multiplied by is of BOD too; BO is 0.6 for one of BOD",
        "enter,activity,,LOAD,2019,50,,,kt,BOD", WATER),
    Recogniser(
        volumes_of_timber, "timber stacked or under bark",
        "enter,activity,,LOGS,2019,2100,,,m3 under bark,",
        "under bark, and H of Q80 takes solid volume over bark: multiply by about 1.15, and write m3",
        "enter,activity,,LOGS,2019,2415,,,m3,2100 under bark", LOGS),
    Recogniser(
        other_periods, "a figure of a day for one of a year, and the other way round",
        EFFLUENT + "enter,factor,,PROTEIN,2019,90,,,g protein/person/day,",
        "of a day, and PR of Q102 takes that of a year: multiply by 0.365, and write kg/person",
        EFFLUENT + "enter,factor,,PROTEIN,2019,32.85,,,kg/person,90 g a day"),
    Recogniser(
        volumes_of_gas, "a volume of CH4 for its mass",
        "enter,bind,MILL.CH4,R,,activity,FLARED,,,\nenter,activity,,FLARED,2019,2100,,,thousand m3,\n"
        "enter,activity,,FLARED,2020,2150,,,thousand m3,",
        "a volume, and R of Q100 takes the mass of CH4: multiply by 0.67, and by the share of CH4 in it",
        "enter,bind,MILL.CH4,R,,activity,FLARED,,,\nenter,activity,,FLARED,2019,1407,,,t-gas,2100 m3\n"
        "enter,activity,,FLARED,2020,1440,,,t-gas,", WATER),
    Recogniser(
        masses_of_gas, "a mass of CH4 for its volume, of coal mines",
        "enter,factor,,MINE.EF,2019,12.06,,,kg CH4/t,",
        "a mass, and EF of Q14 takes the volume of CH4, of 0.67 kg in a m3: multiply by 1.49254, and write m3/t",
        "enter,factor,,MINE.EF,2019,18,,,m3/t,12.06 kg", KILNS),
    Recogniser(
        unknown_words, "a word that may change the figure",
        "enter,activity,,COAL,2019,1000,,,kt (screened),",
        "the unit is written kt: write kt if screened changes no figure",
        "enter,activity,,COAL,2019,1000,,,kt,screened"),
    Recogniser(
        net_values, "net calorific values, which are right", "enter,factor,,COAL.NCV,2019,25.8,,,GJ/t (NCV),",
        "energy is of net calorific values here: the unit is written GJ/t; write GJ/t",
        "enter,factor,,COAL.NCV,2019,25.8,,,GJ/t,"),
    Recogniser(
        right_substances, "the basis that is due, as `kg N2O-N/kg N` for Q69, of which the cure says so",
        "enter,factor,,SOILS.EF1,2019,0.01,,,kg N2O-N/kg N,",
        "EF1 of Q69 takes N2O-N, as here: the unit is written kg/kg; write kg/kg",
        "enter,factor,,SOILS.EF1,2019,10,,,g/kg,"),
)


def told(asked: Asked) -> Told | None:
    """What is said of a unit by what its figure is of, or None if it says nothing of that."""
    return next(filter(None, (each.function(asked) for each in RECOGNISERS)), None)


def of_basis(asking: Asking, row: Row, text: str, measures: str | None) -> Explained | None:
    """The fault of a unit that says what its figure is of, and the row to go on with; or None if it says
    nothing of that, or if that is right and the figure has another size.
    """
    asked = asked_of_basis(asking, row, text, measures)
    said = told(asked) if row.field("name") not in vocabulary.words()["potentials"] else None
    if said is None or said.is_same and asked.meant and asked.meant.times != 1:
        return None
    word = asked.meant.word if asked.meant else None
    if said.is_same:
        return asking.first_taken(row, "unit", [(said.cause, word, True)] if word else [], said.cause)
    return at_row(row, said.cause, "unit"), asking.in_unit(row, word) if word else None


def other_basis(asking: Asking, row: Row, text: str) -> str | None:
    """Why a figure with a unit after it is not of what its record is of, or None."""
    said = told(asked_of_basis(asking, row, text, asking.measured(row)))
    return said.cause if said and not said.is_same else None


def asked_of_basis(asking: Asking, row: Row, text: str, measures: str | None) -> Asked:
    """What a unit says that its figure is of, with what takes its record."""
    kind, name = row.field("kind"), causes.name(row.field("name")).text
    words = unit_bases.words_of(text)
    meant = units.meant(words.bare, measures)
    is_read = meant is not None and measures in (None, vocabulary.measured_by(meant.word))
    if measures and not is_read:
        meant = units.Meant(base_unit(measures), fractions.Fraction(1))
    return Asked(words, name, measures, asking.ahead.takers(kind, name), meant, is_read,
                 functools.partial(potential_of, asking))


def potential_of(asking: Asking, gas: str) -> str | None:
    """The warming potential of a gas that is entered first, or None."""
    record = asking.book.some_record("factor", f"GWP.{gas}") or asking.ahead.row_of("factor", f"GWP.{gas}")
    return record.field("value") if record else None
