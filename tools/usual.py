"""What is usual of the factor that a parameter takes: by the fuel or the animal that names speak of, out of
`defaults/`, else by the equation, out of usual-values.csv.
"""
import csv
import functools
import itertools
import pathlib
import typing

from tools import vocabulary
from tools.fuels import Number, Range, fuels_of, name_words, rows_of, together, usual_of
from tools.results import Results, gas_of
from tools.sheets import Row

USUAL = pathlib.Path(__file__).resolve().parent / "usual-values.csv"
# The CO2 of fuels in kg/TJ, from coke oven gas to blast furnace gas, and the carbon in CO2.
CO2_OF_FUELS = Range(Number(37000), Number(300000), (), "Volume 2, Table 1.4")
ENERGY_OF_FUELS = Range(Number(1), Number(150), (), "Volume 2, Table 1.2, and hydrogen")
CARBON_IN_CO2 = Number(12) / Number(44)
HUNDREDTHS = Number("0.01")
FUELS_SHOWN = 3
# The tables of CH4 and N2O of fuels burnt, and those of enteric fermentation.
OTHER_GASES = ("volume-2-table-2.2", "volume-2-table-2.3", "volume-2-table-2.4", "volume-2-table-2.5",
               "volume-2-table-3.2.2")
ENTERIC = ("volume-4-table-10.10", "volume-4-table-10.11")
ANIMALS = ("DAIRY", "CATTLE", "BUFFALO", "SHEEP", "GOATS", "CAMELS", "HORSES", "MULES", "DEER", "ALPACAS",
           "SWINE", "POULTRY")
# What burns a fuel with far more CH4 and N2O than boilers, by Volume 2, Tables 2.6 to 2.10, and how far these
# gases of one fuel may be from the tables.
ENGINES = {"ENGINE", "ENGINES", "TURBINE", "TURBINES", "FLUIDISED", "FLUIDIZED", "CNG"}
OF_PLANTS = Number(10)
# How far a factor may be from what is usual: of the carbon and the energy of a known fuel little, of others
# twice.
OF_FUELS, MARGIN = Number("1.05"), Number(2)


@functools.cache
def usual_values() -> dict[tuple[str, str], list[dict[str, str]]]:
    """The rows of usual-values.csv, by equation and parameter."""
    found: dict[tuple[str, str], list[dict[str, str]]] = {}
    with open(USUAL, encoding="utf-8", newline="") as file:
        for row in csv.DictReader(file):
            for pair in itertools.product(row["equation"].split(), row["parameter"].split()):
                found.setdefault(pair, []).append(row)
    return found


def usual_row(line: Row, parameter: str, said: typing.Iterable[str] = ()) -> dict[str, str] | None:
    """The first row of usual values of a parameter of a line that is of its category, and of whose words each
    stands in the names that tell what it is of, or another one that goes for it; or None.
    """
    rows = usual_values().get((line.field("value"), parameter))
    if not rows:
        return None
    names_said = (line.field("name"), *said)
    words = {part for name in names_said for part in vocabulary.parts_of(name)}.union(animals_of(names_said))
    return next((row for row in rows if line.field("subject").startswith(row["category"])
                 and all(words & each for each in alternatives(row["words"]))), None)


@functools.cache
def alternatives(words: str) -> tuple[frozenset[str], ...]:
    """The words of a row of usual values, each with the others that go for it."""
    return tuple(frozenset(word.split("|")) for word in words.split())


class Usual(typing.NamedTuple):
    """What is usual of a factor, what it is of, how far off it has to be to be told of, and the fuels or animals
    that names speak of.
    """
    range: Range
    of: str
    margin: Number
    shown: Range | None = None
    named: tuple[str, ...] = ()

    def has(self, figure: Number, margin: Number) -> bool:
        """Tells whether a figure is usual within a margin."""
        return self.range.least / margin <= figure <= self.range.greatest * margin

    def distance(self, figure: Number) -> Number:
        """How far a figure is from the nearest default, else from the middle of what is usual."""
        known = self.range.defaults or ((self.range.least + self.range.greatest) / 2,)
        return min(abs(figure / each - 1) for each in known)


def usual(results: Results, line: Row, parameter: str, bound: Row) -> Usual | None:
    """What is usual of what a parameter of a line takes, or None where nothing is known."""
    said = names(results, line, bound)
    return by_equation(line, parameter, said) or by_measure(line, parameter, said)


def by_equation(line: Row, parameter: str, said: list[list[str]]) -> Usual | None:
    """What usual-values.csv has of a parameter of a line, or None."""
    if (line.field("value"), parameter) not in usual_values():
        return None
    of_takers = animals_of(said[0] + said[1]) if said[2] else ()
    row = usual_row(line, parameter, sum(said[:2] if of_takers else said, []))
    if row is None:
        return None
    is_of_animals = any(each & set(ANIMALS) for each in alternatives(row["words"]))
    animals = (of_takers or animals_of(said[2])) if is_of_animals else ()
    of = f"{parameter} of {line.field('value')}" + (f" for {' or '.join(animals).lower()}" if animals else "")
    return Usual(range_of(row), of, Number(row["margin"] or MARGIN), named=animals)


def by_measure(line: Row, parameter: str, said: list[list[str]]) -> Usual | None:
    """What `defaults/` has of the fuels or animals that names speak of, by what a parameter measures; or
    None.
    """
    measures = vocabulary.parameters_of(line.field("value"))[parameter]["measures"]
    if measures == "net calorific value":
        return of_fuels("volume-2-table-1.2", "NCV", said, ENERGY_OF_FUELS)
    if measures == "carbon content of fuel":
        of_co2 = of_fuels("volume-2-table-1.4", "CO2", said, CO2_OF_FUELS)
        return Usual(of_carbon(of_co2.range), of_co2.of, OF_FUELS, named=of_co2.named)
    if measures == "emission factor of fuel" and gas_of(line) == "CO2":
        return of_fuels("volume-2-table-1.4", "CO2", said, CO2_OF_FUELS)
    if measures == "emission factor of fuel":
        return of_other_gas(gas_of(line) or "", said, line.field("subject"))
    if line.field("value") == "Q55" and parameter == "EF" and line.field("subject") == "3A1":
        return of_animals(said)
    return None


def range_of(row: dict[str, str]) -> Range:
    """What a row of usual values has."""
    defaults = tuple(map(Number, row["defaults"].split()))
    return Range(Number(row["least"] or 0), Number(row["greatest"]), defaults, row["source"])


def of_carbon(co2: Range) -> Range:
    """The carbon content of fuels in tC/TJ, out of their CO2 in kg/TJ."""
    times = CARBON_IN_CO2 / 1000
    defaults = tuple(each * times for each in co2.defaults)
    return Range(co2.least * times, co2.greatest * times, defaults, co2.source)


def names(results: Results, line: Row, bound: Row) -> list[list[str]]:
    """The names that tell what a factor is of, the best first: those of the activities that its line takes,
    that of the line, and its own.
    """
    bindings = results.bound_below(line.field("name"))
    taken = [other.field("low") for other in bindings if other.field("value") == "activity"]
    return [taken, [line.field("name")], [bound.field("low")]]


def of_fuels(table: str, what: str, said: list[list[str]], any_fuel: Range) -> Usual:
    """What a table of `defaults/` has of the fuels that names speak of, else what any fuel has."""
    fuels = next(filter(None, map(fuels_of, said)), ())
    found = usual_of(table, [f"{what}.{fuel}" for fuel in fuels])
    if found is None:
        return Usual(any_fuel, "fuels", Number(1))
    of = " or ".join(fuel.replace(".", " ").lower() for fuel in fuels[:3])
    return Usual(found, of, OF_FUELS, named=fuels)


def default_of_fuel(figure: Number, measures: str, gas: str | None, known: Usual) -> str | None:
    """A fuel but for those that names speak of, of which a figure is the default, or None where no table has it
    or it is one of theirs too.
    """
    if measures == "net calorific value":
        table, value = "volume-2-table-1.2", figure
    elif measures == "carbon content of fuel":
        table, value = "volume-2-table-1.4", figure / CARBON_IN_CO2 * 1000
    elif measures == "emission factor of fuel" and gas == "CO2":
        table, value = "volume-2-table-1.4", figure
    else:
        return None
    if figure in known.range.defaults:
        return None
    names = [name.split(".", 1)[1].replace(".", " ").lower() for name, each in rows_of(table).items()
             if value.quantize(HUNDREDTHS) in each.defaults]
    return vocabulary.listed(names[:FUELS_SHOWN]) if names else None


def of_other_gas(gas: str, said: list[list[str]], category: str) -> Usual:
    """What is usual of CH4 or N2O of fuels burnt: of the fuels that names speak of, at a category of plants or
    homes and not in an engine, else of all fuels in all their uses.
    """
    every = Usual(of_fuels_burnt(gas, ()) or ENERGY_OF_FUELS, f"{gas} of fuels", MARGIN)
    fuels = next(filter(None, map(fuels_of, said)), ())
    is_of_engines = ENGINES & {part for name in sum(said, []) for part in vocabulary.parts_of(name)}
    is_moving = category.startswith(("1A3", "MB"))
    own = of_fuels_burnt(gas, fuels) if fuels and not is_of_engines and not is_moving else None
    if own is None:
        return every
    within = Range(max(own.least / OF_PLANTS, every.range.least), min(own.greatest * OF_PLANTS,
                   every.range.greatest), own.defaults, own.source)
    of = " or ".join(fuel.replace(".", " ").lower() for fuel in fuels[:3])
    return Usual(within, f"{gas} of {of}", MARGIN, own)


@functools.cache
def of_fuels_burnt(gas: str, fuels: tuple[str, ...]) -> Range | None:
    """What the tables have of CH4 or N2O of fuels burnt but for road transport, or of all fuels in all their
    uses where none are named; or None.
    """
    ends = tuple(f".{fuel}" for fuel in fuels)
    found = [each for table in OTHER_GASES for name, each in rows_of(table).items() if name.startswith(gas)
             and (not fuels or name.endswith(ends) and ".ROAD." not in name)]
    source = "Volume 2, Tables 2.2 to 2.5" + ("" if fuels else " and 3.2.2")
    return together(found)._replace(source=source) if found else None


def animals_of(said: typing.Iterable[str]) -> tuple[str, ...]:
    """The animals that names speak of."""
    found: list[str] = []
    for name in said:
        found += animals_in(name)
    return tuple(dict.fromkeys(found))


@functools.lru_cache(maxsize=100000)
def animals_in(name: str) -> tuple[str, ...]:
    """The animals that a name speaks of, in words of two parts before those of one."""
    parts, found = vocabulary.parts_of(name), set()
    for length in (2, 1):
        for at in range(len(parts) - length + 1):
            word = ".".join(parts[at:at + length])
            named = {each: name_words().get(each, each) for each in (word, word.removesuffix("S"), f"{word}S")}
            means = next((means for means in named.values() if means in ANIMALS), None)
            if means:
                found.add(means)
                parts[at:at + length] = ["-"] * length
    return tuple(animal for animal in ANIMALS if animal in found)


def of_animals(said: list[list[str]]) -> Usual | None:
    """The emission factor of enteric fermentation of the animals that names speak of, or None: those of what
    takes a factor before its own.
    """
    animals = animals_of(said[0] + said[1]) or animals_of(said[2])
    tables = [usual_of(table, enteric(table, animals)) for table in ENTERIC]
    known = [each for each in tables if each]
    return Usual(together(known), " and ".join(animals).lower(), MARGIN, named=animals) if known else None


def enteric(table: str, animals: tuple[str, ...]) -> list[str]:
    """The factors of animals in a table of enteric fermentation."""
    return [name for name in rows_of(table) if name.split(".")[1] in animals]


def default_of_animals(figure: Number, animals: tuple[str, ...]) -> str | None:
    """One of some animals of whose enteric fermentation a figure is a default, or None."""
    found = [name.split(".")[1] for table in ENTERIC for name in enteric(table, animals)
             if figure in rows_of(table)[name].defaults]
    return found[0].lower() if found else None
