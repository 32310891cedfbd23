"""The fuel that names speak of, and what `defaults/` has of it."""
import csv
import decimal
import functools
import pathlib
import re
import typing

from tools import vocabulary

DEFAULTS = pathlib.Path(__file__).resolve().parent.parent / "defaults"
# Words of names in other languages, and further English ones, with the words below that they mean.
NAME_WORDS = pathlib.Path(__file__).resolve().parent / "name-words.csv"
MOST_PARTS = 4
# The number of one of several, as in COAL2.
NUMBER_BEHIND = re.compile("(?<=[A-Z]{3})[0-9]+$")
# Words of names with the fuels of Volume 2, Table 1.4 that they are of; a gas that no table has is of none.
COALS = ("ANTHRACITE", "COKING.COAL", "BITUMINOUS", "SUB.BITUMINOUS", "LIGNITE", "BKB",
         "PATENT.FUEL")
OILS = ("CRUDE.OIL", "GAS.DIESEL.OIL", "RESIDUAL.OIL", "SHALE.OIL", "OTHER.KEROSENE", "WASTE.OILS",
        "LUBRICANTS", "OTHER.PETROLEUM", "NGL")
BIOGASES = ("LANDFILL.GAS", "SLUDGE.GAS", "OTHER.BIOGAS")
OF_REFINERIES = ("REFINERY.GAS", "NATURAL.GAS", "LPG", "ETHANE")
WOODS = ("WOOD", "SOLID.BIOMASS")
WORDS = {
    "COKE.OVEN": ("COKE.OVEN.GAS",), "OVEN.GAS": ("COKE.OVEN.GAS",), "BLAST.FURNACE": ("BLAST.FURN.GAS",),
    "COG": ("COKE.OVEN.GAS",), "BFG": ("BLAST.FURN.GAS",),
    "FURNACE.GAS": ("BLAST.FURN.GAS", "STEEL.FURN.GAS"), "STEEL.GAS": ("STEEL.FURN.GAS",),
    "REFINERY.GAS": OF_REFINERIES, "FUEL.GAS": OF_REFINERIES, "WORKS.GAS": ("GAS.WORKS.GAS",),
    "TOWN.GAS": ("GAS.WORKS.GAS", "NATURAL.GAS"), "NATURAL.GAS": ("NATURAL.GAS",),
    "NATGAS": ("NATURAL.GAS",), "LANDFILL.GAS": BIOGASES, "SLUDGE.GAS": BIOGASES, "BIOGAS": BIOGASES,
    "LNG": ("NATURAL.GAS",), "CNG": ("NATURAL.GAS",), "MAZUT": ("RESIDUAL.OIL",),
    "SUB.BITUMINOUS": ("SUB.BITUMINOUS",), "BITUMINOUS": ("BITUMINOUS",), "COKING.COAL": ("COKING.COAL",),
    "HARD.COAL": COALS[:3], "STEAM.COAL": COALS[2:4], "CRUDE.OIL": ("CRUDE.OIL",), "CRUDE": ("CRUDE.OIL",),
    "HEATING.OIL": ("GAS.DIESEL.OIL", "RESIDUAL.OIL"),
    "GAS.OIL": ("GAS.DIESEL.OIL",), "GASOIL": ("GAS.DIESEL.OIL",), "BIODIESEL": ("BIODIESELS",),
    "DIESEL": ("GAS.DIESEL.OIL",), "BIOGASOLINE": ("BIOGASOLINE",), "BIOETHANOL": ("BIOGASOLINE",),
    "ETHANOL": ("BIOGASOLINE",), "AV.GASOLINE": ("AV.GASOLINE", "JET.GASOLINE"),
    "GASOLINE": ("MOTOR.GASOLINE", "AV.GASOLINE", "JET.GASOLINE"), "PETROL": ("MOTOR.GASOLINE",),
    "JET.KEROSENE": ("JET.KEROSENE",), "JET.FUEL": ("JET.KEROSENE",),
    "JET": ("JET.KEROSENE", "JET.GASOLINE", "AV.GASOLINE"),
    "KEROSENE": ("JET.KEROSENE", "OTHER.KEROSENE"), "LPG": ("LPG",), "RFO": ("RESIDUAL.OIL",),
    "HFO": ("RESIDUAL.OIL",), "RESIDUAL": ("RESIDUAL.OIL",), "FUEL.OIL": ("RESIDUAL.OIL", "GAS.DIESEL.OIL"),
    "LUBRICANTS": ("LUBRICANTS",), "LUBRICANT": ("LUBRICANTS",), "WAXES": ("PARAFFIN.WAXES",),
    "NAPHTHA": ("NAPHTHA",), "PETCOKE": ("PETROLEUM.COKE",), "PETROLEUM.COKE": ("PETROLEUM.COKE",),
    "CHARCOAL": ("CHARCOAL",), "LIGNITE": ("LIGNITE", "BKB"),
    "BROWN.COAL": ("LIGNITE", "SUB.BITUMINOUS", "BKB"),
    "ANTHRACITE": ("ANTHRACITE",), "COAL.TAR": ("COAL.TAR",), "COAL": COALS, "OIL.SHALE": ("OIL.SHALE",),
    "COKE": ("COKE", "GAS.COKE"), "PEAT": ("PEAT",), "BAGASSE": WOODS, "STRAW": WOODS, "BIOMASS": WOODS,
    "FIREWOOD": WOODS, "FUELWOOD": WOODS, "WOOD": WOODS, "PELLETS": WOODS, "BLACK.LIQUOR": ("SULPHITE.LYES",),
    "BIOFUEL": ("BIOGASOLINE", "BIODIESELS", "LIQUID.BIOFUELS"),
    "BIOFUELS": ("BIOGASOLINE", "BIODIESELS", "LIQUID.BIOFUELS"),
    "NATURAL.GAS.LIQUIDS": ("NGL",), "OIL": OILS, "GAS": ("NATURAL.GAS",),
    **{f"{word}.GAS": () for word in (
        "PROCESS OFF WASTE PRODUCER SYNTHESIS SYN MINE ASSOCIATED FLARE FLARED COAL WOOD FLUE STACK MIXED OTHER "
        "DERIVED RESIDUAL PURGE CRACKER").split()},
}
ORDER = {word: place for place, word in enumerate(WORDS)}
# The kinds of fossil fuels, without those that are made of another kind.
KINDS = {"coal": COALS[:4], "lignite": ("LIGNITE", "BKB"), "gas": ("NATURAL.GAS",), "peat": ("PEAT",),
         "oil": (*OILS, "MOTOR.GASOLINE", "JET.KEROSENE", "LPG", "NAPHTHA")}
# What is burnt of biomass, among these words.
OF_BIOMASS = {"BIOGAS", "LANDFILL.GAS", "SLUDGE.GAS", "BIODIESEL", "BIOGASOLINE", "BIOETHANOL", "ETHANOL",
              "CHARCOAL", "BAGASSE", "STRAW", "BIOMASS", "FIREWOOD", "FUELWOOD", "WOOD", "PELLETS",
              "BLACK.LIQUOR", "BIOFUEL", "BIOFUELS", "WOOD.GAS"}
BIOMASS = (*WOODS, *BIOGASES, "CHARCOAL", "BIODIESELS", "BIOGASOLINE", "LIQUID.BIOFUELS", "SULPHITE.LYES")
BUNKERS = {"BUNKER", "BUNKERS", "INTERNATIONAL", "INTL", "SOUTES", "SEEBUNKER", "INTERNACIONAL", "INTERNATIONALE"}


Number = decimal.Decimal


class Range(typing.NamedTuple):
    """What is usual of a factor in its base unit: the least, the greatest, the defaults between them, and the
    table that has these.
    """
    least: Number
    greatest: Number
    defaults: tuple[Number, ...]
    source: str


def together(ranges: list[Range]) -> Range:
    """What is usual by one range or another."""
    defaults = tuple(default for each in ranges for default in each.defaults)
    sources = dict.fromkeys(each.source for each in ranges)
    return Range(min(each.least for each in ranges), max(each.greatest for each in ranges), defaults,
                 " and ".join(sources))


@functools.cache
def name_words() -> dict[str, str]:
    """The words of name-words.csv, each with what it means."""
    with open(NAME_WORDS, encoding="utf-8", newline="") as file:
        return {row["word"]: row["means"] for row in csv.DictReader(file)}


@functools.cache
def spelt() -> dict[str, str]:
    """How a fuel may be spelt in a name, each with its word of the table; without dots between the parts too."""
    found = {word: word for word in WORDS}
    found.update({word: means for word, means in name_words().items() if means in WORDS})
    return {**{word.replace(".", ""): means for word, means in found.items()}, **found}


@functools.lru_cache(maxsize=100000)
def words_of(name: str) -> tuple[str, ...]:
    """The words of the table that stand in a name, each part of it in the longest one: those of most parts
    first, and of these in the order of the table.
    """
    parts = [NUMBER_BEHIND.sub("", part) for part in vocabulary.parts_of(name)]
    found: list[tuple[int, str]] = []
    for length in range(MOST_PARTS, 0, -1):
        for at in range(len(parts) - length + 1):
            means = spelt().get(".".join(parts[at:at + length]))
            if means:
                found.append((-length, means))
                parts[at:at + length] = ["-"] * length
    return tuple(word for _, word in sorted(found, key=lambda pair: (pair[0], ORDER[pair[1]])))


def fuels_of(names: list[str]) -> tuple[str, ...]:
    """The fuels that names are of, each by its first word."""
    words = [words_of(name)[0] for name in names if words_of(name)]
    return tuple(dict.fromkeys(fuel for word in words for fuel in WORDS[word]))


def is_of_biomass(names: list[str]) -> bool:
    """Tells whether names are of biomass, and none of a fossil fuel."""
    words = {word for name in names for word in words_of(name)}
    return bool(words) and words <= OF_BIOMASS


def is_of_fossil_fuel(names: list[str]) -> bool:
    """Tells whether names are of a fossil fuel, and none of biomass."""
    words = {word for name in names for word in words_of(name) if WORDS[word]}
    return bool(words) and not words & OF_BIOMASS


def is_of_bunkers(names: list[str]) -> bool:
    """Tells whether one of some names is of international bunkers."""
    return any(BUNKERS & set(vocabulary.parts_of(name)) for name in names)


@functools.cache
def rows_of(table: str) -> dict[str, Range]:
    """What a table of `defaults/` has of each factor, by its name."""
    with open(DEFAULTS / f"{table}.csv", encoding="utf-8", newline="") as file:
        rows = list(csv.DictReader(file))
    source = table.replace("volume-", "Volume ").replace("-table-", ", Table ")
    return {row["name"]: Range(Number(row["low"] or row["value"]), Number(row["high"] or row["value"]),
                               (Number(row["value"]),), source) for row in rows}


def usual_of(table: str, names: list[str]) -> Range | None:
    """What a table of `defaults/` has of factors, of all of them together, or None where it has none."""
    found = [rows_of(table)[name] for name in names if name in rows_of(table)]
    return together(found) if found else None
