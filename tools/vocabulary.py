"""The words of the program, out of tools/facts.json, and the nearest of them to a text."""
import csv
import decimal
import difflib
import functools
import json
import pathlib
import re
import typing
from collections.abc import Iterable, Sized

# Half-lives are in this unit, out of which the form `decay` of a binding makes a yearly decay factor.
HALF_LIFE_UNIT = "yr"
# The codes outside the tree.
MEMOS = ("MB", "MC", "RA")
# The parameters that take what a line gave the year before.
OF_LAST_YEAR = {("Q91", "PREV"), ("Q92", "PREV")}
# What stands between the parts of a name.
PARTS = re.compile("[._-]")
PATH = pathlib.Path(__file__).resolve().parent / "facts.json"
EARLIER = PATH.parent / "earlier-codes.csv"


class Unit(typing.TypedDict):
    """A unit: its word, what it measures, and its size in the base unit as a ratio."""
    word: str
    measures: str
    over: int
    under: int


class Category(typing.TypedDict):
    """A category of the tree, with other words for its name and the codes under it."""
    code: str
    name: str
    also: str
    children: list[str]


class Parameter(typing.TypedDict):
    """A parameter of an equation: what it measures, and the base unit, but of a yearly decay factor."""
    name: str
    measures: str
    unit: str | None


class Output(typing.TypedDict, total=False):
    """What an equation gives: a gas in Gg, or something measured in its base unit for other lines to take."""
    gas: str
    measures: str
    unit: str


class Equation(typing.TypedDict):
    """An equation, with its source in the Guidelines and what the page of equations says of it."""
    code: str
    sector: str
    computes: str
    source: str
    parameters: list[Parameter]
    output: Output
    expression: str
    about: str


class Table(typing.TypedDict):
    """A table of a year, with its header; the rest of it is for pages."""
    name: str
    header: str


class Rule(typing.TypedDict):
    """A rule that refuses, by its number, and when it is broken."""
    number: str
    broken_if: str


class Words(typing.TypedDict):
    """The facts of tools/facts.json that the tools read."""
    header: list[str]
    formats: list[str]
    acts: list[str]
    kinds: list[str]
    forms: list[str]
    keys: list[str]
    key_names: dict[str, str]
    potentials: list[str]
    tables: list[Table]
    limits: dict[str, str]
    rules: list[Rule]
    units: list[Unit]
    categories: list[Category]
    equations: list[Equation]


@functools.cache
def words() -> Words:
    """The whole vocabulary."""
    facts: Words = json.loads(PATH.read_text(encoding="utf-8"))
    return facts


def tables() -> list[str]:
    """The name of each table."""
    return [table["name"] for table in words()["tables"]]


def limit(name: str) -> str:
    """A limit of the program, as it is written in docs/FORMATS.md."""
    return words()["limits"][name]


def broken_if(number: int) -> str:
    """When a rule is broken, as docs/FORMATS.md says it; nothing of what is no rule."""
    return next((rule["broken_if"] for rule in words()["rules"] if rule["number"] == str(number)), "")


@functools.cache
def units() -> dict[str, Unit]:
    """Each unit by its word."""
    return {unit["word"]: unit for unit in words()["units"]}


@functools.cache
def categories() -> dict[str, Category]:
    """Each category by its code."""
    return {category["code"]: category for category in words()["categories"]}


@functools.cache
def equations() -> dict[str, Equation]:
    """Each equation by its code."""
    return {equation["code"]: equation for equation in words()["equations"]}


@functools.cache
def earlier_codes() -> list[dict[str, str]]:
    """The codes of other guidelines that are another's here, with what they are of."""
    with open(EARLIER, encoding="utf-8", newline="") as file:
        return list(csv.DictReader(file))


def volume_of_category(code: str) -> str | None:
    """The volume of the Guidelines that a category is of, or None where any may be."""
    return {"1": "2", "2": "3", "3": "4", "4": "5", "M": "2", "R": "2"}.get(code[:1])


def same_code(code: str) -> str | None:
    """The category that a code is, whatever its case, dots and blanks, or None."""
    return next((known for known in categories() if plain(known) == plain(code)), None)


def divides(text: str, leaf: str) -> bool:
    """Tells whether a code is a part of a leaf, as 1A1ai is of 1A1a; 2B10 is none of 2B1."""
    parts, of_leaf = (re.findall("[0-9]+|[a-z]", code.casefold()) for code in (text, leaf))
    return parts[:len(of_leaf)] == of_leaf


@functools.cache
def volume_of_equation(code: str) -> str | None:
    """The volume of the Guidelines that an equation is of, or None where it is of none."""
    found = re.match(r"Volume (\d)", equations()[code]["source"])
    return found.group(1) if found else None


@functools.cache
def elsewhere(code: str, equation: str) -> tuple[str, str, str] | None:
    """What the code of a line of an equation is in other guidelines, with that code and the one here; or
    None.
    """
    there = [row for row in earlier_codes()
             if code.casefold().startswith(row["code"].casefold()) and equation in row["equations"].split()]
    if not there:
        return None
    row = max(there, key=lambda row: len(row["code"]))
    said = f"{row['code']} is {row['name']} in the {row['of']}, and that is {row['here']} here"
    return said, row["code"], row["here"]


@functools.cache
def places_of(equation: str) -> set[str]:
    """The categories at which lines of an equation stand that other guidelines have under other codes."""
    return {row["here"] for row in earlier_codes() if equation in row["equations"].split()}


@functools.cache
def leaves() -> list[str]:
    """The codes at which a line may stand."""
    return [code for code, category in categories().items() if not category["children"]]


def leaves_under(code: str) -> list[str]:
    """The leaves at a code or under it."""
    children = categories()[code]["children"]
    return [leaf for child in children for leaf in leaves_under(child)] if children else [code]


def units_that_measure(measures: str | None) -> list[str]:
    """The words of all units of one dimension, the base unit first."""
    return [word for word, unit in units().items() if unit["measures"] == measures]


def of_base(unit: Unit) -> str:
    """How many of the base unit one of a unit is: a decimal if it is 1 or more, else a fraction."""
    if unit["under"] == 1 or unit["over"] < unit["under"]:
        return f"{unit['over']}" if unit["under"] == 1 else f"{unit['over']}/{unit['under']}"
    return format(decimal.Decimal(unit["over"]) / unit["under"], "f")


def measured_by(word: str) -> str | None:
    """What a unit measures, or None where it is no unit."""
    unit = units().get(word)
    return unit["measures"] if unit else None


@functools.cache
def is_amount(measures: str | None) -> bool:
    """Tells whether what is measured is an amount, as activities are, and no ratio and no rate."""
    base = units_that_measure(measures)[0]
    return "/" not in base and base not in ("1", HALF_LIFE_UNIT)


def half_life() -> str | None:
    """What the unit of half-lives measures, or None where no row holds one."""
    return measured_by(HALF_LIFE_UNIT)


def is_decay(parameter: Parameter) -> bool:
    """Tells whether a parameter takes a yearly decay factor: the one that has no unit."""
    return parameter["unit"] is None


def record_of(parameter: Parameter) -> str | None:
    """What a record measures that a parameter takes: of a yearly decay factor, a half-life."""
    return half_life() if is_decay(parameter) else parameter["measures"]


@functools.cache
def parameters_of(code: str) -> dict[str, Parameter]:
    """The parameters of an equation by their names."""
    return {parameter["name"]: parameter for parameter in equations()[code]["parameters"]}


def given_by(code: str) -> str:
    """What a line of an equation gives, in the words of the table of units."""
    output = equations()[code]["output"]
    return "gas" if "gas" in output else output["measures"]


def made_of(measures: str | None, wanted: str | None) -> list[str]:
    """The equations that make what is wanted of something measured, with one parameter more at the most."""
    return [code for code, equation in equations().items()
            if given_by(code) == wanted and len(equation["parameters"]) <= 2
            and measures in [parameter["measures"] for parameter in equation["parameters"]]]


def gas_of(code: str) -> str | None:
    """The gas that an equation emits, or None."""
    return equations()[code]["output"].get("gas")


@functools.cache
def gases() -> list[str]:
    """The gases that equations emit, in the order of the equations."""
    return list(dict.fromkeys(filter(None, map(gas_of, equations()))))


def parts_of(name: str) -> list[str]:
    """The parts of a name between its dots and strokes."""
    return PARTS.split(name)


def gas_in(name: str) -> str | None:
    """The one gas that stands in a name between its dots and strokes, or None."""
    named = set(parts_of(name)).intersection(gases())
    return min(named) if len(named) == 1 else None


def potential_like(name: str) -> str | None:
    """The potential that a name is but for its signs and its first part, as GWP_CH4 or CH4, or None."""
    parts = [part for part in parts_of(name) if part != "GWP"]
    potential = ".".join(["GWP", *parts])
    return potential if potential in words()["potentials"] else None


def equations_alike(code: str, gas: str | None) -> list[str]:
    """The equations of the same parameters that emit a gas."""
    return [other for other, equation in equations().items()
            if gas_of(other) == gas and equation["parameters"] == equations()[code]["parameters"]]


def said_of_parameter(parameter: Parameter) -> str:
    """A parameter with what it measures, and the base unit or the form that gives it."""
    of = "by decay" if is_decay(parameter) else parameter["unit"]
    return f'{parameter["name"]} {parameter["measures"]} ({of})'


def said_of_wanted(parameter: Parameter) -> str:
    """What a parameter takes, with its base unit."""
    return f"{parameter['measures']} ({parameter['unit']})"


def is_said_of(code: str, parameter: str, text: str) -> bool:
    """Tells whether the page of equations says what a parameter is by a word that begins like a text."""
    about = equations()[code]["about"]
    about += "".join(equations()[other]["about"] for other in re.findall("`(Q[0-9]+)`", about))
    said = [words for words, name in re.findall("([^`]*)`([A-Z0-9]+)`", about) if name == parameter]
    stem = text.casefold().removesuffix("s")
    return len(stem) > 3 and any(word.startswith(stem) for words in said for word in words.casefold().split())


def said_of_no_parameter(code: str, name: str) -> str:
    """That an equation has no parameter of a name, and those that it has."""
    there = listed(map(said_of_parameter, parameters_of(code).values()), "and")
    return f"{code} has no {name}; its parameters are {there}"


def listed(items: Iterable[str], last: str = "or") -> str:
    """Texts in a sentence: a, b or c."""
    items = list(items)
    if len(items) < 2:
        return "".join(items)
    return f'{", ".join(items[:-1])} {last} {items[-1]}'


def are(items: Sized) -> str:
    """The verb of items that are listed after it."""
    return "is" if len(items) == 1 else "are"


def plain(text: str) -> str:
    """A text without case and without what is easily mistyped, to compare texts by."""
    return re.sub(r"[\s._\-*·/]", "", text).casefold()


def nearest(text: str, known: Iterable[str], count: int = 1, cutoff: float = 0.6) -> list[str]:
    """The words that are nearest to a text, those first that differ in case and signs alone."""
    known = list(known)
    same = [word for word in known if plain(word) == plain(text)]
    if same:
        return same[:count]
    by_plain: dict[str, str] = {}
    for word in known:
        by_plain.setdefault(plain(word), word)
    found = difflib.get_close_matches(plain(text), by_plain, count, cutoff)
    return [by_plain[word] for word in found]
