"""Reads a unit as people write it: which unit of the table it is, or what a figure in it is multiplied by."""
import fractions
import functools
import math
import re
import unicodedata

from tools import vocabulary
from tools.causes import MINUS
from tools.letters import latin, lowered

Exact = fractions.Fraction
POWERS = {"k": 3, "M": 6, "G": 9, "T": 12, "P": 15, "E": 18}
LONG_POWERS = {"kilo": 3, "mega": 6, "giga": 9, "tera": 12, "peta": 15, "exa": 18}
# What is measured, the base, its size in t, TJ, ha or m3, the powers in front of it, and its other names.
BASES = [
    ("mass", "t", "1", "kMG", ["tonne", "ton", "tpa"]),
    ("mass", "g", "0.000001", "kMGTP", ["gram", "gramme"]),
    ("energy", "J", "0.000000000001", "kMGTPE", ["joule"]),
    ("energy", "Wh", "0.0000000036", "kMGT", ["watthour", "Whe", "Whel", "Whth"]),
    ("energy", "cal", "0.0000000000041868", "kMGTP", ["calorie"]),
    ("energy", "toe", "0.041868", "kM", ["tep"]),
    ("energy", "tce", "0.0293076", "kM", ["tec"]),
    ("area", "ha", "1", "kM", ["hectare", "hect"]),
    ("volume", "l", "0.001", "k", ["litre", "liter"]),
    ("animals", "head", "1", "kM", ["hd"]),
]
OTHERS = {
    ("mass", "0.000000001"): ["mg", "milligram"], ("mass", "0.00045359237"): ["lb", "pound"],
    ("mass", "0.1"): ["quintal"], ("mass", "0.90718474"): ["shortton"], ("mass", "1.0160469088"): ["longton"],
    ("energy", "0.001055056"): ["MMBtu"], ("energy", "0.000000001055056"): ["Btu"],
    ("energy", "0.0001055056"): ["therm"],
    ("area", "100"): ["km2"], ("area", "0.0001"): ["m2"], ("area", "0.40468564224"): ["acre"],
    ("volume", "1"): ["m3", "Nm3", "Sm3", "cbm", "festmeter", "stere", "ster", "raummeter", "estereo", "estere"],
    ("volume", "1000000"): ["Mm3", "mcm", "MNm3", "MSm3"],
    ("volume", "1000000000"): ["km3", "bcm"], ("volume", "1000"): ["ML", "megalitre"],
    ("volume", "0.1"): ["hl"], ("volume", "0.158987294928"): ["bbl", "barrel"],
    ("people", "1"): ["person", "people", "capita", "cap", "inhabitant", "inh", "population", "pop"],
    ("days", "1"): ["day", "d"], ("years", "1"): ["yr", "year", "y", "a", "annum"],
    ("minutes", "1"): ["AEmin", "min", "minute"],
    ("ratio", "0.01"): ["pct", "%", "percent", "percentage", "perc", "pc"],
    ("ratio", "0.001"): ["\u2030"], ("ratio", "0.000001"): ["ppm"],
    ("ratio", "1"): ["-", "fraction", "ratio", "none", "dimensionless", "unitless", "share"],
}
MULTIPLES = {
    "hundred": 2, "thousand": 3, "'000": 3, "000": 3, "000s": 3, "k": 3, "million": 6, "mio": 6, "mln": 6,
    "billion": 9, "bn": 9, "mrd": 9, "mill": 6, "tsd": 3, "tys": 3, "lakh": 5, "crore": 7,
    "000'": 3, "thous": 3, "ths": 3, "thsd": 3,
}
# What people write for the unit of what is counted.
COUNTS = {"number", "numbers", "no", "nr", "#", "count", "pcs", "piece", "pieces", "unit", "units"}
COUNTED = ("animals", "people")
PHRASES = {
    "ae-min/cell-day": "AEmin", "ae-mins/cell-day": "AEmin", "ae min/cell-day": "AEmin",
    "min/cell-day": "AEmin", "ae-min": "AEmin", "min per cell-day": "AEmin", "min/cell/day": "AEmin",
    "metric tonne": "t", "metric ton": "t", "metric t": "t", "short ton": "shortton", "long ton": "longton",
    "metric-tonne": "t", "metric-ton": "t", "cubic metre": "m3", "cubic meter": "m3", "cu.m": "m3",
    "cu m": "m3",
    "square kilometre": "km2", "square km": "km2", "sq. km": "km2", "sq km": "km2", "sqkm": "km2",
    "watt hour": "Wh", "watt-hour": "Wh", "per cent": "%", "p.c.": "%", "p.a.": "/yr", "d.m.": "dm",
    "anode effect minute": "AEmin", "ae min": "AEmin",
}
# Equivalents of a gas, after its formula or in front of it.
EQUIVALENTS = re.compile(
    r"(?P<front>\beq\.?[\s-]*)?(?P<gas>co2|ch4|n2o)"
    r"(?(front)\b|[\s-]*(a?e(q\.?|quivalent[a-z]*)?|aq\.?|aquivalent[a-z]*)(?![a-z0-9]))", re.IGNORECASE)
# Tonnes of fuel that measure energy.
FUEL_EQUIVALENTS = re.compile(
    r"t(?:on(?:ne)?s?)?(?: of)?[\s.-]*(oil|coal|o|c)\.?[\s-]*e(?:q\.?|quivalents?|\.)(?![a-z0-9])",
    re.IGNORECASE)
# Animals are counted in heads. After a mass they only say what it is of.
ANIMALS = {"animal", "cow", "cattle", "bovine", "sheep", "goat", "pig", "swine", "horse", "poultry", "bird"}
GASES = {"co2", "ch4", "n2o", "cf4", "c2f6"}
# What stands without a blank after the mass of it.
GLUED = GASES | {"c", "n", "n2o-n", "gas", "dm", "vs", "bod", "cod"}
# What makes another figure: a gross calorific value, and equivalents of something else.
OTHER_FIGURES = {"gross", "gcv", "hhv", "equivalent", "equivalents", "eq"}


class Reading:
    """A unit in its parts: the power of each thing measured, and the size in t, TJ, ha, m3, head and person.

    `of` is C for carbon or gas for a gas in front of the first stroke, and `words` are the units as the table
    writes them, those after a stroke with it.
    """

    def __init__(self) -> None:
        self.powers: dict[str, int] = {}
        self.size = Exact(1)
        self.of: str | None = None
        self.words: list[str] = []

    def add(self, word: str, power: int) -> None:
        """Multiplies by a unit, or divides by it."""
        measures, size, symbol = known()[word]
        self.powers[measures] = self.powers.get(measures, 0) + power
        self.size *= size ** power
        if measures != "years":
            self.words.append(symbol if power > 0 else f"/{symbol}")

    @property
    def measured(self) -> dict[str, int]:
        """What is measured, without years: a rate per year has no year in its word."""
        return {measures: power for measures, power in self.powers.items()
                if power and measures not in ("ratio", "years")}

    @property
    def is_half_life(self) -> bool:
        """Tells whether it is a unit of years alone."""
        return self.powers == {"years": 1}

    @property
    def is_yearly_share(self) -> bool:
        """Tells whether it is a share of a year, as 1/yr or percent per year."""
        return not self.measured and self.powers.get("years") == -1


@functools.cache
def known() -> dict[str, tuple[str, Exact, str]]:
    """What each unit measures, its size and its symbol, by all its names."""
    found = {}
    for measures, base, size, powers, names in BASES:
        sizes = {"": Exact(size), **{power: Exact(size) * 10 ** POWERS[power] for power in powers}}
        found.update({front + base: (measures, one, front + base) for front, one in sizes.items()})
        fronts = {"": 0, **LONG_POWERS, **{letter: POWERS[letter] for letter in powers}}
        for name in [base, *names]:
            for front, power in fronts.items():
                found.setdefault(front + name, (measures, Exact(size) * 10 ** power, symbol_of(front) + base))
    for (measures, size), words in OTHERS.items():
        found.update({word: (measures, Exact(size), words[0]) for word in words})
    found.update(dict.fromkeys(ANIMALS, ("animals", Exact(1), "head")))
    return found


def symbol_of(front: str) -> str:
    """The letter of a power that may be written out, as k of kilo; nothing of none."""
    return next((letter for letter, power in POWERS.items() if power == LONG_POWERS.get(front)), front)


@functools.cache
def without_case() -> dict[str, str]:
    """The units by their letters without case. Of two that differ in it alone the first counts."""
    found: dict[str, str] = {}
    for word in known():
        found.setdefault(word.casefold(), word)
    return found


def unit_of(text: str) -> str | None:
    """The unit that a text without blanks is, in the plural too, or None."""
    for plural in ("$", "s$", "es$"):
        word = re.sub(plural, "", text, flags=re.IGNORECASE)
        if word in known():
            return word
        if word.casefold() in without_case():
            return without_case()[word.casefold()]
    return None


def prepared(text: str) -> str:
    """A text with one form for blanks, strokes, powers and phrases."""
    text = re.sub(f"[{MINUS}]", "-", unicodedata.normalize("NFKC", lowered(latin(text), "^")))
    text = re.sub(r"(?<=[A-Za-z0-9])[:\\](?=[A-Za-z])", "/", text.replace("**", "^").replace("_", " "))
    text = re.sub(rf"({'|'.join(LONG_POWERS)})[ -](?=[a-z])", r"\1", text, flags=re.IGNORECASE)
    text = re.sub(r"\(([^()]*)\)\s*\^?-1(?!\d)", r"/ \1 ", text)
    text = EQUIVALENTS.sub(r"\g<gas>", text)
    text = FUEL_EQUIVALENTS.sub(lambda found: f"t{found.group(1)[0].lower()}e", text)
    for phrase, word in PHRASES.items():
        text = re.sub(rf"(?<![a-z]){re.escape(phrase)}s?(?![a-z0-9])\.?", word, text, flags=re.IGNORECASE)
    text = re.sub(r"\bof\b", " ", text, flags=re.IGNORECASE)
    text = re.sub(r"\b(per|each)\b", "/", text, flags=re.IGNORECASE)
    text = re.sub(r"(?<=[a-z])\^([23])", r"\1", text, flags=re.IGNORECASE)
    text = re.sub(r"(?<=[a-z0-9])\^?-1\b", "^-1", text, flags=re.IGNORECASE)
    text = re.sub(r"[\u00b7*\u00d7()\[\]]|\.(?=[\s/]|$)|^x(?=\d)|(?<=[a-z])\.(?=[A-Z])", " ", text)
    return re.sub(r"(?<=\d)(?![eE]\d)(?=[A-Za-z%])(?<![A-Za-z]\d)", " ", text)


@functools.lru_cache(maxsize=10000)
def read(text: str) -> Reading | None:
    """The reading of a text, without what stands in brackets if need be, or None where it is no unit."""
    return read_parts(text) or read_parts(without_brackets(text))


def without_brackets(text: str) -> str:
    """A text without what stands in brackets, but for the parts of an inverse."""
    return re.sub(r"\s*\([^()]*\)(?!\s*\^?-)", "", text)


def read_parts(text: str) -> Reading | None:
    """The reading of a text of units with strokes between them, or None."""
    front, *behind = [part.split() for part in prepared(text).split("/")]
    reading = Reading()
    if not front and not behind or front and not add_part(reading, front, 1):
        return None
    return reading if all(add_part(reading, words, -1) for words in behind) else None


def add_part(reading: Reading, words: list[str], sign: int) -> bool:
    """Adds the words between two strokes to a reading, and tells whether all of them are known."""
    has_unit = has_number = False
    for word in words:
        is_inverse = word.endswith("^-1")
        power = -1 if is_inverse else sign
        word = word.removesuffix("^-1")
        unit, what, multiple = unit_of(word), word, multiple_of(word)
        if not unit and not multiple:
            unit, what = without_what_it_is_of(word)
        if unit and (is_inverse or not (has_unit and unit in ANIMALS)):
            reading.add(unit, power)
            has_unit = True
        elif multiple is not None:
            reading.size *= multiple ** power
            has_number = True
        elif not has_unit or not is_of_something(what):
            return False
        if power > 0 and unit != what:
            reading.of = {"c": "C", "gas": "gas"}.get(what, "gas" if what in GASES else reading.of)
    return has_unit or has_number


def without_what_it_is_of(word: str) -> tuple[str | None, str]:
    """The unit in front of what it is of, as kg in kgCO2, or None; and what it is of, in lower case."""
    text = word.casefold().strip("-.,")
    for what in sorted(GLUED, key=len, reverse=True):
        unit = unit_of(word[:len(text) - len(what)].rstrip("-")) if text.endswith(what) else None
        if unit:
            return unit, what
    return None, text


def is_of_something(what: str) -> bool:
    """Tells whether a word after a unit says what it is of, and changes no figure."""
    plain = what.casefold().replace(".", "")
    return plain not in OTHER_FIGURES and bool(re.fullmatch(r"[^\W\d_][\w-]*", plain))


def multiple_of(word: str) -> Exact | None:
    """The number that a word is, or None."""
    named = word.casefold().removesuffix("s")
    if named in MULTIPLES or word.casefold() in MULTIPLES:
        return Exact(10) ** (MULTIPLES[named] if named in MULTIPLES else MULTIPLES[word.casefold()])
    if re.fullmatch(r"10\^\d{1,2}", word):
        return Exact(10) ** int(word[3:])
    if re.fullmatch(r"\d{1,3}([,.]?000)*(\.\d+)?|1[eE]\d{1,2}", word):
        number = Exact(re.sub(r"[,.](?=000)", "", word))
        return number or None
    return None


@functools.cache
def table() -> dict[str, Reading]:
    """The readings of the units of the table, each of which can be read."""
    readings = {word: read(word) for word in vocabulary.units()}
    return {word: reading for word, reading in readings.items() if reading is not None}


class Meant:
    """A unit of the table that is meant, and what a figure is multiplied by."""

    def __init__(self, word: str, times: Exact) -> None:
        self.word, self.times = word, times

    @property
    def said(self) -> str:
        """How to come to a figure in this unit."""
        if self.times == 1:
            return "the same number"
        if self.times.numerator == 1:
            return f"divide by {self.times.denominator}"
        inverse = 1 / self.times
        if is_short(self.times) or not is_short(inverse):
            return f"multiply by {written(self.times)}"
        return f"divide by {written(inverse)}"


def multiplied(text: str, times: Exact) -> str | None:
    """A figure that is multiplied, in digits, or None where it has many decimals."""
    number = Exact(text) * times if re.fullmatch(r"-?\d{1,15}(\.\d{1,12})?", text) else None
    return written(number) if number is not None and is_short(number) else None


def is_short(number: Exact) -> bool:
    """Tells whether a number has few decimals."""
    return number * 10 ** 9 == int(number * 10 ** 9)


def written(number: Exact) -> str:
    """A number in digits: exact, or in six that count."""
    if is_short(number):
        return f"{number.numerator / number.denominator:.9f}".rstrip("0").rstrip(".")
    return f"{float(number):.6g}"


def meant(text: str, measures: str | None = None) -> Meant | None:
    """The unit of the table that a text most likely is, or None.

    Where it is known what is measured, it is one that measures that, if any is.
    """
    if measures in COUNTED and text.casefold().strip(". ") in COUNTS:
        return Meant(vocabulary.units_that_measure(measures)[0], Exact(1))
    return of_table(read(text), measures) or of_table(read_parts(without_brackets(text)), measures)


def upside_down(text: str, measures: str | None) -> str | None:
    """The unit of the table that a text is the inverse of, where that measures what is wanted and a figure
    stays the same; or None.
    """
    reading = read(text)
    if reading is None or measures is None:
        return None
    inverse = Reading()
    inverse.powers = {what: -power for what, power in reading.powers.items()}
    inverse.size = 1 / reading.size
    turned = [word[1:] if word.startswith("/") else f"/{word}" for word in reading.words]
    inverse.words = sorted(turned, key=lambda word: word.startswith("/"))
    found = of_table(inverse, measures)
    if found is None or found.times != 1 or vocabulary.measured_by(found.word) != measures:
        return None
    return found.word


def of_table(reading: Reading | None, measures: str | None) -> Meant | None:
    """The unit of the table that a reading most likely is, or None."""
    if reading is None:
        return None
    if not reading.powers and reading.size != 1:
        base = vocabulary.units_that_measure(measures)[:1]
        return Meant(base[0], reading.size) if base and measures != "ratio" else None
    found = [(word, known) for word, known in table().items() if is_like(reading, known, word, measures)]
    wanted = [(word, known) for word, known in found if vocabulary.measured_by(word) == measures]
    carbon = [(word, known) for word, known in found if known.of == reading.of == "C"]
    found = carbon or wanted or [(word, known) for word, known in found if not known.of]
    if not found:
        return None
    far = [distance(reading, known) for _, known in found]
    word, known = found[far.index(min(far))]
    return Meant(word, reading.size / known.size)


def is_like(reading: Reading, of_table: Reading, word: str, measures: str | None) -> bool:
    """Tells whether a text may be a unit of the table."""
    if reading.is_half_life or of_table.is_half_life:
        return reading.is_half_life and of_table.is_half_life
    if of_table.measured != reading.measured:
        return False
    return not of_table.of or of_table.of == reading.of or \
        reading.of is None and vocabulary.measured_by(word) == measures


def distance(reading: Reading, of_table: Reading) -> tuple[bool, bool, bool, bool, float]:
    """How far a unit of the table is from a text: the same words first, then the same size, then powers of
    ten, and the least of them.
    """
    times = reading.size / of_table.size
    power = math.log10(times)
    same_form = len(reading.words) == len(of_table.words)
    return (reading.words != of_table.words or times != 1, times != 1, not is_power_of_ten(times),
            not same_form, abs(power))


def is_power_of_ten(number: Exact) -> bool:
    """Tells whether a number is a power of ten."""
    greatest = max(number.numerator, number.denominator)
    return min(number.numerator, number.denominator) == 1 and str(greatest).strip("0") == "1"


def spellings(word: str) -> str:
    """What people write for a unit of the table that has one part, and for others that measure the same."""
    reading = table().get(word)
    if reading is None or len(reading.powers) != 1:
        return ""
    (measures, _), = reading.powers.items()
    return " ".join(name for name, (what, _, _) in known().items() if what == measures)
