"""Random texts of numbers, units and names."""
import random
from fractions import Fraction

from tests.oracle.rows import KEYS
from tests.oracle.tables import GASES, HALF_LIFE, TABLES

# Powers of ten below which figures of a dimension are, in its base unit: most results can be seen in print.
POWERS = {
    "t": (5, 8), "TJ": (3, 6), "ha": (4, 7), "m3": (5, 8), "head": (5, 8), "person": (6, 9), "1": (-1, 0),
    "day": (2, 3), "kg/TJ": (3, 6), "tC/TJ": (2, 2), "TJ/Gg": (2, 2), "m3/t": (1, 2), "kg/m3": (0, 2),
    "kg/head": (1, 3), "kg/head/day": (0, 1), "MJ/head/day": (2, 3), "kg/t/day": (0, 1), "m3/kg": (0, 1),
    "t/ha": (1, 3), "kg/ha/day": (0, 2), "m3/ha": (0, 2), "t/m3": (0, 1), "kg/person": (1, 2),
    "g/person/day": (2, 3), "GgC": (1, 3), "Gg-gas": (0, 2), "AEmin": (1, 3), "kg/t/AEmin": (0, 1)}
TYPICAL_POTENTIALS = dict(zip(GASES, (1, 28, 265, 6630, 11100)))
NUMBER = ("value", "low", "high", "unit")


def decimal(number: int, places: int) -> str:
    """A number of units of the last place, as a decimal."""
    digits = f"{abs(number):0{places + 1}}"
    text = digits[:-places] + "." + digits[-places:] if places else digits
    return "-" + text if number < 0 else text


class Figures:
    """Draws the columns of figures."""

    def __init__(self, source: random.Random) -> None:
        self.random = source

    def chance(self, probability: float) -> bool:
        """Whether a thing of that probability comes."""
        return self.random.random() < probability

    def unit(self, dimension: str) -> str:
        """A unit of a dimension."""
        units = TABLES.units.items()
        return self.random.choice([word for word, unit in units if unit.dimension == dimension])

    def figure(self, dimension: str) -> dict[str, str]:
        """The columns of a figure of a dimension. A round one may give ties and equal sizes."""
        if dimension == HALF_LIFE:
            return dict(zip(NUMBER, (self.half_life(), "", "", HALF_LIFE)))
        unit = self.unit(dimension)
        if self.chance(0.04):
            return dict(zip(NUMBER, (self.random.choice(KEYS), "", "", unit)))
        power = self.random.randint(*POWERS[dimension])
        share = Fraction(self.random.randint(1, 99), 100)
        if self.chance(0.7):
            share = Fraction(self.random.randrange(10**11, 10**12), 10**12)
        sign = 0 if self.chance(0.02) else -1 if self.chance(0.05) else 1
        return self.around(sign * share * 10**power / TABLES.units[unit].ratio, unit)

    def half_life(self) -> str:
        """Whole years, or years with a tenth."""
        return decimal(self.random.randint(10, 600), 1) if self.chance(0.5) else str(self.random.randint(1, 60))

    def around(self, number: Fraction, unit: str) -> dict[str, str]:
        """The columns of a number, with bounds or without, to some places."""
        places = self.random.choice((0, 1, 2, 3, 6, 12))
        if abs(number) * 10**places < 1000:
            places = 12
        value = int(number * 10**places)
        text = decimal(value, places)
        if self.chance(0.5):
            return dict(zip(NUMBER, (text, "", "", unit)))
        low, high = (self.random.choice((0, self.random.randrange(abs(value) // 4 + 1))) for _ in range(2))
        return dict(zip(NUMBER, (text, decimal(value - low, places), decimal(value + high, places), unit)))

    def potential(self, gas: str) -> dict[str, str]:
        """The columns of a potential."""
        if self.chance(0.05):
            return dict(zip(NUMBER, (self.random.choice(KEYS), "", "", "1")))
        unit = self.random.choice(("1", "t/t", "kg/kg"))
        if self.chance(0.5):
            return dict(zip(NUMBER, (str(TYPICAL_POTENTIALS[gas]), "", "", unit)))
        return self.around(Fraction(TYPICAL_POTENTIALS[gas]) * self.random.randint(7, 13) / 10, unit)

    def percentage(self) -> str:
        """A percentage of an uncertainty."""
        places = self.random.randint(0, 2)
        return decimal(self.random.randrange(self.random.choice((10, 100, 1000)) * 10**places), places)
