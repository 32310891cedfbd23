"""The text of the tables."""
import inspect
from typing import Callable, Iterable, Iterator, NamedTuple, Optional, Sequence

from tests.oracle.intervals import Bounds, Interval, ceiling, nearest, root_bracket
from tests.oracle.outcomes import EQUIVALENT, GROSS, LINE, TOTAL, Compilation, Outcome, known
from tests.oracle.tables import GASES

# 10^-12 of a Gg in a tonne, and in a millionth of a base unit.
TONNE = 10**9
MILLIONTH = 10**6


def fixed(number: int, places: int) -> str:
    """A number with so many decimals."""
    whole, rest = divmod(abs(number), 10**places)
    return ("-" if number < 0 else "") + f"{whole}.{rest:0{places}}"


def percent(number: int, divisor: int) -> str:
    """A quotient as a percentage."""
    return fixed(nearest(10_000 * number, divisor), 2)


def flag(holds: bool) -> str:
    """The word of a flag."""
    return "yes" if holds else "no"


def reported(points: Iterable[Interval]) -> int:
    """The reported value of the sum of points, in tonnes."""
    return nearest(sum(point.low + point.high for point in points), 2 * TONNE)


def three(outcome: Outcome, unit: int = TONNE, places: int = 3) -> list[str]:
    """A value and its bounds."""
    if not isinstance(outcome, Bounds):
        return ["NE"] * 3
    return [fixed(nearest(sum(outcome.point), 2 * unit), places), fixed(outcome.range.low // unit, places),
            fixed(ceiling(outcome.range.high, unit), places)]


class Pair(NamedTuple):
    """A category and a gas."""
    category: str
    gas: str

    def place(self) -> tuple[str, int]:
        """Where the pair stands among those of its size."""
        return self.category, GASES.index(self.gas)


class Printer:
    """Prints tables of a year."""

    def __init__(self, compilation: Compilation, year: int) -> None:
        self.compilation = compilation
        self.workbook = compilation.workbook
        self.year = year
        self.lines = sorted(self.workbook.lines)
        self.first = self.workbook.years()[0]

    def gas(self, line: str) -> str:
        """The gas of a line, if it has one."""
        return self.workbook.equation(line).gas

    def in_tree(self) -> list[str]:
        """The lines in the tree that emit a gas."""
        return [line for line in self.lines if self.gas(line) and self.compilation.above(line)]

    def cells(self) -> Iterator[list[str]]:
        """Each line."""
        yield ["code", "category", "equation", "gas", "unit", "value", "low", "high"]
        for name in self.lines:
            line, outcome = self.workbook.lines[name], self.compilation.of(LINE, name, self.year)
            base_unit = self.workbook.equation(name).dimension
            if self.gas(name):
                yield [name, *line, self.gas(name), "Gg", *three(outcome)]
            else:
                yield [name, *line, "-", base_unit, *three(outcome, MILLIONTH, 6)]

    def summary(self) -> Iterator[list[str]]:
        """Each total."""
        yield ["category", "value", "low", "high"]
        for code in self.workbook.tables.codes:
            yield [code, *three(self.compilation.of(TOTAL, code, self.year))]
        yield ["gross", *three(self.compilation.of(GROSS, "", self.year))]

    def series(self) -> Iterator[list[str]]:
        """The national totals of each year."""
        yield ["year", "total", "total_low", "total_high", "gross", "gross_low", "gross_high"]
        for year in range(self.first, self.year + 1):
            yield [str(year), *three(self.compilation.of(TOTAL, "0", year)),
                   *three(self.compilation.of(GROSS, "", year))]

    def carbon_dioxide(self, lines: Iterable[str]) -> int:
        """The reported value of the sum of those lines that emit CO2."""
        outcomes = [self.compilation.of(LINE, line, self.year) for line in lines if self.gas(line) == "CO2"]
        return reported(value.point for value in known(outcomes))

    def reference(self) -> Iterator[list[str]]:
        """The two approaches for fuel combustion."""
        of_lines = self.workbook.lines
        reference = self.carbon_dioxide(line for line in self.lines if of_lines[line].category == "RA")
        sectoral = self.carbon_dioxide(line for line in self.lines if "1A" in self.compilation.above(line))
        difference = reference - sectoral
        yield ["item", "value"]
        yield ["reference", fixed(reference, 3)]
        yield ["sectoral", fixed(sectoral, 3)]
        yield ["difference", fixed(difference, 3)]
        yield ["percent", percent(difference, abs(sectoral)) if sectoral else "-"]
        yield ["flag", flag(20 * abs(difference) > abs(sectoral)) if sectoral else "-"]

    def uncertainty(self) -> Iterator[list[str]]:
        """The propagation of errors."""
        yield ["code", "category", "gas", "value", "activity", "factor", "combined_low", "combined_high"]
        total = squares = 0
        is_whole = True
        for line in self.in_tree():
            outcome = self.compilation.of(EQUIVALENT, line, self.year)
            tonnes = reported(value.point for value in known([outcome]))
            uncertainty = self.workbook.uncertainties.get(line)
            percentages = ["-"] * 4
            if uncertainty:
                square = uncertainty.activity**2 + uncertainty.factor**2
                squares += square * tonnes**2
                percentages = [fixed(number, 2) for number in (*uncertainty, *root_bracket(square))]
            is_whole = is_whole and (uncertainty is not None or tonnes == 0)
            total += tonnes
            yield [line, self.workbook.lines[line].category, self.gas(line), three(outcome)[0], *percentages]
        bounds = ["-", "-"]
        if total and is_whole:
            low, high = root_bracket(squares)
            bounds = [fixed(low // abs(total), 2), fixed(ceiling(high, abs(total)), 2)]
        yield ["total", "-", "-", fixed(total, 3), "-", "-", *bounds]

    def pairs(self, year: int) -> dict[Pair, int]:
        """The reported value of each pair in a year, by category and gas."""
        points: dict[Pair, list[Interval]] = {}
        for line in self.in_tree():
            of_pair = points.setdefault(Pair(self.workbook.lines[line].category, self.gas(line)), [])
            of_pair += [value.point for value in known([self.compilation.of(EQUIVALENT, line, year)])]
        return {pair: reported(points[pair]) for pair in sorted(points, key=Pair.place)}

    def level(self) -> Iterator[list[str]]:
        """The key categories of the year."""
        values = self.pairs(self.year)
        yield ["category", "gas", "value", "share", "cumulative", "key"]
        for pair, shares in shared({pair: abs(value) for pair, value in values.items()}):
            yield [*pair, fixed(values[pair], 3), *shares]

    def trend(self) -> Iterator[list[str]]:
        """The key categories of the trend."""
        yield ["category", "gas", "base", "value", "trend", "share", "cumulative", "key"]
        values = self.pairs(self.year)
        base = self.pairs(self.workbook.span.base if self.workbook.span else 0)
        of_base, of_year = sum(base.values()), sum(values.values())
        sizes = {pair: abs((values[pair] - base[pair]) * abs(of_base) - (of_year - of_base) * abs(base[pair]))
                 for pair in values}
        divisor = abs(of_base) * sum(abs(value) for value in base.values())
        if of_base == 0:
            for pair in values:
                yield [*pair, fixed(base[pair], 3), fixed(values[pair], 3), "-", "-", "-", "no"]
            return
        for pair, shares in shared(sizes):
            of_pair = percent(sizes[pair], divisor)
            yield [*pair, fixed(base[pair], 3), fixed(values[pair], 3), of_pair, *shares]

    def checks(self) -> Iterator[list[str]]:
        """The changes since the year before."""
        yield ["category", "gas", "previous", "value", "change", "flag"]
        previous = {} if self.year == self.first else self.pairs(self.year - 1)
        for pair, value in self.pairs(self.year).items():
            yield [*pair, *changed(previous.get(pair), value)]


def changed(previous: Optional[int], value: int) -> list[str]:
    """The last four columns of `checks`."""
    if previous is None:
        return ["-", fixed(value, 3), "-", "-"]
    if previous == 0:
        return [fixed(previous, 3), fixed(value, 3), "-", "-"]
    return [fixed(previous, 3), fixed(value, 3), percent(value - previous, abs(previous)),
            flag(5 * abs(value - previous) > abs(previous))]


def shared(sizes: dict[Pair, int]) -> Iterator[tuple[Pair, Sequence[str]]]:
    """The pairs by size, with the columns `share`, `cumulative` and `key`."""
    total, before = sum(sizes.values()), 0
    for pair in sorted(sizes, key=lambda pair: (-sizes[pair], pair.place())):
        size = sizes[pair]
        if total:
            yield pair, (percent(size, total), percent(before + size, total), flag(20 * before < 19 * total))
        else:
            yield pair, ("-", "-", "no")
        before += size


# Each generator of the printer is a table, by its name.
TABLES: dict[str, Callable[[Printer], Iterator[list[str]]]] = {
    name: printed for name, printed in vars(Printer).items() if inspect.isgeneratorfunction(printed)}
