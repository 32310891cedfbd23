"""The inventory that `generate` makes up, and the summary of its run. No part of it is made of the code."""
from typing import Iterator, NamedTuple

from tests.oracle.expressions import value_of
from tests.oracle.intervals import OUTWARD, SCALE, TOTAL_LIMIT, Bounds, Interval
from tests.oracle.model import Office, Submit
from tests.oracle.outcomes import EQUIVALENT, GROSS, LINE, TOTAL, Node, Outcome, found, sum_of_bounds
from tests.oracle.printing import three
from tests.oracle.rows import HEADER
from tests.oracle.tables import NOT_IN_GROSS, TABLES
from tests.oracle.workbook import Workbook

FIRST, LAST = 1990, 2020
POTENTIALS = {"CO2": 1, "CH4": 25, "N2O": 298}
# What lines take in turn.
CATEGORIES = ["1A1a", "1A1b", "1A1c", "1A2", "1A3a", "1A3b", "1A3c", "1A4a", "1A4b", "1A5"]
EQUATIONS = ["Q10", "Q11", "Q12"]
MULTIPLIER, ADDEND, MODULUS, DIVISOR = 1103515245, 12345, 2**31, 65536
# The years of the activities, in the order in which they are drawn.
YEARS = range(LAST, FIRST - 1, -1)


class Kind(NamedTuple):
    """What figures of a kind are: from the least one so many, with bounds at a distance, in a unit."""
    least: int
    many: int
    distance: int
    unit: str


FACTOR = Kind(1000, 9000, 100, "kg/TJ")
ACTIVITY = Kind(100, 900, 5, "TJ")


class Figure(NamedTuple):
    """A figure that is drawn."""
    kind: Kind
    value: int

    def low(self) -> int:
        return self.value - self.kind.distance

    def high(self) -> int:
        return self.value + self.kind.distance

    def columns(self) -> str:
        """The columns from the value to the unit."""
        return f"{self.value},{self.low()},{self.high()},{self.kind.unit}"


class MadeLine(NamedTuple):
    """A line with its figures."""
    number: int
    factor: Figure
    activities: dict[int, Figure]

    def category(self) -> str:
        return CATEGORIES[(self.number - 1) % len(CATEGORIES)]

    def equation(self) -> str:
        return EQUATIONS[(self.number - 1) % len(EQUATIONS)]

    def above(self) -> tuple[str, ...]:
        """The codes whose totals the line counts in."""
        return TABLES.above[self.category()]

    def rows(self) -> list[str]:
        """The rows that enter the line."""
        line, activity, factor = (f"{letter}{self.number:04}" for letter in "LAF")
        return [f"enter,line,{self.category()},{line},,{self.equation()},,,,",
                f"enter,bind,{line},FC,,activity,{activity},,,",
                f"enter,bind,{line},EF,,factor,{factor},,,",
                f"enter,factor,,{factor},{FIRST},{self.factor.columns()},"] + [
            f"enter,activity,,{activity},{year},{fuel.columns()}," for year, fuel in self.activities.items()]

    def equivalent(self, year: int) -> Bounds:
        """The equivalent of the line."""
        fuel, factor = self.activities[year], self.factor
        return Bounds(self.product(Interval(fuel.value, fuel.value), Interval(factor.value, factor.value)),
                      self.product(Interval(fuel.low(), fuel.high()), Interval(factor.low(), factor.high())))

    def product(self, fuel: Interval, factor: Interval) -> Interval:
        """The equivalent by one interval of whole numbers for each parameter."""
        equation = TABLES.equations[self.equation()]
        inputs = {name: Interval(whole.low * SCALE, whole.high * SCALE)
                  for name, whole in (("FC", fuel), ("EF", factor))}
        return OUTWARD.combined("*", value_of(equation.expression, inputs, OUTWARD),
                                OUTWARD.whole(POTENTIALS[equation.gas]))


def draws(seed: int) -> Iterator[int]:
    """The numbers that a seed decides."""
    number = seed
    while True:
        number = (MULTIPLIER * number + ADDEND) % MODULUS
        yield number // DIVISOR


def made_lines(seed: int, count: int) -> list[MadeLine]:
    """So many lines."""
    source = draws(seed)

    def figure(kind: Kind) -> Figure:
        return Figure(kind, kind.least + next(source) % kind.many)

    return [MadeLine(number, figure(FACTOR), {year: figure(ACTIVITY) for year in YEARS})
            for number in range(1, count + 1)]


def submissions(lines: list[MadeLine]) -> list[Submit]:
    """The submissions that enter lines."""
    opening = [f"enter,span,,,{FIRST},{LAST},{FIRST},,,"] + [
        f"enter,factor,,GWP.{gas},{FIRST},{potential},,,1," for gas, potential in POTENTIALS.items()]
    return [Submit(b"G%d" % number, "".join(f"{row}\n" for row in [",".join(HEADER)] + rows).encode())
            for number, rows in enumerate([opening] + [line.rows() for line in lines])]


# ---- the summary, in two ways

def summary_text(seed: int, lines: int, cells: int, gross: Outcome) -> str:
    """The summary, in which all submissions are accepted."""
    return (f"seed {seed}\nlines {lines}\naccepted {lines + 1}\ncells {cells}\n"
            f"gross {LAST} {' '.join(three(gross))}\n")


def summary(seed: int, count: int) -> str:
    """The summary that is due. The first submission affects all totals; that of a line affects the line, its
    equivalent and the totals in which it counts.
    """
    lines = made_lines(seed, count)
    of_year = len(TABLES.codes) + 1 + sum(2 + len(line.above()) + 1 for line in lines)
    gross = sum_of_bounds([line.equivalent(LAST) for line in lines], TOTAL_LIMIT)
    return summary_text(seed, count, of_year * len(YEARS), gross)


def summary_in_turn(seed: int, count: int) -> str:
    """The same, by an office that takes one submission after the other."""
    office, cells = Office(), 0
    for number, given in enumerate(submissions(made_lines(seed, count)), 1):
        before = office.compilation.workbook
        if office.answer(given) != f"accepted {number}\n":
            raise ValueError(given)
        cells += len(affected(before, office.compilation.workbook))
    return summary_text(seed, count, cells, office.compilation.of(GROSS, "", LAST))


# The code of a line's equation, and the figures and nodes that a node is computed from.
Formula = tuple[str, list[Outcome], list[Node]]


def formulas(workbook: Workbook) -> dict[Node, Formula]:
    """The formula of each node of a workbook whose lines take figures alone."""
    of_nodes: dict[Node, Formula] = {}
    for year in workbook.years():
        totals: dict[Node, list[Node]] = {Node(TOTAL, code, year): [] for code in TABLES.codes}
        gross = totals[Node(GROSS, "", year)] = []
        for name, line in workbook.lines.items():
            bound, above = workbook.bindings[name], TABLES.above[line.category]
            figures = [workbook.activity(bound["FC"].target, year), workbook.factor(bound["EF"].target, year)]
            potential = workbook.factor("GWP." + workbook.equation(name).gas, year)
            of_line, equivalent = Node(LINE, name, year), Node(EQUIVALENT, name, year)
            of_nodes[of_line] = line.equation, [found(figure) for figure in figures], []
            of_nodes[equivalent] = "", [found(potential)], [of_line]
            for code in above:
                totals[Node(TOTAL, code, year)].append(equivalent)
            gross += [equivalent] * (NOT_IN_GROSS not in above)
        of_nodes.update({node: ("", [], inputs) for node, inputs in totals.items()})
    return of_nodes


def affected(before: Workbook, after: Workbook) -> set[Node]:
    """The nodes that are new or whose formula has changed, and all that they reach."""
    old, new = formulas(before), formulas(after)
    takers: dict[Node, list[Node]] = {}
    for node, (_, _, inputs) in new.items():
        for taken in inputs:
            takers.setdefault(taken, []).append(node)
    reached = {node for node in new if old.get(node) != new[node]}
    ahead = list(reached)
    while ahead:
        fresh = set(takers.get(ahead.pop(), [])) - reached
        reached |= fresh
        ahead += fresh
    return reached
