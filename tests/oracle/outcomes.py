"""The outcome of each node of a workbook, and rule 13."""
from enum import Enum
from functools import partial
from itertools import chain
from typing import Callable, NamedTuple, Optional, Union

from tests.oracle.expressions import value_of
from tests.oracle.intervals import LIMIT, NOTHING, OUTWARD, TOTAL_LIMIT, Bounds, Over, sum_of, within
from tests.oracle.rows import ZERO_KEYS, Binding, Figure, Refused
from tests.oracle.tables import NOT_IN_GROSS
from tests.oracle.workbook import Workbook

KINDS = ("line", "equiv", "total", "gross")
LINE, EQUIVALENT, TOTAL, GROSS = range(len(KINDS))


class Missing(Enum):
    """What an outcome is that is no value."""
    BLANK = 0
    OVERFLOW = 1


Outcome = Union[Bounds, Missing]


class Node(NamedTuple):
    """What has an outcome. Nodes stand in the order of their kinds, then names, then years."""
    kind: int
    name: str
    year: int

    def __str__(self) -> str:
        """The node as rule 13 prints it."""
        return ":".join([KINDS[self.kind]] + [self.name] * (self.kind != GROSS) + [str(self.year)])


def found(figure: Optional[Figure]) -> Outcome:
    """What a look-up gives."""
    if figure is None or figure.key == "NE":
        return Missing.BLANK
    return NOTHING if figure.key in ZERO_KEYS else figure.bounds


def known(outcomes: list[Outcome]) -> list[Bounds]:
    """The values among outcomes."""
    return [outcome for outcome in outcomes if isinstance(outcome, Bounds)]


def sum_of_bounds(parts: list[Bounds], limit: int) -> Bounds:
    """The sum of values."""
    return Bounds(sum_of([part.point for part in parts], limit),
                  sum_of([part.range for part in parts], limit))


def sum_of_known(outcomes: list[Outcome]) -> Bounds:
    """A total, to which a blank adds nothing."""
    return sum_of_bounds(known(outcomes), TOTAL_LIMIT)


class Compilation:
    """The outcomes of all nodes. Making it raises rule 13 where a node leaves the limits."""

    def __init__(self, workbook: Workbook) -> None:
        self.workbook = workbook
        self.outcomes: dict[Node, Outcome] = {}
        self.breaking: list[Node] = []
        for year in workbook.years():
            self.year(year)
        if self.breaking:
            raise Refused(f"13 Overflow {min(self.breaking)}")

    def year(self, year: int) -> None:
        """The outcomes of a year. A total has the equivalents of the lines at its code or under it."""
        codes = self.workbook.tables.codes
        totals: dict[Node, list[Outcome]] = {Node(TOTAL, code, year): [] for code in codes}
        gross = totals[Node(GROSS, "", year)] = []
        for line in self.workbook.lines:
            self.line(line, year)
            if self.workbook.equation(line).gas:
                equivalent, above = self.equivalent(line, year), self.above(line)
                for code in above:
                    totals[Node(TOTAL, code, year)].append(equivalent)
                if above and NOT_IN_GROSS not in above:
                    gross.append(equivalent)
        for node, inputs in totals.items():
            self.settle(node, inputs, partial(sum_of_known, inputs))

    def settle(self, node: Node, inputs: list[Outcome], value: Callable[[], Bounds]) -> Outcome:
        """The outcome of a node, by what it is computed from."""
        if Missing.OVERFLOW in inputs:
            outcome: Outcome = Missing.OVERFLOW
        elif Missing.BLANK in inputs and node.kind in (LINE, EQUIVALENT):
            outcome = Missing.BLANK
        else:
            try:
                outcome = value()
            except Over:
                outcome = Missing.OVERFLOW
                self.breaking.append(node)
        self.outcomes[node] = outcome
        return outcome

    def line(self, line: str, year: int) -> Outcome:
        """The outcome of a line: its expression, once over the points and once over the ranges."""
        node = Node(LINE, line, year)
        if node in self.outcomes:
            return self.outcomes[node]
        equation = self.workbook.equation(line)
        parts = {parameter: self.taken(self.workbook.bindings[line][parameter], year)
                 for parameter in equation.parameters}

        def value() -> Bounds:
            sums = {parameter: sum_of_bounds(known(of), LIMIT) for parameter, of in parts.items()}
            points = {parameter: of.point for parameter, of in sums.items()}
            ranges = {parameter: of.range for parameter, of in sums.items()}
            return Bounds(value_of(equation.expression, points, OUTWARD),
                          value_of(equation.expression, ranges, OUTWARD))

        return self.settle(node, list(chain(*parts.values())), value)

    def taken(self, binding: Binding, year: int) -> list[Outcome]:
        """What a parameter takes: the parts of a sum, or one outcome."""
        if binding.form == "key":
            return [Missing.BLANK if binding.target == "NE" else NOTHING]
        if binding.form == "activity":
            return [found(self.workbook.activity(binding.target, year))]
        if binding.form in ("factor", "decay"):
            return [found(self.workbook.factor(binding.target, year))]
        if binding.form == "prev":
            is_first = year == self.workbook.years()[0]
            return [NOTHING if is_first else self.line(binding.target, year - 1)]
        return [self.line(line, year) for line in self.workbook.taken(binding)]

    def equivalent(self, line: str, year: int) -> Outcome:
        """The outcome of an equivalent: the line times the potential of its gas."""
        potential = found(self.workbook.factor("GWP." + self.workbook.equation(line).gas, year))
        inputs = [self.line(line, year), potential]

        def value() -> Bounds:
            of_line, of_gas = known(inputs)
            return Bounds(within(OUTWARD.combined("*", of_line.point, of_gas.point), TOTAL_LIMIT),
                          within(OUTWARD.combined("*", of_line.range, of_gas.range), TOTAL_LIMIT))

        return self.settle(Node(EQUIVALENT, line, year), inputs, value)

    def above(self, line: str) -> tuple[str, ...]:
        """The codes whose totals a line counts in."""
        return self.workbook.tables.above[self.workbook.lines[line].category]

    def of(self, kind: int, name: str, year: int) -> Outcome:
        """The outcome of a node."""
        return self.outcomes[Node(kind, name, year)]
