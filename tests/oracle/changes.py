"""Random changes to a workbook, each a list of rows."""
import random
from typing import Callable, Optional

from tests.oracle.figures import Figures
from tests.oracle.rows import KEYS
from tests.oracle.tables import DECAY, GASES, HALF_LIFE, MEMO_CODES, POTENTIALS, TABLES
from tests.oracle.workbook import Workbook

Row = dict[str, str]
LETTERS = ("A", "B", "LINE", "X.", "X-", "X_", "Z9")


def row(act: str, kind: str, **columns: str) -> Row:
    """A row, by its columns that are not empty."""
    return {"act": act, "kind": kind, **columns}


class Changes:
    """Draws changes to a workbook. Those of one body know of each other's new names."""

    def __init__(self, source: random.Random, workbook: Workbook, uncertain: float) -> None:
        self.random = source
        self.uncertain = uncertain
        self.figures = Figures(source)
        self.workbook = workbook
        self.lines = {name: line.equation for name, line in workbook.lines.items()}
        self.names: dict[tuple[str, str], list[str]] = {}
        for (kind, name), of_name in workbook.figures.items():
            if name not in POTENTIALS:
                dimension = next(iter(of_name.values())).dimension
                self.names.setdefault((kind, dimension), []).append(name)

    def new_name(self, begin: str) -> str:
        """A name that is likely to be new."""
        return f"{begin}{self.random.randrange(100_000)}"

    def years(self) -> range:
        """The years of the span."""
        return self.workbook.years() or range(1990, 1993)

    def outputs(self, dimension: str) -> list[str]:
        """The lines whose output has a dimension."""
        return [name for name, code in self.lines.items() if TABLES.equations[code].dimension == dimension]

    def new_line(self, code: Optional[str] = None) -> list[Row]:
        """A line with its bindings and its figures."""
        code = code or self.random.choice(list(TABLES.equations))
        name = self.new_name(self.random.choice(LETTERS))
        rows = [row("enter", "line", subject=self.category(), name=name, value=code)]
        for parameter in TABLES.equations[code].parameters:
            rows += self.binding("enter", name, code, parameter)
        self.lines[name] = code
        if self.figures.chance(self.uncertain):
            rows.append(self.uncertainty("enter", name))
        return rows

    def category(self) -> str:
        """A leaf."""
        return self.random.choice(MEMO_CODES if self.figures.chance(0.1) else TABLES.leaves)

    def uncertainty(self, act: str, line: str) -> Row:
        """The percentages of a line."""
        return row(act, "uncert", name=line, value=self.figures.percentage(), low=self.figures.percentage())

    def binding(self, act: str, line: str, code: str, parameter: str) -> list[Row]:
        """The binding of a parameter, with the rows that it needs."""
        dimension = TABLES.equations[code].parameters[parameter]
        form, target, rows = self.target(line, code, dimension)
        return [row(act, "bind", subject=line, name=parameter, value=form, low=target)] + rows

    def target(self, line: str, code: str, dimension: str) -> tuple[str, str, list[Row]]:
        """The form and the target of a binding, and the rows that it needs."""
        if dimension == DECAY:
            name, rows = self.named("factor", HALF_LIFE)
            return "decay", name, rows
        if self.figures.chance(0.06):
            return "key", self.random.choice(KEYS), []
        lines = self.outputs(dimension)
        is_own = TABLES.equations[code].dimension == dimension
        if (lines or is_own) and self.figures.chance(0.5):
            form = self.random.choice(("line", "sum", "prev")) if lines else "prev"
            if form == "prev":
                return form, self.random.choice(lines + [line] * is_own), []
            count = self.random.randint(1, min(4, len(lines))) if form == "sum" else 1
            return form, " ".join(self.random.sample(lines, count)), []
        form = self.random.choice(("activity", "factor"))
        name, rows = self.named(form, dimension)
        return form, name, rows

    def named(self, kind: str, dimension: str) -> tuple[str, list[Row]]:
        """An activity or a factor of a dimension, and its rows if it is new."""
        names = self.names.setdefault((kind, dimension), [])
        if names and self.figures.chance(0.3):
            return self.random.choice(names), []
        names.append(self.new_name(kind[0].upper()))
        return names[-1], self.rows_of(kind, names[-1], dimension)

    def rows_of(self, kind: str, name: str, dimension: str) -> list[Row]:
        """The rows of an activity or a factor."""
        years = self.years()
        if kind == "activity":
            of_name = [year for year in years if self.figures.chance(0.98)] or [years[0]]
        else:
            of_name = [years[0] - self.random.choice((0, 0, 0, 1, 9))]
            of_name += [year for year in years[1:] if self.figures.chance(0.2)]
        return [row("enter", kind, name=name, year=str(year), **self.figures.figure(dimension))
                for year in of_name]

    def opening(self) -> list[Row]:
        """The span and the potentials."""
        first = self.random.randint(1985, 2020)
        last = first + self.random.randint(0, 5)
        base = self.random.randint(first, last)
        rows = [row("enter", "span", year=str(first), value=str(last), low=str(base))]
        for gas in GASES:
            starts = [first - self.random.choice((0, 0, 5))] * self.figures.chance(0.95)
            starts += [first + 2] * self.figures.chance(0.2)
            rows += [row("enter", "factor", name="GWP." + gas, year=str(start),
                         **self.figures.potential(gas)) for start in starts]
        return rows

    def corrected_figure(self) -> list[Row]:
        """Another figure for a record, a new one beside it, or one less."""
        kind, name, year, dimension = self.some_figure()
        act = self.random.choice(("correct", "correct", "correct", "enter", "withdraw"))
        if act == "withdraw":
            return [row(act, kind, name=name, year=year)]
        if act == "enter":
            year = str(self.random.randint(self.years()[0] - 1, self.years()[-1] + 1))
        if name in POTENTIALS:
            return [row(act, kind, name=name, year=year, **self.figures.potential(name[4:]))]
        return [row(act, kind, name=name, year=year, **self.figures.figure(dimension))]

    def some_figure(self) -> tuple[str, str, str, str]:
        """The kind, name, year and dimension of a record."""
        records = [(kind, name, str(year), figure.dimension)
                   for (kind, name), of_name in self.workbook.figures.items()
                   for year, figure in of_name.items()]
        return self.random.choice(records or [("factor", "GWP.CO2", "1990", "1")])

    def some_line(self) -> str:
        """A line that is there, if one is."""
        return self.random.choice(list(self.workbook.lines) or ["NO-LINE"])

    def moved_line(self) -> list[Row]:
        """Another category for a line."""
        line = self.some_line()
        return [row("correct", "line", subject=self.category(), name=line, value=self.lines.get(line, "Q10"))]

    def other_binding(self) -> list[Row]:
        """Another binding for a parameter of a line."""
        line = self.some_line()
        code = self.lines.get(line, "Q10")
        parameter = self.random.choice(list(TABLES.equations[code].parameters))
        return self.binding("correct", line, code, parameter)

    def other_equation(self) -> list[Row]:
        """Another equation for a line, with all its bindings."""
        line = self.some_line()
        bound = self.workbook.bindings.get(line, {})
        output = TABLES.equations[self.lines.get(line, "Q10")].dimension
        code = self.random.choice([code for code, of in TABLES.equations.items() if of.dimension == output])
        rows = [row("correct", "line", subject=self.category(), name=line, value=code)]
        for parameter in TABLES.equations[code].parameters:
            rows += self.binding("correct" if parameter in bound else "enter", line, code, parameter)
        return rows + [row("withdraw", "bind", subject=line, name=parameter)
                       for parameter in bound if parameter not in TABLES.equations[code].parameters]

    def withdrawn_line(self) -> list[Row]:
        """A line less, with its bindings and its uncertainty."""
        line = self.some_line()
        rows = [row("withdraw", "bind", subject=line, name=parameter)
                for parameter in self.workbook.bindings.get(line, {})]
        rows += [row("withdraw", "uncert", name=line)] * (line in self.workbook.uncertainties)
        return rows + [row("withdraw", "line", name=line)]

    def other_uncertainty(self) -> list[Row]:
        """Percentages that change, come or go."""
        line = self.some_line()
        if line not in self.workbook.uncertainties:
            return [self.uncertainty("enter", line)]
        if self.figures.chance(0.3):
            return [row("withdraw", "uncert", name=line)]
        return [self.uncertainty("correct", line)]

    def other_span(self) -> list[Row]:
        """A span that is longer or shorter."""
        years = self.years()
        first, last = years[0] + self.random.randint(-1, 1), years[-1] + self.random.randint(0, 1)
        last = max(first, last)
        act = "correct" if self.workbook.span else "enter"
        base = self.random.randint(first, last)
        return [row(act, "span", year=str(first), value=str(last), low=str(base))]

    def any(self) -> list[Row]:
        """One change of any kind."""
        if self.figures.chance(0.02):
            return self.other_span()
        kinds: tuple[Callable[[], list[Row]], ...] = (
            self.corrected_figure, self.corrected_figure, self.moved_line, self.other_binding,
            self.other_equation, self.withdrawn_line, self.other_uncertainty, self.new_line)
        return self.random.choice(kinds)()
