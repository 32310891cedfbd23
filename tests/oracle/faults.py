"""Random faults: bodies that break a rule, most of them beside rows that break none."""
from collections.abc import Callable

from tests.limits import limit
from tests.oracle.changes import Changes, Row, row
from tests.oracle.rows import FIRST_YEAR, HEADER, LAST_YEAR
from tests.oracle.tables import HALF_LIFE, POTENTIALS, TABLES
from tests.oracle.workbook import reached

JUNK = ("", " ", "x", "-", "NE", "C", "1e3", "-0", "+1", "1.5", "0.1234567890123", "123456789012345", "1990",
        "1899", "61", "1A", "0", "MB", "3B1", "yr", "kg", "pct", "Q10", "Q18", "sum", "decay", "GWP.CH4",
        "GWP.SF6", "A B", "A  B", "A A", "FC", "fc", "ABCDEFGHI", "A.NAME-THAT_IS.TOO-LONG-1", "enter", "é")
MOST = "99999999999999"
# Half-lives, of which each format has some.
YEARS = ("0", "0.9", "1", "1.0", "1.50", "1.", ".5", "60", "60.0", "60.1", "61", "005", "05", "5.5 ", "-5", "NO")


class Faults:
    """Draws rows that break a rule, given rows that break none."""

    def __init__(self, changes: Changes) -> None:
        self.changes = changes
        self.random = changes.random
        self.workbook = changes.workbook

    def any(self) -> list[Row]:
        """Rows of one fault: of a method below, and of the first one twice as often."""
        below: list[Callable[[Faults], list[Row]]] = [
            method for name, method in vars(Faults).items() if name != "any" and not name.startswith("_")]
        return self.random.choice([below[0], *below])(self)

    def junk(self) -> list[Row]:
        """A column of a row that holds something else: rules 5 to 10."""
        rows = self.changes.any()
        self.random.choice(rows)[self.random.choice(HEADER[:9])] = self.random.choice(JUNK)
        return rows

    def disorder(self) -> list[Row]:
        """Rule 7: bounds that are the wrong way round, or a base year outside the span."""
        if self.changes.figures.chance(0.2):
            base = self.random.choice(("1989", "1996"))
            return [row("correct", "span", year="1990", value="1995", low=base)]
        kind, name, year, dimension = self.changes.some_figure()
        unit = self.changes.figures.unit(dimension)
        low, value, high = self.random.choice((("3", "2", "4"), ("1", "3", "2"), ("-1", "-1.5", "0")))
        return [row("correct", kind, name=name, year=year, value=value, low=low, high=high, unit=unit)]

    def other_unit(self) -> list[Row]:
        """Rule 8: a unit of another dimension."""
        kind, name, year, _ = self.changes.some_figure()
        unit = self.random.choice(list(TABLES.units))
        return [row("correct", kind, name=name, year=year, value="12", unit=unit)]

    def misplaced_unit(self) -> list[Row]:
        """Rule 8: an activity in years, and a potential that is no ratio."""
        if self.changes.figures.chance(0.5):
            return [row("enter", "activity", name="NEW", year="1990", value="12", unit=HALF_LIFE)]
        potential = self.random.choice(POTENTIALS)
        return [row("enter", "factor", name=potential, year="1901", value="12", unit="kg/TJ")]

    def half_life(self) -> list[Row]:
        """Rule 6: a half-life that no format has, or one of them alone, or with bounds."""
        bounds = {"low": "1", "high": "60"} if self.changes.figures.chance(0.1) else {}
        return [row("enter", "factor", name=self.changes.new_name("H"), year="1990",
                    value=self.random.choice(YEARS), unit=HALF_LIFE, **bounds)]

    def twice(self) -> list[Row]:
        """Rule 9: what is there already."""
        kind, name, year, dimension = self.changes.some_figure()
        rows = [row("enter", kind, name=name, year=year, **self.changes.figures.figure(dimension)),
                row("enter", "span", year="1990", value="1991", low="1990"),
                row("enter", "line", subject="1A2", name=self.changes.some_line(), value="Q10"),
                self.changes.uncertainty("enter", self.changes.some_line())]
        return [self.random.choice(rows)]

    def absent(self) -> list[Row]:
        """Rule 9: what is not there."""
        act = self.random.choice(("correct", "withdraw"))
        figure = {} if act == "withdraw" else {"value": "1", "unit": "t"}
        line = {} if act == "withdraw" else {"subject": "1A2", "value": "Q10"}
        rows = [row(act, "activity", name="NONE", year="1990", **figure),
                row(act, "line", name="NONE", **line),
                row("withdraw", "bind", subject=self.changes.some_line(), name="NONE"),
                row("withdraw", "uncert", name="NONE")]
        return [self.random.choice(rows)]

    def unsound(self) -> list[Row]:
        """Rule 10: a binding to what is not there or measures something else, or of what no equation has."""
        rows = self.changes.other_binding()
        binding = rows[0]
        lines = list(self.workbook.lines) + ["NONE"]
        names = [name for _, name in self.workbook.figures if name not in POTENTIALS] + ["NONE"]
        few = self.random.sample(lines, min(2, len(lines)))
        targets = {"line": few[0], "prev": few[0], "sum": " ".join(few),
                   **{form: self.random.choice(names) for form in ("activity", "factor", "decay")}}
        binding["value"], binding["low"] = self.random.choice(list(targets.items()))
        if self.changes.figures.chance(0.2):
            binding.update(act="enter", name="XX")
        return rows

    def unsound_decay(self) -> list[Row]:
        """Rule 10: a decay factor that is taken from elsewhere."""
        rows = self.changes.new_line(self.random.choice(("Q91", "Q92")))
        decay = next(each for each in rows if each.get("name") == "D")
        decay["value"], decay["low"] = self.random.choice((("key", "NO"), ("factor", decay["low"])))
        return rows

    def unbound(self) -> list[Row]:
        """Rule 10: a binding less, or a line less that leaves bindings."""
        line = self.changes.some_line()
        if self.changes.figures.chance(0.5):
            return [row("withdraw", "line", name=line)]
        parameters = list(self.workbook.bindings.get(line, {})) or ["FC"]
        return [row("withdraw", "bind", subject=line, name=self.random.choice(parameters))]

    def lone_uncertainty(self) -> list[Row]:
        """Rule 10: an uncertainty of no line."""
        return [self.changes.uncertainty("enter", "NONE")]

    def long_span(self) -> list[Row]:
        """Rule 11: a span of too many years."""
        last = self.random.choice((FIRST_YEAR + limit("span") + 1, LAST_YEAR))
        return [row("correct", "span", year=str(FIRST_YEAR), value=str(last), low="1950")]

    def cycle(self) -> list[Row]:
        """Rule 12: lines in a cycle, among those that are there or new ones."""
        cycles = [(line, parameter, other) for line in self.workbook.lines
                  for parameter, dimension in self.workbook.equation(line).parameters.items()
                  for other in self.workbook.lines if self.workbook.equation(other).dimension == dimension
                  if other == line or line in reached(self.workbook, other)]
        if cycles and self.changes.figures.chance(0.7):
            line, parameter, other = self.random.choice(cycles)
            form = self.random.choice(("line", "sum"))
            return [row("correct", "bind", subject=line, name=parameter, value=form, low=other)]
        names = [self.changes.new_name("R") for _ in range(self.random.randint(1, 3))]
        rows: list[Row] = []
        for name, following in zip(names, names[1:] + names[:1]):
            rows += [row("enter", "line", subject="3B1", name=name, value="Q83"),
                     row("enter", "bind", subject=name, name="G", value="line", low=following),
                     row("enter", "bind", subject=name, name="L", value="key", low="NO")]
        return rows

    def overflow(self) -> list[Row]:
        """Rule 13: a new line or an old one that is given the largest figures."""
        if self.changes.figures.chance(0.5):
            kind, name, year, dimension = self.changes.some_figure()
            return [row("correct", kind, name=name, year=year, value=MOST, unit=dimension)]
        rows = self.changes.new_line()
        for each in rows:
            if each["kind"] in ("activity", "factor") and each["unit"] != HALF_LIFE:
                base = TABLES.units[each["unit"]].dimension
                each.update(value=self.random.choice((MOST, "-" + MOST)), low="", high="", unit=base)
        return rows

    def overflow_of_totals(self) -> list[Row]:
        """Rule 13: a potential that takes equivalents or totals beyond their limit."""
        potentials = [(name, year) for (_, name), of_name in self.workbook.figures.items()
                      if name in POTENTIALS for year in of_name]
        name, year = self.random.choice(potentials or [("GWP.CO2", 1990)])
        number = str(self.random.randrange(1, 10)) + "0" * self.random.randint(5, 10)
        return [row("correct", "factor", name=name, year=str(year), value=number, unit="1")]
