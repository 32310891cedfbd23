"""The records of a workbook by their keys, as the accepted rows left them: to say where something stands,
never to judge.
"""
from tools import vocabulary
from tools.sheets import Key, Row, Sheet
from tools.vocabulary import Parameter


# What kind of record a form of a binding takes. A half-life is a factor.
KIND_TAKEN = {"activity": "activity", "factor": "factor", "decay": "factor"}


class Book:
    """What is in force: of each key the row that set it last, the row that entered it, and the row that
    withdrew it.

    Keys are tuples: ("activity", name, year), ("factor", name, year), ("line", name), ("bind", line,
    parameter), ("uncert", line), ("span",).
    """

    def __init__(self) -> None:
        self.rows: dict[Key, Row] = {}
        self.entered: dict[Key, Row] = {}
        self.withdrawn: dict[Key, Row] = {}
        self.years: dict[str, dict[str, dict[int, Row]]] = {"activity": {}, "factor": {}}
        self.bindings: dict[str, dict[str, Row]] = {}
        self.lines: dict[str, Row] = {}
        self.uncertainties: dict[str, Row] = {}
        self._taken: dict[tuple[str, str], list[Row]] | None = None

    def copy(self) -> "Book":
        """A book of its own with the same records."""
        other = Book()
        other.rows, other.entered = dict(self.rows), dict(self.entered)
        other.withdrawn = dict(self.withdrawn)
        for kind, named in self.years.items():
            other.years[kind] = {name: dict(years) for name, years in named.items()}
        other.bindings = {line: dict(bound) for line, bound in self.bindings.items()}
        other.lines, other.uncertainties = dict(self.lines), dict(self.uncertainties)
        return other

    def apply(self, row: Row) -> None:
        """Applies an accepted row."""
        key, act = row.key, row.field("act")
        if act == "withdraw":
            self.withdrawn[key] = row
            self._take_out(key)
            return
        if act == "enter":
            self.entered[key] = row
        self.rows[key] = row
        if key[0] in self.years:
            self.years[key[0]].setdefault(key[1], {})[int(key[2])] = row
        elif key[0] == "line":
            self.lines[key[1]] = row
        elif key[0] == "uncert":
            self.uncertainties[key[1]] = row
        elif key[0] == "bind":
            self.bindings.setdefault(key[1], {})[key[2]] = row
            self._taken = None

    def _take_out(self, key: Key) -> None:
        self.rows.pop(key, None)
        if key[0] in self.years:
            named = self.years[key[0]].get(key[1], {})
            named.pop(int(key[2]), None)
            if not named:
                self.years[key[0]].pop(key[1], None)
        elif key[0] == "line":
            self.lines.pop(key[1], None)
        elif key[0] == "uncert":
            self.uncertainties.pop(key[1], None)
        elif key[0] == "bind":
            self.bindings.get(key[1], {}).pop(key[2], None)
            self._taken = None

    @property
    def span(self) -> tuple[int, int] | None:
        """The first and the last year, or None."""
        return self.known_span() if ("span",) in self.rows else None

    def known_span(self) -> tuple[int, int]:
        """The first and the last year of the span, which is in force."""
        row = self.rows["span",]
        return int(row.field("year")), int(row.field("value"))

    def some_record(self, kind: str, name: str) -> Row | None:
        """The earliest record of an activity or a factor, or None."""
        return self.known_record(kind, name) if self.years[kind].get(name) else None

    def known_record(self, kind: str, name: str) -> Row:
        """The earliest record of an activity or a factor that is in force."""
        years = self.years[kind][name]
        return years[min(years)]

    def record_named(self, name: str) -> tuple[str, Row] | None:
        """The kind and the earliest record of an activity or a factor of a name, or None."""
        kind = next((kind for kind in self.years if self.some_record(kind, name)), None)
        return (kind, self.known_record(kind, name)) if kind else None

    def named_by(self, bound: Row) -> Row | None:
        """The earliest record that a binding of a record names, of the kind that its form takes or else of
        the other one; or None.
        """
        if not record_taken_by(bound):
            return None
        kind, name = record_in(bound)
        kinds = sorted(self.years, key=lambda other: other != kind)
        return next(filter(None, (self.some_record(other, name) for other in kinds)), None)

    def measured_by(self, kind: str, name: str) -> str | None:
        """What an activity or a factor measures, or None where there is none."""
        record = self.some_record(kind, name)
        return vocabulary.measured_by(record.field("unit")) if record else None

    def in_force(self, kind: str, name: str, year: int) -> Row | None:
        """The record that an activity or a factor has in a year, or None."""
        years = self.years[kind].get(name, {})
        if kind == "activity":
            return years.get(year)
        begun = [start for start in years if start <= year]
        return years[max(begun)] if begun else None

    def parameters_that_take(self, kind: str, name: str) -> list[tuple[Parameter, str]]:
        """The parameters that a record is bound to, each with the form of its binding, but for those of lines
        whose equation lacks one that is bound.
        """
        found = []
        for line, bound in self.bindings.items():
            of_line = vocabulary.parameters_of(self.lines[line].field("value")) if line in self.lines else {}
            if set(bound) <= set(of_line):
                found += [(of_line[parameter], row.field("value")) for parameter, row in bound.items()
                          if record_taken_by(row) == (kind, name)]
        return found

    def taken(self) -> dict[tuple[str, str], list[Row]]:
        """The activities and factors that lines take, as pairs of kind and name, each with the bindings
        that take it: made once, until another binding is in force.
        """
        if self._taken is None:
            self._taken = {}
            for bound in self.bindings.values():
                for row in bound.values():
                    record = record_taken_by(row)
                    if record:
                        self._taken.setdefault(record, []).append(row)
        return self._taken

    def lines_taken(self) -> set[str]:
        """The lines that lines take."""
        rows = (row for bound in self.bindings.values() for row in bound.values())
        return {name for row in rows for name in lines_taken_by(row)}

    def emitting(self, kind: str, name: str) -> list[str]:
        """The lines that emit a gas and take an activity or a factor, over other lines if need be."""
        waiting = [row.field("subject") for row in self.taken().get((kind, name), [])]
        reached = []
        while waiting:
            line = waiting.pop(0)
            if line in self.lines and line not in reached:
                reached.append(line)
                waiting += [other for other, bound in self.bindings.items()
                            if any(line in lines_taken_by(row) for row in bound.values())]
        return sorted(line for line in reached if vocabulary.gas_of(self.lines[line].field("value")))

    def is_of_last_year(self, bound: Row) -> bool:
        """Tells whether a binding is of a parameter that takes what a line gave the year before."""
        line = self.lines.get(bound.field("subject"))
        return line is not None and (line.field("value"), bound.field("name")) in vocabulary.OF_LAST_YEAR


def book_of(sheets: list[Sheet]) -> Book:
    """The book after the rows of accepted files."""
    book = Book()
    for sheet in sheets:
        for row in sheet.rows[1:]:
            book.apply(row)
    return book


def record_taken_by(row: Row) -> tuple[str, str] | None:
    """The kind and name of the record that a binding takes, or None."""
    return record_in(row) if row.field("value") in KIND_TAKEN else None


def record_in(row: Row) -> tuple[str, str]:
    """The kind and name of the record that a binding takes, which is by activity, factor or decay."""
    return KIND_TAKEN[row.field("value")], row.field("low")


def lines_taken_by(row: Row) -> list[str]:
    """The lines that a binding takes."""
    if row.field("value") in ("line", "prev", "sum"):
        return row.field("low").split(" ")
    return []
