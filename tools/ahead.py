"""What the files are meant to enter, the rows to come too: to say why something is not there, never to judge.

A refusal of one row is often told best by a row that stands after it, as a unit by the parameter that the
figure is bound to further down.
"""
import collections
import functools
import re
from collections.abc import Collection

from tools import headers, other_equation, vocabulary
from tools.book import lines_taken_by, record_taken_by
from tools.causes import name as mended_name
from tools.causes import year as year_of
from tools.other_words import OTHER_ACTS, OTHER_KINDS, meant_by
from tools.sheets import Row, Sheet
from tools.vocabulary import Parameter


class Ahead:
    """The rows of all files as they most likely are meant, of which some files are after the one at hand."""

    def __init__(self, sheets: list[Sheet]) -> None:
        self.sheets, self.waiting = sheets, list(sheets)

    def next_file(self) -> None:
        """Passes on to the next file."""
        del self.waiting[0]

    def entry(self, kind: str, name: str) -> Row | None:
        """The first row of a later file that enters a name, or None."""
        rows = self._entered.get((kind, name), [])
        later = {id(sheet) for sheet in self.waiting}
        return next((row for row in rows if id(row.sheet) in later), None)

    def row_of(self, kind: str, name: str) -> Row | None:
        """The first row of any file that enters a name, or None."""
        return next(iter(self._entered.get((kind, name), [])), None)

    def span(self) -> tuple[int, int] | None:
        """The first and the last year of the span that some file enters, or None."""
        row = self.row_of("span", "")
        years = [year_of(row.field(column)).text for column in ("year", "value")] if row else []
        found = sorted(int(year) for year in years if re.fullmatch(r"\d{4}", year))
        return (found[0], found[-1]) if found else None

    def entry_behind(self, row: Row) -> Row | None:
        """The first row after another one that enters the same record, or None."""
        later = {id(sheet) for sheet in self.waiting}
        return next((entry for entry in self._entered.get((row.key[0], row.field("name")), [])
                     if entry.key == row.key and (id(entry.sheet) in later or is_below(entry, row))), None)

    def is_entered(self, row: Row) -> bool:
        """Tells whether some row of any file enters the record of a row."""
        return any(entry.key == row.key for entry in self._entered.get((row.key[0], row.field("name")), []))

    def years_of(self, activity: str) -> set[str]:
        """The years of an activity that rows of any file enter, as texts. A correction enters none."""
        return self._years.get(activity, set())

    def lines_at(self, code: str) -> list[Row]:
        """The rows of any file that enter a line at a category or under it."""
        return [row for (kind, _), rows in self._entered.items() if kind == "line" for row in rows[:1]
                if vocabulary.plain(row.field("subject")).startswith(vocabulary.plain(code))]

    def parameters_bound(self, line: str) -> set[str]:
        """The parameters of a line that some row of any file binds."""
        return set(self._bindings.get(line, {}))

    def bindings_of(self, line: str) -> dict[str, Row]:
        """The rows of any file that bind parameters of a line, by these."""
        return self._bindings.get(line, {})

    def later_binding(self, line: str, parameter: str) -> Row | None:
        """The row of a later file that binds a parameter of a line, or None."""
        row = self._bindings.get(line, {}).get(parameter)
        return row if row and any(row.sheet is sheet for sheet in self.waiting) else None

    def measured_by(self, bound: Row) -> str | None:
        """What the record or the first line measures that a binding takes, by the row that enters it, or
        None.
        """
        taken, lines = record_taken_by(bound), lines_taken_by(bound)
        row = self.row_of(*taken) if taken else self.row_of("line", lines[0]) if lines else None
        if row is None or taken:
            return vocabulary.measured_by(row.field("unit")) if row else None
        code = row.field("value")
        return vocabulary.given_by(code) if code in vocabulary.equations() else None

    def is_bound(self, line: str, parameter: str) -> bool:
        """Tells whether some row of any file binds a parameter of a line."""
        return parameter in self._bindings.get(line, {})

    def factors_taken_by(self, line: str) -> list[str]:
        """The names of the factors that rows of any file bind for a line."""
        bound = self._bindings.get(line, {}).values()
        return [row.field("low") for row in bound if row.field("value") == "factor"]

    def parameters_left(self, line: str) -> dict[str, Parameter]:
        """The parameters of a line that no row of any file binds, by name."""
        code = self.equation_of(line)
        known = vocabulary.parameters_of(code) if code else {}
        return {name: parameter for name, parameter in known.items() if not self.is_bound(line, name)}

    def records_left(self, kind: str, parameter: Parameter) -> list[str]:
        """The names of a kind that rows of any file enter, that measure what a parameter takes, and that none
        takes.
        """
        measures = vocabulary.record_of(parameter)
        left = ((name, rows[0]) for (of_kind, name), rows in self._entered.items()
                if of_kind == kind and (kind, name) not in self._taken and not name.startswith("GWP."))
        return [name for name, row in left if name and vocabulary.measured_by(row.field("unit")) == measures]

    def is_known(self, kind: str, name: str) -> bool:
        """Tells whether rows of any file take an activity or a factor, or it is a potential."""
        return (kind, name) in self._bound or name in vocabulary.words()["potentials"]

    def is_in_two_rows(self, name: str) -> bool:
        """Tells whether a text that is no unit stands in two fields of rows of any file."""
        return name not in vocabulary.units() and self._texts[name] > 1

    def names_lacking(self, kind: str, unit: str) -> list[str]:
        """The names of a kind that rows take for what a unit measures, and that no row enters."""
        measures = vocabulary.measured_by(unit)
        return [name for (of_kind, name), taken in self._bound.items()
                if of_kind == kind and (kind, name) not in self._entered
                and all(vocabulary.record_of(parameter) == measures for parameter, _ in taken)]

    def is_named(self, line: str) -> bool:
        """Tells whether some row of any file has an uncertainty of a line, or takes it."""
        return line in self._named

    def equation_of(self, line: str) -> str | None:
        """The equation that a line is meant to have: one of just the parameters that rows bind, where its own
        lacks one of them; or None.
        """
        row, bound = self.row_of("line", line), self.parameters_bound(line)
        own = row.field("value") if row and row.field("value") in vocabulary.equations() else None
        if own and bound <= set(vocabulary.parameters_of(own)):
            return own
        fitting = other_equation.of_parameters(bound) if row else []
        if row and not own:
            fitting = fitting or other_equation.nearest_by_names(line, row.field("subject").strip(), self)
        return other_equation.likeliest(fitting, row, self)[0] if row and fitting else own

    def parameters_that_take(self, kind: str, name: str) -> list[tuple[Parameter, str]]:
        """The parameters that some row of any file binds to a record, each with the form of the binding."""
        return self._bound.get((kind, name), [])

    def records(self, kind: str, name: str) -> list[Row]:
        """The rows of any file that enter a name."""
        return self._entered.get((kind, name), [])

    def takers(self, kind: str, name: str) -> list[tuple[str, str]]:
        """The equations and parameters that rows of any file bind to a record, as pairs."""
        return self._takers.get((kind, name), [])

    @functools.cached_property
    def _rows(self) -> list[Row]:
        return [as_meant(row) for sheet in self.sheets for row in headers.rows_as_meant(sheet)
                if len(row.fields) == 10]

    @functools.cached_property
    def _entered(self) -> dict[tuple[str, str], list[Row]]:
        found: dict[tuple[str, str], list[Row]] = {}
        for row in self._rows:
            if row.field("act") == "enter":
                found.setdefault((row.field("kind"), row.field("name")), []).append(row)
        return found

    @functools.cached_property
    def _texts(self) -> collections.Counter[str]:
        return collections.Counter(field for row in self._rows for field in row.fields[1:-1])

    @functools.cached_property
    def _years(self) -> dict[str, set[str]]:
        found: dict[str, set[str]] = {}
        for row in self._rows:
            if row.field("kind") == "activity" and row.field("act") not in ("correct", "withdraw"):
                found.setdefault(row.field("name"), set()).add(row.field("year"))
        return found

    @functools.cached_property
    def _bindings(self) -> dict[str, dict[str, Row]]:
        found: dict[str, dict[str, Row]] = {}
        for row in self._rows:
            if row.field("kind") == "bind":
                found.setdefault(row.field("subject"), {}).setdefault(row.field("name"), row)
        return found

    @functools.cached_property
    def _named(self) -> set[str]:
        found = {row.field("name") for row in self._rows if row.field("kind") == "uncert"}
        return found.union(*(lines_taken_by(row) for row in self._rows if row.field("kind") == "bind"))

    @functools.cached_property
    def _taken(self) -> set[tuple[str, str] | None]:
        return {record_taken_by(row) for row in self._rows if row.field("kind") == "bind"}

    @functools.cached_property
    def _takers(self) -> dict[tuple[str, str], list[tuple[str, str]]]:
        return {taken: [(code, name) for code, name, _ in bound]
                for taken, bound in self._bound_by_code.items()}

    @functools.cached_property
    def _bound(self) -> dict[tuple[str, str], list[tuple[Parameter, str]]]:
        return {taken: [(vocabulary.parameters_of(code)[name], form) for code, name, form in bound]
                for taken, bound in self._bound_by_code.items()}

    @functools.cached_property
    def _bound_by_code(self) -> dict[tuple[str, str], list[tuple[str, str, str]]]:
        codes = {line: self.equation_of(line) for line in self._bindings}
        found: dict[tuple[str, str], list[tuple[str, str, str]]] = {}
        for row in self._rows:
            code = codes.get(row.field("subject")) if row.field("kind") == "bind" else None
            taken, name = record_taken_by(row), row.field("name")
            if code and taken and name in vocabulary.parameters_of(code):
                found.setdefault(taken, []).append((code, name, row.field("value")))
        return found


def said_of_later(what: str, entry: Row) -> str:
    """That a row of a later file enters what is not there yet."""
    how = "put that file in front of this one, by its number or in ORDER.txt"
    return f"{what} is entered in a later file ({entry.place}); {how}"


def is_below(row: Row, other: Row) -> bool:
    """Tells whether a row stands below another one in the same file."""
    return row.sheet is other.sheet and row.line > other.line


def word_meant(text: str, known: Collection[str], others: dict[str, str]) -> str:
    """The word of a few that a text most likely is, else the text in lower case."""
    bare = text.strip().lower()
    if bare in known or not bare:
        return bare
    near = vocabulary.nearest(bare, known, 1, 0.75)
    return meant_by(bare, others) or (near[0] if near else bare)


def as_meant(row: Row) -> Row:
    """A row with its words in the case of the vocabulary, and its names as names are written."""
    words = vocabulary.words()
    act = word_meant(row.field("act"), words["acts"], OTHER_ACTS)
    kind = word_meant(row.field("kind"), words["kinds"], OTHER_KINDS)
    fields = {"act": act, "kind": kind, "name": mended_name(row.field("name")).text}
    if kind == "line":
        fields["value"] = row.field("value").strip().upper()
    elif kind == "bind":
        fields["subject"] = mended_name(row.field("subject")).text
        fields["value"] = row.field("value").strip().lower()
        fields["low"] = mended_name(row.field("low")).text
    return row.with_fields(**fields)
