"""The records in force, read by their names, and the rules 8 to 12."""
from typing import Iterator, Mapping, Optional

from tests.limits import limit
from tests.oracle.rows import Binding, Figure, Key, Line, Record, Refused, Row, Span, Uncertainty
from tests.oracle.tables import DECAY, HALF_LIFE, POTENTIALS, Equation, Tables

MOST_LINES = limit("lines")
MOST_RECORDS = limit("records")
MOST_YEARS_AFTER_FIRST = limit("span")
MOST_KEPT_BYTES = limit("bytes")

Records = dict[Key, Record]


class Workbook:
    """Records by their kinds. `figures` has those of an activity or a factor by year."""

    def __init__(self, records: Mapping[Key, Record], tables: Tables) -> None:
        self.tables = tables
        self.size = len(records)
        self.span: Optional[Span] = None
        self.figures: dict[tuple[str, str], dict[int, Figure]] = {}
        self.lines: dict[str, Line] = {}
        self.bindings: dict[str, dict[str, Binding]] = {}
        self.uncertainties: dict[str, Uncertainty] = {}
        for key in sorted(records):
            self.put(key, records[key])

    def put(self, key: Key, record: Record) -> None:
        """Takes a record up."""
        if isinstance(record, Span):
            self.span = record
        elif isinstance(record, Figure):
            self.figures.setdefault((key.kind, key.of), {})[int(key.part)] = record
        elif isinstance(record, Line):
            self.lines[key.of] = record
        elif isinstance(record, Binding):
            self.bindings.setdefault(key.of, {})[key.part] = record
        else:
            self.uncertainties[key.of] = record

    def years(self) -> range:
        """The years of the span."""
        return range(self.span.first, self.span.last + 1) if self.span else range(0)

    def equation(self, line: str) -> Equation:
        """The equation of a line."""
        return self.tables.equations[self.lines[line].equation]

    def activity(self, name: str, year: int) -> Optional[Figure]:
        """The record of a year."""
        return self.figures.get(("activity", name), {}).get(year)

    def factor(self, name: str, year: int) -> Optional[Figure]:
        """The record in force in a year."""
        of_name = self.figures.get(("factor", name), {})
        started = [start for start in of_name if start <= year]
        return of_name[max(started)] if started else None

    def dimensions(self, kind: str, name: str) -> set[str]:
        """What the records of a name measure."""
        return {figure.dimension for figure in self.figures.get((kind, name), {}).values()}

    def taken(self, binding: Binding) -> list[str]:
        """The lines whose values of the same year a binding takes."""
        return binding.target.split(" ") if binding.form in ("line", "sum") else []


def apply(records: Records, row: Row) -> None:
    """Rules 8 and 9 of a row, and then what it does."""
    if isinstance(row.record, Figure) and not is_fitting(records, row.key, row.record):
        raise Refused(f"8 WrongUnit row {row.number}")
    if row.act == "enter" and row.key in records:
        raise Refused(f"9 Exists row {row.number}")
    if row.act != "enter" and row.key not in records:
        raise Refused(f"9 Absent row {row.number}")
    if row.record is None:
        del records[row.key]
    else:
        records[row.key] = row.record


def is_fitting(records: Records, key: Key, figure: Figure) -> bool:
    """Whether a figure measures what it has to."""
    if key.kind == "activity" and figure.dimension == HALF_LIFE:
        return False
    if key.of in POTENTIALS and figure.dimension != "1":
        return False
    return not any(isinstance(record, Figure) and record.dimension != figure.dimension
                   for other, record in records.items()
                   if other != key and (other.kind, other.of) == (key.kind, key.of))


def judge(workbook: Workbook, kept_bytes: int) -> None:
    """Rules 10 to 12 of all records."""
    for line, parameter in sorted(pairs_of(workbook)):
        if not is_sound(workbook, line, parameter):
            raise Refused(f"10 BadBinding {line} {parameter}")
    span = workbook.span
    limits = {"lines": len(workbook.lines) > MOST_LINES, "records": workbook.size > MOST_RECORDS,
              "span": span is not None and span.last - span.first > MOST_YEARS_AFTER_FIRST,
              "bytes": kept_bytes > MOST_KEPT_BYTES}
    for word, is_passed in limits.items():
        if is_passed:
            raise Refused(f"11 TooMany {word}")
    for line in sorted(workbook.lines):
        if line in reached(workbook, line):
            raise Refused(f"12 Cycle {line}")


def pairs_of(workbook: Workbook) -> Iterator[tuple[str, str]]:
    """The lines and parameters that rule 10 looks at."""
    for line in workbook.lines:
        for parameter in workbook.equation(line).parameters:
            yield line, parameter
    for line, bound in workbook.bindings.items():
        for parameter in bound:
            yield line, parameter
    for line in workbook.uncertainties:
        yield line, "uncert"


def is_sound(workbook: Workbook, line: str, parameter: str) -> bool:
    """Whether a parameter of a line is bound to what it can take, or the line of an uncertainty is there."""
    if line not in workbook.lines or parameter == "uncert":
        return line in workbook.lines
    dimension = workbook.equation(line).parameters.get(parameter)
    binding = workbook.bindings.get(line, {}).get(parameter)
    if dimension is None or binding is None or (dimension == DECAY) != (binding.form == "decay"):
        return False
    if binding.form == "decay":
        return workbook.dimensions("factor", binding.target) == {HALF_LIFE}
    if binding.form in ("activity", "factor"):
        return workbook.dimensions(binding.form, binding.target) == {dimension}
    lines = [] if binding.form == "key" else binding.target.split(" ")
    return all(name in workbook.lines and workbook.equation(name).dimension == dimension for name in lines)


def reached(workbook: Workbook, line: str) -> set[str]:
    """The lines whose values of the same year a line takes, by way of others too."""
    found: set[str] = set()
    ahead = [line]
    while ahead:
        for binding in workbook.bindings.get(ahead.pop(), {}).values():
            new = set(workbook.taken(binding)) - found
            found |= new
            ahead += new
    return found
