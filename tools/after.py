"""The data after a file's rows, and these rows as the file goes on without a fault."""
import itertools
import typing

from tools import vocabulary
from tools.ahead import Ahead, said_of_later
from tools.book import Book
from tools.faults import Rewritten, at_row
from tools.refused import Refused
from tools.sheets import COLUMNS, Row, joined
from tools.vocabulary import Parameter, limit

# The name of a half-life that no workbook has.
HALF_LIFE = "NO.SUCH.HALF.LIFE.-.-.-."


class After:
    """The data after a file's rows, of which some are the file's own; the rows that were refused; and all
    rows as they are meant.
    """

    def __init__(self, book: Book, rows: list[Row], refused: Refused, ahead: Ahead) -> None:
        self.book, self.rows, self.refused, self.ahead = book, rows, refused, ahead

    def is_own(self, row: Row | None) -> typing.TypeGuard[Row]:
        """Tells whether a row is of the file at hand."""
        return row is not None and row.sheet is self.rows[0].sheet

    def acts_on(self, kind: str, name: str,
                acts: tuple[str, ...] = ("enter", "correct", "withdraw")) -> list[Row]:
        """The file's own rows on a record of a kind and name."""
        named = [row for row in self.rows[1:] if row.field("kind") == kind and row.field("name") == name]
        return [row for row in named if row.field("act") in acts]

    def without(self, rows: list[Row]) -> list[Row]:
        """The file's rows without some of them."""
        out = {id(row) for row in rows}
        return [row for row in self.rows if id(row) not in out]

    def without_line(self, line: str) -> list[Row]:
        """The file's rows without what they say of a line and of its bindings, which stay as they were."""
        return self.without([*self.acts_on("line", line), *self.bindings_of(line)])

    def bindings_of(self, line: str) -> list[Row]:
        """The file's own rows on bindings of a line."""
        return [row for row in self.rows[1:] if row.field("kind") == "bind" and row.field("subject") == line]

    def bindings_below(self, holder: Row) -> list[Row]:
        """The file's own rows of bindings between the row of a line and that of the next one."""
        below = holder.sheet.rows_below(holder.line)
        lines = {row.line for row in itertools.takewhile(lambda row: row.field("kind") != "line", below)}
        return [row for row in self.rows[1:] if row.line in lines and row.field("kind") == "bind"]

    def in_later_file(self, kind: str, name: str) -> str:
        """That a later file enters what is not there, or nothing."""
        row = self.ahead.entry(kind, name)
        return said_of_later(f"{kind} {name}", row) if row else ""

    def line_of(self, name: str) -> Row | None:
        """The row of a line, there or meant to be there, or None."""
        return self.book.lines.get(name) or self.ahead.row_of("line", name)

    def refused_line(self, name: str) -> Row | None:
        """The refused row of a line, or None."""
        return self.refused.that_sets(("line", name)) or self.refused.that_has(name, ["line"])

    def nearest_line(self, near: list[str]) -> str:
        """The nearest line that there is, with its place, as the end of a sentence; or nothing."""
        return f"; the nearest is {near[0]} ({self.book.lines[near[0]].place})" if near else ""

    @staticmethod
    def taken_away(gone: list[Row], what: str, bound: Row, rest: list[Row]) -> Rewritten:
        """The fault of rows that withdraw what a binding of an earlier file takes, and the other rows."""
        if not gone:
            return None, None
        cause = f"{what} is withdrawn, and line {bound.field('subject')} takes it at {bound.place}"
        return at_row(gone[-1], cause), rest

    def records_left(self, wanted: Parameter) -> list[tuple[str, str]]:
        """The records that measure what a parameter takes, and that nothing takes nor was meant to."""
        taken = set(self.book.taken()) | self.refused.meant_records
        return [(kind, name) for kind, named in self.book.years.items() for name in named
                if (kind, name) not in taken and not name.startswith("GWP.")
                and self.book.measured_by(kind, name) == vocabulary.record_of(wanted)]

    def changed(self, changed: Row, **fields: str) -> list[Row]:
        """The file's rows with other fields in one of them."""
        return [row.with_fields(**fields) if row is changed else row for row in self.rows]

    def blank(self, bound: Row) -> list[Row]:
        """The file's rows with NE in place of what a binding takes."""
        blank = bound.with_fields(value="key", low="NE")
        blank.has_other_figure = True
        return [blank if row is bound else row for row in self.rows]

    def with_half_life(self, bound: Row) -> list[Row]:
        """The file's rows with a half-life in place of what a binding takes, and that half-life where it
        is not there.
        """
        rows = self.changed(bound, value="decay", low=HALF_LIFE)
        if self.book.some_record("factor", HALF_LIFE):
            return rows
        key = ["enter", "factor", "", HALF_LIFE, limit("first_year")]
        return rows + [added(bound, *key, "1", "", "", vocabulary.HALF_LIFE_UNIT)]

    def without_target(self, bound: Row, parameter: Parameter) -> list[Row]:
        """The file's rows with something else in place of what a parameter takes."""
        return self.with_half_life(bound) if vocabulary.is_decay(parameter) else self.blank(bound)


def added(place: Row, *fields: str) -> Row:
    """A row of the tools' own at the place of another row, with nothing after its fields."""
    made = Row(place.sheet, place.line, joined([*fields, *[""] * (len(COLUMNS) - len(fields))]))
    made.has_other_figure = made.is_added = True
    return made
