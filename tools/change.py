"""The submissions that lead from the records of one state to those of another.

One submission has all rows where it has room for them. Otherwise it is divided, and the program judges the
states between: first figures are entered and corrected, which leaves each binding sound; then lines, bindings
and the span change, with figures whose name now measures something else; at the end figures are withdrawn,
which nothing takes any more.
"""
from collections.abc import Iterable, Iterator

from tools import vocabulary
from tools.book import Book
from tools.sheets import COLUMNS, COLUMNS_OF_KEY, HEADERS, OF_TEMPLATES, Key, Row, joined

# The most bytes of a body.
MOST_BYTES = int(vocabulary.limit("body").replace(",", ""))
HEADER = joined(HEADERS[OF_TEMPLATES]) + b"\n"
WITH_FIGURES = ("activity", "factor")


def bodies(before: Book, after: Book) -> list[bytes]:
    """The bodies of the submissions that make the records of a book those of another; none where they are."""
    parts = parts_of(before, after)
    rows = [row for part in parts for row in part]
    if len(HEADER) + sum(map(len, rows)) <= MOST_BYTES:
        return [body_of(rows)] if rows else []
    entered, changed, withdrawn = parts
    return [*divided(entered), body_of(changed), *divided(withdrawn)]


def parts_of(before: Book, after: Book) -> tuple[list[bytes], list[bytes], list[bytes]]:
    """The rows that enter and correct figures, that change all else, and that withdraw figures."""
    keys = [key for key in {**before.rows, **after.rows} if is_changed(key, before, after)]
    figures = [key for key in keys if is_of_one_measure(key, before, after)]
    others = [key for key in keys if not is_of_one_measure(key, before, after)]
    gone = {key for key in others
            if key in before.rows and (key not in after.rows or key[0] in WITH_FIGURES)}
    changed = [withdrawal(before.rows[key]) for key in others if key in gone]
    changed += [setting(key, before, after, gone) for key in others if key in after.rows]
    return ([setting(key, before, after, set()) for key in figures if key in after.rows], changed,
            [withdrawal(before.rows[key]) for key in figures if key not in after.rows])


def is_changed(key: Key, before: Book, after: Book) -> bool:
    """Tells whether a record is in one book alone, or has other fields in the two."""
    old, new = before.rows.get(key), after.rows.get(key)
    return old is None or new is None or set_by(old) != set_by(new)


def set_by(row: Row) -> list[str]:
    """What a row says of its record: all but its act and its note."""
    return row.fields[1:-1]


def is_of_one_measure(key: Key, before: Book, after: Book) -> bool:
    """Tells whether a record is a figure whose name measures the same in both books, or is in one alone."""
    if key[0] not in WITH_FIGURES:
        return False
    kind, name = key[:2]
    return len({before.measured_by(kind, name), after.measured_by(kind, name)} - {None}) == 1


def setting(key: Key, before: Book, after: Book, gone: set[Key]) -> bytes:
    """The row that enters a record, or corrects the one that is there and is not gone."""
    act = "correct" if key in before.rows and key not in gone else "enter"
    return joined([act, *set_by(after.rows[key]), ""]) + b"\n"


def withdrawal(row: Row) -> bytes:
    """The row that withdraws a record."""
    named = COLUMNS_OF_KEY[row.field("kind")]
    fields = [row.field(column) if column in named else "" for column in COLUMNS[2:]]
    return joined(["withdraw", row.field("kind"), *fields]) + b"\n"


def body_of(rows: Iterable[bytes]) -> bytes:
    """A body of rows."""
    return HEADER + b"".join(rows)


def divided(rows: list[bytes]) -> Iterator[bytes]:
    """Rows as bodies that are as long as may be."""
    piece, size = list[bytes](), len(HEADER)
    for row in rows:
        if piece and size + len(row) > MOST_BYTES:
            yield body_of(piece)
            piece, size = [], len(HEADER)
        piece.append(row)
        size += len(row)
    if piece:
        yield body_of(piece)
