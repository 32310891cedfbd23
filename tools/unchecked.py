"""The rows of defaults/ that no second source confirmed, and those that an inventory takes."""
import csv
import functools

from tools.book import Book
from tools.faults import Fault, counted, warn
from tools.fuels import DEFAULTS
from tools.sheets import Row
from tools.vocabulary import listed

# How the note of a row of defaults/ ends that was compared with no second source.
UNCHECKED = "from memory"
# The columns by which a row is one of defaults/; it may hold from another year on.
COLUMNS_ALIKE = ("name", "value", "low", "high", "unit", "note")
NAMES_SHOWN = 3


@functools.cache
def rows_of_defaults() -> set[tuple[str, ...]]:
    """The unchecked rows of defaults/."""
    found: set[tuple[str, ...]] = set()
    for path in DEFAULTS.glob("*.csv"):
        with open(path, encoding="utf-8", newline="") as file:
            found.update(tuple(row[column] for column in COLUMNS_ALIKE) for row in csv.DictReader(file)
                         if row["note"].endswith(UNCHECKED))
    return found


def is_unchecked(row: Row) -> bool:
    """Tells whether a factor is an unchecked row of defaults/."""
    is_one = row.field("note").endswith(UNCHECKED)
    return is_one and tuple(map(row.field, COLUMNS_ALIKE)) in rows_of_defaults()


def unchecked_defaults(book: Book) -> list[Fault]:
    """The factors that lines or totals take and that are unchecked rows of defaults/: once for all of them."""
    taken = book.taken()
    rows = [row for key, row in book.rows.items() if key[0] == "factor" and is_unchecked(row)
            and (key[1].startswith("GWP.") or (key[0], key[1]) in taken)]
    if not rows:
        return []
    names = [row.field("name") for row in rows[:NAMES_SHOWN]]
    names += [f"{len(rows) - NAMES_SHOWN} more"] if len(rows) > NAMES_SHOWN else []
    are, them = ("is", "it") if len(rows) == 1 else ("are", "them")
    cause = f"{counted(len(rows), 'factor')} of defaults/ {are} unchecked: {listed(names, 'and')}"
    return [warn(rows[0], f"{cause}; compare {them} with the source in the note")]
