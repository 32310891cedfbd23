"""The rows that `check` has taken out, to say what follows from them."""
from collections.abc import Iterable, Sequence

from tools.book import Book, record_taken_by
from tools.causes import name as mended_name
from tools.sheets import COLUMNS_OF_KEY, Key, Row
from tools.vocabulary import listed


class Refused:
    """The rows that were refused and taken out, by what they would have set; the records that a refused
    binding takes; those that measure something else than their binding takes; and the files of which no row
    can be read.
    """

    def __init__(self) -> None:
        self.rows: dict[Key, Row] = {}
        self.entering: list[Row] = []
        self.meant_records: set[tuple[str, str]] = set()
        self.mismeasured: set[tuple[str, str]] = set()
        self.unread: list[str] = []

    def add(self, rows: Iterable[Row]) -> None:
        """Adds rows that were taken out."""
        for row in rows:
            if row.field("act") == "withdraw":
                continue
            key = tuple(mended_name(part).text for part in row.key[1:])
            kind = row.field("kind").strip().lower()
            self.rows.setdefault((kind, *key), row)
            self.rows.setdefault((kind, *key[:1]), row)
            taken = record_taken_by(row)
            if kind == "bind":
                self.meant_records.update([taken] if taken else [])
            else:
                self.entering.append(row)

    def that_sets(self, key: Key) -> Row | None:
        """The refused row that would have set a key, or None."""
        return self.rows.get(key)

    def has_activity_of(self, year: int) -> bool:
        """Tells whether a refused row would have set an activity of a year."""
        return any(key[0] == "activity" and key[-1] == str(year) for key in self.rows)

    def that_enters(self, kind: str, name: str) -> Row | None:
        """A refused row of an activity or a factor, or None."""
        return self.rows.get((kind, name))

    def that_has(self, name: str, kinds: Sequence[str] = ("activity", "factor", "line")) -> Row | None:
        """A refused row with a name in some column, of some kinds or of none that there is; or None."""
        others = set(COLUMNS_OF_KEY) - set(kinds)
        return next((row for row in self.entering if row.field("kind").strip().lower() not in others
                     and any(mended_name(field).text == name for field in row.fields)), None)

    def that_doubles(self, key: Key, book: Book) -> Row | None:
        """A refused row of the name of a key whose own record is there already, or None."""
        return next((row for row in self.entering if row.key[:2] == key[:2] and row.key in book.rows), None)

    def where_else(self) -> str:
        """Where a name may stand that is not there, as the end of a sentence; or nothing."""
        named = listed(self.unread, "and")
        return f", and {named} cannot be read; it may stand there" if named else ""

    def parameters_bound(self, line: str) -> list[str]:
        """The parameters of a line that refused rows would have bound."""
        return [key[2] for key in self.rows if key[0] == "bind" and key[1:2] == (line,) and len(key) > 2]
