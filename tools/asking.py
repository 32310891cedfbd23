"""What all explanations of a row do: they try what the writer may have meant, and the program says whether
it takes it.
"""
import re
import typing
from collections.abc import Callable, Iterable

from tools import causes, letters, vocabulary
from tools.book import Book
from tools.faults import Explained, at_row
from tools.other_words import OTHER_ACTS, OTHER_KINDS, meant_by
from tools.refused import Refused
from tools.sheets import COLUMNS, Row
from tools.vocabulary import Parameter, listed, nearest

if typing.TYPE_CHECKING:
    from tools.ahead import Ahead

# How a row of totals is named.
TOTAL = re.compile(r"((grand|sub)[ -]?)?totals?\b.*|sum( of\b.*)?", re.IGNORECASE)
# A word that a column takes, whatever the kind of its row. What stands in for a kind is told by its rest.
STAND_INS = {"act": "enter", "subject": "X", "name": "X", "year": "2000", "value": "Q10", "unit": "t"}


# Asks the program whether it takes what stands in a column of a row, or where none is named, in all of them.
Takes = Callable[[Row, str | None], bool]
# What may be meant: the cause, the text, and whether the writer can have meant nothing else.
Candidate = tuple[str, str, bool]


class Asking:
    """What those who explain a row ask and try.

    `takes` asks the program whether it takes a row at a column; `book` is what is in force, `refused` has the
    rows that were taken out, and `ahead` all rows as they are meant.
    """

    def __init__(self, takes: Takes, book: Book, refused: Refused, ahead: "Ahead") -> None:
        self.takes, self.book, self.refused, self.ahead = takes, book, refused, ahead

    def parameters_that_take(self, row: Row) -> list[tuple[Parameter, str]]:
        """The parameters that the record of a row is bound to, each with the form of its binding: those in
        force, else those of any row.
        """
        kind, name = row.field("kind"), causes.name(row.field("name")).text
        return self.book.parameters_that_take(kind, name) or self.ahead.parameters_that_take(kind, name)

    def span(self) -> tuple[int, int] | None:
        """The first and the last year of the span, in force or meant, or None."""
        return self.book.span or self.ahead.span()

    def year_lacking(self, row: Row) -> str | None:
        """The one year of the span that no row enters of the activity of a row, or None."""
        lacking = self.years_lacking(row)
        return lacking[0] if len(lacking) == 1 else None

    def years_lacking(self, row: Row) -> list[str]:
        """The years of the span that no row enters of the activity of a row, as texts in their order."""
        span = self.span()
        if row.field("kind") != "activity" or span is None:
            return []
        first, last = span
        name = row.field("name")
        known = self.ahead.years_of(name).union(map(str, self.book.years["activity"].get(name, [])))
        return [year for year in map(str, range(first, last + 1)) if year not in known]

    def measured(self, row: Row) -> str | None:
        """What the record of a row measures in another year, or for the parameters that take it, or None."""
        record = self.book.some_record(row.field("kind"), row.field("name"))
        if record:
            return vocabulary.measured_by(record.field("unit"))
        wanted = {vocabulary.record_of(parameter) for parameter, _ in self.parameters_that_take(row)}
        return wanted.pop() if len(wanted) == 1 else None

    def first_taken(self, row: Row, column: str, candidates: Iterable[Candidate],
                    otherwise: str) -> Explained:
        """The first candidate that the program takes: a cause, a text and whether it is sure.

        Else the given cause.
        """
        for cause, text, sure in candidates:
            changed = row.with_fields(**{column: text})
            if text != row.field(column) and self.takes(changed, column):
                write = text if text else "nothing"
                return at_row(row, cause, column, write), (changed if sure else None)
        return at_row(row, otherwise, column), None

    def choice(self, row: Row, column: str, known: Iterable[str], said: str | None = None) -> Explained:
        """One of a few words."""
        text = row.field(column)
        bare = causes.without_blanks(text)
        candidates = [(cause_of(bare.causes), bare.text, True)]
        candidates.append((letters.said_of_alike(bare.text), letters.latin(bare.text), True))
        for word in nearest(bare.text, known, 1, 0.75):
            same = word.casefold() == bare.text.casefold()
            cause = "upper case" if same and word.islower() else "lower case" if same else "no such word"
            candidates.append((cause_of(bare.causes + [cause]), word, True))
        what = said or f"{column} is {listed(known)}"
        otherwise = f"{'no such word' if bare.text else 'empty'}; {what}"
        return self.first_taken(row, column, candidates, otherwise)

    def other_word(self, row: Row, column: str, others: dict[str, str], known: Iterable[str],
                   what: str) -> Explained:
        """One of a few words, or another word for one."""
        said = f"{what} {listed(known)}"
        meant = meant_by(row.field(column), others)
        if meant:
            return self.first_taken(row, column, [("no such word", meant, True)], said)
        return self.choice(row, column, known, said)

    def filled(self, row: Row, column: str, cause: str) -> Explained:
        """A column that has to be empty."""
        text = row.field(column)
        if not causes.without_blanks(text).text:
            blank = f"{causes.blank_name(text)} in a column that stays empty"
            return self.first_taken(row, column, [(blank, "", True)], cause)
        changed = row.with_fields(**{column: ""})
        fault = at_row(row, f"{cause}; take it out", column)
        return fault, changed if self.takes(changed, column) else None

    def stand_in(self, row: Row, column: str | None) -> Row | None:
        """The row with a word in place of one that is none, so that the rest of it is looked at, or None."""
        word = kind_by_its_rest(row) if column == "kind" else STAND_INS.get(column or "")
        if column is None or word is None or row.field(column) == word:
            return None
        if is_empty(row) or is_header(row) or is_total(row) or is_note(row):
            return None
        changed = row.with_fields(**{column: word})
        return changed if self.takes(changed, column) else None

    def in_unit(self, row: Row, word: str) -> Row | None:
        """The row in a unit of the table that may have another size, where the program takes it."""
        changed = row.with_fields(unit=word)
        changed.has_other_figure = True
        return changed if self.takes(changed, "unit") else None

    def blank_figure(self, row: Row) -> Row | None:
        """The record with NE in place of its figures, so that what takes it is there, where the program
        takes it.
        """
        changed = row.with_fields(value="NE", low="", high="")
        return changed if self.takes(changed, None) else None


def kind_by_its_rest(row: Row) -> str | None:
    """The kind that a row has by its unit, its value or its two numbers, or None."""
    value, low = (causes.without_blanks(row.field(column)).text for column in ("value", "low"))
    if causes.without_blanks(row.field("unit")).text:
        return "factor"
    if row.field("name") and all(re.fullmatch(r"\d+(\.\d+)?", text) for text in (value, low)):
        return "uncert"
    if value.casefold() in vocabulary.words()["forms"]:
        return "bind"
    return "line" if re.fullmatch(r"[Qq]\d+", value) else None


def line_above(row: Row) -> str | None:
    """The name of the nearest line above a row in its file, or None."""
    lines = (other for other in row.sheet.rows_above(row.line) if other.field("kind") == "line")
    return next((causes.name(other.field("name")).text for other in lines), None)


def is_empty(row: Row) -> bool:
    """Tells whether a row has nothing in it."""
    return not any(field.strip() for field in row.fields)


def is_header(row: Row) -> bool:
    """Tells whether a row is the header once more, some of it under other names."""
    same = [field.strip().casefold() == column for field, column in zip(row.fields, COLUMNS)]
    return sum(same) > len(COLUMNS) // 2


def is_total(row: Row) -> bool:
    """Tells whether a row is one of totals, as spreadsheets have them: by its act, or without a kind by its
    name.
    """
    named = [row.field("act"), row.field("name")] if len(row.fields) == len(COLUMNS) else row.fields[:4]
    if len(row.fields) > 1 and row.fields[1].strip():
        named = [row.field("act")]
    return any(TOTAL.fullmatch(text.strip()) for text in named)


def has_figure(row: Row) -> bool:
    """Tells whether a row has what no merged cell holds: a figure of a year, a form or an equation."""
    value = row.field("value").strip()
    if value and re.fullmatch(r"\d{4}", causes.year(row.field("year")).text):
        return True
    return value.casefold() in vocabulary.words()["forms"] or bool(re.fullmatch(r"[Qq]\d+", value))


def is_note(row: Row) -> bool:
    """Tells whether a row is a heading or a note: text, but neither an act nor a kind nor a figure."""
    words = vocabulary.words()
    act, kind = (row.field(column).strip().casefold() for column in ("act", "kind"))
    known = nearest(act, [*words["acts"], *OTHER_ACTS], 1, 0.75) if act else []
    of_kind = nearest(kind, [*words["kinds"], *OTHER_KINDS], 1, 0.75) if kind else []
    return not known and not of_kind and not has_figure(row)


def cause_of(found: Iterable[str]) -> str:
    """Causes as one."""
    return "; ".join(found)


def base_unit(measures: str | None) -> str:
    """The base unit of what is measured."""
    return vocabulary.units_that_measure(measures)[0]


def article(kind: str) -> str:
    """A kind of row with its article."""
    return f"an {kind}" if kind[:1] in "aeiou" else f"a {kind}"
