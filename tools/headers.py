"""Faults of a whole file: its encoding, what stands between its fields, its header, and quotes that are
never closed.
"""
import csv
import io
import re
from collections.abc import Sequence

from tools import causes, half_lives, sheets, vocabulary, wide_rows
from tools.faults import Fault, counted
from tools.other_words import OTHER_COLUMNS, meant_by
from tools.sheets import COLUMNS, COLUMN_AT, FIRST_NAMES, HEADERS, Row, Sheet, joined
from tools.vocabulary import nearest

HEADER = ",".join(COLUMNS)
# How a text of UTF-16 begins: with a mark, or with an ASCII letter.
UTF16 = {rb"\xff\xfe|\xfe\xff": "utf-16", rb"[\x20-\x7e]\x00": "utf-16-le", rb"\x00[\x20-\x7e]": "utf-16-be"}
ACTS = vocabulary.words()["acts"]
# How a further row begins within a quote: with its act and its kind.
FURTHER_ROW = re.compile(
    rf"[\r\n]\s*\"?({'|'.join(ACTS)})\"?,\"?({'|'.join(vocabulary.words()['kinds'])})\"?,".encode())
# A row all of which stands in quotes, and what may stand between fields.
ROW_IN_QUOTES = re.compile(rb'"([^"]*(?:""[^"]*)*)"[,;\t|]*')
SEPARATOR = re.compile(rb"[,;\t|]")
csv.field_size_limit(1 << 30)
SPREADSHEETS = (b"PK\x03\x04", b"\xd0\xcf\x11\xe0")
SAVE = "save it as CSV UTF-8 with commas"
# A title and notes in front of the header are looked for in so many rows.
ROWS_IN_FRONT = 30
# A file may have so many faults of this kind one after the other, as semicolons, a title in front and an
# empty column.
MOST_FAULTS = 6


def explain(sheet: Sheet, rows: list[Row]) -> tuple[Fault, list[Row] | None]:
    """The fault of a file whose header was refused, and its rows as they are read without it, or None.

    The rows may have a further fault of that kind: whether they have, the program is asked again.
    """
    if not rows:
        return Fault(sheet, 1, "", None, f"the file is empty; its first row is {HEADER}"), None
    if rows is sheet.rows and sheet.data.startswith(SPREADSHEETS):
        return Fault(sheet, 1, "", None, f"a spreadsheet and no CSV; {SAVE}"), None
    wide = of_years(sheet, rows) if rows is sheet.rows else None
    if wide:
        return wide
    encoding = utf16(sheet.data) if rows is sheet.rows else None
    if encoding:
        rows = sheets.split(sheet, sheet.data.decode(encoding, "replace").encode("utf-8"))
        between = delimiter(rows)
        parted = [with_comma(row, between) for row in rows] if between else rows
        return Fault(sheet, 1, "", None, f"the file is UTF-16; {SAVE}"), parted
    cause, mended = of_rows(rows)
    return Fault(sheet, rows[0].line, "", None, cause), mended


def rows_as_meant(sheet: Sheet) -> list[Row]:
    """The rows after the header of a file that nothing was asked of yet, as they most likely are meant."""
    rows: list[Row] | None = close_quotes(sheet)[1]
    for _ in range(MOST_FAULTS):
        if rows and rows[0].fields not in HEADERS.values():
            _, rows = explain(sheet, rows)
    return rows[1:] if rows else []


def of_years(sheet: Sheet, rows: list[Row]) -> tuple[Fault, list[Row]] | None:
    """The fault of a file with a column for each year, and the rows that are made of it, or None."""
    is_long = len(sheet.data) > int(vocabulary.limit("body").replace(",", ""))
    if is_long or any(begins_as_a_row(row) or is_like_a_header(row) for row in rows[:ROWS_IN_FRONT]):
        return None
    made = wide_rows.rows_of_csv(sheet.name, sheet.data)
    if made is None:
        return None
    first, last = made.tables[0].span
    cause = f"a table with a column for each year, {first} to {last}; ./workbook import {sheet.name}"
    cause += " -o ROWS.csv makes rows of it; keep this file outside the folder then"
    lines = [rows[0].line, *made.lines]
    return Fault(sheet, 1, "", None, cause), [Row(sheet, line, raw) for line, raw in zip(lines, made.rows)]


def begins_as_a_row(row: Row) -> bool:
    """Tells whether a row begins with an act, whatever stands after it."""
    return sheets.BEGIN_OF_ROWS.match(row.raw.decode("utf-8-sig", "replace")) is not None


def of_rows(rows: list[Row]) -> tuple[str, list[Row] | None]:
    """Why a header in rows that can be read is none, and the rows to go on with."""
    if within_quotes(rows[0]) is not None:
        quoted = sum(within_quotes(row) is not None for row in rows)
        what = "each row" if 2 * quoted > len(rows) else "the header"
        return f"quotes around {what}; take them out", [unquoted(row) for row in rows]
    between = delimiter(rows)
    if between:
        name = {";": "semicolons", "\t": "tabs", "|": "bars"}[between]
        cause = f"{name} between the fields; {SAVE}, and numbers with a point"
        return cause, [with_comma(row, between) for row in rows]
    if rows[0].fields == HEADERS[2]:
        return "an empty line in front of the header act2; take it out", list(rows)
    found = [at for at, row in enumerate(rows[:ROWS_IN_FRONT]) if is_like_a_header(row)]
    if found and found[0] > 0:
        cause = f"{counted(found[0], 'row')} in front of the header"
        return f"{cause}; take {'it' if found[0] == 1 else 'them'} out", rows[found[0]:]
    names = bare(rows[0].fields)
    if len(names) > 10 and names[:10] == COLUMNS:
        return eleventh(rows)
    if names[0] in ACTS:
        needed = half_lives.needed(rows)
        cause = f"no header; put a first row {needed.decode()} in front"
        return cause, [Row(rows[0].sheet, rows[0].line, needed), *rows]
    if sorted(names) == sorted(COLUMNS):
        return other_words(rows, names)
    return other_names(rows, names) if found else no_header(rows)


def utf16(data: bytes) -> str | None:
    """The encoding of a file's bytes where it is UTF-16, or None."""
    return next((encoding for start, encoding in UTF16.items() if re.match(start, data)), None)


def delimiter(rows: list[Row]) -> str | None:
    """What stands between the fields of at least half of the rows in place of commas, or None."""
    first = rows[:ROWS_IN_FRONT]
    for between in (b";", b"\t", b"|"):
        parted = [row for row in first if row.raw.count(between) >= max(5, row.raw.count(b","))]
        if parted and 2 * len(parted) >= len(first):
            return between.decode()
    return None


def with_comma(row: Row, between: str) -> Row:
    """A row with commas between its fields."""
    # Python 3.10 reads no field with a null character.
    text = row.raw.replace(b"\0", b"").decode("utf-8", "surrogateescape")
    fields: list[str] = next(csv.reader(io.StringIO(text, newline=""), delimiter=between), [])
    return Row(row.sheet, row.line, joined(fields))


def within_quotes(row: Row) -> bytes | None:
    """What stands in one pair of quotes around all of a row, or None."""
    found = ROW_IN_QUOTES.fullmatch(row.raw)
    return found.group(1).replace(b'""', b'"') if found and SEPARATOR.findall(found.group(1))[4:] else None


def unquoted(row: Row) -> Row:
    """A row without the quotes around all of it."""
    within = within_quotes(row)
    return row if within is None else Row(row.sheet, row.line, within)


def bare(fields: list[str]) -> list[str]:
    """Fields without unseen characters and without blanks at their ends, in lower case; and of each format the
    first name of the header as that of its column.
    """
    names = [re.sub(f"[{causes.UNSEEN}]", "", field).strip().casefold() for field in fields]
    return [COLUMNS[0] if name in FIRST_NAMES.values() else name for name in names]


def is_like_a_header(row: Row) -> bool:
    """Tells whether a row has at least half of the ten names."""
    return len(set(bare(row.fields)) & set(COLUMNS)) >= 5


def header_of(rows: list[Row]) -> Row:
    """The right header at the place of the first row, of the format that this means."""
    return Row(rows[0].sheet, rows[0].line, joined(HEADERS[sheets.version_of(rows[0].fields)]))


def other_words(rows: list[Row], names: list[str]) -> tuple[str, list[Row]]:
    """A header with the ten names in another case or order."""
    if names == COLUMNS and sum(field[:1].isspace() for field in rows[0].fields) > len(COLUMNS) // 2:
        return "a blank behind each comma; take these blanks out", [stripped(row) for row in rows]
    header = header_of(rows)
    if names == COLUMNS:
        odd = [(field, due) for field, due in zip(rows[0].fields, header.fields) if field != due]
        cause = f"the header is written {header.raw.decode()}"
        if len(odd) == 1:
            cause = 'the header has "{}"; write {}'.format(*odd[0])
        return cause, [header] + rows[1:]
    cause = "the columns stand in another order"
    placed = placed_by(rows, [names.index(column) for column in COLUMNS])
    if is_in_order(rows[1:], placed):
        cause, placed = "the header has another order than the rows, which stand in the right one", rows[1:]
    return f"{cause}; the header is {header.raw.decode()}", [header] + placed


def placed_by(rows: list[Row], places: Sequence[int | None]) -> list[Row]:
    """The rows after a header with their fields by the places of the columns. One that has not as many
    fields as the header stays.
    """
    width = len(rows[0].fields)
    return [with_columns(row, places) if len(row.fields) == width else row for row in rows[1:]]


def is_in_order(rows: list[Row], placed: list[Row]) -> bool:
    """Tells whether rows have more words of their columns as they stand than in the order of their header."""
    return len(rows[0].fields) == len(COLUMNS) and likeness(rows) > likeness(placed) if rows else False


def likeness(rows: list[Row]) -> int:
    """How many fields of rows look like what their columns hold."""
    words = vocabulary.words()
    known = {"act": words["acts"], "kind": words["kinds"], "unit": ["", *vocabulary.units()]}
    found = sum(row.field(column) in texts for row in rows for column, texts in known.items())
    found += sum(bool(re.fullmatch(r"(\d{4})?", row.field("year"))) for row in rows)
    found += sum(bool(re.search("[A-Za-z]", row.field("name"))) for row in rows)
    return found + sum(is_filled_in_order(row) for row in rows)


def is_filled_in_order(row: Row) -> bool:
    """Tells whether a row has a value, and after it nothing, or low alone, or bounds in their order."""
    value, low, high = (row.field(column).strip() for column in ("value", "low", "high"))
    figures = [causes.number(text).text for text in (low, high)]
    if high and all(re.fullmatch(r"-?\d{1,40}(\.\d{1,40})?", figure) for figure in figures):
        return float(figures[0]) <= float(figures[1])
    return bool(value) and not high


def stripped(row: Row) -> Row:
    """A row without blanks at the ends of its fields."""
    return Row(row.sheet, row.line, joined([field.strip() for field in row.fields]))


def eleventh(rows: list[Row]) -> tuple[str, list[Row]]:
    """More than ten columns. The rows go on with the first ten."""
    width = len(rows[0].fields)
    name = next((field for field in rows[0].fields[10:] if field), "")
    if name:
        cause = f'an eleventh column, "{name}"; take it out, or write what it holds in the note'
    else:
        cause = f"{width} columns in place of 10; take out the empty ones behind note"
    narrow = [Row(row.sheet, row.line, joined(row.fields[:10])) if len(row.fields) == width else row
              for row in rows]
    return cause, narrow


def other_names(rows: list[Row], names: list[str]) -> tuple[str, list[Row]]:
    """A header that has not the ten names. The rows go on with the columns that are known."""
    absent = [column for column in COLUMNS if column not in names]
    odd = ", ".join(field for field, name in zip(rows[0].fields, names) if name and name not in COLUMNS)
    lacks = "the header has a column without a name" if "" in names else "the header has a column twice"
    lacks = f"the header has another column, {odd}" if odd else lacks
    if absent:
        lacks = f"the header has no column {', '.join(absent)}{f', and has {odd}' if odd else ''}"
    places = places_of_columns(names)
    placed = placed_by(rows, places)
    found = [at for at in places if at is not None]
    if is_in_order(rows[1:], placed):
        lacks += ", and has another order than the rows, which stand in the right one"
        placed = rows[1:]
    elif found != sorted(found):
        lacks += ", and its columns stand in another order"
    header = header_of(rows)
    return f"{lacks}; it is {header.raw.decode()}", [header] + placed


def places_of_columns(names: list[str]) -> list[int | None]:
    """Where each column stands under these names, or None where there is no such column."""
    first = {name: at for at, name in reversed(list(enumerate(names)))}
    once = [name if first[name] == at else "" for at, name in enumerate(names)]
    for at, name in enumerate(once):
        meant = meant_column(name, once)
        once[at] = meant or name
    return [place_of(column, once) for column in COLUMNS]


def meant_column(name: str, names: list[str]) -> str | None:
    """The column that a name most likely is of those that the names lack, or None."""
    absent = [column for column in COLUMNS if column not in names]
    if not name or name in COLUMNS or not absent:
        return None
    other = meant_by(name, OTHER_COLUMNS)
    if other in absent:
        return other
    return next(iter(nearest(name, absent, 1, 0.7)), None)


def place_of(column: str, names: list[str]) -> int | None:
    """Where a column stands under these names, or None where there is no such column.

    One under another name stands at its own place, where the next name that is known does too.
    """
    if column in names:
        return names.index(column)
    at = COLUMN_AT[column]
    if at >= len(names) or names[at] in COLUMNS:
        return None
    behind = next((place for place in range(at, len(names)) if names[place] in COLUMNS), None)
    in_place = len(names) >= len(COLUMNS) if behind is None else COLUMN_AT[names[behind]] == behind
    return at if in_place else None


def with_columns(row: Row, places: Sequence[int | None]) -> Row:
    """A row of the fields at these places, and of empty ones."""
    return Row(row.sheet, row.line, joined(["" if at is None else row.fields[at] for at in places]))


def no_header(rows: list[Row]) -> tuple[str, list[Row] | None]:
    """A first row that is no header. The rows after it are read where they begin with an act."""
    rest = rows[1:] if rows[1:] and bare(rows[1].fields)[0] in ACTS else None
    needed = half_lives.needed(rest or [])
    header = Row(rows[0].sheet, rows[0].line, needed)
    return f"no header; the first row is {needed.decode()}", [header, *rest] if rest else None


def close_quotes(sheet: Sheet) -> tuple[list[Fault], list[Row]]:
    """The faults of quotes that take in further rows, and the rows as they are with each such quote closed
    on its line.
    """
    if b'"' not in sheet.data or not any(takes_in_rows(row) for row in sheet.rows):
        return [], sheet.rows
    faults, rows, waiting = [], [], list(sheet.rows)
    while waiting:
        row = waiting.pop(0)
        if not takes_in_rows(row):
            rows.append(row)
            continue
        first, *rest = sheets.LINE_END.split(row.raw, maxsplit=1)
        closed, how = without_open_quote(Row(sheet, row.line, first))
        last = row.line + len(sheets.LINE_END.findall(row.raw.rstrip(b"\r\n")))
        taken = "it goes on to the end of the file"
        if last > row.line:
            taken = f"it takes in the rows up to line {last}"
        cause = f"an open quote: {taken}; {how}"
        faults.append(Fault(sheet, row.line, "", None, cause, row=row))
        rows.append(closed)
        waiting = moved(sheets.split(sheet, b"".join(rest)), row.line) + waiting
    return faults, rows


def without_open_quote(row: Row) -> tuple[Row, str]:
    """A row of one line with its open quote closed at the end, or taken out where ten fields come of that
    alone; and which.
    """
    at = sheets.open_quote(row.raw) or 0
    bare = Row(row.sheet, row.line, row.raw[:at] + row.raw[at + 1:])
    closed = Row(row.sheet, row.line, row.raw + b'"')
    if len(bare.fields) == len(COLUMNS) != len(closed.fields):
        return bare, "take the quote out"
    return closed, "close the quote at the end of this line"


def moved(rows: list[Row], line: int) -> list[Row]:
    """Rows of a text that begins after a line."""
    return [Row(row.sheet, row.line + line, row.raw) for row in rows]


def takes_in_rows(row: Row) -> bool:
    """Tells whether a quote of the row is open, or holds what looks like further rows up to a quote with a
    text after it.
    """
    return sheets.open_quote(row.raw) is not None or holds_rows(row) and sheets.is_closed_within(row.raw)


def holds_rows(row: Row) -> bool:
    """Tells whether the row holds what looks like further rows."""
    return FURTHER_ROW.search(row.raw) is not None
