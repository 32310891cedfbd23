"""Explains a row of too many fields or too few, or of bytes that are no text: rule 4."""
from tools import vocabulary
from tools.asking import Asking, is_total
from tools.faults import Explained, at_row, shown
from tools.parted_numbers import numbers_in_two
from tools.recognisers import Recogniser, first_explained
from tools.sheets import COLUMNS, Row, joined


def wrong_shape(asking: Asking, row: Row) -> Explained:
    """Why a row is none of ten fields, and the row to go on with where the program takes one."""
    return first_explained(SHAPES, asking, row) or (at_row(row, "no row of ten fields of UTF-8"), None)


def said_of_count(row: Row) -> str:
    """How many fields a row has."""
    count = len(row.fields)
    return f"{count} {'field' if count == 1 else 'fields'} in place of {len(COLUMNS)}"


def bytes_of_no_text(_: Asking, row: Row) -> Explained | None:
    """Bytes that are no UTF-8. The row goes on as if they were Latin-1."""
    odd = next((letter for field in row.fields for letter in field if 0xDC80 <= ord(letter) <= 0xDCFF), None)
    if odd is None:
        return None
    latin = row.raw.decode("cp1252", "replace")
    meant = bytes([ord(odd) - 0xDC00]).decode("cp1252", "replace")
    cause = f"the byte {ord(odd) - 0xDC00:02X} is not UTF-8 (in Latin-1 it is {meant})"
    mended = Row(row.sheet, row.line, latin.encode("utf-8"))
    return at_row(row, f"{cause}; save the file as CSV UTF-8"), mended


def commas_alone(_: Asking, row: Row) -> Explained | None:
    """A row without a text."""
    return None if row.raw.strip(b" \t,") else (at_row(row, "an empty row; take it out"), None)


def totals_of_other_fields(_: Asking, row: Row) -> Explained | None:
    """A row of totals."""
    return (at_row(row, "a row of totals; take it out"), None) if is_total(row) else None


def other_marks(asking: Asking, row: Row) -> Explained | None:
    """Semicolons or tabs between the fields. A comma after them is one of a number."""
    text = row.raw.decode("utf-8", "replace")
    for mark, marks in ((";", "semicolons"), ("\t", "tabs")):
        if row.fields[0].count(mark) >= COLUMNS.index("value"):
            fields = text.split(mark)
            fields += [""] * (len(COLUMNS) - len(fields))
            changed = of_ten(asking, row, fields)
            write = f", as {changed.raw.decode('utf-8', 'replace')}" if changed else ""
            cause = f"{said_of_count(row)}: {marks} between the fields; write commas{write}"
            return at_row(row, cause), changed or of_rest(row, fields)
    return None


def one_field(_: Asking, row: Row) -> Explained | None:
    """A text without a comma."""
    cause = f"{said_of_count(row)}; take the row out, or write what it says into a note"
    return (at_row(row, cause), None) if len(row.fields) == 1 else None


def too_few(asking: Asking, row: Row) -> Explained | None:
    """Less than ten fields. Empty ones are put in at the end, else where the program takes them."""
    fields, empty = row.fields, [""] * (len(COLUMNS) - len(row.fields))
    cause = f"{said_of_count(row)}: write a comma for each empty column too"
    for at in range(len(fields), 1, -1) if empty else ():
        changed = of_ten(asking, row, fields[:at] + empty + fields[at:])
        if changed:
            write = "" if at == len(fields) else f", as {changed.raw.decode('utf-8', 'replace')}"
            return at_row(row, f"{cause}{write}"), changed
    return (at_row(row, cause), of_rest(row, fields + empty)) if empty else None


def comma_within(asking: Asking, row: Row) -> Explained | None:
    """One comma too many within a row of eleven fields, where the program takes it without that one and
    not without the last.
    """
    fields = row.fields
    if len(fields) != len(COLUMNS) + 1 or fields[-1] or of_ten(asking, row, fields[:-1]):
        return None
    for at in range(1, len(COLUMNS)):
        changed = of_ten(asking, row, fields[:at] + fields[at + 1:]) if not fields[at] else None
        if changed:
            behind = next(filter(None, fields[at:]), "")
            cause = f"{said_of_count(row)}; take out a comma in front of {shown(behind)}"
            return at_row(row, cause), changed
    return None


def numbers_with_commas(asking: Asking, row: Row) -> Explained | None:
    """Numbers that commas have parted."""
    return numbers_in_two(asking, row, said_of_count(row)) if len(row.fields) > len(COLUMNS) else None


def commas_at_the_end(_: Asking, row: Row) -> Explained | None:
    """Empty fields after the ten."""
    left = row.fields[len(COLUMNS):]
    if not left or any(left):
        return None
    commas = "comma" if len(left) == 1 else f"{len(left)} commas"
    cause = f"{said_of_count(row)}; take out the {commas} at the end"
    return at_row(row, cause), of_rest(row, row.fields[:len(COLUMNS)])


def comma_in_a_text(asking: Asking, row: Row) -> Explained | None:
    """A comma in the note or in another field."""
    fields = row.fields
    if len(fields) <= len(COLUMNS):
        return None
    in_note = of_ten(asking, row, fields[:len(COLUMNS)])
    cause = f"{said_of_count(row)}: a comma in {'the note' if in_note else 'a field'}; put it in quotes"
    noted = fields[:9] + [",".join(fields[9:])]
    return at_row(row, cause), of_ten(asking, row, noted) or (of_rest(row, noted) if fields[8] else None)


def of_ten(asking: Asking, row: Row, fields: list[str]) -> Row | None:
    """The row with other fields, where the program takes it."""
    changed = Row(row.sheet, row.line, joined(fields))
    return changed if asking.takes(changed, None) else None


def of_rest(row: Row, fields: list[str]) -> Row | None:
    """The row with ten other fields, where it has an act and a kind, so that what else it breaks is told too;
    else None.
    """
    words = vocabulary.words()
    has_front = fields[0] in words["acts"] and fields[1] in words["kinds"]
    return Row(row.sheet, row.line, joined(fields)) if has_front else None


SHAPES = (
    Recogniser(
        bytes_of_no_text, "bytes that are no UTF-8",
        "enter,activity,,COAL,2019,1000,,,kt,\udcb5", "the byte B5 is not UTF-8 (in Latin-1 it is \u00b5)",
        "enter,activity,,COAL,2019,1000,,,kt,\u00b5"),
    Recogniser(
        commas_alone, "commas alone", ",,,,", "an empty row; take it out",
        "enter,activity,,COAL,2019,1000,,,kt,"),
    Recogniser(
        totals_of_other_fields, "totals", "Total,,,3070", "a row of totals; take it out",
        "enter,activity,,COAL,2019,1000,,,kt,total of two plants"),
    Recogniser(
        other_marks, "semicolons or tabs between the fields",
        "-enter,activity,,COAL,2019\nenter;activity;;COAL;2019;1000;;;kt;",
        "semicolons between the fields; write commas, as enter,activity,,COAL,2019,1000,,,kt,",
        "enter,activity,,COAL,2019,1000,,,kt,weighed; not measured"),
    Recogniser(
        one_field, "a text alone", "coal of the north mine",
        "1 field in place of 10; take the row out, or write what it says into a note",
        "enter,activity,,COAL,2019,1000,,,kt,coal of the north mine"),
    Recogniser(
        too_few, "commas too few", "enter,activity,,COAL,2019,1000,,,kt",
        "9 fields in place of 10: write a comma for each empty column too",
        "enter,activity,,COAL,2019,1000,,,kt,"),
    Recogniser(
        comma_within, "one comma too many",
        "-enter,activity,,COAL,2019\nenter,activity,,,COAL,2019,1000,,,kt,",
        '11 fields in place of 10; take out a comma in front of "COAL"',
        "enter,activity,,COAL,2019,1000,,,kt,"),
    Recogniser(
        numbers_with_commas, "decimal commas that part a number", "enter,factor,,COAL.NCV,2019,25,8,,,TJ/Gg,",
        "a comma in the number 25,8; write 25.8 in value", "enter,factor,,COAL.NCV,2019,25.8,,,TJ/Gg,"),
    Recogniser(
        commas_at_the_end, "commas at the end", "enter,activity,,COAL,2019,1000,,,kt,,,",
        "12 fields in place of 10; take out the 2 commas at the end", "enter,activity,,COAL,2019,1000,,,kt,"),
    Recogniser(
        comma_in_a_text, "a comma in a note", "enter,activity,,COAL,2019,1000,,,kt,north mine, by ship",
        "11 fields in place of 10: a comma in the note; put it in quotes",
        'enter,activity,,COAL,2019,1000,,,kt,"north mine, by ship"'),
)
