"""Explains a unit that is none of the table, and the unit of a yearly rate of decay: rule 5."""
import decimal
import fractions
import re

from tools import causes, half_lives, units, vocabulary
from tools.asking import Asking, base_unit, cause_of
from tools.basis_faults import of_basis
from tools.faults import Explained, at_row
from tools.sheets import Row
from tools.vocabulary import HALF_LIFE_UNIT, listed, nearest


def wrong_unit(asking: Asking, row: Row, column: str) -> Explained:
    """A unit. The row goes on with figures of its own size where its unit has another."""
    bare = causes.without_blanks(row.field(column))
    rate = rate_of_decay(asking, row, bare.text)
    if rate:
        return rate
    measures = asking.measured(row)
    based = of_basis(asking, row, bare.text, measures)
    if based:
        return based
    meant = units.meant(bare.text, measures)
    record = asking.book.some_record(row.field("kind"), row.field("name"))
    if meant and record and measures != vocabulary.measured_by(meant.word):
        meant = None
    candidates = [(cause_of(bare.causes), bare.text, True)]
    turned = units.upside_down(bare.text, measures)
    if turned and not (meant and vocabulary.measured_by(meant.word) == measures):
        candidates.append(("the unit is upside down", turned, True))
    where, beside = (None, None) if bare.text else unit_beside(row, measures)
    if beside:
        candidates.append((f"empty, and the {where} has the unit", beside, True))
    if meant and meant.times == 1:
        cause = f"the unit is written {meant.word}"
        if vocabulary.measured_by(meant.word) == "gas":
            cause = f"a line takes this as a gas, whose unit is written {meant.word}"
        candidates.append((cause_of(bare.causes + [cause]), meant.word, True))
    if row.field("name") in vocabulary.words()["potentials"]:
        candidates.append(("a warming potential is a ratio", "1", True))
    fault, changed = asking.first_taken(row, column, candidates, unit_otherwise(bare.text, meant, measures))
    if meant or measures:
        changed = changed or asking.in_unit(row, meant.word if meant else base_unit(measures))
    return fault, changed


def rate_of_decay(asking: Asking, row: Row, text: str) -> Explained | None:
    """The fault of a factor in the unit of a yearly share that a line takes by decay, or may take so,
    and the row with the half-life where a line does; or None.
    """
    reading = units.read(text)
    if row.field("kind") != "factor" or reading is None or not reading.is_yearly_share:
        return None
    forms = {form for _, form in asking.parameters_that_take(row)}
    if forms and "decay" not in forms:
        return None
    years = years_of_rate(row, reading.size)
    half_life = row.with_fields(value=years or "1", low="", high="", unit=HALF_LIFE_UNIT)
    if not asking.takes(half_life, None):
        return None
    rate = row.field("value").strip()
    if reading.size == fractions.Fraction(1, 100) and not rate.endswith("%"):
        rate += "%"
    value = f"ln 2 / {rate} = {years}" if years else "ln 2 / k"
    whole = "whole " if row.sheet.version == 1 else ""
    write = f"the unit is {HALF_LIFE_UNIT}, the value the half-life {value} in {whole}years"
    if row.field("low") or row.field("high"):
        write += ", and low and high are empty"
    if not forms:
        where = "where a line takes this factor by decay"
        return at_row(row, f"{where}, {write}; else a share of a year is a ratio in 1", "unit"), None
    half_life.has_other_figure = not years
    return at_row(row, f"no rate of decay; {write}", "unit"), half_life


def unit_beside(row: Row, measures: str | None = None) -> tuple[str | None, str | None]:
    """The column that has a unit of the table in place of the unit's own, and the unit; or None twice."""
    behind = re.fullmatch(r"-?[\d.,\s]*\d\s*([A-Za-z%].*)", row.field("value").strip())
    note = row.field("note") if len(row.field("note").split()) < 3 else ""
    for column, text in (("note", note), ("value", behind.group(1) if behind else "")):
        meant = units.meant(text, measures)
        if meant and meant.times == 1:
            return column, meant.word
    return None, None


def years_of_rate(row: Row, size: fractions.Fraction | int = 1) -> str | None:
    """The half-life of a yearly rate of decay in a unit of a size, as the format of its row has it, or None where
    the value is no such rate.
    """
    text = row.field("value")
    percent = text.strip().endswith("%")
    mended = causes.number(text.strip().removesuffix("%").rstrip())
    if not mended.sure or not re.fullmatch(r"\d{1,9}(\.\d+)?|\.\d+", mended.text):
        return None
    share = fractions.Fraction(1, 100) if percent else fractions.Fraction(size)
    rate = decimal.Decimal(mended.text) * share.numerator / share.denominator
    if not 0 < rate < 1:
        return None
    return half_lives.rounded(decimal.Decimal(2).ln() / rate, row.sheet.version)


def unit_otherwise(text: str, meant: units.Meant | None, measures: str | None) -> str:
    """Why a text is no unit."""
    of_record = ""
    if measures:
        of_record = f"; this record is in {listed(vocabulary.units_that_measure(measures))}"
    if not text:
        return f"empty: a unit is needed, beside a notation key too{of_record}"
    if meant and meant.times != 1:
        metric = "; t where metric tons are meant" if text.casefold() == "mt" else ""
        return f"no unit of the table; write {meant.word} ({meant.said}{metric})"
    near = nearest(text, vocabulary.units(), 3, 0.6)
    are = "is" if len(near) == 1 else "are"
    shown = f"; the nearest {are} {listed(near, 'and')}" if near and not of_record else ""
    return f"no unit of the table{of_record or shown}; ./workbook words units lists them"
