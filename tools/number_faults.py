"""Explains a number that is none, and bounds in disorder: rules 6 and 7."""
import decimal
import re

from tools import causes, half_lives, letters, units, vocabulary
from tools.asking import Asking, cause_of
from tools.basis_faults import other_basis
from tools.causes import Mended
from tools.faults import Explained, Fault, at_row, years_said
from tools.parted_numbers import comma_in_quotes
from tools.percent_faults import BOTH_SIDES, EXACT, both_sides, figure_of, percent_sign, written
from tools.recognisers import HEADER_2, LANDFILL, Recogniser, first_explained
from tools.sheets import HEADERS, Row, Sheet, joined
from tools.vocabulary import HALF_LIFE_UNIT, limit, listed

NO_FIGURE = {
    "\u2013", "\u2014",
    "-", "--", "n/a", "na.", "n.a.", "n.a", "nan", "null", "none", "...", "..", ".", "x", "?", "tbd", "nd",
    "n.d.", "b.d.", "k.a.", "s.d.", "s/d", "nil", "zero", "missing", "unknown", "not available", "no data",
}
# How a formula begins, and a number that a spreadsheet took for a day and a month.
FORMULA = ("=", "+", "@")
DAY_AND_MONTH = r"\d{1,4}[-. ](jan|feb|mar|apr|may|jun|jul|aug|sep|oct|nov|dec)[a-z]*|[a-z]{3}[-. ]\d{1,4}"
BOUNDS = rf"(-?[\d.,\s]*\d)\s*(?:[-~;{causes.MINUS}]|to|\.{{2,3}}|\u2026)\s*(-?\d[\d.,\s]*)"
TWO_BOUNDS = re.compile(BOUNDS)
# Two percentages, each with its sign or without.
SIDE = rf"[+{causes.MINUS}-]?\s*(\d[\d.,]*)\s*%?"
TWO_SIDES = re.compile(rf"{SIDE}\s*(?:[-/;{causes.MINUS}]|to|and)\s*{SIDE}")
ALL_IN_ONE = re.compile(rf"(-?[\d.,\s]*\d)\s*[(\[]\s*{BOUNDS}[)\]]")
# A first and a last year, and what people write for all years.
YEARS = re.compile(rf"(\d{{4}})\s*(?:[-/:{causes.MINUS}]|to|\.\.+|\u2026)\s*(\d{{4}})")
ALL_YEARS = {"", "all", "all years", "any", "every", "every year", "each year", "constant", "const", "-", "*"}
# What the two percentages of an uncertainty are of.
UNCERTAIN = {"value": "activity", "low": "factor"}


def wrong_number(asking: Asking, row: Row, column: str) -> Explained:
    """A number of any kind. The row goes on with another where it is not known which is meant."""
    kind = row.field("kind")
    if column == "year" or kind == "span":
        return wrong_year(asking, row, column)
    if kind == "uncert":
        fault, changed = wrong_percentage(asking, row, column)
    elif row.field("unit") == HALF_LIFE_UNIT:
        fault, changed = wrong_half_life(asking, row, column)
    else:
        fault, changed = wrong_figure(asking, row, column)
    return fault, changed or other_figure(asking, row, column)


def other_figure(asking: Asking, row: Row, column: str) -> Row | None:
    """The row with another figure in place of one, so that the rest of it is looked at; else with NE."""
    others = [row.field(other) for other in ("value", "low", "high") if other != column]
    figures = list(filter(None, others))
    if row.field("kind") == "uncert" or figures:
        figures.append("0")
    if row.field("unit") == HALF_LIFE_UNIT:
        figures = ["1"]
    for text in figures:
        changed = row.with_fields(**{column: text})
        if asking.takes(changed, column):
            changed.has_other_figure = True
            return changed
    return asking.blank_figure(row)


def wrong_figure(asking: Asking, row: Row, column: str) -> Explained:
    """The value, low or high of an activity or a factor."""
    return first_explained(FIGURES, asking, row, column) or other_number(asking, row, column)


def distance_to_both_sides(asking: Asking, row: Row, column: str) -> Explained | None:
    """A distance in place of bounds, or None."""
    return both_sides(asking, row, column) if column in ("low", "high") else None


def missing_bound(_: Asking, row: Row, column: str) -> Explained | None:
    """One bound without the other, or None."""
    other = {"low": "high", "high": "low"}.get(column)
    if other is None or row.field(column):
        return None
    there = "" if row.has_other_figure else f"{other} is {row.field(other)} and "
    return at_row(row, f"{there}{column} is missing; fill both or neither", column), None


def number_beside_key(_: Asking, row: Row, column: str) -> Explained | None:
    """A number and a notation key in one field, or None."""
    text, keys = row.field(column), vocabulary.words()["keys"]
    if not re.search(r"\d", text) or not re.search(rf"\b({'|'.join(keys)})\b", text):
        return None
    return at_row(row, "a number and a notation key; write one of the two", column), None


def other_number(asking: Asking, row: Row, column: str) -> Explained:
    """A number as it is written elsewhere, or what is none."""
    mended = causes.number(row.field(column))
    if not mended.sure:
        return comma_in_quotes(asking, row, column) or (at_row(row, cause_of(mended.causes), column), None)
    otherwise = number_otherwise(column, mended.text, row)
    return asking.first_taken(row, column, [(cause_of(mended.causes), mended.text, True)], otherwise)


def blank_bounds(asking: Asking, row: Row, column: str) -> Explained | None:
    """Bounds of blanks alone or of what stands for nothing, or None."""
    blank = [name for name in ("low", "high") if row.field(name)
             and row.field(name).strip().casefold() in ("", *NO_FIGURE)]
    changed = row.with_fields(**dict.fromkeys(blank, ""))
    if column not in blank or not asking.takes(changed, column):
        return None
    cause = "low and high are empty where there are no bounds"
    return at_row(row, cause, column, listed([f"nothing in {name}" for name in blank], "and")), changed


def wrong_key(asking: Asking, row: Row, column: str) -> Explained | None:
    """A notation key, or what looks like one; or None."""
    keys, meant = vocabulary.words()["keys"], causes.notation_key(row.field(column))
    if column != "value" or meant not in [*keys, "C"]:
        return None
    if meant == "C":
        cause = f"confidential is no key here; write the number, or one of {listed(keys)}"
        return at_row(row, cause, column), None
    if meant != letters.latin(row.field(column)).strip().upper():
        return asking.first_taken(row, column, [("a notation key has two letters", meant, True)], "no key")
    return asking.choice(row, column, keys, f"no number and no notation key ({listed(keys)})")


def all_in_one(asking: Asking, row: Row, column: str) -> Explained | None:
    """A value with its bounds in brackets after it, as 25 (7.5-86), or None."""
    found = ALL_IN_ONE.fullmatch(row.field(column).strip()) if column == "value" else None
    figures = [figure_of(text) for text in found.groups()] if found else []
    texts = [written(figure) for figure in figures if figure is not None]
    if len(texts) != 3:
        return None
    value, low, high = texts
    changed = row.with_fields(value=value, low=low, high=high)
    if not asking.takes(changed, None):
        return None
    write = f"{value} in value, {low} in low and {high} in high"
    return at_row(row, "a value with its bounds", column, write), changed


def two_in_one(asking: Asking, row: Row, column: str) -> Explained | None:
    """Two bounds in one field, as 89500-99700, or None. In the value they leave it open which it is."""
    at = column if row.field(column) else {"low": "high", "high": "low"}.get(column, column)
    found = TWO_BOUNDS.fullmatch(row.field(at).strip())
    least, most = (figure_of(text) for text in found.groups()) if found else (None, None)
    if least is None or most is None or least > most:
        return None
    low, high = written(least), written(most)
    other = {"low": "high", "high": "low"}.get(at)
    where = f"{low} in low and {high} in high"
    changed = row.with_fields(low=low, high=high)
    if other and row.field(other) in ("", low, high) and asking.takes(changed, column):
        return at_row(row, "two bounds in one field", at, where), changed
    if other:
        return None
    if row.field("low") and row.field("high"):
        return None
    changed = changed.with_fields(value=low)
    changed.has_other_figure = True
    cause = f"two bounds and no value; write the value between them here, and {where}"
    return at_row(row, cause, at), changed if asking.takes(changed, None) else None


def is_in_two(row: Row) -> bool:
    """Tells whether a number with a comma stands in value and low: what stands in low is no low bound."""
    value, low = row.field("value"), row.field("low")
    return bool(re.fullmatch(r"\d{1,3}", value)) and low.isdecimal() and int(low) > int(value)


def in_two(asking: Asking, row: Row, column: str) -> Explained | None:
    """A number with a comma that stands in value and low, or None."""
    value, low = row.field("value"), row.field("low")
    if column != "high" or row.field("high") or not is_in_two(row):
        return None
    cause = f"a comma in the number {value},{low} has parted it"
    if len(low) == 3 and value != "0":
        either = f"{value}{low} in value and nothing in low, or {value}.{low} where it is a decimal comma"
        return at_row(row, f"{cause}; write {either}", "low"), asking.blank_figure(row)
    changed = row.with_fields(value=f"{value}.{low}", low="")
    return at_row(row, cause, "low", f"{value}.{low} in value and nothing in low"), changed


def with_unit(asking: Asking, row: Row, column: str) -> Explained | None:
    """A number with a unit after it, or None. It is sure where that is the row's own unit."""
    found = re.fullmatch(r"(-?[\d.,\s]*\d)\s*([A-Za-z].*)", row.field(column).strip())
    meant = units.meant(found.group(2)) if found else None
    if found is None or meant is None:
        return None
    figure = causes.number(found.group(1))
    if not figure.sure:
        return None
    cause, unit = "a unit behind the number; it stands in the column unit alone", row.field("unit")
    based = other_basis(asking, row, found.group(2))
    if based:
        return at_row(row, f"{cause}; {based}", column), None
    text = figure.text if meant.times == 1 else units.multiplied(figure.text, meant.times)
    has_other = meant.word != unit and unit in vocabulary.units()
    is_other = has_other and vocabulary.measured_by(meant.word) != vocabulary.measured_by(unit)
    has_bounds = column != "value" or row.field("low") or row.field("high")
    if text is None or is_other or has_other and has_bounds:
        return at_row(row, f"{cause}, as a number of {unit}", column), None
    changed = row.with_fields(**{column: text, "unit": meant.word})
    if not asking.takes(changed, column):
        return None
    write = text if meant.word == unit else f"{text} and the unit {meant.word}"
    return at_row(row, cause, column, write), changed


def wrong_half_life(asking: Asking, row: Row, column: str) -> Explained:
    """A half-life, which has no bounds, or a bound of it."""
    if column != "value":
        return asking.filled(row, column, "a half-life has no bounds")
    mended, version = without_years(causes.number(row.field(column))), row.sheet.version
    digits = re.fullmatch(r"0*(\d+(?:\.[1-9])?)(\.?0*)" if version > 1 else r"0*(\d+)(\.0*)?", mended.text)
    form = half_lives.form(version)
    otherwise = f"no half-life; it is {form}"
    if row.field(column).strip().upper() in vocabulary.words()["keys"]:
        otherwise = f"a half-life has no notation key; it is {form}"
    elif re.fullmatch(r"\d+\.\d+", mended.text) and not digits:
        otherwise = f"no half-life; it is {form}: {in_years(decimal.Decimal(mended.text), version)}"
    found = mended.causes or [f"a half-life is {form}"]
    candidates = [(cause_of(found), digits.group(1), True)] if digits and mended.sure else []
    return asking.first_taken(row, column, candidates, otherwise)


def half_life_with_a_point(asking: Asking, row: Row) -> Fault | None:
    """A half-life with a tenth of a year under the header of format 1, where the program takes it under that of
    format 2; or None.
    """
    if row.sheet.version > 1 or not half_lives.has_tenth(row.fields) or asking.takes(row, "value"):
        return None
    other = Row(Sheet(row.sheet.name, joined(HEADERS[2])), row.line, row.raw)
    if not asking.takes(other, "value"):
        return None
    return at_row(row, "a half-life with a point is of format 2", "value", "act2 in the header")


def wrong_percentage(asking: Asking, row: Row, column: str) -> Explained:
    """One of the two percentages of an uncertainty."""
    text = row.field(column)
    if not text.strip():
        cause = f"the percentage of the {UNCERTAIN[column]} is missing; an uncertainty has two"
        return at_row(row, f"{cause}, of the activity in value and of the factor in low", column), None
    decimals = int(limit("percentage_decimals"))
    sides = TWO_SIDES.fullmatch(text.strip())
    bare = max(sides.groups(), key=lambda side: figure_of(side) or 0) if sides else text.strip()
    bare = re.sub(rf"^({BOTH_SIDES}|[{causes.MINUS}-])\s*", "", bare).removesuffix("%").rstrip()
    mended = causes.number(bare if bare != text.strip() else text, decimals)
    if not mended.sure:
        return at_row(row, cause_of(mended.causes), column), None
    found = ["two percentages in one field, of which the larger counts"] if sides else []
    has_sign = re.match(rf"{BOTH_SIDES}|[{causes.MINUS}-]", text.strip())
    found += ["a percentage has no sign"] if has_sign and not sides else []
    found += ["a percent sign"] if "%" in text and not sides else []
    found += mended.causes
    form = f"a number from 0 to {limit('percentage')} with at most {decimals} decimals"
    candidates = [(cause_of(found), mended.text, True)]
    return asking.first_taken(row, column, candidates, f"no percentage; it is {form}")


def wrong_year(asking: Asking, row: Row, column: str) -> Explained:
    """A year, or one of the three of a span."""
    several = several_years(asking, row, column)
    if several:
        return several
    mended = causes.year(row.field(column))
    if not mended.sure:
        first = row.with_fields(**{column: mended.text[:4]})
        return at_row(row, cause_of(mended.causes), column), first if asking.takes(first, column) else None
    if row.field("kind") == "span":
        return year_of_span(asking, row, column, mended)
    between, lacking = year_between(row), asking.year_lacking(row)
    if not mended.text and (between or lacking):
        cause = "empty, between two years" if between else f"empty, and no other row is of {lacking}"
        return asking.first_taken(row, column, [(cause, between or lacking or "", True)], "no year")
    mended = of_two_digits(mended, asking.span())
    other = f", and no other row is of {lacking}" if lacking else ""
    candidates = [(cause_of(mended.causes), mended.text, True)]
    otherwise = f"no year; a year is {year_form()}{other}"
    fault, changed = asking.first_taken(row, column, candidates, otherwise)
    return fault, changed or of_first_year(asking, row)


def of_first_year(asking: Asking, row: Row) -> Row | None:
    """The row of a factor in the first year of the span, so that what takes it is seen, where no row
    enters that; or None.
    """
    span = asking.span()
    if row.field("kind") != "factor" or span is None:
        return None
    first = row.with_fields(year=str(span[0]))
    return first if not asking.ahead.is_entered(first) and asking.takes(first, "year") else None


def year_of_span(asking: Asking, row: Row, column: str, mended: Mended) -> Explained:
    """One of the three years of a span. It goes on with its first year as the base, or the other way
    round.
    """
    which = {"year": "the first", "value": "the last", "low": "the base"}[column]
    otherwise = f"no year: a span has {which} year here, in {year_form()}"
    candidates = [(cause_of(mended.causes), mended.text, True)]
    fault, changed = asking.first_taken(row, column, candidates, otherwise)
    other = {"low": "year", "year": "low"}.get(column)
    if not changed and other and asking.takes(row.with_fields(**{column: row.field(other)}), None):
        changed = row.with_fields(**{column: row.field(other)})
    return fault, changed


def several_years(asking: Asking, row: Row, column: str) -> Explained | None:
    """A first and a last year in one field, or none where a factor holds in all years; or None."""
    text, kind = row.field(column).strip(), row.field("kind")
    found = YEARS.fullmatch(text)
    first, last = found.groups() if found else ("", "")
    if column != "year" or found and first >= last or not found and text.casefold() not in ALL_YEARS:
        return None
    if kind == "span" and found and row.field("value").strip() in ("", last):
        changed = row.with_fields(year=first, value=last)
        write = f"{first} in year and {last} in value"
        return at_row(row, "the first and the last year in one field", column, write), changed
    if row.field("act") == "withdraw" and kind in asking.book.years:
        years = list(asking.book.years[kind].get(row.field("name"), {}))
        there = f"; there are records of {years_said(years)}" if years else ""
        return at_row(row, f"a row withdraws the record of one year{there}", column), None
    if kind == "factor" and not year_between(row):
        span = asking.span()
        year = first or (str(span[0]) if span else "")
        cause = "a factor holds from its year on"
        is_free = year and not asking.ahead.is_entered(row.with_fields(year=year))
        candidates = [(cause, year, True)] if is_free else []
        otherwise = f"{cause}; write the first year that it holds in"
        return asking.first_taken(row, column, candidates, otherwise)
    if kind == "activity" and found and int(last) > int(first) + 1:
        changed = row.with_fields(year=first)
        is_free = not asking.ahead.is_entered(changed)
        cause = "several years in one field; write a row for each year"
        return at_row(row, cause, column), changed if is_free else None
    return None


def disorder(asking: Asking, row: Row) -> Explained:
    """Bounds that do not hold their value, or a span whose years are in disorder; and the row to go on
    with.
    """
    value, low, high = (row.field(column) for column in ("value", "low", "high"))
    if row.field("kind") == "span":
        return disorder_of_span(row, row.field("year"), value, low)
    number, least, most = (decimal.Decimal(text) for text in (value, low, high))
    if most <= number <= least:
        changed = row.with_fields(low=high, high=low)
        write = f"{high} in low and {low} in high"
        return at_row(row, "low and high are swapped", "low", write), changed
    column, cause = ten_times_off(number, least, most)
    if least > most and not column:
        inner = sorted((least, number, most))
        order = "in order they are {1} with low {0} and high {2}".format(*map(written, inner))
        fault = at_row(row, f"low {low} is above high {high}; {order}", "low")
    elif 0 < most < number and (number <= 100 * most or most < 100) and least in (most, -most):
        cause = "low and high are the same figure and below the value; they are bounds, and no distances"
        fault = at_row(row, f"{cause}: {said_of_distance(number, most)}", "low")
    elif 0 < least <= 1 <= most < 10 and most < number:
        bounds = listed([written(EXACT.multiply(number, bound)) for bound in (least, most)], "and")
        cause = f"low and high are bounds, and no factors of the value; of these they are {bounds}"
        fault = at_row(row, cause, "low")
    elif column:
        fault = at_row(row, cause, column)
    else:
        side, bound = ("low", "above") if least > number else ("high", "below")
        advice = way_to_bounds(number, least, most)
        fault = at_row(row, f"{side} is {bound} the value {value}; {advice}", side)
    return fault, asking.blank_figure(row)


def disorder_of_span(row: Row, first: str, last: str, base: str) -> Explained:
    """The years of a span in disorder, and the span to go on with where first and last are swapped."""
    if last < first:
        cause = f"the last year {last} is before the first, {first}"
        if last <= base <= first:
            changed = row.with_fields(year=last, value=first)
            return at_row(row, cause, "value", f"{last} in year and {first} in value"), changed
        return at_row(row, cause, "value"), None
    cause = f"the base year {base} is not from {first} to {last}"
    span = f"{base} in year" if base < first else f"{base} in value"
    changed = row.with_fields(low=first)
    return at_row(row, f"{cause}; write one of these here, or {span}", "low"), changed


def year_form() -> str:
    """What a year is."""
    return f"four digits from {limit('first_year')} to {limit('last_year')}"


def of_two_digits(mended: Mended, span: tuple[int, int] | None) -> Mended:
    """A year with all its digits where it has two, and one year of the span ends with these."""
    if not span or not re.fullmatch(r"['\u2019]?\d\d", mended.text):
        return mended
    years = [str(year) for year in range(span[0], span[1] + 1) if str(year).endswith(mended.text[-2:])]
    return mended.less("two digits of a year", years[0]) if len(years) == 1 else mended


def without_years(mended: Mended) -> Mended:
    """A half-life without its unit after it."""
    found = re.fullmatch(r"(\d[\d.]*)\s*([A-Za-z]+)", mended.text)
    meant = units.meant(found.group(2)) if found else None
    is_unit = meant is not None and meant.word == HALF_LIFE_UNIT
    return mended.less("a unit behind the number", found.group(1)) if found and is_unit else mended


def year_between(row: Row) -> str | None:
    """The year between those of the rows above and below a row, where these are of the same name, or None."""
    above = next(row.sheet.rows_above(row.line), None)
    below = next(row.sheet.rows_below(row.line), None)
    if above is None or below is None or {above.key[:2], below.key[:2]} != {row.key[:2]}:
        return None
    first, last = (causes.year(other.field("year")).text for other in (above, below))
    if not (first.isdecimal() and last.isdecimal()) or int(last) - int(first) != 2:
        return None
    return str(int(first) + 1)


def ten_times_off(number: decimal.Decimal, least: decimal.Decimal, most: decimal.Decimal) -> tuple[str, str]:
    """The column of the one figure of three that looks ten times too big or too small, since they are in
    order and near each other once its point has moved, and what is said of it; or nothing twice.
    """
    found, figures = [], {"value": number, "low": least, "high": most}
    for column, figure in figures.items():
        others = [f"{name} {written(other)}" for name, other in figures.items() if name != column]
        for power, size in ((-1, "big"), (1, "small")):
            meant = {**figures, column: figure.scaleb(power)}
            value, low, high = meant.values()
            if 0 < low <= value <= high <= 3 * low and low < high:
                cause = f"looks ten times too {size} beside {listed(others, 'and')}"
                found.append((column, f"{cause}; is it {written(meant[column])}?"))
    return found[0] if len(found) == 1 else ("", "")


def way_to_bounds(number: decimal.Decimal, least: decimal.Decimal, most: decimal.Decimal) -> str:
    """How to come to bounds that hold a number."""
    held, inner = scaled(number, least, most), sorted((least, number, most))
    if held:
        return f"{held} would hold it: is the unit of the bounds another?"
    if 0 < inner[2] <= 2 * inner[0]:
        in_order = "{1} with low {0} and high {2}".format(*map(written, inner))
        return f"in order they are {in_order}: are two in each other's column? else write bounds that hold it"
    return "write bounds that hold it, or leave both empty"


def said_of_distance(number: decimal.Decimal, distance: decimal.Decimal) -> str:
    """The bounds at a distance from a number, and at so many percent of it, where these are meant at all."""
    meant = []
    if number <= 100 * distance:
        meant.append(f"of a distance of {written(distance)} they are {written(number - distance)}"
                     f" and {written(number + distance)}")
    if distance < 100:
        bounds = [written(distance), *shares(number, distance)]
        meant.append(f"of {{}} percent {'' if meant else 'they are '}{{}} and {{}}".format(*bounds))
    return ", ".join(meant)


def shares(number: decimal.Decimal, percent: decimal.Decimal) -> list[str]:
    """The bounds at a distance in percent to both sides."""
    return [written(number * (100 + sign * percent) / 100) for sign in (-1, 1)]


def scaled(number: decimal.Decimal, least: decimal.Decimal, most: decimal.Decimal) -> str:
    """Bounds that are some thousand times others and hold a number, as a text, or nothing."""
    for power in (-6, -3, 3, 6):
        low, high = (bound.scaleb(power) for bound in (least, most))
        if low <= number <= high:
            return f"{written(low)} and {written(high)}"
    return ""


def in_years(figure: decimal.Decimal, version: int) -> str:
    """How a figure with a fraction comes to years as a format has them. One below a year is most likely a rate of
    decay.
    """
    if figure >= 1:
        tenths = half_lives.rounded(figure, 2) if version == 1 else None
        with_tenth = f", or write act2 in the header and {tenths} here" if tenths else ""
        return f"round it to {half_lives.rounded(figure, version) or f'{figure:.0f}'}{with_tenth}"
    if not figure:
        return "of a rate k it is ln 2 / k"
    life = decimal.Decimal(2).ln() / figure
    return f"of a rate k it is ln 2 / k, of {figure} rounded to {half_lives.rounded(life, version) or f'{life:.0f}'}"


def number_otherwise(column: str, text: str, row: Row) -> str:
    """Why a text is no number."""
    keys = vocabulary.words()["keys"]
    if text.startswith("#"):
        instead = f"; write the number, or a notation key ({listed(keys)})" if column == "value" else ""
        return f"an error of the spreadsheet in place of a number{instead}"
    if text.startswith(FORMULA):
        return "a formula of the spreadsheet in place of a number; write the number that it gives"
    if re.fullmatch(DAY_AND_MONTH, text, re.IGNORECASE):
        return "a date in place of a number; the spreadsheet has made it of what was typed"
    if text.startswith(("<", ">")):
        return "a bound in place of a number; write the number, and the bounds in low and high"
    if column == "value":
        if not text:
            return f"empty; write a number, or a notation key ({listed(keys)})"
        if text.casefold() in NO_FIGURE:
            return f"no number; where there is none write a notation key ({listed(keys)})"
    if column != "value" and text in keys:
        return "a notation key stands in the value alone"
    parts = re.split(r"[\s,;/&+]+", text)
    if len(parts) > 1 and all(part.upper() in keys for part in parts):
        return f"more than one notation key; write one ({listed(keys)})"
    if re.fullmatch(r"-?\d+(\.\d+)?", text):
        digits = text.lstrip("-").split(".")[0]
        if len(digits) > int(limit("digits")):
            return f"{len(digits)} digits where {limit('digits')} are the most; choose a greater unit"
        return f"beyond {limit('figure')} in the base unit of {row.field('unit')}"
    key = f" and no notation key ({listed(keys)})" if column == "value" else ""
    return f"no number{key}; a number is digits with a point, as 0.5 or -12"


# What explains a figure, in this order, before it is read as a number.
FIGURES = (
    Recogniser(
        blank_bounds, "dashes and blanks in place of bounds", "enter,activity,,COAL,2019,1000,-,-,kt,",
        "low and high are empty where there are no bounds; write nothing in low and nothing in high",
        "enter,activity,,COAL,2019,1000,,,kt,"),
    Recogniser(
        all_in_one, "a value with its bounds", "enter,factor,,COAL.EF,2019,94600 (89500-99700),,,kg/TJ,",
        "a value with its bounds; write 94600 in value, 89500 in low and 99700 in high",
        "enter,factor,,COAL.EF,2019,94600,89500,99700,kg/TJ,"),
    Recogniser(
        two_in_one, "two bounds in one field", "enter,factor,,COAL.EF,2019,94600,89500-99700,,kg/TJ,",
        "two bounds in one field; write 89500 in low and 99700 in high",
        "enter,factor,,COAL.EF,2019,94600,89500,99700,kg/TJ,"),
    Recogniser(
        in_two, "a decimal comma that parts a number in two fields",
        "enter,factor,,COAL.NCV,2019,25,80,,TJ/Gg,",
        "a comma in the number 25,80 has parted it; write 25.80 in value and nothing in low",
        "enter,factor,,COAL.NCV,2019,25.80,,,TJ/Gg,"),
    Recogniser(
        distance_to_both_sides, "a distance in place of bounds",
        "enter,factor,,COAL.EF,2019,94600,\u00b15100,\u00b15100,kg/TJ,",
        "a distance to both sides, and low and high are bounds; write 89500 in low and 99700 in high",
        "enter,factor,,COAL.EF,2019,94600,89500,99700,kg/TJ,"),
    Recogniser(
        missing_bound, "one bound without the other", "enter,factor,,COAL.EF,2019,94600,89500,,kg/TJ,",
        "low is 89500 and high is missing; fill both or neither",
        "enter,factor,,COAL.EF,2019,94600,89500,99700,kg/TJ,"),
    Recogniser(
        percent_sign, "percent signs", "enter,factor,,SOILS.EF1,2019,1 %,,,kg/kg,",
        "a percent sign; write 1 and the unit pct", "enter,factor,,SOILS.EF1,2019,1,,,pct,"),
    Recogniser(
        with_unit, "a unit behind the number", "enter,activity,,COAL,2019,1000 kt,,,kt,",
        "a unit behind the number; it stands in the column unit alone; write 1000",
        "enter,activity,,COAL,2019,1000,,,kt,"),
    Recogniser(
        wrong_key, "notation keys in words", "enter,activity,,COAL,2019,N.O.,,,kt,",
        "a notation key has two letters; write NO", "enter,activity,,COAL,2019,1000,,,kt,N.O."),
    Recogniser(
        number_beside_key, "a number beside a notation key", "enter,activity,,COAL,2019,1000 NO,,,kt,",
        "a number and a notation key; write one of the two", "enter,activity,,COAL,2019,1000,,,kt,NO"),
)
# What the page has besides of numbers, and of years.
NUMBERS = FIGURES + (
    Recogniser(
        other_number, "decimal commas, thousands, exponents, powers of ten, fractions, words as million; "
        "dates and errors of a spreadsheet", 'enter,activity,,COAL,2019,"1000,5",,,kt,',
        "a decimal comma; write 1000.5", "enter,activity,,COAL,2019,1000.5,,,kt,"),
    Recogniser(
        half_life_with_a_point, "half-lives with a point under the header of format 1",
        "enter,factor,,WASTE.LIFE,2019,12.5,,,yr,",
        "a half-life with a point is of format 2; write act2 in the header",
        f"{HEADER_2}\nenter,factor,,WASTE.LIFE,2019,12.5,,,yr,", LANDFILL),
    Recogniser(
        wrong_half_life, "half-lives that are no years with one decimal at most",
        f"{HEADER_2}\nenter,factor,,WASTE.LIFE,2019,12.55,,,yr,",
        "no half-life; it is a number of years from 1 to 60 with at most one decimal: round it to 12.6",
        "enter,factor,,WASTE.LIFE,2019,12,,,yr,12.55", LANDFILL),
    Recogniser(
        wrong_percentage, "percentages with a sign, or two in one field",
        "enter,uncert,,COWS.CH4,,3 %,20,,,", "a percent sign; write 3",
        "enter,uncert,,COWS.CH4,,3,20,,,\nenter,uncert,,SOILS.N2O,,15,100,,,\n"
        "enter,uncert,,COAL.CO2,,2,7,,,"),
    Recogniser(
        disorder, "bounds that do not hold their value; a value or a bound that is ten times off",
        "enter,factor,,COAL.EF,2019,94600,99700,89500,kg/TJ,",
        "low and high are swapped; write 89500 in low and 99700 in high",
        "enter,factor,,COAL.EF,2019,94600,89500,99700,kg/TJ,"),
)
YEARS_TOLD = (
    Recogniser(
        several_years, "a first and a last year in one field; none, if a factor holds in all years",
        "-enter,factor,,COAL.EF,2019\nenter,factor,,COAL.EF,2019-2021,94600,89500,99700,kg/TJ,",
        "a factor holds from its year on; write 2019", "enter,factor,,COAL.EF,2019,94600,89500,99700,kg/TJ,"),
    Recogniser(
        wrong_year, "dates, also as a spreadsheet keeps them; years of two digits",
        "-enter,activity,,COAL,2019\nenter,activity,,COAL,2019-12-31,1000,,,kt,",
        "a date in place of a year; write 2019", "enter,activity,,COAL,2019,1000,,,kt,2019-12-31"),
)
