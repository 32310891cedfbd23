"""Explains percent signs in figures: a ratio in percent, a bound by its distance from the value, and a value
with its uncertainty in one field. All are of rule 6.
"""
import decimal
import re

from tools import causes, vocabulary
from tools.asking import Asking
from tools.faults import Explained, at_row
from tools.sheets import Row
from tools.vocabulary import listed

# A distance to both sides, or to one of them.
BOTH_SIDES = r"\u00b1|\+/-|\+-|\+/\u2212"
UNCERTAIN_FIGURE = re.compile(rf"(.+?)\s*(?:{BOTH_SIDES})\s*(.+?)\s*(%?)")
DISTANCE = re.compile(rf"({BOTH_SIDES}|[+\-{causes.MINUS}])?\s*(.*?)\s*%", re.DOTALL)
EXACT = decimal.Context(prec=100)


def percent_sign(asking: Asking, row: Row, column: str) -> Explained | None:
    """A percent sign or an uncertainty in a figure, or None where it has neither."""
    text, ratio = row.field(column).strip(), is_of_a_ratio(row)
    uncertain = UNCERTAIN_FIGURE.fullmatch(text)
    if column == "value" and uncertain:
        return uncertain_figure(asking, row, *uncertain.groups())
    if not text.endswith("%"):
        return both_sides(asking, row, column)
    if column == "value":
        return ratio_in_percent(asking, row, column) if ratio else percent_of_no_ratio(asking, row)
    distance = DISTANCE.fullmatch(text)
    if distance and distance.group(1) or not ratio:
        return distance_in_percent(asking, row, column)
    if row.field("unit") == "pct":
        return ratio_in_percent(asking, row, column)
    return ratio_or_distance(asking, row, column)


def ratio_in_percent(asking: Asking, row: Row, column: str) -> Explained:
    """A ratio in percent, which the unit pct says. Bounds without the sign are in the row's unit."""
    figure = causes.number(row.field(column).strip().removesuffix("%").rstrip())
    others = [other for other in ("value", "low", "high")
              if other != column and row.field(other).strip().endswith("%")]
    changed = row.with_fields(**{column: figure.text})
    write = figure.text
    in_own = in_unit(figure.text, row.field("unit")) if row.field("low") and not others else None
    of_own = row.with_fields(**{column: in_own or figure.text})
    if row.field("unit") != "pct" and in_own and asking.takes(of_own, None):
        changed, write = of_own, in_own
    elif row.field("unit") != "pct":
        changed, write = changed.with_fields(unit="pct"), f"{figure.text} and the unit pct"
    if not asking.takes(changed, column):
        return at_row(row, "a percent sign; write the number, and the unit pct", column), None
    for other in others:
        changed = changed.with_fields(**{other: changed.field(other).strip().removesuffix("%").rstrip()})
    if others:
        columns = [column, *others] + (["unit"] if row.field("unit") != "pct" else [])
        write = listed([f"{changed.field(name)} in {name}" for name in columns], "and")
    return at_row(row, f"a percent sign{and_one_in(others)}", column, write), changed


def percent_of_no_ratio(asking: Asking, row: Row) -> Explained:
    """A value in percent beside a unit that measures no ratio."""
    others = [other for other in ("low", "high") if row.field(other).strip().endswith("%")]
    unit = row.field("unit")
    cause = f"a percent sign{and_one_in(others)}, and {unit} is no ratio; write the figure in {unit}"
    return at_row(row, cause, "value"), asking.blank_figure(row) if others else None


def distance_in_percent(asking: Asking, row: Row, column: str) -> Explained:
    """A bound by its distance from the value in percent."""
    cause = f"a bound is a figure in {row.field('unit')}, as the value is"
    bound, said = bound_of(row, column)
    changed = row.with_fields(**{column: bound})
    other = {"low": "high", "high": "low"}[column]
    if bound and not row.field(other) and re.match(BOTH_SIDES, row.field(column).strip()):
        beside = bound_of(row.with_fields(**{other: row.field(column)}), other)[0]
        changed = changed.with_fields(**{other: beside})
        bounds = f"{changed.field('low')} in low and {changed.field('high')} in high"
        return at_row(row, cause, column, bounds), changed if asking.takes(changed, None) else None
    if not bound or not asking.takes(changed, column):
        return at_row(row, cause, column), None
    return at_row(row, cause, column, f"{bound}, which is {said}"), changed


def both_sides(asking: Asking, row: Row, column: str) -> Explained | None:
    """A distance to both sides without a percent sign, in low or high or both; or None."""
    bounds = [row.field(name).strip() for name in ("low", "high") if row.field(name).strip()]
    found = [re.fullmatch(rf"(?:{BOTH_SIDES})\s*(.+)", bound) for bound in bounds]
    distances = {figure_of(bound.group(1)) if bound else None for bound in found}
    value, distance = figure_of(row.field("value")), min(distances, key=str, default=None)
    if value is None or distance is None or len(distances) > 1 or row.has_other_figure:
        return None
    low, high = written(EXACT.subtract(value, distance)), written(EXACT.add(value, distance))
    changed = row.with_fields(low=low, high=high)
    if not asking.takes(changed, None):
        return None
    cause = "a distance to both sides, and low and high are bounds"
    at = column if row.field(column) else {"low": "high", "high": "low"}[column]
    return at_row(row, cause, at, f"{low} in low and {high} in high"), changed


def ratio_or_distance(asking: Asking, row: Row, column: str) -> Explained:
    """A bound of a ratio that is in percent, or by its distance from the value."""
    unit = row.field("unit")
    share = in_unit(causes.number(row.field(column).strip().removesuffix("%").rstrip()).text, unit)
    cause = f"a percent sign, and the value is in {unit}"
    bound, said = bound_of(row, column)
    meant = [f"{share} where a ratio is meant"] if share else []
    if bound:
        meant.append(f"{bound} where {said} is meant")
    return at_row(row, cause, column, listed(meant)), None


def uncertain_figure(asking: Asking, row: Row, value: str, distance: str, percent: str) -> Explained:
    """A value with its uncertainty after it."""
    cause = "a value with its uncertainty; the bounds stand in low and high"
    figure, apart = figure_of(value), figure_of(distance)
    if figure is None or apart is None or (percent and is_of_a_ratio(row)):
        return at_row(row, cause, "value"), None
    if percent:
        apart = EXACT.multiply(abs(figure), apart) / 100
    changed = row.with_fields(value=written(figure))
    write = written(figure)
    if not row.field("low") and not row.field("high"):
        low, high = written(EXACT.subtract(figure, apart)), written(EXACT.add(figure, apart))
        changed = changed.with_fields(low=low, high=high)
        write += f" with low {low} and high {high}"
    if not asking.takes(changed, None):
        return at_row(row, cause, "value"), None
    return at_row(row, cause, "value", write), changed


def is_of_a_ratio(row: Row) -> bool:
    """Tells whether a row's unit measures a ratio, or is none of the table."""
    return vocabulary.measured_by(row.field("unit")) in (None, "ratio")


def and_one_in(columns: list[str]) -> str:
    """That other columns have a percent sign too."""
    return f", and one in {listed(columns, 'and')} too" if columns else ""


def figure_of(text: str) -> decimal.Decimal | None:
    """The figure of a text, or None where it is not sure or there is none."""
    mended = causes.number(text)
    if not mended.sure or not re.fullmatch(r"-?\d{1,40}(\.\d+)?", mended.text):
        return None
    return decimal.Decimal(mended.text)


def written(figure: decimal.Decimal) -> str:
    """A figure with no more decimals than a number may have, and without zeros at their end."""
    text = causes.number(format(figure, "f")).text
    return re.sub(r"\.?0+$", "", text) if "." in text else text


def in_unit(text: str, unit: str) -> str | None:
    """A percentage in a unit of ratios, or None where it is no number."""
    figure = figure_of(text)
    if figure is None:
        return None
    size = vocabulary.units()[unit]
    return written(figure * size["under"] / size["over"] / 100)


def bound_of(row: Row, column: str) -> tuple[str, str]:
    """The bound at a distance in percent from the value, and how it comes of it; or nothing.

    A distance to the other side is no bound.
    """
    found = DISTANCE.fullmatch(row.field(column).strip())
    sign, text = found.groups(default="") if found else ("", "")
    value, percent = figure_of(row.field("value")), figure_of(text)
    other = "+" if column == "low" else causes.MINUS + "-"
    if value is None or percent is None or row.has_other_figure or (sign and sign in other):
        return "", ""
    up = (column == "high") == (value >= 0)
    part = 1 + percent / 100 if up else 1 - percent / 100
    said = f"{written(value)} * (1 {'+' if up else '-'} {written(percent)}/100)"
    return written(EXACT.multiply(value, part)), said
