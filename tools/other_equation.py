"""Tells which equation the bindings of a line are those of, where the line has another one or none."""
import typing
from collections.abc import Iterable

from tools import vocabulary
from tools.book import Book, lines_taken_by
from tools.faults import Rewritten, at_row
from tools.figure_notices import figures
from tools.sheets import Row
from tools.usual import CO2_OF_FUELS
from tools.vocabulary import listed

if typing.TYPE_CHECKING:
    from tools.after import After
    from tools.ahead import Ahead

# A line with fewer bindings does not tell its equation.
FEWEST = 2


class Fit:
    """How the bindings of a line fit the parameters of an equation: the names of those that do, of those that
    are none of its parameters, and of its parameters that have no binding; and how many are amiss.
    """

    def __init__(self, code: str, bound: dict[str, str | None]) -> None:
        parameters = vocabulary.parameters_of(code)
        self.code = code
        self.fitting = [name for name, taken in bound.items() if name in parameters
                        and taken in (None, vocabulary.record_of(parameters[name]))]
        self.strange = [name for name in bound if name not in parameters]
        self.absent = [name for name in parameters if name not in bound]
        self.amiss = len(bound) - len(self.fitting) + len(self.absent)


def explain(holder: Row, after: "After") -> Rewritten | None:
    """The fault of a line whose bindings are those of another equation, and the rows to go on with; or
    None.
    """
    is_changed = holder.field("act") == "correct"
    if not after.is_own(holder) or is_changed and after.bindings_of(holder.field("name")):
        return None
    bound = bindings_of(holder.field("name"), after)
    fits = nearest_fits(bound, Fit(holder.field("value"), bound), holder.field("subject"))
    if not fits:
        return None
    codes = likeliest([fit.code for fit in fits], holder, after.ahead)
    before = after.book.entered.get(holder.key)
    if is_changed and before and before.field("value") in [fit.code for fit in fits]:
        codes = [before.field("value")]
    nearest = "nearest to " if fits[0].amiss else ""
    cause = f"the bindings of this line, {listed(bound, 'and')}, are {nearest}those of {said_of(codes)}"
    cause += ", and this file changes none of them" if is_changed else ""
    gas = vocabulary.gas_of(holder.field("value"))
    meant = codes if len(codes) == 1 else [code for code in codes if gas and vocabulary.gas_of(code) == gas]
    write = meant[0] if len(meant) == 1 else "one of these"
    if len(codes) > 1 and len(meant) == 1:
        write += f" where {gas} is meant, which {holder.field('value')} gives"
    changed = holder.with_fields(value=(meant or codes)[0])
    changed.has_other_figure = len(codes) > 1
    rows = [changed if row is holder else row for row in after.rows]
    return at_row(holder, cause, "value", write), rows


def bindings_of(line: str, after: "After") -> dict[str, str | None]:
    """The parameters that rows bind of a line, each with what is measured there, or None where that is not
    known.
    """
    bound = {name: measured_by(row, after.book) for name, row in after.book.bindings.get(line, {}).items()}
    return {**dict.fromkeys(after.refused.parameters_bound(line)), **bound}


def measured_by(bound: Row, book: Book) -> str | None:
    """What the record that a binding names measures, whatever its kind, or the first line that it takes; or
    None.
    """
    record = book.named_by(bound)
    if record is not None:
        return None if record.has_other_figure else vocabulary.measured_by(record.field("unit"))
    lines = [book.lines[name] for name in lines_taken_by(bound) if name in book.lines]
    return vocabulary.given_by(lines[0].field("value")) if lines else None


def nearest_fits(bound: dict[str, str | None], there: Fit, category: str) -> list[Fit]:
    """The equations that the bindings fit best, where they are so much nearer than the line's own that this
    one is most likely wrong.
    """
    known = [Fit(code, bound) for code in vocabulary.equations() if code != there.code]
    known = [fit for fit in known if fit.amiss < 2 and len(fit.fitting) > len(there.fitting)]
    if len(bound) < FEWEST or not known:
        return []
    best = min((fit.amiss, -len(fit.fitting)) for fit in known)
    nearest = [fit for fit in known if (fit.amiss, -len(fit.fitting)) == best]
    volume = vocabulary.volume_of_category(category)
    of_volume = [fit for fit in nearest if vocabulary.volume_of_equation(fit.code) == volume]
    if 2 * len(there.fitting) < len(bound):
        return of_volume or nearest
    has_more = there.strange and not there.absent
    return of_volume if has_more or vocabulary.volume_of_equation(there.code) != volume else []


def likeliest(codes: list[str], line: Row, ahead: "Ahead") -> list[str]:
    """Those of some equations that the volume of a line's category tells, then the gas in its name and in
    those of the factors that it takes, and whether these are of CO2 of fuels.
    """
    volume = vocabulary.volume_of_category(line.field("subject").strip())
    codes = [code for code in codes if vocabulary.volume_of_equation(code) == volume] or codes
    factors = ahead.factors_taken_by(line.field("name"))
    for gas in filter(None, map(vocabulary.gas_in, [line.field("name"), *factors])):
        codes = [code for code in codes if vocabulary.gas_of(code) == gas] or codes
    for row in filter(None, (ahead.row_of("factor", name) for name in factors)):
        if vocabulary.measured_by(row.field("unit")) == "emission factor of fuel" and figures(row):
            is_co2 = CO2_OF_FUELS[0] <= figures(row)[0] <= CO2_OF_FUELS[1]
            codes = [code for code in codes if (vocabulary.gas_of(code) == "CO2") == is_co2] or codes
    return codes


def nearest_by_names(line: str, category: str, ahead: "Ahead") -> list[str]:
    """The equations of the volume of a category that have all but one of the parameters that rows of any file
    bind for a line, and that have one more at the most.
    """
    bound = {name: ahead.measured_by(row) for name, row in ahead.bindings_of(line).items()}
    volume = vocabulary.volume_of_category(category)
    codes = [code for code in vocabulary.equations() if vocabulary.volume_of_equation(code) == volume]
    fits = [Fit(code, bound) for code in codes]
    known = [fit for fit in fits if fit.fitting and fit.amiss <= 2 and len(fit.strange) <= 1]
    least = min((fit.amiss for fit in known), default=0)
    return [fit.code for fit in known if fit.amiss == least]


def with_fewer(line: Row, after: "After") -> str | None:
    """The one equation of the volume of a line's category that takes just what is bound for it, or None."""
    bound = bindings_of(line.field("name"), after)
    fits = [Fit(code, bound) for code in of_parameters(set(bound))]
    codes = likeliest([fit.code for fit in fits if not fit.amiss], line, after.ahead)
    volume = vocabulary.volume_of_category(line.field("subject"))
    return codes[0] if len(codes) == 1 and vocabulary.volume_of_equation(codes[0]) == volume else None


def of_parameters(names: set[str]) -> list[str]:
    """The equations of just some parameters."""
    return [code for code in vocabulary.equations() if names == set(vocabulary.parameters_of(code))]


def said_of(codes: Iterable[str]) -> str:
    """Equations with what they compute."""
    return listed([f"{code} ({vocabulary.equations()[code]['computes']})" for code in codes], "and")
