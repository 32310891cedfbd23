"""The model of `review`: the versions of a session, the differences between one and the present data, and the
uncertainty of the trend, in whole numbers and exact fractions.
"""
import re
from fractions import Fraction
from math import ceil, floor
from typing import Iterator, NamedTuple, Optional, Sequence

from tests.limits import limit
from tests.oracle.intervals import ceiling, root_bracket
from tests.oracle.model import FORMS, Form, Office, Written
from tests.oracle.outcomes import EQUIVALENT, Compilation, known
from tests.oracle.printing import Pair, Printer, fixed, percent, reported
from tests.oracle.rows import NAME
from tests.oracle.workbook import Workbook

MOST_VERSIONS = 100
# Percentages are in millionths of a percent, and a side is 10^6 percent at most. They are printed in hundredths.
MILLION = 10**6
GREATEST = MILLION * MILLION
PER_HUNDREDTH = 10**4
NAMED = b"([^ \n]{1,%d})" % limit("id_in_script")
FREEZE = re.compile(rb"FREEZE %b\n" % NAMED)
RECALC = re.compile(rb"RECALC %b ([0-9]{4})\n" % NAMED)
TREND = re.compile(rb"TREND ([0-9]{4})\n")


class Freeze(NamedTuple):
    """A request to freeze the present data."""
    name: bytes

    def text(self) -> bytes:
        """The command as a script has it."""
        return b"FREEZE %b\n" % self.name


class Recalc(NamedTuple):
    """A request for the differences between a version and the present data."""
    name: bytes
    year: int

    def text(self) -> bytes:
        """The command as a script has it."""
        return b"RECALC %b %04d\n" % (self.name, self.year)


class Trend(NamedTuple):
    """A request for the uncertainty of the trend."""
    year: int

    def text(self) -> bytes:
        """The command as a script has it."""
        return b"TREND %04d\n" % self.year


REVIEW_FORMS: list[Form] = [
    *FORMS, (FREEZE, lambda found: Freeze(found[1])),
    (RECALC, lambda found: Recalc(found[1], int(found[2]))), (TREND, lambda found: Trend(int(found[1])))]


class Version(NamedTuple):
    """How many submissions it has, and what was computed from them."""
    number: int
    compilation: Compilation


class Sides(NamedTuple):
    """What the factor and what the activity of a line add to the trend's uncertainty, each rounded down and up."""
    k: tuple[int, int]
    j: tuple[int, int]


class Share(NamedTuple):
    """A line with its tonnes of the base year and of the year."""
    line: str
    base: int
    now: int


class Desk:
    """An office, and what was frozen of it."""

    def __init__(self, office: Office) -> None:
        self.office = office
        self.versions: dict[bytes, Version] = {}

    def answer(self, command: Written) -> str:
        """The reply to a command."""
        if isinstance(command, Freeze):
            return self.freeze(command.name)
        if isinstance(command, Recalc):
            return self.recalculation(command)
        if isinstance(command, Trend):
            if command.year not in self.office.compilation.workbook.years():
                return "no table\n"
            return table("trendunc", command.year, list(trend_rows(self.office.compilation, command.year)))
        return self.office.answer(command)

    def freeze(self, name: bytes) -> str:
        """The reply to a request to freeze, after which the version is there where nothing is refused."""
        if not NAME.fullmatch(name.decode("latin-1")):
            return "refused 14 BadVersion\n"
        number = len(self.office.accepted)
        version = self.versions.get(name)
        if version and version.number != number:
            return f"refused 15 VersionExists {version.number}\n"
        if not version and len(self.versions) == MOST_VERSIONS:
            return "refused 16 TooManyVersions\n"
        self.versions.setdefault(name, Version(number, self.office.compilation))
        return f"frozen {name.decode()} {number}\n"

    def recalculation(self, asked: Recalc) -> str:
        """The reply to a request for differences."""
        version, now = self.versions.get(asked.name), self.office.compilation
        if not version or any(asked.year not in each.workbook.years() for each in (version.compilation, now)):
            return "no table\n"
        return table("recalc", asked.year, list(recalculation_rows(version.compilation, now, asked.year)))


def table(name: str, year: int, lines: Sequence[Sequence[str]]) -> str:
    """The reply that has a table."""
    text = "".join(",".join(line) + "\n" for line in lines)
    return f"table {name} {year} rows {len(lines)}\n{text}"


def recalculation_rows(version: Compilation, now: Compilation, year: int) -> Iterator[list[str]]:
    """Each pair of either."""
    yield ["category", "gas", "reported", "now", "difference", "percent"]
    old, new = (Printer(each, year).pairs(year) for each in (version, now))
    for pair in sorted({*old, *new}, key=Pair.place):
        was, is_now = old.get(pair, 0), new.get(pair, 0)
        share = percent(is_now - was, abs(was)) if was else "-"
        yield [*pair, fixed(was, 3), fixed(is_now, 3), fixed(is_now - was, 3), share]


def trend_rows(compilation: Compilation, year: int) -> Iterator[list[str]]:
    """Each line in the tree that emits a gas, and the total."""
    yield ["code", "category", "gas", "base", "value", "k_low", "k_high", "l_low", "l_high"]
    workbook = compilation.workbook
    shares = list(shares_of(compilation, year))
    base, now = sum(share.base for share in shares), sum(share.now for share in shares)
    shown: list[Sides] = []
    is_whole = base != 0
    for share in shares:
        sides, fields = sides_of(workbook, share, base, now), ["-"] * 4
        if sides:
            shown.append(sides)
            fields = [*printed(sides.k), *printed(root_of([Sides((0, 0), sides.j)]))]
        is_whole = is_whole and (sides is not None or share.base == share.now == 0)
        yield [share.line, workbook.lines[share.line].category, workbook.equation(share.line).gas,
               fixed(share.base, 3), fixed(share.now, 3), *fields]
    ends = printed(root_of(shown)) if is_whole else ["-"] * 2
    yield ["total", "-", "-", fixed(base, 3), fixed(now, 3), "-", "-", *ends]


def shares_of(compilation: Compilation, year: int) -> Iterator[Share]:
    """The lines of the table by name. A blank counts as zero."""
    span = compilation.workbook.span
    for line in Printer(compilation, year).in_tree():
        base, now = (reported(value.point for value in known([compilation.of(EQUIVALENT, line, each)]))
                     for each in (span.base if span else year, year))
        yield Share(line, base, now)


def sides_of(workbook: Workbook, share: Share, base: int, now: int) -> Optional[Sides]:
    """What a line adds, in view of the sums of both years; or nothing where it has no percentages, a divisor is
    zero, or a side is beyond the greatest one.
    """
    uncertainty = workbook.uncertainties.get(share.line)
    if not uncertainty or base == 0 or 100 * base + share.base == 0:
        return None
    change = Fraction(100 * abs(share.now * base - share.base * now), abs(base) * abs(100 * base + share.base))
    k, j = (of * Fraction(hundredths * MILLION, 100) for of, hundredths in (
        (change, uncertainty.factor), (Fraction(abs(share.now), abs(base)), uncertainty.activity)))
    sides = Sides((floor(k), ceil(k)), (floor(j), ceil(j)))
    return None if max(sides.k[1], sides.j[1]) > GREATEST else sides


def root_of(rows: list[Sides]) -> tuple[int, int]:
    """The root of the sum of all squares, rounded down and up; those of J count twice."""
    low, high = (sum(row.k[at]**2 + 2 * row.j[at]**2 for row in rows) for at in (0, 1))
    return root_bracket(low)[0], root_bracket(high)[1]


def printed(ends: tuple[int, int]) -> list[str]:
    """Two ends in hundredths, rounded away from each other."""
    low, high = ends
    return [fixed(low // PER_HUNDREDTH, 2), fixed(ceiling(high, PER_HUNDREDTH), 2)]
