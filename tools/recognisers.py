"""The form of a recogniser of `check`: the function with its words on the page, an example that it tells of,
and a right inventory that looks alike and that it must not tell of.

Each module of recognisers has a table of them, and tools/recognised.py gathers these tables. `check` calls
the functions out of the tables, `check --list` prints the words, and the tests try each example.
"""
import collections.abc
import dataclasses
import typing

from tools.faults import Explained
from tools.sheets import HEADERS

HEADER, HEADER_2 = (",".join(header) for header in HEADERS.values())
# How a row of an example begins that takes a row of the inventory out.
OUT = "-"
# The fields that tell which row of the inventory a row of an example stands in place of.
FIELDS_ALIKE = 5

# A right inventory, of which no warning is due: coal in power plants, dairy cows and managed soils.
SMALL = """\
enter,span,,,2019,2021,2019,,,
enter,factor,,GWP.CO2,2019,1,,,1,
enter,factor,,GWP.CH4,2019,28,,,1,
enter,factor,,GWP.N2O,2019,265,,,1,
enter,line,1A1a,COAL.TJ,,Q13,,,,
enter,bind,COAL.TJ,FM,,activity,COAL,,,
enter,bind,COAL.TJ,NCV,,factor,COAL.NCV,,,
enter,line,1A1a,COAL.CO2,,Q10,,,,
enter,bind,COAL.CO2,FC,,line,COAL.TJ,,,
enter,bind,COAL.CO2,EF,,factor,COAL.EF,,,
enter,factor,,COAL.NCV,2019,25.8,,,TJ/Gg,
enter,factor,,COAL.EF,2019,94600,89500,99700,kg/TJ,
enter,activity,,COAL,2019,1000,,,kt,
enter,activity,,COAL,2020,1050,,,kt,
enter,activity,,COAL,2021,1020,,,kt,
enter,line,3A1,COWS.CH4,,Q55,,,,
enter,bind,COWS.CH4,N,,activity,COWS,,,
enter,bind,COWS.CH4,EF,,factor,COWS.EF,,,
enter,factor,,COWS.EF,2019,126,,,kg/head,
enter,activity,,COWS,2019,250000,,,head,
enter,activity,,COWS,2020,248000,,,head,
enter,activity,,COWS,2021,245000,,,head,
enter,line,3C4,SOILS.N2O,,Q69,,,,
enter,bind,SOILS.N2O,FSN,,activity,FERTILISER.N,,,
enter,bind,SOILS.N2O,FON,,activity,MANURE.N,,,
enter,bind,SOILS.N2O,FCR,,key,NO,,,
enter,bind,SOILS.N2O,FSOM,,key,NO,,,
enter,bind,SOILS.N2O,EF1,,factor,SOILS.EF1,,,
enter,factor,,SOILS.EF1,2019,0.01,0.003,0.03,kg/kg,
enter,activity,,FERTILISER.N,2019,41000,,,t,
enter,activity,,FERTILISER.N,2020,42000,,,t,
enter,activity,,FERTILISER.N,2021,40500,,,t,
enter,activity,,MANURE.N,2019,21000,,,t,
enter,activity,,MANURE.N,2020,20800,,,t,
enter,activity,,MANURE.N,2021,20700,,,t,
"""
# A right inventory of a landfill.
LANDFILL = """\
enter,span,,,2019,2021,2019,,,
enter,factor,,GWP.CO2,2019,1,,,1,
enter,factor,,GWP.CH4,2019,28,,,1,
enter,line,4A,WASTE.C,,Q90,,,,
enter,bind,WASTE.C,W,,activity,WASTE,,,
enter,bind,WASTE.C,DOC,,factor,WASTE.DOC,,,
enter,bind,WASTE.C,DOCF,,factor,HALF,,,
enter,bind,WASTE.C,MCF,,factor,ONE,,,
enter,line,4A,STOCK,,Q91,,,,
enter,bind,STOCK,DEP,,line,WASTE.C,,,
enter,bind,STOCK,PREV,,prev,STOCK,,,
enter,bind,STOCK,D,,decay,WASTE.LIFE,,,
enter,line,4A,DECAYED,,Q92,,,,
enter,bind,DECAYED,PREV,,prev,STOCK,,,
enter,bind,DECAYED,D,,decay,WASTE.LIFE,,,
enter,line,4A,MADE.CH4,,Q93,,,,
enter,bind,MADE.CH4,DEC,,line,DECAYED,,,
enter,bind,MADE.CH4,F,,factor,HALF,,,
enter,line,4A,LANDFILL.CH4,,Q94,,,,
enter,bind,LANDFILL.CH4,GEN,,line,MADE.CH4,,,
enter,bind,LANDFILL.CH4,R,,key,NO,,,
enter,bind,LANDFILL.CH4,OX,,key,NO,,,
enter,factor,,WASTE.DOC,2019,15,8,20,pct,
enter,factor,,WASTE.LIFE,2019,12,,,yr,
enter,factor,,HALF,2019,0.5,,,1,
enter,factor,,ONE,2019,1,,,1,
enter,activity,,WASTE,2019,500,,,kt,
enter,activity,,WASTE,2020,505,,,kt,
enter,activity,,WASTE,2021,510,,,kt,
"""


@dataclasses.dataclass(frozen=True)
class Recogniser:
    """A function of `check`, and what the page and the tests have of it.

    `told` are the words of the page. The rows of an example change the inventory `base`: each stands in place
    of the row with the same first five fields, else after all; one that begins with OUT takes out the rows
    that begin like the rest of it; a first one that is the header of format 2 is that of the inventory; and an
    empty line begins the next file. `says` is a part of the line that
    `check` prints of the example. The rows of `right` make an inventory of which nothing is told.
    """
    function: collections.abc.Callable[..., typing.Any]
    told: str
    example: str
    says: str
    right: str
    base: str = SMALL

    @property
    def name(self) -> str:
        """The name of the function as words."""
        return self.function.__name__.replace("_", " ")


def first_explained(recognisers: tuple[Recogniser, ...], *given: typing.Any) -> Explained | None:
    """What the first of some explainers says that knows the cause, or None."""
    found: collections.abc.Iterator[Explained | None] = (each.function(*given) for each in recognisers)
    return next(filter(None, found), None)


def files_of(base: str, example: str) -> list[str]:
    """The files of an inventory, changed by the rows of an example."""
    first, *further = example.strip("\n").split("\n\n")
    rows, changes = base.splitlines(), first.splitlines()
    header = changes.pop(0) if changes[:1] == [HEADER_2] else HEADER
    for row in changes:
        if row.startswith(OUT):
            rows = [other for other in rows if not other.startswith(row.removeprefix(OUT))]
        else:
            rows = with_row(rows, row)
    later = [[HEADER, *part.splitlines(), ""] for part in further]
    return ["\n".join(body) for body in ([header, *rows, ""], *later)]


def with_row(rows: list[str], row: str) -> list[str]:
    """Rows with one in place of that with the same first fields, else after them."""
    alike = row.split(",")[:FIELDS_ALIKE]
    if not any(other.split(",")[:FIELDS_ALIKE] == alike for other in rows):
        return [*rows, row]
    return [row if other.split(",")[:FIELDS_ALIKE] == alike else other for other in rows]
