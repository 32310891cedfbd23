"""Templates of rows: what stands in capitals is to be filled in."""
from __future__ import annotations

import dataclasses

YEARLY = "YEAR,VALUE,LOW,HIGH"


@dataclasses.dataclass(frozen=True)
class Template:
    """Rows to fill in: what they are of, and what to know of them."""
    title: str
    about: str
    rows: tuple[str, ...]


def fuel_line(gas: str, equation: str) -> tuple[str, ...]:
    """The rows of a line of fuel burnt."""
    line = f"NAME.{gas}"
    return (f"enter,line,CATEGORY,{line},,{equation},,,,", f"enter,bind,{line},FC,,activity,NAME.TJ,,,",
            f"enter,bind,{line},EF,,factor,{gas}.NAME,,,", f"enter,factor,,{gas}.NAME,{YEARLY},kg/TJ,")


TEMPLATES = {
    "span": Template(
        "the first and the last year, and the base year",
        "It stands once, in the first file. To add a year, correct it: correct,span,,,FIRST,LAST,BASE,,,",
        ("enter,span,,,FIRST,LAST,BASE,,,",)),
    "potentials": Template(
        "the global warming potentials of the five gases, over 100 years, all of one report",
        "The files defaults/potentials-... have those of three reports; copy one of them.",
        ("enter,factor,,GWP.CO2,1900,1,,,1,",
         *(f"enter,factor,,GWP.{gas},1900,VALUE,,,1," for gas in ("CH4", "N2O", "CF4", "C2F6")))),
    "fuel": Template(
        "a fuel that is burnt, with its three gases",
        "Write the activity once for each year. The factors of many fuels stand in defaults/: "
        "./workbook words defaults diesel. CO2 of wood and other biomass stands at MC.",
        (*fuel_line("CO2", "Q10"), *fuel_line("CH4", "Q11"), *fuel_line("N2O", "Q12"),
         f"enter,activity,,NAME.TJ,{YEARLY},TJ,")),
    "uncertainties": Template(
        "the uncertainties of a line's activity data and emission factor, in percent",
        "Each is half the 95 percent confidence interval over the value. The table uncertainty has them.",
        ("enter,uncert,,LINE,,ACTIVITY,FACTOR,,,",)),
    "correct": Template(
        "a figure that is better known now, or anything else of a record that is there",
        "It names the record as the row that entered it did, and has all of its new figures. It stands in a new "
        "file behind the others; the note says why.",
        ("correct,activity,,ACTIVITY,YEAR,VALUE,LOW,HIGH,UNIT,",)),
    "withdraw": Template(
        "a record that is to be no more",
        "With a line go each of its bindings and its uncertainty, by rows of the same file. No line may take what is "
        "withdrawn.",
        ("withdraw,activity,,ACTIVITY,YEAR,,,,,", "withdraw,line,,LINE,,,,,,",
         "withdraw,bind,LINE,PARAMETER,,,,,,")),
    "not-occurring": Template(
        "a category that does not occur: a line all of whose parameters are the key NO",
        "It is zero, and complete shows NO. The key is IE where it is included elsewhere, NE where it is not "
        "estimated. Take an equation of the gas: ./workbook words equations.",
        ("enter,line,CATEGORY,NAME,,Q10,,,,", "enter,bind,NAME,FC,,key,NO,,,",
         "enter,bind,NAME,EF,,key,NO,,,")),
    "other-gases": Template(
        "HFC, SF6, NF3 and other gases: no equation emits them, and they have no potential and no category",
        "Report them apart. If the totals have to include them, a line at 5B may carry their CO2 equivalent, the "
        "mass emitted times the gas's potential; every table then shows it as CO2, so say so beside each.",
        ("enter,line,5B,NAME,,Q32,,,,the gas in CO2 equivalent", "enter,bind,NAME,MCL,,activity,NAME.MASS,,,",
         "enter,bind,NAME,EF,,factor,NAME.POTENTIAL,,,", "enter,bind,NAME,CF,,factor,ONE,,,",
         f"enter,activity,,NAME.MASS,{YEARLY},t,", "enter,factor,,NAME.POTENTIAL,1900,VALUE,,,1,",
         "enter,factor,,ONE,1900,1,,,1,")),
}
