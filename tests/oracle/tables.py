"""Units, categories and equations, as docs/FORMATS.md and docs/EQUATIONS.md have them. They are not made of
the code, so that a mistake there is seen. A dimension is named by its base unit.
"""
from dataclasses import dataclass
from fractions import Fraction
from functools import cached_property

from tests.oracle.expressions import Expression, expression_in

GASES = ("CO2", "CH4", "N2O", "CF4", "C2F6")
MEMO_CODES = ("MB", "MC", "RA")
NOT_IN_GROSS = "3B"
HALF_LIFE = "yr"
DECAY = "decay"
POTENTIALS = tuple("GWP." + gas for gas in GASES)

# A base unit, and the other units of its dimension with their ratios.
UNITS = """
t: kg 1/1000, kt 1000, Gg 1000
TJ: GJ 1/1000, PJ 1000, GWh 18/5, ktoe 10467/250
ha: kha 1000
m3: Mm3 1000000
head:
person:
1: pct 1/100, t/t 1, kg/kg 1, kg/t 1/1000, g/kg 1/1000
day:
yr:
kg/TJ: t/TJ 1000, kg/GJ 1000, g/GJ 1
tC/TJ: kgC/GJ 1
TJ/Gg: GJ/t 1, TJ/t 1000
m3/t:
kg/m3: Gg/Mm3 1
kg/head:
kg/head/day:
MJ/head/day:
kg/t/day:
m3/kg:
t/ha: kg/ha 1/1000
kg/ha/day:
m3/ha:
t/m3:
kg/person:
g/person/day:
GgC: tC 1/1000, ktC 1
Gg-gas: t-gas 1/1000, kg-gas 1/1000000
AEmin:
kg/t/AEmin:
"""

# A code, and its children.
TREE = """
0: 1, 2, 3, 4, 5
1: 1A, 1B, 1C
1A: 1A1, 1A2, 1A3, 1A4, 1A5
1A1: 1A1a, 1A1b, 1A1c
1A3: 1A3a, 1A3b, 1A3c, 1A3d, 1A3e
1A4: 1A4a, 1A4b, 1A4c
1B: 1B1, 1B2, 1B3
2: 2A, 2B, 2C, 2D
2A: 2A1, 2A2, 2A3, 2A4
2B: 2B1, 2B2, 2B3
2C: 2C1, 2C3
2D: 2D1, 2D2
3: 3A, 3B, 3C, 3D
3A: 3A1, 3A2
3B: 3B1, 3B2, 3B3, 3B4, 3B5, 3B6
3C: 3C1, 3C2, 3C3, 3C4, 3C5, 3C6, 3C7, 3C8
3D: 3D1, 3D2
4: 4A, 4B, 4C, 4D, 4E
4C: 4C1, 4C2
4D: 4D1, 4D2
5: 5A, 5B
"""

# A code, its gas or the dimension of its output, its parameters with their dimensions, and its expression.
EQUATIONS = """
Q10 | CO2 | FC TJ, EF kg/TJ | FC * EF * 1/1000000
Q11 | CH4 | FC TJ, EF kg/TJ | FC * EF * 1/1000000
Q12 | N2O | FC TJ, EF kg/TJ | FC * EF * 1/1000000
Q13 | TJ | FM t, NCV TJ/Gg | FM * 1/1000 * NCV
Q14 | CH4 | P t, EF m3/t | P * EF * 67/100 * 1/1000000
Q15 | CH4 | A m3, EF kg/m3 | A * EF * 1/1000000
Q16 | CO2 | A m3, EF kg/m3 | A * EF * 1/1000000
Q17 | N2O | A m3, EF kg/m3 | A * EF * 1/1000000
Q20 | t | PR t, IM t, EX t, IB t, SC t | PR + IM - EX - IB - SC
Q21 | t | IM t, EX t, IB t, SC t | IM - EX - IB - SC
Q22 | TJ | PR TJ, IM TJ, EX TJ, IB TJ, SC TJ | PR + IM - EX - IB - SC
Q23 | TJ | IM TJ, EX TJ, IB TJ, SC TJ | IM - EX - IB - SC
Q24 | GgC | A TJ, CC tC/TJ | A * CC * 1/1000
Q25 | CO2 | AC t, CONV TJ/Gg, CC tC/TJ, XC GgC, COF 1 | (AC * 1/1000 * CONV * CC * 1/1000 - XC) * COF * 44/12
Q26 | CO2 | AC TJ, CC tC/TJ, XC GgC, COF 1 | (AC * CC * 1/1000 - XC) * COF * 44/12
Q30 | t | MC t, CCL 1 | MC * CCL
Q31 | CO2 | CL t, IM t, EX t, EF 1 | (CL - IM + EX) * EF * 1/1000
Q32 | CO2 | MCL t, EF 1, CF 1 | MCL * EF * CF * 1/1000
Q33 | CO2 | EF 1, ML t, CF 1, CH 1 | EF * ML * CF * CH * 1/1000
Q34 | CO2 | MG t, EF 1, CR 1 | MG * EF * (1 - CR) * 1/1000
Q35 | CO2 | M t, EFLS 1, EFD 1 | M * (EFLS * 85/100 + EFD * 15/100) * 1/1000
Q36 | CO2 | MLS t, EFLS 1, MD t, EFD 1 | (MLS * EFLS + MD * EFD) * 1/1000
Q37 | CO2 | AP t, FR TJ/Gg, CCF tC/TJ, COF 1, R Gg-gas | AP * FR * CCF * COF * 44/12 * 1/1000000 - R
Q38 | N2O | EF 1, P t | EF * P * 1/1000
Q39 | N2O | EF 1, P t, DF 1, ASUF 1 | EF * P * (1 - DF * ASUF) * 1/1000
Q40 | CO2 | BOF t, EFB 1, EAF t, EFE 1, OHF t, EFO 1 | (BOF * EFB + EAF * EFE + OHF * EFO) * 1/1000
Q41 | CO2 | EFP 1, MPP t, EFS 1, MPS t | (EFP * MPP + EFS * MPS) * 1/1000
Q42 | CF4 | EF 1, MP t | EF * MP * 1/1000
Q44 | CF4 | S kg/t/AEmin, AEM AEmin, MP t | S * AEM * MP * 1/1000000
Q45 | C2F6 | CF Gg-gas, F 1 | CF * F
Q46 | CO2 | LC TJ, CC tC/TJ, ODU 1 | LC * CC * ODU * 44/12 * 1/1000
Q55 | CH4 | EF kg/head, N head | EF * N * 1/1000000
Q56 | kg/head | GE MJ/head/day, YM 1 | GE * YM * 36500/5565
Q57 | 1 | MCF 1, MS 1 | MCF * MS
Q58 | kg/head | VS kg/head/day, BO m3/kg, SM 1 | VS * 365/1 * (BO * 67/100 * SM)
Q59 | N2O | N head, NEX kg/head, MS 1, EF3 1 | N * NEX * MS * EF3 * 44/28 * 1/1000000
Q60 | t | N head, NEX kg/head, MS 1, FR 1 | N * NEX * MS * FR * 1/1000
Q61 | N2O | NV t, EF 1 | NV * EF * 44/28 * 1/1000
Q62 | kg/head | NR kg/t/day, TAM kg/head | NR * TAM * 1/1000 * 365/1
Q63 | t | N head, NEX kg/head, MS 1, FL 1, NB kg/head | (N * NEX * MS * (1 - FL) + N * MS * NB) * 1/1000
Q64 | t | N head, NEX kg/head, MS 1 | N * NEX * MS * 1/1000
Q67 | t | FAM t, FSEW t, FCOMP t, FOOA t | FAM + FSEW + FCOMP + FOOA
Q68 | t | NA t, FF 1, FU 1, FC 1 | NA * (1 - (FF + FU + FC))
Q69 | N2O | FSN t, FON t, FCR t, FSOM t, EF1 1 | (FSN + FON + FCR + FSOM) * EF1 * 44/28 * 1/1000
Q70 | N2O | A ha, EF2 t/ha | A * EF2 * 44/28 * 1/1000
Q71 | N2O | FP t, EF3 1 | FP * EF3 * 44/28 * 1/1000
Q72 | N2O | FSN t, FG 1, FON t, FP t, FM 1, EF4 1 | (FSN * FG + (FON + FP) * FM) * EF4 * 44/28 * 1/1000
Q73 | N2O | FSN t, FON t, FP t, FCR t, FSOM t, FL 1, EF5 1 | \
(FSN + FON + FP + FCR + FSOM) * FL * EF5 * 44/28 * 1/1000
Q74 | CO2 | ML t, EFL 1, MD t, EFD 1 | (ML * EFL + MD * EFD) * 44/12 * 1/1000
Q75 | CO2 | M t, EF 1 | M * EF * 44/12 * 1/1000
Q76 | kg/ha/day | EFC kg/ha/day, SFW 1, SFP 1, SFO 1, SFS 1 | EFC * SFW * SFP * SFO * SFS
Q77 | CH4 | EF kg/ha/day, T day, A ha | EF * T * A * 1/1000000
Q78 | GgC | A ha, GW t/ha, R 1, CF 1 | A * GW * (1 + R) * CF * 1/1000
Q79 | GgC | A ha, IV m3/ha, BCEF t/m3, R 1, CF 1 | A * IV * BCEF * (1 + R) * CF * 1/1000
Q80 | GgC | H m3, BCEF t/m3, R 1, CF 1 | H * BCEF * (1 + R) * CF * 1/1000
Q81 | GgC | FT m3, BCEF t/m3, R 1, FP m3, D t/m3, CF 1 | (FT * BCEF * (1 + R) + FP * D) * CF * 1/1000
Q82 | GgC | A ha, BW t/ha, R 1, CF 1, FD 1 | A * BW * (1 + R) * CF * FD * 1/1000
Q83 | GgC | G GgC, L GgC | G - L
Q84 | CO2 | C GgC | (0 - C) * 44/12
Q85 | GgC | SREF t/ha, FLU 1, FMG 1, FI 1, A ha | SREF * FLU * FMG * FI * A * 1/1000
Q86 | GgC | S0 GgC, ST GgC | (S0 - ST) * 1/20
Q87 | GgC | A ha, EF t/ha | A * EF * 1/1000
Q88 | CH4 | A ha, MB t/ha, CB 1, GEF 1 | A * MB * CB * GEF * 1/1000
Q89 | N2O | A ha, MB t/ha, CB 1, GEF 1 | A * MB * CB * GEF * 1/1000
Q90 | GgC | W t, DOC 1, DOCF 1, MCF 1 | W * DOC * DOCF * MCF * 1/1000
Q91 | GgC | DEP GgC, PREV GgC, D decay | DEP + PREV * D
Q92 | GgC | PREV GgC, D decay | PREV * (1 - D)
Q93 | Gg-gas | DEC GgC, F 1 | DEC * F * 16/12
Q94 | CH4 | GEN Gg-gas, R Gg-gas, OX 1 | (GEN - R) * (1 - OX)
Q95 | CH4 | M t, EF 1, R Gg-gas | M * EF * 1/1000 - R
Q96 | N2O | M t, EF 1 | M * EF * 1/1000
Q97 | CO2 | SW t, DM 1, CF 1, FCF 1, OF 1 | SW * DM * CF * FCF * OF * 44/12 * 1/1000
Q98 | 1 | BO 1, MCF 1 | BO * MCF
Q99 | t | P person, BOD g/person/day, I 1 | P * BOD * 1/1000 * I * 365/1 * 1/1000
Q100 | CH4 | X 1, TOW t, S t, R Gg-gas | X * (TOW - S) * 1/1000 - R
Q101 | 1 | U 1, T 1, EF 1 | U * T * EF
Q102 | t | P person, PR kg/person, FNPR 1, FNON 1, FIND 1, NS t | P * PR * FNPR * FNON * FIND * 1/1000 - NS
Q103 | N2O | N t, EF 1 | N * EF * 44/28 * 1/1000
"""


@dataclass(frozen=True)
class Unit:
    """A word of the table of units: the dimension, and the ratio to its base unit."""
    dimension: str
    ratio: Fraction


@dataclass(frozen=True)
class Equation:
    """A row of the table of equations."""
    gas: str
    dimension: str
    parameters: dict[str, str]
    expression: Expression


@dataclass(frozen=True)
class Tables:
    """All three tables. The parent of a code that stands outside the tree, and of `0`, is empty."""
    units: dict[str, Unit]
    parents: dict[str, str]
    equations: dict[str, Equation]

    @cached_property
    def codes(self) -> list[str]:
        """The codes of the tree, in the order of bytes."""
        return sorted(code for code in self.parents if code not in MEMO_CODES)

    @cached_property
    def leaves(self) -> list[str]:
        """The codes at which a line may stand."""
        return sorted(code for code in self.parents if code not in self.parents.values())

    @cached_property
    def above(self) -> dict[str, tuple[str, ...]]:
        """For each code the codes that its lines count in."""
        return {code: () if code in MEMO_CODES else self.path(code) for code in self.parents}

    def path(self, code: str) -> tuple[str, ...]:
        """A code of the tree and all above it."""
        return (code,) + (self.path(self.parents[code]) if self.parents[code] else ())


def pairs_in(text: str) -> list[tuple[str, list[str]]]:
    """The lines of a table above: what stands before the colon, and the list after it."""
    lines = (line.split(":") for line in text.strip().splitlines())
    return [(first, [part for part in rest.strip().split(", ") if part]) for first, rest in lines]


def units_in(text: str) -> dict[str, Unit]:
    """The table of units."""
    units: dict[str, Unit] = {}
    for base, others in pairs_in(text):
        units[base] = Unit(base, Fraction(1))
        for other in others:
            word, ratio = other.split(" ")
            units[word] = Unit(base, Fraction(ratio))
    return units


def parents_in(text: str) -> dict[str, str]:
    """The parent of each code."""
    parents = {code: "" for code in ("0",) + MEMO_CODES}
    for parent, children in pairs_in(text):
        parents.update({child: parent for child in children})
    return parents


def equation_in(output: str, parameters: str, expression: str) -> Equation:
    """A row of the table of equations. A gas that a line emits has the dimension of gases."""
    pairs = dict(parameter.split(" ") for parameter in parameters.split(", "))
    gas = output if output in GASES else ""
    return Equation(gas, "Gg-gas" if gas else output, pairs, expression_in(expression))


def equations_in(text: str) -> dict[str, Equation]:
    """The table of equations."""
    rows = (line.split(" | ") for line in text.strip().splitlines())
    return {code: equation_in(output, parameters, value) for code, output, parameters, value in rows}


TABLES = Tables(units_in(UNITS), parents_in(TREE), equations_in(EQUATIONS))
