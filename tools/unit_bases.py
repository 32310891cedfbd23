"""What a unit says its figure is of, as N2O-N or dry matter; what each parameter takes; and how a figure of
the one becomes one of the other.
"""
import functools
import re
import typing

from tools import letters, units, vocabulary

GROSS, NET, EQUIVALENTS, PRODUCT = "gross", "net", "equivalents", "product"
ELECTRICITY, HEAT = "electricity", "heat"
DRY, WET, ASH_FREE = "dry matter", "wet weight", "no ash"
PLACES, LIVESTOCK_UNITS = "places", "livestock units"
NORMAL, STANDARD = "0 \u00b0C", "15 \u00b0C"
STACKED, UNDER_BARK = "stacked volume", "under bark"
# What people write for these, in lower case.
SPELLINGS = {
    GROSS: "gcv hcv hhv gross gchv hs ho pcs upper higher brut superior superieur superiore brennwert hsup bovenwaarde "
           "oberer obere oberen ovre bovenste ylempi kalorimetriskt",
    NET: "ncv lcv lhv net nchv hi hu pci lower inferior inferieur inferiore heizwert hinf onderwaarde "
         "unterer untere unteren nedre undre onderste alempi",
    EQUIVALENTS: "equivalence",
    "CO2": "co2", "CH4": "ch4", "N2O": "n2o", "CF4": "cf4", "C2F6": "c2f6", "N2O-N": "n2o-n",
    "NOx": "nox no2", "SO2": "so2 sox", "NMVOC": "nmvoc nmvocs voc",
    "CH4-C": "ch4-c", "C": "c carbon co2-c kohlenstoff carbone carbono",
    "N": "n nitrogen urea-n nh4-n no3-n azote stickstoff nitrogeno azoto azot",
    "NH3": "nh3", "NH3-N": "nh3-n", "NO3": "no3",
    "urea": "urea uree harnstoff mocznik", "nitrate": "nh4no3 nitrate", "HNO3": "hno3", "CaO": "cao", "COD": "cod",
    "BOD": "bod bod5",
    "protein": "protein", "clinker": "clinker klinker",
    "cement": "cement zement ciment cemento", "humus": "humus",
    DRY: "dm dry drymatter odt bdt dw ms ts tm trocken trockenmasse trockensubstanz sec seche seca seco secca secco "
         "suchej droog",
    WET: "wet fresh ww fw fm frischmasse fraiche frais humide humedo humeda nass", ASH_FREE: "daf maf",
    ELECTRICITY: "e el elec electric electricity electrical electricite strom elettricita electricidad elektrisch "
                 "electrico electricos electrica electrique electriques elettrici elektriciteit elektrizitat",
    HEAT: "heat fernwarme warme chaleur calor calore steam dampf vapeur vapor vapore fjarrvarme fjernvarme warmte",
    PLACES: "place places stall stalls stallplatz stallplatze stallplaetze plazas posti emplacements",
    LIVESTOCK_UNITS: "lsu lu gve gv uba ugb ugm grossvieheinheiten tlu ubt dse",
    STACKED: "stere steres ster rm raummeter estereo estereos estere", UNDER_BARK: "underbark",
    NORMAL: "nm3 mnm3 normal stp 0\u00b0c", STANDARD: "sm3 msm3 scm 15\u00b0c",
    PRODUCT: "product products fertiliser fertilisers fertilizer fertilizers npk dap uan can "
             "an n-fertiliser n-fertilizer engrais dunger duenger fertilizante abono nawoz sulphate sulfate "
             "manure slurry compost sludge litter digestate",
}
SAID = {word: of for of, words in SPELLINGS.items() for word in words.split()}
# What the figures of parameters are of. A factor whose gas is that of its line is in GAS_FACTORS.
GAS_FACTORS = (
    "Q10.EF Q11.EF Q12.EF Q14.EF Q15.EF Q16.EF Q17.EF Q31.EF Q32.EF Q33.EF Q34.EF Q35.EFLS Q35.EFD Q36.EFLS "
    "Q36.EFD Q38.EF Q39.EF Q40.EFB Q40.EFE Q40.EFO Q41.EFP Q41.EFS Q42.EF Q44.S Q55.EF Q77.EF Q88.GEF "
    "Q89.GEF Q95.EF Q96.EF Q100.X")
TAKEN = {
    "CO2": "Q37.R", "CH4": "Q76.EFC Q94.GEN Q94.R Q95.R Q98.BO Q100.R Q101.EF", "CF4": "Q45.CF",
    "N2O-N": "Q59.EF3 Q61.EF Q69.EF1 Q70.EF2 Q71.EF3 Q72.EF4 Q73.EF5 Q103.EF",
    "C": "Q78.CF Q79.CF Q80.CF Q81.CF Q82.CF Q90.DOC Q97.CF Q24.CC Q25.CC Q25.XC Q26.CC Q26.XC Q37.CCF "
         "Q46.CC Q74.EFL Q74.EFD Q75.EF Q83.G Q83.L Q84.C Q85.SREF "
         "Q86.S0 Q86.ST Q87.EF Q91.DEP Q91.PREV Q92.PREV Q93.DEC",
    "N": "Q59.NEX Q60.NEX Q61.NV Q62.NR Q63.NEX Q63.NB Q64.NEX Q67.FAM Q67.FSEW Q67.FCOMP Q67.FOOA Q68.NA "
         "Q69.FSN Q69.FON Q69.FCR Q69.FSOM Q71.FP Q72.FSN Q72.FON Q72.FP Q73.FSN Q73.FON Q73.FP Q73.FCR "
         "Q73.FSOM Q102.NS Q103.N",
    DRY: "Q78.GW Q79.BCEF Q80.BCEF Q81.BCEF Q81.D Q82.BW Q88.MB Q89.MB", WET: "Q90.W Q97.SW",
    "protein": "Q102.PR", "BOD": "Q99.BOD",
    "clinker": "Q31.CL Q31.IM Q31.EX Q32.MCL", "cement": "Q30.MC", "urea": "Q75.M", "HNO3": "Q38.P Q39.P",
    "NH3": "Q37.AP", "limestone": "Q74.ML",
}
PER = {
    "clinker": "Q31.EF Q32.EF", "urea": "Q75.EF", WET: "Q90.DOC",
    DRY: "Q78.CF Q79.CF Q80.CF Q81.CF Q82.CF Q88.GEF Q89.GEF Q97.CF",
    "N": "Q59.EF3 Q61.EF Q69.EF1 Q71.EF3 Q72.EF4 Q73.EF5 Q103.EF",
}
# The parameters whose cubic metres are of 20 C, by the 0.67 kg of CH4 that their equation has in one; and
# those whose cubic metres are of the state of the factor or of the volume.
OF_20_C = {("Q14", "EF"), ("Q58", "BO")}
OF_GAS = {(code, name) for code in ("Q15", "Q16", "Q17") for name in ("A", "EF")}
# What a figure of the first is multiplied by to be one of the second.
RATIOS = {
    ("N2O", "N2O-N"): "28/44", ("N2O-N", "N2O"): "44/28", ("CO2", "C"): "12/44", ("C", "CO2"): "44/12",
    ("CH4-C", "CH4"): "16/12", ("C", "CH4"): "16/12", ("CH4", "C"): "12/16", ("NH3", "N"): "14/17",
    ("N", "NH3"): "17/14", ("NO3", "N"): "14/62", ("urea", "N"): "0.46, the nitrogen in urea",
    ("N", "urea"): "1/0.46, by the nitrogen in urea",
    ("nitrate", "N"): "0.35, the nitrogen in ammonium nitrate",
    ("humus", "C"): "0.58, the carbon in humus",
    ("HNO3", "N"): "14/63", ("N", "HNO3"): "63/14", ("protein", "N"): "0.16, the nitrogen in protein",
    ("N", "protein"): "1/0.16, by the nitrogen in protein", ("CaO", "limestone"): "100/56",
    ("cement", "clinker"): "the clinker fraction of the cement",
    ("clinker", "cement"): "1 over the clinker fraction of the cement",
    ("C", DRY): "1 over the carbon fraction CF of the dry matter",
    (DRY, "C"): "the carbon fraction of dry matter",
    (DRY, WET): "1 over the fraction of dry matter, as DM of Q97", (WET, DRY): "the fraction of dry matter",
    ("COD", "BOD"): "about 1/2.4", ("NH3-N", "NH3"): "17/14",
}
# Pairs of which the first is measured by the mass of the second, so that the figure stays as it is.
SAME = {("NH3-N", "N"), ("N2O-N", "N")}
# What people write after the whole unit too, as in kg/TJ CH4, if the numerator says nothing.
AT_THE_END = ("CO2", "CH4", "N2O", "CF4", "C2F6", "N2O-N", EQUIVALENTS)
# Words beside a unit that change no figure; so do those by which the page of equations names a parameter.
HARMLESS = frozenset(
    "al aluminium hno3 vs fuel mass matter weight live value heating calorific basis as cv and the animal "
    "gas acid total used produced potere poder pouvoir calorifico calorifique verbrandingswaarde varmevarde "
    "over bark".split())
# Timber without its bark, and gas at a temperature, as people write them after the volume.
WITHOUT_BARK = re.compile(
    r"\b(?:under|without|excl\w*\.?|ohne|sous|sans|sin|sem|senza)[\s-]+(?:bark|rinde|ecorce|corteza|casca|corteccia)\b"
    r"|\bo\. ?r\.|\bu\. ?b\.|\bub\b", re.IGNORECASE)
AT_DEGREES = re.compile(r"\b(M?)m(3|\^3)(.*?)[\s(]*(?:\b(?:at|bei|a)\b)?[\s@,]*\b(0|15) ?\u00b0 ?C\)?", re.IGNORECASE)


class Words(typing.NamedTuple):
    """What a unit says that its figure is of, in its numerator and its denominator; the unit without that;
    and the words that are neither of that nor units.
    """
    numerator: list[str]
    denominator: list[str]
    bare: str
    others: list[str]


@functools.lru_cache(maxsize=10000)
def words_of(text: str) -> Words:
    """What a text of a unit says that it is of."""
    text = letters.without_accents(text).replace("(NH4)2SO4", "sulphate")
    text = WITHOUT_BARK.sub("underbark", re.sub("\\b[dl]['\u2019]|heat[ -]?input", "", text, flags=re.IGNORECASE))
    text = AT_DEGREES.sub(lambda of: f"{of[1]}{'N' if of[4] == '0' else 'S'}m3{of[3]}", text)
    text = re.sub(r"\b([a-z])\.([a-z])\.([a-z])\b\.?", r"\1\2\3", text, flags=re.IGNORECASE)
    text = units.EQUIVALENTS.sub(r"\g<gas> equivalence", text)
    text = re.sub(r"(wh)[_-]?(el?)\b", r"\1 \2", text, flags=re.IGNORECASE)
    parts = [part.split() for part in units.prepared(text).split("/")]
    found = [[of for word in part for of in said_by(word)] for part in parts]
    kept = [" ".join(word for word in part if is_unit(word)) for part in parts]
    others = [word for part in parts for word in part if is_other(word)]
    denominator = [of for part in found[1:] for of in part]
    if len(parts) == 1 and is_share(kept[0]):
        # a share is one of dry matter or of wet weight, and no amount of it
        denominator = [of for of in found[0] if of in (DRY, WET, ASH_FREE)]
        found[0] = [of for of in found[0] if of not in denominator]
    last = [of for of in denominator if of in AT_THE_END]
    return Words(found[0] or last, denominator, "/".join(kept), others)


def is_share(text: str) -> bool:
    """Tells whether a text is the unit of a ratio, as pct, with no strokes."""
    reading = units.read(text)
    return reading is not None and set(reading.powers) == {"ratio"}


def is_other(word: str) -> bool:
    """Tells whether a word is no unit and no number, and may change the figure or not."""
    is_known = said_by(word) or units.unit_of(word.removesuffix("^-1")) or units.multiple_of(word)
    glued, of = units.without_what_it_is_of(word)
    return not is_known and not glued and of not in HARMLESS and bool(re.search(r"[^\W\d_]", word))


def is_unit(word: str) -> bool:
    """Tells whether a word is a unit or a number and not only what it is of: a cubic metre is both."""
    return SAID.get(word.casefold().removesuffix("^-1"), NORMAL) in (NORMAL, STANDARD, STACKED)


def said_by(word: str) -> list[str]:
    """What a word says a figure to be of: nothing, or one."""
    plain = word.casefold().removesuffix("^-1").strip("-.,")
    if plain in SAID:
        return [SAID[plain]]
    _, glued = units.without_what_it_is_of(word)
    return [SAID[glued]] if glued in SAID else []


def taken_by(code: str, parameter: str) -> str | None:
    """What a figure of a parameter of an equation is of, or None if that is not known."""
    name = f"{code}.{parameter}"
    if name in GAS_FACTORS.split():
        gas: str | None = vocabulary.gas_of(code)
        return gas
    return next((of for of, names in TAKEN.items() if name in names.split()), None)


def per_what(code: str, parameter: str) -> str | None:
    """What the denominator of a parameter is of, or None if that is not known."""
    return next((of for of, names in PER.items() if f"{code}.{parameter}" in names.split()), None)


def said(of: str) -> str:
    """What a figure is of as a word of a sentence."""
    return {"N": "nitrogen", "C": "carbon"}.get(of, of)
