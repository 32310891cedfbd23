"""What is unusual in the text of a field, and the text without it.

Whether that is taken, the program is asked.
"""
import dataclasses
import datetime
import decimal
import functools
import re
import unicodedata

from tools import letters, vocabulary
from tools.vocabulary import limit, nearest

NO_BREAK = "\u00a0\u2007\u202f"
UNSEEN = "\u200b\u200c\u200d\u2060\ufeff\u00ad"
MINUS = "\u2212\u2010\u2011\u2012\u2013\u2014"
# What stands between thousands, with its name.
SEPARATORS = [
    (" \u2009", "a blank"), (NO_BREAK, "a no-break space"), ("'\u2019", "an apostrophe"), ("_", "_"),
]
QUOTES = "'\"`\u2018\u2019\u201a\u201c\u201d\u201e\u00ab\u00bb"
# Words in front of a number, and the mark of a footnote or of an estimate after it.
ABOUT = r"^(ca|circa|approx|about|~|\u2248)\.?\s*(?=\d)"
# A power of ten after a sign of multiplication, its exponent after a sign or raised.
POWER = "a power of ten"
POWER_OF_TEN = re.compile(
    r"(-?[\d.,]+)\s*[x*\u00d7\u00b7\u22c5]\s*10\s*(?:\^|\*\*)\s*([+-]?\d{1,3})", re.IGNORECASE)
MARK = r"^(-?\d[\d.,\s]*?)\s*([*\u2020\u2021\u00a7]+|[\u00b9\u00b2\u00b3]|[(\[][^()\[\]]*[)\]])$"


@dataclasses.dataclass
class Mended:
    """A text without what was unusual in it. It is sure where the writer can have meant nothing else."""
    causes: list[str]
    text: str
    sure: bool = True

    def less(self, cause: str, text: str) -> "Mended":
        """The same with one more cause, where the text changes by it."""
        return self if text == self.text else Mended(self.causes + [cause], text, self.sure)


def blank_name(text: str) -> str:
    """How the blanks of a text are called."""
    if set(text) & set(UNSEEN):
        return "an unseen character"
    if set(text) & set(NO_BREAK):
        return "a no-break space"
    if "\t" in text:
        return "a tab"
    if "\n" in text or "\r" in text:
        return "the end of a line"
    return "a blank" if len(text) == 1 else "blanks"


def without_blanks(text: str) -> Mended:
    """The text without blanks at its ends."""
    blanks = " \t\r\n" + NO_BREAK + UNSEEN + "\u2009\u3000"
    front = text[:len(text) - len(text.lstrip(blanks))]
    back = text[len(text.rstrip(blanks)):] if front != text else ""
    mended = Mended([], text)
    if front:
        mended = mended.less(f"{blank_name(front)} in front", mended.text[len(front):])
    if back:
        mended = mended.less(f"{blank_name(back)} at the end", mended.text[:-len(back)])
    return mended


def number(text: str, most_decimals: int | None = None) -> Mended:
    """A number as it is written elsewhere, as this program takes it."""
    mended = ascii_digits(without_blanks(text))
    mended = mended.less("a word for a number", re.sub("^zero$", "0", mended.text, flags=re.IGNORECASE))
    mended = mended.less("a minus sign of typography", re.sub(f"^[{MINUS}](?=[\\d.,])", "-", mended.text))
    mended = mended.less("an apostrophe in front", re.sub(r"^['\u2019`](?=[-\d.,])", "", mended.text))
    mended = mended.less("a dash in place of decimals", re.sub(rf"(?<=\d)[.,][{MINUS}-]+$", "", mended.text))
    mended = mended.less("the minus sign behind the number", re.sub(r"^(\d[\d.,\s]*)-$", r"-\1", mended.text))
    mended = mended.less("an equals sign in front", re.sub(r'^="?(-?[\d.,]+)"?$', r"\1", mended.text))
    mended = mended.less("a word in front", re.sub(ABOUT, "", mended.text, flags=re.IGNORECASE))
    ten = re.fullmatch(r"10\^(\d{1,2})", letters.lowered(mended.text, "^"))
    mended = mended.less(POWER, f"1e{ten.group(1)}") if ten else mended
    mended = mended.less("a mark behind the number", re.sub(MARK, r"\1", mended.text))
    bracketed = re.fullmatch(r"\(([\d.,\s]+)\)", mended.text)
    if bracketed:
        mended = mended.less("parentheses for a negative number", "-" + bracketed.group(1))
    mended = mended.less("a plus sign", re.sub(r"^\+(?=[\d.,])", "", mended.text))
    for separator, called in SEPARATORS:
        joined = re.sub(rf"(?<=\d)[{separator}](?=\d{{3}}(\D|$))", "", mended.text)
        mended = mended.less(f"{called} between thousands", joined)
    mended = product(fraction(exponent(points(power_of_ten(mended)))))
    mended = mended.less("no digit in front of the point", re.sub(r"^(-?)\.(?=\d)", r"\g<1>0.", mended.text))
    mended = mended.less("no digit behind the point", re.sub(r"^(-?\d+)\.$", r"\1", mended.text))
    mended = mended.less("no digit behind the comma", re.sub(r"^(-?\d+),$", r"\1", mended.text))
    return decimals(mended, int(limit("decimals")) if most_decimals is None else most_decimals)


def ascii_digits(mended: Mended) -> Mended:
    """With the digits 0 to 9 in place of those of another script, and of letters that look like them."""
    if re.fullmatch(r"-?[OoIl]*[0-9][0-9OoIl]*([.,][0-9OoIl]+)?", mended.text):
        digits = mended.text.translate(str.maketrans("OoIl", "0011"))
        return mended.less("letters in place of digits", digits)
    if mended.text.isascii():
        return mended
    ascii_text = "".join(str(unicodedata.decimal(letter)) if letter.isdecimal() else letter
                         for letter in mended.text)
    return mended.less("digits of another script", ascii_text)


def points(mended: Mended) -> Mended:
    """Without commas: thousands, or a decimal comma. One that may be either is not sure."""
    text = mended.text
    grouped = r"-?\d{1,3}((,\d{3}){2,}(\.\d+)?|(,\d{3})+\.\d+)|-?\d{1,2}(,\d\d)+,\d{3}(\.\d+)?"
    if re.fullmatch(grouped, text):
        return mended.less("commas between thousands", text.replace(",", ""))
    if re.fullmatch(r"-?\d{1,3}(\.\d{3})+,\d+", text):
        cause = "points between thousands and a decimal comma"
        return mended.less(cause, text.replace(".", "").replace(",", "."))
    if re.fullmatch(r"-?\d{1,3}(\.\d{3}){2,}", text):
        return mended.less("points between thousands", text.replace(".", ""))
    if re.fullmatch(r"-?[1-9]\d{0,2},\d{3}", text):
        cause = f"a comma; write {text.replace(',', '')} where it stands between thousands"
        cause += f", {text.replace(',', '.')} where it is a decimal comma"
        return Mended(mended.causes + [cause], text, False)
    if re.fullmatch(r"-?\d*,\d+([eE][+-]?\d+)?", text):
        return mended.less("a decimal comma", text.replace(",", "."))
    return mended


def exponent(mended: Mended) -> Mended:
    """Without an exponent."""
    if not re.fullmatch(r"-?(\d+(\.\d*)?|\.\d+)[eE][+-]?\d{1,3}", mended.text):
        return mended
    digits = format(decimal.Decimal(mended.text), "f")
    is_told = POWER in mended.causes
    return Mended(mended.causes, digits) if is_told else mended.less("an exponent", digits)


def power_of_ten(mended: Mended) -> Mended:
    """With an exponent in place of a power of ten."""
    text = re.sub(f"[{MINUS}]", "-", letters.lowered(mended.text, "^"))
    found = POWER_OF_TEN.fullmatch(text)
    return mended.less(POWER, f"{found.group(1)}e{found.group(2)}") if found else mended


def product(mended: Mended) -> Mended:
    """Without a word for thousands or millions after it, and without signs of multiplication."""
    found = re.fullmatch(r"(.*\d)\s*(thousand|million|mio|mln|billion|bn)\.?", mended.text.lower())
    front = number(found.group(1)) if found else None
    if found and front and front.sure and re.fullmatch(r"-?\d+(\.\d+)?", front.text):
        power = {"t": 3, "m": 6, "b": 9}[found.group(2)[0]]
        return mended.less("a word for thousands", plain(decimal.Decimal(front.text).scaleb(power)))
    factors = re.split(r"\s*[*\u00d7]\s*", mended.text)
    if len(factors) < 2 or not all(re.fullmatch(r"-?\d{1,15}(\.\d{1,12})?", factor) for factor in factors):
        return mended
    exact = decimal.Context(prec=200)
    made = functools.reduce(exact.multiply, map(decimal.Decimal, factors))
    return mended.less("a product", plain(made))


def plain(number: decimal.Decimal) -> str:
    """A number in digits, without zeros at the end of its decimals."""
    text = format(number, "f")
    return text.rstrip("0").rstrip(".") if "." in text else text


def fraction(mended: Mended) -> Mended:
    """Without a stroke, where the quotient has few decimals. Any other is not sure."""
    found = re.fullmatch(r"(-?\d{1,9})\s?/\s?([1-9]\d{0,8})", mended.text)
    if not found:
        return mended
    over, under = map(int, found.groups())
    if min(abs(over), under) >= 1000:
        return Mended(mended.causes + ["two numbers in one field; write one"], mended.text, False)
    quotient = decimal.Decimal(over) / under
    exponent_of_ten = quotient.as_tuple().exponent
    is_short = isinstance(exponent_of_ten, int) and -exponent_of_ten <= int(limit("decimals"))
    if quotient * under == over and is_short:
        return mended.less("a fraction", format(quotient, "f"))
    return Mended(mended.causes + [f"a fraction; write {quotient:.6f}, or more decimals"], mended.text, False)


def decimals(mended: Mended, most: int) -> Mended:
    """With as many decimals as a number may have. One that would be zero then is not sure."""
    found = re.fullmatch(r"-?\d+\.(\d+)", mended.text)
    if not found or len(found.group(1)) <= most:
        return mended
    cause = f"{len(found.group(1))} decimals where {most} are the most"
    exact = decimal.Decimal(mended.text)
    context = decimal.Context(prec=len(mended.text), rounding=decimal.ROUND_HALF_UP)
    rounded = exact.quantize(decimal.Decimal(1).scaleb(-most), context=context)
    if exact and not rounded:
        cause += ", and no more than zero is left; choose a smaller unit"
        return Mended(mended.causes + [cause], mended.text, False)
    return mended.less(cause, format(rounded, "f"))


def year(text: str) -> Mended:
    """A year as it is written elsewhere. One of two is not sure."""
    mended = ascii_digits(without_blanks(text))
    found = re.fullmatch(r"(\d{4})[.,]0*", mended.text)
    if found:
        return mended.less("a year has no decimals", found.group(1))
    found = re.fullmatch(rf"(\d{{4}})\s*[-/{MINUS}]\s*(\d\d)?(\d\d)", mended.text)
    if found and int(found.group(3)) == (int(found.group(1)) + 1) % 100:
        cause = f"two years in one field; write {found.group(1)} or {int(found.group(1)) + 1}, as in all rows"
        return Mended(mended.causes + [cause], text, False)
    found = re.fullmatch(r"(\d{4})[-/.]\d{1,2}([-/.]\d{1,2})?([T ].*)?|\d{1,2}[-/.]\d{1,2}[-/.](\d{4})",
                         mended.text)
    if found:
        return mended.less("a date in place of a year", found.group(1) or found.group(4))
    found = re.fullmatch(r"(\d),?(\d{3})", mended.text)
    if found:
        return mended.less("a comma in a year", "".join(found.groups()))
    day = day_of_number(mended.text)
    if day:
        return mended.less(f"the number by which a spreadsheet keeps the date {day}", str(day.year))
    found = re.fullmatch(r"((?:19|20)\d\d)(0[1-9]|1[0-2])([0-2]\d|3[01])", mended.text)
    if found:
        return mended.less("a date in place of a year", found.group(1))
    years = re.findall(r"(?<!\d)(?:19|20)\d\d(?!\d)", mended.text)
    return mended.less("more than the year", years[0]) if len(years) == 1 else mended


def day_of_number(text: str) -> datetime.date | None:
    """The day that a spreadsheet keeps under a number of five digits, from 1982 on, or None."""
    if not re.fullmatch(r"[3-7]\d{4}(\.\d+)?", text):
        return None
    day = datetime.date(1899, 12, 30) + datetime.timedelta(days=int(text[:5]))
    return day if day.year <= int(limit("last_year")) else None


def notation_key(text: str) -> str:
    """The notation key that a text is, as no, N.O., not occurring or NE (no data); else the text in upper
    case.
    """
    bare = letters.latin(without_blanks(text).text)
    names = vocabulary.words()["key_names"]
    named = nearest(bare, names.values(), 1, 0.85) if " " in bare else []
    if named:
        return next(key for key, name in names.items() if name == named[0])
    if bare.upper() == "N0":
        return "NO"
    dotted = re.fullmatch(r"([A-Za-z])\.\s?([A-Za-z])\.?", bare)
    if dotted and bare.upper() not in ("N.A", "N.A."):
        bare = "".join(dotted.groups())
    first = re.match(rf"(N[OAE]|IE)\s*[(*:;,{MINUS}-]", bare)
    if first and not re.search(r"\b(N[OAE]|IE)\b", bare[2:]):
        return first.group(1)
    return "C" if bare.casefold() == "confidential" else bare.upper()


@functools.lru_cache(maxsize=10000)
def name(text: str) -> Mended:
    """A name as it is written elsewhere: in upper case, without blanks and accents."""
    mended = without_blanks(text)
    mended = mended.less("quotes around a name", mended.text.strip(QUOTES))
    mended = mended.less("lower case", mended.text.upper())
    mended = mended.less("a blank in a name", re.sub(r"\s+", ".", mended.text))
    bare = letters.without_accents(mended.text)
    mended = mended.less("a letter with an accent", bare)
    mended = mended.less(letters.said_of_alike(bare), letters.latin(bare))
    if any(letter.isalpha() and not letter.isascii() for letter in mended.text):
        return mended
    odd = sorted(set(re.findall(r"[^A-Z0-9._-]", mended.text)))
    if odd:
        bare = re.sub(r"\.*[^A-Z0-9._-]+\.*", ".", mended.text).strip(".")
        mended = mended.less(f"{' '.join(odd)} in a name", bare)
    if not re.search("[A-Z]", mended.text):
        return mended
    mended = mended.less("a name begins with a letter", mended.text.lstrip("._-"))
    return mended.less("a name begins with a letter", re.sub(r"^(?=\d)", "N", mended.text))
