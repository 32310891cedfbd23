"""Letters and digits that are not those of the program, and those that are meant."""
import re
import unicodedata

# Letters of other alphabets that look like Latin ones, and these.
LIKE_LATIN = str.maketrans(
    "\u0410\u0412\u0415\u0405\u0406\u0408\u041a\u041c\u041d\u041e\u0420\u0421\u0422\u0423\u0425"
    "\u0430\u0435\u0455\u0456\u0458\u043e\u0440\u0441\u0443\u0445"
    "\u0391\u0392\u0395\u0396\u0397\u0399\u039a\u039c\u039d\u039f\u03a1\u03a4\u03a5\u03a7\u03bf",
    "ABESIJKMHOPCTYX" "aesijopcyx" "ABEZHIKMNOPTYXo")
# Letters that no accent makes of a Latin one.
TRANSCRIBED = str.maketrans({
    "\u0141": "L", "\u00d8": "O", "\u0152": "OE", "\u00c6": "AE", "\u0110": "D", "\u00d0": "D",
    "\u00de": "TH", "\u0126": "H", "\u1e9e": "SS"})
RAISED = re.compile("[\u2070\u00b9\u00b2\u00b3\u2074-\u2079\u207b]+")
LOWERED = str.maketrans("\u2070\u00b9\u00b2\u00b3\u2074\u2075\u2076\u2077\u2078\u2079\u207b", "0123456789-")


def latin(text: str) -> str:
    """A text with Latin letters in place of those that look like them, where that makes all of it ASCII."""
    meant = text.translate(LIKE_LATIN)
    return meant if meant.isascii() else text


def said_of_alike(text: str) -> str:
    """Which Latin letters of a text are of another alphabet."""
    odd = [letter for letter in dict.fromkeys(text) if letter.translate(LIKE_LATIN) != letter]
    alphabets = sorted({unicodedata.name(letter).split()[0].capitalize() for letter in odd})
    alike = [letter.translate(LIKE_LATIN) for letter in odd]
    letters = "a letter" if len(odd) == 1 else "letters"
    return f"{letters} of the {' and the '.join(alphabets)} alphabet in place of {' '.join(alike)}"


def without_accents(text: str) -> str:
    """A text without accents, and with the letters of ASCII that stand for others of the Latin alphabet."""
    parts = unicodedata.normalize("NFKD", text.translate(TRANSCRIBED))
    return "".join(letter for letter in parts if not unicodedata.combining(letter))


def lowered(text: str, sign: str) -> str:
    """A text with digits in place of raised ones, after a sign."""
    return RAISED.sub(lambda found: sign + found.group().translate(LOWERED), text)
