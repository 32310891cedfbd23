"""What people call what the vocabulary has under another name, out of tools/people-words.csv.

Each word there stands with what it means: codes of categories and equations, names of templates, and words
that the vocabulary has.
"""
from __future__ import annotations

import csv
import functools
import pathlib
import re

from tools import vocabulary
from tools.row_templates import TEMPLATES

PATH = pathlib.Path(__file__).resolve().parent / "people-words.csv"


@functools.cache
def meanings() -> dict[str, list[str]]:
    """What each word or phrase means."""
    with open(PATH, encoding="utf-8", newline="") as file:
        return {row["word"]: row["means"].split() for row in csv.DictReader(file)}


def is_key(meaning: str) -> bool:
    """Tells whether a meaning is the code or the name of one item, and no word to look for."""
    return meaning in TEMPLATES or meaning in vocabulary.categories() or meaning in vocabulary.equations()


def phrases(words: list[str]) -> list[str]:
    """Words of which those that are one phrase stand together, the longest phrases first."""
    text = " ".join(words)
    for phrase in sorted((known for known in meanings() if " " in known), key=len, reverse=True):
        text = re.sub(rf"\b{phrase}s?\b", phrase.replace(" ", "\0"), text, flags=re.IGNORECASE)
    return [word.replace("\0", " ") for word in text.split(" ") if word]


def of(word: str) -> list[str] | None:
    """What a word means, in the plural and with dots too, or None where the table has it not."""
    plain = word.casefold()
    known = (meanings().get(form) for form in (plain, plain.removesuffix("s"), plain.replace(".", "")))
    return next((meaning for meaning in known if meaning), None)


def is_meant(word: str, key: str, text: str) -> bool:
    """Tells whether a word of the table means an item by its code or name, or stands in its text."""
    found = of(word) or []
    whole = [word.casefold().removesuffix("s"), *(meaning for meaning in found if not is_key(meaning))]
    return key in found or any(re.search(rf"\b{re.escape(other)}s?\b", text) for other in whole)
