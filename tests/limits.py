"""The limits of the program as numbers, out of tools/facts.json, by the names that tools/facts gives them."""
import json
import pathlib

FACTS = pathlib.Path(__file__).resolve().parent.parent / "tools/facts.json"
WRITTEN: dict[str, str] = json.loads(FACTS.read_text("utf-8"))["limits"]


def limit(name: str) -> int:
    """A limit, which may be written as a power of ten; of a half-life, its tenths of a year."""
    base, _, power = WRITTEN[name].replace(",", "").replace(".", "").partition("^")
    number: int = int(base) ** int(power or 1)
    return number
