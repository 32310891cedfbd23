"""Searches the vocabulary and the default factors, and shows templates of rows."""
import csv
import re
from collections.abc import Iterable, Iterator

from tools import people_words
from tools import units as readings
from tools import vocabulary
from tools.fuels import DEFAULTS
from tools.new_folder import tier_1
from tools.row_templates import TEMPLATES
from tools.sheets import HEADERS, OF_TEMPLATES
from tools.vocabulary import Parameter

PARTS = ["units", "categories", "equations", "parameters", "templates", "defaults"]
# So many default factors are listed where no part is named.
MOST_DEFAULTS = 8
# What a row of each year has; what measures anything else is a factor.
MEASURED_YEARLY = {
    "mass", "energy", "area", "volume", "animals", "people", "carbon", "gas", "days", "anode effect minutes",
}
# The line of the year before that such a parameter takes: the line itself, or that of the stock.
LINE_OF_LAST_YEAR = {"Q91": "NAME", "Q92": "STOCK"}
HEADER = ",".join(HEADERS[OF_TEMPLATES])

# A word, what is said of it, and what else it is found by: of a default factor its file.
Item = tuple[str, str, str]


def units() -> Iterator[Item]:
    """Each unit with what it measures, and what people write for it."""
    for word, unit in vocabulary.units().items():
        base = vocabulary.units_that_measure(unit["measures"])[0]
        said = "" if word == base else f", {vocabulary.of_base(unit)} {base}"
        yield word, f"{unit['measures']}{said}", readings.spellings(word)


def categories() -> Iterator[Item]:
    """Each category with its name and the codes under it."""
    for code, category in vocabulary.categories().items():
        children = category["children"]
        leaf = f" (not a leaf: {', '.join(children)})" if children else ""
        also = f" (also {category['also']})" if category["also"] else ""
        yield code, f"{category['name']}{also}{leaf}", ""


def equations() -> Iterator[Item]:
    """Each equation with what it computes and its source, and what its parameters are."""
    for code, equation in vocabulary.equations().items():
        yield code, f"{equation['computes']}, {equation['source']}", equation["about"]


def parameters() -> Iterator[Item]:
    """Each parameter with what it measures, and the equations that have it."""
    found: dict[tuple[str, str], list[str]] = {}
    for code, equation in vocabulary.equations().items():
        for parameter in equation["parameters"]:
            said = vocabulary.said_of_parameter(parameter)
            found.setdefault((parameter["name"], said.split(" ", 1)[1]), []).append(code)
    for (name, said), codes in found.items():
        yield name, f"{said}: {', '.join(codes)}", ""


def templates() -> Iterator[Item]:
    """Each template of rows with what it is of."""
    for name, template in TEMPLATES.items():
        yield name, template.title, "template"


def defaults() -> Iterator[Item]:
    """Each default factor with its figure and its source, and its file."""
    for path in sorted(DEFAULTS.glob("*.csv")):
        with open(path, encoding="utf-8", newline="") as file:
            for row in csv.DictReader(file):
                unit = f" {row['unit']}" if row["unit"] != "1" else ""
                bounds = f", {row['low']} to {row['high']}" if row["low"] else ""
                yield row["name"], f"{row['value']}{unit}{bounds}: {row['note']}", f"{DEFAULTS.name}/{path.name}"


def found_in(items: Iterable[Item], words: list[str]) -> list[Item]:
    """The items that have all words in them, or are meant by them."""
    return [(word, said, also) for word, said, also in items
            if all(is_found(part, word, f"{word} {said} {also}".casefold()) for part in words)]


def is_found(part: str, key: str, text: str) -> bool:
    """Tells whether a word stands in the text of an item, or means it."""
    if people_words.of(part) is not None:
        return people_words.is_meant(part, key, text)
    return any(form in text for form in forms(part))


def forms(word: str) -> set[str]:
    """How a word may stand in the vocabulary: without the s of a plural, and as a code without dots."""
    plain = word.casefold()
    found = {plain, plain.removesuffix("s") if len(plain) > 3 else plain}
    return found | ({plain.replace(".", "")} if re.match(r"\d\.?[a-z]", plain) else set())


def near(parts: list[str], words: list[str]) -> dict[str, list[Item]]:
    """What is meant by words that nothing has in it: a unit that people write so, and the category that a
    code divides; by parts.
    """
    text, found = " ".join(words), dict[str, list[Item]]()
    meant = readings.meant(text) if "units" in parts else None
    if meant:
        found["units"] = [(meant.word, f"{vocabulary.measured_by(meant.word)}; for {text} {meant.said}", "")]
    leaves = [leaf for leaf in vocabulary.leaves() if "categories" in parts
              and vocabulary.plain(text).startswith(vocabulary.plain(leaf))]
    if leaves and text[0].isdecimal():
        found["categories"] = [item for item in categories() if item[0] in leaves]
    return found


def is_of_line(code: str, parameter: str) -> bool:
    """Tells whether a parameter takes what lines give wherever the lines of tier 1 have it."""
    forms = {row["form"] for rows in tier_1().values() for row in rows
             if (row["equation"], row["parameter"]) == (code, parameter)}
    return bool(forms) and forms <= {"line", "sum"}


def sample(code: str, parameter: Parameter) -> tuple[str, str | None]:
    """The rows of a template that give a parameter its figure."""
    name = f"NAME.{parameter['name']}"
    if (code, parameter["name"]) in vocabulary.OF_LAST_YEAR:
        return f"enter,bind,NAME,{parameter['name']},,prev,{LINE_OF_LAST_YEAR[code]},,,", None
    if vocabulary.is_decay(parameter):
        half_life = f"enter,factor,,{name},YEAR,VALUE,,,{vocabulary.HALF_LIFE_UNIT},"
        return f"enter,bind,NAME,{parameter['name']},,decay,{name},,,", half_life
    if is_of_line(code, parameter["name"]):
        return f"enter,bind,NAME,{parameter['name']},,line,LINE,,,", None
    kind = "activity" if parameter["measures"] in MEASURED_YEARLY else "factor"
    bound = f"enter,bind,NAME,{parameter['name']},,{kind},{name},,,"
    return bound, f"enter,{kind},,{name},YEAR,VALUE,LOW,HIGH,{parameter['unit']},"


def print_equation(code: str) -> None:
    """An equation with its parameters and a template of its rows."""
    equation = vocabulary.equations()[code]
    output = equation["output"]
    if "gas" in output:
        gives = f"{output['gas']} in Gg"
    else:
        gives = f"{output['measures']} in {output['unit']}, for other lines to take"
    print(f"{code} {equation['computes']}\n{equation['source']}\n{equation['about']}\n")
    print(f"gives {gives}: {equation['expression']}\n")
    for parameter in equation["parameters"]:
        given = f"in {vocabulary.listed(vocabulary.units_that_measure(parameter['measures']))}"
        if vocabulary.is_decay(parameter):
            given = f"by decay, of a factor in {vocabulary.HALF_LIFE_UNIT}"
        print(f"  {parameter['name']:8} {parameter['measures']}, {given}")
    rows = [sample(code, parameter) for parameter in equation["parameters"]]
    print(f"\n{HEADER}\nenter,line,CATEGORY,NAME,,{code},,,,")
    print("\n".join([bound for bound, _ in rows] + [figure for _, figure in rows if figure]))


def print_template(name: str) -> None:
    """A template with what to know of it."""
    template = TEMPLATES[name]
    print(f"{name}: {template.title}\n{template.about}\n\n{HEADER}")
    print("\n".join(template.rows))


def run(words: list[str]) -> int:
    """Prints what has all words in it, and answers the status."""
    parts = PARTS
    part = next((word for word in [*words[:1], *words[-1:]] if word in (*PARTS, "template")), "")
    if part:
        words.remove(part)
        parts = [part.removesuffix("s") + "s"]
    code = words[0].upper() if len(words) == 1 else ""
    if code in vocabulary.equations() and "equations" in parts:
        print_equation(code)
        return 0
    if parts == ["templates"] and words[:1] and words[0] in TEMPLATES:
        print_template(words[0])
        return 0
    lists = {"units": units, "categories": categories, "equations": equations, "parameters": parameters,
             "templates": templates, "defaults": defaults}
    found = {part: found_in(lists[part](), people_words.phrases(words)) for part in parts}
    if not any(found.values()):
        found = near(parts, words)
    if not any(found.values()):
        print(f"nothing has {' and '.join(words)} in it")
        return 1
    print_found(found, parts, words)
    return 0


def print_found(found: dict[str, list[Item]], parts: list[str], words: list[str]) -> None:
    """Prints what was found: of one equation or one template alone its rows."""
    printers = {"equations": print_equation, "templates": print_template}
    only = [(part, items[0][0]) for part, items in found.items() for _ in items]
    if len(only) == 1 and only[0][0] in printers:
        printers[only[0][0]](only[0][1])
        return
    for part, items in found.items():
        if items:
            print_items(part, items if len(parts) == 1 else shortened(part, items, words), len(parts) > 1)


def shortened(part: str, items: list[Item], words: list[str]) -> list[Item]:
    """The first of many default factors, and how to see all."""
    if part != "defaults" or len(items) <= MOST_DEFAULTS + 1:
        return items
    said = f"{len(items) - MOST_DEFAULTS} more: ./workbook words defaults {' '.join(words)}".rstrip()
    return items[:MOST_DEFAULTS] + [("...", said, items[MOST_DEFAULTS - 1][2])]


def print_items(part: str, items: list[Item], with_heading: bool) -> None:
    """Prints the words of a part with what is said of them, and above default factors their file."""
    if with_heading:
        print(f"{part}:")
    width, margin, file = max(len(word) for word, _, _ in items), "  " if with_heading else "", ""
    for word, said, also in items:
        if part == "defaults" and also != file:
            file = also
            print(f"{margin}{file}:")
        print(f"{margin}{word:{width}}  {said}")
