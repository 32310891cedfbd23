"""Begins a workbook: the years, the potentials, the lines of chosen categories at tier 1 with their bindings,
and an empty row for each figure that they need, and if asked for each uncertainty.

The lines stand in tier-1.csv. There TERM is what a category is a sum over, as a fuel or a species, and
CATEGORY the code in capitals. A line without TERM in its name is one for all terms; a sum in it is over the
lines of all of them.
"""
from __future__ import annotations

import argparse
import csv
import dataclasses
import functools
import os
import pathlib
import re
import shlex
import sys
import tempfile

from tools import fuels, people_words, vocabulary
from tools.faults import counted
from tools.fuels import DEFAULTS
from tools.sheets import HEADERS, OF_TEMPLATES, FolderFault, joined

TIER_1 = vocabulary.PATH.parent / "tier-1.csv"
POTENTIALS = "potentials-fifth-assessment-report.csv"
NAME = re.compile(r"[A-Z][A-Z0-9._-]*")
LINE_END = b"\n"
FILES = ["1-years-and-potentials.csv", "2-factors.csv", "3-activities.csv", "4-lines.csv", "5-uncertainties.csv"]
# Those of them in which nothing is to be filled in.
WHOLE = (FILES[0], FILES[3])
# The volumes whose factors have a region or a climate at the end of their names.
WITH_REGIONS = ("volume-4", "volume-5")
CATEGORIES = "./workbook words categories lists them"
NO_TIER_1 = "no equation of tier 1 is known, and no line is made"
UNCERTAINTY = "value: percent of the activity data; low: percent of the emission factor"


@dataclasses.dataclass
class Choice:
    """What is chosen of a leaf category: its terms, and the notation key of all its lines if it has one."""
    terms: list[str]
    key: str


@dataclasses.dataclass(frozen=True)
class Figure:
    """A record that a line needs: its kind and name, its unit, and what it is."""
    kind: str
    name: str
    unit: str
    what: str


@functools.cache
def tier_1() -> dict[str, list[dict[str, str]]]:
    """The rows of the table by the leaf categories that they are of."""
    found: dict[str, list[dict[str, str]]] = {}
    with open(TIER_1, encoding="utf-8", newline="") as file:
        for row in csv.DictReader(file):
            for code in row["categories"].split():
                for leaf in vocabulary.leaves_under(code):
                    found.setdefault(leaf, []).append(row)
    return found


@functools.cache
def default_files() -> dict[str, str]:
    """The file of defaults/ that has a factor, by its name."""
    return {row["name"]: path.name for path in sorted(DEFAULTS.glob("volume-*.csv"))
            for row in csv.DictReader(path.read_text(encoding="utf-8").splitlines())}


def chosen(words: list[str]) -> dict[str, Choice]:
    """The leaf categories of words as 1A1a:LIGNITE,PEAT, 2B3=NO or 3. All that is wrong with them is told."""
    found: dict[str, Choice] = {}
    faults, without = [], []
    for word in words:
        try:
            without += choose(word, found)
        except FolderFault as fault:
            faults.append(str(fault))
    for leaf in dict.fromkeys(without):
        print(f"{leaf} {vocabulary.categories()[leaf]['name']}: {NO_TIER_1}", file=sys.stderr)
    if without:
        print("./workbook words templates shows rows to write of such categories", file=sys.stderr)
    if faults:
        raise FolderFault("\n./workbook: ".join(faults))
    return found


def choose(word: str, found: dict[str, Choice]) -> list[str]:
    """Adds what a word chooses, and answers its leaf categories without a line of tier 1."""
    text, equals, key = word.partition("=")
    text, _, terms = text.partition(":")
    code = vocabulary.same_code(text)
    if code is None:
        raise FolderFault(said_of_no_category(text))
    if equals and key not in vocabulary.words()["keys"]:
        raise FolderFault(f'"{key}" is no notation key: {vocabulary.listed(vocabulary.words()["keys"])}')
    leaves = vocabulary.leaves_under(code)
    for leaf in filter(tier_1().__contains__, leaves):
        choice = found.setdefault(leaf, Choice([], key))
        choice.key = key
        choice.terms = list(dict.fromkeys(choice.terms + terms_of(leaf, terms, code == leaf)))
    return [leaf for leaf in leaves if leaf not in tier_1()]


def said_of_no_category(text: str) -> str:
    """That there is no category of a code, and what to write in place of one that divides a leaf, or what to
    enter of fluorinated gases.
    """
    if "other-gases" in (people_words.of(vocabulary.plain(text)) or []):
        return f"no equation emits the gases of {text}; ./workbook words templates other-gases shows what to do"
    undivided = next((leaf for leaf in vocabulary.leaves() if vocabulary.divides(text, leaf)), None)
    instead = f"this tree has {undivided} undivided; write {undivided}" if undivided else CATEGORIES
    return f"there is no category {text}; {instead}"


def terms_of(leaf: str, words: str, is_alone: bool) -> list[str]:
    """The terms that words name, or the one of the table; nothing if a category is no sum over terms."""
    known = [row for row in tier_1()[leaf] if row["form"] == "term"]
    terms = words.upper().split(",") if words else []
    wrong = next((term for term in terms if not NAME.fullmatch(term)), None)
    if wrong is not None:
        better = re.sub(r"[^A-Z0-9]+", ".", wrong).strip(".")
        write = f"; write {better}" if NAME.fullmatch(better) else ""
        raise FolderFault(f'"{wrong}" is no name: a letter, then letters, digits, ".", "_" and "-"{write}')
    if not known and terms and is_alone:
        raise FolderFault(f"{leaf} has one set of lines; write it without a colon")
    return (terms or [row["target"] for row in known]) if known else []


def rows_of(leaf: str, choice: Choice) -> list[dict[str, str]]:
    """The bindings of the lines of a category: those of each term, then those that all terms share. With a
    notation key there are those alone that emit a gas, all of whose parameters are the key.
    """
    rows = [row for row in tier_1()[leaf] if row["form"] != "term"]
    if choice.key:
        rows = [{**row, "form": "key", "target": choice.key} for row in rows if vocabulary.gas_of(row["equation"])]
    of_terms = [row for row in rows if "TERM" in row["line"]]
    found = [with_names(row, leaf, term, [term]) for term in choice.terms for row in of_terms]
    return found + [with_names(row, leaf, "", choice.terms) for row in rows if row not in of_terms]


def with_names(row: dict[str, str], leaf: str, term: str, summed: list[str]) -> dict[str, str]:
    """A binding with the names of its category and term, and a sum over terms."""
    targets = [placed(row["target"], leaf, other) for other in summed or [term]]
    target = " ".join(dict.fromkeys(targets))
    return {**row, "line": placed(row["line"], leaf, term), "target": target, "category": leaf}


def placed(text: str, leaf: str, term: str) -> str:
    """A name of the table with the category and the term in it."""
    return text.replace("CATEGORY", leaf.upper()).replace("TERM", term)


def figure_of(row: dict[str, str]) -> Figure | None:
    """The record that a binding takes, or None if it takes a line."""
    if row["form"] not in ("activity", "factor", "decay"):
        return None
    parameter = vocabulary.parameters_of(row["equation"])[row["parameter"]]
    kind = "activity" if row["form"] == "activity" else "factor"
    return Figure(kind, row["target"], parameter["unit"] or vocabulary.HALF_LIFE_UNIT, row["what"])


def lines_with_bindings(rows: list[dict[str, str]]) -> list[list[str]]:
    """The rows of the lines, each with its bindings after it."""
    made, entered = [], set()
    for row in rows:
        if row["line"] not in entered:
            made.append(["enter", "line", row["category"], row["line"], "", row["equation"], "", "", "", ""])
            entered.add(row["line"])
        bound = ["enter", "bind", row["line"], row["parameter"], "", row["form"], row["target"], "", "", ""]
        made.append(bound)
    return made


def figures(rows: list[dict[str, str]]) -> list[Figure]:
    """The records that the lines take, each once."""
    found: dict[tuple[str, str], Figure] = {}
    for figure in filter(None, map(figure_of, rows)):
        found.setdefault((figure.kind, figure.name), figure)
    return list(found.values())


def empty_row(figure: Figure, year: int) -> list[str]:
    """The row of a figure, without the figure. Its note says what it is, and where a default stands."""
    default = said_of_default(figure.name) if figure.kind == "factor" else ""
    return ["enter", figure.kind, "", figure.name, str(year), "", "", "", figure.unit, figure.what + default]


def said_of_default(name: str) -> str:
    """Where defaults/ has a factor of a name, or those of this name for each region or climate, if any."""
    files = default_files()
    if name in files:
        return f"; a default: defaults/{files[name]}"
    longer = [other for other in files
              if other.startswith(f"{name}.") and files[other].startswith(WITH_REGIONS)]
    return f"; defaults {name}.*: defaults/{files[longer[0]]}" if longer else ""


def tell_without_default(word: str) -> None:
    """Tells the terms of a word that defaults/ has nothing of, where it has others of the category."""
    text, _, terms = word.partition("=")[0].partition(":")
    leaf = vocabulary.same_code(text)
    targets = [row["target"] for row in tier_1().get(leaf or "", []) if row["form"] in ("factor", "decay")]
    begins = [placed(target, leaf or "", "") for target in targets if target.endswith(".TERM")]
    known = list(dict.fromkeys(name.removeprefix(begin) for name in default_files()
                               for begin in begins if name.startswith(begin)))
    unknown = []
    for term in filter(None, terms.upper().split(",")):
        if known and not any(said_of_default(begin + term) for begin in begins):
            near = [fuel for part in fuels.words_of(term) for fuel in fuels.WORDS[part] if fuel in known]
            near = near or vocabulary.nearest(term, known, 3)
            if near:
                print(f"{leaf}: defaults/ has nothing of {term}; near it: {', '.join(near)}", file=sys.stderr)
            else:
                unknown.append(term)
    if unknown:
        print(f"{leaf}: defaults/ has nothing of {vocabulary.listed(unknown, 'and')}; "
              "./workbook words defaults lists all", file=sys.stderr)


def empty_uncertainties(rows: list[dict[str, str]]) -> list[list[str]]:
    """A row of uncertainties for each line in the tree that emits a gas, but those that are a notation key."""
    lines = dict.fromkeys(row["line"] for row in rows if vocabulary.gas_of(row["equation"])
                          and row["form"] != "key" and row["category"] not in vocabulary.MEMOS)
    return [["enter", "uncert", "", line, "", "", "", "", "", UNCERTAINTY] for line in lines]


def check_names(rows: list[dict[str, str]], needed: list[Figure]) -> None:
    """Refuses names that are too long, and those that two lines or two figures would have."""
    bound = [(row["line"], row["parameter"]) for row in rows]
    units = {(figure.kind, figure.name): figure.unit for figure in needed}
    double = [line for line, parameter in bound if bound.count((line, parameter)) > 1]
    double += [figure.name for figure in filter(None, map(figure_of, rows))
               if units[figure.kind, figure.name] != figure.unit]
    if double:
        leaves = dict.fromkeys(row["category"] for row in rows if double[0] in (row["line"], row["target"]))
        raise FolderFault(f"the name {double[0]} would mean two things at {vocabulary.listed(list(leaves), 'and')}; "
                          "write other names after the colon")
    most = int(vocabulary.limit("name"))
    names = [row["line"] for row in rows] + [figure.name for figure in needed]
    long = max(names, key=len)
    if len(long) > most:
        raise FolderFault(f"the name {long} would have {len(long)} letters, and at most {most} are taken; "
                          "write a shorter one after the colon")


def years_of(first: int, last: int) -> range:
    """The years of the span, if the program takes it."""
    earliest, latest = int(vocabulary.limit("first_year")), int(vocabulary.limit("last_year"))
    longest = int(vocabulary.limit("span"))
    if not earliest <= first <= last <= latest or last - first > longest:
        raise FolderFault(f"{first} to {last} is no span of years; it lies in {earliest} to {latest}, "
                          f"and ends at most {longest} years after its first year")
    return range(first, last + 1)


def made_files(years: range, rows: list[dict[str, str]], has_uncertainties: bool) -> dict[str, bytes]:
    """The files of the folder by their names, with rows for uncertainties or without."""
    needed = figures(rows)
    check_names(rows, needed)
    first = years[0]
    span = ["enter", "span", "", "", str(first), str(years[-1]), str(first), "", "", "years of the inventory"]
    with open(DEFAULTS / POTENTIALS, encoding="utf-8", newline="") as file:
        potentials = list(csv.reader(file))[1:]
    factors = [empty_row(figure, first) for figure in needed if figure.kind == "factor"]
    activities = [empty_row(figure, year) for figure in needed if figure.kind == "activity" for year in years]
    uncertainties = empty_uncertainties(rows) if has_uncertainties else []
    parts = [[span, *potentials], factors, activities, lines_with_bindings(rows), uncertainties]
    files = ((name, part) for name, part in zip(FILES, parts) if part)
    return {name: b"".join(joined(row) + LINE_END for row in [HEADERS[OF_TEMPLATES], *part])
            for name, part in files}


def write_folder(folder: pathlib.Path, files: dict[str, bytes]) -> None:
    """Writes the files of a folder that is not there yet, or is empty, all of them or none."""
    if folder.exists() and (not folder.is_dir() or any(folder.iterdir())):
        raise FolderFault(f"{folder} is there already; name a folder that is new or empty")
    folder.parent.mkdir(parents=True, exist_ok=True)
    with tempfile.TemporaryDirectory(dir=folder.parent) as room:
        made = pathlib.Path(room) / "folder"
        made.mkdir()
        for name, data in files.items():
            (made / name).write_bytes(data)
        os.rename(made, folder)


def run(arguments: argparse.Namespace) -> int:
    """Writes the folder, says what it holds, and answers the status."""
    years = years_of(arguments.first, arguments.last)
    leaves = chosen(arguments.categories)
    rows = [row for leaf in vocabulary.leaves() if leaf in leaves for row in rows_of(leaf, leaves[leaf])]
    if not rows:
        raise FolderFault("no line is made, and no folder")
    files = made_files(years, rows, arguments.uncertainties)
    folder = pathlib.Path(arguments.folder)
    write_folder(folder, files)
    for word in arguments.categories:
        tell_without_default(word)
    for name, data in files.items():
        print(f"{folder / name}: {counted(data.count(LINE_END) - 1, 'row')}")
    to_fill_in = vocabulary.listed([name for name in FILES if name in files and name not in WHOLE], "and")
    if to_fill_in:
        print(f"Fill in {to_fill_in}; ./workbook check {shlex.quote(str(folder))} tells what is missing")
    return 0
