"""What differs between two states of an inventory, and the rows that made it so.

The table of categories and gases is the program's own: its command `review` freezes the first state, is
given what leads to the second one, and prints both with their differences. All other figures are those that
it printed of each state; their differences and percentages are worked out of two of them.
"""
import argparse
import contextlib
import dataclasses
import decimal
import json
import operator
import os
import pathlib
import re
import sys
import textwrap
import typing
from collections.abc import Iterator
from typing import Any

from tools import change, vocabulary
from tools.book import KIND_TAKEN, Book, book_of
from tools.complete import Taking
from tools.faults import counted, years_said
from tools.printed import BLANK, Printed, by_size, difference, figure, named_rows, percent
from tools.program import Program, ProgramFailed, found_program
from tools.results import figure_of, in_base_unit
from tools.review import Review
from tools.sheets import FolderFault, Key, Row, Sheet, read_folders
from tools.sources import years_in
from tools.store import submissions
from tools.tables import say_lacking, submit_all
from tools.trace import said_of_category, said_of_note

# What stands between the folders of the two states, and what the words have in its place for their reader.
BETWEEN, FOR_BETWEEN = "--", "\0"
# The code of the national total, and what is printed of a figure that one of the states has not.
NATIONAL = "0"
NONE = "-"
# What files come from, and the files.
Files = tuple[list[str], list[Sheet]]
# The columns that hold what a row sets, by its kind, and the kinds with figures.
SETS = {"span": ["year", "value", "low"], "line": ["subject", "value"], "bind": ["value", "low"],
        "activity": ["value", "low", "high", "unit"], "factor": ["value", "low", "high", "unit"]}
WITH_FIGURES = ("activity", "factor")
# The version that the first state is frozen as, and the columns of its tables that are kept before it is changed.
VERSION = "REPORTED"
KEPT = {"summary": ["category", "value"], "cells": ["code", "category", "gas", "value"],
        "uncertainty": ["code", "value"]}
EQUIVALENT = "Gg of CO2 equivalent"
# What stands above the rows that are written otherwise, and give the same to every figure.
WITHOUT_EFFECT = "rows that change no figure, as by other bounds or another unit"
# So many lines and rows of a category and gas are named beside it.
MOST_NAMED = 3


@dataclasses.dataclass
class State:
    """A state of an inventory: its files, those that were accepted, its records and its tables."""
    folders: list[str]
    sheets: list[Sheet]
    accepted: list[Sheet]
    book: Book
    printed: Printed


class OfYear(typing.NamedTuple):
    """A year as it is printed: whether anything differs, the national total where it does, and the text."""
    year: int
    differs: bool
    total: dict[str, str] | None
    text: str


class Kept:
    """Tables of years, as a session printed them before its data changed. Each is one text of the columns that
    are read, since the rows of all years are many.
    """

    def __init__(self, program: Program, years: list[int]) -> None:
        self.tables = {(table, year): columns_of(program.show(table, year), columns)
                       for year in years for table, columns in KEPT.items()}

    def show(self, table: str, year: int) -> list[str] | None:
        """The lines of a table, or None where there is none."""
        return self.tables[table, year].splitlines() or None


class Changed:
    """The changed records among all that a line takes in a year of one state, over the lines that it takes. A
    record counts where what is in force has another value in the other state.
    """

    def __init__(self, book: Book, other: Book, changed: set[Key]) -> None:
        self.book, self.other, self.changed = book, other, changed
        self.names = {key[:2] for key in changed}
        self.taking = Taking(book, self.of_record)

    def of_record(self, bound: Row, year: int) -> set[Key]:
        """The changed records among a binding, its line, and what it takes."""
        keys: set[Key] = {bound.key, ("line", bound.field("subject"))}
        if bound.field("value") == "prev" and year == self.book.known_span()[0]:
            keys.add(("span",))
        kind = KIND_TAKEN.get(bound.field("value"))
        if kind:
            keys |= self.of_figure(kind, bound.field("low"), year)
        return keys & self.changed

    def of_figure(self, kind: str, name: str, year: int) -> set[Key]:
        """The record in force, where its value is not that in the other state."""
        if (kind, name) not in self.names:
            return set()
        row, other = (book.in_force(kind, name, year) for book in (self.book, self.other))
        return {row.key} if row and worth(row) != worth(other) else set()

    def of_line(self, name: str, gas: str, year: int) -> set[Key]:
        """The changed records that the equivalent of a line takes."""
        if name not in self.book.lines:
            return set()
        return self.taking.by(name, year) | self.of_figure("factor", f"GWP.{gas}", year) & self.changed

    def forget_before(self, year: int) -> None:
        """Forgets what lines take in the years before one."""
        known = self.taking.known
        self.taking.known = {at: found for at, found in known.items() if at[1] >= year}


def columns_of(lines: list[str] | None, columns: list[str]) -> str:
    """Some columns of a table as one text, which is empty where there is no table."""
    if lines is None:
        return ""
    header = lines[0].split(",")
    pick = operator.itemgetter(*map(header.index, columns))
    return "\n".join(",".join(pick(line.split(","))) for line in lines)


def sets(row: Row) -> list[str]:
    """What a row sets, its figures without idle zeros, and its bounds also where they are the value."""
    kind = row.field("kind")
    fields = [row.field(column) for column in SETS.get(kind, [])]
    if kind in WITH_FIGURES:
        value, low, high, unit = fields
        fields = [*map(plain, (value, low or value, high or value)), unit]
    return fields


def plain(text: str) -> str:
    """A number without idle zeros; another text as it is."""
    return f"{decimal.Decimal(text).normalize():f}" if re.fullmatch(r"-?[0-9]+(\.[0-9]+)?", text) else text


def worth(row: Row | None) -> Any:
    """What a row gives to figures, the same however it is written: a value in the base unit, or nothing where it
    is blank; the first year of a span; what a line or a binding is of.
    """
    if row is None:
        return None
    kind, form, target = (row.field(column) for column in ("kind", "value", "low"))
    if kind in WITH_FIGURES:
        value = in_base_unit(row)
        return None if value is None else (vocabulary.measured_by(row.field("unit")), value)
    if kind == "span":
        return row.field("year")
    if kind == "bind":
        return form, (target == "NE") if form == "key" else sorted(target.split(" "))
    return sets(row)


def changed_keys(before: Book, after: Book) -> tuple[set[Key], set[Key]]:
    """The keys of the records by which figures may differ, and of those that are written otherwise alone, as
    with other bounds or in another unit.
    """
    changed, restated = set[Key](), set[Key]()
    for key in {**before.rows, **after.rows}:
        old, new = before.rows.get(key), after.rows.get(key)
        if old is None or new is None:
            changed.add(key)
        elif sets(old) != sets(new):
            (restated if worth(old) == worth(new) else changed).add(key)
    return changed, restated


def differences(before: list[dict[str, str]], after: list[dict[str, str]],
                columns: list[str]) -> list[dict[str, str]]:
    """The rows of two states by the columns that name them, those alone whose values differ, by size."""
    old = {tuple(row[column] for column in columns): row["value"] for row in before}
    new = {tuple(row[column] for column in columns): row["value"] for row in after}
    found = []
    for key in {**old, **new}:
        was, now = old.get(key, NONE), new.get(key, NONE)
        if was != now:
            change = difference(was, now)
            found.append({**dict(zip(columns, key)), "before": was, "after": now, "difference": change,
                          "percent": percent(figure(change), figure(was))})
    return by_size(found, "difference")


def gases_with_potential(states: tuple[State, State], year: int) -> set[str]:
    """The gases whose potential is above zero in a year of a state, so that they have equivalents there."""
    found = ((gas, state.book.in_force("factor", f"GWP.{gas}", year)) for state in states
             for gas in vocabulary.gases())
    return {gas for gas, row in found if row and figure_of(row)}


def lines_of(printed: Printed, year: int, gases: set[str]) -> list[dict[str, str]]:
    """The lines that emit a gas: those of the tree by their equivalents where their gas is one of some, and
    the others by their gas.
    """
    equivalents = printed.equivalents(year)
    found = []
    for row in printed.rows("cells", year):
        if row["gas"] != "-":
            of_tree = row["code"] in equivalents and row["gas"] in gases
            found.append({"line": row["code"], "category": row["category"], "gas": row["gas"],
                          "unit": EQUIVALENT if of_tree else f"Gg of {row['gas']}",
                          "value": equivalents[row["code"]] if of_tree else row["value"]})
    return found


def of_same_tonne(before: list[dict[str, str]], after: list[dict[str, str]], graphs: tuple[Changed, Changed],
                  year: int) -> list[dict[str, str]]:
    """The lines of the tree with the same tonnes in both states that take changed records: each moved by less
    than a tonne. A category and a total are rounded after their sum, and so may differ by these alone.
    """
    old = {row["line"]: row for row in before}
    return [row for row in after if row["unit"] == EQUIVALENT and row["value"] != BLANK
            and old.get(row["line"]) == row and changed_by(row, graphs, year)]


def changed_by(line: dict[str, str], graphs: tuple[Changed, Changed], year: int) -> list[Key]:
    """The changed records that a line takes in one of the states."""
    before, after = (graph.of_line(line["line"], line["gas"], year) for graph in graphs)
    return sorted(before | after)


def rows_of(lines: list[dict[str, str]], of_less: list[dict[str, str]], states: tuple[State, State],
            graphs: tuple[Changed, Changed], year: int) -> list[dict[str, Any]]:
    """The changed rows that lines take, those of the greatest difference first, each with its lines, and with
    those that moved by less than a tonne.
    """
    found: dict[Key, tuple[list[dict[str, str]], list[dict[str, str]]]] = {}
    for at, group in enumerate((lines, of_less)):
        for line in group:
            for key in changed_by(line, graphs, year):
                found.setdefault(key, ([], []))[at].append(line)
    with_line = {key: bindings_with(key, states) for key in found if key[0] == "line"}
    for bound in set().union(*with_line.values()):
        found.pop(bound, None)
    return [{**said_of_key(key, states), "bindings": len(with_line.get(key, ())), "lines": names_of(taking),
             "lines_of_less": names_of(less), "difference_of_first": taking[0]["difference"] if taking else NONE}
            for key, (taking, less) in found.items()]


def names_of(lines: list[dict[str, str]]) -> list[str]:
    """The names of lines, each once."""
    return list(dict.fromkeys(line["line"] for line in lines))


def bindings_with(line: Key, states: tuple[State, State]) -> set[Key]:
    """The bindings of a line that one state alone has: they come and go with it."""
    before, after = (state.book.rows for state in states)
    if (line in before) == (line in after):
        return set()
    return {key for key in (before if line in before else after) if key[:2] == ("bind", *line[1:])}


def said_of_key(key: Key, states: tuple[State, State]) -> dict[str, str]:
    """A changed record: what it was and is, with both places, and the note of the row that made it so."""
    before, after = (state.book.rows.get(key) for state in states)
    made = after or states[1].book.withdrawn.get(key)
    name = " ".join(key if key[0] != "bind" else ("binding of", *key[1:]))
    return {"record": name, "before": said_of(before), "after": said_of(after),
            "place_before": before.place if before else "", "place": made.place if made else "",
            "note": made.field("note") if made else ""}


def said_of(row: Any) -> str:
    """What a row sets, a figure with its bounds and its unit."""
    if row is None:
        return "none"
    fields = [row.field(column) for column in SETS[row.field("kind")]]
    if row.field("kind") in WITH_FIGURES and fields[1]:
        fields[1:3] = [f"({fields[1]} to {fields[2]})"]
    return " ".join(filter(None, fields))


def pairs_of(recalculated: list[dict[str, str]]) -> list[dict[str, Any]]:
    """The categories and gases that differ, by size."""
    found: list[dict[str, Any]] = [{
        "category": row["category"], "gas": row["gas"], "before": row["reported"], "after": row["now"],
        "difference": signed(row["difference"]), "percent": row["percent"], "lines": [], "lines_of_less": [],
        "rows": []} for row in recalculated if row["reported"] != row["now"]]
    return by_size(found, "difference")


def explain(pairs: list[dict[str, Any]], lines: list[dict[str, str]], of_less: list[dict[str, str]],
            rows: list[dict[str, Any]]) -> None:
    """Names with each category and gas its lines, those that moved by less than a tonne, and what changed them."""
    known = {(pair["category"], pair["gas"]): pair for pair in pairs}
    of_line: dict[str, list[dict[str, Any]]] = {}
    for kind, group in (("lines", lines), ("lines_of_less", of_less)):
        for line in group:
            pair = known.get((line["category"], line["gas"]))
            if pair and line["unit"] == EQUIVALENT:
                pair[kind].append(line["line"])
                of_line.setdefault(line["line"], []).append(pair)
    for row in rows:
        taking = [pair for line in row["lines"] + row["lines_of_less"] for pair in of_line.get(line, [])]
        for pair in {id(pair): pair for pair in taking}.values():
            pair["rows"].append(row["record"])


def signed(number: str) -> str:
    """A printed number with its sign."""
    return number if number.startswith("-") else f"+{number}"


def of_year(states: tuple[State, State], graphs: tuple[Changed, Changed],
            recalculated: list[dict[str, str]], year: int) -> dict[str, Any]:
    """What differs in a year: the categories, their gases, the lines, and the rows."""
    old, new = (state.printed for state in states)
    with_potential = gases_with_potential(states, year)
    before, after = (lines_of(printed, year, with_potential) for printed in (old, new))
    lines = differences(before, after, ["line", "category", "gas", "unit"])
    categories = differences(old.rows("summary", year), new.rows("summary", year), ["category"])
    gases = pairs_of(recalculated)
    of_less = of_same_tonne(before, after, graphs, year) if categories or gases else []
    rows = rows_of(lines, of_less, states, graphs, year)
    explain(gases, lines, of_less, rows)
    return {"year": year, "categories": categories, "gases": gases, "lines": lines, "rows": rows}


def said_of_difference(row: dict[str, str]) -> str:
    """Both figures of a row, their difference and its percentage."""
    share = "" if row["percent"] == "-" else f", {row['percent']} %"
    return f"{row['before']} to {row['after']}, {row['difference']}{share}"


def text_of(found: dict[str, Any]) -> Iterator[str]:
    """What differs in a year, as lines."""
    year = found["year"]
    yield f"{year}, totals in Gg of CO2 equivalent:"
    for row in found["categories"]:
        name = "total without land" if row["category"] == "gross" else said_of_category(row["category"])
        yield f"  {name}: {said_of_difference(row)}"
    yield f"{year}, categories by gas in Gg of CO2 equivalent:"
    places = {row["record"]: row["place"] or row["place_before"] for row in found["rows"]}
    for row in found["gases"]:
        yield f"  {row['category']}, {row['gas']}: {said_of_difference(row)}"
        if row["rows"]:
            by = first_of([places[record] for record in row["rows"]])
            yield f"    {', and '.join(said_of_lines(row))}, by {by}"
    yield f"{year}, lines:"
    for row in found["lines"]:
        yield (f"  {row['line']}, {row['category']}, {row['gas']}, in {row['unit']}: "
               f"{said_of_difference(row)}")
    yield f"{year}, rows:"
    for row in found["rows"]:
        yield said_of_row(row)
        yield f"    in {', and '.join(said_of_effect(row))}"


def said_of_lines(pair: dict[str, Any]) -> Iterator[str]:
    """The lines that changed a category and gas."""
    if pair["lines"]:
        yield f"{'line' if len(pair['lines']) == 1 else 'lines'} {first_of(pair['lines'])}"
    if pair["lines_of_less"]:
        yield said_of_less(pair["lines_of_less"])


def said_of_effect(row: dict[str, Any]) -> Iterator[str]:
    """The line that a row changed most, its difference, and how many others it changed."""
    if row["lines"]:
        more = f" and {len(row['lines']) - 1} more" if len(row["lines"]) > 1 else ""
        yield f"{row['lines'][0]}{more}, {row['difference_of_first']}"
    if row["lines_of_less"]:
        yield said_of_less(row["lines_of_less"])


def said_of_less(lines: list[str]) -> str:
    """How many lines moved by less than a tonne."""
    return f"{counted(len(lines), 'line')} by less than a tonne"


def said_of_row(row: dict[str, Any]) -> str:
    """A record that differs with both of its states, their places, and its note."""
    was = f"before {row['place_before']}" if row["place_before"] else ""
    where = ", ".join(filter(None, (row["place"], was)))
    bound = f", with its {counted(row['bindings'], 'binding')}" if row.get("bindings") else ""
    return f"  {row['record']}{bound}: {row['before']} to {row['after']}; {where}{said_of_note(row['note'])}"


def first_of(names: list[str]) -> str:
    """The first of some names, and how many more there are."""
    more = len(names) - MOST_NAMED
    return ", ".join(names[:MOST_NAMED]) + (f" and {more} more" if more > 0 else "")


def of_store(path: str, words: list[str]) -> tuple[Files, Files, list[int]]:
    """What a store had accepted as of two submissions, and the years, out of the words of the command."""
    kept = submissions(pathlib.Path(path))
    numbers = [int(word) for word in words[:2] if re.fullmatch("[0-9]{1,9}", word)]
    years = [years_in(word) for word in words[2:]]
    if len(numbers) < 2 or not all(years) or max(numbers) > len(kept):
        due = f"the numbers of two submissions of {path}, of which the last is {len(kept)}, and years"
        raise FolderFault(f"with --store the words are {due}")
    before, after = numbers
    return ([path], kept[:before]), ([path], kept[:after]), sorted({year for found in years for year in found})


def divided(words: list[str]) -> tuple[Files, Files, list[int]]:
    """The files before, the files after, and the years, out of the words of the command."""
    if words.count(FOR_BETWEEN) != 1:
        raise FolderFault(f"{BETWEEN} has to stand once, between the folders of the two states")
    at = words.index(FOR_BETWEEN)
    before, after, years = words[:at], words[at + 1:], list[int]()
    while len(after) > 1 and years_in(after[-1]):
        word = after.pop()
        if os.path.isdir(word):
            raise FolderFault(f"{word} is a year and a folder; write ./{word} for the folder, or {word}-{word} "
                              "for the year")
        years += years_in(word)
    if not before or not after:
        raise FolderFault(f"a folder has to stand on both sides of {BETWEEN}")
    return (before, named_in_full(before)), (after, named_in_full(after)), sorted(set(years))


def named_in_full(folders: list[str]) -> list[Sheet]:
    """The files of folders, each named with its folder."""
    sheets: list[Sheet] = read_folders(folders)[0]
    if len(folders) == 1:
        for sheet in sheets:
            sheet.name = str(pathlib.Path(folders[0]) / sheet.name)
    return sheets


def first_state(review: Review, files: Files, asked: list[int], is_quiet: bool) -> State:
    """The first state, with the tables of its years, or of those that were asked for; it is frozen."""
    folders, sheets = files
    accepted = submit_all(review, sheets, is_quiet)
    book = book_of(accepted)
    years = range(book.span[0], book.span[1] + 1) if book.span else range(0)
    kept = Kept(review, [year for year in asked or years if year in years])
    review.freeze(VERSION)
    return State(folders, sheets, accepted, book, Printed(kept))


def second_state(review: Review, first: State, files: Files, is_quiet: bool) -> State | None:
    """The second state where it has the files of the first one in front, and the others are submitted after
    them; else None.
    """
    folders, sheets = files
    shared = len(first.sheets)
    if [sheet.data for sheet in sheets[:shared]] != [sheet.data for sheet in first.sheets]:
        return None
    taken = {id(sheet) for sheet in first.accepted}
    accepted = [sheet for sheet, old in zip(sheets, first.sheets) if id(old) in taken]
    accepted += submit_all(review, sheets[shared:], is_quiet)
    return State(folders, sheets, accepted, book_of(accepted), Printed(review))


def other_state(review: Review, first: State, files: Files, program: Program, is_quiet: bool) -> State:
    """The second state where the program judges its files by themselves. What differs between the records of
    both is submitted after the files of the first one.
    """
    folders, sheets = files
    accepted = submit_all(program, sheets, is_quiet)
    book = book_of(accepted)
    for reply in review.submit_all(change.bodies(first.book, book)):
        if not reply.accepted:
            raise ProgramFailed(f"a review cannot lead from the first state to the second: {reply.text}")
    return State(folders, sheets, accepted, book, Printed(program))


def recalculated(review: Review, after: Printed, year: int) -> list[dict[str, str]]:
    """What the frozen state gave in a year beside what holds now, which is what the second state has."""
    rows = named_rows(review.recalculation(VERSION, year))
    now = {(row["category"], row["gas"]): row["now"] for row in rows}
    due = {(row["category"], row["gas"]): row["value"] for row in after.rows("checks", year)}
    if any(now[pair] != due.get(pair, "0.000") for pair in now) or due.keys() - now.keys():
        raise ProgramFailed(f"what was made of the first state differs from the second one in {year}")
    return rows


def years_of(states: tuple[State, State], asked: list[int]) -> list[int]:
    """The years to compare: those that were asked for, or else all that both states have."""
    both = range(0)
    spans = [state.book.span for state in states if state.book.span]
    if len(spans) == len(states):
        both = range(max(first for first, _ in spans), min(last for _, last in spans) + 1)
    lacking = [year for year in asked if year not in both]
    if lacking or not both:
        said = years_said(lacking) if lacking else "year"
        had = f"both have {both[0]} to {both[-1]}" if both else "they have no year in common"
        raise FolderFault(f"there is no {said} in both states: {had}")
    return asked or list(both)


def run(arguments: argparse.Namespace) -> int:
    """Prints what differs, and answers the status: 1 where a file is refused."""
    words, store, is_quiet = arguments.words, arguments.store, arguments.quiet
    before, after, asked = of_store(store, words) if store else divided(words)
    path = found_program(arguments.program)
    with Review(path) as review, contextlib.ExitStack() as others:
        first = first_state(review, before, asked, is_quiet)
        second = second_state(review, first, after, is_quiet)
        if second is None:
            program = others.enter_context(Program(path))
            second = other_state(review, first, after, program, is_quiet)
        states = (first, second)
        lacking = [say_lacking(state.sheets, state.accepted, state.folders, "the figures are without {}")
                   for state in states]
        years = years_of(states, asked)
        changed, restated = changed_keys(first.book, second.book)
        graphs = (Changed(first.book, second.book, changed), Changed(second.book, first.book, changed))
        found = [told(states, graphs, recalculated(review, second.printed, year), year, arguments.json)
                 for year in years]
    same = [said_of_key(key, states) for key in sorted(restated) if is_in_force(key, states, years)]
    if arguments.json:
        print_json(found, same)
    else:
        if not asked:
            sys.stdout.writelines(f"{line}\n" for line in said_of_spans(states))
        print_all(found)
        if same:
            print(f"{WITHOUT_EFFECT}:", *map(said_of_row, same), sep="\n")
    return 1 if any(lacking) else 0


def told(states: tuple[State, State], graphs: tuple[Changed, Changed], recalculated: list[dict[str, str]],
         year: int, as_json: bool) -> OfYear:
    """A year as it is printed, of which nothing else is kept but what the next year takes of it."""
    found = of_year(states, graphs, recalculated, year)
    for state, graph in zip(states, graphs):
        state.printed.forget()
        graph.forget_before(year - 1)
    total = next((row for row in found["categories"] if row["category"] == NATIONAL), None)
    text = json_of(found, "  ") if as_json else "".join(f"{line}\n" for line in text_of(found))
    return OfYear(year, bool(found["categories"] or found["gases"] or found["lines"]), total, text)


def json_of(found: Any, margin: str) -> str:
    """What was found as JSON, with a margin."""
    return textwrap.indent(json.dumps(found, ensure_ascii=False, indent=1), margin)


def print_json(found: list[OfYear], same: list[dict[str, str]]) -> None:
    """Prints all years, and the rows that change no figure, as JSON."""
    years = ",\n".join(of.text for of in found)
    print(f'{{\n "years": [\n{years}\n ],\n "rows_without_effect":\n{json_of(same, " ")}\n}}')


def is_in_force(key: Key, states: tuple[State, State], years: list[int]) -> bool:
    """Tells whether a record is in force in one of some years; any but an activity or a factor is in all."""
    if key[0] not in WITH_FIGURES:
        return True
    rows = (state.book.in_force(key[0], key[1], year) for state in states for year in years)
    return any(row is not None and row.key == key for row in rows)


def said_of_spans(states: tuple[State, State]) -> Iterator[str]:
    """The years that one state alone has, and whether both have one base year."""
    spans = [state.book.span or (0, -1) for state in states]
    years = [set(range(first, last + 1)) for first, last in spans]
    for own, other, which in ((years[0], years[1], "first"), (years[1], years[0], "second")):
        if own - other:
            yield f"not compared, since the {which} state alone has them: {years_said(own - other)}"
    bases = [state.book.rows["span",].field("low") for state in states if state.book.span]
    if len(set(bases)) > 1:
        yield f"the base year is {bases[0]} in the first state and {bases[1]} in the second"


def print_all(found: list[OfYear]) -> None:
    """Prints the years in which nothing differs, the national total of the others, and what differs."""
    same = [of.year for of in found if not of.differs]
    if same:
        print(f"nothing differs in {years_said(same)}")
    totals = {of.year: of.total for of in found if of.total}
    if totals:
        print("national total in Gg of CO2 equivalent:")
    for year, row in totals.items():
        print(f"  {year}: {said_of_difference(row)}")
    sys.stdout.writelines(of.text for of in found if of.differs)


def words_of(words: list[str]) -> list[str]:
    """The words of a command line for their reader, which drops the one that stands between the folders."""
    if words[:1] != ["compare"]:
        return words
    return [FOR_BETWEEN if word == BETWEEN else word for word in words]


def add_words(made: argparse.ArgumentParser) -> None:
    """Adds the words of the command."""
    what = f"the folders before, {BETWEEN}, the folders after, and the years; without them all years"
    options = "[--json] [--quiet] [--program PATH]"
    made.usage = (f"./workbook compare {options} OLD.. {BETWEEN} NEW.. [YEAR..]\n"
                  f"       ./workbook compare {options} --store FILE OLD NEW [YEAR..]")
    made.add_argument("words", nargs="+", metavar="WORD", help=what)
    store = "a store in place of folders; the words are then the numbers of two submissions, and the years"
    made.add_argument("--store", metavar="FILE", help=store)
    made.add_argument("--json", action="store_true", help="print JSON")
