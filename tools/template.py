"""Makes a file of a spreadsheet with empty sheets of rows, whose cells have lists to choose words from."""
from __future__ import annotations

import pathlib

from tools import vocabulary
from tools.sheets import COLUMN_AT, COLUMNS, HEADERS, OF_TEMPLATES, FolderFault
from tools.spreadsheet import Grid
from tools.xlsx import Spreadsheet

# The sheets of rows in their order, and the kinds of their rows. A line and its bindings stand in one sheet,
# since the program takes them together.
SHEETS = {
    "years": ["span"], "factors": ["factor"], "activities": ["activity"], "lines": ["line", "bind"],
    "uncertainties": ["uncert"],
}
# What stands in the columns of a sheet, as a comment at their headings.
NUMBER = "a number, or a notation key (NO, NA, IE or NE)"
BOUNDS = {"low": "the low bound of the 95 percent confidence interval, or nothing",
          "high": "the high bound, or nothing"}
ABOUT = {
    "years": {"year": "the first year", "value": "the last year", "low": "the base year"},
    "factors": {"name": "a name of your own", "year": "the first year in which the factor holds",
                "value": NUMBER, **BOUNDS},
    "activities": {"name": "a name of your own", "year": "the year of the figure",
                   "value": NUMBER, **BOUNDS},
    "lines": {"subject": "of a line: its category; of a binding: its line",
              "name": "of a line: a name of your own; of a binding: a parameter of the equation",
              "value": "of a line: its equation; of a binding: its form",
              "low": "of a binding: the activity, factor, line or lines, or key that the parameter takes"},
    "uncertainties": {"name": "a line", "value": "percent of its activity data",
                      "low": "percent of its emission factor"},
}
# The lists of words that columns of a sheet have, and whether these alone may stand there: a binding has a
# line in `subject`.
CHOICES = {
    ("factors", "unit"): ("units", True), ("activities", "unit"): ("units", True),
    ("lines", "subject"): ("categories", False), ("lines", "value"): ("equations", True),
}
# The sheets of words, and what stands above the meanings there.
LISTS, MEANING = ("units", "categories", "equations"), "meaning"
LAST_ROW = 5000
WIDTHS = {"subject": 26, "name": 26, "low": 26, "note": 60}


def lists() -> dict[str, list[tuple[str, str]]]:
    """The words to choose from, each with what it means, by the names of their sheets."""
    words = vocabulary.words()
    leaves = [(code, vocabulary.categories()[code]["name"]) for code in vocabulary.leaves()]
    units = [(word, unit["measures"]) for word, unit in vocabulary.units().items()]
    forms = [(form, "form of a binding") for form in words["forms"]]
    equations = [(code, row["computes"]) for code, row in vocabulary.equations().items()]
    return dict(zip(LISTS, (units, leaves, forms + equations)))


def is_list(grid: Grid) -> bool:
    """Tells whether a sheet is one of these lists, in which nothing is to be filled in."""
    headings = [cell.text for _, cells in list(grid.rows())[:1] for cell in cells.values()]
    return headings == [grid.name, MEANING] and grid.name in LISTS


def add_rows(book: Spreadsheet, name: str, kinds: list[str]) -> None:
    """Adds an empty sheet of rows with its lists."""
    widths = {COLUMN_AT[column] + 1: width for column, width in WIDTHS.items()}
    sheet = book.add(name, HEADERS[OF_TEMPLATES], widths, ABOUT[name])
    for column, words in (("act", vocabulary.words()["acts"]), ("kind", kinds)):
        book.choose(sheet, COLUMN_AT[column] + 1, LAST_ROW, f'"{",".join(words)}"', True)
    for column in COLUMNS:
        if (name, column) in CHOICES:
            listed, is_strict = CHOICES[name, column]
            last = len(lists()[listed]) + 1
            book.choose(sheet, COLUMN_AT[column] + 1, LAST_ROW, f"{listed}!$A$2:$A${last}", is_strict)


def write(path: pathlib.Path) -> None:
    """Writes the file."""
    book = Spreadsheet(path)
    for name, kinds in SHEETS.items():
        add_rows(book, name, kinds)
    for name, items in lists().items():
        sheet = book.add(name, [name, MEANING], {1: 14, 2: 90})
        for item in items:
            sheet.append(item)
    book.save()


def run(path: pathlib.Path) -> int:
    """Writes the file, which may not be there yet, says what to do with it, and answers the status."""
    if path.exists():
        raise FolderFault(f"{path} is there already; name a new file")
    write(path)
    sheets = vocabulary.listed(SHEETS, "and")
    print(f"{path}: sheets {sheets} to fill in; ./workbook from-sheets {path} -o FOLDER reads them")
    return 0
