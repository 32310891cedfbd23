"""The uncertainty of the trend from the base year to a year, as the program's command `review` prints it."""
import argparse
import json
import pathlib
import sys
from typing import Any

from tools import tables_file
from tools.book import Book, book_of
from tools.printed import TOTAL, named_rows
from tools.program import found_program
from tools.review import Review
from tools.sheets import joined, read_folders
from tools.tables import said_of_no_year, say_lacking, submit_all, write


def run(arguments: argparse.Namespace) -> int:
    """Prints the table, or writes it, where each file is accepted, and answers the status."""
    folders, year = arguments.folders, arguments.year
    sheets, _ = read_folders(folders)
    if tables_file.is_meant(arguments.output):
        tables_file.check_place(pathlib.Path(arguments.output))
    with Review(found_program(arguments.program)) as review:
        accepted = submit_all(review, sheets, arguments.quiet)
        if say_lacking(sheets, accepted, folders, "no table is written"):
            return 1
        lines = review.trend(year)
    book = book_of(accepted)
    if lines is None:
        print(f"./workbook: {said_of_no_year(year, book)}", file=sys.stderr)
        return 1
    if arguments.json:
        print(json.dumps(as_json(book, year, lines), ensure_ascii=False, indent=1))
    elif arguments.output:
        write({(tables_file.OF_REVIEW, year): lines}, arguments)
    else:
        print("\n".join(with_names(lines)))
    return 0


def with_names(lines: list[str]) -> list[str]:
    """The lines of the table, with names beside codes."""
    header = lines[0].split(",")
    rows = [tables_file.with_names(header), *(tables_file.named_fields(header, line) for line in lines[1:])]
    return [joined(fields).decode() for fields in rows]


def as_json(book: Book, year: int, lines: list[str]) -> dict[str, Any]:
    """The table as data: the lines with the names of their categories, and the total by itself."""
    rows = [{**row, "category_name": tables_file.name_of("category", row["category"])}
            for row in named_rows(lines)]
    total = next(row for row in rows if row["code"] == TOTAL)
    return {"year": year, "base_year": int(book.rows["span",].field("low")),
            "lines": [row for row in rows if row is not total],
            "total": {column: total[column] for column in ("base", "value", "l_low", "l_high")}}
