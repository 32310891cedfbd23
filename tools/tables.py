"""Compiles a workbook's files and writes the tables of years."""
import argparse
import pathlib
import shlex
import sys

from tools import headers, tables_file, vocabulary
from tools.book import Book, book_of
from tools.faults import counted, years_said
from tools.program import Program, Reply
from tools.progress import Progress
from tools.service import Service
from tools.sheets import FolderFault, Sheet
from tools.sources import words_of
from tools.vocabulary import listed
from tools.whole_files import check_place, write_whole


def said_of(sheet: Sheet, reply: Reply) -> str:
    """The reply to a file with its name, and its rows or the line that the reply names."""
    if reply.accepted:
        return f"{sheet.name}: accepted, {counted(len(sheet.rows) - 1, 'row')}"
    place = ""
    if reply.row is not None and reply.row < len(sheet.rows):
        place = f", which is line {sheet.rows[reply.row].line}"
    return f"{sheet.name}: {reply.text}{place}"


def submit_all(program: Program, sheets: list[Sheet], is_quiet: bool = False) -> list[Sheet]:
    """Submits the files and says each reply on standard error, but if it is quiet, refusals alone. Gives
    those that were accepted.
    """
    accepted, progress = [], Progress(sheets, is_quiet)
    for sheet in sheets:
        progress.before(sheet)
        reply = program.submit(sheet.data)
        progress.clear()
        if not (is_quiet and reply.accepted):
            print(said_of(sheet, reply), file=sys.stderr)
        if reply.accepted:
            accepted.append(sheet)
    return accepted


def say_lacking(sheets: list[Sheet], accepted: list[Sheet], words: list[str], so: str) -> bool:
    """Says on standard error which quotes take in further rows, how many files are refused, what comes of it,
    and where the causes are told, with the words that name the files. Answers whether anything lacks.
    """
    faults = [fault for sheet in sheets for fault in headers.close_quotes(sheet)[0]]
    refused = len(sheets) - len(accepted)
    for fault in faults:
        print(fault, file=sys.stderr)
    if refused:
        what = f"{refused} of {counted(len(sheets), 'file')} {'is' if refused == 1 else 'are'} refused"
        so = so.format("it" if refused == 1 else "them")
    elif faults:
        what = f"{counted(len(faults), 'quote')} {'is' if len(faults) == 1 else 'are'} open"
        so = so.format("the rows in it" if len(faults) == 1 else "the rows in them")
    if faults or refused:
        tells = f"./workbook check {shlex.join(words)} tells why"
        print(f"./workbook: {what}, and {so}; {tells}", file=sys.stderr)
    return bool(faults or refused)


def run(program: Program, sheets: list[Sheet], arguments: argparse.Namespace) -> int:
    """Writes the tables of the years, where each file is accepted and no quote is open, and answers the
    status.
    """
    if tables_file.is_meant(arguments.output):
        check_place(pathlib.Path(arguments.output))
    accepted = submit_all(program, sheets, arguments.quiet)
    so = "the tables are without {}" if arguments.partial else "no table is written"
    lacking = say_lacking(sheets, accepted, words_of(arguments), so)
    if lacking and not arguments.partial:
        return 1
    return 0 if show_all(program, accepted, arguments) and not lacking else 1


def run_of_service(service: Service, arguments: argparse.Namespace) -> int:
    """Writes the tables of the years that a service has, and answers the status."""
    return 0 if show_all(service, [], arguments) else 1


def show_all(program: Program | Service, accepted: list[Sheet], arguments: argparse.Namespace) -> bool:
    """Writes the tables of the years where all of them are there, and tells whether they are."""
    names = arguments.table or vocabulary.tables()
    shown = read_tables(program, names, arguments.years, arguments.quiet)
    missing = [key for key, lines in shown.items() if lines is None]
    if missing:
        names, years = sorted({name for name, _ in missing}), {year for _, year in missing}
        accepted = [program.sheet()] if isinstance(program, Service) else accepted
        print(f"./workbook: {said_of_missing(names, years_said(years), accepted)}", file=sys.stderr)
        return False
    write({key: lines for key, lines in shown.items() if lines is not None}, arguments)
    return True


def read_tables(program: Program | Service, names: list[str], years: list[int],
                is_quiet: bool) -> dict[tuple[str, int], list[str] | None]:
    """The lines of the tables of these names and years, and None of those that are not there."""
    shown, progress = {}, Progress([], is_quiet)
    for year in years:
        progress.show(f"tables of {year}")
        shown.update({(name, year): program.show(name, year) for name in names})
    progress.clear()
    return shown


def said_of_missing(names: list[str], year: object, accepted: list[Sheet]) -> str:
    """Why the program has none of some tables of a year."""
    known = vocabulary.tables()
    unknown = [name for name in names if name not in known]
    if unknown:
        return f"there is no table {listed(unknown)}; the tables are {listed(known, 'and')}"
    return said_of_no_year(year, book_of(accepted))


def said_of_no_year(year: object, book: Book) -> str:
    """Why there is no table of a year."""
    why = f"the span is {book.span[0]} to {book.span[1]}" if book.span else "no span is in force"
    return f"there is no table of {year}: {why}"


def write(shown: dict[tuple[str, int], list[str]], arguments: argparse.Namespace) -> None:
    """Writes each table to its file, or to standard output where there is no folder to write to."""
    if arguments.output is None:
        texts = ["\n".join(lines) for lines in shown.values()]
        if len(arguments.years) > 1:
            texts = [f"{name} {year}\n{text}" for (name, year), text in zip(shown, texts)]
        print("\n\n".join(texts))
        return
    if tables_file.is_meant(arguments.output):
        tables_file.write(pathlib.Path(arguments.output), shown)
        return
    folder = pathlib.Path(arguments.output)
    if folder.exists() and not folder.is_dir():
        raise FolderFault(f"{folder} is no folder")
    folder.mkdir(parents=True, exist_ok=True)
    for (name, year), lines in shown.items():
        path = folder / f"{name}-{year}.csv"
        write_whole(path, ("\n".join(lines) + "\n").encode())
        print(f"{path}: {counted(len(lines) - 1, 'row')}", file=sys.stderr)
