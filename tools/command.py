"""The command line of `./workbook`."""
import argparse
import io
import os
import pathlib
import re
import sys
import traceback
import typing
from collections.abc import Callable, Iterable

from tools import as_json, check, compare, complete, completion, from_sheets, gathered, import_sheet
from tools import mending, missing, new_folder, recognised, report, row_templates, send, service_notices
from tools import splice, tables, template, trace, trend, vocabulary, wordlist
from tools.faults import in_order
from tools.progress import Progress
from tools.program import Program, ProgramFailed, found_program
from tools.service import Service
from tools.sheets import FolderFault, Sheet, read_folders
from tools.sources import FOLDER, add_sources, service_of, sheets_of, years_in
from tools.given_away import warnings_of
from tools.notices import warn_left

STATUSES = "Statuses: 0 nothing is wrong, 1 there are faults or gaps, 2 the command could not be carried out."
STATES = (
    "E has a value; NO, IE and NA are a zero by that key; NE is blank by that key; "
    "! is blank, since a record is missing."
)
QUIET = "say nothing of progress, nor of files that are accepted"
PROGRAM = "the built program; else GHG_PROGRAM of the environment, else ./ghg, which builds it"

# What commands are added to; what carries one out and answers the status: on its words alone, on a program
# and files, or on a service.
Commands: typing.TypeAlias = "argparse._SubParsersAction[CommandParser]"
Function = Callable[[argparse.Namespace], int]
OnProgram = Callable[[Program, list[Sheet], argparse.Namespace], int]
OnService = Callable[[Service, argparse.Namespace], int]


class CommandParser(argparse.ArgumentParser):
    """The reader of the words of a command, which takes options between its other words too."""

    is_reading = False

    def parse_known_args(self, args: typing.Any = None, namespace: typing.Any = None) -> typing.Any:
        """Reads the words. The reader of words with options between them calls this in turn."""
        if self.is_reading:
            return super().parse_known_args(args, namespace)
        self.is_reading = True
        try:
            return self.parse_known_intermixed_args(args, namespace)
        finally:
            self.is_reading = False


def parser() -> argparse.ArgumentParser:
    """The reader of the words after `./workbook`."""
    top = argparse.ArgumentParser(
        prog="./workbook",
        description="Everyday tools around the proved program, which alone judges what is a fault. "
                    "Begin with new; docs/A-YEAR.md goes through a year.",
        epilog=STATUSES,
    )
    commands = top.add_subparsers(dest="command", required=True, metavar="COMMAND",
                                  parser_class=CommandParser)
    for add in (add_check, add_tables, add_complete, add_trace, add_compare, add_trend, add_report,
                add_words, add_import, add_splice, add_send, add_new, add_from_sheets, add_completion):
        add(commands)
    return top


def command(commands: Commands, name: str, what: str, example: str,
            function: Function) -> argparse.ArgumentParser:
    """A command by its name, with what it does, an example, and the function that carries it out."""
    said = f"{what[0].upper()}{what[1:]}."
    shown = f"Example: ./workbook {name} {example}"
    made = commands.add_parser(name, help=what, description=said, epilog=shown)
    made.set_defaults(function=function)
    return made


def over_folders(commands: Commands, name: str, what: str, example: str,
                 function: Function) -> argparse.ArgumentParser:
    """A command over folders of CSV files, which the program judges."""
    made = command(commands, name, what, example, function)
    made.add_argument("folders", nargs="+", metavar="FOLDER", help=FOLDER)
    made.add_argument("--program", metavar="PATH", help=PROGRAM)
    made.add_argument("--quiet", action="store_true", help=QUIET)
    return made


def over_sources(commands: Commands, name: str, what: str, example: str,
                 function: Function) -> argparse.ArgumentParser:
    """A command over folders, a store or a service."""
    made = command(commands, name, what, example, function)
    add_sources(made)
    made.add_argument("--program", metavar="PATH", help=PROGRAM)
    made.add_argument("--quiet", action="store_true", help=QUIET)
    return made


class ListRecognised(argparse.Action):
    """Prints what `check` tells and warns of, and ends."""

    def __call__(self, parser: argparse.ArgumentParser, *_: object) -> None:
        for title, table in (("Faults", recognised.TOLD), ("Warnings", recognised.WARNED)):
            for of, each in table.items():
                print(f"{title}, {of}:", *(f"  {one.told}" for one in each), sep="\n")
        parser.exit()


def add_check(commands: Commands) -> None:
    """Adds the command `check`."""
    what = "find every fault of every file in one run, and tell its cause"
    made = over_sources(commands, "check", what, "examples/power-plants", run_check)
    made.add_argument("--no-warnings", action="store_true", help="print faults alone")
    made.add_argument("--json", action="store_true", help="print JSON")
    made.add_argument("--all", action="store_true", help="print each warning, also where many have one cause")
    out = "write a copy of the folder with the cures that leave no choice to this new folder, and say which"
    made.add_argument("--mend", metavar="OUT", help=out)
    made.add_argument("--list", action=ListRecognised, nargs=0, help="print what faults and warnings there are")


def add_tables(commands: Commands) -> None:
    """Adds the command `tables`."""
    what = "compile the files and write the tables of years as CSV files"
    example = "examples/fuel-combustion 2010-2020 -o out"
    made = over_sources(commands, "tables", what, example, run_tables)
    year = "a year of the tables, or the first and the last one, as 2000-2011; of series, the last one"
    made.add_argument("years", nargs="+", type=read_years, metavar="YEAR", help=year)
    where = "the folder to write the files to, or one file .xlsx; without it the tables are printed"
    made.add_argument("-o", "--output", metavar="OUT", help=where)
    one = f"one table only, of {', '.join(vocabulary.tables())}; may be given again"
    table = made.add_argument("--table", action="append", metavar="TABLE", help=one)
    completion.complete(table, vocabulary.tables())
    made.add_argument("--partial", action="store_true", help="write the tables also where a file is refused")


def read_year(text: str) -> int:
    """The year of tables, which stands after the folders."""
    if not re.fullmatch("[0-9]{4}", text):
        due = "behind the folders stands a year of four digits"
        raise argparse.ArgumentTypeError(f"{text} is no year: {due}")
    return int(text)


def read_years(text: str) -> list[int]:
    """Years of tables, which stand after the folders."""
    return years_in(text) or [read_year(text)]


def add_complete(commands: Commands) -> None:
    """Adds the command `complete`."""
    what = "show for each category and gas which years are estimated, and list gaps"
    run = of_sources(complete.run, complete.run_of_service)
    made = over_sources(commands, "complete", what, "examples/fuel-combustion", run)
    made.epilog = f"{STATES} {made.epilog}"
    form = made.add_mutually_exclusive_group()
    form.add_argument("--csv", action="store_true", help="print the years as CSV, one column for each")
    form.add_argument("--json", action="store_true", help="print JSON")


def add_trace(commands: Commands) -> None:
    """Adds the command `trace`."""
    what = "show what a line or a total of a year comes of, down to the rows"
    example = "examples/fuel-combustion 2020 POWER.COAL"
    made = over_folders(commands, "trace", what, example, compiled(trace.run))
    made.add_argument("year", type=read_year, metavar="YEAR", help="the year of the figure")
    code = "a line, as POWER.COAL, or a total, as total:1A1a or gross; the table cells has the lines"
    made.add_argument("code", metavar="CODE", help=code)
    made.add_argument("--json", action="store_true", help="print JSON")


def add_compare(commands: Commands) -> None:
    """Adds the command `compare`."""
    what = "show what was once reported beside what holds now, and the rows that made it so"
    made = command(commands, "compare", what, "submitted-2023 -- submitted-2024 2020", compare.run)
    compare.add_words(made)
    made.add_argument("--program", metavar="PATH", help=PROGRAM)
    made.add_argument("--quiet", action="store_true", help=QUIET)


def add_trend(commands: Commands) -> None:
    """Adds the command `trend`."""
    what = "show how uncertain the trend from the base year to a year is, by line and in all"
    example = "examples/{fuel-combustion,small-country,waste,uncertainties} 2020"
    made = over_folders(commands, "trend", what, example, trend.run)
    made.add_argument("year", type=read_year, metavar="YEAR", help="the year of the table")
    form = made.add_mutually_exclusive_group()
    where = "the folder to write the table to, or one file .xlsx; without it the table is printed"
    form.add_argument("-o", "--output", metavar="OUT", help=where)
    form.add_argument("--json", action="store_true", help="print JSON")


def add_report(commands: Commands) -> None:
    """Adds the command `report`."""
    what = "write one page with all tables of a year, their trends, pictures, and what figures come of"
    made = command(commands, "report", what, "examples/fuel-combustion 2020 -o report.html", report.run)
    report.add_words(made)
    made.add_argument("--program", metavar="PATH", help=PROGRAM)
    made.add_argument("--quiet", action="store_true", help="say nothing of progress")


def add_words(commands: Commands) -> None:
    """Adds the command `words`."""
    what = "search units, categories, equations and parameters by any word of their names"
    made = command(commands, "words", what, "equations nitric", run_words)
    words = f"optionally one of {', '.join(wordlist.PARTS)}; then words that all have to be found"
    found = made.add_argument("words", nargs="*", metavar="WORD", help=words)
    completion.complete(found, wordlist.PARTS)
    completion.complete_after(found, {"templates": list(row_templates.TEMPLATES)})
    file = "make a file .xlsx with empty sheets of rows and lists to choose words from"
    made.add_argument("--template", metavar="FILE", type=xlsx_path, help=file)


def xlsx_path(text: str) -> pathlib.Path:
    """The path of a file of a spreadsheet to write."""
    if not text.lower().endswith(".xlsx"):
        raise argparse.ArgumentTypeError(f"{text} does not end with .xlsx")
    return pathlib.Path(text)


def add_from_sheets(commands: Commands) -> None:
    """Adds the command `from-sheets`."""
    what = "write each sheet of rows of a spreadsheet as a CSV file of a folder"
    made = command(commands, "from-sheets", what, "inventory.xlsx -o inventory", from_sheets.run)
    made.add_argument("sheets", metavar="FILE", help="a file .xlsx or .ods")
    where = "the folder to write the files to"
    made.add_argument("-o", "--output", metavar="FOLDER", required=True, help=where)
    made.add_argument("--replace", action="store_true", help="write over files there that have other rows")


def add_import(commands: Commands) -> None:
    """Adds the command `import`."""
    what = "make rows of a sheet with a column or a row for each year"
    made = command(commands, "import", what, "fuels.xlsx -o 3-fuels.csv", run_import)
    made.add_argument("sheet", metavar="SHEET", help="a file .xlsx, .ods or .csv")
    where = "the file of rows to write; without it they are printed"
    made.add_argument("-o", "--output", metavar="FILE", help=where)
    made.add_argument("--replace", action="store_true", help="write over a file that has other rows")
    made.add_argument("--program", metavar="PATH", help=PROGRAM)


def add_splice(commands: Commands) -> None:
    """Adds the command `splice`."""
    what = "fill the years that an activity lacks by a splicing technique, as rows to review and submit"
    example = "examples/fuel-combustion examples/splicing WEST.COAL --method linear -o 16-spliced.csv"
    made = over_folders(commands, "splice", what, example, compiled(splice.run))
    made.add_argument("name", metavar="NAME", help="the activity")
    how = "linear: between two known years; surrogate, overlap: by the series --by (docs/SPLICING.md)"
    made.add_argument("--method", required=True, choices=splice.METHODS, help=how)
    made.add_argument("--by", metavar="SURROGATE", help="the activity or factor that is known in the missing years")
    where = "the file of rows to write; without it they are printed"
    made.add_argument("-o", "--output", metavar="FILE", help=where)
    made.add_argument("--plot", metavar="FILE.svg", help="write a picture of the series with its filled years")


def add_send(commands: Commands) -> None:
    """Adds the command `send`."""
    what = "submit the files in their order to a running service; a file that is sent again acts once"
    example = "examples/fuel-combustion --url http://127.0.0.1:8000"
    made = over_folders(commands, "send", what, example, send.run)
    made.add_argument("--url", metavar="URL", required=True, help="the running service")


def run_import(arguments: argparse.Namespace) -> int:
    """Makes rows of a sheet, and answers the status."""
    with Program(found_program(arguments.program)) as program:
        return import_sheet.run(program, arguments)


def add_new(commands: Commands) -> None:
    """Adds the command `new`."""
    what = "begin a folder: years, potentials, lines of tier 1, and an empty row for each figure"
    example = "inventory --first 1990 --last 2022 --categories 1A1a:NATURAL.GAS,LIGNITE 2A1 3A1:DAIRY,SHEEP"
    made = command(commands, "new", what, example, new_folder.run)
    made.add_argument("folder", metavar="FOLDER", help="the folder to make")
    made.add_argument("--first", type=year_of_span, required=True, metavar="YEAR", help="the first year")
    made.add_argument("--last", type=year_of_span, required=True, metavar="YEAR", help="the last year")
    made.add_argument("--uncertainties", action="store_true",
                      help="also make an empty row of uncertainties for each line that emits a gas")
    codes = ("codes of categories, each with the fuels, species or kinds that it is a sum over after a colon, "
             "or with the notation key of all its lines, as 2B3=NO")
    chosen = made.add_argument("--categories", nargs="+", required=True, metavar="CODE[:NAME,..]", help=codes)
    completion.complete(chosen, list(vocabulary.categories()))


def year_of_span(text: str) -> int:
    """The first or the last year of a span."""
    if not re.fullmatch("[0-9]{4}", text):
        raise argparse.ArgumentTypeError(f"{text} is no year of four digits")
    return int(text)


def add_completion(commands: Commands) -> None:
    """Adds the command `completion`."""
    what = "print the script by which a shell completes these commands"
    example = "bash > ~/.workbook-completion, and in ~/.bashrc: source ~/.workbook-completion"
    made = command(commands, "completion", what, example, run_completion)
    made.add_argument("shell", choices=completion.SHELLS, help="the shell")


def run_completion(arguments: argparse.Namespace) -> int:
    """Prints the script of a shell, and answers the status."""
    print(completion.script(arguments.shell, parser()), end="")
    return 0


def run_check(arguments: argparse.Namespace) -> int:
    """Prints every fault and every warning, then a summary, and answers the status."""
    service = service_of(arguments)
    if service:
        return service_notices.run(service, arguments.json)
    sheets, left = sheets_of(arguments)
    if arguments.mend:
        mending.places(arguments.mend, arguments.folders)
    with Program(found_program(arguments.program)) as program, Progress(sheets, arguments.quiet) as progress:
        checked = checked_of(program, sheets, progress)
        progress.after("warnings")
        warnings = [] if arguments.no_warnings else warnings_of(program, checked)
        is_whole = arguments.all or arguments.json
        largest = [] if is_whole else gathered.largest(warnings, checked.book, program)
    faults = in_order(missing.named(checked.faults), sheets)
    left = [] if arguments.no_warnings else left
    if arguments.json:
        print(as_json.checked([sheet.name for sheet in sheets], faults, warnings, left))
        return 1 if faults else 0
    others = warn_left(left)
    print_all(faults)
    print_all(warnings if arguments.all else gathered.gathered(warnings))
    print_all(others)
    print_all(largest)
    if arguments.mend:
        print_all(mending.write(arguments.mend, arguments.folders, sheets, checked.faults, checked.cures))
    summary = check.summary(missing.others(checked.faults), len(warnings) + len(others), sheets)
    print(summary + missing.progress(faults, sheets))
    return 1 if faults else 0


def checked_of(program: Program, sheets: list[Sheet], progress: Progress) -> check.Check:
    """The check of all files. If the program fails, the faults up to there are printed."""
    checked = check.Check(program, sheets)
    try:
        checked.run(progress)
    except ProgramFailed:
        progress.clear()
        print_all(in_order(checked.faults, sheets))
        raise
    return checked


def print_all(lines: Iterable[object]) -> None:
    """Prints texts or faults, one on a line."""
    for line in lines:
        print(line)


def compiled(run: OnProgram) -> Function:
    """The function of a command that works on what the program makes of the files."""
    def function(arguments: argparse.Namespace) -> int:
        sheets, _ = read_folders(arguments.folders)
        with Program(found_program(arguments.program)) as program:
            return run(program, sheets, arguments)
    return function


def of_sources(run: OnProgram, run_of_service: OnService) -> Function:
    """The function of a command that works on what the program makes of files, or on what a service has."""
    def function(arguments: argparse.Namespace) -> int:
        service = service_of(arguments)
        if service:
            return run_of_service(service, arguments)
        sheets, _ = sheets_of(arguments)
        with Program(found_program(arguments.program)) as program:
            return run(program, sheets, arguments)
    return function


def run_tables(arguments: argparse.Namespace) -> int:
    """Writes the tables of years. Of the words after the folders, all are years that can be."""
    folders, years = arguments.folders, arguments.years
    while folders and years_in(folders[-1]) and not os.path.isdir(folders[-1]):
        years.insert(0, years_in(folders.pop()))
    arguments.years = sorted({year for found in years for year in found})
    return of_sources(tables.run, tables.run_of_service)(arguments)


def run_words(arguments: argparse.Namespace) -> int:
    """Searches the vocabulary, and answers the status."""
    if arguments.template:
        return template.run(arguments.template)
    return wordlist.run(arguments.words)


def said_of_own(error: Exception) -> str:
    """A fault of the tools themselves as a sentence, with its place in them."""
    place = traceback.extract_tb(error.__traceback__)[-1]
    where = f"{os.path.basename(place.filename)}:{place.lineno}"
    what = f"{type(error).__name__} {error}"
    return f"a fault of the tools themselves, and none of your files: {what} at {where}"


def main(words: list[str]) -> int:
    """Carries out the command that words name, and answers the status. What goes wrong is one line."""
    for stream in (sys.stdout, sys.stderr):
        if isinstance(stream, io.TextIOWrapper):
            stream.reconfigure(encoding="utf-8", errors="backslashreplace")
    arguments = parser().parse_args(compare.words_of(words))
    try:
        status: int = arguments.function(arguments)
        sys.stdout.flush()
        return status
    except BrokenPipeError:
        os.dup2(os.open(os.devnull, os.O_WRONLY), sys.stdout.fileno())
        return 2
    except (FolderFault, ProgramFailed) as error:
        print(f"./workbook: {error}", file=sys.stderr)
    except OSError as error:
        print(f"./workbook: {error.filename or 'the system'}: {error.strerror or error}", file=sys.stderr)
    except Exception as error:
        print(f"./workbook: {said_of_own(error)}", file=sys.stderr)
    return 2
