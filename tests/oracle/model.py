"""The model: what a session of submissions and requests for tables prints."""
import re
from typing import Callable, Iterable, NamedTuple, Protocol

from tests.limits import limit
from tests.oracle.outcomes import Compilation
from tests.oracle.printing import TABLES as PRINTED
from tests.oracle.printing import Printer
from tests.oracle.rows import Refused, format_of, header_of, records_in, row_in
from tests.oracle.tables import TABLES, Tables
from tests.oracle.workbook import Records, Workbook, apply, judge

MOST_BODY_BYTES = limit("body")
ID = re.compile(b"[A-Za-z0-9._-]{1,%d}" % limit("id"))
SUBMIT = re.compile(rb"SUBMIT ([^ \n]{1,%d}) ([0-9]{1,%d})\n" % (limit("id_in_script"), limit("length_digits")))
SHOW = re.compile(rb"SHOW ([a-z]{1,%d}) ([0-9]{4})\n" % limit("table_in_script"))
END = b"END\n"


class Submit(NamedTuple):
    """A submission."""
    id: bytes
    body: bytes

    def text(self) -> bytes:
        """The command as a script has it."""
        return b"SUBMIT %b %d\n%b" % (self.id, len(self.body), self.body)


class Show(NamedTuple):
    """A request for a table."""
    table: str
    year: int

    def text(self) -> bytes:
        """The command as a script has it."""
        return f"SHOW {self.table} {self.year:04}\n".encode()


class Written(Protocol):
    """A command of a script."""

    def text(self) -> bytes:
        """The command as a script has it."""


# The form of each command that is a line alone, and what it says.
Form = tuple[re.Pattern[bytes], Callable[[re.Match[bytes]], Written]]
FORMS: list[Form] = [(SHOW, lambda found: Show(found[1].decode(), int(found[2])))]


class Office:
    """The records in force, what is computed from them, and the submissions that were accepted."""

    def __init__(self, tables: Tables = TABLES) -> None:
        self.tables = tables
        self.records: Records = {}
        self.compilation = Compilation(Workbook({}, tables))
        self.accepted: list[Submit] = []

    def answer(self, command: Written) -> str:
        """The reply to a command."""
        if isinstance(command, Submit):
            return self.submit(command)
        assert isinstance(command, Show)
        return self.show(command)

    def submit(self, given: Submit) -> str:
        """The reply to a submission, which is in force afterwards where no rule is broken."""
        if not ID.fullmatch(given.id):
            return "refused 1 BadId\n"
        for number, kept in enumerate(self.accepted, 1):
            if kept.id == given.id:
                same = kept.body == given.body
                return f"repeated {number}\n" if same else f"refused 2 IdReused {number}\n"
        if len(given.body) > MOST_BODY_BYTES:
            return "refused 3 BodyTooLong\n"
        try:
            records = self.with_rows(given.body)
            workbook = Workbook(records, self.tables)
            judge(workbook, sum(len(kept.body) for kept in self.accepted + [given]))
            self.compilation = Compilation(workbook)
        except Refused as rule:
            return f"refused {rule}\n"
        self.records = records
        self.accepted.append(given)
        return f"accepted {len(self.accepted)}\n"

    def with_rows(self, body: bytes) -> Records:
        """The records with the rows of a body applied, which break none of the rules 4 to 9."""
        cut, version = records_in(body), format_of(body)
        if not cut or cut[0] != header_of(version):
            raise Refused("4 BadShape row 0")
        records = dict(self.records)
        for number, fields in enumerate(cut[1:], 1):
            apply(records, row_in(number, fields, version, self.tables))
        return records

    def show(self, asked: Show) -> str:
        """The reply to a request for a table."""
        if asked.table not in PRINTED or asked.year not in self.compilation.workbook.years():
            return "no table\n"
        lines = list(PRINTED[asked.table](Printer(self.compilation, asked.year)))
        text = "".join(",".join(line) + "\n" for line in lines)
        return f"table {asked.table} {asked.year} rows {len(lines)}\n{text}"


def script_of(commands: Iterable[Written]) -> bytes:
    """The script of a session."""
    return b"".join(command.text() for command in commands) + END


def commands_in(script: bytes, forms: list[Form]) -> tuple[list[Written], bool]:
    """The commands of a script up to its end, and whether they are all: else the next one is none."""
    commands: list[Written] = []
    at = 0
    while not script.startswith(END, at):
        found = next(((match, made) for form, made in forms if (match := form.match(script, at))), None)
        if found:
            match, made = found
            commands.append(made(match))
            at = match.end()
        elif (sent := SUBMIT.match(script, at)) and sent.end() + int(sent[2]) <= len(script):
            at = sent.end() + int(sent[2])
            commands.append(Submit(sent[1], script[sent.end():at]))
        else:
            return commands, False
    return commands, True


def output_of(script: bytes, forms: list[Form], answer: Callable[[Written], str]) -> bytes:
    """What a script prints whose commands have these forms, and are answered so."""
    commands, is_whole = commands_in(script, forms)
    replies = "".join(map(answer, commands))
    return (replies + ("" if is_whole else f"not a script: command {len(commands) + 1}\n")).encode()
