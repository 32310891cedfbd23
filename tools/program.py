"""The built program as a process: a command is written to it, and its reply read.

The program answers command by command, and a refused submission changes nothing. So a file that was refused
is submitted again, changed, to the same process, and nothing has to be submitted twice.
"""
import dataclasses
import itertools
import os
import pathlib
import re
import subprocess
from collections.abc import Iterable

TOP = pathlib.Path(__file__).resolve().parent.parent
# So many commands are written before their replies are read: as many replies have room in a pipe.
COMMANDS_AT_ONCE = 400
BYTES_AT_ONCE = 1 << 20
# A script has as many commands, without its END, and the length of a body has eight digits. A longer body is
# refused for its length as well where it is cut.
MOST_COMMANDS = 999_999
MOST_BYTES = 99_999_999
# The status of a series that is not spliced.
NOT_SPLICED = 10
REFUSED = re.compile(r"refused (\d+) (\w+)(?: row (\d+))?(?: column (\w+))?(?: (.*))?")


class ProgramFailed(Exception):
    """The program could not be started, or it ended before it had answered."""


@dataclasses.dataclass
class Reply:
    """What the program answers to a submission.

    Row and column say where a rule is broken, and rest says it of rules 10 to 13.
    """
    text: str
    rule: int = 0
    row: int | None = None
    column: str | None = None
    rest: str = ""

    @property
    def accepted(self) -> bool:
        """Tells whether the submission is in force."""
        return self.rule == 0


def read_reply(text: str) -> Reply:
    """A reply to a submission out of its line."""
    if re.fullmatch(r"(accepted|repeated) \d+", text):
        return Reply(text)
    found = REFUSED.fullmatch(text)
    if not found:
        raise ProgramFailed(f"the program answered a submission with: {text}")
    rule, _, row, column, rest = found.groups()
    return Reply(text, int(rule), None if row is None else int(row), column, rest or "")


def found_program(given: str | None = None) -> str:
    """The program's path: the given one, or that of GHG_PROGRAM, or the launcher, which builds it where it
    is missing.
    """
    path = os.path.abspath(given or os.environ.get("GHG_PROGRAM") or TOP / "ghg")
    if not os.access(path, os.X_OK) or os.path.isdir(path):
        raise ProgramFailed(f"there is no program at {path}; name one by --program or GHG_PROGRAM, or unset "
                            "GHG_PROGRAM, so that ./ghg builds it")
    return path


def spliced(path: str, words: Iterable[str], body: bytes) -> tuple[int, str]:
    """What the program makes of a series: the status 0 with the rows, or 10 with the line that refuses it."""
    try:
        ran = subprocess.run([path, "splice", *words], input=body, stdout=subprocess.PIPE, check=False)
    except OSError as error:
        raise ProgramFailed(f"{path} cannot be run: {error.strerror}") from error
    text = ran.stdout.decode("ascii", "backslashreplace")
    if ran.returncode not in (0, NOT_SPLICED):
        raise ProgramFailed(f"the program ended with status {ran.returncode} before it had spliced: {text.strip()}")
    return ran.returncode, text


class Program:
    """A session of the program. It is closed at the end of a `with` block."""

    word = "compile"

    def __init__(self, path: str) -> None:
        self.path, self.submitted = path, 0
        self._start()

    def _start(self) -> None:
        self.commands = 0
        self.accepted: list[bytes] = []
        try:
            self.process = subprocess.Popen([self.path, self.word], stdin=subprocess.PIPE,
                                            stdout=subprocess.PIPE)
        except OSError as error:
            raise ProgramFailed(f"{self.path} cannot be run: {error.strerror}") from error
        assert self.process.stdin and self.process.stdout
        self.input, self.output = self.process.stdin, self.process.stdout

    def __enter__(self) -> "Program":
        return self

    def __exit__(self, *_: object) -> None:
        self._end()

    def _end(self) -> None:
        for stream in (self.input, self.output):
            try:
                stream.close()
            except OSError:
                pass
        self.process.wait()

    def submit(self, body: bytes) -> Reply:
        """Submits a body under an id that was not used, and reads the reply."""
        return self.submit_all([body])[0]

    def submit_all(self, bodies: Iterable[bytes]) -> list[Reply]:
        """Submits bodies in turn, and reads their replies."""
        replies: list[Reply] = []
        waiting: list[bytes] = []
        size = 0
        for body in bodies:
            if self.commands == MOST_COMMANDS:
                replies += self._replies(waiting)
                waiting, size = [], 0
                self._start_again()
            body = body[:MOST_BYTES]
            self.submitted += 1
            self._command(b"SUBMIT w%d %d\n%b" % (self.submitted, len(body), body))
            waiting.append(body)
            size += len(body)
            if len(waiting) == COMMANDS_AT_ONCE or size > BYTES_AT_ONCE:
                replies += self._replies(waiting)
                waiting, size = [], 0
        return replies + self._replies(waiting)

    def _start_again(self) -> None:
        """Starts a new process, and submits to it what the one before accepted."""
        accepted = self.accepted
        self._end()
        self._start()
        self.submit_all(accepted)

    def show(self, table: str, year: int) -> list[str] | None:
        """The lines of a table with its header, or None where there is no such table.

        A name or a year of another form would end the session: it is no command.
        """
        if not re.fullmatch(r"[a-z]{1,16} [0-9]{4}", f"{table} {year}"):
            return None
        return self._table(f"SHOW {table} {year}")

    def _table(self, command: str) -> list[str] | None:
        """The lines of the table that a command asks for, or None where there is none."""
        if self.commands == MOST_COMMANDS:
            self._start_again()
        self._command(f"{command}\n".encode())
        self._flush()
        first = self._line()
        if first == "no table":
            return None
        return self._lines(int(first.split()[-1]))

    def _replies(self, bodies: list[bytes]) -> list[Reply]:
        self._flush()
        replies = [read_reply(self._line()) for _ in bodies]
        self.accepted += [body for body, reply in zip(bodies, replies) if reply.accepted]
        return replies

    def _command(self, piece: bytes) -> None:
        self.commands += 1
        try:
            self.input.write(piece)
        except OSError as error:
            raise self._ended() from error

    def _flush(self) -> None:
        try:
            self.input.flush()
        except OSError as error:
            raise self._ended() from error

    def _line(self) -> str:
        return self._lines(1)[0]

    def _lines(self, count: int) -> list[str]:
        text = b"".join(itertools.islice(self.output, count))
        if text.count(b"\n") < count:
            raise self._ended()
        return text.decode("ascii", "backslashreplace").split("\n")[:-1]

    def _ended(self) -> ProgramFailed:
        return ProgramFailed(f"the program ended with status {self.process.wait()} before it had answered")
