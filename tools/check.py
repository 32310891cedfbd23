"""Finds every fault of every file in one run of the program.

Each file is submitted. At a refusal its place is recorded and the row taken out, or the text put in its place
that the program takes and that alone can be meant; then the file is submitted again, until it is accepted. So
each fault is one that the program found.
"""
import collections
import itertools

from tools import bindings, explain, headers, limit_faults, number_faults
from tools.after import After
from tools.ahead import Ahead
from tools.asking import Asking
from tools.book import Book
from tools.faults import Fault, Rewritten, at_row, counted
from tools.mending import Cures
from tools.program import Program, Reply
from tools.progress import Progress
from tools.record_faults import exists
from tools.refused import Refused
from tools.sheets import COLUMNS_OF_KEY, HEADERS, Key, Row, Sheet, joined, version_of
from tools.vocabulary import broken_if, limit

# A row that no workbook has its line for. After it no body is accepted: what a row breaks by itself comes
# first.
NEVER_ACCEPTED = joined(["enter", "bind", "NO.SUCH.LINE.-.-.-.-.-", "X", "", "key", "NE", "", "", ""])
# What stands in front of rows that are asked for, in each format.
FRONTS = {version: joined(header) + b"\n" + NEVER_ACCEPTED + b"\n" for version, header in HEADERS.items()}
OF_THE_ROW_ALONE = (4, 5, 6, 7)
OF_A_ROW = (4, 5, 6, 7, 8, 9)


class Applied:
    """The book after a file's rows. Between two tries of one file it changes by the rows that changed."""

    def __init__(self, book: Book) -> None:
        self.book, self.after = book, book
        self.rows: list[Row] = []
        self.repeated: set[Key] = set()

    def book_after(self, rows: list[Row]) -> Book:
        """The book after these rows of the file."""
        changed = [(old, new) for old, new in zip(self.rows, rows) if old is not new]
        kept = self.rows and rows[0] is self.rows[0] and len(self.rows) <= len(rows)
        if kept and all(old.key == new.key and old.key not in self.repeated for old, new in changed):
            new = [new for _, new in changed] + rows[len(self.rows):]
        else:
            counts = collections.Counter(row.key for row in rows[1:])
            self.repeated = {key for key, count in counts.items() if count > 1}
            self.after, new = self.book.copy(), rows[1:]
        for row in new:
            self.after.apply(row)
        self.rows = rows
        return self.after


class Check:
    """The check of a workbook's files, in their order, in one session of the program."""

    def __init__(self, program: Program, sheets: list[Sheet]) -> None:
        self.program, self.sheets = program, sheets
        self.book, self.refused, self.ahead = Book(), Refused(), Ahead(sheets)
        self.applied, self.progress = Applied(self.book), Progress([], True)
        self.faults: list[Fault] = []
        self.left: list[Sheet] = []
        self.lost: list[Row] = []
        self.cures = Cures()
        self.clean: dict[int, Row] = {}

    def run(self, progress: Progress | None = None) -> None:
        """Checks all files, and shows how far this has come."""
        self.progress = progress or self.progress
        for sheet in self.sheets:
            self.progress.before(sheet)
            self.ahead.next_file()
            self.add(sheet)

    def add(self, sheet: Sheet) -> None:
        """Checks the next file."""
        faults, rows = headers.close_quotes(sheet)
        self.faults += faults
        for fault in faults:
            self.cures.add_of_file(fault)
        first = self.program.submit(lines_of(rows) if faults else sheet.data)
        reply, left = self.behind_header(sheet, rows, first)
        sheet.meant = left or sheet.rows
        if reply and left and not reply.accepted:
            reply, left = self.in_format_2(sheet, left, reply)
        if reply and reply.rule == 9 and self.is_copy(sheet):
            return
        tries = 0
        while left and reply and not reply.accepted:
            tries += 1
            left = self.changed(sheet, left, reply) if tries <= 10 * len(left) + 100 else None
            reply = self.program.submit(lines_of(left)) if left else None
        self.take(sheet, left if reply else None)

    def is_copy(self, sheet: Sheet) -> bool:
        """Tells whether all rows of a file are those of one before it. That is one fault."""
        rows = [row.fields[:-1] for row in sheet.meant[1:]]
        before = itertools.takewhile(lambda other: other is not sheet, self.sheets)
        twin = next((other for other in before if len(other.meant) == len(sheet.meant) > 2
                     and [row.fields[:-1] for row in other.meant[1:]] == rows), None)
        if twin:
            cause = f"all {len(rows)} rows are entered already in {twin.name}, with the same figures"
            self.faults.append(Fault(sheet, 1, "", None, f"{cause}; take one of the two files out"))
        return twin is not None

    def behind_header(self, sheet: Sheet, rows: list[Row],
                      reply: Reply) -> tuple[Reply | None, list[Row] | None]:
        """The reply to a file without what is wrong with its header, and its rows. A cause that comes once
        more is none that helps.
        """
        found: set[str] = set()
        while reply.rule == 4 and reply.row == 0:
            fault, left = headers.explain(sheet, rows)
            if fault.cause in found or len(found) == headers.MOST_FAULTS:
                return None, None
            found.add(fault.cause)
            self.faults.append(fault)
            self.cures.add_of_file(fault)
            if not left:
                return None, None
            rows = left
            reply = self.program.submit(lines_of(rows))
        sheet.version = version_of(rows[0].fields) if rows else 1
        return reply, rows

    def in_format_2(self, sheet: Sheet, rows: list[Row], reply: Reply) -> tuple[Reply, list[Row]]:
        """The reply to a file under the header of format 2, and its rows with it, if a half-life needs it and
        the file has another. That is one fault.
        """
        told = (number_faults.half_life_with_a_point(self.asking(self.book), row) for row in rows[1:])
        fault = next(filter(None, told), None)
        if fault is None:
            return reply, rows
        header = Row(sheet, rows[0].line, joined(HEADERS[2]))
        self.faults.append(fault)
        self.cures.add_header(fault, header)
        sheet.version = 2
        return self.program.submit(lines_of([header, *rows[1:]])), [header, *rows[1:]]

    def take(self, sheet: Sheet, rows: list[Row] | None) -> None:
        """Keeps the rows of an accepted file, or marks those of one that no change helps."""
        if rows is None:
            self.left.append(sheet)
            readable = [row for row in sheet.rows[1:] if len(row.fields) == 10]
            self.refused.add(readable)
            self.refused.unread += [] if readable else [sheet.name]
            return
        for row in rows[1:]:
            self.book.apply(row)
        self.lost = [row for row in self.lost if not self.is_entered_twice(row)]

    def is_entered_twice(self, lost: Row) -> bool:
        """Tells whether the record of a row that was taken out is entered once more. That is a fault of the
        row that comes later.
        """
        other = self.book.entered.get(lost.key)
        if other is None or lost.field("act") != "enter":
            return False
        lost = lost.with_fields(unit=other.field("unit"))
        if self.probe([lost])[0].rule != 9:
            return False
        first, later = sorted((lost, other), key=lambda row: (self.sheets.index(row.sheet), row.line))
        book = Book()
        book.apply(first)
        fault, _ = exists(self.asking(book), later)
        self.faults += [fault] if fault else []
        return True

    def changed(self, sheet: Sheet, rows: list[Row], reply: Reply) -> list[Row] | None:
        """A file's rows without the fault of a reply, which is recorded, or None where nothing helps."""
        if reply.rule in OF_A_ROW and reply.row and reply.row < len(rows):
            return self.swept(rows, reply)
        fault, changed = self.of_the_whole(sheet, rows, reply)
        for old, new in zip(rows, changed or []) if len(changed or []) == len(rows) else ():
            if old is not new:
                self.cures.add(fault, old, new)
        if fault or changed is None:
            self.faults.append(fault or Fault(sheet, 1, "", None, f"the program answers: {reply.text}"))
        return changed

    def of_the_whole(self, sheet: Sheet, rows: list[Row], reply: Reply) -> Rewritten:
        """The fault of a refusal that names no row, and the rows to go on with."""
        if reply.rule == 3:
            cause = f"{len(sheet.data):,} bytes where {limit('body')} are the most; split the file"
            return Fault(sheet, 1, "", None, cause), None
        if reply.rule < 10:
            return None, None
        words = reply.rest.split()
        if reply.rule == 11:
            return limit_faults.too_many(words[0], sheet, rows)
        after = After(self.applied.book_after(rows), rows, self.refused, self.ahead)
        if reply.rule == 10:
            return bindings.explain(words[0], words[1], after)
        if reply.rule == 12:
            return limit_faults.cycle(words[0], after)
        if reply.rule == 13:
            return limit_faults.overflow(words[0], sheet, after)
        return unexplained(sheet, rows, reply)

    def swept(self, rows: list[Row], reply: Reply) -> list[Row]:
        """The rows without those that break a rule by themselves: the one that the reply names, and those
        that follow.
        """
        at = reply.row
        self.progress.within(at or 0)
        asking = self.asking(self.book_behind(rows[1:at]))
        front, rows = rows[:at], self.alone(rows[at:], reply, asking)
        if reply.rule in OF_THE_ROW_ALONE:
            return front + rows
        asking.book = self.book_behind(front[1:])
        return front + self.beside(front, rows, asking)

    def asking(self, book: Book) -> Asking:
        """What explains the refusals of rows beside what is in force."""
        return Asking(self.takes, book, self.refused, self.ahead)

    def book_behind(self, rows: list[Row]) -> Book:
        """The book with rows of the file at hand."""
        book = self.book.copy()
        for row in rows:
            book.apply(row)
        return book

    def alone(self, rows: list[Row], reply: Reply, asking: Asking) -> list[Row]:
        """The rows without what they break of rules 4 to 7.

        Each but the first, whose reply is known, is asked for by itself.
        """
        asked = [row for row in rows[1:] if id(row) not in self.clean]
        replies = {id(row): answer for row, answer in zip(asked, self.probe(asked))}
        replies[id(rows[0])] = reply
        kept = []
        for row in rows:
            answer = replies.get(id(row))
            is_refused = answer is not None and answer.rule in OF_THE_ROW_ALONE
            left = self.settled(row, answer, asking) if answer and is_refused else row
            if left is not None:
                kept.append(left)
                asking.book.apply(left)
        self.clean.update((id(row), row) for row in kept)
        return kept

    def beside(self, front: list[Row], rows: list[Row], asking: Asking) -> list[Row]:
        """The rows after others without what they break of rules 8 and 9, for which rows of one record alone
        count.

        In each round a row of each record is asked for, after the rows of the record that stand before it in
        the file.
        """
        before: dict[Key, list[Row]] = {}
        waiting: dict[Key, list[tuple[int, Row]]] = {}
        kept: dict[int, Row] = {}
        for row in front[1:]:
            before.setdefault(row.key[:2], []).append(row)
        for place, row in enumerate(rows):
            waiting.setdefault(row.key[:2], []).append((place, row))
        while waiting:
            asked = [(record, *rest.pop(0)) for record, rest in waiting.items()]
            in_front = [before.get(record, []) for record, _, _ in asked]
            replies = self.probe([row for _, _, row in asked], in_front)
            for (record, place, row), reply in zip(asked, replies):
                left = self.settled(row, reply, asking) if reply.rule in (8, 9) else row
                if left is not None:
                    kept[place] = left
                    asking.book.apply(left)
                    before.setdefault(record, []).append(left)
            waiting = {record: rest for record, rest in waiting.items() if rest}
        return [kept[place] for place in sorted(kept)]

    def settled(self, row: Row, reply: Reply, asking: Asking, lost: bool = False) -> Row | None:
        """A row without its faults, which are recorded, or None where it is taken out.

        One that is lost is looked at for its further faults alone, with another word in place of one of its
        own.
        """
        if reply.rule == 7 and row.has_other_figure:
            return asking.blank_figure(row)
        fault, changed = explain.explain(asking, row, reply)
        self.faults += [fault] if fault else []
        if not lost:
            self.cures.add(fault, row, changed)
        if changed is None:
            stand_in = asking.stand_in(row, reply.column)
            self.refused.add([] if lost else [row])
            if stand_in is not None and reply.column == "kind":
                meant = stand_in.field("kind")
                kinds = ("activity", "factor") if meant == "factor" else (meant,)
                self.refused.add(row.with_fields(kind=kind) for kind in kinds)
            self.look_at_rest(stand_in, reply.column, asking)
            return None
        return self.without_faults(changed, asking, lost)

    def look_at_rest(self, stand_in: Row | None, column: str | None, asking: Asking) -> None:
        """Looks for further faults of a row with a word in place of one in a column. What it enters is kept,
        where that word does not name it.
        """
        if stand_in is None:
            return
        row = self.without_faults(stand_in, asking, True)
        if row is not None and column not in ["act", "kind", *COLUMNS_OF_KEY.get(row.field("kind"), [])]:
            self.lost.append(row)

    def without_faults(self, row: Row, asking: Asking, lost: bool) -> Row | None:
        """A changed row without what it still breaks by itself, or None where it is taken out."""
        reply = self.probe([row])[0]
        return self.settled(row, reply, asking, lost) if reply.rule in OF_THE_ROW_ALONE else row

    def takes(self, row: Row, column: str | None) -> bool:
        """Asks the program whether it takes what stands in a column of a row, or where none is named, in
        all of them.
        """
        reply = self.probe([row])[0]
        if column is None:
            return reply.rule not in OF_THE_ROW_ALONE
        return reply.rule != 4 and not (reply.rule in (5, 6) and reply.column == column)

    def probe(self, rows: list[Row], before: list[list[Row]] | None = None) -> list[Reply]:
        """What the program answers to each row, after other rows if need be.

        None of these bodies is accepted.
        """
        before = before or [[]] * len(rows)
        bodies = (FRONTS[row.sheet.version] + lines_of(others) + row.raw + b"\n" for row, others in zip(rows, before))
        replies = self.program.submit_all(bodies)
        for reply, others in zip(replies, before):
            if reply.rule in OF_A_ROW and reply.row != 2 + len(others):
                reply.rule = 0
        return replies


def unexplained(sheet: Sheet, rows: list[Row], reply: Reply) -> Rewritten:
    """The fault of a rule that has no explanation of its own: when it is broken. A row that is named is taken out."""
    cause = f"the program answers: {reply.text}: {broken_if(reply.rule)}"
    if not reply.row or reply.row >= len(rows):
        return Fault(sheet, 1, "", None, cause), None
    return at_row(rows[reply.row], cause), rows[:reply.row] + rows[reply.row + 1:]


def lines_of(rows: list[Row]) -> bytes:
    """Rows as the lines of a body."""
    return b"".join(row.raw + b"\n" for row in rows)


def summary(faults: list[Fault], warnings: int, sheets: list[Sheet]) -> str:
    """The last line of a check, with so many warnings."""
    followed = sum(1 for fault in faults if fault.follows)
    found = f"{counted(len(sheets), 'file')}: {counted(len(faults), 'fault')}"
    if followed:
        found += f", of which {followed} only {'follows' if followed == 1 else 'follow'} from others"
    return f"{found}, {counted(warnings, 'warning')}"
