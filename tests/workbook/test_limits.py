"""Files beyond a limit of the program, and rows that are many."""
import itertools
import pathlib
import string
import tempfile
import unittest
from unittest import mock

from tests.limits import limit
from tests.workbook.running import HEADER, PROGRAM, workbook
from tools import program as session
from tools.review import Review

SPAN = "enter,span,,,1990,2020,1990,,,\n"
DIGITS = limit("digits")


def checked(*bodies: str, program: str | pathlib.Path = PROGRAM) -> list[str]:
    """What check prints of files with these bodies."""
    with tempfile.TemporaryDirectory() as room:
        for at, body in enumerate(bodies, 1):
            (pathlib.Path(room) / f"{at}.csv").write_text(body)
        return workbook("check", room, "--no-warnings", "--program", program).stdout.splitlines()


class Limits(unittest.TestCase):
    def test_a_file_that_is_too_long(self) -> None:
        long = HEADER + "".join(f"enter,activity,,A{n},2000,1,,,t,{'n' * 200}\n" for n in range(20000))
        line = HEADER + "enter,line,1A1a,L,,Q11,,,,\n"
        line += "enter,bind,L,FC,,activity,A1,,,\nenter,bind,L,EF,,key,NO,,,\n"
        self.assertEqual(checked(HEADER + SPAN, long, line), [
            f"2.csv:1: {len(long):,} bytes where {limit('body'):,} are the most; split the file",
            '3.csv:3 low "A1": there is no activity A1, since its row was refused (follows from 2.csv:3)',
            "3 files: 2 faults, of which 1 only follows from others, 0 warnings"])

    def test_a_file_whose_length_has_nine_digits(self) -> None:
        self.assertEqual(checked(HEADER + SPAN, HEADER + "n" * (100_000_000 - len(HEADER))), [
            f"2.csv:1: 100,000,000 bytes where {limit('body'):,} are the most; split the file",
            "2 files: 1 fault, 0 warnings"])

    def test_more_commands_than_a_script_has(self) -> None:
        span, record = (HEADER + SPAN).encode(), HEADER + "enter,activity,,A{},2000,1,,,t,\n"
        for command in (session.Program, Review):
            with mock.patch.object(session, "MOST_COMMANDS", 3), command(PROGRAM) as program:
                self.assertEqual(program.submit(span).text, "accepted 1")
                self.assertEqual([reply.rule for reply in program.submit_all([b"", span] * 3)], [4, 9] * 3)
                self.assertEqual(program.submit(record.format(1).encode()).text, "accepted 2")
                self.assertEqual(program.submit(record.format(2).encode()).text, "accepted 3")
                self.assertEqual(program.submit(record.format(1).encode()).rule, 9)
                header = "code,category,equation,gas,unit,value,low,high"
                self.assertEqual(program.show("cells", 2000), [header])
                self.assertIsNone(program.show("cells", 2021))

    def test_versions_are_not_lost(self) -> None:
        with mock.patch.object(session, "MOST_COMMANDS", 3), Review(PROGRAM) as review:
            review.submit((HEADER + SPAN).encode())
            review.freeze("V1")
            self.assertIsNotNone(review.recalculation("V1", 2000))
            with self.assertRaisesRegex(session.ProgramFailed, "^a review takes 999,999 submissions and "):
                review.show("cells", 2000)

    def test_a_fault_in_each_of_many_rows(self) -> None:
        commas = HEADER + SPAN + "".join(f'enter,activity,,A{n},2000,"{n},5",,,t,\n' for n in range(2000))
        printed = checked(commas)
        self.assertEqual(printed[0], '1.csv:3 value "0,5": a decimal comma; write 0.5')
        self.assertEqual((len(printed), printed[-1]), (2001, "1 file: 2000 faults, 0 warnings"))

    def test_a_figure_of_a_million_digits(self) -> None:
        printed = checked(HEADER + SPAN + f"enter,activity,,A,2000,{'1' * 1000000},,,t,\n")
        self.assertEqual(printed, [
            f'1.csv:3 value "{"1" * 60}...": 1000000 digits where {DIGITS} are the most; choose a greater unit',
            "1 file: 1 fault, 0 warnings"])

    def test_a_category_of_a_million_letters(self) -> None:
        printed = checked(HEADER + SPAN + f"enter,line,1Z{'z' * 1000000},L,,Q83,,,,\n")
        self.assertIn("no category of this tree; under 1 it has 1A (", printed[0])

    def test_decimals_behind_many_digits(self) -> None:
        printed = checked(HEADER + SPAN + f"enter,activity,,A,2000,{'1' * 300}.{'1' * 13},,,t,\n")
        self.assertIn(f"300 digits where {DIGITS} are the most", printed[0])

    def test_a_file_that_is_there_twice(self) -> None:
        rows = HEADER + "".join(f"enter,activity,,A{n},2000,{n},,,t,\n" for n in range(2000))
        printed = checked(HEADER + SPAN, rows, rows)
        cause = "all 2000 rows are entered already in 2.csv, with the same figures"
        self.assertEqual(printed, [f"3.csv:1: {cause}; take one of the two files out",
                                   "3 files: 1 fault, 0 warnings"])

    def test_a_file_that_is_there_twice_but_for_a_row(self) -> None:
        rows = HEADER + "".join(f"enter,activity,,A{n},2000,{n},,,t,\n" for n in range(2000))
        printed = checked(HEADER + SPAN, rows, rows + "enter,activity,,B,2000,1,,,t,\n")
        said = "is entered already at 2.csv:2, with the same figures; take one of the two out"
        self.assertEqual(printed[0], f"3.csv:2: activity A0 2000 {said}")
        self.assertEqual((len(printed), printed[-1]), (2001, "3 files: 2000 faults, 0 warnings"))

    def test_lines_beyond_the_limit(self) -> None:
        lines = "".join(
            f"enter,line,RA,L{n},,Q83,,,,\nenter,bind,L{n},G,,key,NO,,,\nenter,bind,L{n},L,,key,NO,,,\n"
            for n in range(limit("lines") + 1))
        self.assertEqual(checked(HEADER + SPAN, HEADER + lines), [
            f"2.csv:1: more than {limit('lines'):,} lines with this file", "2 files: 1 fault, 0 warnings"])

    def test_records_beyond_the_limit(self) -> None:
        # With the span they are one too many.
        records, names = limit("records"), map("".join, itertools.product(string.ascii_uppercase, repeat=3))
        places = itertools.islice(itertools.product(names, range(1900, 2100)), records)
        rows = [f"enter,activity,,{name},{year},1,,,t,\n" for name, year in places]
        part = -(-records // 4)
        bodies = [HEADER + "".join(rows[at:at + part]) for at in range(0, records, part)]
        self.assertEqual(checked(HEADER + SPAN, *bodies), [
            f"5.csv:1: more than {records:,} records with this file", "5 files: 1 fault, 0 warnings"])

    def test_bytes_beyond_the_limit(self) -> None:
        # The limit is half a GiB of bodies, so a script answers in the program's place.
        with tempfile.TemporaryDirectory() as room:
            program = pathlib.Path(room) / "program"
            program.write_text("#!/bin/sh\necho accepted 1\necho refused 11 TooMany bytes\ncat > /dev/null\n")
            program.chmod(0o755)
            printed = checked(HEADER + SPAN, HEADER + SPAN.replace("enter", "correct"), program=program)
        self.assertEqual(printed, [
            f"2.csv:1: more than {limit('bytes'):,} bytes with this file", "2 files: 1 fault, 0 warnings"])


if __name__ == "__main__":
    unittest.main()
