"""A folder of 200 files and 20,000 rows is checked as the program answers it."""
import pathlib
import tempfile
import unittest

from tests.workbook.running import HEADER, session, workbook

FILES, ROWS = 200, 100
PARAMETERS = ("PR", "IM", "EX", "IB", "SC")


def body(number: int) -> str:
    """A file of 100 rows: the energy balance of a fuel with its five bindings, and their activities."""
    if number == 0:
        return HEADER + "enter,span,,,1990,2008,1990,,,\n"
    rows = [f"enter,line,RA,L{number},,Q22,,,,"]
    rows += [f"enter,bind,L{number},{name},,activity,L{number}.{name},,," for name in PARAMETERS]
    figures = f"{number}.5,{number},{number + 1}"
    rows += [f"enter,activity,,L{number}.{name},{year},{figures},TJ,"
             for name in PARAMETERS for year in range(1990, 2009)]
    return HEADER + "\n".join(rows[:ROWS]) + "\n"


class ManyFiles(unittest.TestCase):
    def test_no_fault_where_all_are_accepted(self) -> None:
        bodies = [body(number).encode() for number in range(FILES + 1)]
        self.assertEqual(sum(one.count(b"\n") - 1 for one in bodies[1:]), FILES * ROWS)
        parts = [b"SUBMIT s%d %d\n%b" % (at, len(one), one) for at, one in enumerate(bodies)]
        script = b"".join(parts) + b"END\n"
        with tempfile.TemporaryDirectory() as room:
            for at, one in enumerate(bodies):
                (pathlib.Path(room) / f"{at}.csv").write_bytes(one)
            replies = session(script)
            ran = workbook("check", room)
        self.assertEqual(replies.count(b"accepted"), FILES + 1)
        self.assertIn(f"{FILES + 1} files: 0 faults", ran.stdout)


if __name__ == "__main__":
    unittest.main()
