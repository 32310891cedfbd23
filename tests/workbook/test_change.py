"""The submissions that lead from one state to another are accepted, and make the second one."""
import unittest
from unittest import mock

from tests.workbook.running import HEADER, HEADER_2, PROGRAM
from tools import change
from tools.book import Book, book_of
from tools.program import Program
from tools.sheets import Sheet

# In the second state FUEL and SHARE measure something else, X has another equation, B takes what C gives, and
# a half-life has a tenth.
BEFORE = f"""{HEADER}enter,span,,,1990,1991,1990,,,
enter,factor,,GWP.CO2,1990,1,,,1,
enter,line,1A1a,X,,Q10,,,,
enter,bind,X,FC,,activity,FUEL,,,
enter,bind,X,EF,,factor,SHARE,,,
enter,uncert,,X,,3,4,,,
enter,activity,,FUEL,1990,1000,900,1100,TJ,
enter,activity,,FUEL,1991,1000,,,TJ,
enter,factor,,SHARE,1990,56100,,,kg/TJ,
enter,line,1A2,A,,Q10,,,,
enter,bind,A,FC,,activity,OTHER,,,
enter,bind,A,EF,,factor,EF,,,
enter,line,1A2,B,,Q10,,,,
enter,bind,B,FC,,activity,OTHER,,,
enter,bind,B,EF,,factor,EF,,,
enter,activity,,OTHER,1990,10,,,TJ,
enter,activity,,OTHER,1991,20,,,TJ,
enter,factor,,EF,1990,70000,,,kg/TJ,
enter,factor,,LIFE,1990,12,,,yr,
"""
AFTER = f"""{HEADER_2}enter,span,,,1990,1992,1991,,,
enter,factor,,GWP.CO2,1990,1,,,1,
enter,factor,,GWP.N2O,1990,265,,,1,
enter,line,2B2,X,,Q38,,,,
enter,bind,X,P,,activity,FUEL,,,
enter,bind,X,EF,,factor,SHARE,,,
enter,uncert,,X,,5,4,,,
enter,activity,,FUEL,1991,1200,,,t,
enter,activity,,FUEL,1992,1300,,,t,
enter,factor,,SHARE,1990,7,,,kg/t,
enter,line,1A2,B,,Q10,,,,
enter,bind,B,FC,,line,C,,,
enter,bind,B,EF,,factor,EF,,,
enter,line,1A2,C,,Q13,,,,"energy, of mass"
enter,bind,C,FM,,activity,MASS,,,
enter,bind,C,NCV,,factor,NCV,,,
enter,activity,,MASS,1990,NE,,,kt,
enter,activity,,MASS,1991,2,,,kt,
enter,factor,,NCV,1990,25.8,20,30,TJ/Gg,
enter,factor,,EF,1990,71000,,,kg/TJ,
enter,factor,,LIFE,1990,12.3,,,yr,
"""


def book(text: str) -> Book:
    """The records of a file."""
    return book_of([Sheet("1.csv", text.encode())])


def shown(bodies: list[bytes]) -> tuple[list[str], list[list[str] | None]]:
    """The replies to bodies, and tables after them."""
    with Program(PROGRAM) as program:
        replies = [reply.text for reply in program.submit_all(bodies)]
        return replies, [program.show(table, year) for table in ("cells", "uncertainty", "trend")
                         for year in (1990, 1991, 1992)]


class Changes(unittest.TestCase):
    def check(self, before: str, after: str, most: int, count: int) -> None:
        """Leads from one state to another by bodies of so many bytes at the most, and compares the tables."""
        with mock.patch.object(change, "MOST_BYTES", most):
            bodies = change.bodies(book(before), book(after))
        self.assertEqual(len(bodies), count)
        replies, tables = shown([before.encode(), *bodies])
        self.assertEqual(replies, [f"accepted {number}" for number in range(1, count + 2)])
        self.assertEqual(tables, shown([after.encode()])[1])

    def test_one_submission(self) -> None:
        self.check(BEFORE, AFTER, change.MOST_BYTES, 1)
        self.check(AFTER, BEFORE, change.MOST_BYTES, 1)

    def test_several_submissions(self) -> None:
        """Of so few bytes each figure has a body: 6 and 2 one way, 4 and 4 back. All else has one."""
        self.check(BEFORE, AFTER, len(change.HEADER), 9)
        self.check(AFTER, BEFORE, len(change.HEADER), 9)

    def test_nothing_differs(self) -> None:
        noted = BEFORE.replace(",,TJ,\n", ",,TJ,another note\n")
        self.assertEqual(change.bodies(book(BEFORE), book(noted)), [])


if __name__ == "__main__":
    unittest.main()
