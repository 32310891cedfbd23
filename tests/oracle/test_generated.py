"""The summary that the built program, which GHG_PROGRAM names, prints of an inventory that it makes up."""
import os
import pathlib
import subprocess
import unittest
from itertools import islice
from typing import Any
from unittest import mock

from tests.oracle import generated
from tests.oracle.comparing import printed
from tests.oracle.generated import ACTIVITY, CATEGORIES, EQUATIONS, FACTOR, YEARS
from tests.oracle.model import Show, Written, script_of

TOP = pathlib.Path(__file__).resolve().parent.parent.parent
PROGRAM = os.environ.get("GHG_PROGRAM") or str(TOP / "crates/ghg/out/ghg")
SECONDS = 120
# A seed and a number of lines by which mistakes show: each category and each equation is taken.
FEW = (1, 12)
# The greatest seed and the most lines are among these.
WORDS = ((0, 1), (1, 1), FEW, (7, 300), (2147483647, 1000))
OPTIONS: tuple[list[str], ...] = ([], ["--workers", "1"], ["--workers", "7"])
MISTAKES: dict[str, list[Any]] = {
    "CATEGORIES": [CATEGORIES[1:], CATEGORIES[::-1], ["1A1"] + CATEGORIES[1:]],
    "EQUATIONS": [EQUATIONS[1:], EQUATIONS[::-1]],
    "POTENTIALS": [{"CO2": 1, "CH4": 25, "N2O": 265}],
    "YEARS": [YEARS[::-1], YEARS[:-1]],
    "FACTOR": [FACTOR._replace(least=0), FACTOR._replace(many=9001), FACTOR._replace(distance=5)],
    "ACTIVITY": [ACTIVITY._replace(least=0), ACTIVITY._replace(many=901), ACTIVITY._replace(distance=100)],
    "ADDEND": [0], "MODULUS": [2**31 - 1, 2**32], "DIVISOR": [1, 32768]}


class Generated(unittest.TestCase):
    """The inventory by itself."""

    def test_draws(self) -> None:
        """The first two numbers of seed 1, by hand."""
        self.assertEqual(list(islice(generated.draws(1), 2)), [16838, 5758])

    def test_rows(self) -> None:
        """The figures that they decide, and the rows of the first line."""
        line, = generated.made_lines(1, 1)
        rows = line.rows()
        self.assertEqual(rows[:5], ["enter,line,1A1a,L0001,,Q10,,,,",
                                    "enter,bind,L0001,FC,,activity,A0001,,,",
                                    "enter,bind,L0001,EF,,factor,F0001,,,",
                                    "enter,factor,,F0001,1990,8838,8738,8938,kg/TJ,",
                                    "enter,activity,,A0001,2020,458,453,463,TJ,"])
        self.assertEqual([row.split(",")[4] for row in rows[4:]], list(map(str, range(2020, 1989, -1))))

    def test_summary(self) -> None:
        """Of these figures: 458 TJ by 8838 kg/TJ are 4.047804 Gg. In each of 31 years there are 77 totals,
        and the line affects 8 nodes.
        """
        due = "seed 1\nlines 1\naccepted 2\ncells 2635\ngross 2020 4.048 3.958 4.139\n"
        self.assertEqual(generated.summary(1, 1), due)

    def test_in_turn(self) -> None:
        """An office that takes the submissions in turn has the same summary."""
        self.assertEqual(generated.summary_in_turn(*FEW), generated.summary(*FEW))

    def test_mistakes(self) -> None:
        """A mistake in what is drawn, or in the order of it, shows in the summary."""
        due = generated.summary(*FEW)
        for name, others in MISTAKES.items():
            for other in others:
                with self.subTest(name, other=other), mock.patch.object(generated, name, other):
                    self.assertNotEqual(generated.summary(*FEW), due)


class Program(unittest.TestCase):
    """The built program."""

    def test_summary(self) -> None:
        """It prints the summary, with several workers too."""
        for seed, lines in WORDS:
            for options in OPTIONS:
                with self.subTest(seed=seed, lines=lines, options=options):
                    words = ["generate", "--seed", str(seed), "--lines", str(lines), *options]
                    run = subprocess.run([PROGRAM, *words], stdout=subprocess.PIPE, timeout=SECONDS)
                    self.assertEqual(run.returncode, 0)
                    self.assertEqual(run.stdout.decode(), generated.summary(seed, lines))

    def test_submissions(self) -> None:
        """It accepts the submissions as a session, and prints the same gross total for it."""
        commands: list[Written] = [*generated.submissions(generated.made_lines(*FEW)), Show("summary", 2020)]
        *replies, gross = printed(PROGRAM, script_of(commands)).splitlines()
        self.assertEqual(replies[:len(commands)], [f"accepted {n}" for n in range(1, len(commands))]
                         + ["table summary 2020 rows 78"])
        self.assertEqual("gross 2020 " + gross.removeprefix("gross,").replace(",", " "),
                         generated.summary(*FEW).splitlines()[-1])


if __name__ == "__main__":
    unittest.main()
