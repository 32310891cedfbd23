"""The model on stored sessions, and mistakes put into copies of its tables. Each mistake has to be found: the
model then prints something else than the program, which GHG_PROGRAM names, for the session of some seed.
"""
import json
import os
import pathlib
import re
import unittest
from dataclasses import replace
from fractions import Fraction
from functools import lru_cache
from itertools import combinations
from random import Random
from typing import Callable, Iterator, NamedTuple

from tests.oracle.comparing import first_difference, printed, script_in
from tests.oracle.exact import FRACTIONS, Choice, Valuation, outside, shares_around
from tests.oracle.expressions import Expression, Operation, Parameter, Scaling, value_of
from tests.oracle.intervals import SCALE, decay_bracket
from tests.oracle.model import FORMS, Office, Written, commands_in, output_of
from tests.oracle.review import REVIEW_FORMS, Desk
from tests.oracle.tables import GASES, HALF_LIFE, TABLES, Equation, Tables
from tests.oracle.workbooks import session_of

SEEDS = range(100)
TESTS = pathlib.Path(__file__).resolve().parent.parent
PROGRAM = os.environ.get("GHG_PROGRAM") or str(TESTS.parent / "crates/ghg/out/ghg")

# How each rule is printed, with words of capitals for what stands with it.
RULES: list[str] = [printed for rule in json.loads((TESTS.parent / "tools/facts.json").read_text("utf-8"))["rules"]
                    for printed in rule["printed"]]

Change = Callable[[Expression], Expression]


class Session(NamedTuple):
    """A session of a seed, and what the program prints for it."""
    commands: list[Written]
    script: str
    due: str


class Mistake(NamedTuple):
    """What is mistaken, the words of which a session has to have one to show it, and the tables with it."""
    name: str
    words: list[str]
    tables: Tables


@lru_cache(maxsize=None)
def sessions() -> list[Session]:
    """The sessions of all seeds."""
    found = []
    for seed in SEEDS:
        steps = session_of(seed)
        script = script_in(steps)
        found.append(Session([step.command for step in steps], script.decode(errors="replace"),
                             printed(PROGRAM, script)))
    return found


def differs(tables: Tables, session: Session) -> bool:
    """Whether the model with some tables prints something else than the program."""
    office, at = Office(tables), 0
    for command in session.commands:
        reply = office.answer(command)
        if not session.due.startswith(reply, at):
            return True
        at += len(reply)
    return at != len(session.due)


def missed(mistakes: Iterator[Mistake]) -> list[str]:
    """The mistakes that no session shows."""
    return [mistake.name for mistake in mistakes
            if not any(differs(mistake.tables, session) for session in sessions()
                       if any(f",{word}," in session.script for word in mistake.words))]


def changed(expression: Expression, change: Change) -> Expression:
    """An expression with a change made at each of its places, from within."""
    if isinstance(expression, Scaling):
        return change(replace(expression, part=changed(expression.part, change)))
    if isinstance(expression, Operation):
        left, right = changed(expression.left, change), changed(expression.right, change)
        return change(replace(expression, left=left, right=right))
    return change(expression)


def other_exponent(expression: Expression) -> Expression:
    """A scaling is by ten times its fraction."""
    if isinstance(expression, Scaling):
        return replace(expression, numerator=expression.numerator * 10)
    return expression


def other_sign(expression: Expression) -> Expression:
    """A sum is a difference, and a difference a sum."""
    if isinstance(expression, Operation) and expression.sign in "+-":
        return replace(expression, sign="-" if expression.sign == "+" else "+")
    return expression


def swapping(first: str, second: str) -> Change:
    """Two parameters are in each other's places."""
    names = {first: second, second: first}

    def swap(expression: Expression) -> Expression:
        if isinstance(expression, Parameter):
            return Parameter(names.get(expression.name, expression.name))
        return expression

    return swap


def mistaken(code: str, change: Change, name: str) -> Iterator[Mistake]:
    """A change of an equation, where it makes another function of it."""
    equation = TABLES.equations[code]
    inputs = {parameter: Fraction(3 + place**2, 7) for place, parameter in enumerate(equation.parameters)}
    expression = changed(equation.expression, change)
    if value_of(expression, inputs, FRACTIONS) != value_of(equation.expression, inputs, FRACTIONS):
        yield of_equation(code, replace(equation, expression=expression), name)


def of_equation(code: str, equation: Equation, name: str) -> Mistake:
    """Another equation for a code."""
    tables = replace(TABLES, equations={**TABLES.equations, code: equation})
    return Mistake(f"{code} {name}", [code], tables)


def exponents() -> Iterator[Mistake]:
    """The scalings of each equation that has some."""
    for code in TABLES.equations:
        yield from mistaken(code, other_exponent, "exponent")


def signs() -> Iterator[Mistake]:
    """The signs of each equation that has some."""
    for code in TABLES.equations:
        yield from mistaken(code, other_sign, "sign")


def parameters() -> Iterator[Mistake]:
    """Each two parameters of each equation that may not be swapped."""
    for code, equation in TABLES.equations.items():
        for first, second in combinations(equation.parameters, 2):
            yield from mistaken(code, swapping(first, second), f"{first} {second}")


def gases() -> Iterator[Mistake]:
    """The gas of each equation that has one."""
    for code, equation in TABLES.equations.items():
        if equation.gas:
            gas = GASES[GASES.index(equation.gas) - 1]
            yield of_equation(code, replace(equation, gas=gas), gas)


def ratios() -> Iterator[Mistake]:
    """The ratio of each unit."""
    for word, unit in TABLES.units.items():
        if word != HALF_LIFE:
            other = replace(unit, ratio=unit.ratio * 10)
            yield Mistake(word, [word], replace(TABLES, units={**TABLES.units, word: other}))


def parents() -> Iterator[Mistake]:
    """The parent of each code."""
    for code in TABLES.codes[1:]:
        other = "4" if code.startswith("2") else "2"
        leaves = [leaf for leaf in TABLES.leaves if code in TABLES.above[leaf]]
        yield Mistake(code, leaves, replace(TABLES, parents={**TABLES.parents, code: other}))


class Mistakes(unittest.TestCase):
    """Each mistake is found."""

    def test_none(self) -> None:
        """Without a mistake no session shows one."""
        self.assertEqual(missed(iter([Mistake("none", ["year"], TABLES)])), ["none"])

    def test_exponents(self) -> None:
        self.assertEqual(missed(exponents()), [])

    def test_signs(self) -> None:
        self.assertEqual(missed(signs()), [])

    def test_parameters(self) -> None:
        self.assertEqual(missed(parameters()), [])

    def test_gases(self) -> None:
        self.assertEqual(missed(gases()), [])

    def test_ratios(self) -> None:
        self.assertEqual(missed(ratios()), [])

    def test_parents(self) -> None:
        self.assertEqual(missed(parents()), [])


class Rules(unittest.TestCase):
    def test_each_rule_is_broken(self) -> None:
        """The program prints each rule in the session of some seed."""
        replies = {line for session in sessions() for line in session.due.splitlines()}
        for rule in RULES:
            form = re.compile("refused " + re.sub(r"\b[A-Z]+\b", r"\\S+", rule))
            self.assertTrue(any(map(form.fullmatch, replies)), rule)


class Model(unittest.TestCase):
    """The model itself, without the program."""

    def test_stored_sessions(self) -> None:
        """It prints what stored sessions have to print."""
        sessions = [path for path in sorted((TESTS / "sessions").iterdir()) if path.suffix in (".script", ".review")]
        self.assertEqual({path.suffix for path in sessions}, {".script", ".review"})
        for script in sessions:
            with self.subTest(script.stem):
                due, given = script.with_suffix(".out").read_bytes(), script.read_bytes()
                is_review = script.suffix == ".review"
                answer = Desk(Office()).answer if is_review else Office().answer
                self.assertEqual(output_of(given, REVIEW_FORMS if is_review else FORMS, answer), due)

    def test_decay_brackets(self) -> None:
        """Each holds the share whose power by the tenths is one part of 1024, and both searches find it."""
        for tenths in (*range(10, 61), *range(70, 600, 53), 599, 600):
            low, high = decay_bracket(tenths)
            self.assertLessEqual(1024 * low**tenths, SCALE**tenths)
            self.assertLessEqual(SCALE**tenths, 1024 * high**tenths)
            self.assertLessEqual(high, low + 1025)
            least, greatest = (share * SCALE for share in shares_around(tenths))
            self.assertTrue(low <= least <= greatest <= high, tenths)
        self.assertEqual(decay_bracket(10), (SCALE // 2, SCALE // 2))

    def test_bounds_that_do_not_hold(self) -> None:
        """Of the worked session, 56.100 Gg are outside bounds that are a tonne too narrow."""
        script = (TESTS / "sessions" / "a-submission-acts-once.script").read_bytes()
        office = Office()
        for command in commands_in(script, FORMS)[0]:
            office.answer(command)
        central = Valuation(office.compilation.workbook, Choice(True, Random(0)))
        head = "table cells 1990 rows 2\ncode,category,equation,gas,unit,value,low,high\n"
        for low, high, rows in (("54.300", "58.300", 0), ("56.100", "56.100", 0), ("56.101", "58.300", 1),
                                ("54.300", "56.099", 1), ("NE", "NE", 1)):
            row = f"ELEC.GAS,1A1a,Q10,CO2,Gg,56.100,{low},{high}"
            self.assertEqual(list(outside(head + row + "\n", central)), [row] * rows)

    def test_differences(self) -> None:
        """The first line that differs is told, with the reply that it belongs to."""
        self.assertIsNone(first_difference("accepted 1\n", "accepted 1\n"))
        told = first_difference("table cells 1990 rows 2\na\nb\n", "table cells 1990 rows 2\na\nc\n")
        self.assertIn("line 3 ", str(told))
        self.assertIn("table cells 1990", str(told))


if __name__ == "__main__":
    unittest.main()
