"""What differs between the built program and the model, on the session of a seed."""
import random
import subprocess
from itertools import zip_longest
from typing import Iterator, Optional

from tests.oracle.exact import Choice, Valuation, outside
from tests.oracle.model import Show, script_of
from tests.oracle.workbooks import Step

SECONDS = 120
DRAWN = 2
END = "(the end)"


def printed(program: str, script: bytes, command: str = "compile") -> str:
    """What a command of the program prints for a script, and how it ended where that is no success."""
    try:
        run = subprocess.run([program, command], input=script, stdout=subprocess.PIPE, timeout=SECONDS)
    except subprocess.TimeoutExpired:
        return f"(had not ended after {SECONDS} seconds)\n"
    ending = f"(status {run.returncode})\n" if run.returncode else ""
    return run.stdout.decode(errors="replace") + ending


def script_in(steps: list[Step]) -> bytes:
    """The script of a session."""
    return script_of([step.command for step in steps])


def first_difference(program: str, model: str) -> Optional[str]:
    """The first line that differs, and the reply that it belongs to."""
    reply = ""
    lines = zip_longest(program.split("\n"), model.split("\n"), fillvalue=END)
    for number, (left, right) in enumerate(lines, 1):
        if left != right:
            return f"line {number} of the output, after {reply!r}:\n  program {left}\n  model   {right}"
        if left.startswith(("accepted", "repeated", "refused", "table", "no table", "frozen")):
            reply = left
    return None


def rows_outside(steps: list[Step], seed: int) -> Iterator[str]:
    """The printed rows whose bounds do not hold the exact values, central ones and drawn ones."""
    source = random.Random(seed)
    for before, step in zip([None, *steps], steps):
        if before is None or step.workbook is not before.workbook:
            valuations = [Valuation(step.workbook, Choice(is_central, source))
                          for is_central in [True] + [False] * DRAWN]
        if isinstance(step.command, Show) and step.reply.startswith("table"):
            for valuation in valuations:
                yield from outside(step.reply, valuation)


def difference(program: str, steps: list[Step], seed: int, command: str = "compile") -> Optional[str]:
    """The first difference in a session, or nothing."""
    due = "".join(step.reply for step in steps)
    found = first_difference(printed(program, script_in(steps), command), due)
    if found:
        return found
    row = next(rows_outside(steps, seed), None)
    return row and f"a row whose bounds do not hold the exact value:\n  {row}"
