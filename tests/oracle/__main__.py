"""Compares the built program with the model on random workbooks.

    python3 -B -m tests.oracle PROGRAM [--count N] [--seed S]

Each seed, from S on, gives a session, and each third one a session of `review`, with versions, differences
and trends. The program has to print what the model prints, byte for byte. The bounds that `cells`, `summary`
and `series` print have to hold the exact values: those of the central figures, and those of others that are
drawn between the bounds of each. Prints each difference, with its seed and the file of its script. The exit
status is 0 only where there is none.
"""
import argparse
import pathlib
import sys
import tempfile

from tests.oracle.comparing import difference, script_in
from tests.oracle.workbooks import review_of, session_of

COUNT = 300
# Each seed that this divides is that of a review.
REVIEWED = 3


def main() -> int:
    """Compares, and gives the exit status."""
    parser = argparse.ArgumentParser(prog="python3 -m tests.oracle", description=__doc__,
                                     formatter_class=argparse.RawDescriptionHelpFormatter)
    parser.add_argument("program", metavar="PROGRAM", type=pathlib.Path)
    parser.add_argument("--count", metavar="N", type=int, default=COUNT, help=f"how many workbooks ({COUNT})")
    parser.add_argument("--seed", metavar="S", type=int, default=0, help="the first seed (0)")
    given = parser.parse_args()
    wrong = 0
    for seed in range(given.seed, given.seed + given.count):
        is_review = seed % REVIEWED == 0
        steps = review_of(seed) if is_review else session_of(seed)
        found = difference(str(given.program.resolve()), steps, seed, "review" if is_review else "compile")
        if found:
            wrong += 1
            script = pathlib.Path(tempfile.gettempdir()) / f"oracle-{seed}.script"
            script.write_bytes(script_in(steps))
            print(f"seed {seed}, script {script}: {found}")
    print(f"{given.count} workbooks, {wrong} with a difference")
    return 1 if wrong or given.count < 1 else 0


sys.exit(main())
