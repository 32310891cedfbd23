"""`--json` prints for programs, `--quiet` leaves out what went well, and terminals show progress."""
from __future__ import annotations

import importlib.util
import json
import os
import pathlib
import pty
import subprocess
import tempfile
import typing
import unittest

from tests.workbook.running import HEADER, HERE, PROGRAM, TOP, workbook

EXAMPLE = TOP / "examples/power-plants"
HOW_TO = TOP / "examples/how-to"
LIBRARIES = [name for name in ("jinja2", "matplotlib") if not importlib.util.find_spec(name)]


def parsed(*words: typing.Any) -> dict[str, typing.Any]:
    """The JSON that a command prints."""
    found: dict[str, typing.Any] = json.loads(workbook(*words, "--json").stdout)
    return found


def on_a_terminal(*words: typing.Any, status: int = 0) -> str:
    """What a command says on standard error if that is a terminal; one without a byte fails to be read."""
    ours, theirs = pty.openpty()
    environment = {**os.environ, "GHG_PROGRAM": PROGRAM}
    command = [TOP / "workbook", *words]
    ran = subprocess.run(command, env=environment, stdout=subprocess.DEVNULL, stderr=theirs, check=False)
    if ran.returncode != status:
        raise AssertionError(f"status {ran.returncode}")
    os.close(theirs)
    try:
        return os.read(ours, 65536).decode("utf-8")
    except OSError:
        return ""
    finally:
        os.close(ours)


class Json(unittest.TestCase):
    def test_check_tells_the_same(self) -> None:
        for folder in (EXAMPLE, HOW_TO, HERE / "faults/notation-keys"):
            found = parsed("check", folder)
            lines = workbook("check", folder).stdout.splitlines()
            for fault, line in zip([*found["faults"], *found["warnings"]], lines):
                self.assertTrue(line.startswith(f"{fault['file']}:{fault['line']}"), line)
                self.assertIn(fault["cause"], line)
            self.assertEqual(len(found["faults"]) + len(found["warnings"]), len(lines) - 1)
            self.assertEqual(len(found["files"]), len(list(folder.glob("*.csv"))))

    def test_status_is_that_of_the_check(self) -> None:
        self.assertEqual(workbook("check", EXAMPLE, "--json").returncode, 1)
        self.assertEqual(workbook("check", HOW_TO, "--json").returncode, 0)

    def test_what_is_left_out(self) -> None:
        with tempfile.TemporaryDirectory() as folder:
            for name in ("1.csv", "2.csv"):
                with open(f"{folder}/{name}", "w", encoding="utf-8") as file:
                    file.write("act,kind,subject,name,year,value,low,high,unit,note\n")
            with open(f"{folder}/ORDER.txt", "w", encoding="utf-8") as file:
                file.write("1.csv\n")
            found = parsed("check", folder)
        due = "ORDER.txt does not list this file, and it is left out"
        self.assertEqual(found["left_out"], [{"file": "2.csv", "cause": due}])

    def test_complete_tells_the_same(self) -> None:
        found = parsed("complete", HOW_TO)
        rows = workbook("complete", HOW_TO, "--csv").stdout.splitlines()
        years = rows[0].split(",")[2:]
        shown = [",".join([row["category"], row["gas"], *(row["states"][year] for year in years)])
                 for row in found["states"]]
        self.assertEqual(shown, rows[1:])
        self.assertEqual(found["gaps_in_a_series"], [])
        self.assertIn("2A2 Lime production", found["categories_without_a_line"])


class Quiet(unittest.TestCase):
    def test_files_that_are_accepted_are_not_said(self) -> None:
        commands: list[list[str | pathlib.Path]] = [
            ["tables", HOW_TO, "2020"], ["complete", HOW_TO], ["trace", HOW_TO, "2020", "gross"],
            ["compare", HOW_TO, "--", HOW_TO]]
        for words in commands:
            loud, quiet = workbook(*words), workbook(*words, "--quiet")
            self.assertIn("accepted", loud.stderr)
            self.assertEqual((quiet.stdout, quiet.stderr), (loud.stdout, ""))

    def test_refusals_are_said(self) -> None:
        quiet = workbook("tables", EXAMPLE, "2020", "--quiet")
        self.assertEqual(len(quiet.stderr.splitlines()), 2)
        self.assertIn("refused 10 BadBinding COAL.CO2 EF", quiet.stderr)


class Progress(unittest.TestCase):
    def test_files_and_rows_are_counted_on_a_terminal(self) -> None:
        for words in (["check", HOW_TO], ["tables", HOW_TO, "2020"]):
            shown = on_a_terminal(*words)
            self.assertIn("\r3 of 4 files, 17 of 57 rows done: 3-stock.csv", shown)
            self.assertNotIn("files,", on_a_terminal(*words, "--quiet"))
        self.assertIn("\r4 of 4 files, 57 of 57 rows done: warnings", on_a_terminal("check", HOW_TO))

    def test_rows_are_counted_within_a_file(self) -> None:
        with tempfile.TemporaryDirectory() as room:
            wrong = "enter,activity,,GAS,2020,1 000,,,TJ,\n"
            (pathlib.Path(room) / "1.csv").write_text(f"{HEADER}enter,span,,,2020,2020,2020,,,\n{wrong}")
            shown = on_a_terminal("check", room, status=1)
        self.assertIn("\r1 of 1 file, 2 of 2 rows done: 1.csv", shown)

    @unittest.skipIf(LIBRARIES, f"not installed: {' '.join(LIBRARIES)}")
    def test_a_report_shows_how_far_it_is(self) -> None:
        with tempfile.TemporaryDirectory() as room:
            words = ["report", HOW_TO, "-o", f"{room}/report.html"]
            shown, quiet = on_a_terminal(*words), on_a_terminal(*words, "--quiet")
        self.assertIn("\r3 of 4 files, 17 of 57 rows done: 3-stock.csv", shown)
        self.assertIn("\r4 of 4 files, 57 of 57 rows done: tables and pictures", shown)
        self.assertNotIn("files,", quiet)

    def test_nothing_is_shown_elsewhere(self) -> None:
        self.assertEqual(workbook("check", HOW_TO).stderr, "")


if __name__ == "__main__":
    unittest.main()
