"""Tables where files are refused, and what stands where no file is."""
import os
import pathlib
import signal
import subprocess
import sys
import tempfile
import time
import unittest

from tests.workbook.running import HEADER, TOP, workbook
from tools import vocabulary

PLANTS = "examples/power-plants"


class Refused(unittest.TestCase):
    def test_no_table_is_written(self) -> None:
        with tempfile.TemporaryDirectory() as out:
            ran = workbook("tables", PLANTS, "2020", "-o", out)
            self.assertEqual(list(pathlib.Path(out).iterdir()), [])
        self.assertEqual(ran.returncode, 1)
        self.assertIn("3-coal-in-a-wrong-unit.csv: refused 10 BadBinding COAL.CO2 EF", ran.stderr)
        self.assertIn("1 of 4 files is refused, and no table is written", ran.stderr)

    def test_partial_writes_all_the_same(self) -> None:
        with tempfile.TemporaryDirectory() as out:
            ran = workbook("tables", PLANTS, "2020", "-o", out, "--partial")
            written = sorted(path.name for path in pathlib.Path(out).iterdir())
        self.assertEqual(written, sorted(f"{name}-2020.csv" for name in vocabulary.tables()))
        self.assertEqual(ran.returncode, 1)

    def test_an_open_quote_that_takes_in_rows(self) -> None:
        folder = "tests/workbook/faults/an-open-quote-in-a-number"
        cause = "2-power.csv:5: an open quote: it takes in the rows up to line 7; take the quote out\n"
        for words in (["complete", folder], ["tables", folder, "2020"]):
            ran = workbook(*words)
            self.assertEqual(ran.returncode, 1)
            self.assertIn(cause, ran.stderr)

    def test_no_table_is_without_the_rows_of_an_open_quote(self) -> None:
        with tempfile.TemporaryDirectory() as room:
            rows = "enter,span,,,2019,2020,2019,,,\nenter,factor,,GWP.CO2,2019,1,,,1,\"of\n"
            (pathlib.Path(room) / "1.csv").write_text(HEADER + rows + "enter,factor,,GWP.CH4,2019,28,,,1,\n")
            ran = workbook("tables", room, "2020")
            partial = workbook("tables", room, "2020", "--partial")
        self.assertEqual((ran.stdout, ran.returncode, partial.returncode), ("", 1, 1))
        self.assertIn("./workbook: 1 quote is open, and no table is written", ran.stderr)
        self.assertIn("1 quote is open, and the tables are without the rows in it", partial.stderr)
        self.assertTrue(partial.stdout.startswith("code,"), partial.stdout)

    def test_a_year_outside_the_span(self) -> None:
        ran = workbook("tables", "examples/fuel-combustion", "2030")
        self.assertEqual(ran.returncode, 1)
        self.assertEqual(ran.stdout, "")
        due = "./workbook: there is no table of 2030: the span is 1990 to 2020\n"
        self.assertTrue(ran.stderr.endswith(due), ran.stderr)

    def test_what_is_no_year(self) -> None:
        for words in (["examples/how-to", "-5"], ["examples/how-to", "20"], ["2020", "examples/how-to"]):
            ran = workbook("tables", *words, "--program", "no-such-program")
            self.assertEqual((ran.returncode, ran.stdout), (2, ""))
            due = f"{words[1]} is no year: behind the folders stands a year of four digits\n"
            self.assertTrue(ran.stderr.endswith(due), ran.stderr)

    def test_what_is_no_table(self) -> None:
        ran = workbook("tables", "examples/how-to", "2020", "--table", "Cells", "--table", "summary")
        self.assertEqual((ran.returncode, ran.stdout), (1, ""))
        self.assertIn("./workbook: there is no table Cells; the tables are cells, summary, ", ran.stderr)

    def test_no_span(self) -> None:
        with tempfile.TemporaryDirectory() as room:
            (pathlib.Path(room) / "1.csv").write_text(HEADER)
            ran = workbook("tables", room, "2020")
        self.assertEqual((ran.returncode, ran.stdout), (1, ""))
        self.assertIn("./workbook: there is no table of 2020: no span is in force\n", ran.stderr)


class Folders(unittest.TestCase):
    def folder_of(self, room: str, **files: str) -> str:
        """Writes files into a folder, with `__` in place of the point of a name."""
        for name, text in files.items():
            (pathlib.Path(room) / name.replace("__", ".")).write_text(text)
        return room

    def test_natural_order(self) -> None:
        with tempfile.TemporaryDirectory() as room:
            self.folder_of(room, **{"10__csv": HEADER, "2__csv": HEADER})
            ran = workbook("tables", room, "2020")
        self.assertEqual([line.split(":")[0] for line in ran.stderr.splitlines()[:2]], ["2.csv", "10.csv"])

    def test_order_file(self) -> None:
        with tempfile.TemporaryDirectory() as room:
            self.folder_of(room, **{"10__csv": HEADER, "2__csv": HEADER, "3__csv": HEADER},
                           ORDER__txt="# first\n10.csv\n\n2.csv\n")
            ran = workbook("check", room)
        self.assertEqual(ran.stdout.splitlines(), [
            "10.csv:1 warning: a header alone: the file has no rows",
            "10.csv:1 warning: no span is in force, so that there is no table",
            "2.csv:1 warning: a header alone: the file has no rows",
            "3.csv warning: ORDER.txt does not list this file, and it is left out",
            "2 files: 0 faults, 4 warnings"])

    def test_order_file_with_a_name_that_is_none(self) -> None:
        with tempfile.TemporaryDirectory() as room:
            self.folder_of(room, **{"1__csv": "", "ORDER__txt": "1.csv\n2.csv\n"})
            ran = workbook("check", room)
        self.assertEqual(ran.returncode, 2)
        self.assertIn("there is no file 2.csv", ran.stderr)

    def test_order_file_with_a_name_twice(self) -> None:
        with tempfile.TemporaryDirectory() as room:
            self.folder_of(room, **{"1__csv": HEADER, "ORDER__txt": "1.csv\n1.csv\n"})
            ran = workbook("check", room)
        self.assertEqual((ran.returncode, ran.stdout), (2, ""))
        self.assertEqual(ran.stderr, f"./workbook: {room}/ORDER.txt: the file 1.csv stands there twice\n")

    def test_folder_without_files(self) -> None:
        with tempfile.TemporaryDirectory() as room:
            ran = workbook("check", room)
        self.assertEqual((ran.returncode, ran.stdout), (2, ""))
        self.assertEqual(ran.stderr, f"./workbook: {room} has no CSV files\n")

    def test_order_file_that_is_no_text(self) -> None:
        with tempfile.TemporaryDirectory() as room:
            self.folder_of(room, **{"1__csv": ""})
            (pathlib.Path(room) / "ORDER.txt").write_bytes("1.csv\n".encode("utf-16"))
            ran = workbook("check", room)
        self.assertEqual((ran.returncode, ran.stdout), (2, ""))
        self.assertEqual(ran.stderr, f"./workbook: {room}/ORDER.txt is not UTF-8\n")

    def test_names_with_other_digits(self) -> None:
        with tempfile.TemporaryDirectory() as room:
            self.folder_of(room, **{"1\u00b22__csv": "", "1\u00b21__csv": ""})
            ran = workbook("check", room)
        names = [line.split(":")[0] for line in ran.stdout.splitlines()[:2]]
        self.assertEqual(names, ["1\u00b21.csv", "1\u00b22.csv"])

    def test_output_that_is_no_folder(self) -> None:
        with tempfile.NamedTemporaryFile() as file:
            ran = workbook("tables", "examples/how-to", "2020", "-o", file.name)
        self.assertEqual((ran.returncode, ran.stdout), (2, ""))
        self.assertIn(f"./workbook: {file.name} is no folder", ran.stderr)

    def test_no_folder(self) -> None:
        ran = workbook("check", "no-such-folder")
        self.assertEqual((ran.returncode, ran.stdout), (2, ""))
        self.assertIn("no-such-folder is no folder", ran.stderr)

    def test_a_program_in_the_folder_at_hand(self) -> None:
        with tempfile.TemporaryDirectory() as room:
            (pathlib.Path(room) / "1.csv").write_text(HEADER)
            program = pathlib.Path(room) / "program"
            program.write_text("#!/bin/sh\necho accepted 1\ncat > /dev/null\n")
            program.chmod(0o755)
            ran = workbook("check", ".", "--no-warnings", "--program", "program", cwd=room)
        self.assertEqual((ran.stdout, ran.stderr), ("1 file: 0 faults, 0 warnings\n", ""))

    def test_what_is_no_file(self) -> None:
        with tempfile.TemporaryDirectory() as room:
            for name in ("1.csv", "ORDER.txt"):
                os.mkfifo(pathlib.Path(room) / name)
                ran = workbook("check", room)
                self.assertEqual((ran.returncode, ran.stdout), (2, ""))
                self.assertIn(f"{name} is no file", ran.stderr)

    def test_bytes_that_are_no_rows(self) -> None:
        with tempfile.TemporaryDirectory() as room:
            (pathlib.Path(room) / "1.csv").write_bytes(b'\x00\x01"a;b;c;d;e;f";";;;;;;"\x07' * 40000)
            ran = workbook("check", room, "--no-warnings")
        self.assertEqual((ran.returncode, ran.stderr), (1, ""))
        causes = [line.split(": ", 1)[1] for line in ran.stdout.splitlines()]
        self.assertEqual(len(causes), len(set(causes)))

    def test_no_program(self) -> None:
        ran = workbook("check", PLANTS, "--program", "/no/such/program")
        self.assertEqual((ran.returncode, ran.stdout), (2, ""))
        self.assertIn("there is no program at /no/such/program; name one by --program", ran.stderr)


class Tools(unittest.TestCase):
    def test_a_fault_of_their_own_is_one_line(self) -> None:
        broken = ("import tools.wordlist, tools.command\ntools.wordlist.run = lambda words: {}['Q104']\n"
                  "exit(tools.command.main(['words']))")
        ran = subprocess.run([sys.executable, "-B", "-c", broken], cwd=TOP, capture_output=True, text=True)
        self.assertEqual((ran.returncode, ran.stdout), (2, ""))
        said = "./workbook: a fault of the tools themselves, and none of your files"
        self.assertEqual(ran.stderr, f"{said}: KeyError 'Q104' at <string>:2\n")


class Programs(unittest.TestCase):
    def said_with(self, script: str) -> str:
        """What check says where the program is a script of the shell."""
        with tempfile.TemporaryDirectory() as room:
            program = pathlib.Path(room) / "program"
            program.write_text(f"#!/bin/sh\n{script}\n")
            program.chmod(0o755)
            ran = workbook("check", PLANTS, "--program", str(program))
        self.assertEqual((ran.returncode, ran.stdout), (2, ""))
        return ran.stderr

    def test_that_ends(self) -> None:
        said = "./workbook: the program ended with status 3 before it had answered\n"
        self.assertEqual(self.said_with("exit 3"), said)

    def test_that_is_interrupted(self) -> None:
        with tempfile.TemporaryDirectory() as room:
            program = pathlib.Path(room) / "program"
            program.write_text(f"#!/bin/sh\ntouch {room}/started\nexec sleep 60\n")
            program.chmod(0o755)
            words: list[str | pathlib.Path] = [TOP / "workbook", "check", PLANTS, "--program", program]
            run = subprocess.Popen(words, cwd=TOP, text=True, stdout=subprocess.PIPE, stderr=subprocess.PIPE,
                                   start_new_session=True,
                                   preexec_fn=lambda: signal.signal(signal.SIGINT, signal.SIG_DFL))
            while run.poll() is None and not (pathlib.Path(room) / "started").exists():
                time.sleep(0.01)
            os.killpg(run.pid, signal.SIGINT)
            self.assertEqual((*run.communicate(timeout=60), run.returncode), ("", "", 130))

    def test_that_answers_something_else(self) -> None:
        said = "./workbook: the program answered a submission with: "
        self.assertEqual(self.said_with("read line; echo hello; cat > /dev/null"), f"{said}hello\n")
        odd = self.said_with("read line; printf '\\377\\n'; cat > /dev/null")
        self.assertEqual(odd, f"{said}\\xff\n")


if __name__ == "__main__":
    unittest.main()
