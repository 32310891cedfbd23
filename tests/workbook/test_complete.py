"""Which years are estimated, and the gaps: the folder `complete` has each state, and due.txt says what is
printed.
"""
import pathlib
import tempfile
import unittest

from tests.workbook.running import HEADER, HERE, workbook


class States(unittest.TestCase):
    maxDiff = None

    def test_states_and_lists(self) -> None:
        ran = workbook("complete", HERE / "complete")
        due = (HERE / "complete/due.txt").read_text()
        self.assertEqual(ran.stdout[:len(due)], due)
        self.assertIn("\n  1A1c Manufacture of solid fuels and other energy industries\n", ran.stdout)
        self.assertNotIn("\n  1A1b ", ran.stdout[len(due):])
        self.assertEqual(ran.returncode, 1)

    def test_csv(self) -> None:
        ran = workbook("complete", HERE / "complete", "--csv")
        self.assertEqual(ran.stdout.splitlines(), [
            "category,gas,2017,2018,2019,2020", "1A1a,CO2,E,E,!,E", "1A1b,CO2,!,NO,IE,NA",
            "1A1b,CH4,NE,NE,NE,NE", "1A2,CO2,NO,E,NE,E"])
        self.assertEqual(ran.returncode, 1)

    def test_over_many_lines(self) -> None:
        rows = ["enter,span,,,2019,2020,2019,,,"]
        for number in range(1000):
            rows += [f"enter,line,RA,L{number},,Q22,,,,", f"enter,bind,L{number},PR,,line,L{number + 1},,,"]
            rows += [f"enter,bind,L{number},{name},,key,NO,,," for name in ("IM", "EX", "IB", "SC")]
        rows += ["enter,line,RA,L1000,,Q13,,,,", "enter,bind,L1000,FM,,activity,T,,,"]
        rows += ["enter,bind,L1000,NCV,,key,NO,,,", "enter,activity,,T,2020,1,,,t,"]
        rows += ["enter,line,RA,CO2,,Q10,,,,", "enter,bind,CO2,FC,,line,L0,,,"]
        rows += ["enter,bind,CO2,EF,,key,NE,,,"]
        with tempfile.TemporaryDirectory() as room:
            (pathlib.Path(room) / "1.csv").write_text(HEADER + "\n".join(rows) + "\n")
            ran = workbook("complete", room)
        self.assertEqual(ran.stdout.splitlines()[:2], ["           19 20", "RA   CO2   !  NE"])

    def test_a_refused_file_is_told(self) -> None:
        ran = workbook("complete", "examples/power-plants")
        self.assertIn("1 of 4 files is refused, and the years are without it; "
                      "./workbook check examples/power-plants tells why", ran.stderr)
        self.assertEqual(ran.returncode, 1)

    def test_without_a_span(self) -> None:
        with tempfile.TemporaryDirectory() as room:
            (pathlib.Path(room) / "1.csv").write_text(f"{HEADER}enter,activity,,A,2020,1,,,t,\n")
            ran = workbook("complete", room)
        self.assertEqual((ran.returncode, ran.stdout), (1, ""))
        self.assertIn("./workbook: no span is in force, so that there are no years\n", ran.stderr)

    def test_nothing_is_wrong(self) -> None:
        ran = workbook("complete", "examples/how-to")
        self.assertEqual(ran.stdout.splitlines()[:5], [
            "           18 19 20", "1A1a CO2   NO NE E", "2A1  CO2   E  NE E", "2B2  N2O   E  E  E",
            "3B3  CO2   E  E  E"])
        self.assertEqual(ran.returncode, 0)


if __name__ == "__main__":
    unittest.main()
