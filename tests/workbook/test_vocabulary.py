"""The vocabulary against the program: each word of it is one of the program's, and measures what it says."""
import decimal
import subprocess
import unittest

from tests.workbook.running import HEADER, HEADER_2, TOP, session, workbook
from tools import half_lives, sheets, vocabulary

SPAN = HEADER + "enter,span,,,2019,2020,2019,,,\n"
TENTH = decimal.Decimal("0.1")


def replies(*bodies: str) -> list[str]:
    """The replies to bodies, each submitted in turn."""
    parts = [f"SUBMIT s{at} {len(body.encode())}\n{body}" for at, body in enumerate(bodies)]
    return session(("".join(parts) + "END\n").encode()).decode().splitlines()


def bindable() -> list[str]:
    """The codes whose parameters all have a unit or a form that binds them."""
    codes = vocabulary.equations()
    if "decay" in vocabulary.words()["forms"]:
        return list(codes)
    return [code for code in codes if all(parameter["unit"] for parameter in codes[code]["parameters"])]


def line_of(code: str, category: str = "RA") -> str:
    """A body with a line of an equation, whose parameters are bound to factors in their base units."""
    rows = [f"enter,line,{category},L.{code},,{code},,,,"]
    for parameter in vocabulary.equations()[code]["parameters"]:
        name = f"{code}.{parameter['name']}"
        if parameter["unit"] is None:
            rows.append(f"enter,bind,L.{code},{parameter['name']},,decay,{name},,,")
            rows.append(f"enter,factor,,{name},2019,1,,,yr,")
            continue
        rows.append(f"enter,bind,L.{code},{parameter['name']},,factor,{name},,,")
        rows.append(f"enter,factor,,{name},2019,1,,,{parameter['unit']},")
    return HEADER + "\n".join(rows) + "\n"


class Words(unittest.TestCase):
    def accepted(self, *bodies: str) -> None:
        self.assertEqual(replies(SPAN, *bodies), [f"accepted {at}" for at in range(1, len(bodies) + 2)])

    def test_units_are_taken_and_measure_what_they_say(self) -> None:
        rows: list[str] = []
        for word, unit in vocabulary.units().items():
            base = vocabulary.units_that_measure(unit["measures"])[0]
            name = f"U{len(rows)}"
            rows += [f"enter,factor,,{name},2019,1,,,{base},", f"enter,factor,,{name},2020,1,,,{word},"]
        self.accepted(HEADER + "\n".join(rows) + "\n")

    def test_units_of_two_dimensions_are_refused(self) -> None:
        measured = dict.fromkeys(unit["measures"] for unit in vocabulary.units().values())
        bases = [vocabulary.units_that_measure(measures)[0] for measures in measured]
        bodies = [HEADER + f"enter,factor,,U,2019,1,,,{one},\nenter,factor,,U,2020,1,,,{other},\n"
                  for one, other in zip(bases, bases[1:])]
        self.assertEqual(set(replies(SPAN, *bodies)[1:]), {"refused 8 WrongUnit row 2"})

    def test_leaves_alone_are_taken(self) -> None:
        bodies = [HEADER + f"enter,line,{code},L,,Q10,,,,\n" for code in vocabulary.categories()]
        for code, reply in zip(vocabulary.categories(), replies(SPAN, *bodies)[1:]):
            leaf = code in vocabulary.leaves()
            due = "10 BadBinding L EF" if leaf else "5 UnknownWord row 1 column subject"
            self.assertEqual(reply, f"refused {due}", code)

    def test_equations_have_their_parameters(self) -> None:
        self.accepted(*(line_of(code) for code in bindable()))

    def test_outputs_are_as_said(self) -> None:
        bodies = enumerate([SPAN, *map(line_of, bindable())])
        submitted = "".join(f"SUBMIT s{at} {len(body)}\n{body}" for at, body in bodies)
        shown = session(f"{submitted}SHOW cells 2020\nEND\n".encode()).decode().splitlines()
        rows = {row.split(",")[2]: row.split(",")[3:5] for row in shown if row.startswith("L.")}
        for code in bindable():
            output = vocabulary.equations()[code]["output"]
            due = [output["gas"], "Gg"] if "gas" in output else ["-", output["unit"]]
            self.assertEqual(rows[code], due, code)

    def test_tables_acts_forms_and_keys(self) -> None:
        words, unknown_kind = vocabulary.words(), "refused 5 UnknownWord row 1 column kind"
        self.assertEqual(len(words["acts"]), 3)
        for act in words["acts"]:
            self.assertEqual(replies(HEADER + f"{act},,,,,,,,,\n"), [unknown_kind])
        for kind in words["kinds"]:
            self.assertNotEqual(replies(HEADER + f"enter,{kind},,,,,,,,\n"), [unknown_kind])
        script = SPAN_SCRIPT + "".join(f"SHOW {table} 2020\n" for table in vocabulary.tables()) + "END\n"
        shown = session(script.encode()).decode().splitlines()
        for table in words["tables"]:
            self.assertIn(table["header"], shown)
        keys = [f"enter,activity,,A{at},2020,{key},,,t,\n" for at, key in enumerate(words["keys"])]
        self.accepted(HEADER + "".join(keys))
        self.accepted(HEADER + "".join(f"enter,factor,,{name},2020,1,,,1,\n" for name in words["potentials"]))

    def test_limits_are_those_of_the_program(self) -> None:
        limits = {name: int(text) for name, text in vocabulary.words()["limits"].items() if text.isdigit()}

        def activity(name: str, year: int | str, value: int | str) -> str:
            return HEADER + f"enter,activity,,{name},{year},{value},,,t,\n"

        for more, due in ((0, "accepted"), (1, "refused")):
            bodies = [
                activity("D", 2020, "1." + "1" * (limits["decimals"] + more)),
                activity("W", 2020, "1" * (limits["digits"] + more)),
                activity("N" * (limits["name"] + more), 2020, 1),
                activity("F", limits["first_year"] - more, 1),
                activity("L", limits["last_year"] + more, 1),
                HEADER + f"enter,span,,,1950,{1950 + limits['span'] + more},1950,,,\n"]
            self.assertEqual([reply.split()[0] for reply in replies(*bodies)], [due] * len(bodies))

    def test_headers_are_those_of_the_program(self) -> None:
        words = vocabulary.words()
        self.assertEqual(words["header"], sheets.COLUMNS)
        self.assertEqual(words["formats"], list(sheets.FIRST_NAMES.values()))
        for version, header in sheets.HEADERS.items():
            self.assertEqual(replies(",".join(header) + "\n"), ["accepted 1"], version)

    def test_half_lives_are_those_of_the_program(self) -> None:
        whole, others = ["1", "12", "60"], ["1.0", "1.5", "59.9", "60.0"]
        for version, due in ((1, whole), (2, [*whole, *others])):
            years = [*whole, *others, "0", "0.9", "60.1", "61", "1.50", "NO"]
            bodies = [",".join(sheets.HEADERS[version]) + f"\nenter,factor,,H{at},2019,{value},,,yr,\n"
                      for at, value in enumerate(years)]
            wrong = "refused 6 BadNumber row 1 column value"
            self.assertEqual([value for value, reply in zip(years, replies(*bodies)) if reply != wrong], due)
            shortest, longest = half_lives.limits()
            self.assertEqual([half_lives.rounded(figure, version) is not None for figure in (
                shortest, longest, shortest / 2 - TENTH, longest + 1)], [True, True, False, False])

    def test_file_is_what_the_code_says(self) -> None:
        made = subprocess.run([TOP / "tools/facts"], capture_output=True, check=True).stdout
        self.assertEqual(made, vocabulary.PATH.read_bytes())


SPAN_SCRIPT = f"SUBMIT s {len(SPAN)}\n{SPAN}"


class Search(unittest.TestCase):
    def test_by_a_word_of_the_name(self) -> None:
        self.assertIn("1A1a  Main activity electricity and heat production "
                      "(also public electricity and heat; power plants)\n",
                      workbook("words", "categories", "public", "heat").stdout)
        self.assertIn("Q39  Nitric or adipic acid with abatement, to N2O, Volume 3, Equations 3.6 and 3.8",
                      workbook("words", "equations", "nitric").stdout)
        self.assertIn("g/GJ   emission factor of fuel, 1 kg/TJ\n",
                      workbook("words", "units", "fuel", "emission").stdout)
        self.assertIn("FC     energy (TJ): Q10, Q11, Q12\n", workbook("words", "parameters", "FC").stdout)

    def test_by_what_people_write(self) -> None:
        for written, word in (("tonne", "t"), ("MWh", "GWh"), ("%", "pct"), ("hectare", "ha")):
            found = workbook("words", "units", written).stdout.splitlines()
            self.assertIn(word, [line.split()[0] for line in found], written)

    def test_by_other_forms_of_a_word(self) -> None:
        for written, due in (
                ("tonnes", "  t       mass\n"), ("1.A.1.a", "  1A1a  Main activity electricity"),
                ("1A1ai", "  1A1a  Main activity electricity"), ("2.C.1.f", "  2C1  Iron and steel"),
                ("m\u00b3", "  m3  volume; for m\u00b3 the same number\n"),
                ("kg N2O-N/kg N", "  kg/kg  ratio; for kg N2O-N/kg N the same number\n"),
                ("kilotonnes of oil equivalent", "  ktoe  energy; for kilotonnes of oil equivalent")):
            self.assertIn(due, workbook("words", *written.split()).stdout, written)

    def test_templates_bind_what_a_line_gave_last_year(self) -> None:
        for code, line in (("Q91", "NAME"), ("Q92", "STOCK")):
            rows = workbook("words", code).stdout.splitlines()
            self.assertIn(f"enter,bind,NAME,PREV,,prev,{line},,,", rows)
            self.assertFalse([row for row in rows if "NAME.PREV" in row])

    def test_nothing(self) -> None:
        ran = workbook("words", "unobtainium")
        self.assertEqual((ran.returncode, ran.stdout), (1, "nothing has unobtainium in it\n"))

    def test_templates_are_rows_that_the_program_takes(self) -> None:
        filled = {"CATEGORY": "RA", "YEAR,VALUE,LOW,HIGH": "2020,1,0.5,2", "YEAR,VALUE,,": "2020,1,,"}
        for code in [code for code in ("Q10", "Q39", "Q63", "Q91") if code in bindable()]:
            body = HEADER_2 + workbook("words", code).stdout.split(HEADER_2)[1]
            for blank, text in filled.items():
                body = body.replace(blank, text)
            if ",line,LINE," in body:
                body += line_of("Q90").replace("L.Q90", "LINE").removeprefix(HEADER)
            self.assertEqual(replies(SPAN, body), ["accepted 1", "accepted 2"], code)


if __name__ == "__main__":
    unittest.main()
