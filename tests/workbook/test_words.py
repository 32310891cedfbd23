"""What `words` finds by people's names for things and in defaults/, and its templates of rows."""
from __future__ import annotations

import contextlib
import io
import unittest

from tests.workbook.running import HEADER, HEADER_2, TOP, session, workbook
from tools import people_words, wordlist
from tools.row_templates import TEMPLATES

# What is searched, and the beginnings of lines that have to be among those that are found.
FOUND = {
    "dairy": ["  3A1  ", "  3A2  ", "  Q55  ", "  ENTERIC.DAIRY.W.EUROPE   117 kg/head, 58.5 to 175.5: "],
    "dairy cows": ["  3A1  ", "  Q55  ", "  ENTERIC.DAIRY.OCEANIA "],
    "diesel": ["  1A3b  ", "  Q10  ", "  fuel  ", "  CO2.GAS.DIESEL.OIL       74100 kg/TJ, 72600 to 74800: "],
    "petrol": ["  Q12  ", "  CO2.MOTOR.GASOLINE "],
    "GWP": ["  potentials  ", "  GWP.CH4   28: Fifth Assessment Report"],
    "GWPs": ["  potentials  "],
    "co2 equivalent": ["potentials: "],
    "HFC": ["other-gases: ", "enter,line,5B,NAME,,Q32,,,,"],
    "HFCs": ["other-gases: "],
    "SF6": ["other-gases: "],
    "air conditioning": ["other-gases: "],
    "2F1": ["other-gases: "],
    "2.F.1": ["other-gases: "],
    "refrigeration": ["other-gases: "],
    "hard coal": ["  Q10  ", "  CO2.BITUMINOUS "],
    "withdraw": ["withdraw: ", "withdraw,line,,LINE,,,,,,"],
    "templates correct": ["correct: ", "correct,activity,,ACTIVITY,YEAR,VALUE,LOW,HIGH,UNIT,"],
    "lignite defaults": ["CO2.LIGNITE  ", "NCV.LIGNITE  "],
    "Q93": ["enter,bind,NAME,DEC,,line,LINE,,,"],
    "Q94": ["enter,bind,NAME,GEN,,line,LINE,,,"],
    "Q84": ["enter,bind,NAME,C,,line,LINE,,,"],
    "span": ["span: ", "enter,span,,,FIRST,LAST,BASE,,,"],
    "base year": ["span: "],
    "uncert": ["uncertainties: ", "enter,uncert,,LINE,,ACTIVITY,FACTOR,,,"],
    "template": ["span  ", "potentials  ", "fuel  ", "uncertainties  ", "correct  ", "withdraw  ",
                 "not-occurring  ", "other-gases  "],
    "templates fuel": ["fuel: ", "enter,line,CATEGORY,NAME.CH4,,Q11,,,,"],
    "does not occur": ["not-occurring: ", "enter,bind,NAME,FC,,key,NO,,,"],
    "nitrous oxide": ["  Q12   ", "  3C4  "],
    "flights": ["  1A3a  ", "  MB "],
    "aluminum": ["  2C3  ", "  Q41  "],
    "rubbish": ["  4A ", "  Q91  "],
    "defaults lignite": ["CO2.LIGNITE  ", "NCV.LIGNITE  "],
    "defaults GWP.CH4": ["GWP.CH4  28: ", "GWP.CH4  25: ", "GWP.CH4  21: "],
    "defaults half-life": ["HALFLIFE.PAPER.TEMP.DRY "],
}
# What the capitals of templates are filled with.
FILLED = {
    "withdraw,bind,LINE,PARAMETER,": "withdraw,bind,GAS.CO2,FC,,,,,,\nwithdraw,bind,GAS.CO2,EF,",
    "FIRST,LAST,BASE": "2019,2020,2019", "YEAR,VALUE,LOW,HIGH": "2019,2,1,3", ",VALUE,": ",2,",
    "CATEGORY": "1A1a", "LINE,,ACTIVITY,FACTOR": "GAS.CO2,,5,7.5", "LINE": "GAS.CO2", "NAME": "GAS",
    "ACTIVITY,YEAR,,": "GAS.TJ,2019,,", "ACTIVITY,2019,2,1,3,UNIT": "GAS.TJ,2019,2.5,1,3,TJ",
}
# Templates of rows for records that are there.
OF_RECORDS = ("uncertainties", "correct", "withdraw")


def found_by(text: str) -> list[str]:
    """The lines that are printed for words."""
    out = io.StringIO()
    with contextlib.redirect_stdout(out):
        wordlist.run(text.split())
    return out.getvalue().splitlines()


class Search(unittest.TestCase):
    def test_what_is_found(self) -> None:
        for text, due in FOUND.items():
            lines = found_by(text)
            for beginning in due:
                is_there = any(line.startswith(beginning) for line in lines)
                self.assertTrue(is_there, (text, beginning, lines[:9]))

    def test_by_the_command(self) -> None:
        ran = workbook("words", "dairy")
        self.assertEqual((ran.returncode, ran.stdout.splitlines()), (0, found_by("dairy")))

    def test_each_of_people_s_words_finds_what_it_means(self) -> None:
        for word, meanings in people_words.meanings().items():
            lines = found_by(word)
            self.assertGreater(len(lines), 1, word)
            for meaning in filter(people_words.is_key, meanings):
                shown = any(line.strip().startswith((f"{meaning} ", f"{meaning}:")) for line in lines)
                self.assertTrue(shown, (word, meaning))

    def test_each_default_factor_is_found_by_its_name(self) -> None:
        names = {name for name, _, _ in wordlist.defaults()}
        rows = sum(path.read_text(encoding="utf-8").count("\nenter,factor,")
                   for path in (TOP / "defaults").glob("*.csv"))
        self.assertEqual(len(list(wordlist.defaults())), rows)
        for name in sorted(names)[::25]:
            self.assertTrue(any(line.startswith(f"{name} ") for line in found_by(f"defaults {name}")), name)

    def test_many_default_factors_are_not_listed_beside_other_parts(self) -> None:
        lines = found_by("diesel")
        self.assertTrue(lines[-1].endswith("more: ./workbook words defaults diesel"), lines[-1])
        self.assertGreater(len(found_by("defaults diesel")), wordlist.MOST_DEFAULTS)

    def test_a_short_word_of_people_s_stands_for_a_whole_word(self) -> None:
        self.assertFalse([line for line in found_by("car") if "carbon" in line.casefold()])


class Templates(unittest.TestCase):
    def test_they_are_rows_that_the_program_takes(self) -> None:
        span = HEADER + "enter,span,,,2019,2020,2019,,,\n"
        line = HEADER + "\n".join(TEMPLATES["fuel"].rows) + "\nenter,activity,,NAME.TJ,2020,2,1,3,TJ,\n"
        for name in TEMPLATES:
            shown = workbook("words", "templates", name).stdout
            self.assertTrue(shown.startswith(f"{name}: {TEMPLATES[name].title}\n"), shown)
            bodies = [HEADER_2 + shown.split(HEADER_2)[1]]
            bodies = [span, *bodies] if name != "span" else bodies
            bodies = [line, *bodies] if name in OF_RECORDS else bodies
            for blank, text in FILLED.items():
                bodies = [body.replace(blank, text) for body in bodies]
            script = "".join(f"SUBMIT s{at} {len(body)}\n{body}" for at, body in enumerate(bodies))
            replies = session(f"{script}END\n".encode()).decode().splitlines()
            self.assertEqual(replies, [f"accepted {at}" for at in range(1, len(bodies) + 1)], name)


if __name__ == "__main__":
    unittest.main()
