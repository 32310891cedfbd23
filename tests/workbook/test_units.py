"""Units as people write them: the word of the table for each, and what a figure is multiplied by."""
import fractions
import unittest

from tools import unit_bases, units, vocabulary

SAME = "the same number"
# Each text with the unit of the table that it means, and how to come to it.
MEANT = [
    ("tonnes", "t", SAME), ("metric tons", "t", SAME), ("Mg", "t", SAME), ("tn", "t", SAME),
    ("1000 t", "kt", SAME), ("'000 t", "kt", SAME), ("10^3 t", "kt", SAME), ("10\u00b3 t", "kt", SAME),
    ("thousand tonnes", "kt", SAME), ("Mt", "kt", "multiply by 1000"), ("lb", "kg", "multiply by 0.45359237"),
    ("kt CO2", "kt", SAME), ("Gg CO2-eq.", "Gg", SAME), ("ktCO2e", "kt", SAME), ("t of clinker", "t", SAME),
    ("MWh", "GWh", "divide by 1000"), ("TWh", "GWh", "multiply by 1000"), ("toe", "ktoe", "divide by 1000"),
    ("Tcal", "ktoe", "divide by 10"), ("MMBtu", "GJ", "multiply by 1.055056"), ("TJ (NCV)", "TJ", SAME),
    ("km2", "kha", "divide by 10"), ("thousand hectares", "kha", SAME), ("m\u00b3", "m3", SAME),
    ("bcm", "Mm3", "multiply by 1000"), ("million m3", "Mm3", SAME), ("litres", "m3", "divide by 1000"),
    ("thousand head", "head", "multiply by 1000"), ("head of cattle", "head", SAME),
    ("inhabitants", "person", SAME), ("years", "yr", SAME), ("days", "day", SAME),
    ("%", "pct", SAME), ("fraction", "1", SAME), ("-", "1", SAME),
    ("kg CO2/TJ", "kg/TJ", SAME), ("kg CO2 per TJ", "kg/TJ", SAME), ("g CO2/kWh", "t/TJ", "divide by 3.6"),
    ("tonnes/terajoule", "t/TJ", SAME), ("t C/TJ", "tC/TJ", SAME), ("kg C/GJ", "kgC/GJ", SAME),
    ("kcal/kg", "TJ/Gg", "multiply by 0.0041868"), ("GJ/tonne", "GJ/t", SAME), ("GgC", "GgC", SAME),
    ("kt C", "ktC", SAME), ("t C/t", "t/t", SAME), ("t C/ha", "t/ha", SAME), ("t d.m./ha", "t/ha", SAME),
    ("kg N ha-1 yr-1", "kg/ha", SAME), ("kg N animal-1 yr-1", "kg/head", SAME),
    ("kg N/head/yr", "kg/head", SAME),
    ("kg N2O\u2013N (kg N)\u20131", "kg/kg", SAME),
    ("kg/1000 head", "kg/head", "divide by 1000"), ("kg N (1000 kg animal mass)-1 day-1", "kg/t/day", SAME),
    ("m3 CH4/kg VS", "m3/kg", SAME), ("g BOD/cap/day", "g/person/day", SAME), ("min/cell-day", "AEmin", SAME),
    ("tonnes of oil equivalent", "ktoe", "divide by 1000"), ("t o.e.", "ktoe", "divide by 1000"),
    ("thousand tonnes of oil equivalent", "ktoe", SAME), ("Mt coal equivalent", "PJ", "multiply by 29.3076"),
    ("barrels", "m3", "multiply by 0.158987"), ("short tons", "t", "multiply by 0.90718474"),
    ("metric tonnes", "t", SAME), ("therms", "GJ", "multiply by 0.1055056"), ("1E3 t", "kt", SAME),
    ("tys. t", "kt", SAME), ("Tsd. t", "kt", SAME), ("million m3 u.b.", "Mm3", SAME),
    ("(kg CF4/t Al)/(AE-Mins/cell-day)", "kg/t/AEmin", SAME), ("kg/\u0422J", "kg/TJ", SAME),
    ("thousands of tonnes", "kt", SAME), ("Mill. t", "kt", "multiply by 1000"), ("metric t", "t", SAME),
    ("ktonnes", "kt", SAME), ("KTONNES", "kt", SAME), ("kton", "kt", SAME), ("kilotonnes", "kt", SAME),
    ("kilo-tonnes", "kt", SAME), ("kilo tonnes", "kt", SAME), ("tonnes", "t", SAME), ("metric_tons", "t", SAME),
    ("Mtonnes", "kt", "multiply by 1000"), ("10**3 t", "kt", SAME), ("000's tonnes", "kt", SAME),
    ("ths. t", "kt", SAME), ("thous. tonnes", "kt", SAME), ("ktpa", "kt", SAME), ("t/a", "t", SAME),
    ("Gg/yr", "Gg", SAME), ("Gg per year", "Gg", SAME), ("TJ/yr", "TJ", SAME), ("TJoule", "TJ", SAME),
    ("giga-joules", "GJ", SAME), ("GWhe", "GWh", SAME), ("MWh_th", "GWh", "divide by 1000"),
    ("ktep", "ktoe", SAME), ("TJ_NCV", "TJ", SAME), ("kg_CO2/TJ", "kg/TJ", SAME), ("kg.CO2/TJ", "kg/TJ", SAME),
    ("kg:TJ", "kg/TJ", SAME), ("kg\\TJ", "kg/TJ", SAME), ("kt (1000 t)", "kt", SAME), ("t (tonnes)", "t", SAME),
    ("hd", "head", SAME), ("khead", "head", "multiply by 1000"), ("population", "person", SAME),
    ("sq. km", "kha", "divide by 10"), ("sqkm", "kha", "divide by 10"), ("hect.", "ha", SAME),
    ("cu m", "m3", SAME), ("min/cell/day", "AEmin", SAME), ("p.c.", "pct", SAME), ("share", "1", SAME),
]
# Each text with what is measured, and the unit that it means then.
MEASURED = [
    ("kt CO2", "gas", "Gg-gas", SAME), ("t", "carbon", "tC", SAME), ("kt", "gas", "Gg-gas", SAME),
    ("kg/m3", "mass per volume of wood", "t/m3", "divide by 1000"),
    ("m3/t", "methane yield", "m3/kg", "divide by 1000"),
    ("thousand", "animals", "head", "multiply by 1000"), ("number", "animals", "head", SAME),
    ("no.", "animals", "head", SAME), ("#", "people", "person", SAME),
    ("t C/TJ", "emission factor of fuel", "tC/TJ", SAME),
]
# Texts that are no unit of the table, or that give another figure, as a gross calorific value.
NONE = ["", "n/a", "TJ GCV", "TJ g.c.v.", "thousand", "C", "CO2", "/", "US$", "TJ/", "furlongs",
        "t equivalent", "number", "kg/LU"]
# Units that are upside down, with what is measured, and the unit that is meant; or None where it is not that.
UPSIDE_DOWN = [
    ("TJ/kg", "emission factor of fuel", "kg/TJ"), ("TJ/t", "emission factor of fuel", "t/TJ"),
    ("t/GJ", "net calorific value", "GJ/t"), ("Gg/TJ", "net calorific value", "TJ/Gg"),
    ("ha/t", "mass per area", "t/ha"), ("head/kg", "mass per head or per head and year", "kg/head"),
    ("kg/TJ", "emission factor of fuel", None), ("t", "mass", None), ("TJ/kg", None, None),
    ("TJ/mg", "emission factor of fuel", None), ("furlongs", "mass", None),
]


class Units(unittest.TestCase):
    def test_meant(self) -> None:
        for text, word, said in MEANT:
            found = units.meant(text)
            self.assertEqual((found and found.word, found and found.said), (word, said), text)

    def test_meant_by_what_is_measured(self) -> None:
        for text, measures, word, said in MEASURED:
            found = units.meant(text, measures)
            self.assertEqual((found and found.word, found and found.said), (word, said), text)

    def test_upside_down(self) -> None:
        for text, measures, word in UPSIDE_DOWN:
            self.assertEqual(units.upside_down(text, measures), word, text)

    def test_words_of_other_alphabets_are_kept(self) -> None:
        heat = "\u0442\u0435\u043f\u043b\u043e\u0442\u0430"
        for text, others in (("TJ (ciep\u0142o spalania)", ["ciep\u0142o", "spalania"]),
                             ("TJ (h\u00f8yere brennverdi)", ["h\u00f8yere", "brennverdi"]), (f"TJ {heat}", [heat])):
            with self.subTest(text):
                said = unit_bases.words_of(text)
                self.assertEqual(said.others, others)
                meant = units.meant(said.bare)
                self.assertTrue(meant and meant.word == "TJ" and meant.times == 1)

    def test_none(self) -> None:
        for text in NONE:
            self.assertIsNone(units.meant(text), text)

    def test_shares_of_a_year(self) -> None:
        percent = fractions.Fraction(1, 100)
        for text, size in (("1/yr", 1), ("per year", 1), ("yr-1", 1), ("a\u207b\u00b9", 1),
                           ("%/yr", percent), ("percent per annum", percent)):
            reading = units.read(text)
            assert reading is not None, text
            self.assertTrue(reading.is_yearly_share, text)
            self.assertEqual(reading.size, size, text)
        for text in ("yr", "kg/yr", "1", "%"):
            reading = units.read(text)
            assert reading is not None, text
            self.assertFalse(reading.is_yearly_share, text)

    def test_units_of_the_table_mean_themselves_in_their_sizes(self) -> None:
        for word, unit in vocabulary.units().items():
            found = units.meant(word, unit["measures"])
            assert found is not None, word
            self.assertEqual((found.word, found.times), (word, 1), word)
            base = vocabulary.units_that_measure(unit["measures"])[0]
            ratio = units.table()[word].size / units.table()[base].size
            self.assertEqual(ratio, fractions.Fraction(unit["over"], unit["under"]), word)


if __name__ == "__main__":
    unittest.main()
