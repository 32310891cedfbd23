"""The report: its figures are read back and compared with the tables, and a browser opens it."""
import html.parser
import importlib.util
import json
import os
import pathlib
import re
import shutil
import subprocess
import tempfile
import unittest

from bench import inventories
from tests.workbook.running import HEADER, HERE, PROGRAM, TOP, session, workbook
from tests.workbook.test_country import COUNTRY, files

LIBRARIES = [name for name in ("jinja2", "matplotlib") if not importlib.util.find_spec(name)]
BROWSER = shutil.which("chromium") or shutil.which("chromium-browser") or shutil.which("google-chrome")
YEARS = range(1990, 2021)
GASES = ["CO2", "CH4", "N2O", "CF4", "C2F6"]
# What a page tells of itself, once it is loaded: by how much it is wider than its window, the links that lead
# nowhere, and one after which its target is not shown; how much of its tree stays closed when it is printed,
# and how much stays open after that.
TOLD = """<script>window.addEventListener("load", () => {
  const lost = [], hidden = [];
  for (const link of document.querySelectorAll("a[href^='#']")) {
    const target = document.getElementById(link.getAttribute("href").slice(1));
    if (!target) lost.push(link.href);
  }
  for (const one of document.querySelectorAll("details")) one.open = false;
  window.dispatchEvent(new Event("beforeprint"));
  const unprinted = document.querySelectorAll("details:not([open])").length;
  window.dispatchEvent(new Event("afterprint"));
  const left_open = document.querySelectorAll("details[open]").length;
  const link = document.querySelector("#uncertainty a");
  location.hash = link.getAttribute("href");
  setTimeout(() => {
    const target = document.getElementById(link.getAttribute("href").slice(1));
    if (!target.querySelector("p").checkVisibility()) hidden.push(link.href);
    const wide = document.documentElement.scrollWidth - document.documentElement.clientWidth;
    document.title = JSON.stringify({wide, lost, hidden, unprinted, left_open});
  }, 0);
});</script>"""


class Page(html.parser.HTMLParser):
    """The texts of the elements of a page that say which figure they are, those of cells that do not, the ids
    and the places that links lead to.
    """

    def __init__(self, text: str) -> None:
        super().__init__()
        self.figures: list[tuple[str, str]] = []
        self.others: list[str] = []
        self.ids: list[str] = []
        self.links: list[str] = []
        self.into: tuple[str, str] | None = None
        self.feed(text)

    def handle_starttag(self, tag: str, attrs: list[tuple[str, str | None]]) -> None:
        """Notes an id, a link, and which figure comes."""
        found = {name: value or "" for name, value in attrs}
        self.ids += [found["id"]] if "id" in found else []
        self.links += [found["href"]] if tag == "a" else []
        self.links += [found["src"]] if "src" in found else []
        if "data-of" in found or (tag == "td" and found.get("class") == "n"):
            self.into = (tag, found.get("data-of", ""))

    def handle_data(self, data: str) -> None:
        """Notes the text of a figure."""
        if self.into:
            self.figures += [(self.into[1], data)] if self.into[1] else []
            self.others += [] if self.into[1] else [data]

    def handle_endtag(self, tag: str) -> None:
        """Ends a figure."""
        self.into = None


def printed(shows: list[str], more: str = "") -> dict[str, str]:
    """Each figure that the program prints of the example country and further rows, by what it is."""
    return answered("compile", [f"SHOW {show}" for show in shows], more)


def answered(command: str, requests: list[str], more: str = "") -> dict[str, str]:
    """Each figure of the tables that a command answers requests with, by what it is."""
    bodies = [path.read_bytes() for path in files()] + ([f"{HEADER}{more}".encode()] if more else [])
    script = b"".join(b"SUBMIT s%d %d\n%b" % (at, len(body), body) for at, body in enumerate(bodies))
    answer = session(script + "\n".join([*requests, "END\n"]).encode(), command).decode()
    found = {}
    for part in re.split("^table ", answer, flags=re.MULTILINE)[1:]:
        head, columns, *rows = part.splitlines()
        name = " ".join(head.split()[:2])
        keys = 2 if columns.startswith("category,gas") else 1
        for row in rows:
            fields = row.split(",")
            for column, field in zip(columns.split(",")[keys:], fields[keys:]):
                found[" ".join([name, *fields[:keys], column])] = field
    return found


def renamed(figures: dict[str, str], table: str, new: str) -> dict[str, str]:
    """Figures of a table under another name of it."""
    return {key.replace(f"{table} ", f"{new} ", 1): figure for key, figure in figures.items()}


def all_printed() -> dict[str, str]:
    """Each figure that a report of 2020 of the example country may show."""
    found = printed([f"{table} {year}" for table in ("cells", "summary", "uncertainty", "reference", "checks")
                     for year in YEARS] + ["level 2020", "trend 2020"])
    found |= answered("review", ["TREND 2020"])
    for gas in GASES:
        others = "".join(f"correct,factor,,GWP.{other},1990,0,,,1,\n" for other in GASES if other != gas)
        found |= renamed(printed(["summary 2020"], others), "summary", f"equivalent:{gas}")
        mass = others + f"correct,factor,,GWP.{gas},1990,1,,,1,\n"
        found |= renamed(printed(["summary 2020"], mass), "summary", f"mass:{gas}")
    land = re.findall(r"^enter,line,3B\w*,(.*?),,(.*?),", "".join(path.read_text() for path in files()),
                      re.MULTILINE)
    outside = "".join(f"correct,line,MB,{name},,{equation},,,,\n" for name, equation in land)
    for table in ("level", "trend"):
        found |= renamed(printed([f"{table} 2020"], outside), table, f"{table}:land")
    return found


def report(room: str, *words: str) -> str:
    """The report of folders, written to a room."""
    path = pathlib.Path(room) / "report.html"
    ran = workbook("report", *words, "-o", str(path))
    if ran.returncode:
        raise AssertionError(ran.stderr)
    return path.read_text(encoding="utf-8")


@unittest.skipIf(LIBRARIES, f"not installed: {' '.join(LIBRARIES)}")
class Reports(unittest.TestCase):
    maxDiff = None

    def page(self, *words: str) -> str:
        """The report of folders, beside which nothing is written."""
        with tempfile.TemporaryDirectory() as room:
            page = report(room, *words)
            self.assertEqual(os.listdir(room), ["report.html"])
        return page

    def test_figures_are_those_of_the_tables(self) -> None:
        page, due = Page(self.page(*COUNTRY, "2020")), all_printed()
        wrong = [(of, text) for of, text in page.figures if due.get(of) != text]
        self.assertEqual(wrong, [])
        # sector 5 has no line
        self.assertEqual(set(page.others), {"NE"})
        shown = {of for of, _ in page.figures}
        for name in ("summary 1990 0 value", "summary 2020 gross high", "cells 2020 POWER.COAL low",
                     "cells 2020 BUNKERS.JET value", "equivalent:CH4 2020 4A value", "mass:N2O 2020 3 value",
                     "level 2020 3B1 CO2 share", "level:land 2020 4A CH4 cumulative",
                     "trend 2020 4A CH4 trend", "trend:land 2020 4A CH4 base",
                     "uncertainty 1990 POWER.COAL value",
                     "uncertainty 2020 total combined_high", "trendunc 2020 POWER.LIGNITE k_high",
                     "trendunc 2020 total l_low", "reference 2005 percent value",
                     "checks 2020 3C1 CH4 change"):
            self.assertIn(name, shown)
        lines, known = ({of.split()[2] for of in some if of.startswith("cells 2020 ")}
                        for some in (shown, due))
        self.assertEqual(lines, known)

    def test_totals_of_gases_are_those_of_their_categories(self) -> None:
        figures = dict(Page(self.page(*COUNTRY, "2020")).figures)
        pairs = {of: float(figure) for of, figure in printed(["checks 2020"]).items()
                 if of.endswith(" value")}
        for gas in GASES:
            parts = [figure for of, figure in pairs.items() if f" {gas} " in of]
            total = float(figures[f"equivalent:{gas} 2020 0 value"])
            self.assertAlmostEqual(sum(parts), total, delta=0.0005 * (len(parts) + 1) + 1e-9)

    def test_nothing_comes_from_elsewhere(self) -> None:
        text = self.page(*COUNTRY)
        page = Page(text)
        self.assertEqual(len(page.ids), len(set(page.ids)))
        self.assertEqual([link for link in page.links if not link.startswith("#")], [])
        self.assertEqual([link for link in page.links if link[1:] not in page.ids], [])
        addresses = set(re.findall(r"https?://[^\"' <]*", text))
        self.assertLessEqual(addresses, {"http://www.w3.org/1999/xlink", "http://www.w3.org/2000/svg"})

    def test_pictures_have_texts(self) -> None:
        pictures = "".join(re.findall("<svg.*?</svg>", self.page(*COUNTRY), re.DOTALL))
        for text in ("1 Energy", "3B Land", "net total", "total without land", "CF4", "key", "cumulative",
                     "95 %", "POWER.LIGNITE", "reference approach", "sectoral approach", "3C1 CH4"):
            self.assertRegex(pictures, rf">{re.escape(text)}</text>")

    def test_notation_keys(self) -> None:
        page = self.page(str(HERE / "complete"), "2019")
        cells: dict[str, list[str]] = {}
        for row in re.findall(r'<tr[^>]*><th scope="row"><a href="#at-.*?</tr>', page, re.DOTALL):
            code = re.findall(r'href="#at-(\w+)"', row)[0]
            cells.setdefault(code, re.findall(r'<td class="n"[^>]*>(.*?)</td>', row))
        self.assertEqual(cells["1A1a"], ["NE", ""])
        self.assertEqual(cells["1A1b"], ["IE", "NE"])
        self.assertEqual(cells["1A1"], ["IE, NE", "NE"])
        self.assertIn('<td class="missing">!</td>', page)

    def test_keys_stand_for_categories_without_a_value(self) -> None:
        page = self.page(str(HERE / "complete"), "2019")
        for part, rows in {
            "trend-table": ["1A1a Main activity electricity and heat production 0.281 0.281 NE 0.281",
                            "1A2 Manufacturing industries and construction NO 0.019 NE 0.038"],
            "totals": ["1 Energy 0.281 IE, NE IE, NE IE, NE -"],
            "tree": ["1A1a Main activity electricity and heat production NE GAS CO2 NE 2-power.csv:2."],
            "key": ["1A2 Manufacturing industries and construction CO2 NE - - no", "CO2 NO NE 0.00 - - no"],
        }.items():
            for row in rows:
                self.assertIn(row, self.texts(page, part))

    def texts(self, page: str, part: str) -> str:
        """The text of a part of a page."""
        found = page.split(f'<section id="{part}"')[1].split("</section>")[0]
        return html.unescape(" ".join(re.sub("<[^>]*>", " ", f"<{found}").split()))

    def test_its_title(self) -> None:
        page = self.page("examples/how-to", "2019", "--title", "Tea & Co")
        self.assertIn("<p>Tea &amp; Co; 2018 to 2020", page)

    def test_no_line_at_the_reference_approach(self) -> None:
        said = "No line stands at RA, so that there is no reference approach to compare with."
        text = self.texts(self.page("examples/how-to", "2019"), "reference")
        self.assertTrue(text.endswith(f"Reference and sectoral approach {said}"), text)

    def test_bars_of_lines_without_a_value(self) -> None:
        rows = HEADER + "enter,span,,,2019,2020,2019,,,\nenter,factor,,GWP.CO2,2019,1,,,1,\n"
        for name, value in (("GAS", "1000"), ("COAL", "NE"), ("PEAT", "NO")):
            rows += f"enter,line,1A1a,{name},,Q10,,,,\nenter,bind,{name},FC,,activity,{name},,,\n"
            rows += f"enter,bind,{name},EF,,factor,EF,,,\nenter,uncert,,{name},,5,5,,,\n"
            rows += f"enter,activity,,{name},2020,{value},,,TJ,\n"
        with tempfile.TemporaryDirectory() as room:
            (pathlib.Path(room) / "1.csv").write_text(f"{rows}enter,factor,,EF,2019,56100,,,kg/TJ,\n")
            page = self.page(room)
        self.assertRegex(page, r">56\.100 ± 7\.\d\d %</text>")
        self.assertNotRegex(page, r">(NE|0\.000) ±")
        self.assertIn("Error propagation gives the national total an uncertainty of 7.08 percent (",
                      self.texts(page, "totals"))
        self.assertNotIn("NE to NE", page)

    def test_the_uncertainty_of_the_trend(self) -> None:
        """GAS of 5 and 5 percent grew from 900 to 1,000 TJ; PEAT without percentages has no value."""
        rows = HEADER + "enter,span,,,2019,2020,2019,,,\nenter,factor,,GWP.CO2,2019,1,,,1,\n"
        for name, before, after in (("GAS", "900", "1000"), ("PEAT", "NE", "NO")):
            rows += f"enter,line,1A1a,{name},,Q10,,,,\nenter,bind,{name},FC,,activity,{name},,,\n"
            rows += f"enter,bind,{name},EF,,factor,EF,,,\nenter,activity,,{name},2019,{before},,,TJ,\n"
            rows += f"enter,activity,,{name},2020,{after},,,TJ,\n"
        rows += "enter,uncert,,GAS,,5,5,,,\nenter,factor,,EF,2019,56100,,,kg/TJ,\n"
        with tempfile.TemporaryDirectory() as room:
            (pathlib.Path(room) / "1.csv").write_text(rows)
            page, of_base_year = self.page(room), self.page(room, "2019")
        name = "1A1a Main activity electricity and heat production"
        trend = "GAS {} CO2 50.490 56.100 5.00 5.00 7.07 7.08 0.00 0.00 7.85 7.86"
        for row in (trend.format(name), f"PEAT {name} CO2 NE 0.000 - - - - - - - -",
                    "total - - 50.490 56.100 - - 7.07 7.08 - - 7.85 7.86"):
            self.assertIn(row, self.texts(page, "uncertainty"))
        said = "7.08 percent, and its change one of 7.86 percentage points"
        self.assertIn(said, self.texts(page, "totals"))
        self.assertIn("total - - 50.490 50.490 - - 7.07 7.08 Table", self.texts(of_base_year, "uncertainty"))
        self.assertNotRegex(of_base_year, "trendunc|percentage points")

    def test_a_key_of_what_is_left_out(self) -> None:
        part = '<td class="part"><span data-of="mass:CO2 2019 2A1 value">40.180</span>, NE</td>'
        self.assertIn(part, self.page("examples/how-to", "2019"))

    def test_texts_of_rows_are_no_markup(self) -> None:
        rows = ("enter,span,,,2019,2020,2019,,,\nenter,line,1A1a,GAS,,Q10,,,,<script>alert(1)</script>\n"
                "enter,bind,GAS,FC,,activity,GAS,,,\nenter,bind,GAS,EF,,key,NO,,,\n"
                'enter,activity,,GAS,2019,1,,,TJ,"<b>""&amp;"\n')
        with tempfile.TemporaryDirectory() as room:
            (pathlib.Path(room) / "1.csv").write_text(HEADER + rows)
            page = self.page(room, "2019")
        self.assertIn("&lt;script&gt;alert(1)&lt;/script&gt;", page)
        self.assertIn("&lt;b&gt;&#34;&amp;amp;", page)

    def test_an_inventory_without_lines(self) -> None:
        with tempfile.TemporaryDirectory() as room:
            (pathlib.Path(room) / "1.csv").write_text(f"{HEADER}enter,span,,,2019,2020,2019,,,\n")
            self.assertIn("No line stands there.", self.page(room))

    def test_gases_without_a_potential_have_a_mass(self) -> None:
        rows = HEADER + "enter,span,,,2019,2020,2019,,,\nenter,activity,,GAS,2020,2,,,TJ,\n"
        for gas, equation, factor in (("CH4", "Q11", 1000), ("N2O", "Q12", 3000)):
            rows += f"enter,line,1A1a,{gas},,{equation},,,,\nenter,bind,{gas},FC,,activity,GAS,,,\n"
            rows += f"enter,bind,{gas},EF,,factor,{gas},,,\nenter,factor,,{gas},2019,{factor},,,kg/TJ,\n"
        rows += "enter,factor,,GWP.N2O,2020,265,,,1,\n"
        with tempfile.TemporaryDirectory() as room:
            (pathlib.Path(room) / "1.csv").write_text(rows)
            figures = dict(Page(self.page(room)).figures)
        shown = [figures[f"{form} 2020 0 value"] for form in ("mass:CH4", "mass:N2O", "equivalent:N2O")]
        self.assertEqual(shown, ["0.002", "0.006", "1.590"])
        self.assertEqual([of for of in figures if of.startswith("equivalent:CH4")], [])

    def test_no_equivalent_is_shown_without_a_potential(self) -> None:
        """Of CH4 there is a mass alone; all that stands in Gg of CO2 equivalent is NE."""
        rows = HEADER + ("enter,span,,,2019,2020,2019,,,\nenter,line,1A1a,GAS,,Q11,,,,\n"
                         "enter,bind,GAS,FC,,activity,GAS,,,\nenter,bind,GAS,EF,,factor,EF,,,\n"
                         "enter,factor,,EF,2019,1000,,,kg/TJ,\nenter,activity,,GAS,2019,2,,,TJ,\n"
                         "enter,activity,,GAS,2020,2,,,TJ,\n")
        with tempfile.TemporaryDirectory() as room:
            (pathlib.Path(room) / "1.csv").write_text(rows)
            page = self.page(room)
        zeros = [of for of, text in Page(page).figures if text == "0.000"]
        self.assertEqual(zeros, ["uncertainty 2019 total value", "uncertainty 2020 total value"])
        self.assertIn("GAS CH4 0.002 Gg 0.002 to 0.002 1.csv:3", self.texts(page, "tree"))
        self.assertIn("1A1a Main activity electricity and heat production NE NE NE NE",
                      self.texts(page, "year"))
        name = "1A1a Main activity electricity and heat production"
        self.assertIn(f"GAS {name} CH4 NE NE", self.texts(page, "uncertainty"))

    def test_pictures_end_with_what_is_estimated(self) -> None:
        """The span goes to 2022, and the last figure is of 2021."""
        rows = HEADER + ("enter,span,,,2019,2022,2019,,,\nenter,factor,,GWP.CO2,2019,1,,,1,\n"
                         "enter,line,1A1a,GAS,,Q10,,,,\nenter,bind,GAS,FC,,activity,GAS,,,\n"
                         "enter,bind,GAS,EF,,factor,EF,,,\nenter,factor,,EF,2019,56100,,,kg/TJ,\n")
        rows += "".join(f"enter,activity,,GAS,{year},1000,,,TJ,\n" for year in (2019, 2020, 2021))
        with tempfile.TemporaryDirectory() as room:
            (pathlib.Path(room) / "1.csv").write_text(rows)
            page = self.page(room)
        pictures = "".join(re.findall("<svg.*?</svg>", page, re.DOTALL))
        self.assertIn(">2021</text>", pictures)
        self.assertNotIn(">2022</text>", pictures)
        self.assertIn("0 National total 56.100 56.100 56.100 NE", self.texts(page, "trend-table"))

    def test_a_sector_without_a_line_is_not_estimated(self) -> None:
        page = self.page("examples/how-to", "2019")
        for part in ("year", "totals", "trend-table"):
            self.assertRegex(self.texts(page, part), r"\b4 Waste (?:NE|-)")
            self.assertNotRegex(self.texts(page, part), r"\b4 Waste 0\.000")


class Refusals(unittest.TestCase):
    @unittest.skipIf(LIBRARIES, f"not installed: {' '.join(LIBRARIES)}")
    def test_nothing_is_written(self) -> None:
        for words, status, due in [
            (["examples/power-plants"], 1, "the files have 1 fault, and no report is written; "
             "./workbook check examples/power-plants tells them"),
            (["examples/waste"], 1, "no report"), (["no-such-folder"], 2, "no-such-folder is no folder"),
            (["examples/how-to", "2030"], 1, "there is no report of 2030: the span is 2018 to 2020"),
        ]:
            with tempfile.TemporaryDirectory() as room:
                ran = workbook("report", *words, "-o", f"{room}/report.html")
                self.assertEqual((ran.returncode, ran.stdout, os.listdir(room)), (status, "", []))
                self.assertIn(due, ran.stderr)

    @unittest.skipIf(LIBRARIES, f"not installed: {' '.join(LIBRARIES)}")
    def test_a_place_that_cannot_be_written(self) -> None:
        with tempfile.TemporaryDirectory() as room:
            for place, due in ((f"{room}/none/report.html", f"there is no folder {room}/none"),
                               (room, f"{room} is a folder; name a file in it")):
                ran = workbook("report", "examples/how-to", "-o", place, "--program", "/no/program")
                self.assertEqual((ran.returncode, os.listdir(room)), (2, []))
                self.assertEqual(ran.stderr, f"./workbook: {due}\n")

    def test_a_library_that_is_missing(self) -> None:
        with tempfile.TemporaryDirectory() as room:
            (pathlib.Path(room) / "jinja2.py").write_text("raise ImportError('none')\n")
            words = [str(TOP / "workbook"), "report", "examples/how-to", "-o", f"{room}/report.html"]
            environment = {**os.environ, "PYTHONPATH": room, "GHG_PROGRAM": PROGRAM,
                           "PYTHONDONTWRITEBYTECODE": "1"}
            ran = subprocess.run(words, cwd=TOP, env=environment, capture_output=True, text=True)
            self.assertEqual((ran.returncode, os.listdir(room)), (2, ["jinja2.py"]))
        self.assertIn("./workbook: report needs the library jinja2; install it: apt install python3-jinja2",
                      ran.stderr)


@unittest.skipUnless(BROWSER and not LIBRARIES, "no Chromium, or no libraries for the report, are installed")
class InABrowser(unittest.TestCase):
    def shown(self, room: str, page: str, window: str) -> str:
        """What a window makes of a page, where the browser's console has no message."""
        path = pathlib.Path(room) / "report.html"
        path.write_text(page, encoding="utf-8")
        words = [str(BROWSER), "--headless", "--no-sandbox", "--disable-gpu", "--enable-logging=stderr",
                 f"--user-data-dir={room}/browser", f"--window-size={window}", "--virtual-time-budget=100000",
                 "--dump-dom", path.as_uri()]
        ran = subprocess.run(words, capture_output=True, text=True, timeout=300)
        self.assertNotIn("CONSOLE", ran.stderr)
        return ran.stdout

    def test_links_lead_to_what_is_shown(self) -> None:
        with tempfile.TemporaryDirectory() as room:
            page = report(room, *COUNTRY).replace("</body>", f"{TOLD}</body>")
            for window in ("1200,900", "500,800"):
                title = re.search("<title>(.*?)</title>", self.shown(room, page, window))
                told = json.loads(html.unescape(title.group(1))) if title else None
                due = {"wide": 0, "lost": [], "hidden": [], "unprinted": 0, "left_open": 0}
                self.assertEqual(told, due, window)

    def test_a_thousand_lines(self) -> None:
        with tempfile.TemporaryDirectory() as room:
            rows = "".join(inventories.fuels(1000)).split("\n", 1)[1]
            (pathlib.Path(room) / "1.csv").write_text(rows)
            self.assertIn("</html>", self.shown(room, report(room, room), "1200,900"))

    def test_on_paper(self) -> None:
        with tempfile.TemporaryDirectory() as room:
            report(room, *COUNTRY)
            words = [str(BROWSER), "--headless", "--no-sandbox", "--disable-gpu",
                     f"--user-data-dir={room}/browser", f"--print-to-pdf={room}/report.pdf",
                     f"file://{room}/report.html"]
            subprocess.run(words, capture_output=True, timeout=120, check=True)
            paper = (pathlib.Path(room) / "report.pdf").read_bytes()
        sides = {tuple(round(float(side)) for side in box.split()[2:])
                 for box in re.findall(rb"/MediaBox\s*\[([0-9. ]+)\]", paper)}
        self.assertLessEqual(sides, {(595, 842), (842, 595), (596, 842), (842, 596), (594, 842), (842, 594)})
        self.assertTrue(sides)


if __name__ == "__main__":
    unittest.main()
