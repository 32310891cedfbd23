"""The recipes of docs/CONTRIBUTING.md: files and names exist, and on a copy the pages follow their places."""
import itertools
import pathlib
import re
import shlex
import shutil
import subprocess
import tempfile
import unittest

TOP = pathlib.Path(__file__).resolve().parent.parent.parent
PATH = re.compile(r"[\w.]+/[\w./{},-]+\w|ghg_\w+")
# Places of five recipes, tried on a copy: the file, the text before the new one (none is the end), and that.
PLACES = [
    ("ghg_units/src/unit.rt", "    Gigagram,\n", "    /// `Mt`\n    Megatonne,\n"),
    ("ghg_units/specs/Units.antt", 'row units.Gigagram = unit (codes "Gg") dims.Mass 1000 1 (lit< tt)\n',
     'row units.Megatonne = unit (codes "Mt") dims.Mass 1000000 1 (lit< tt)\n'),
    ("ghg_equations/src/eq_id.rt", "    Q103,\n",
     "    /// Mass of fuel sold (Volume 2, Equation 9.9).\n    Q110,\n"),
    ("ghg_equations/specs/Table.antt", "abbrev pub entry : EqId → Entry\n",
     'entry q.Q110 = equation (codes "Q110") sector.Energy (\n'
     '    codes "FM" of Mass ▸ λ FM. Aux Mass is Scaled FM 1 2)\n'),
    ("ghg_energy/src/combustion.rt", "use ghg_interval::Over;\n",
     "\n/// Mass of fuel sold: half of `FM` in t (Volume 2, Equation 9.9).\n"
     "pub fn q110(ticket: Ticket, fm: &Input)\n"),
    ("ghg_units/specs/Refusals.antt", 'refusal_text (rules.Cycle line) = codes "12 Cycle " ++ line\n',
     'refusal_text (rules.Late row) = codes "14 Late row " ++ decimal row\n'),
    ("tools/words/rules.csv", "", "14,the row is late\n"),
    ("ghg_http/src/decision.rt", "    BodyTooLong,\n",
     "    /// The client asks for more than `MAX_FIELDS` things. Ask for fewer.\n    TooMany,\n"),
    ("ghg_http/specs/Decision.antt", 'refusal_row refusal.CodedBody = (415, codes "coded body")\n',
     'refusal_row refusal.TooMany = (429, codes "too many")\n'),
    ("ghg_units/src/names.rt", "const MOST_NAMES: usize = 40", "1; // before: "),
]
# What stands then in what scripts make.
MADE = {
    "README.md": ("79 equations", "56 units"),
    "tools/facts.json": ('"word": "Mt"', '"code": "Q110"', "14 Late row N", '"sum": "401"'),
    "docs/EQUATIONS.md": (
        "| Q110 | Mass of fuel sold: half of `FM`. | Equation 9.9 |", "`FM * 1/2`"),
    "docs/FORMATS.md": (
        "`Gg` 1000, `Mt` 1000000", "| 14 | `14 Late row N` | the row is late |", "1 to 401 different"),
    "docs/SERVICE.md": ("| 429 | `too many` | the client asks for more than 64 things | ask for fewer |",),
}


def place(name: str) -> pathlib.Path:
    return TOP / "crates" / name if name.startswith("ghg_") else TOP / name


def spread(path: str) -> list[str]:
    """A path with braces as the paths that it stands for."""
    parts = [part.split(",") for part in re.split(r"[{}]", path)]
    return ["".join(words) for words in itertools.product(*parts)]


def recipes() -> dict[str, str]:
    """The part of each recipe, by its heading."""
    page = (TOP / "docs/CONTRIBUTING.md").read_text("utf-8")
    page = page.partition("\n## Recipes\n")[2].partition("\n## ")[0]
    heads = re.split(r"^### (.*)\n", page, flags=re.MULTILINE)
    return dict(zip(heads[1::2], heads[2::2]))


def rows(part: str) -> list[list[str]]:
    """The cells of each row of the tables of a recipe, without the heads."""
    lines = [line for line in part.splitlines() if line.startswith("|") and "---" not in line]
    cells = [[cell.strip() for cell in line.strip("|").split("|")] for line in lines]
    return [row for row in cells if row[0] not in ("File", "Files", "Limits")]


def quoted(text: str) -> list[str]:
    return re.findall(r"`([^`]+)`", text)


def paths_of(text: str) -> list[str]:
    return [path for word in quoted(text) if PATH.fullmatch(word) for path in spread(word)]


def texts_of(path: pathlib.Path) -> list[str]:
    """The text of a file, or of each source of a crate."""
    sources = [path] if path.is_file() else sorted([*path.rglob("*.rt"), *path.rglob("*.antt")])
    return [source.read_text("utf-8") for source in sources]


class Recipes(unittest.TestCase):
    def test_each_file_exists(self) -> None:
        for head, part in recipes().items():
            for path in paths_of(part):
                self.assertTrue(place(path).exists(), f"{head}: {path}")

    def test_each_name_stands_in_a_file_of_its_row(self) -> None:
        found = [(head, row) for head, part in recipes().items() for row in rows(part)]
        self.assertGreater(len(found), 60)
        for head, row in found:
            texts = "\n".join(text for path in paths_of(" ".join(row)) for text in texts_of(place(path)))
            for name in quoted(row[-1]):
                if texts and not PATH.fullmatch(name):
                    stands = re.search(rf"(?<!\w){re.escape(name)}(?!\w)", texts)
                    self.assertTrue(stands, f"{head}: {name} in {row[0]}")

    def test_each_search_finds_places(self) -> None:
        lines = [line.strip() for part in recipes().values() for line in part.splitlines()]
        searches = [line for line in lines if line.startswith("grep ")]
        self.assertEqual(len(searches), 2)
        for search in searches:
            found = subprocess.run(shlex.split(search), cwd=TOP, capture_output=True).stdout.decode("utf-8")
            self.assertGreater(len({line.partition(":")[0] for line in found.splitlines()}), 25, search)

    def test_places_are_counted(self) -> None:
        counted = {head: part for head, part in recipes().items() if "| File | Places |" in part}
        self.assertEqual(len(counted), 7)
        for head, part in counted.items():
            places = sum(int(row[1]) for row in rows(part) if row[1].isdigit())
            self.assertEqual(head.partition(": ")[2], f"{places} place{'s' * (places != 1)}", head)


class Copies(unittest.TestCase):
    def copy(self, folder: str) -> pathlib.Path:
        """A copy of what the scripts read and write."""
        top = pathlib.Path(folder) / "copy"
        unread = shutil.ignore_patterns("out", "proofs", "must-fail", "__pycache__")
        for name in ("crates", "tools", "docs"):
            shutil.copytree(TOP / name, top / name, ignore=unread)
        shutil.copy(TOP / "README.md", top / "README.md")
        return top

    def put(self, top: pathlib.Path, name: str, after: str, new: str) -> None:
        path = top / place(name).relative_to(TOP)
        text = path.read_text("utf-8")
        if after:
            self.assertEqual(text.count(after), 1, (name, after))
        path.write_text(text.replace(after, after + new) if after else text + new, "utf-8")

    def test_pages_follow_the_places_of_recipes(self) -> None:
        with tempfile.TemporaryDirectory() as folder:
            top = self.copy(folder)
            for name, after, new in PLACES:
                self.put(top, name, after, new)
            facts = subprocess.run([top / "tools/facts"], check=True, capture_output=True)
            (top / "tools/facts.json").write_bytes(facts.stdout)
            subprocess.run([top / "docs/pages"], check=True)
            subprocess.run([top / "docs/pages", "--check"], check=True)
            for name, texts in MADE.items():
                made = (top / name).read_text("utf-8")
                for text in texts:
                    self.assertIn(text, made, name)


if __name__ == "__main__":
    unittest.main()
