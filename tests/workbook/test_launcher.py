"""The launcher `./ghg`: help and the version are answered without the program."""
import pathlib
import re
import subprocess
import unittest

TOP = pathlib.Path(__file__).resolve().parent.parent.parent
HELP = TOP / "tools/help"


def ghg(*words: str, launcher: str = "ghg") -> "subprocess.CompletedProcess[str]":
    """What the launcher prints for words."""
    return subprocess.run([TOP / launcher, *words], capture_output=True, text=True, check=False)


class Launcher(unittest.TestCase):
    def test_help(self) -> None:
        for words, page in (
            (["--help"], "ghg"), (["-h"], "ghg"), (["help"], "ghg"),
            (["help", "compile"], "compile"), (["compile", "--help"], "compile"),
            (["help", "serve"], "serve"), (["serve", "-h"], "serve"), (["generate", "--help"], "generate"),
            (["help", "review"], "review"),
        ):
            run = ghg(*words)
            self.assertEqual((run.returncode, run.stderr), (0, ""), words)
            self.assertEqual(run.stdout, (HELP / f"{page}.txt").read_text("utf-8"), words)

    def test_try_answers_the_same_before_it_compiles(self) -> None:
        for words in (["--help"], ["-h"], ["help", "serve"], ["compile", "--help"], ["--version"]):
            self.assertEqual(ghg(*words, launcher="try").stdout, ghg(*words).stdout, words)

    def test_each_page_has_an_example(self) -> None:
        for page in HELP.glob("*.txt"):
            self.assertRegex(page.read_text("utf-8"), r"\nExample: \./ghg ", page.name)

    def test_each_page_has_the_options_of_its_command(self) -> None:
        spec = (TOP / "crates/ghg_words/specs/Command.antt").read_text("utf-8")
        taken = dict(re.findall(r"^options_of_(\w+) = only \((.*) ∷ \[\]\)$", spec, re.MULTILINE))
        self.assertEqual({"ghg", *taken}, {page.stem for page in HELP.glob("*.txt")})
        for command, options in taken.items():
            told = re.findall(r"^--(\w+) ", (HELP / f"{command}.txt").read_text("utf-8"), re.MULTILINE)
            self.assertEqual(sorted(told), sorted(re.findall(r'codes "(\w+)"', options)), command)

    def test_no_such_command(self) -> None:
        for word in ("nothing", "../compile", "Compile"):
            run = ghg("help", word)
            self.assertEqual((run.returncode, run.stdout), (2, ""), word)
            self.assertIn("./ghg --help", run.stderr, word)

    def test_version(self) -> None:
        version = (TOP / "VERSION").read_text("utf-8").strip()
        self.assertEqual(ghg("--version").stdout, f"ghg {version}\n")
        newest = re.search(r"^## (\S+)$", (TOP / "CHANGELOG.md").read_text("utf-8"), re.MULTILINE)
        self.assertIsNotNone(newest)
        self.assertEqual(newest and newest[1], version)
