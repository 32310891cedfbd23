"""Each name and file of the code that a page for auditors or maintainers cites exists."""
import pathlib
import re
import unittest

TOP = pathlib.Path(__file__).resolve().parent.parent.parent
PAGES = ("docs/GUARANTEES.md", "docs/DEFINITIONS.md", "docs/ARCHITECTURE.md")
# What pages quote that is no name of the code: fields of a stored run.
OTHERS = {"stdin", "stdout"}


def names_of_code() -> set[str]:
    """Each word of the sources, and the name of each crate and of each file of definitions."""
    found = {path.name for path in (TOP / "crates").iterdir()}
    for path in (TOP / "crates").rglob("*"):
        if path.suffix in (".rt", ".antt"):
            found |= {path.stem, *re.findall(r"\w+", path.read_text("utf-8"))}
    return found


class Names(unittest.TestCase):
    def test_each_name_and_file_exists(self) -> None:
        names = names_of_code() | OTHERS
        for page in PAGES:
            for quoted in re.findall(r"`([^`\n]+)`", (TOP / page).read_text("utf-8")):
                if "/" in quoted and " " not in quoted and not quoted.startswith("/"):
                    exists = (TOP / quoted).exists() or list((TOP / "crates").glob(f"*/{quoted}"))
                    self.assertTrue(exists, f"{page}: {quoted}")
                elif re.fullmatch(r"[\w.:]+", quoted) and not (TOP / quoted).exists():
                    unknown = set(re.findall(r"\w+", quoted)) - names
                    self.assertFalse(unknown, f"{page}: {quoted}")


if __name__ == "__main__":
    unittest.main()
