"""Shells complete the commands, their options, and the words that these take."""
from __future__ import annotations

import shutil
import subprocess
import unittest

from tests.workbook.running import workbook
from tools import vocabulary

# What stands on the line, whose last word is completed, and what may stand there.
LINES = {
    "./workbook comple": ["complete", "completion"],
    "./workbook check --no": ["--no-warnings"],
    "./workbook tables folder --table le": ["level"],
    "./workbook tables folder --table level --qu": ["--quiet"],
    "./workbook words equ": ["equations"],
    "./workbook completion z": ["zsh"],
    "./workbook new folder --categories 2A1 1A4": ["1A4", "1A4a", "1A4b", "1A4c"],
    "./workbook check exam": [],
    "./workbook tre": ["trend"],
    "./workbook trend folder 2020 --js": ["--json"],
    "./workbook words --te": ["--template"],
    "./workbook words --template u": [],
    "./workbook words templates wi": ["withdraw"],
    "./workbook new folder --program 1": [],
}


def completed(shell: str, line: str) -> list[str]:
    """What a shell offers for the last word of a line. Of the words in question zsh itself takes those that
    begin like it, outside of what is run here.
    """
    script = workbook("completion", shell).stdout
    words = line.split(" ")
    ask = f"COMP_WORDS=({line}); COMP_CWORD={len(words) - 1}; _workbook; printf '%s\\n' \"${{COMPREPLY[@]}}\""
    if shell == "zsh":
        ask = f"autoload -U compinit && compinit -D -u\n{script}\nemulate -R sh; {ask}"
    else:
        ask = f"{script}\n{ask}"
    options = ["--norc"] if shell == "bash" else ["-f"]
    ran = subprocess.run([shell, *options, "-c", ask], capture_output=True, text=True, check=True)
    return [word for word in ran.stdout.split() if word.startswith(words[-1])]


class Completion(unittest.TestCase):
    def test_bash(self) -> None:
        for line, due in LINES.items():
            self.assertEqual(completed("bash", line), due, line)

    @unittest.skipUnless(shutil.which("zsh"), "zsh is not installed")
    def test_zsh(self) -> None:
        for line, due in LINES.items():
            self.assertEqual(completed("zsh", line), due, line)

    def test_the_words_are_those_of_the_vocabulary(self) -> None:
        self.assertEqual(completed("bash", "./workbook tables f --table "), vocabulary.tables())


if __name__ == "__main__":
    unittest.main()
