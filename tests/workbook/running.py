"""Runs `./workbook` over the program that GHG_PROGRAM names, else the one that was built here."""
import os
import pathlib
import subprocess

HERE = pathlib.Path(__file__).resolve().parent
TOP = HERE.parent.parent
PROGRAM = os.environ.get("GHG_PROGRAM") or str(TOP / "crates/ghg/out/ghg")
HEADER = "act,kind,subject,name,year,value,low,high,unit,note\n"
HEADER_2 = HEADER.replace("act", "act2", 1)


def workbook(*words: str | pathlib.Path, cwd: pathlib.Path | str = TOP) -> subprocess.CompletedProcess[str]:
    """What a command of `./workbook` prints, and its status."""
    environment = {**os.environ, "GHG_PROGRAM": PROGRAM, "PYTHONUTF8": "1"}
    return subprocess.run([TOP / "workbook", *words], cwd=cwd, env=environment, capture_output=True,
                          text=True, encoding="utf-8")


def session(script: bytes, command: str = "compile") -> bytes:
    """What a command of the program itself prints for a script."""
    return subprocess.run([PROGRAM, command], input=script, capture_output=True, check=True).stdout
