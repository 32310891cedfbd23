"""The figures that the scripts of this folder measured, and where and when they were.

Where GHG_RESULTS names a file, `note` adds a figure to it, as a line of JSON. bench/table prints such a file.
"""
import json
import os
import pathlib
import subprocess
import time

HOME = pathlib.Path(__file__).resolve().parent.parent


def note(figure: str, measured: str, limit: str = "") -> None:
    """Adds a figure, with its limit if it has one."""
    path = os.environ.get("GHG_RESULTS")
    if path:
        line = {"figure": figure, "limit": limit, "measured": measured, "commit": commit(),
                "date": time.strftime("%Y-%m-%d"), "machine": machine(), "load": load()}
        with open(path, "a", encoding="utf-8") as results:
            print(json.dumps(line), file=results)


def load() -> float:
    """The load average of the last minute."""
    return round(os.getloadavg()[0], 2)


def commit() -> str:
    """The commit of the repository, and whether more than the results was changed since."""
    changed = in_git("diff", "--name-only", "HEAD", "--", ".", ":!bench/results.jsonl")
    return in_git("rev-parse", "--short", "HEAD") + ("-dirty" if changed else "")


def in_git(*words: str) -> str:
    """What a command of git prints."""
    return subprocess.run(["git", *words], cwd=HOME, stdout=subprocess.PIPE, text=True, check=True).stdout.strip()


def machine() -> str:
    """The number of cores, the model of the processor, and the memory."""
    fields = pathlib.Path("/proc/cpuinfo").read_text().splitlines()
    model = next((line.partition(": ")[2] for line in fields if line.startswith("model name")), "unknown")
    memory = os.sysconf("SC_PAGE_SIZE") * os.sysconf("SC_PHYS_PAGES") / (1 << 30)
    return f"{os.cpu_count()} cores of {model}, {round(memory)} GiB"
