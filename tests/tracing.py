"""Runs the built program under strace, which tells its calls of the system, and makes some fail.

Where strace is not installed, or may trace nothing, the tests that need it are skipped.
"""
import os
import pathlib
import shutil
import subprocess
import unittest


def may_trace() -> bool:
    """Whether strace is here, and may trace a program."""
    strace = shutil.which("strace")
    return strace is not None and subprocess.run([strace, "-qq", "-o", os.devnull, "true"], check=False,
                                                 capture_output=True).returncode == 0


traced = unittest.skipUnless(may_trace(), "there is no strace that may trace")


def telling(call: str, told: pathlib.Path | str) -> list[str]:
    """What a program runs under so that a file is told each call of this name, in a line with its time."""
    return ["strace", "-D", "-f", "-qq", "-ttt", "-o", str(told), f"--trace={call}"]


def failing(call: str, error: str, when: int | str, told: pathlib.Path | str = os.devnull) -> list[str]:
    """The same, and the call of this name and number fails; those of several numbers for a text as `2..4`."""
    return [*telling(call, told), f"--inject={call}:error={error}:when={when}"]


def calls_in(told: pathlib.Path) -> list[tuple[float, str]]:
    """The calls that a file was told: when each began, in seconds, and the call."""
    lines = [line.split(maxsplit=2) for line in told.read_text("utf-8").splitlines()]
    return [(float(when), call) for _, when, call in lines]
