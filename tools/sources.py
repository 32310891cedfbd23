"""Where a command takes its submissions from: folders of files, a store, or a service that has them."""
from __future__ import annotations

import argparse
import pathlib
import re

from tools.service import Service
from tools.sheets import FolderFault, Sheet, read_folders
from tools.store import submissions

FOLDER = (
    "a folder of CSV files, in the order of its ORDER.txt, else of their names with 2 before 10; "
    "several go one after the other"
)
STORE = "the store of submissions FILE, which is only read; the files of folders go behind them"
URL = "the running service at URL, as http://127.0.0.1:8000, in place of folders"
NOTHING = "nothing to read; give a folder, --store FILE or --url URL"
ALONE = "--url stands without folders and without --store: a service has its submissions itself"


def years_in(text: str) -> list[int]:
    """The years that a word names, as 2020 or 2000-2011; or none."""
    found = re.fullmatch("([0-9]{4})(?:-([0-9]{4}))?", text)
    return list(range(int(found.group(1)), int(found.group(2) or found.group(1)) + 1)) if found else []


def add_sources(made: argparse.ArgumentParser) -> None:
    """Adds the words of the command line that say where submissions are."""
    made.add_argument("folders", nargs="*", metavar="FOLDER", help=FOLDER)
    made.add_argument("--store", metavar="FILE", help=STORE)
    made.add_argument("--url", metavar="URL", help=URL)


def sheets_of(arguments: argparse.Namespace) -> tuple[list[Sheet], list[tuple[str, str]]]:
    """The submissions of a store and the files of folders, and what is left out of these, with the reason."""
    if not arguments.folders and not arguments.store:
        raise FolderFault(NOTHING)
    kept = submissions(pathlib.Path(arguments.store)) if arguments.store else []
    sheets, left = read_folders(arguments.folders)
    if not kept and not sheets:
        raise FolderFault(f"{arguments.store} has no submissions")
    return kept + sheets, left


def service_of(arguments: argparse.Namespace) -> Service | None:
    """The service that is asked, or None where none is."""
    if arguments.url is None:
        return None
    if arguments.folders or arguments.store:
        raise FolderFault(ALONE)
    return Service(arguments.url)


def words_of(arguments: argparse.Namespace) -> list[str]:
    """The words that name the same submissions to another command."""
    store = ["--store", arguments.store] if arguments.store else []
    return [*arguments.folders, *store]
