"""Files that appear whole or not at all: each is written beside its place, and then takes its name."""
from __future__ import annotations

import os
import pathlib
import tempfile

from tools.sheets import FolderFault


def check_place(path: pathlib.Path) -> None:
    """Refuses a place that no file can be written to, before what belongs there is worked out."""
    if path.is_dir():
        raise FolderFault(f"{path} is a folder; name a file in it")
    if not path.parent.is_dir():
        raise FolderFault(f"there is no folder {path.parent}")


def write_whole(path: pathlib.Path, data: bytes) -> None:
    """Writes a file, in the place of one that is there. Where that fails, what was there stays."""
    handle, beside = tempfile.mkstemp(prefix=f".{path.name}.", dir=path.parent)
    try:
        with os.fdopen(handle, "wb") as file:
            file.write(data)
        os.chmod(beside, mode_of(path))
        os.replace(beside, path)
    except BaseException:
        os.unlink(beside)
        raise


def differs(path: pathlib.Path, data: bytes) -> bool:
    """Tells whether a file is there that holds something else."""
    return path.exists() and path.read_bytes() != data


def mode_of(path: pathlib.Path) -> int:
    """The permissions of a file; of one that is not there yet, those of a new one."""
    if path.exists():
        return path.stat().st_mode & 0o777
    mask = os.umask(0)
    os.umask(mask)
    return 0o666 & ~mask
