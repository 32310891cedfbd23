"""Prints what commands find as JSON, for other programs to read."""
from __future__ import annotations

import json
import typing

from tools.faults import Fault


def record(fault: Fault) -> dict[str, typing.Any]:
    """A fault or a warning with its place, its text, its cause and what to write."""
    return {
        "file": fault.sheet.name, "line": fault.line, "last_line": fault.last_line or fault.line,
        "column": "" if fault.column == "warning" else fault.column, "text": fault.text, "cause": fault.cause,
        "write": fault.write, "follows": fault.follows,
    }


def checked(files: list[str], faults: list[Fault], warnings: list[Fault], left: list[tuple[str, str]]) -> str:
    """What `check` finds: of files that are left out, the name and the reason."""
    found = {
        "files": files, "faults": [record(fault) for fault in faults],
        "warnings": [record(warning) for warning in warnings],
        "left_out": [{"file": name, "cause": why} for name, why in left],
    }
    return json.dumps(found, ensure_ascii=False, indent=1)


def of_service(warnings: list[str]) -> str:
    """What `check` finds of a service, whose records have no places."""
    causes = [{"cause": warning.removeprefix("warning: ")} for warning in warnings]
    return json.dumps({"faults": [], "warnings": causes}, ensure_ascii=False, indent=1)


def completed(rows: dict[tuple[str, str], list[str]], years: range, lists: dict[str, list[str]]) -> str:
    """What `complete` finds: the state of each category and gas by year, and the lists that follow."""
    states = [{"category": code, "gas": gas, "states": dict(zip(map(str, years), found))}
              for (code, gas), found in rows.items()]
    named = {heading.lower().replace(" ", "_"): items for heading, items in lists.items()}
    return json.dumps({"states": states, **named}, ensure_ascii=False, indent=1)
