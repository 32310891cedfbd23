"""What the tables of a running service give away. Without its records, no row can be named."""
from __future__ import annotations

import decimal

from tools import as_json
from tools.complete import WITHOUT_YEARS
from tools.faults import counted, years_said
from tools.service import Service

MOST_SHOWN = 10


def run(service: Service, is_json: bool) -> int:
    """Prints the warnings of all years, and answers the status: what a service has was accepted."""
    span = service.span()
    if span is None:
        print(WITHOUT_YEARS)
        return 1
    years = range(span[0], span[1] + 1)
    warnings = [*blanks(service, years), *apart(service, years), *changes(service, years)]
    if is_json:
        print(as_json.of_service(warnings))
        return 0
    for warning in warnings:
        print(warning)
    print(f"{service.shown}: 0 faults, {counted(len(warnings), 'warning')}")
    return 0


def rows(service: Service, table: str, year: int) -> list[list[str]]:
    """The rows of a table without its header."""
    return [line.split(",") for line in (service.show(table, year) or [""])[1:]]


def blanks(service: Service, years: range) -> list[str]:
    """Lines that are blank in some years."""
    blank: dict[str, list[int]] = {}
    for year in years:
        for name, *_, high in rows(service, "cells", year):
            if high == "NE":
                blank.setdefault(name, []).append(year)
    return [f"warning: line {name} is blank in {years_said(found)}, and totals count zero"
            for name, found in blank.items()]


def apart(service: Service, years: range) -> list[str]:
    """Years in which a reference approach is far from the sectoral one, as the table flags it."""
    tables = {year: dict(rows(service, "reference", year)) for year in years}
    found = {year: items["percent"] for year, items in tables.items()
             if items["flag"] == "yes" and items["reference"] != "0.000"}
    if not found:
        return []
    worst = max(found, key=lambda year: abs(decimal.Decimal(found[year])))
    said = f"reference and sectoral approach are more than 5 % apart in {years_said(found)}"
    return [f"warning: {said}; most in {worst}, {found[worst]} %"]


def changes(service: Service, years: range) -> list[str]:
    """Changes of a category and gas above 20 percent, as the table flags them: the largest in Gg first."""
    found = []
    for year in years:
        for category, gas, before, value, percent, flag in rows(service, "checks", year):
            if flag == "yes":
                size = abs(decimal.Decimal(value) - decimal.Decimal(before))
                what = f"{category} {gas} changes by {percent} % in {year}, from {before} to {value} Gg"
                found.append((size, f"warning: {what} of CO2 equivalent"))
    found.sort(key=lambda pair: -pair[0])
    more = len(found) - MOST_SHOWN
    last = [f"warning: {counted(more, 'smaller change')} above 20 %"] if more > 0 else []
    return [said for _, said in found[:MOST_SHOWN]] + last
