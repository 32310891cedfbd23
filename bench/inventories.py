"""The inventories that bench/figures measures, and the edits of them, as commands of a session.

Each function answers commands, or rows of a submission, as text. Long ones come one by one.
"""
from collections.abc import Iterable, Iterator

HEADER = "act,kind,subject,name,year,value,low,high,unit,note\n"
CATEGORIES = "1A1a 1A1b 1A1c 1A2 1A3a 1A3b 1A3c 1A4a 1A4b 1A5".split()
# The years of the smaller inventories, and those of the large one.
FIRST, LAST = 1990, 2020
EARLIEST, LATEST = 1950, 2100
YEARS = range(FIRST, LAST + 1)
LONG_YEARS = range(EARLIEST, LATEST + 1)
TABLES = [f"SHOW {table} {LAST}\n" for table in ("summary", "series", "cells")]
# The parameters of the equation that adds up, the most lines of a sum, and the most bytes of a body here.
PARAMETERS = "PR IM EX IB SC".split()
WIDTH, BODY = 400, 4_000_000
# How many factors overflow a total together.
OVERFLOWING = 12


def submission(name: str, rows: str) -> str:
    """A command that submits rows."""
    body = HEADER + rows
    return f"SUBMIT {name} {len(body)}\n{body}"


def submissions(name: str, bodies: Iterable[str]) -> Iterator[str]:
    """Commands that submit these bodies of rows, one by one."""
    return (submission(f"{name}{number}", rows) for number, rows in enumerate(bodies))


def in_bodies(pieces: Iterable[str]) -> Iterator[str]:
    """Rows put together into as few bodies as fit."""
    rows: list[str] = []
    size = 0
    for piece in pieces:
        if size + len(piece) > BODY:
            yield "".join(rows)
            rows, size = [], 0
        rows.append(piece)
        size += len(piece)
    yield "".join(rows)


def span(first: int, last: int) -> str:
    return f"enter,span,,,{first},{last},{last},,,\n"


# ---- lines of fuel burnt over 31 years, each with its own factor, and an activity for each year


def entered_activities(number: int) -> dict[int, int]:
    """The activities of a line as they are entered."""
    return {year: number + year for year in YEARS}


def corrected_year(number: int) -> int:
    """The year in which the activity of a line is corrected."""
    return FIRST + number * 7 % len(YEARS)


def final_activities(number: int) -> dict[int, int]:
    """The activities of a line after its correction."""
    return entered_activities(number) | {corrected_year(number): 3 * number + 5}


def fuel_line(number: int) -> str:
    """The rows of a line without its figures."""
    name = f"{number:05d}"
    return (
        f"enter,line,{CATEGORIES[number % 10]},L{name},,Q10,,,,\n"
        f"enter,bind,L{name},FC,,activity,A{name},,,\n"
        f"enter,bind,L{name},EF,,factor,F{name},,,\n"
    )


def fuel_figures(number: int, activities: dict[int, int]) -> str:
    """The factor of a line, and these activities."""
    name = f"{number:05d}"
    rows = [f"enter,factor,,F{name},{FIRST},{50000 + number},{49000 + number},{51000 + number},kg/TJ,\n"]
    rows += [f"enter,activity,,A{name},{year},{activities[year]},,,TJ,\n" for year in YEARS]
    return "".join(rows)


def fuel_rows(number: int, activities: dict[int, int]) -> str:
    """The rows of a line with these activities."""
    return fuel_line(number) + fuel_figures(number, activities)


def first_rows() -> str:
    """The years, and the potential of the gas of all lines."""
    return span(FIRST, LAST) + f"enter,factor,,GWP.CO2,{FIRST},1,,,1,\n"


def fuels(lines: int) -> Iterator[str]:
    """The final data of so many lines, by one submission."""
    rows = "".join(fuel_rows(number, final_activities(number)) for number in range(lines))
    yield submission("fuels", first_rows() + rows)


def activity_row(number: int, value: int) -> str:
    return f"correct,activity,,A{number:05d},{corrected_year(number)},{value},,,TJ,\n"


def one_by_one(lines: int) -> Iterator[str]:
    """The same data by a submission for each line, and then one for each correction."""
    yield submission("first", first_rows())
    yield from submissions("line", (fuel_rows(number, entered_activities(number)) for number in range(lines)))
    yield from submissions("correction", (activity_row(number, 3 * number + 5) for number in range(lines)))


def corrected_activities(lines: int) -> Iterator[str]:
    """A correction of one activity of each line."""
    return submissions("activity", (activity_row(number, 3 * number + 6) for number in range(lines)))


def corrected_bindings(lines: int) -> Iterator[str]:
    """A correction of one binding of each line. It takes the activity of the next line."""
    row = "correct,bind,L{:05d},FC,,activity,A{:05d},,,\n"
    return submissions("binding", (row.format(number, (number + 1) % lines) for number in range(lines)))


def corrected_potentials(times: int) -> Iterator[str]:
    """So many corrections of the potential of the gas of all lines."""
    row = "correct,factor,,GWP.CO2,{},{},,,1,\n"
    return submissions("potential", (row.format(FIRST, 2 + time) for time in range(times)))


def one_figure_of_each(lines: int, times: int) -> Iterator[str]:
    """So many submissions that correct the factor of each line."""
    row = "correct,factor,,F{:05d},{},{},{},{},kg/TJ,\n"
    for time in range(times):
        values = ((number, 50001 + number + time, 49000 + number, 51000 + number) for number in range(lines))
        rows = "".join(row.format(number, FIRST, *bounds) for number, *bounds in values)
        yield submission(f"figures{time}", rows)


# ---- lines of fuel burnt that take one activity, each with its own factor


def burnt_rows(number: int) -> str:
    name = f"{number:04d}"
    return (
        f"enter,line,1A1a,L{name},,Q10,,,,\n"
        f"enter,bind,L{name},FC,,activity,A,,,\n"
        f"enter,bind,L{name},EF,,factor,F{name},,,\n"
        f"enter,factor,,F{name},{EARLIEST},{50000 + number},,,kg/TJ,\n"
    )


def burnt(lines: int, years: range) -> Iterator[str]:
    """So many lines over these years, with the potential of their gas, by one submission."""
    rows = [span(years[0], years[-1]), f"enter,factor,,GWP.CO2,{EARLIEST},1,,,1,\n"]
    rows += [f"enter,activity,,A,{year},{year},,,TJ,\n" for year in years]
    rows += [burnt_rows(number) for number in range(lines)]
    yield submission("burnt", "".join(rows))


def all_figures(years: range, times: int) -> list[str]:
    """Bodies that correct all figures of the activity, and so reach all cells, each to other values."""
    row = "correct,activity,,A,{},{},,,TJ,\n"
    return ["".join(row.format(year, year + time) for year in years) for time in range(1, times + 1)]


def factor_rows(lines: int, value: int) -> str:
    """The rows that correct the factors of the last lines."""
    row = "correct,factor,,F{:04d},{},{},,,kg/TJ,\n"
    return "".join(row.format(number, EARLIEST, value) for number in range(lines - OVERFLOWING, lines))


def overflows(lines: int, bodies: Iterable[str]) -> Iterator[str]:
    """Submissions of these rows, each with factors by which the totals above the lines overflow."""
    return submissions("overflow", (rows + factor_rows(lines, 47_000_000_000) for rows in bodies))


def accepted_factors(lines: int, bodies: Iterable[str]) -> Iterator[str]:
    """The same rows, but for factors that are accepted."""
    return submissions("factors", (rows + factor_rows(lines, 60_000 + at) for at, rows in enumerate(bodies)))


def withdrawn_lines(times: int) -> Iterator[str]:
    """So many submissions, each of which withdraws a line with its bindings."""
    rows = "withdraw,line,,L{0:04d},,,,,,\nwithdraw,bind,L{0:04d},FC,,,,,,\nwithdraw,bind,L{0:04d},EF,,,,,,\n"
    return submissions("withdrawn", (rows.format(number) for number in range(times)))


# ---- lines that take others


def chain(lines: int) -> Iterator[str]:
    """So many lines over 31 years, each of which takes the one before it. The names fall along the chain, so
    that a search which begins with the first name goes down all of it before it places a line."""
    rows = [span(FIRST, LAST)]
    before = None
    for number in range(lines, 0, -1):
        name, activity = f"L{number:04d}", f"A{number:04d}"
        first = f"line,{before}" if before else "key,NO"
        rows += [f"enter,line,RA,{name},,Q22,,,,\n", f"enter,bind,{name},PR,,{first},,,\n"]
        rows += [f"enter,bind,{name},IM,,activity,{activity},,,\n"]
        rows += [f"enter,bind,{name},{parameter},,key,NO,,,\n" for parameter in PARAMETERS[2:]]
        rows += [f"enter,activity,,{activity},{year},{year + number},,,TJ,\n" for year in YEARS]
        before = name
    return submissions("chain", in_bodies(rows))


def sums_of_two(lines: int) -> Iterator[str]:
    """So many lines of one year. The first two give 1 TJ, and each other the sum of the one before it and of the
    first, since sums of the two before it would leave the limits."""
    rows = [span(LAST, LAST), f"enter,activity,,A,{LAST},1,,,TJ,\n"]
    first, before = f"L{lines:04d}", None
    for number in range(lines, 0, -1):
        name = f"L{number:04d}"
        taken = "activity,A" if number > lines - 2 else f"sum,{before} {first}"
        rows += [f"enter,line,RA,{name},,Q22,,,,\n", f"enter,bind,{name},PR,,{taken},,,\n"]
        rows += [f"enter,bind,{name},{parameter},,key,NO,,,\n" for parameter in PARAMETERS[1:]]
        before = name
    return submissions("sums", in_bodies(rows))


def taken_by(number: int) -> list[range]:
    """The lines that a line of the graph takes, by parameter: the 400 before it, the 400 before these, and so on."""
    ends = (number - at * WIDTH for at in range(len(PARAMETERS)))
    return [range(max(0, end - WIDTH), max(0, end)) for end in ends]


def graph_rows(number: int) -> str:
    rows = [f"enter,line,RA,L{number:04d},,Q22,,,,\n"]
    for parameter, taken in zip(PARAMETERS, taken_by(number)):
        names = " ".join(f"L{other:04d}" for other in taken)
        rows.append(f"enter,bind,L{number:04d},{parameter},,{f'sum,{names}' if names else 'key,NO'},,,\n")
    return "".join(rows)


def graph(lines: int) -> Iterator[str]:
    """So many lines of one year, each of which takes the 2,000 before it."""
    yield submission("years", span(LAST, LAST))
    yield from submissions("graph", in_bodies(graph_rows(number) for number in range(lines)))


def references(lines: int) -> int:
    """How many lines the lines of the graph take, in all."""
    return sum(len(taken) for number in range(lines) for taken in taken_by(number))


def rings(lines: int, times: int) -> Iterator[str]:
    """So many submissions by which the first line of the graph takes the last one."""
    row = f"correct,bind,L0000,PR,,line,L{lines - 1:04d},,,\n"
    return submissions("ring", [row] * times)
