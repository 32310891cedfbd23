"""What the results of all years and the files of a year's cycle give away, once all files are checked."""
from tools import counting_notices, cycle_notices, factor_notices, place_notices, potential_notices
from tools import result_notices
from tools.check import Check
from tools.cycle_notices import Cycle
from tools.faults import Fault, in_order
from tools.notices import all_warnings
from tools.program import Program
from tools.results import Results

# What is told of records, and of results, which are an inventory's own where no file has a fault.
OF_RECORDS = (factor_notices, potential_notices)
OF_RESULTS = (counting_notices, place_notices, result_notices)


def warnings_of(program: Program, checked: Check) -> list[Fault]:
    """Every warning of a check, in the order of the rows."""
    results = Results(program, checked.book, checked.refused)
    found = all_warnings(results, checked.sheets, checked.left) + all_given_away(results, checked)
    return in_order(found, checked.sheets)


def all_given_away(results: Results, checked: Check) -> list[Fault]:
    """Every warning of these, for the files that a check accepted in a session of the program."""
    if not results.years:
        return []
    cycle = Cycle([sheet for sheet in checked.sheets if sheet not in checked.left], results)
    modules = OF_RECORDS if checked.faults else OF_RECORDS + OF_RESULTS
    found = [each.function(cycle) for each in cycle_notices.RECOGNISERS]
    found += [each.function(results) for module in modules for each in module.RECOGNISERS]
    return once_a_row([warning for warnings in found for warning in warnings])


def once_a_row(warnings: list[Fault]) -> list[Fault]:
    """Of the warnings of each row the first, which comes of a recogniser that says more."""
    by_row = {id(warning.row): warning for warning in reversed(warnings)}
    return [warning for warning in warnings if by_row[id(warning.row)] is warning]
