"""The one table of what `check` recognises: its list and the tests are made from it."""
from tools import basis_faults, counting_notices, cycle_notices, factor_notices, noticed, number_faults
from tools import parted_numbers, place_notices, potential_notices, record_faults, result_notices
from tools import shape_faults, shifts, word_faults
from tools.recognisers import Recogniser

Tables = dict[str, tuple[Recogniser, ...]]
# The tables of faults and of warnings, by what their recognisers are of.
TOLD: Tables = {
    "fields": shape_faults.SHAPES,
    "rows": word_faults.ROWS,
    "columns": shifts.OF_WORDS,
    "words": word_faults.WORDS,
    "numbers": number_faults.NUMBERS,
    "years": number_faults.YEARS_TOLD,
    "units": word_faults.UNITS,
    "entries": record_faults.RECORDS,
    "commas in numbers": parted_numbers.RECOGNISERS,
    "units and their basis": basis_faults.RECOGNISERS,
}
WARNED: Tables = {
    "records": noticed.RECORDS,
    "figures": noticed.FIGURES,
    "lines": noticed.LINES,
    "factors": factor_notices.RECOGNISERS,
    "the place of another": place_notices.RECOGNISERS,
    "potentials": potential_notices.RECOGNISERS,
    "double counting": counting_notices.RECOGNISERS,
    "results": result_notices.RECOGNISERS,
    "the year's cycle": cycle_notices.RECOGNISERS,
}
TABLES: Tables = {**TOLD, **WARNED}
