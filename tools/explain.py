"""Explains a refusal that names a row: rules 4 to 9.

Each explainer is a function, and stands in a table with its example. What it says to write is what the
program took when it was asked.
"""
from tools.asking import Asking
from tools.faults import Explained
from tools.number_faults import disorder, wrong_number
from tools.program import Reply
from tools.record_faults import absent, exists, unit_of_another_dimension
from tools.recognisers import first_explained
from tools.shape_faults import wrong_shape
from tools.sheets import Row
from tools.shifts import OF_NUMBERS, OF_WORDS
from tools.word_faults import wrong_word


def explain(asking: Asking, row: Row, reply: Reply) -> Explained:
    """The fault, and the row to go on with where the writer can have meant nothing else."""
    column = reply.column or ""
    if reply.rule == 4:
        return wrong_shape(asking, row)
    if reply.rule == 5:
        return first_explained(OF_WORDS, asking, row) or wrong_word(asking, row, column)
    if reply.rule == 6:
        return first_explained(OF_NUMBERS, asking, row) or wrong_number(asking, row, column)
    if reply.rule == 7:
        return disorder(asking, row)
    if reply.rule == 8:
        return unit_of_another_dimension(asking, row)
    return exists(asking, row) if reply.text.split()[2] == "Exists" else absent(asking, row)
