"""Explains a word that is none of its column, or a column that has to be empty: rule 5."""
import itertools
import re
from collections.abc import Callable, Container, Iterable

from tools import causes, letters, other_equation, vocabulary
from tools.asking import (
    Asking, Candidate, article, cause_of, has_figure, is_empty, is_header, is_note, is_total,
    kind_by_its_rest, line_above)
from tools.causes import Mended
from tools.faults import Explained, at_row
from tools.other_equation import said_of
from tools.other_words import OTHER_ACTS, OTHER_KINDS, meant_by
from tools.recognisers import Recogniser, first_explained
from tools.sheets import COLUMNS_OF_KEY, Row
from tools.target_faults import name_otherwise, wrong_form, wrong_target
from tools.unit_faults import unit_beside, wrong_unit
from tools.vocabulary import Parameter, are, limit, listed, nearest


# The columns that a merged cell may leave empty, by the kind of a row.
MERGED = {"activity": ["name", "unit"], "factor": ["name", "unit"], "line": ["subject"], "bind": ["subject"]}


# What may stand in front of a code of a category.
WORD_OF_CODE = r"^(crf|crt|nfr|ipcc|code|category)[\s:._-]+"


def wrong_word(asking: Asking, row: Row, column: str) -> Explained:
    """A word that is none of its column, or a column that has to be empty."""
    of_row = first_explained(ROWS, asking, row, column)
    if of_row:
        return of_row
    kind = row.field("kind")
    if column == "act":
        return wrong_act(asking, row, column)
    if column == "kind":
        return wrong_kind(asking, row, column)
    if row.field("act") == "withdraw" and column in ("subject", "year", "value", "low", "high", "unit"):
        if (kind, column) not in (("bind", "subject"),):
            cause = f"in a row that withdraws {article(kind)} only what names the record is filled"
            return asking.filled(row, column, cause)
    explained = OF_COLUMNS.get((kind, column), column_that_stays_empty)
    return explained(asking, row, column)


def empty_row(_: Asking, row: Row, column: str) -> Explained | None:
    """A row with nothing in it."""
    return (at_row(row, "an empty row; take it out", column), None) if is_empty(row) else None


def header_again(_: Asking, row: Row, _column: str) -> Explained | None:
    """The header once more."""
    return (at_row(row, "the header once more; take this row out"), None) if is_header(row) else None


def totals(_: Asking, row: Row, _column: str) -> Explained | None:
    """A row of totals."""
    return (at_row(row, "a row of totals; take it out"), None) if is_total(row) else None


def heading_or_note(_: Asking, row: Row, _column: str) -> Explained | None:
    """A heading or a note."""
    cause = "a row of text; take it out, or write what it says into a note"
    return (at_row(row, cause), None) if is_note(row) else None


def formula(_: Asking, row: Row, column: str) -> Explained | None:
    """A formula of the spreadsheet."""
    cause = "a formula of the spreadsheet in place of what it shows"
    return (at_row(row, cause, column), None) if row.field(column).startswith("=") else None


def column_that_stays_empty(asking: Asking, row: Row, column: str) -> Explained:
    """A column that has to be empty, or one of a kind that there is not."""
    kind = row.field("kind")
    if kind not in COLUMNS_OF_KEY:
        cause = "no word of this column's form; docs/FORMATS.md says what it takes"
        return at_row(row, cause, column), None
    if column in ("low", "high") and kind in ("activity", "factor"):
        cause = f"beside the notation key {row.field('value')} low and high stay empty"
        return asking.filled(row, column, cause)
    return asking.filled(row, column, f"this column stays empty in {article(kind)} row")


def wrong_kind(asking: Asking, row: Row, column: str) -> Explained:
    """A kind, or another word for one."""
    return asking.other_word(row, column, OTHER_KINDS, vocabulary.words()["kinds"], "kind is")


def left_in_force(asking: Asking, row: Row, column: str) -> Explained | None:
    """An empty field of a correction, which is as the record in force has it; or None."""
    record = asking.book.rows.get(row.key) if row.field("act") == "correct" else None
    if record is None or row.field(column).strip() or not record.field(column):
        return None
    cause = f"empty; a correction has all columns, and {record.place} has this one"
    return asking.first_taken(row, column, [(cause, record.field(column), True)], cause)


def left_out(asking: Asking, row: Row, column: str) -> Explained | None:
    """An empty kind of a row whose rest is that of one kind, an empty act of one of a record that is not
    there, an empty line of a binding below a line that lacks it, or an empty name of the one factor that
    lines take and that is not there; or None.
    """
    if row.field(column).strip():
        return None
    above = line_above(row) if (row.field("kind"), column) == ("bind", "subject") else None
    if above and row.field("name") in asking.ahead.parameters_left(above):
        cause = f"empty; the line above is {above}, which has no binding of {row.field('name')}"
        return asking.first_taken(row, column, [(cause, above, True)], cause)
    is_factor = (row.field("kind"), column) == ("factor", "name")
    lacking = asking.ahead.names_lacking("factor", row.field("unit")) if is_factor else []
    if len(lacking) == 1:
        cause = "empty; no row enters this name, which is taken"
        return asking.first_taken(row, column, [(cause, lacking[0], True)], cause)
    kind = kind_by_its_rest(row) if column == "kind" else None
    if kind in ("line", "bind", "uncert"):
        cause = f"empty; the rest of the row is that of {article(kind)}"
        return asking.first_taken(row, column, [(cause, kind, True)], cause)
    name = row.field("name") if column == "kind" and row.field("unit").strip() else None
    there = [kind for kind in ("activity", "factor") if name is not None
             and (asking.ahead.row_of(kind, name) or asking.ahead.is_known(kind, name))]
    there = ["factor"] if name in vocabulary.words()["potentials"] else there
    if len(there) == 1:
        cause = f"empty; other rows of this name are of {article(there[0])}"
        return asking.first_taken(row, column, [(cause, there[0], True)], cause)
    is_new = row.field("kind") in COLUMNS_OF_KEY and row.key not in asking.book.rows
    if column == "act" and is_new and row.field("value").strip():
        cause = "empty, and nothing in front enters this"
        return asking.first_taken(row, column, [(cause, "enter", True)], cause)
    return None


def below_a_merged_cell(asking: Asking, row: Row, column: str) -> Explained | None:
    """Empty fields that rows above fill, as a spreadsheet writes cells that were merged, or None."""
    fields = filled_from_above(row)
    changed = row.with_fields(**fields)
    is_there = "name" in fields and asking.ahead.is_entered(changed)
    if column not in fields or is_there or not asking.takes(changed, column):
        return None
    write = listed([f"{text} in {name}" for name, text in fields.items()], "and")
    return at_row(row, "empty, as behind a merged cell; the row above has it", column, write), changed


def wrong_act(asking: Asking, row: Row, column: str) -> Explained:
    """An act, or another word for one. A row with figures withdraws nothing."""
    acts = vocabulary.words()["acts"]
    meant = meant_by(row.field(column), OTHER_ACTS)
    if meant == "withdraw" and any(map(row.field, ("value", "low", "high", "unit"))):
        return asking.choice(row, column, acts)
    return asking.other_word(row, column, OTHER_ACTS, acts, "act is")


def wrong_name(asking: Asking, row: Row, column: str) -> Explained:
    """A name of a record, or of the line of a binding."""
    text = row.field(column)
    of_line = row.field("kind") in ("line", "bind", "uncert")
    what = "name of a line" if of_line else f"name of {article(row.field('kind'))}"
    if text.upper().startswith("GWP."):
        return wrong_potential(asking, row, column)
    code = vocabulary.same_code(text) if row.field("kind") in ("bind", "uncert") else None
    if code:
        return category_for_line(asking, row, column, code)
    mended = causes.name(text)
    otherwise = name_otherwise(mended.text, what)
    return asking.first_taken(row, column, [(cause_of(mended.causes), mended.text, True)], otherwise)


def category_for_line(asking: Asking, row: Row, column: str, code: str) -> Explained:
    """A category where the name of a line stands: that of the one line there that lacks such a row, if
    there is one.
    """
    lines, parameter = asking.ahead.lines_at(code), causes.name(row.field("name")).text
    fit = [line.field("name") for line in lines if row.field("kind") == "bind"
           and line.field("value") in vocabulary.equations()
           and parameter in vocabulary.parameters_of(line.field("value"))
           and not asking.ahead.is_bound(line.field("name"), parameter)]
    above = (other for other in row.sheet.rows_above(row.line) if other.field("kind") == "line")
    near = [other.field("name") for other in itertools.islice(above, 1)]
    fit = near if set(near) & set(fit) else fit
    there = [line.field("name") for line in lines]
    cause = f"{code} is a category, and here stands the name of a line"
    otherwise = cause + (f"; there {are(there)} {listed(there, 'and')}" if there else "")
    return asking.first_taken(row, column, [(cause, fit[0], True)] if len(fit) == 1 else [], otherwise)


def wrong_potential(asking: Asking, row: Row, column: str) -> Explained:
    """A name that begins like that of a warming potential."""
    known = vocabulary.words()["potentials"]
    if row.field("kind") != "factor":
        cause = "names that begin with GWP. are of factors, the warming potentials"
        return at_row(row, cause, column), None
    bare = causes.name(row.field(column))
    otherwise = f"no such potential; there are {listed(known, 'and')}; of another gas take the row out"
    candidates = [(cause_of(bare.causes), bare.text, True)]
    with_letter = bare.text[:4] + bare.text[4:].replace("0", "O")
    candidates.append(("a zero in place of the letter O", with_letter, True))
    longer = [name for name in known if bare.text.startswith((f"{name}.", f"{name}_", f"{name}-"))]
    candidates += [("more than the name of a potential", name, True) for name in longer]
    return asking.first_taken(row, column, candidates, otherwise)


def wrong_parameter(asking: Asking, row: Row, column: str) -> Explained:
    """A parameter of a binding."""
    mended = causes.name(row.field(column))
    line = asking.book.lines.get(row.field("subject"))
    has = ""
    known: dict[str, Parameter] = {}
    if line:
        known = vocabulary.parameters_of(line.field("value"))
        has = f"; {line.field('value')} has {listed(known, 'and')}"
    otherwise = f"no parameter: it is 1 to {limit('parameter')} upper-case letters or digits{has}"
    candidates = alone(row.field(column).strip().upper(), known, "a parameter without what it measures")
    candidates.append((cause_of(mended.causes), mended.text, True))
    unbound = [name for name in known if not asking.ahead.is_bound(row.field("subject"), name)]
    words = row.field(column).split()
    if len(unbound) == 1 and not words:
        candidates = [("empty, and no other row binds it", unbound[0], True)]
    code = line.field("value") if line else ""
    named = [name for name in unbound if is_said_of(code, name, words)] if words else []
    if len(named) == 1:
        candidates.append(("here stands the code of the parameter", named[0], True))
    measures = asking.ahead.measured_by(row)
    fitting = [name for name in unbound if vocabulary.record_of(known[name]) == measures]
    if len(fitting) == 1:
        candidates.append((f"no parameter; {fitting[0]} has no binding", fitting[0], True))
    return asking.first_taken(row, column, candidates, otherwise)


def wrong_category(asking: Asking, row: Row, column: str) -> Explained:
    """A code of the tree.

    The line goes on at a memo code where its own is not known, so that its bindings are seen.
    """
    bare = plain_text(row.field(column))
    without_word = re.sub(WORD_OF_CODE, "", bare.text, flags=re.IGNORECASE)
    bare = bare.less("a word in front of the code", without_word)
    bare = bare.less("1.AA is 1A here", re.sub(r"^1\.?AA\.?(?=\d)", "1A", bare.text, flags=re.IGNORECASE))
    there = set(map(vocabulary.same_code, re.split(r"[\s,;/&+]+", bare.text)))
    if len(there & set(vocabulary.leaves())) > 1:
        cause = "more than one category; a line stands at one"
        return at_row(row, cause, column), at_a_memo_code(asking, row, column)
    code = re.sub(r"[\s.]", "", bare.text)
    candidates = [(cause_of(bare.causes), bare.text, True)]
    candidates.append((cause_of(bare.causes + ["a code has no dots or blanks"]), code, True))
    digits = code.translate(str.maketrans("IlOo", "1100"))
    if digits in vocabulary.categories():
        candidates.append(("letters in place of digits", digits, True))
    if re.match(r"([^0-9]|1).*(international|bunker)", bare.text, re.IGNORECASE):
        candidates.append(("international transport is at MB here", "MB", True))
    other, equation = None, row.field("value").strip().upper()
    places = vocabulary.places_of(equation)
    if code not in vocabulary.categories() or not places & set(vocabulary.leaves_under(code)):
        other = vocabulary.elsewhere(code_in_front(bare.text), equation)
    candidates += [one for one in alone(bare.text, vocabulary.leaves(), "a code without its name")
                   if not other or is_of_leaf(other, one[1], row.field("value"))]
    named = {leaf: vocabulary.categories()[leaf]["name"] for leaf in vocabulary.leaves()}
    candidates += called(bare.text, named, "the code of the category stands here")
    for word in [word for word in vocabulary.categories() if word.casefold() == code.casefold()]:
        candidates.append((cause_of(bare.causes + [f"the code is written {word}"]), word, True))
    for leaf in [leaf for leaf in vocabulary.leaves() if vocabulary.divides(bare.text, leaf)]:
        if not other or is_of_leaf(other, leaf, row.field("value")):
            candidates.append((f"this tree has {leaf} undivided", leaf, True))
    candidates += [(other[0], other[2], True)] if other else []
    fault, changed = asking.first_taken(row, column, candidates, category_otherwise(code, bare.text))
    return fault, changed or at_a_memo_code(asking, row, column)


def at_a_memo_code(asking: Asking, row: Row, column: str) -> Row | None:
    """The row at a memo code, where the program takes it."""
    changed = row.with_fields(**{column: "RA"})
    changed.has_other_figure = True
    return changed if asking.takes(changed, column) else None


def wrong_equation(asking: Asking, row: Row, column: str) -> Explained:
    """A code of an equation."""
    bare = plain_text(row.field(column))
    code = re.sub(r"\s", "", bare.text).upper()
    candidates = [(cause_of(bare.causes), bare.text, True)]
    candidates += alone(bare.text.upper(), vocabulary.equations(), "a code without its name")
    named = {known: equation["computes"] for known, equation in vocabulary.equations().items()}
    candidates += called(bare.text, named, "the code of the equation stands here")
    number = re.fullmatch(r"(?:Q|EQ|EQUATION)?[._-]?(\d+)", code)
    if code.isdigit():
        candidates.append(("the code of an equation begins with Q", "Q" + code, True))
    elif number:
        written = "Q" + number.group(1).lstrip("0")
        candidates.append(("an equation is written like Q10", written, True))
    elif re.fullmatch(r"Q[0-9OI]+", code):
        digits = code.translate(str.maketrans("OI", "01"))
        candidates.append(("letters in place of digits", digits, True))
    numbered = equations_numbered(code, row.field("subject"))
    if len(numbered) == 1:
        candidates.append((f"here stands the code of {said_of_source(numbered[0])}", numbered[0], True))
    line = causes.name(row.field("name")).text
    fitting = other_equation.of_parameters(asking.ahead.parameters_bound(line))
    of_gas = [known for known in fitting if vocabulary.gas_of(known) == code]
    if len(of_gas) == 1:
        candidates.append((f"here stands the code of the equation that gives {code}", of_gas[0], True))
    near = fitting or other_equation.nearest_by_names(line, row.field("subject").strip(), asking.ahead)
    meant = other_equation.likeliest(near, row.with_fields(name=line), asking.ahead)
    if len(meant) == 1:
        cause = f"{'no equation of this code' if code else 'empty'}; the bindings of this line are"
        cause += f" {'' if fitting else 'nearest to '}those of {said_of(meant)}"
        candidates.append((cause, meant[0], True))
    known = numbered or of_gas or equations_near(code, bare.text) or fitting
    what = f"no equation of this code{near_it([said_of([code]) for code in known])}"
    if not code:
        what = "empty; here stands the code of an equation"
    otherwise = f"{what}; ./workbook words equations lists them"
    return asking.first_taken(row, column, candidates, otherwise)


def is_said_of(equation: str, parameter: str, words: list[str]) -> bool:
    """Tells whether the page of equations says what a parameter is by these words."""
    return all(vocabulary.is_said_of(equation, parameter, word) for word in words)


def plain_text(text: str) -> Mended:
    """A text without blanks at its ends, and without letters that look Latin and are not."""
    bare = causes.without_blanks(text)
    return bare.less(letters.said_of_alike(bare.text), letters.latin(bare.text))


def code_in_front(text: str) -> str:
    """The code that a text begins with, without its dots and blanks and without the name after it."""
    parts = text.replace(".", "").split()
    behind = itertools.takewhile(lambda part: len(part) < 3 or part.casefold() == "iii", parts[1:])
    return "".join([*parts[:1], *behind])


def is_of_leaf(other: tuple[str, str, str], leaf: str, equation: str) -> bool:
    """Tells whether a code of other guidelines may be a part of a leaf: it is of the same volume, says no
    more than the leaf does, and a line of the equation stands there.
    """
    _, code, here = other
    volumes = vocabulary.volume_of_category(leaf), vocabulary.volume_of_category(here)
    has_place = leaf in vocabulary.places_of(equation.strip().upper())
    return volumes[0] == volumes[1] and len(code) <= len(leaf) and has_place


def filled_from_above(row: Row) -> dict[str, str]:
    """What the rows above have in the columns that a merged cell may leave empty and that are, by column."""
    if not has_figure(row):
        return {}
    kind, fields = row.field("kind").strip(), {}
    for column in ("act", "kind"):
        if not row.field(column).strip():
            fields[column] = text_above(row, column, kind)
    kind = fields.get("kind", kind)
    if row.field("unit").strip() and kind not in ("activity", "factor"):
        return {}
    for column in MERGED.get(kind, []):
        if not row.field(column).strip() and (column != "unit" or is_of_name_above(row, kind)):
            fields[column] = text_above(row, column, kind)
    return {column: text for column, text in fields.items() if text}


def is_of_name_above(row: Row, kind: str) -> bool:
    """Tells whether a row without a unit of its own is of the name that stands above it."""
    name = row.field("name").strip()
    return unit_beside(row)[1] is None and name in ("", text_above(row, "name", kind))


def text_above(row: Row, column: str, kind: str) -> str:
    """The nearest text above a field in its column, where that row is of a kind or none is known; or
    nothing.
    """
    for other in row.sheet.rows_above(row.line):
        if other.field(column).strip():
            return other.field(column) if kind in ("", other.field("kind").strip()) else ""
    return ""


def alone(text: str, known: Container[str], cause: str) -> list[Candidate]:
    """The word that a text begins with, as a candidate, where it is a known one and more stands after it."""
    first = re.split(r"[\s(,:;/-]", text, maxsplit=1)[0]
    return [(cause, first, True)] if first in known and first != text else []


def called(text: str, named: dict[str, str], cause: str) -> list[Candidate]:
    """The code that has a text as its name, as a candidate."""
    plain = re.sub(r"\W+", " ", text).casefold().strip()
    return [(cause, code, True) for code, name in named.items()
            if plain and re.sub(r"\W+", " ", name).casefold().strip() == plain]


def equations_numbered(code: str, category: str) -> list[str]:
    """The equations of the volume of a category with the number of the Guidelines that a text is."""
    found = re.fullmatch(r"(?:EQ(?:UATION|N)?\.?)?(\d{1,2}\.\d{1,2}(?:\.\d)?)", code)
    volume = vocabulary.volume_of_category(category.strip())
    return [known for known, equation in vocabulary.equations().items()
            if found and volume and vocabulary.volume_of_equation(known) == volume
            and found.group(1) in re.findall(r"[\d.]*\d", equation["source"].split(",", 1)[-1])]


def said_of_source(code: str) -> str:
    """The equation of the Guidelines that an equation is."""
    return vocabulary.equations()[code]["source"]


def equations_near(code: str, text: str) -> list[str]:
    """The equations with the nearest numbers to a code that is none, or those whose names hold the text."""
    found = re.fullmatch(r"Q(\d+)", code)
    if found:
        number = int(found.group(1))
        return sorted(vocabulary.equations(), key=lambda known: abs(int(known[1:]) - number))[:3]
    names = {known: equation["computes"] for known, equation in vocabulary.equations().items()}
    return named_like(text, names) or nearest(code, names, 3, 0.75)


def named_like(text: str, names: dict[str, str]) -> list[str]:
    """The codes whose names hold each word of a text of some letters, three at the most."""
    if len(text) < 3:
        return []
    words = text.casefold().split()
    return [code for code, name in names.items() if all(word in name.casefold() for word in words)][:3]


def near_it(known: Iterable[str]) -> str:
    """What is near a text that is none of its column, where anything is."""
    known = list(known)
    return f"; near it {are(known)} {listed(known, 'and')}" if known else ""


def category_otherwise(code: str, text: str) -> str:
    """Why a code is no leaf of the tree."""
    known = vocabulary.categories()
    if not code:
        return "empty; here stands the code of a category; ./workbook words categories lists them"
    if code in known:
        return f"not a leaf: its leaves are {listed(vocabulary.leaves_under(code), 'and')}"
    longest = min(len(code) - 1, max(map(len, known)))
    fronts = (code[:end] for end in range(longest, 0, -1))
    above = next((front for front in fronts if front in known and known[front]["children"]), None)
    if above:
        there = [f"{leaf} ({known[leaf]['name']})" for leaf in known[above]["children"]]
        return f"no category of this tree; under {above} it has {listed(there, 'and')}"
    leaves = {leaf: f"{known[leaf]['name']}; {known[leaf]['also']}" for leaf in vocabulary.leaves()}
    like = [f"{leaf} ({known[leaf]['name']})" for leaf in named_like(text, leaves)]
    return f"no category of this tree{near_it(like)}; ./workbook words categories lists them"


# What explains a word of a column, by the kind of its row.
OF_COLUMNS: dict[tuple[str, str], Callable[[Asking, Row, str], Explained]] = {
    ("line", "subject"): wrong_category, ("line", "name"): wrong_name, ("line", "value"): wrong_equation,
    ("bind", "subject"): wrong_name, ("bind", "name"): wrong_parameter, ("bind", "value"): wrong_form,
    ("bind", "low"): wrong_target, ("activity", "name"): wrong_name, ("factor", "name"): wrong_name,
    ("activity", "unit"): wrong_unit, ("factor", "unit"): wrong_unit, ("uncert", "name"): wrong_name,
}
# What is said of a row as a whole, in this order, before one of its words is looked at.
ROWS = (
    Recogniser(
        empty_row, "empty rows", ",,,,,,,,,", "an empty row; take it out",
        "enter,activity,,COAL,2019,1000,,,kt,"),
    Recogniser(
        header_again, "the header once more", "act,kind,subject,name,year,value,low,high,unit,note",
        "the header once more; take this row out", "enter,activity,,COAL,2019,1000,,,kt,act and kind"),
    Recogniser(
        totals, "totals", "Total,,,,,3070,,,kt,", "a row of totals; take it out",
        "enter,activity,,COAL,2019,1000,,,kt,total of two plants"),
    Recogniser(
        left_in_force, "empty columns of a correction",
        "enter,activity,,COAL,2019,1000,,,kt,\n\ncorrect,activity,,COAL,2019,1010,,,,",
        "empty; a correction has all columns, and 1.csv:",
        "enter,activity,,COAL,2019,1000,,,kt,\n\ncorrect,activity,,COAL,2019,1010,,,kt,"),
    Recogniser(
        left_out, "acts, kinds, lines and names that are missing",
        "-enter,bind,COWS.CH4,N\nenter,,COWS.CH4,N,,activity,COWS,,,",
        "empty; the rest of the row is that of a bind; write bind",
        "enter,bind,COWS.CH4,N,,activity,COWS,,,"),
    Recogniser(
        below_a_merged_cell, "cells that were merged",
        "-enter,activity,,MANURE.N,2021\nenter,activity,,,2021,20700,,,,",
        "empty, as behind a merged cell; the row above has it; write MANURE.N in name and t in unit",
        "enter,activity,,MANURE.N,2021,20700,,,t,"),
    Recogniser(
        heading_or_note, "headings and notes", "Coal of the north mine,,,,,,,,,",
        "a row of text; take it out, or write what it says into a note",
        "enter,activity,,COAL,2019,1000,,,kt,coal of the north mine"),
    Recogniser(
        formula, "formulas of a spreadsheet", "enter,factor,,COWS.EF,2019,126,,,=I3,",
        "a formula of the spreadsheet in place of what it shows",
        "enter,factor,,COWS.EF,2019,126,,,kg/head,=I3"),
)
# What the page has of the words of columns.
WORDS = (
    Recogniser(
        wrong_act, "other words for acts", "-enter,activity,,COAL,2019\nadd,activity,,COAL,2019,1000,,,kt,",
        'act "add": no such word; write enter', "enter,activity,,COAL,2019,1000,,,kt,add"),
    Recogniser(
        wrong_kind, "other words for kinds", "-enter,activity,,COAL,2019\nenter,ad,,COAL,2019,1000,,,kt,",
        'kind "ad": no such word; write activity', "enter,activity,,COAL,2019,1000,,,kt,ad"),
    Recogniser(
        wrong_category, "categories with dots or names, those that divide a leaf, international bunkers, and "
        "those of the 1996 Guidelines and the common reporting tables",
        "-enter,line,1A1a,COAL.TJ\nenter,line,1.A.1.a,COAL.TJ,,Q13,,,,",
        'subject "1.A.1.a": a code has no dots or blanks; write 1A1a', "enter,line,1A1a,COAL.TJ,,Q13,,,,"),
    Recogniser(
        wrong_equation, "equations without their Q, or by their number in the Guidelines",
        "enter,line,1A1a,COAL.TJ,,13,,,,", 'value "13": the code of an equation begins with Q; write Q13',
        "enter,line,1A1a,COAL.TJ,,Q13,,,,13"),
    Recogniser(
        wrong_name, "names in lower case, with blanks, accents, letters of other alphabets or quotes",
        "-enter,activity,,COAL,2019\nenter,activity,,coal,2019,1000,,,kt,",
        'name "coal": lower case; write COAL', "enter,activity,,COAL,2019,1000,,,kt,coal"),
    Recogniser(
        wrong_parameter, "parameters in lower case, or by what they are",
        "-enter,bind,COWS.CH4,N\nenter,bind,COWS.CH4,n,,activity,COWS,,,",
        'name "n": lower case; write N', "enter,bind,COWS.CH4,N,,activity,COWS,,,n"),
    Recogniser(
        wrong_form, "other words for forms; a target in place of a form",
        "enter,bind,COWS.CH4,N,,ad,COWS,,,", 'value "ad": no such word; write activity',
        "enter,bind,COWS.CH4,N,,activity,COWS,,,ad"),
    Recogniser(
        wrong_target, "targets that are missing or misspelt; a number or a category as a target",
        "enter,bind,COWS.CH4,N,,activity,cows,,,", 'low "cows": lower case; write COWS',
        "enter,bind,COWS.CH4,N,,activity,COWS,,,cows"),
    Recogniser(
        column_that_stays_empty, "columns that stay empty", "enter,line,1A1a,COAL.TJ,2019,Q13,,,,",
        "this column stays empty in a line row; take it out", "enter,line,1A1a,COAL.TJ,,Q13,,,,2019"),
)
UNITS = (
    Recogniser(
        wrong_unit, "each as people write it, with its size: `ktonnes`, `thousand head`, `kg N/head/yr`, "
        "`g CO2/kWh`, `t d.m./ha`; one that is upside down, as `TJ/kg`; a rate of decay, as `%/yr`, with the "
        "half-life", "enter,activity,,COAL,2019,1000,,,ktonnes,",
        'unit "ktonnes": the unit is written kt; write kt', "enter,activity,,COAL,2019,1000,,,kt,ktonnes"),
)
