"""Explains the form and the target of a binding: rule 5."""
import re

from tools import causes, letters, vocabulary
from tools.asking import Asking, article, cause_of
from tools.book import KIND_TAKEN
from tools.faults import Explained, at_row
from tools.other_words import OTHER_FORMS, meant_by
from tools.sheets import Row
from tools.vocabulary import Parameter, limit, listed, nearest, said_of_parameter


def wrong_form(asking: Asking, row: Row, column: str) -> Explained:
    """The form of a binding, which goes on with NE."""
    forms, text = vocabulary.words()["forms"], causes.without_blanks(row.field(column)).text
    key = causes.notation_key(text)
    bound = row.with_fields(value="key", low=key)
    if key in vocabulary.words()["keys"] and not row.field("low") and asking.takes(bound, None):
        return at_row(row, "a notation key is bound by key", column, f"key,{key}"), bound
    target = target_in_value(asking, row, text)
    if not meant_by(text, OTHER_FORMS) and not nearest(text, forms, 1, 0.75):
        target = target or form_of_target(asking, row, column)
    if target:
        return target
    if is_number(row.field("low") or text) and not nearest(key, forms, 1, 0.75):
        number = number_as_target(asking, row, row.field("low") or text)
        return at_row(row, f"a binding is by {listed(forms)}; {number}", column), blank_binding(asking, row)
    fault, changed = asking.other_word(row, column, OTHER_FORMS, forms, "a binding is by")
    return fault, changed or blank_binding(asking, row)


def form_of_target(asking: Asking, row: Row, column: str) -> Explained | None:
    """The form of a binding that has a target and no form that there is, told by what the target is, or
    None.
    """
    low = row.field("low")
    kinds = ["key"] if causes.notation_key(low) in vocabulary.words()["keys"] else []
    name = causes.name(low).text
    kinds += [kind for kind in ("activity", "factor", "line") if asking.ahead.row_of(kind, name)]
    what = "no such form" if row.field(column).strip() else "empty"
    candidates = [(f"{what}; {low.strip()} is taken by {kind}", kind, True) for kind in kinds]
    return asking.first_taken(row, column, candidates, what) if low.strip() and candidates else None


def target_in_value(asking: Asking, row: Row, text: str) -> Explained | None:
    """The target of a binding in value, alone or after its form, or None. Which form is meant is told by
    what has the name.
    """
    forms = vocabulary.words()["forms"]
    found = re.fullmatch(rf"(?:({'|'.join(forms)})[\s:=]+)?(.*)", text, re.IGNORECASE | re.DOTALL)
    form, target = ((found.group(1) or "").lower(), found.group(2)) if found else ("", text)
    name = causes.name(target).text
    entered = [(kind, asking.ahead.row_of(kind, name)) for kind in ("activity", "factor", "line")]
    there = [(kind, one) for kind, one in entered if one]
    if not name or row.field("low") or not there and not form:
        return None
    kind = form or there[0][0]
    changed = row.with_fields(value=kind, low=name)
    if not asking.takes(changed, None):
        return None
    cause = "the form of a binding stands here, and the target in low"
    if not form:
        cause = f"{name} is {article(kind)} ({there[0][1].place}); {cause}"
    return at_row(row, cause, "value", f"{kind} in value and {name} in low"), changed


def blank_binding(asking: Asking, row: Row) -> Row | None:
    """The binding with NE as its target, so that its line is not left without it, where the program
    takes it. What it names is meant to be taken all the same.
    """
    named = [causes.name(row.field(column)).text for column in ("value", "low")]
    asking.refused.meant_records.update((kind, name) for kind in ("activity", "factor") for name in named)
    further: dict[str, str] = {"year": "", "high": "", "unit": ""}
    for changed in (row, row.with_fields(**further)):
        changed = changed.with_fields(value="key", low="NE")
        changed.has_other_figure = True
        if asking.takes(changed, None):
            return changed
    return None


def wrong_target(asking: Asking, row: Row, column: str) -> Explained:
    """The target of a binding. The binding goes on with NE where it is not sure what is meant."""
    fault, changed = target_alone(asking, row, column)
    return fault, changed or blank_binding(asking, row)


def target_alone(asking: Asking, row: Row, column: str) -> Explained:
    """A name, several names or a notation key."""
    text, form = row.field(column), row.field("value")
    if not text.strip():
        return no_target(asking, row, column)
    if form == "key":
        keys, meant = vocabulary.words()["keys"], causes.notation_key(text)
        if meant in keys and meant != letters.latin(text).strip().upper():
            candidates = [("a notation key has two letters", meant, True)]
            return asking.first_taken(row, column, candidates, "no key")
        zero = "; all but NE are zero" if is_zero(text) else ""
        return asking.choice(row, column, keys, f"a binding by key takes {listed(keys)}{zero}")
    code = vocabulary.same_code(text) if form in ("line", "prev", "sum") else None
    if code and not re.match("[A-Z]", text):
        return category_for_target(asking, row, column, code)
    if form == "sum":
        return sum_target(asking, row, column)
    if text.upper() in vocabulary.words()["potentials"]:
        cause = "a potential is no target: equivalents take it by themselves"
        parameter = parameter_of(asking, row)
        takes = f"; {said_of_parameter(parameter)} is what is taken here" if parameter else ""
        return at_row(row, f"{cause}{takes}", column), None
    mended = causes.name(text)
    is_there = asking.ahead.row_of("line", mended.text)
    if form in ("line", "prev") and not is_there and len(re.findall(r"[^\s,;+]+", text)) > 1:
        cause = f"more than one line; a binding by {form} takes one, and by sum several"
        return at_row(row, cause, column), None
    if is_number(text):
        return at_row(row, number_as_target(asking, row, text), column), None
    if re.search(r"\S\s*[+;,]\s*\S", text):
        cause = f"more than one name; a binding by {form} takes one, and by sum the lines that it adds up"
        return at_row(row, cause, column), None
    candidates = [(cause_of(mended.causes), mended.text, mended.sure)]
    return asking.first_taken(row, column, candidates, name_otherwise(mended.text, "name"))


def no_target(asking: Asking, row: Row, column: str) -> Explained:
    """No target: the one record of the form's kind that measures what the parameter takes, and that no
    row takes, where there is one.
    """
    form, parameter = row.field("value"), parameter_of(asking, row)
    kind = KIND_TAKEN.get(form, "")
    left = asking.ahead.records_left(kind, parameter) if kind and parameter else []
    otherwise = f"no target; a binding by {form} names {target_of(form)}"
    cause = f"no target; no row takes this {kind}"
    return asking.first_taken(row, column, [(cause, left[0], True)] if len(left) == 1 else [], otherwise)


def category_for_target(asking: Asking, row: Row, column: str, code: str) -> Explained:
    """A category where lines are meant: those there that give what the parameter takes."""
    parameter = parameter_of(asking, row)
    form, measures = row.field("value"), parameter["measures"] if parameter else None
    others = [line for line in asking.ahead.lines_at(code) if line.field("name") != row.field("subject")]
    lines = [line.field("name") for line in others if line.field("value") in vocabulary.equations()
             and vocabulary.given_by(line.field("value")) == measures]
    cause = f"{code} is a category, and a binding by {form} takes {target_of(form)}"
    otherwise = f"{cause}; none there gives {measures}" if parameter and not lines else cause
    if form != "sum" and len(lines) > 1:
        return at_row(row, f"{cause}; there are {listed(lines, 'and')}", column), None
    candidates = [(cause, " ".join(lines), False)] if lines else []
    return asking.first_taken(row, column, candidates, otherwise)


def parameter_of(asking: Asking, row: Row) -> Parameter | None:
    """The parameter that a binding names, where its line is known, or None."""
    line = asking.book.lines.get(row.field("subject")) or asking.ahead.row_of("line", row.field("subject"))
    code = line.field("value") if line else ""
    known = vocabulary.parameters_of(code) if code in vocabulary.equations() else {}
    return known.get(row.field("name"))


def number_as_target(asking: Asking, row: Row, text: str) -> str:
    """What to write in place of a number as a target: a factor of it, with the units that its parameter
    takes, and its name.
    """
    said = "a target is a name and no number"
    parameter = parameter_of(asking, row)
    if not parameter:
        return f"{said}; enter the number as a factor, and bind that by factor"
    name = f"{row.field('subject')}.{row.field('name')}"[:int(limit("name"))]
    there = asking.ahead.row_of("factor", name)
    if there:
        asking.refused.meant_records.add(("factor", name))
        return f"{said}; there is factor {name} ({there.place}): write factor,{name}"
    span = asking.span()
    year = str(span[0]) if span else "YEAR"
    units = vocabulary.units_that_measure(vocabulary.record_of(parameter))
    row_of_it = f"enter,factor,,{name},{year},{causes.number(text).text},,,UNIT,"
    said += "; enter the number as a factor, and bind that by factor"
    return f"{said}: {row_of_it} in {listed(units)}, and factor,{name}"


def sum_target(asking: Asking, row: Row, column: str) -> Explained:
    """The lines of a sum."""
    text = row.field(column)
    names = re.split(r"[\s,;+]+", text.strip())
    once = list(dict.fromkeys(name for name in names if name))
    meant = " ".join(causes.name(name).text for name in once)
    candidates = [
        ("one space stands between two lines of a sum", " ".join(names), True),
        ("a line stands twice in the sum", " ".join(once), False),
        ("names are in upper case, with one space between two", meant, True),
    ]
    otherwise = f"no sum: it is 1 to {limit('sum')} different lines with one space between two"
    return asking.first_taken(row, column, candidates, otherwise)


def is_number(text: str) -> bool:
    """Tells whether a text is a number, however it is written."""
    return bool(re.fullmatch(r"-?\d+(\.\d+)?", causes.number(text).text))


def is_zero(text: str) -> bool:
    """Tells whether a text is the number zero."""
    return is_number(text) and not causes.number(text).text.strip("-0.")


def target_of(form: str) -> str:
    """What a binding by a form names."""
    if form in KIND_TAKEN:
        return article(KIND_TAKEN[form])
    return {"key": "a notation key", "sum": "lines"}.get(form, "a line")


def name_otherwise(text: str, what: str) -> str:
    """Why a text is no name, where nothing that is sure mends it."""
    if not text:
        return f"empty; here stands the {what}"
    length = len(text.encode("utf-8", "replace"))
    if length > int(limit("name")):
        most = f"{length} letters where {limit('name')} are the most"
        return f"{most}; write a shorter name, the same everywhere"
    if text.isascii() and not re.match("[A-Z]", text):
        return "a name begins with a letter"
    return f"a name is 1 to {limit('name')} of A to Z, 0 to 9, . _ and -, and begins with a letter"
