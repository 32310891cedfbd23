"""What people write for the columns, the acts, the kinds and the forms of bindings."""
from tools.vocabulary import plain

OTHER_ACTS = {
    "add": "enter", "insert": "enter", "new": "enter", "update": "correct", "change": "correct",
    "amend": "correct", "edit": "correct", "replace": "correct", "revise": "correct", "delete": "withdraw",
    "remove": "withdraw", "cancel": "withdraw", "retract": "withdraw", "drop": "withdraw",
    "modify": "correct", "e": "enter", "c": "correct", "w": "withdraw",
}
OTHER_KINDS = {
    "ad": "activity", "activity data": "activity", "activities": "activity", "ef": "factor",
    "emission factor": "factor", "constant": "factor", "binding": "bind", "uncertainty": "uncert",
    "gwp": "factor", "source": "line", "years": "span", "period": "span", "act": "activity", "fac": "factor",
    "unc": "uncert",
}
OTHER_COLUMNS = {
    "action": "act", "operation": "act", "type": "kind", "record": "kind", "category": "subject",
    "code": "subject", "sector": "subject", "id": "name", "amount": "value", "figure": "value",
    "number": "value", "quantity": "value", "lower": "low", "min": "low", "minimum": "low", "upper": "high",
    "max": "high", "maximum": "high", "lower bound": "low", "upper bound": "high", "notes": "note",
    "comment": "note", "comments": "note", "remark": "note", "remarks": "note", "source": "note",
}
OTHER_FORMS = {
    "ad": "activity", "activity data": "activity", "ef": "factor", "emission factor": "factor",
    "constant": "factor", "previous": "prev", "previous year": "prev", "last year": "prev", "lag": "prev",
    "total": "sum", "half-life": "decay", "notation key": "key", "nk": "key",
}


def meant_by(text: str, others: dict[str, str]) -> str | None:
    """The word that others have for a text, whatever its case, blanks and signs, or None."""
    return next((word for other, word in others.items() if plain(other) == plain(text)), None)
