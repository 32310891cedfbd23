"""Explains a binding to lines of which one is not there, or gives something else: rule 10."""
from tools import other_equation, vocabulary
from tools.after import After
from tools.asking import article
from tools.book import Book, lines_taken_by
from tools.faults import Rewritten, at_row
from tools.sheets import Row
from tools.vocabulary import Parameter, listed, nearest, said_of_wanted


def explain(bound: Row, holder: Row, wanted: Parameter, after: After) -> Rewritten:
    """A binding to lines of which one is not there, or gives something else."""
    absent = [name for name in lines_taken_by(bound) if name not in after.book.lines]
    if absent:
        return absent_lines(bound, absent, wanted, after)
    for name in lines_taken_by(bound):
        taken = after.book.lines[name]
        code = taken.field("value")
        if vocabulary.given_by(code) != wanted["measures"]:
            meant = other_equation.explain(taken, after)
            if meant:
                return meant
            cause = f"{wanted['name']} of {holder.field('value')} takes {said_of_wanted(wanted)}"
            cause += f", and line {name} ({code} at {taken.place}) gives {given(code)}"
            if after.is_own(bound):
                cause += lines_that_give(wanted, bound, name, after.book)
                return at_row(bound, cause, "low"), after.blank(bound)
            changed = [row for row in (taken, holder) if after.is_own(row)]
            if not changed:
                return None, None
            cause += f"; the binding stands at {bound.place}"
            return at_row(changed[0], cause, "value"), after.without_line(changed[0].field("name"))
    return None, None


def lines_that_give(wanted: Parameter, bound: Row, name: str, book: Book) -> str:
    """The nearest lines by name that give what a parameter takes, where there are any."""
    there = [other for other, row in book.lines.items() if other != bound.field("subject")
             and vocabulary.given_by(row.field("value")) == wanted["measures"]]
    near = [f"line {other} ({book.lines[other].place})" for other in nearest(name, there, 2, 0.5)]
    if not near:
        known = {other: book.known_record("activity", other) for other in book.years["activity"]}
        measured = [other for other, row in known.items()
                    if vocabulary.measured_by(row.field("unit")) == wanted["measures"]]
        near = [f"activity {other} ({known[other].place})" for other in nearest(name, measured, 1, 0.5)]
    return f"; near it {listed(near, 'and')} {'has' if len(near) == 1 else 'have'} that" if near else ""


def given(code: str) -> str:
    """What a line of an equation gives, with its unit."""
    output = vocabulary.equations()[code]["output"]
    return f"{output['gas']} (Gg)" if "gas" in output else f"{output['measures']} ({output['unit']})"


def absent_lines(bound: Row, names: list[str], wanted: Parameter, after: After) -> Rewritten:
    """A binding to lines that are not there. A sum goes on with the others."""
    if not after.is_own(bound):
        gone = after.acts_on("line", names[0], ("withdraw",))
        return after.taken_away(gone, f"line {names[0]}", bound, after.without_line(names[0]))
    refused = [after.refused_line(name) for name in names]
    cause = "; ".join(absent_line(name, row, wanted, after) for name, row in zip(names, refused))
    named = after.book.record_named(names[0])
    if lines_taken_by(bound) == names[:1] and named and not refused[0] \
            and vocabulary.measured_by(named[1].field("unit")) == vocabulary.record_of(wanted):
        cause += f"; write {named[0]} in value"
    follows = refused[0].place if refused[0] and all(refused) else None
    fault = at_row(bound, cause, "low", follows=follows)
    others = [name for name in lines_taken_by(bound) if name not in names]
    return fault, after.changed(bound, low=" ".join(others)) if others else after.blank(bound)


def absent_line(name: str, refused: Row | None, wanted: Parameter, after: After) -> str:
    """Why a line is not there, with the nearest that gives what is wanted, or the one that nothing takes."""
    if refused:
        return f"there is no line {name}, since its row was refused"
    named = after.book.record_named(name)
    if named:
        kind, record = named
        after.refused.meant_records.add((kind, name))
        return f"{name} is no line but {article(kind)} ({record.place})"
    if after.in_later_file("line", name):
        return after.in_later_file("line", name)
    giving = [line for line, row in after.book.lines.items()
              if vocabulary.given_by(row.field("value")) == wanted["measures"]]
    near = after.nearest_line(nearest(name, giving, 1, 0.7))
    left = [line for line in giving if line not in after.book.lines_taken()]
    if not near and len(left) == 1:
        place = after.book.lines[left[0]].place
        near = f"; line {left[0]} ({place}) gives {wanted['measures']}, and no line takes it"
    return f"there is no line {name}{near or after.refused.where_else()}"
