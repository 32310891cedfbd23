"""Explains the refusals that name a line and a parameter: rule 10.

They are judged with all rows of a file applied. What stands where is looked up in the book after these rows.
To find the next fault, the row at fault is taken out, or a binding takes NE in its place, so that its line
stays and is blank.
"""
from tools import absent_records, line_targets, other_equation, swapped_bindings, units, vocabulary
from tools.after import After, added
from tools.asking import article, line_above
from tools.book import Book, record_in, record_taken_by
from tools.faults import Rewritten, at_row, counted
from tools.sheets import Row
from tools.shifts import said_of_swapped
from tools.unit_faults import years_of_rate
from tools.vocabulary import Parameter, listed, nearest, said_of_parameter


# The parameter by which the program names an uncertainty whose line there is not.
UNCERTAINTY = "uncert"
# What of a fuel may be told as its carbon or as its CO2.
CARBON_OF_FUEL, CO2_OF_FUEL = "carbon content of fuel", "emission factor of fuel"


def explain(line: str, parameter: str, after: After) -> Rewritten:
    """The fault of an unsound binding or uncertainty, and the rows to go on with, or None.

    Without a fault there are rows to go on with where something that stands in for a target is no sound one.
    """
    book = after.book
    if parameter == UNCERTAINTY:
        return uncertainty_without_line(line, after)
    bound = book.bindings.get(line, {}).get(parameter)
    holder = book.lines.get(line)
    if holder is None:
        return without_line(line, parameter, bound, after)
    meant = other_equation.explain(holder, after)
    if meant:
        return meant
    code = holder.field("value")
    parameters = vocabulary.parameters_of(code)
    if bound and parameter not in parameters:
        return without_parameter(holder, bound, parameters, after)
    if bound is None:
        return without_binding(holder, parameters[parameter], after)
    wanted = parameters[parameter]
    if vocabulary.is_decay(wanted) != (bound.field("value") == "decay"):
        return of_another_form(bound, holder, wanted, after)
    if record_taken_by(bound):
        return of_record(bound, holder, wanted, after)
    return line_targets.explain(bound, holder, wanted, after)


def without_line(line: str, parameter: str, bound: Row | None, after: After) -> Rewritten:
    """A binding of a line that there is not."""
    gone = after.acts_on("line", line, ("withdraw",))
    if gone:
        names = after.book.bindings[line]
        stay = f"binding{'' if len(names) == 1 else 's'} of {listed(names, 'and')}"
        more = ", and its uncertainty" if (UNCERTAINTY, line) in after.book.rows else ""
        cause = f"the line is withdrawn and its bindings stay; withdraw the {stay} too{more}"
        return at_row(gone[0], cause), after.without_line(line)
    if not after.is_own(bound):
        return None, None
    other = after.book.lines.get(parameter)
    bindings = after.book.bindings.get(parameter, {})
    if other and line in vocabulary.parameters_of(other.field("value")) and line not in bindings:
        meant = bound.with_fields(subject=parameter, name=line)
        fault = at_row(bound, *said_of_swapped(meant, "subject", "name"))
        return fault, after.changed(bound, subject=parameter, name=line)
    refused = after.refused_line(line)
    near = nearest(line, after.book.lines, 1, 0.75)
    if near and not refused and parameter not in after.book.bindings.get(near[0], {}):
        return misspelt_line(bound, near[0], after)
    above = line_above(bound)
    if not refused and not after.in_later_file("line", line) and above in after.book.lines \
            and parameter in after.ahead.parameters_left(above):
        return of_line_above(bound, above, after)
    own = after.bindings_of(line)
    more = f" ({counted(len(own) - 1, 'further binding')} of it in this file)" if len(own) > 1 else ""
    if refused:
        cause = f"there is no line {line}, since its row was refused{more}"
        fault = at_row(own[0], cause, "subject", follows=refused.place)
    elif after.in_later_file("line", line):
        fault = at_row(own[0], after.in_later_file("line", line) + more, "subject")
    else:
        there = after.book.bindings.get(near[0], {}).get(parameter) if near else None
        bound_there = f", whose {parameter} is bound at {there.place}" if there else ""
        cause = f"there is no line {line}{more}{after.nearest_line(near)}{bound_there}"
        fault = at_row(own[0], cause, "subject")
    after.refused.add(own)
    return fault, after.without(own)


def uncertainty_without_line(line: str, after: After) -> Rewritten:
    """An uncertainty of a line that there is not."""
    row = after.book.rows.get((UNCERTAINTY, line))
    gone = after.acts_on("line", line, ("withdraw",))
    if gone:
        cause = "the line is withdrawn and its uncertainty stays; withdraw that too"
        return at_row(gone[0], cause), after.rows + [added(gone[0], "withdraw", UNCERTAINTY, "", line)]
    if not after.is_own(row):
        return None, None
    refused, named = after.refused_line(line), after.book.record_named(line)
    near = nearest(line, after.book.lines, 1, 0.75)
    if refused:
        cause = f"there is no line {line}, since its row was refused"
        fault = at_row(row, cause, "name", follows=refused.place)
    elif after.in_later_file("line", line):
        fault = at_row(row, after.in_later_file("line", line), "name")
    elif named:
        return uncertainty_of_record(row, *named, after)
    else:
        other = after.book.rows.get((UNCERTAINTY, near[0])) if near else None
        known = f", whose uncertainty stands at {other.place}; take one of the two out" if other else ""
        which = f"{after.nearest_line(near)}{known}" or after.refused.where_else()
        fault = at_row(row, f"there is no line {line}{which}", "name")
        after.refused.add(row.with_fields(name=other) for other in near)
    after.refused.add([row])
    return fault, after.without([row])


def uncertainty_of_record(row: Row, kind: str, record: Row, after: After) -> Rewritten:
    """An uncertainty of an activity or a factor. It is one of the line that emits what is made of it, where
    one alone does.
    """
    cause = f"{row.field('name')} is no line but {article(kind)} ({record.place})"
    lines = after.book.emitting(kind, row.field("name"))
    if len(lines) == 1 and (UNCERTAINTY, lines[0]) not in after.book.rows:
        fault = at_row(row, f"{cause}, of which line {lines[0]} is made", "name", lines[0])
        return fault, after.changed(row, name=lines[0])
    after.refused.add(row.with_fields(name=line) for line in lines)
    named = listed([f"line {line}" for line in lines], "and")
    made = f", of which {named} are made" if len(lines) > 1 else ""
    return at_row(row, f"{cause}{made}; an uncertainty is of a line", "name"), after.without([row])


def misnamed_line(bound: Row, line: str, after: After) -> Rewritten | None:
    """A line that nothing names, where its bindings and other rows name one that is not there: it goes on
    under that name. Else None.
    """
    meant, holder = bound.field("subject"), after.book.lines[line]
    is_odd = after.ahead.is_named(meant) and not after.ahead.is_named(line)
    if not is_odd or not after.is_own(holder) or after.book.bindings.get(line):
        return None
    cause = f"its bindings and other rows name {meant}"
    return at_row(holder, cause, "name", meant), after.changed(holder, name=meant)


def of_line_above(bound: Row, line: str, after: After) -> Rewritten:
    """A binding of no line, below a line that lacks it. It goes on as that line's."""
    renamed, parameter = misnamed_line(bound, line, after), bound.field("name")
    if renamed:
        return renamed
    cause = f"there is no line {bound.field('subject')}; the line above is {line}, which has no binding of"
    return at_row(bound, f"{cause} {parameter}", "subject", line), after.changed(bound, subject=line)


def misspelt_line(bound: Row, line: str, after: After) -> Rewritten:
    """A binding whose line is most likely another, which lacks it. It goes on as that line's."""
    renamed = misnamed_line(bound, line, after)
    if renamed:
        return renamed
    cause = f"there is no line {bound.field('subject')}{after.nearest_line([line])}"
    return at_row(bound, cause, "subject"), after.changed(bound, subject=line)


def without_parameter(holder: Row, bound: Row, parameters: dict[str, Parameter], after: After) -> Rewritten:
    """A binding of a parameter that the line's equation has not.

    It goes on as that of the parameter that is meant.
    """
    code, line = holder.field("value"), holder.field("name")
    has = vocabulary.said_of_no_parameter(code, bound.field("name"))
    if not after.is_own(bound):
        if not after.is_own(holder):
            return None, None
        parameter = bound.field("name")
        cause = f"{has}; the binding of {parameter} at {bound.place} has to be withdrawn in this file"
        withdrawn = added(holder, "withdraw", "bind", line, parameter)
        return at_row(holder, cause, "value"), after.rows + [withdrawn]
    above = line_above(bound)
    if above and above != line and bound.field("name") in after.ahead.parameters_left(above):
        cause = f"{has}; the line above is {above}, which has no binding of {bound.field('name')}"
        return at_row(bound, cause, "subject", above), after.changed(bound, subject=above)
    unbound = [name for name in parameters if name not in after.book.bindings[line]]
    free = [name for name in unbound if may_take(bound, parameters[name], after)]
    near = [name for name in free or unbound if vocabulary.is_said_of(code, name, bound.field("name"))]
    if len(near) != 1:
        near = free if len(free) == 1 else nearest(bound.field("name"), free, 1, 0.4)
        near = near or nearest(bound.field("name"), unbound, 1, 0.75)
    if near:
        return at_row(bound, has, "name", near[0]), after.changed(bound, name=near[0])
    after.refused.add([bound])
    done = "" if unbound else "; all of them are bound, so take the row out"
    return at_row(bound, f"{has}{done}", "name"), after.without([bound])


def may_take(bound: Row, parameter: Parameter, after: After) -> bool:
    """Tells whether what a binding takes, where that is a record there is, measures what a parameter
    takes.
    """
    taken = record_taken_by(bound)
    record = after.book.some_record(*taken) if taken else None
    return record is None or vocabulary.measured_by(record.field("unit")) == vocabulary.record_of(parameter)


def without_binding(holder: Row, wanted: Parameter, after: After) -> Rewritten:
    """A parameter of a line that no row binds."""
    line, code, name = holder.field("name"), holder.field("value"), wanted["name"]
    needs = f"{code} takes {said_of_parameter(wanted)}"
    gone = [row for row in after.acts_on("bind", name, ("withdraw",)) if row.field("subject") == line]
    if gone:
        cause = f"{line} is left without a binding that it needs: {needs}"
        return at_row(gone[0], cause), after.without(gone)
    if not after.is_own(holder):
        return None, None
    refused = after.refused.that_sets(("bind", line, name))
    with_blank = after.rows + [added(holder, "enter", "bind", line, name, "", "key", "NE")]
    if refused:
        cause = f"{needs}, and the row that binds it was refused"
        return at_row(holder, cause, "name", follows=refused.place), with_blank
    astray = binding_astray(holder, name, after)
    if astray:
        return astray
    later = after.ahead.later_binding(line, name)
    if later:
        cause = f"{needs}, and a later file binds it ({later.place}); put that row into this file"
        return at_row(holder, cause, "name"), with_blank
    form, target = target_left(wanted, line, after)
    write = f"a row enter,bind,{line},{name},,{form},{target},,,"
    other = other_equation.with_fewer(holder, after)
    if other:
        write += f"; or write {other_equation.said_of([other])} in value, which takes what is bound"
    return at_row(holder, f"{needs}, and no row binds it", "name", write), with_blank


def binding_astray(holder: Row, name: str, after: After) -> Rewritten | None:
    """The fault of the row that is meant to bind a parameter of a line, and binds another one or another
    line's; or None.
    """
    line, parameters = holder.field("name"), vocabulary.parameters_of(holder.field("value"))
    bound, below = after.book.bindings.get(line, {}), after.bindings_below(holder)
    misspelt = [row for other, row in bound.items() if other not in parameters and after.is_own(row)]
    if misspelt:
        return without_parameter(holder, misspelt[0], parameters, after)
    renamed = misnamed_line(below[0], line, after) if below else None
    if renamed:
        return renamed
    astray = [row for row in after.acts_on("bind", name, ("enter",)) if is_astray(row, line, after)]
    if astray:
        return misspelt_line(astray[0], line, after)
    for row in [row for row in below if row.field("name") == name and row.field("act") == "enter"]:
        other = after.book.lines.get(row.field("subject"))
        of_other = vocabulary.parameters_of(other.field("value")) if other else {}
        if other and name not in of_other:
            return without_parameter(other, row, of_other, after)
        if not other and not after.in_later_file("line", row.field("subject")):
            return of_line_above(row, line, after)
    return None


def target_left(wanted: Parameter, line: str, after: After) -> tuple[str, str]:
    """The form and the target of a binding that is missing: the one record that measures what is wanted and
    that nothing takes, or the one of these that has most of the line's name; else placeholders.
    """
    decays = vocabulary.is_decay(wanted)
    left = after.records_left(wanted)
    parts = set(vocabulary.parts_of(line))
    shared = {record: len(parts & set(vocabulary.parts_of(record[1]))) for record in left}
    most = [record for record in left if shared[record] == max(shared.values())]
    if len(most) != 1:
        return "decay" if decays else "FORM", "TARGET"
    after.refused.meant_records.add(most[0])
    return "decay" if decays else most[0][0], most[0][1]


def is_astray(bound: Row, line: str, after: After) -> bool:
    """Tells whether a binding of no line is most likely one of this line."""
    subject = bound.field("subject")
    return subject not in after.book.lines and bool(nearest(subject, [line], 1, 0.75))


def of_another_form(bound: Row, holder: Row, wanted: Parameter, after: After) -> Rewritten:
    """A yearly decay factor that is not bound by decay, or another parameter that is."""
    if bound.has_other_figure:
        return None, after.with_half_life(bound)
    taken = record_taken_by(bound)
    record = after.book.some_record(*taken) if taken else None
    measures = vocabulary.measured_by(record.field("unit")) if record else None
    cause = f"{wanted['name']} of {holder.field('value')} takes"
    if vocabulary.is_decay(wanted):
        cause = f"{cause} the {wanted['measures']} of a half-life, which decay alone gives"
        meant = "decay"
    else:
        cause = f"{cause} {wanted['measures']} ({wanted['unit']}), and decay gives a yearly decay factor"
        meant = "factor"
    if not after.is_own(bound):
        if not after.is_own(holder):
            return None, None
        cause += f"; the binding stands at {bound.place}"
        return at_row(holder, cause, "value"), after.without_line(holder.field("name"))
    if taken:
        after.refused.meant_records.add(taken)
    if taken and taken[0] == "factor" and measures in (None, vocabulary.record_of(wanted)):
        return at_row(bound, cause, "value", meant), after.changed(bound, value=meant)
    if taken and record and vocabulary.is_decay(wanted):
        cause += f", and {taken[0]} {taken[1]} is in {record.field('unit')} ({measures}) at {record.place}"
        cause += way_to(wanted, record)
    elif vocabulary.is_decay(wanted):
        cause += f"; write decay in value, and in low a factor in {vocabulary.HALF_LIFE_UNIT}"
    return at_row(bound, cause, "value"), after.without_target(bound, wanted)


def of_record(bound: Row, holder: Row, wanted: Parameter, after: After) -> Rewritten:
    """A binding to an activity or a factor that there is not, or that measures something else."""
    kind, name = record_in(bound)
    record = after.book.some_record(kind, name)
    swapped = swapped_bindings.explain(bound, holder, wanted, after) if after.is_own(bound) else None
    if swapped:
        return swapped
    if record is None and after.is_own(bound):
        return absent_records.explain(bound, wanted, after)
    if record is None:
        gone = after.acts_on(kind, name, ("withdraw",))
        return after.taken_away(gone, f"{kind} {name}", bound, after.without(gone))
    words = listed(vocabulary.units_that_measure(vocabulary.record_of(wanted)))
    measured = f"{kind} {name} is in {record.field('unit')} ({vocabulary.measured_by(record.field('unit'))})"
    after.refused.meant_records.add((kind, name))
    after.refused.mismeasured.add((kind, name))
    of = f"the {wanted['measures']} of a half-life" if vocabulary.is_decay(wanted) else wanted["measures"]
    takes = f"{wanted['name']} of {holder.field('value')} takes {of} ({words})"
    if after.is_own(bound):
        cause = f"{takes}, and {measured} at {record.place}"
        made, others = made_by_line(bound, wanted, after.book), taken_as_measured(bound, after.book)
        if made:
            cause += f"; line {made} makes it: write line,{made}"
        elif others:
            cause += f", as which line {others[0]} takes it"
        else:
            cause += way_to(wanted, record)
        return at_row(bound, cause, "low"), after.without_target(bound, wanted)
    cause = f"{takes}, and {measured}; the binding stands at {bound.place}"
    entered = after.acts_on(kind, name, ("enter", "correct"))
    if entered:
        return at_row(entered[0], cause, "unit"), after.without(after.acts_on(kind, name))
    if after.is_own(holder):
        return at_row(holder, cause, "value"), after.without_line(holder.field("name"))
    return None, None


def taken_as_measured(bound: Row, book: Book) -> list[str]:
    """The other lines that take the record of a binding as what it measures."""
    taken, found = record_in(bound), []
    for line, bindings in book.bindings.items():
        known = vocabulary.parameters_of(book.lines[line].field("value")) if line in book.lines else {}
        found += [line for name, other in bindings.items() if other is not bound and name in known
                  and record_taken_by(other) == taken
                  and vocabulary.record_of(known[name]) == book.measured_by(*taken)]
    return found


def made_by_line(bound: Row, wanted: Parameter, book: Book) -> str | None:
    """The one line that makes what a parameter takes of the record that its binding takes, or None."""
    taken = record_taken_by(bound)
    lines = [line for line, row in book.lines.items() if line != bound.field("subject")
             and vocabulary.given_by(row.field("value")) == wanted["measures"]
             and any(record_taken_by(other) == taken for other in book.bindings.get(line, {}).values())]
    return lines[0] if len(lines) == 1 else None


def way_to(wanted: Parameter, record: Row) -> str:
    """How a record that measures something else comes to what a parameter takes, where that is known."""
    unit, measures = record.field("unit"), vocabulary.record_of(wanted)
    years = years_of_rate(record) if measures == vocabulary.half_life() else None
    if years:
        return f"; of a yearly rate of {record.field('value')} write the half-life, {years} in yr, there"
    turned = units.upside_down(unit, measures)
    if turned:
        return f"; where that is upside down, write {turned} there"
    meant = units.meant(unit, measures)
    if meant and measures == CARBON_OF_FUEL:
        said = meant.said if meant.times != 1 else "take the same number"
        return f"; where it is of carbon, write {meant.word} there ({said}); where of CO2, take 12/44 of that"
    if meant and vocabulary.measured_by(meant.word) == measures:
        return f"; write {meant.word} there{'' if meant.times == 1 else f' ({meant.said})'}"
    if (vocabulary.measured_by(unit), measures) == (CARBON_OF_FUEL, CO2_OF_FUEL):
        return "; of CO2 it is 44/12 of the figure in t/TJ: write that there"
    known = vocabulary.units_that_measure(measures)
    if len(known) == 1 and known[0].startswith(f"{unit}/"):
        return f"; write {known[0]} there"
    if (unit, measures) == ("g/person/day", "mass per person and year"):
        return "; multiply by 0.365, and write kg/person there"
    if (vocabulary.measured_by(unit), measures) == ("mass", "volume"):
        return "; divide by the density in t/m3, as about 0.86 of crude oil, and write m3 there"
    makes = vocabulary.made_of(vocabulary.measured_by(unit), measures)
    if not makes:
        return ""
    of_it = vocabulary.equations()[makes[0]]["computes"]
    return f"; a line of {makes[0]} ({of_it}) makes it, to take as line: ./workbook words {makes[0]} shows its rows"
