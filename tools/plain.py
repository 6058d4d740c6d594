"""A block in plain words."""
from cells import trapezoid
from fcl import spell
from places import listed

LOGIC = (
    "Each rule holds to a degree from 0 to 1: `and` takes the least of its parts, `or` the greatest, `not` what is "
    "left to 1; a weight multiplies it. A number of an output counts as much as the strongest rule for it holds, "
    "and the answer is the mean of its numbers, counted so.")


def counted(number, word, words=None):
    return f"{number} {word if number == 1 else words or word + 's'}"


def rise(start, end):
    if start == end:
        return f"0 below {spell(end)}, 1 from there"
    return f"0 at {spell(start)}, rising to 1 at {spell(end)}"


def fall(start, end):
    return f"1 up to {spell(start)}, 0 above" if start == end else f"falling to 0 at {spell(end)}"


def course_of(variable, points):
    """The course of a term from the low end of the range to the high one."""
    term, (low, high) = trapezoid(points), variable.span
    begins, ends = term.a is None or term.b <= low, term.d is None or term.c >= high
    if begins and ends:
        return "1 everywhere"
    up_to = "1 at" if term.c <= low else "1 up to"
    if begins:
        return fall(term.c, term.d) if term.c == term.d else f"{up_to} {spell(term.c)}, {fall(term.c, term.d)}"
    if ends:
        return rise(term.a, term.b)
    top = "" if term.b == term.c else f"; {fall(term.c, term.d)}" if term.c == term.d else f", 1 up to {spell(term.c)}"
    return rise(term.a, term.b) + top + ("" if term.c == term.d else f", {fall(term.c, term.d)}")


def condition_of(condition, inside=False):
    kind, *parts = condition
    if kind == "is":
        return "{} is {}".format(*parts)
    if kind == "not" and parts[0][0] == "is":
        return "{} is not {}".format(*parts[0][1:])
    if kind == "not":
        return f"not ({condition_of(parts[0])})"
    said = f" {kind} ".join(condition_of(it, True) for it in parts)
    return f"({said})" if inside else said


def rule_of(rule):
    weight = "" if rule.weight == 1 else f", with the weight {spell(rule.weight)}"
    concluded = listed([f"{name} is {term}" for name, term in rule.conclusions], "and")
    return f"If {condition_of(rule.condition)}, then {concluded}{weight}."


def variable_of(variable):
    about = f" ({variable.comment})" if variable.comment else ""
    return f"{variable.name}{about} from {spell(variable.span[0])} to {spell(variable.span[1])}"


def default_of(output):
    unit = f" {output.unit}" if output.unit else ""
    return (f"it keeps its last answer, at first {spell(output.span[0])}{unit}" if output.default is None
            else f"it is {spell(output.default)}{unit}")


def head_of(block):
    """What goes in and comes out."""
    yield f"{block.name} has {counted(len(block.inputs), 'input')}: {listed(map(variable_of, block.inputs), 'and')}."
    yield f"It has {counted(len(block.outputs), 'output')}: {listed(map(variable_of, block.outputs), 'and')}."


def terms_of(block):
    """A row for each term of an input, and for each number of an output: the variable, the term and its meaning."""
    for it in block.inputs:
        for term, points in it.terms.items():
            yield it.name, term, course_of(it, points)
    for it in block.outputs:
        unit = f" {it.unit}" if it.unit else ""
        for term, number in it.terms.items():
            yield it.name, term, f"{spell(number)}{unit}"
        yield it.name, "(no rule)", f"where no rule for it holds at all, {default_of(it)}"
