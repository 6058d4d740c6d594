"""FCL: a reader and a writer of its own, and what a block answers, by exact fractions. It doesn't call the program."""
import re
from dataclasses import dataclass, field
from fractions import Fraction

from fuzz12 import Wrong
from units import unit_of

MOST_BOXES = 4096
# Blanks and comments, or a token.
TOKEN = re.compile(r"\(\*.*?\*\)|//[^\n]*|\s+|([A-Za-z_]\w*|\d+(?:\.\d+)?|:=|\.\.|[-+:;,()])", re.S)
DECLARED = re.compile(r"(\w+)\s*:\s*REAL\s*;[ \t]*(?:\(\*(.*?)\*\)|//([^\n]*))", re.I)


def comments_of(text):
    """What the comment behind a variable's declaration says, by the variable's name in small letters."""
    return {name.lower(): (a or b).strip() for name, a, b in DECLARED.findall(text)}


@dataclass
class Variable:
    """An input, whose terms are lists of points, or an output, whose terms are numbers."""

    name: str
    comment: str = ""  # what stands in the comment behind its declaration
    terms: dict = field(default_factory=dict)
    span: tuple = None
    default: Fraction = None  # None keeps the answer before

    def close(self):
        """Takes the range from the points or the numbers, where the text gives none."""
        if self.span is None:
            places = [p for term in self.terms.values() for p in (dict(term) if isinstance(term, list) else [term])]
            places += [self.default] if self.default is not None else []
            low, high = min(places), max(places)
            self.span = (low, high if low < high else low + 1)

    @property
    def width(self):
        return self.span[1] - self.span[0]

    @property
    def unit(self):
        """What of the comment is a unit, or nothing."""
        return unit_of(self.comment)


@dataclass
class Rule:
    condition: tuple
    conclusions: list
    weight: Fraction


@dataclass
class Block:
    name: str
    inputs: list
    outputs: list
    rules: list


# ---------------------------------------------------------------------------------------------------------------------
# Reading.


class Reader:
    """Reads what fuzz12 takes; it refuses nothing as carefully. A name is spelled as where it stands first."""

    def __init__(self, text):
        self.tokens = [it for it in TOKEN.findall(text) if it]
        self.comments = comments_of(text)
        self.spelled = {}
        self.inputs, self.outputs, self.rules = {}, {}, []
        parts = {"var_input": self.variables, "var_output": self.variables, "fuzzify": self.section,
                 "defuzzify": self.section, "ruleblock": self.rule_block}
        try:
            self.next("function_block")
            self.name = self.next_name()
            for token in self.until("end_function_block"):
                if token in parts:
                    parts[token](token)
        except (IndexError, KeyError, ValueError):
            raise Wrong("no text of FCL") from None

    def block(self):
        return Block(self.name, list(self.inputs.values()), list(self.outputs.values()), self.rules)

    def peek(self):
        return self.tokens[0].lower()

    def next(self, *wanted):
        token = self.tokens.pop(0).lower()
        if wanted and token not in wanted:
            raise Wrong(f"no text of FCL: {token} where {' or '.join(wanted)} is wanted")
        return token

    def next_name(self):
        token = self.tokens.pop(0)
        return self.spelled.setdefault(token.lower(), token)

    def until(self, end):
        while self.peek() != end:
            yield self.next()
        self.next()

    def variables(self, kind):
        into = self.inputs if kind == "var_input" else self.outputs
        while self.peek() != "end_var":
            if self.peek() in (",", ":", "real", ";"):
                self.next()
            else:
                name = self.next_name()
                into[name] = Variable(name, self.comments.get(name.lower(), ""))
        self.next()

    def number(self):
        sign = self.next() if self.peek() in "+-" else "+"
        return Fraction(sign + self.next())

    def section(self, kind):
        variable = (self.inputs if kind == "fuzzify" else self.outputs)[self.next_name()]
        for token in self.until("end_" + kind):
            if token == "term":
                term = self.next_name()
                self.next(":=")
                variable.terms[term] = self.points() if kind == "fuzzify" else self.number()
            elif token == "range":
                variable.span = self.range()
            elif token == "default":
                self.next(":=")
                variable.default = None if self.peek() == "nc" else self.number()
        variable.close()

    def range(self):
        if self.peek() == ":=":
            self.next()
        self.next("(")
        low = self.number()
        self.next("..")
        return low, self.number()

    def points(self):
        points = []
        while self.peek() == "(":
            self.next("(")
            place = self.number()
            self.next(",")
            points.append((place, self.number()))
            self.next(")")
        return points

    def rule_block(self, _):
        for token in self.until("end_ruleblock"):
            if token == "rule":
                self.rules.append(self.rule())

    def rule(self):
        while self.next() != "if":
            pass
        condition = self.either()
        self.next("then")
        conclusions, weight = [], Fraction(1)
        while True:
            conclusions.append((self.next_name(), self.next("is") and self.next_name()))
            ends = self.next(",", "with", ";")
            if ends == "with":
                weight = self.number()
                ends = self.next(";")
            if ends == ";":
                return Rule(condition, conclusions, weight)

    def either(self):
        return self.joined("or", self.both)

    def both(self):
        return self.joined("and", self.one)

    def joined(self, word, part):
        parts = [part()]
        while self.peek() == word:
            self.next()
            parts.append(part())
        return (word, *parts) if len(parts) > 1 else parts[0]

    def one(self):
        if self.peek() == "not":
            self.next()
            return ("not", self.one())
        if self.peek() == "(":
            self.next()
            inner = self.either()
            self.next(")")
            return inner
        name = self.next_name()
        self.next("is")
        if self.peek() == "not":
            self.next()
            return ("not", ("is", name, self.next_name()))
        return ("is", name, self.next_name())


def is_term(points):
    """Whether points go from left to right, with the degrees 0 and 1, and at least one 1."""
    places, degrees = [x for x, _ in points], [y for _, y in points]
    return places == sorted(places) and set(degrees) <= {0, 1} and 1 in degrees


def check_block(block):
    """What a block has to be so that its answers can be told."""
    for it in block.inputs + block.outputs:
        if it.span is None or not it.terms or it.width <= 0:
            raise Wrong(f"no text of FCL: {it.name} has no range or no term")
    for it in block.inputs:
        if not all(map(is_term, it.terms.values())):
            raise Wrong(f"no text of FCL: a term of {it.name} is none")
    known = {(it.name, term) for it in block.inputs for term in it.terms}
    concluded = {(it.name, term) for it in block.outputs for term in it.terms}
    for rule in block.rules:
        for pairs, found in ((literals(rule.condition), known), (rule.conclusions, concluded)):
            for name, term in pairs:
                if (name, term) not in found:
                    raise Wrong(f"no text of FCL: there is no {name} IS {term}")


def block_of(text):
    block = Reader(text).block()
    check_block(block)
    return block


# ---------------------------------------------------------------------------------------------------------------------
# Writing.


def spell(number):
    """A number with at most four places."""
    parts = round(number * 10000)
    whole, rest = divmod(abs(parts), 10000)
    return ("-" if parts < 0 else "") + f"{whole}.{rest:04}".rstrip("0").rstrip(".")


def spell_condition(condition, inside=False):
    kind, *parts = condition
    if kind == "is":
        return "{} IS {}".format(*parts)
    if kind == "not" and parts[0][0] == "is":
        return "{} IS NOT {}".format(*parts[0][1:])
    if kind == "not":
        return f"NOT ({spell_condition(parts[0])})"
    text = f" {kind.upper()} ".join(spell_condition(it, True) for it in parts)
    return f"({text})" if inside else text


def spell_rule(rule):
    conclusions = ", ".join(f"{name} IS {term}" for name, term in rule.conclusions)
    weight = "" if rule.weight == 1 else f" WITH {spell(rule.weight)}"
    return f"IF {spell_condition(rule.condition)} THEN {conclusions}{weight};"


def spell_variables(word, variables):
    yield word
    for it in variables:
        comment = it.comment.replace("*)", "* )")
        yield f"    {it.name} : REAL;" + (f"  (* {comment} *)" if comment else "")
    yield "END_VAR"


def spell_points(points):
    return " ".join(f"({spell(x)}, {y})" for x, y in points)


def spell_input(it):
    yield f"FUZZIFY {it.name}"
    yield f"    RANGE := ({spell(it.span[0])} .. {spell(it.span[1])});"
    for term, points in it.terms.items():
        yield f"    TERM {term} := {spell_points(points)};"
    yield "END_FUZZIFY"


def spell_output(it):
    yield f"DEFUZZIFY {it.name}"
    yield f"    RANGE := ({spell(it.span[0])} .. {spell(it.span[1])});"
    for term, number in it.terms.items():
        yield f"    TERM {term} := {spell(number)};"
    yield "    METHOD : COGS;"
    yield f"    DEFAULT := {'NC' if it.default is None else spell(it.default)};"
    yield "END_DEFUZZIFY"


def spell_block(block):
    """The lines of a text of the block."""
    yield f"FUNCTION_BLOCK {block.name}"
    yield from spell_variables("VAR_INPUT", block.inputs)
    yield from spell_variables("VAR_OUTPUT", block.outputs)
    for it in block.inputs:
        yield from spell_input(it)
    for it in block.outputs:
        yield from spell_output(it)
    yield "RULEBLOCK rules"
    for number, rule in enumerate(block.rules, start=1):
        yield f"    RULE {number} : {spell_rule(rule)}"
    yield "END_RULEBLOCK"
    yield "END_FUNCTION_BLOCK"


# ---------------------------------------------------------------------------------------------------------------------
# What FCL answers.


def degree(points, x):
    """The course through the points, its ends extended; the greatest of their degrees where several share a place."""
    here = [y for place, y in points if place == x]
    if here:
        return max(here)
    below = [it for it in points if it[0] < x]
    above = [it for it in points if it[0] > x]
    if not below or not above:
        return (below[-1] if below else above[0])[1]
    (a, start), (b, end) = below[-1], above[0]
    return start + (end - start) * (x - a) / (b - a)


def truth(condition, degrees):
    kind, *parts = condition
    if kind == "is":
        return degrees[tuple(parts)]
    parts = [truth(it, degrees) for it in parts]
    return {"and": min, "or": max, "not": lambda it: 1 - it[0]}[kind](parts)


def literals(condition):
    """The pairs of input and term that a condition names."""
    kind, *parts = condition
    return [tuple(parts)] if kind == "is" else [it for part in parts for it in literals(part)]


def boxes_of(block, condition, negated=False):
    """Where a condition, or its NOT, is above 0: boxes, each with corners and middles between them of some inputs.
    Where there are very many it is anywhere."""
    kind, *parts = condition
    if kind == "not":
        return boxes_of(block, parts[0], not negated)
    if kind == "is":
        variable = next(it for it in block.inputs if it.name == parts[0])
        ends = sorted({*variable.span, *(x for term in variable.terms.values() for x, _ in term)})
        places = {*ends, *((a + b) / 2 for a, b in zip(ends, ends[1:]))}
        found = {x for x in places if degree(variable.terms[parts[1]], x) != int(negated)}
        return [{variable.name: found}] if found else []
    lists = [boxes_of(block, it, negated) for it in parts]
    if (kind == "or") != negated:
        return [box for boxes in lists for box in boxes]
    joined = [{}]
    for boxes in lists:
        joined = [{name: a.get(name, b.get(name)) & b.get(name, a.get(name)) for name in {*a, *b}}
                  for a in joined for b in boxes]
        joined = [box for box in joined if all(box.values())]
        if len(joined) > MOST_BOXES:
            return [{}]
    return joined


def can_hold(block, condition):
    """Whether some sample has a condition above 0."""
    return bool(boxes_of(block, condition))


def strengths_of(block, sample):
    """The rules with their strengths for a sample, which has a number for each input by its name."""
    degrees = {(it.name, term): degree(points, sample[it.name])
               for it in block.inputs for term, points in it.terms.items()}
    return [(rule, truth(rule.condition, degrees) * rule.weight) for rule in block.rules]


def answer_of(output, strengths, before):
    """The answer of an output, after the one before."""
    masses = {term: max((it for rule, it in strengths if (output.name, term) in rule.conclusions), default=0)
              for term in output.terms}
    total = sum(masses.values())
    if total:
        return sum(output.terms[term] * mass for term, mass in masses.items()) / total
    return before if output.default is None else output.default


def exact_answers(block, samples):
    """A row for each sample: each output's answer by name."""
    before = {it.name: it.span[0] for it in block.outputs}
    for sample in samples:
        strengths = strengths_of(block, sample)
        before = {it.name: answer_of(it, strengths, before[it.name]) for it in block.outputs}
        yield before


def samples_of(block, text):
    """The samples of a trace, each with a number for each input by its name."""
    names, samples = [it.name for it in block.inputs], []
    for number, row in enumerate(filter(None, map(str.strip, text.splitlines())), start=1):
        fields = [it.strip().strip('"') for it in row.split(",")]
        try:
            numbers = [Fraction(it) for it in fields]
        except ValueError:
            numbers = []
        if len(numbers) != len(names):
            raise Wrong(f"trace: row {number} has not one number for each input")
        samples.append(dict(zip(names, numbers)))
    return samples
