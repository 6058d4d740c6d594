"""An engine of another tool on its way to a block of FCL, with a line for each thing that is changed."""
from fractions import Fraction
from itertools import combinations, islice

import fcl
from cells import Trapezoid
from engine import named
from fuzz12 import Wrong, is_name
from keeping import Kept
from neighbours import Shape, overlapping
from shapes import (centroid, corners, corners_of_points, course, end_of_rise, first_of_top, fitted, hedged,
                    last_of_top, middle_of_top, rounded)

KEYWORDS = set("""accu act and default defuzzify end_defuzzify end_function_block end_fuzzify end_option end_ruleblock
end_var function_block fuzzify if is method nc not option or range rule ruleblock term then var var_input var_output
with""".split())
SAME = {"conjunction": ("minimum", "min", "none", ""), "disjunction": ("maximum", "max", "none", ""),
        "activation": ("general", "none", "")}
MOST_TERMS = 15
AREA = (centroid, "the middle of its area")
# What stands for a term under the methods that do not go by areas.
PLACES = {
    "weighted": (end_of_rise, "where it has the degree 1"), "cogs": (end_of_rise, "where it has the degree 1"),
    "meanofmaximum": (middle_of_top, "the middle of its top"), "mm": (middle_of_top, "the middle of its top"),
    "smallest": (first_of_top, "the first place of its top"), "lm": (first_of_top, "the first place of its top"),
    "largest": (last_of_top, "the last place of its top"), "rm": (last_of_top, "the last place of its top"),
}
KEPT = {"conjunction": "MIN", "disjunction": "MAX", "activation": "that of every rule"}


def shown(number):
    return fcl.spell(number)


def called(term):
    return "a course of points" if term.shape in ("points", "discrete") else term.shape


class Importer:
    """An engine on its way to a block, with what was changed."""

    def __init__(self, engine):
        self.engine, self.notes = engine, [f"{it}: left out" for it in engine.left_out]
        self.sources = [it for it in engine.inputs if it.is_enabled]
        self.targets = [it for it in engine.outputs if it.is_enabled]
        self.tell_disabled()
        self.inputs = {it.name.lower(): it for it in self.sources}
        self.outputs = {it.name.lower(): it for it in self.targets}
        self.names, self.numbers, self.spans = {}, [], {}
        self.block = fcl.Block(self.name(engine.name, "the block"), [], [], [])

    def tell_disabled(self):
        """What is not enabled is left out."""
        for it in self.engine.inputs:
            if not it.is_enabled:
                self.note(f"{it.name}: left out, since it is not enabled: what asks for it never holds")
        for it in self.engine.outputs:
            if not it.is_enabled:
                self.note(f"{it.name}: left out, since it is not enabled")
        for it in self.engine.blocks:
            if not it.is_enabled:
                self.note(f"the rule block {it.name or 'without a name'}: left out, since it is not enabled")
        if not any(it.block.is_enabled for it in self.engine.rules):
            raise Wrong("no rule block with rules is enabled")

    def note(self, text):
        if text not in self.notes:
            self.notes.append(text)

    def name(self, text, of):
        """A name that FCL takes."""
        found = "".join(it if it.isalnum() and it.isascii() else "_" for it in text) or "unnamed"
        found = found if is_name(found) else f"n{found}"
        others = {it.lower() for key, it in self.names.items() if key != text.lower()}
        while found.lower() in KEYWORDS or found.lower() in others:
            found += "_"
        if found != text and text.lower() not in self.names:
            self.note(f"{of}: its name {text or '(none)'} is now {found}")
        return self.names.setdefault(text.lower(), found)

    def run(self):
        for it in self.sources:
            self.block.inputs.append(self.input(it))
        for it in self.targets:
            self.block.outputs.append(self.output(it))
        self.operators()
        self.rules()
        self.drop_unused()
        self.drop_outputs()
        Kept(self).run()
        return self.block

    # ---- inputs

    def input(self, variable):
        name = self.name(variable.name, "an input")
        found = fcl.Variable(name, variable.comment)
        found.span = self.spans[variable.name.lower()] = self.span_of(variable)
        shapes, pairs = self.fitted_shapes(variable, found.span)
        for term in variable.terms:
            self.add_term(found, variable, term, (), shapes.get(term.name))
        for one, other in pairs:
            self.note(f"{variable.name}: the sides of {one} and {other} reach so far that they overlap as before")
        return found

    def fitted_shapes(self, variable, span):
        """The trapezoids of an input's curves by the terms' names, and the pairs whose sides were moved."""
        shapes = []
        for term in variable.terms:
            if (degrees := self.degrees(term)) is not None:
                exact = self.exact_corners(term)
                with named(f"{variable.name} {term.name}"):
                    shapes.append(Shape(term.name, degrees, exact or fitted(degrees, *span), exact is None))
        found, pairs = overlapping(shapes, span)
        return {it.name: it.trapezoid for it in found if it.is_curve}, pairs

    def span_of(self, variable):
        """The range; where none is given, that of the points."""
        span = variable.span
        if not span:
            places = [x for term in variable.terms for x in self.places(term)]
            if not places:
                raise Wrong(f"{variable.name} has no range")
            span = (min(places), max(places))
            if span[0] == span[1]:
                span = (span[0], span[0] + 1)
            variable.span = span
            if any(it.shape not in ("points", "constant") for it in variable.terms):
                self.note(f"{variable.name}: its range is that of its terms, {shown(span[0])} to {shown(span[1])}")
        if len(span) != 2 or None in span:
            raise Wrong(f"{variable.name}: its range has not two numbers")
        if span[0] > span[1]:
            raise Wrong(f"{variable.name}: its range is reversed, {shown(span[0])} to {shown(span[1])}")
        if rounded(span[0]) == rounded(span[1]):
            raise Wrong(f"{variable.name}: its range has no width")
        return tuple(self.four_places(variable.name, it) for it in span)

    @staticmethod
    def places(term):
        """The numbers of a term that are places of its variable."""
        if term.shape == "points":
            return [x for x, _ in term.numbers]
        if term.shape == "discrete":
            return term.numbers[::2]
        return term.numbers if term.shape == "constant" or corners(term.shape, term.numbers) else term.numbers[:1]

    def add_term(self, variable, source, term, hedges, shape=None):
        """Adds a term, or one under hedges, and gives its name; where its shape was found before, that one."""
        said = f"{source.name} {' '.join((*hedges, term.name))}"
        name = "_".join((*hedges, self.name(term.name, said)))
        if name not in variable.terms:
            if len(variable.terms) == MOST_TERMS:
                raise Wrong(f"{source.name}: it has more than {MOST_TERMS} terms")
            shape = self.trapezoid(said, term, hedges, variable.span, shape)
            variable.terms[name] = self.points(said, self.cut(said, shape, variable.span), variable.span)
        return name

    @staticmethod
    def exact_corners(term):
        return corners_of_points(term.numbers) if term.shape == "points" else corners(term.shape, term.numbers)

    def trapezoid(self, said, term, hedges, span, found):
        exact = self.exact_corners(term)
        if term.height != 1:
            self.note(f"{said}: its height {shown(term.height)} is now 1")
        if exact and not hedges:
            return exact
        if not exact and self.degrees(term) is None:
            raise Wrong(f"{said}: there is no shape {term.shape} for an input")
        with named(said):
            found = found or fitted(hedged(self.degrees(term), hedges), *span)
        self.note(f"{said}: {' of '.join((*hedges, called(term)))} is now a trapezoid near to it")
        return found

    @staticmethod
    def degrees(term):
        return None if term.shape == "constant" else course(term.shape, term.numbers)

    def cut(self, said, shape, span):
        """The part of a trapezoid within the range. A shoulder that begins beyond it keeps its course within."""
        low, high = span
        a, b, c, d = shape.a, shape.b, shape.c, shape.d
        if (a is not None and a >= high) or (d is not None and d <= low):
            raise Wrong(f"{said}: it is 0 over the whole range")
        if b > high or c < low:
            return self.cut_below_top(said, shape, span)
        if a is not None and a < low:
            a, b = self.cut_side(said, a, b, low)
        if d is not None and d > high:
            d, c = self.cut_side(said, d, c, high)
        return Trapezoid(None if a == b == low else a, max(b, low), min(c, high), None if c == d == high else d)

    def cut_below_top(self, said, shape, span):
        """A side whose head is beyond the range rises up to its end."""
        low, high = span
        end, degree = (high, shape.rise(high)) if shape.b > high else (low, shape.fall(low))
        self.note(f"{said}: at the range's end ({shown(end)}) its degree was {shown(degree)} and is now 1")
        found = Trapezoid(shape.a, high, high, None) if end == high else Trapezoid(None, low, low, shape.d)
        return self.cut(said, found, span)

    def cut_side(self, said, foot, head, end):
        """The foot and the head of a side that begins beyond the end of the range."""
        degree = (end - foot) / (head - foot) if head != foot else Fraction(1)
        if degree >= 1:
            return None, end
        if degree > Fraction(1, 2):
            self.note(f"{said}: at the range's end ({shown(end)}) its degree was {shown(degree)} and is now 1, as at "
                      f"{shown(head)}")
            return None, end
        self.note(f"{said}: at the range's end ({shown(end)}) its degree was {shown(degree)} and is now 0")
        return end, head

    def points(self, said, shape, span):
        """The points of a trapezoid, with four places."""
        points = [(shape.a, 0), (shape.b, 1), (shape.c, 1), (shape.d, 0)]
        points = [it for it in dict.fromkeys(points) if it[0] is not None]
        placed = [(rounded(x), y) for x, y in points]
        if placed != points:
            self.note(f"{said}: its places have four digits behind the point now")
        return placed

    # ---- outputs

    def output(self, variable):
        found = fcl.Variable(self.name(variable.name, "an output"), variable.comment)
        span = self.span_of(variable)
        numbers = {}
        for term in variable.terms:
            said = f"{variable.name} {term.name}"
            with named(said):
                name, number = self.name(term.name, said), self.number_of(variable, term, span)
            if number is not None:
                numbers[name] = number
        found.terms = numbers
        self.default(found, variable)
        defaults = [] if found.default is None else [found.default]
        found.span = self.widened(variable, span, [*numbers.values(), *defaults])
        self.method(variable)
        return found

    def number_of(self, variable, term, span):
        """The number of an output's term, or None where it has none."""
        said = f"{variable.name} {term.name}"
        if term.shape == "constant":
            return self.four_places(said, term.numbers[0])
        if term.shape == "linear":
            return self.linear(said, variable, term)
        degrees = self.degrees(term)
        if degrees is None:
            self.note(f"{said}: {term.text or term.shape} is no number: left out")
            return None
        place, middle = next((it for method, it in PLACES.items() if variable.method.startswith(method)), AREA)
        number = place(degrees, *span)
        if number is None:
            raise Wrong(f"{said}: it has no area in the range")
        if place is end_of_rise and degrees(number) < 1:
            middle = "where it has nearly the degree 1"
        self.note(f"{said}: {called(term)} is now the number {shown(number)}, {middle}")
        return number

    def four_places(self, said, number):
        found = rounded(number)
        if found != number:
            self.note(f"{said}: {float(number):g} is now {shown(found)}")
        return found

    def linear(self, said, variable, term):
        """A number for a sum over the inputs: its value at the tops of the first rule that concludes the term."""
        *factors, constant = term.numbers
        if len(factors) != len(self.engine.inputs):
            raise Wrong(f"{said}: {len(self.engine.inputs) + 1} numbers are wanted")
        if not any(factors):
            return self.four_places(said, constant)
        places = [sum(self.span_of(it)) / 2 for it in self.engine.inputs]
        rule = next((it for it in self.engine.rules
                     if any((n.lower(), t.lower()) == (variable.name.lower(), term.name.lower())
                            for n, _, t in it.conclusions)), None)
        for name, _, wanted in fcl.literals(rule.condition) if rule else ():
            for k, it in enumerate(self.engine.inputs):
                found = next((t for t in it.terms if t.name.lower() == wanted.lower()), None)
                if it.name.lower() == name.lower() and found is not None and self.degrees(found):
                    places[k] = middle_of_top(self.degrees(found), *self.span_of(it))
        number = rounded(sum(f * x for f, x in zip(factors, places)) + constant)
        self.note(f"{said}: linear in the inputs, is now {shown(number)}, its value where its rule is strongest")
        return number

    def default(self, found, variable):
        found.default = variable.default and self.four_places(f"{variable.name} DEFAULT", variable.default)
        if variable.default is None and not variable.keeps:
            self.note(f"{variable.name}: where no rule fires it has no answer, and now the one before")
        elif variable.default is not None and variable.keeps:
            self.note(f"{variable.name}: where no rule fires it has the answer before, at first "
                      f"{shown(variable.default)}, and now the low end of the range")
            found.default = None

    def widened(self, variable, span, numbers):
        low, high = min([span[0], *numbers]), max([span[1], *numbers])
        if (low, high) != span:
            self.note(f"{variable.name}: its range is now {shown(low)} to {shown(high)}, so that its numbers lie in it")
        return low, high

    def method(self, variable):
        method = variable.method.split()[0] if variable.method else ""
        if method not in ("", "cogs", "weightedaverage"):
            of_areas = "" if method.startswith(("cogs", "weighted")) else " of areas"
            self.note(f"{variable.name}: {method}{of_areas} is now the mean of numbers (COGS)")
        if variable.accumulation not in ("", "max", "maximum", "none"):
            self.note(f"{variable.name}: its accumulation {variable.accumulation} is now MAX")

    # ---- rules

    def operators(self):
        blocks = [it for it in self.engine.blocks if it.is_enabled]
        if len(blocks) > 1:
            self.note(f"the rules of {len(blocks)} rule blocks stand in one")
        for block in blocks:
            for what, name in block.operators.items():
                if name not in SAME.get(what, name):
                    self.note(f"{what} {name} is now {KEPT[what]}")

    def rules(self):
        for number, rule in enumerate(self.engine.rules, start=1):
            try:
                if rule.block.is_enabled:
                    self.rule(number, rule)
            except Wrong as wrong:
                raise Wrong(f"rule {number}: {wrong}") from None
        if not self.block.rules:
            raise Wrong("no rule is left: each never fires, or concludes nothing")
        if self.engine.adds:
            self.added()

    def rule(self, number, rule):
        condition = self.condition(number, rule.condition)
        conclusions = []
        for name, hedges, term in rule.conclusions:
            if any(it.name.lower() == name.lower() and not it.is_enabled for it in self.engine.outputs):
                continue
            output = self.outputs.get(name.lower())
            if output is None or not any(it.name.lower() == term.lower() for it in output.terms):
                raise Wrong(f"there is no {name} IS {term}")
            if hedges:
                self.note(f"rule {number}: {name} is {' '.join(hedges)} {term} is now {name} is {term}")
            pair = (self.names[name.lower()], self.names[term.lower()])
            if pair[1] in next(it for it in self.block.outputs if it.name == pair[0]).terms:
                conclusions.append(pair)
        if not 0 <= rule.weight <= 1:
            raise Wrong("its weight is not from 0 to 1")
        if condition is None or not conclusions:
            self.note(f"rule {number}: left out, since it " + ("never fires" if conclusions else "concludes nothing"))
            return
        weight = self.four_places(f"rule {number}", rule.weight)
        self.block.rules.append(fcl.Rule(condition, conclusions, weight))
        self.numbers.append(number)

    def condition(self, number, condition):
        """The condition with terms of the block; None where it never holds."""
        kind, *parts = condition
        if kind == "is":
            return self.literal(number, *parts)
        found = [self.condition(number, it) for it in parts]
        if kind == "not":
            if found[0] is None and self.asks_disabled(parts[0]):
                return None
            if found[0] is None:
                raise Wrong("its condition is the NOT of one that never holds")
            return ("not", found[0])
        if kind == "and" and None in found:
            return None
        found = [it for it in found if it is not None]
        return (kind, *found) if len(found) > 1 else found[0] if found else None

    def asks_disabled(self, condition):
        kind, *parts = condition
        return kind == "is" and self.is_disabled(parts[0])

    def is_disabled(self, name):
        return any(it.name.lower() == name.lower() and not it.is_enabled for it in self.engine.inputs)

    def literal(self, number, name, hedges, term):
        if self.is_disabled(name):
            return None
        if name.lower() in self.outputs:
            return self.concluded(number, name, hedges, term)
        source = self.inputs.get(name.lower())
        if source is None:
            raise Wrong(f"there is no variable {name}")
        variable = self.block.inputs[self.sources.index(source)]
        if "any" in hedges:
            variable.terms.setdefault("any", [(variable.span[0], 1)])
            return ("is", variable.name, "any")
        found = source.term(term)
        if found is None:
            raise Wrong(f"{name} has no term {term}")
        return ("is", variable.name, self.add_term(variable, source, found, hedges))

    def concluded(self, number, name, hedges, term):
        """What an output's term stands for in a condition: the conditions of the rules before that conclude it."""
        pair = (self.names[name.lower()], self.names.get(term.lower()))
        rules = [it for it in self.block.rules if pair in it.conclusions]
        self.note(f"rule {number}: {name} is {term} is now what the rules before it ask for {term}")
        if hedges or any(it.weight != 1 for it in rules):
            self.note(f"rule {number}: hedges and weights of {name} is {term} are left out")
        conditions = [it.condition for it in rules]
        return ("or", *conditions) if len(conditions) > 1 else conditions[0] if conditions else None

    def added(self):
        """fuzzylite's weighted average adds the strengths of rules that conclude one term; here the greatest counts."""
        for source, it in zip(self.targets, self.block.outputs):
            if not source.method.startswith(("cogs", "weightedaverage")):
                continue
            pairs = ((term, one, other) for term in it.terms
                     for (one, rule), (other, second) in combinations(self.rules_of(it.name, term), 2)
                     if fcl.can_hold(self.block, ("and", rule.condition, second.condition)))
            for term, one, other in islice(pairs, 1):
                self.note(f"{source.name}: where rules conclude one term at once, as {one} and {other} {term}, "
                          "their strengths were added, and now the greatest counts")

    def rules_of(self, output, term):
        """The rules that conclude a term, each behind its number in the source."""
        return [it for it in zip(self.numbers, self.block.rules)
                if (output, term) in it[1].conclusions and it[1].weight]

    def drop_unused(self):
        used = {it for rule in self.block.rules for it in fcl.literals(rule.condition)}
        for it in self.block.inputs:
            if (it.name, "any") not in used:
                it.terms.pop("any", None)

    def drop_outputs(self):
        for it in list(self.block.outputs):
            if not it.terms:
                self.block.outputs.remove(it)
                self.note(f"{it.name}: left out, since none of its terms is a number")
