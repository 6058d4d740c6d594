"""What an engine of another tool answers, in doubles, as fuzzylite computes it: Mamdani by areas or tops, Takagi-Sugeno
and Tsukamoto by weights. It is what a text means as this clone reads it, and calls no other program."""
from itertools import accumulate
from math import log, nan, sqrt

from fuzz12 import Wrong
from shapes import HEDGES, course

FIRES = 1e-6  # fuzzylite takes a strength up to this for none
RESOLUTION = 100
SUM, PRODUCT = (lambda a, b: a + b), (lambda a, b: a * b)


def drastic(a, b):
    return min(a, b) if max(a, b) == 1 else 0.0


NORMS = {
    "min": min, "prod": PRODUCT, "bdif": lambda a, b: max(0, a + b - 1), "dprod": drastic,
    "eprod": lambda a, b: a * b / (2 - (a + b - a * b)),
    "hprod": lambda a, b: a * b / (a + b - a * b) if a + b else 0.0,
    "nmin": lambda a, b: min(a, b) if a + b > 1 else 0.0,
    "max": max, "asum": lambda a, b: a + b - a * b, "bsum": lambda a, b: min(1, a + b),
    "dsum": lambda a, b: max(a, b) if min(a, b) == 0 else 1.0, "esum": lambda a, b: (a + b) / (1 + a * b),
    "hsum": lambda a, b: (a + b - 2 * a * b) / (1 - a * b) if a * b != 1 else 1.0,
    "nmax": lambda a, b: max(a, b) if a + b < 1 else 1.0, "nsum": lambda a, b: (a + b) / max(1, a + b), "usum": SUM,
}
# The same by the names of FLL and .fis.
NAMES = {
    "minimum": "min", "algebraicproduct": "prod", "boundeddifference": "bdif", "drasticproduct": "dprod",
    "einsteinproduct": "eprod", "hamacherproduct": "hprod", "nilpotentminimum": "nmin", "maximum": "max",
    "algebraicsum": "asum", "boundedsum": "bsum", "drasticsum": "dsum", "einsteinsum": "esum", "hamachersum": "hsum",
    "nilpotentmaximum": "nmax", "normalizedsum": "nsum", "unboundedsum": "usum", "probor": "asum", "sum": "usum",
    "bounded_difference": "bdif", "drastic_product": "dprod", "einstein_product": "eprod", "hamacher_product": "hprod",
    "nilpotent_minimum": "nmin", "bounded_sum": "bsum", "drastic_sum": "dsum", "einstein_sum": "esum",
    "hamacher_sum": "hsum", "nilpotent_maximum": "nmax", "normalized_sum": "nsum", "unbounded_sum": "usum",
}


def norm(name, otherwise):
    """An operator by its name in any of the languages; without one, FCL's."""
    if name in ("", "none"):
        name = otherwise
    found = NORMS.get(NAMES.get(name, name))
    if found is None:
        raise Wrong(f"the operator {name} is not computed here")
    return found


def in_doubles(degrees, height):
    """A course as a function of doubles; one of points is between the last point before a place and the next."""
    height = float(height)
    if degrees.points is None:
        return lambda x: height * degrees(x)
    points = [(float(x), float(y)) for x, y in degrees.points]
    def at(x):
        if any(place == x for place, _ in points):
            return height * max(y for place, y in points if place == x)
        k = sum(place < x for place, _ in points)
        if k in (0, len(points)):
            return height * points[min(k, len(points) - 1)][1]
        (a, start), (b, end) = points[k - 1], points[k]
        return height * (start + (end - start) * (x - a) / (b - a))
    return at


def degrees_of(term):
    """The degree of a term by place, or None where it is a number or a function."""
    found = None if term.shape in ("constant", "linear", "function") else course(term.shape, term.numbers)
    return found and in_doubles(found, term.height)


# ---------------------------------------------------------------------------------------------------------------------
# From the strengths of an output's rules to its answer.


def sums_over(term, inputs):
    """The number of a Takagi-Sugeno term for a sample."""
    if term.shape == "constant":
        return float(term.numbers[0])
    return sum(float(f) * x for f, x in zip(term.numbers, inputs)) + float(term.numbers[-1])


def inverse(term, strength, low, high):
    """Where a term that only rises or falls has a degree, as Tsukamoto wants it."""
    a, b = (float(it) for it in term.numbers)
    degree = strength / float(term.height)
    if term.shape == "ramp":
        return a + (b - a) * degree
    if term.shape == "concave":
        return (a - b) / degree + 2 * b - a
    if term.shape == "sigmoid":
        if abs(degree - 1) < FIRES:
            return high if b >= 0 else low
        return a + log(1 / degree - 1) / -b
    part = sqrt(degree / 2) if degree <= 0.5 else 1 - sqrt((1 - degree) / 2)
    return a + (b - a) * (part if term.shape == "sshape" else 1 - part)


MONOTONIC = ("ramp", "concave", "sigmoid", "sshape", "zshape")


class Centre:
    """The mean of numbers, each with the strength of its rule; fuzzylite adds the rules of one term."""

    def __init__(self, variable, adds):
        self.variable, self.adds = variable, adds
        self.low, self.high = (float(it) for it in variable.span)
        self.is_sum = "weightedsum" in variable.method

    def number(self, term, strength, inputs):
        if term.shape in MONOTONIC:
            return inverse(term, strength, self.low, self.high)
        if term.shape not in ("constant", "linear"):
            raise Wrong(f"{self.variable.name} {term.name}: {term.shape} has no number")
        return sums_over(term, inputs)

    def answer(self, activated, inputs):
        if not self.adds:
            greatest = {}
            for term, strength, _ in activated:
                greatest[term.name] = (term, max(strength, greatest.get(term.name, (term, 0))[1]))
            activated = [(*it, None) for it in greatest.values()]
        total = sum(strength for _, strength, _ in activated)
        moment = sum(strength * self.number(term, strength, inputs) for term, strength, _ in activated)
        return moment if self.is_sum else moment / total


class Area:
    """The area below the activated terms, over so many middles of steps."""

    def __init__(self, variable):
        words = variable.method.split()
        steps = int(words[1]) if len(words) > 1 and words[1].isdigit() else RESOLUTION
        low, high = (float(it) for it in variable.span)
        self.step, self.name = (high - low) / steps, words[0] if words else ""
        self.places = [low + (k + 0.5) * self.step for k in range(steps)]
        self.join = norm(variable.accumulation, "max")
        self.courses = {}
        for term in variable.terms:
            degrees = degrees_of(term)
            if degrees is None and term.shape == "constant":
                at, near = float(term.numbers[0]), self.step / 2
                degrees = lambda x, at=at, near=near: float(abs(x - at) <= near)
            if degrees is None:
                raise Wrong(f"{variable.name} {term.name}: {term.shape} has no area")
            self.courses[term.name] = [degrees(x) for x in self.places]

    def heights(self, activated):
        found = [0.0] * len(self.places)
        for term, strength, imply in activated:
            cut = [imply(strength, y) for y in self.courses[term.name]]
            found = list(map(self.join, found, cut))
        return found

    def answer(self, activated, _):
        heights = self.heights(activated)
        if self.name.startswith(("mean", "mm", "small", "lm", "larg", "rm")):
            return self.top(heights)
        area = sum(heights)
        if not area:
            return nan
        if self.name.startswith(("bisector", "coa")):
            return self.bisector(heights, area)
        return sum(map(PRODUCT, self.places, heights)) / area

    def bisector(self, heights, area):
        """Where half of the area is to the left, between two steps."""
        before = 0.0
        for x, y, sum_ in zip(self.places, heights, accumulate(heights)):
            if sum_ >= area / 2:
                return x + self.step * ((area / 2 - before) / y - 0.5)
            before = sum_
        return nan

    def top(self, heights):
        greatest = max(heights)
        tops = [k for k, y in enumerate(heights) if y > greatest - FIRES]
        first = last = tops[0]
        while last + 1 in tops:
            last += 1
        if self.name.startswith(("larg", "rm")):
            return self.places[tops[-1]]
        if self.name.startswith(("small", "lm")):
            return self.places[first]
        return (self.places[first] + self.places[last]) / 2


# ---------------------------------------------------------------------------------------------------------------------
# The engine.


class Inference:
    """An engine, ready to answer samples, which are lists with a double for each input, by its outputs or some."""

    def __init__(self, engine, wanted=None):
        self.engine, self.before, self.wanted = engine, {}, wanted
        self.places = {it.name.lower(): k for k, it in enumerate(engine.inputs)}
        self.outputs = {it.name.lower(): it for it in engine.outputs}
        self.degrees = {(it.name.lower(), term.name.lower()): degrees_of(term) for it in engine.inputs
                        for term in it.terms}
        self.rules = [it for it in engine.rules if it.block.is_enabled]
        self.makers = {}

    def maker(self, variable):
        """How an output's answer is made."""
        if variable.name not in self.makers:
            by_numbers = variable.method.startswith(("weighted", "cogs")) or not variable.method
            self.makers[variable.name] = Centre(variable, self.engine.adds) if by_numbers else Area(variable)
        return self.makers[variable.name]

    def truth(self, condition, block, inputs, activated):
        kind, *parts = condition
        if kind == "is":
            return self.literal(parts, block, inputs, activated)
        if kind == "not" and self.is_disabled(parts[0]):
            return 0.0
        found = [self.truth(it, block, inputs, activated) for it in parts]
        if kind == "not":
            return 1 - found[0]
        names = block.operators
        join = norm(names.get("conjunction", ""), "min") if kind == "and" else norm(names.get("disjunction", ""), "max")
        result = found[0]
        for it in found[1:]:
            result = join(result, it)
        return result

    def is_disabled(self, condition):
        kind, *parts = condition
        place = self.places.get(parts[0].lower()) if kind == "is" else None
        return place is not None and not self.engine.inputs[place].is_enabled

    def literal(self, literal, block, inputs, activated):
        name, hedges, term = literal[0].lower(), literal[1], literal[2].lower()
        if self.is_disabled(("is", *literal)):
            return 0.0
        if "any" in hedges:
            return 1.0
        if name in self.outputs:
            join = norm(self.outputs[name].accumulation, "usum")
            degree = 0.0
            for it, strength, _ in activated[name]:
                degree = join(degree, strength) if it.name.lower() == term else degree
        else:
            degrees = self.degrees[name, term]
            if degrees is None:
                raise Wrong(f"{literal[0]} {literal[2]} has no degrees")
            degree = degrees(inputs[self.places[name]])
        for it in reversed(hedges):
            degree = HEDGES[it](degree)
        return degree

    def activated(self, inputs):
        """For each output, by its name in small letters, the terms that rules conclude, with their strengths and what
        cuts them."""
        found = {it: [] for it in self.outputs}
        for rule in self.rules:
            strength = float(rule.weight) * self.truth(rule.condition, rule.block, inputs, found)
            if strength < FIRES:
                continue
            imply = norm(rule.block.operators.get("implication", ""), "min")
            for name, hedges, term in rule.conclusions:
                variable = self.outputs[name.lower()]
                for it in reversed(hedges):
                    strength = HEDGES[it](strength)
                if variable.is_enabled:
                    found[name.lower()].append((variable.term(term), strength, imply))
        return found

    def answers(self, inputs):
        """The answer of each output by its name, nan where it has none."""
        found = {it.name: nan for it in self.engine.outputs}
        for name, activated in self.activated(inputs).items():
            variable = self.outputs[name]
            if self.wanted is not None and variable.name not in self.wanted:
                continue
            if activated:
                answer = self.maker(variable).answer(activated, inputs)
            elif variable.keeps and variable.name in self.before:
                answer = self.before[variable.name]
            else:
                answer = nan if variable.default is None else float(variable.default)
            if variable.clips:
                answer = min(max(answer, float(variable.span[0])), float(variable.span[1]))
            found[variable.name] = self.before[variable.name] = answer
        return found
