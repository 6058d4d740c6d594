"""Matlab's .fis, an INI text, read as an engine. Octave and fuzzylite write it too."""
import re
from fractions import Fraction

from engine import Block, Engine, Rule, Variable, named, number, term_of
from fuzz12 import Wrong

SECTION = re.compile(r"\s*\[(\w+?)(\d*)\]\s*")
SHAPE = re.compile(r"'(.*?)'\s*:\s*'(.*?)'\s*,\s*\[(.*)\]")
RULE = re.compile(r"([^,]*),([^(]*)\(([^)]*)\)\s*:\s*(\d+)")
# The shapes by their names, with the order in which fuzzylite has their numbers where it is another.
SHAPES = {
    "trimf": ("triangle", None), "trapmf": ("trapezoid", None), "rectmf": ("rectangle", None),
    "rampmf": ("ramp", None), "linsmf": ("ramp", None), "linzmf": ("ramp", (1, 0)), "discretemf": ("discrete", None),
    "gaussmf": ("gaussian", (1, 0)), "gauss2mf": ("gaussianproduct", (1, 0, 3, 2)), "gbellmf": ("bell", (2, 0, 1)),
    "sigmf": ("sigmoid", (1, 0)), "dsigmf": ("sigmoiddifference", (1, 0, 2, 3)),
    "psigmf": ("sigmoidproduct", (1, 0, 2, 3)), "pimf": ("pishape", None), "smf": ("sshape", None),
    "zmf": ("zshape", None), "concavemf": ("concave", None), "cosinemf": ("cosine", None), "spikemf": ("spike", None),
}
METHODS = {"mom": "meanofmaximum", "lom": "largestofmaximum", "som": "smallestofmaximum",
           "wtaver": "weightedaverage", "wtsum": "weightedsum"}
OPERATORS = {"andmethod": "conjunction", "ormethod": "disjunction", "impmethod": "implication"}
HEDGES = {1: ("seldom",), 5: ("somewhat",), 20: ("very",), 30: ("extremely",), 40: ("very", "very"), 99: ("any",)}


def is_fis(text):
    return re.search(r"^\s*\[System\]", text, re.M | re.I) is not None


def read_fis(text):
    engine, kind, here = Engine("engine", "fis", blocks=[Block()], adds=True), "", None
    method = accumulation = ""
    for line_number, line in enumerate(text.splitlines(), start=1):
        said = re.sub(r"^\s*[#%].*", "", line).strip()
        if found := SECTION.fullmatch(said):
            kind, here = found[1].lower(), Variable("")
            if kind in ("input", "output"):
                (engine.inputs if kind == "input" else engine.outputs).append(here)
            continue
        with named(f"line {line_number}"):
            key, _, value = (it.strip() for it in said.partition("="))
            if kind == "system":
                method = value.strip("'") if key.lower() == "defuzzmethod" else method
                accumulation = value.strip("'") if key.lower() == "aggmethod" else accumulation
                read_line_of_system(engine, key.lower(), value.strip("'"))
            elif kind in ("input", "output"):
                read_line_of_variable(here, key.lower(), value)
            elif kind == "rules" and said:
                rule = rule_of(engine, said)
                if rule.condition is None:
                    engine.left_out.append(f"the rule {said}, which has no condition")
                else:
                    engine.rules.append(rule)
    for it in engine.outputs:
        it.method, it.accumulation = METHODS.get(method.lower(), method.lower()), accumulation.lower()
    return engine


def read_line_of_system(engine, key, value):
    if key == "name":
        engine.name = value
    elif key in OPERATORS:
        engine.blocks[0].operators[OPERATORS[key]] = value.lower()


def read_line_of_variable(variable, key, value):
    if key == "name":
        variable.name = value.strip("'")
    elif key == "range":
        variable.span = tuple(map(number, re.split(r"[\s,]+", value.strip("[] "))))
    elif re.fullmatch(r"mf\d+", key):
        name, shape, numbers = SHAPE.fullmatch(value).groups()
        variable.terms.append(shaped(name, shape, re.split(r"[\s,]+", numbers.strip())))
    elif key == "default":
        variable.default = number(value)
    elif key == "enabled":
        variable.is_enabled = value != "0"
    elif key == "lockprevious":
        variable.keeps = value == "1"
    elif key == "lockrange":
        variable.clips = value == "1"


def shaped(name, shape, words):
    found, order = SHAPES.get(shape.lower(), (shape, None))
    term = term_of(name, found, words)
    term.numbers = [term.numbers[k] for k in order] if order else term.numbers
    return term


def rule_of(engine, said):
    """A rule has a number for each input and each output, 0 where it says nothing of it."""
    codes, conclusions, weight, joint = RULE.fullmatch(said).groups()
    literals = [literal_of(*it) for it in zip(engine.inputs, numbers_of(codes, engine.inputs))]
    found = [it for it in literals if it]
    condition = ("or" if joint == "2" else "and", *found) if len(found) > 1 else found[0] if found else None
    concluded = []
    for it, code in zip(engine.outputs, numbers_of(conclusions, engine.outputs)):
        if code < 0:
            raise Wrong(f"a rule concludes a NOT: {said}")
        if code:
            concluded.append((it.name, *literal_of(it, code)[2:]))
    return Rule(condition, concluded, Fraction(weight), engine.blocks[0])


def numbers_of(text, variables):
    found = [Fraction(it) for it in text.split()]
    if len(found) != len(variables):
        raise ValueError
    return found


def literal_of(variable, code):
    """A term by its number; below 0 it is negated, and fuzzylite has hedges behind the point."""
    place, part = divmod(abs(code), 1)
    hedges = HEDGES[int(100 * part)] if part else ()
    if hedges == ("any",):
        literal = ("is", variable.name, hedges, "")
    elif place == 0:
        return None
    else:
        literal = ("is", variable.name, hedges, variable.terms[int(place) - 1].name)
    return ("not", literal) if code < 0 else literal
