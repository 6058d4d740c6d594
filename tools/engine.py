"""An engine of fuzzy rules as other tools have it: what the readers of their texts make, and what they share."""
import re
from contextlib import contextmanager
from dataclasses import dataclass, field
from fractions import Fraction

from fuzz12 import Wrong
from shapes import COUNTS, HEDGES, OTHERS

NUMBER = r"[-+]?(?:\d+\.?\d*|\.\d+)(?:[eE][-+]?\d+)?(?![\w.])"


@dataclass
class Term:
    name: str
    shape: str  # of fuzzylite, in small letters; `points`, whose numbers are pairs of place and degree
    numbers: list
    text: str = ""  # of a function
    height: Fraction = Fraction(1)


@dataclass
class Variable:
    name: str
    comment: str = ""
    span: tuple = None
    terms: list = field(default_factory=list)
    default: Fraction = None  # None where there is none, or it is no number
    keeps: bool = False  # the answer before, where no rule fires
    clips: bool = False  # an answer to the range
    method: str = ""  # how an answer is made, in small letters
    accumulation: str = ""
    is_enabled: bool = True

    def term(self, name):
        """The term of a name, or None."""
        return next((it for it in self.terms if it.name.lower() == name.lower()), None)


@dataclass
class Block:
    """A rule block: its operators by what they are for, in small letters."""

    name: str = ""
    operators: dict = field(default_factory=dict)
    is_enabled: bool = True


@dataclass
class Rule:
    """A literal is ("is", name, hedges, term), and a conclusion (name, hedges, term)."""

    condition: tuple
    conclusions: list
    weight: Fraction
    block: Block = None


@dataclass
class Engine:
    name: str
    kind: str = "fcl"  # or fll or fis
    inputs: list = field(default_factory=list)
    outputs: list = field(default_factory=list)
    rules: list = field(default_factory=list)
    blocks: list = field(default_factory=list)
    left_out: list = field(default_factory=list)  # what the reader passed over, as text
    adds: bool = False  # fuzzylite's meaning: a weighted average adds the strengths of rules that conclude one term


@contextmanager
def named(place):
    """Says where a text has another form than is wanted."""
    try:
        yield
    except (IndexError, KeyError, ValueError, TypeError, ArithmeticError):
        raise Wrong(f"{place}: not of the form that is wanted") from None


def number(text):
    """A number, or None where it is none: fuzzylite writes nan and inf."""
    return Fraction(text) if re.fullmatch(NUMBER, text) else None


def term_of(name, shape, words):
    """A term by its shape and the words behind it; one number more than the shape has is its height."""
    numbers = [number(it) for it in words]
    if None in numbers or shape.lower() == "function":
        return Term(name, "function", [], " ".join([shape, *words]))
    found, order = OTHERS.get(shape.lower(), (shape.lower(), None))
    wanted = len(numbers) // 2 * 2 if found == "discrete" else COUNTS.get(found, len(numbers))
    if len(numbers) not in (wanted, wanted + 1):
        raise Wrong(f"{name} := {shape}: {wanted} numbers are wanted")
    height = numbers.pop() if len(numbers) > wanted else Fraction(1)
    return Term(name, found, [numbers[k] for k in order or range(wanted)], height=height)


class Rules:
    """Reads a rule from its words; those of both languages are alike."""

    def __init__(self, tokens):
        self.tokens = list(tokens)

    def peek(self):
        return self.tokens[0].lower() if self.tokens else ""

    def next(self, *wanted):
        if not self.tokens or (wanted and self.peek() not in wanted):
            raise Wrong(f"a rule has {self.peek() or 'its end'} where {' or '.join(wanted) or 'a word'} is wanted")
        return self.tokens.pop(0)

    def rule(self, block):
        self.next("if")
        condition = self.joined("or")
        self.next("then")
        conclusions = [self.conclusion()]
        while self.peek() in ("and", ","):
            self.next()
            conclusions.append(self.conclusion())
        weight = Fraction(1)
        if self.peek() == "with":
            self.next()
            weight = number(self.next())
            if weight is None:
                raise Wrong("a rule's weight is no number")
        return Rule(condition, conclusions, weight, block)

    def joined(self, word):
        part = (lambda: self.joined("and")) if word == "or" else self.one
        parts = [part()]
        while self.peek() == word:
            self.next()
            parts.append(part())
        return (word, *parts) if len(parts) > 1 else parts[0]

    def one(self):
        if self.peek() == "not":
            self.next()
            return ("not", self.one())
        if self.peek() == "(":
            self.next()
            inner = self.joined("or")
            self.next(")")
            return inner
        name = self.next()
        self.next("is")
        negated = self.peek() == "not"
        if negated:
            self.next()
        literal = ("is", name, *self.hedged_term())
        return ("not", literal) if negated else literal

    def hedged_term(self):
        """Hedges and a term; `any` stands without one."""
        hedges = []
        while self.peek() in HEDGES:
            hedges.append(self.next().lower())
            if hedges[-1] == "any":
                return tuple(hedges), ""
        return tuple(hedges), self.next()

    def conclusion(self):
        name = self.next()
        self.next("is")
        return (name, *self.hedged_term())
