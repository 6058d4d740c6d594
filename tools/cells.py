"""Bytes, cells, tables and Bounds in exact fractions, as docs/FIRMWARE.md and docs/CERTIFICATES.md define them."""
from dataclasses import dataclass
from fractions import Fraction
from math import ceil, floor

from fcl import literals
from fuzz12 import NO_LEAF

BILLION = 10**9


def byte_of(variable, x):
    low, _ = variable.span
    return min(255, floor(256 * (x - low) / variable.width))


def cell_of(variable, byte):
    """The numbers of a byte: from the first on, and below the second."""
    low, _ = variable.span
    return low + byte * variable.width / 256, low + (byte + 1) * variable.width / 256


def value_of(output, answer, parts=1):
    """The number that an answer stands for, in parts of a byte: 1, or 256 where it has 16 bits."""
    return output.span[0] + answer * output.width / (255 * parts)


def nearest_byte(output, number):
    return floor((number - output.span[0]) / output.width * 255 + Fraction(1, 2))


def offset(output, number):
    """How far the byte of a singleton or a DEFAULT is from it, as a part of the range."""
    return abs(value_of(output, nearest_byte(output, number)) - number) / output.width


def weight_byte(weight):
    return max(0, floor(256 * weight + Fraction(1, 2)) - 1)


# ---------------------------------------------------------------------------------------------------------------------
# Terms.


@dataclass
class Trapezoid:
    """The corners of a term: zero up to a, one from b to c, zero from d on; a and d may be missing."""

    a: Fraction
    b: Fraction
    c: Fraction
    d: Fraction

    def rise(self, x, below=False):
        """The rising side at x, or its limit from below."""
        if self.a is None or x > self.b or (x == self.b and not below):
            return Fraction(1)
        return Fraction(0) if x <= self.a else (x - self.a) / (self.b - self.a)

    def fall(self, x):
        if self.d is None or x <= self.c:
            return Fraction(1)
        return Fraction(0) if x >= self.d else (self.d - x) / (self.d - self.c)

    def degrees(self, start, end, closed):
        """The least and the greatest degree from start on and below end, or up to end where that is closed."""
        return (min(self.rise(start), self.fall(end)), min(self.rise(end, not closed), self.fall(start)))


def trapezoid(points):
    ones = [x for x, y in points if y == 1]
    first = next(k for k, (_, y) in enumerate(points) if y == 1)
    a = points[first - 1][0] if first else None
    d = next((x for x, y in points[first:] if y == 0), None)
    return Trapezoid(a, ones[0], ones[-1], d)


def slope(width):
    return 0 if width == 0 else (510 + width) // (2 * width)


def table(variable, term):
    """The bytes P1, P2, S1, S2 of a term."""
    a = 0 if term.a is None else byte_of(variable, term.a)
    d = 255 if term.d is None else byte_of(variable, term.d)
    rise = 0 if term.a is None else slope(byte_of(variable, term.b) - a)
    fall = 0 if term.d is None else slope(d - byte_of(variable, term.c))
    return a, d, rise, fall


def grade(row, byte):
    first, last, rise, fall = row
    if not first <= byte <= last:
        return 0
    return min(255, (byte - first) * rise if rise else 255, (last - byte) * fall if fall else 255)


# ---------------------------------------------------------------------------------------------------------------------
# A cell of a block.


@dataclass
class Literal:
    """A term on a cell: its degrees there, its grade, and its error in parts of 10^9."""

    term: Trapezoid
    low: Fraction
    high: Fraction
    grade: int
    error: int


@dataclass
class Span:
    """The strengths of a rule on a cell, exact ones from low to high and the one over bytes; and its error."""

    low: Fraction
    high: Fraction
    byte: int
    error: int

    @property
    def k(self):
        """The most 255ths that a strong leaf may count on, or 0 where it may not name the rule."""
        return floor(255 * self.low) if self.byte > 0 else 0

    @property
    def is_still(self):
        return self.high == 0 and self.byte == 0


def literal_on(variable, points, byte):
    term = trapezoid(points)
    low, high = term.degrees(*cell_of(variable, byte), byte == 255)
    graded = grade(table(variable, term), byte)
    error = max(ceil(abs(Fraction(graded, 255) - it) * BILLION) for it in (low, high))
    return Literal(term, low, high, graded, error)


def span_of(condition, found):
    """The least and the greatest truth of a condition, and the one over bytes."""
    kind, *parts = condition
    if kind == "is":
        it = found[tuple(parts)]
        return it.low, it.high, it.grade
    lows, highs, grades = zip(*(span_of(it, found) for it in parts))
    if kind == "not":
        return 1 - highs[0], 1 - lows[0], 255 - grades[0]
    choose = min if kind == "and" else max
    return choose(lows), choose(highs), choose(grades)


def weight_errors(rule):
    """What the weight byte and the rounding down of a weighted strength add, in parts of 10^9."""
    byte = weight_byte(rule.weight)
    rounding = 0 if byte == 255 else ceil(Fraction(BILLION, 255))
    return ceil(abs(Fraction(byte + 1, 256) - rule.weight) * BILLION), rounding


def rule_on(rule, found):
    low, high, byte = span_of(rule.condition, found)
    error = max(found[it].error for it in literals(rule.condition)) + sum(weight_errors(rule))
    return Span(low * rule.weight, high * rule.weight, byte * (weight_byte(rule.weight) + 1) // 256, error)


class Cell:
    """The cell of these bytes, and the best leaf of each output on it."""

    def __init__(self, block, bytes_, parts=1):
        self.block, self.bytes, self.parts = block, bytes_, parts
        self.literals = {(it.name, term): literal_on(it, points, byte)
                         for it, byte in zip(block.inputs, bytes_) for term, points in it.terms.items()}
        self.rules = [rule_on(it, self.literals) for it in block.rules]

    def rules_of(self, output):
        """The numbers of the rules that conclude a term of the output, with their spans."""
        return [(number, span) for number, (rule, span) in enumerate(zip(self.block.rules, self.rules), start=1)
                if any(name == output.name for name, _ in rule.conclusions)]

    def best(self, output):
        """The rule's number and k of the best leaf: (0, 0) where it is silent, None where none holds."""
        spans = self.rules_of(output)
        if all(span.is_still for _, span in spans):
            return 0, 0
        k, number = max(((span.k, -number) for number, span in spans), default=(0, 0))
        return (-number, k) if k else None

    def term_errors(self, output):
        """The error of each term of the output, in parts of 10^9, and the number of the rule that it is of."""
        errors = {}
        for term in output.terms:
            concluding = [(span.error, -number) for number, span in self.rules_of(output)
                          if (output.name, term) in self.block.rules[number - 1].conclusions]
            error, number = max(concluding, default=(0, 0))
            errors[term] = (error, -number)
        return errors

    def parts_of(self, output, k):
        """What a strong leaf's Bound is the sum of, as parts of the range: S * 255/k, delta, and the last rounding."""
        total = sum(error for error, _ in self.term_errors(output).values())
        delta = max(offset(output, it) for it in output.terms.values())
        return Fraction(total * 255, BILLION * k), delta, Fraction(1, 255 * self.parts)

    def bound(self, output):
        """The Bound of the best leaf, in millionths of the range."""
        best = self.best(output)
        if best is None:
            return NO_LEAF
        if best == (0, 0):
            return 0 if output.default is None else ceil(offset(output, output.default) * 10**6)
        return min(10**6, ceil(sum(self.parts_of(output, best[1])) * 10**6))
