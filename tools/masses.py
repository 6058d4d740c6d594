"""The error of a cell in exact fractions, as docs/CERTIFICATES.md defines it: how far its one answer may be from the
answers to all masses that its terms may have there."""
from dataclasses import dataclass
from fractions import Fraction
from math import ceil, floor

from cells import BILLION, Cell, nearest_byte, offset, value_of
from fuzz12 import NO_LEAF

PARTS = 255 * BILLION  # of a mass of 1


@dataclass
class Mass:
    """A term's singleton, what its mass lies between, in whole parts, and what it is over bytes."""

    at: Fraction
    low: int
    high: int
    byte: int


@dataclass
class Reach:
    """The least and the greatest exact answer to masses on a cell, and the number that its one answer stands for."""

    low: Fraction
    high: Fraction
    answer: int
    value: Fraction
    lost: Fraction  # what the last rounding down took

    @property
    def half(self):
        """Half of what the exact answers differ by."""
        return (self.high - self.low) / 2

    @property
    def error(self):
        return max(self.high - self.value, self.value - self.low)


def centre(masses, chosen):
    """The exact answer to masses, or None where all are 0."""
    total = sum(chosen)
    return Fraction(sum(it.at * mass for it, mass in zip(masses, chosen)), total) if total else None


class TightCell(Cell):
    """The cell of these bytes as a tight certificate sees it: by the masses there, whatever the rules are."""

    def masses(self, output):
        """By the output's terms."""
        found = {}
        for term, at in output.terms.items():
            spans = [span for number, span in self.rules_of(output)
                     if (output.name, term) in self.block.rules[number - 1].conclusions]
            found[term] = Mass(at, *(max(map(of, spans), default=0) for of in (
                lambda it: floor(PARTS * it.low), lambda it: ceil(PARTS * it.high), lambda it: it.byte)))
        return found

    def is_silent(self, output):
        return all(span.is_still for _, span in self.rules_of(output))

    def sure_mass(self, output):
        """What the masses come to at the least."""
        return Fraction(sum(it.low for it in self.masses(output).values()), PARTS)

    def reach(self, output):
        """None where the answer before may stay."""
        masses = list(self.masses(output).values())
        total = sum(it.byte for it in masses)
        if output.default is None and (total == 0 or self.sure_mass(output) == 0):
            return None
        over = sum(nearest_byte(output, it.at) * it.byte for it in masses)
        rest = Fraction(over, total) if total else Fraction(nearest_byte(output, output.default))
        answer = floor(self.parts * rest)
        tops = {it.at for it in masses}
        sides = [set()]
        for cut in tops:
            sides += [{at for at in tops if at <= cut}, {at for at in tops if at >= cut}]
        lists = [[it.high if it.at in side else it.low for it in masses] for side in sides]
        exact = [output.default if it is None else it for it in (centre(masses, chosen) for chosen in lists)]
        lost = (rest - Fraction(answer, self.parts)) * output.width / 255
        return Reach(min(exact), max(exact), answer, value_of(output, answer, self.parts), lost)

    def bound(self, output):
        """The cell Bound, in millionths of the range."""
        if self.is_silent(output):
            return 0 if output.default is None else ceil(offset(output, output.default) * 10**6)
        reach = self.reach(output)
        return NO_LEAF if reach is None else min(10**6, ceil(reach.error / output.width * 10**6))
