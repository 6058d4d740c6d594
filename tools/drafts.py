"""Texts of FCL whose corners and ranges are moved, with all else left as it is."""
from dataclasses import dataclass
from fractions import Fraction
from math import floor

from cells import byte_of, slope, trapezoid
from fcl import block_of, spell, spell_condition, spell_points
from fcl_grammar import Grammar
from fuzz12 import Wrong

PLACES = 10000  # a number is counted in such parts
WIDTHS = sorted({round(255 / k + 1e-9) for k in range(1, 32)}, reverse=True)  # of sides whose slope is nearly whole


@dataclass
class Side:
    """A side of a term, between two places."""

    variable: object
    term: str
    low: Fraction
    high: Fraction
    rises: bool

    @property
    def width(self):
        """In bytes, as the firmware's table has it."""
        return byte_of(self.variable, self.high) - byte_of(self.variable, self.low)

    @property
    def is_odd(self):
        """Whether its table's slope is not near to 255 over its width."""
        return abs(self.width * slope(self.width) - 255) > self.width // 4

    @property
    def peak(self):
        """The greatest grade of its table, in parts of 1."""
        return min(255, self.width * slope(self.width)) / 255

    @property
    def off(self):
        """How far the table's degrees are from FCL's at the most."""
        width, steep = self.width, slope(self.width)
        return max(1 - self.peak, *(min(255, k * steep) / 255 - k / width for k in range(width + 1)))

    def told(self):
        way, width, exact = "rises" if self.rises else "falls", self.width, 255 / self.width
        said = f"up to {self.off:.2g} too high" if self.peak == 1 else f"its peak is {self.peak:.2g} in place of 1"
        return (f"{self.variable.name} IS {self.term} {way} over {width} bytes; the table's slope is {slope(width)} "
                f"per byte, exact {exact:.3g}: {said}")


def sides_of(block):
    """The sides that are not upright."""
    for variable in block.inputs:
        for term, points in variable.terms.items():
            it = trapezoid(points)
            for low, high, rises in ((it.a, it.b, True), (it.c, it.d, False)):
                if None not in (low, high) and byte_of(variable, high) > byte_of(variable, low):
                    yield Side(variable, term, low, high, rises)


def odd_sides(block):
    return [it for it in sides_of(block) if it.is_odd]


def edges_of(variable):
    """The places of upright edges."""
    corners = [trapezoid(points) for points in variable.terms.values()]
    return {it.a for it in corners if it.a == it.b} | {it.c for it in corners if it.c == it.d}


def stands_low(variable):
    """Whether the corners inside the range are in the mean clearly below the middles of their bytes' cells."""
    low, high = variable.span
    places = {x for points in variable.terms.values() for x, _ in points if low < x < high}
    parts = [256 * (x - low) / variable.width for x in places - edges_of(variable)]
    return sum(it - floor(it) for it in parts) < Fraction(2, 5) * len(parts)


def lowered_place(variable, delta):
    """Where a corner of a term is, once the RANGE is lower by delta."""
    high = variable.span[1] - delta
    def place(term, x):
        it = next(trapezoid(points) for name, points in variable.terms.items() if name.lower() == term.lower())
        is_edge = (it.a == it.b == x) or (it.c == it.d == x)
        return x - delta if is_edge else min(x, high)
    return place


def rounded(number):
    return Fraction(floor(number * PLACES + Fraction(1, 2)), PLACES)


class Draft:
    """A text, with the places of its numbers."""

    def __init__(self, text):
        self.text, self.tree, self.block = text, Grammar(text), block_of(text)
        if self.tree.stopped is not None:
            raise Wrong("no text of FCL")

    def section(self, variable):
        return next(it for it in self.tree.sections if it.name.upper == variable.name.upper())

    def edited(self, edits):
        """The text with other numbers, or None where it is then none of FCL."""
        text = self.text
        for (begin, end), new in sorted(edits, reverse=True):
            text = text[:begin] + new + text[end:]
        try:
            return Draft(text)
        except Wrong:
            return None

    def range_edits(self, variable, low, high):
        section = self.section(variable)
        if section.ranges:
            _, first, second = section.ranges[0]
            return [(first.span, spell(low)), (second.span, spell(high))]
        at = section.name.at + len(section.name.text)
        return [((at, at), f"\n    RANGE := ({spell(low)} .. {spell(high)});")]

    def moved(self, variable, place):
        """The edits that move the corners of a variable's terms: place has the new place of one of a term."""
        points = [(x, place(term.name.text, x)) for term in self.section(variable).terms for _, x, _ in term.points]
        return [(x.span, spell(new)) for x, new in points if new != x]

    def following(self, block):
        """The draft with the degrees, conditions, defaults and new terms of a block that was made of this one's, or
        None."""
        edits = []
        for old, new in zip(self.block.inputs, block.inputs):
            edits += self.term_edits(self.section(old), list(new.terms.items()))
        for old, new in zip(self.block.outputs, block.outputs):
            if new.default != old.default:
                word = self.section(old).settings["DEFAULT"][0]
                edits.append((self.between(word, ":=", ";"), f" {spell(new.default)}"))
        for rule, old, new in zip(self.tree.rules, self.block.rules, block.rules):
            if new.condition != old.condition:
                edits.append((self.between(rule.word, "IF", "THEN"), f" {spell_condition(new.condition)} "))
        return self.edited(edits) if edits else None

    def term_edits(self, section, terms):
        """The degrees of old terms, and the new ones before the section's end."""
        for term, (_, points) in zip(section.terms, terms):
            for (_, _, degree), (_, wanted) in zip(term.points, points):
                if degree != wanted:
                    yield degree.span, str(wanted)
        at, new = section.end.at, terms[len(section.terms):]
        indent = self.text[self.text.rfind("\n", 0, at) + 1:at]
        if new:
            yield (at, at), "".join(f"    TERM {name} := {spell_points(points)};\n{indent}" for name, points in new)

    def between(self, start, after, before):
        """Where the text stands that comes after a token behind another one, up to a third."""
        tokens = self.tree.tokens[self.tree.tokens.index(start):]
        first = next(it for it in tokens if it.upper == after)
        return first.at + len(first.text), next(it for it in tokens if it.upper == before).at

    def lowered(self, variables):
        """The draft with the RANGE of these half a byte lower, the upright edges moved along, and what is then above
        the range at its end; and what is said of it."""
        edits, said = [], []
        for it in variables:
            delta = rounded(it.width / 512)
            low, high = it.span[0] - delta, it.span[1] - delta
            edits += self.range_edits(it, low, high) + self.moved(it, lowered_place(it, delta))
            along = ", upright edges moved along" if edges_of(it) else ""
            said.append(f"RANGE of {it.name} ({spell(low)} .. {spell(high)}){along}")
        return self.edited(edits), "; ".join(said)

    def narrowed(self, side):
        """For each end of a side and each of the two nearest widths, the draft in which the corners there are moved so
        that the side has this width; and what is said of it."""
        variable, width = side.variable, side.width
        near = sorted(WIDTHS, key=lambda it: abs(it - width))[:2]
        for wanted in near:
            for end, new in self.ends(side, wanted):
                if end in edges_of(variable) or not variable.span[0] <= new <= variable.span[1]:
                    continue
                edits = self.moved(variable, lambda _, x: new if x == end else x)
                if not self.section(variable).ranges:
                    edits += self.range_edits(variable, *variable.span)
                draft = self.edited(edits)
                if draft is not None:
                    yield draft, (f"{variable.name} at {spell(new)} in place of {spell(end)}: a side of {wanted} bytes "
                                  f"in place of {width}")

    @staticmethod
    def ends(side, width):
        """Each end of a side with its new place, where one of four places gives the side this width."""
        length = width * side.variable.width / 256
        for end, new in ((side.low, side.high - length), (side.high, side.low + length)):
            for it in (rounded(new), rounded(new) + Fraction(1, PLACES), rounded(new) - Fraction(1, PLACES)):
                low, high = (it, side.high) if end == side.low else (side.low, it)
                if Side(side.variable, side.term, low, high, side.rises).width in (width, 127 * (width == 128)):
                    yield end, it
                    break
