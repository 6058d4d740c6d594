"""Closes the ends of ranges at which no rule fires: the smallest changes of a block with which it has a certificate.

A term that begins at the end of its range, or near it, becomes a shoulder; or DEFAULT becomes the answer that each
place beside has; or a new term of the last two bytes stands beside the old one in its rules. Of those that give the
cell a Bound the first that changes no answer is taken, else the one that changes least, by samples; but none that
changes answers elsewhere than in the last bytes of a range.
"""
import os
import random
import re
import tempfile
from dataclasses import dataclass, replace
from fractions import Fraction
from math import ceil, floor

from cells import cell_of
from fcl import Block, Rule, answer_of, spell, spell_block, strengths_of
from fuzz12 import NO_LEAF, write
from gaps import Gaps, pieces_of
from masses import TightCell

REFUSED = re.compile(r"not reached: cell ([\d ]+) output (\d+) bound 1000001")
MOST_CHANGES, MOST_TERMS, MOST_SECONDS = 40, 15, 60
BYTES = 2  # over which a new term falls
NARROW = Fraction(5, 256)  # of a range: the part in which a change may change answers
ALONG, ACROSS, ANYWHERE = 48, 12, 300  # samples: along the part that changes, for each of them, and over all


@dataclass
class Change:
    """A block after a change, with what was changed, and where: an input's name with two places, or all."""

    block: Block
    said: str
    where: tuple = None
    moved: Fraction = Fraction(0)  # by how much of its range an answer changes at most

    @property
    def part(self):
        """The part of an input's range in which it may change answers."""
        if self.where is None:
            return 1
        name, end, other = self.where
        return abs(other - end) / next(it.width for it in self.block.inputs if it.name == name)

    @property
    def size(self):
        return self.moved * self.part

    @property
    def is_small(self):
        """Whether it changes no answer, or some of the last bytes at most."""
        return not self.moved or self.part <= NARROW


@dataclass
class Fading:
    """A term that falls to 0 towards an end of its range, and is 0 from there on."""

    variable: object
    term: str
    end: Fraction
    foot: Fraction

    @property
    def head(self):
        places = [x for x, y in self.variable.terms[self.term] if y == 1]
        return places[0] if self.is_low else places[-1]

    @property
    def is_low(self):
        return self.end == self.variable.span[0]


def refused(program, block):
    """The bytes of a cell on which no leaf holds, and the output, or None where none was found."""
    with tempfile.TemporaryDirectory() as folder:
        text, out = os.path.join(folder, "block.fcl"), os.path.join(folder, "block.cert")
        write(text, "\n".join(spell_block(block)) + "\n")
        answer = program.call("tcertify", text, 1000000, out, seconds=MOST_SECONDS)
    found = answer and REFUSED.fullmatch(answer.said)
    return found and ([int(it) for it in found[1].split()], block.outputs[int(found[2]) - 1])


def fading(block, bytes_):
    """The terms that fall to 0 on a cell, towards the end of a range."""
    for variable, byte in zip(block.inputs, bytes_):
        start, stop = cell_of(variable, byte)
        for term, points in variable.terms.items():
            for end, towards in zip(variable.span, (points, points[::-1])):
                zeros = []
                for x, y in towards:
                    if y == 1:
                        break
                    zeros.append(x)
                if zeros and (start <= zeros[-1] < stop or end == zeros[-1] == variable.span[1] == stop):
                    yield Fading(variable, term, end, zeros[-1])


def with_terms(block, variable, terms):
    """The block with other terms of an input."""
    inputs = [replace(it, terms=terms) if it.name == variable.name else it for it in block.inputs]
    return replace(block, inputs=inputs)


def shoulder(block, it):
    """The term is 1 from its head to the end."""
    points = [(x, 1 if (x <= it.foot if it.is_low else x >= it.foot) else y) for x, y in it.variable.terms[it.term]]
    changed = with_terms(block, it.variable, {**it.variable.terms, it.term: points})
    low, high = sorted((it.end, it.head))
    said = f"{it.variable.name} {it.term} is now 1 from {spell(low)} to {spell(high)}"
    return Change(changed, said, (it.variable.name, it.end, it.head))


def beside(condition, old, new):
    """The condition with a new literal beside each of the old ones that stands under no NOT."""
    kind, *parts = condition
    if kind == "is":
        return ("or", condition, ("is", *new)) if tuple(parts) in old else condition
    if kind == "not":
        return condition
    found = [beside(it, old, new) for it in parts]
    return (kind, *(inner for it in found for inner in (it[1:] if kind == it[0] == "or" else [it])))


def new_term(block, some):
    """A term of the last two bytes, which stands beside old ones of one end in their rules."""
    first, variable = some[0], some[0].variable
    inner = first.foot + (BYTES if first.is_low else -BYTES) * variable.width / 256
    inner = Fraction((ceil if first.is_low else floor)(inner * 10000), 10000)
    if len(variable.terms) >= MOST_TERMS or not variable.span[0] < inner < variable.span[1]:
        return None
    points = sorted({(first.end, 1), (first.foot, 1), (inner, 0)})
    name = "low_end" if first.is_low else "high_end"
    others = {other.lower(): it for other, it in variable.terms.items()}
    while others.get(name, points) != points:
        name += "_"
    old = {(variable.name, it.term) for it in some}
    rules = [Rule(beside(rule.condition, old, (variable.name, name)), rule.conclusions, rule.weight)
             for rule in block.rules]
    numbers = [str(k) for k, (a, b) in enumerate(zip(block.rules, rules), start=1) if a.condition != b.condition]
    if not numbers:
        return None
    changed = replace(with_terms(block, variable, {**variable.terms, name: points}), rules=rules)
    said = (f"{variable.name} has a term {name} now, 1 at {spell(first.end)} and 0 from {spell(inner)} on, beside "
            f"{' and '.join(it.term for it in some)} in rule{'s' * (len(numbers) > 1)} {', '.join(numbers)}")
    return Change(changed, said, (variable.name, first.end, inner))


def default(block, output):
    """DEFAULT is the number that each place beside one without a rule has, where that is one number."""
    gaps = Gaps(block, output, {it.name: pieces_of(it) for it in block.inputs})
    if not gaps.is_whole:
        return None
    found = {term for box in gaps.boxes for other in gaps.beside(box) if other not in gaps.boxes
             for rule in gaps.firing(other) for name, term in rule.conclusions if name == output.name}
    numbers = {output.terms[it] for it in found}
    if len(numbers) != 1:
        return None
    number = numbers.pop()
    outputs = [replace(it, default=number) if it.name == output.name else it for it in block.outputs]
    return Change(replace(block, outputs=outputs), f"{output.name}: DEFAULT is now {spell(number)}, the answer beside "
                  "each place where no rule fires")


def samples_for(block, where):
    """Samples over all ranges, and along the part that a change changes."""
    chance = random.Random(1)
    anywhere = [{it.name: it.span[0] + it.width * Fraction(chance.randint(0, 10000), 10000) for it in block.inputs}
                for _ in range(ANYWHERE + ALONG * ACROSS)]
    if where is None:
        return anywhere[:ANYWHERE]
    name, end, other = where
    for k in range(ALONG * ACROSS):
        anywhere[k][name] = end + (other - end) * Fraction(k // ACROSS, ALONG - 1)
    return anywhere


def moved(old, new, where):
    """By how much of its range an answer changes at most, at samples at which a rule fires in the old block."""
    most = Fraction(0)
    for sample in samples_for(old, where):
        before, after = strengths_of(old, sample), strengths_of(new, sample)
        for output, changed in zip(old.outputs, new.outputs):
            was = answer_of(replace(output, default=None), before, None)
            if was is not None:
                most = max(most, abs(answer_of(changed, after, None) - was) / output.width)
    return most


def smallest(block, bytes_, output):
    """The smallest change that gives the cell a Bound, or None."""
    terms, best = list(fading(block, bytes_)), None
    ends = {}
    for it in terms:
        ends.setdefault((it.variable.name, it.end, it.foot), []).append(it)
    groups = [*([it] for it in terms), *(some for some in ends.values() if len(some) > 1)]
    for make in [*(lambda it=it: shoulder(block, it) for it in terms), lambda: default(block, output),
                 *(lambda some=some: new_term(block, some) for some in groups)]:
        found = make()
        if found is None or bound(found.block, bytes_, output.name) == NO_LEAF:
            continue
        found.moved = moved(block, found.block, found.where)
        if found.is_small and (best is None or found.size < best.size):
            best = found
        if not found.moved:
            break
    return best


def bound(block, bytes_, name):
    return TightCell(block, bytes_).bound(next(it for it in block.outputs if it.name == name))


def near(block, bytes_):
    """A place of a cell, at an end of a range where it reaches up to it."""
    places = [it.span[1] if byte == 255 else cell_of(it, byte)[0] for it, byte in zip(block.inputs, bytes_)]
    return ", ".join(f"{it.name} {spell(x)}" for it, x in zip(block.inputs, places))


def closed(program, block):
    """The block after the changes that it needs, a line for each, and one where no change of an end helps, or None."""
    lines = []
    while (found := refused(program, block)) and len(lines) < MOST_CHANGES:
        bytes_, output = found
        change = smallest(block, bytes_, output)
        if change is None:
            return block, lines, (f"{output.name}: no certificate: near {near(block, bytes_)} no rule fires, and no "
                                  "change of an end helps")
        block = change.block
        percent = float(100 * change.moved)
        lines.append(f"{change.said}: " + (f"answers there change by at most {percent:.1f} percent of the range"
                                           if change.moved else "no answer changes where a rule fired, by samples"))
    return block, lines, None
