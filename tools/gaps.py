"""Where no rule for an output fires: boxes of a block's inputs, found by which terms are above 0 there."""
from dataclasses import dataclass
from fractions import Fraction
from itertools import islice, product
from math import prod

from fcl import degree, literals, spell

MOST_BOXES = 20000


@dataclass
class Piece:
    """A part of an input's range in which the same terms are above 0, and the same below 1."""

    low: Fraction
    high: Fraction
    place: Fraction  # one of its numbers
    above: frozenset
    below: frozenset
    source: tuple = ()  # what is different there in the text that the block comes from

    @property
    def kind(self):
        return self.above, self.below, self.source


def piece_at(variable, low, high, source):
    place = (low + high) / 2
    degrees = {(variable.name, term): degree(points, place) for term, points in variable.terms.items()}
    return Piece(low, high, place, frozenset(it for it, y in degrees.items() if y > 0),
                 frozenset(it for it, y in degrees.items() if y < 1), source(place))


def pieces_of(variable, places=(), source=lambda place: ()):
    """The pieces of an input's range from its low end to its high one; a corner may be one alone. It is cut at more
    places, and where a function of the place changes between them."""
    low, high = variable.span
    corners = {x for points in variable.terms.values() for x, _ in points}
    ends = sorted({low, high, *(x for x in {*corners, *places} if low < x < high)})
    spans = [it for pair in zip(ends, ends[1:]) for it in ((pair[0], pair[0]), pair)] + [(high, high)]
    found = []
    for span in spans:
        piece = piece_at(variable, *span, source)
        if found and found[-1].kind == piece.kind:
            wide = max(found[-1], piece, key=lambda it: it.high - it.low)
            piece = Piece(found[-1].low, piece.high, wide.place, *piece.kind)
            found.pop()
        found.append(piece)
    return found


def fires(condition, above, below):
    """Whether a condition is above 0, where these literals are above 0, and these below 1."""
    kind, *parts = condition
    if kind == "is":
        return tuple(parts) in above
    if kind == "not":
        return falls_short(parts[0], above, below)
    return (all if kind == "and" else any)(fires(it, above, below) for it in parts)


def falls_short(condition, above, below):
    """Whether it is below 1."""
    kind, *parts = condition
    if kind == "is":
        return tuple(parts) in below
    if kind == "not":
        return fires(parts[0], above, below)
    return (any if kind == "and" else all)(falls_short(it, above, below) for it in parts)


class Gaps:
    """The boxes of pieces on which no rule for an output fires; each is a tuple of places in lists of pieces. Of an
    input that no rule for it reads there is one piece."""

    def __init__(self, block, output, pieces):
        self.block, self.output = block, output
        self.rules = [it for it in block.rules if it.weight and any(name == output.name for name, _ in it.conclusions)]
        read = {name for it in self.rules for name, _ in literals(it.condition)}
        self.pieces = [pieces[it.name] if it.name in read else
                       [Piece(*it.span, sum(it.span) / 2, frozenset(), frozenset())] for it in block.inputs]
        self.is_whole = prod(map(len, self.pieces)) <= MOST_BOXES
        boxes = islice(product(*(range(len(it)) for it in self.pieces)), MOST_BOXES)
        self.boxes = {it for it in boxes if not self.firing(it)}

    def chosen(self, box):
        return [some[k] for some, k in zip(self.pieces, box)]

    def firing(self, box):
        """The rules that fire on a box."""
        chosen = self.chosen(box)
        above = frozenset().union(*(it.above for it in chosen))
        below = frozenset().union(*(it.below for it in chosen))
        return [it for it in self.rules if fires(it.condition, above, below)]

    def sample(self, box):
        """A number for each input, in the box."""
        return [it.place for it in self.chosen(box)]

    def beside(self, box):
        """The boxes next to one."""
        for k, place in enumerate(box):
            for other in (place - 1, place + 1):
                if 0 <= other < len(self.pieces[k]):
                    yield (*box[:k], other, *box[k + 1:])

    def joined(self, boxes):
        """Larger boxes, each with its first and its last place for each input, that make up these."""
        left = set(boxes)
        for first in sorted(boxes):
            if first not in left:
                continue
            last = list(first)
            for k in range(len(first)):
                while last[k] + 1 < len(self.pieces[k]):
                    last[k] += 1
                    if not left.issuperset(product(*(range(a, b + 1) for a, b in zip(first, last)))):
                        last[k] -= 1
                        break
            left -= set(product(*(range(a, b + 1) for a, b in zip(first, last))))
            yield first, tuple(last)

    def ends(self, corners):
        """The low and the high end of a box for each input, by its name."""
        return {it.name: (some[a].low, some[b].high)
                for it, some, a, b in zip(self.block.inputs, self.pieces, *corners)}


def told(block, ends):
    """Where a box is, in words."""
    said = []
    for it in block.inputs:
        low, high = ends[it.name]
        if (low, high) == it.span:
            continue
        said.append(f"{it.name} is {spell(low)}" if low == high else f"{it.name} is from {spell(low)} to {spell(high)}")
    return " and ".join(said) or "the inputs are anywhere"
