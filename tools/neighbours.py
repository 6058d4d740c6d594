"""Trapezoids in the place of curves that overlap where the curves do, and pass over as steeply."""
from dataclasses import dataclass, replace
from fractions import Fraction

from cells import Trapezoid
from inference import FIRES
from shapes import rounded, tops_of

LEAST_OVERLAP = Fraction(2, 256)  # of the range, to both sides of a crossing
WIDER = 1.4  # a straight course from one number to the other is nearest to a curved one with so much less a slope


@dataclass
class Shape:
    """A term of a source with its trapezoid, which may be moved where it stands for a curve."""

    name: str
    degrees: object
    trapezoid: Trapezoid
    is_curve: bool

    def middle(self, span):
        b, c = self.trapezoid.b, self.trapezoid.c
        return max(span[0], min(span[1], (b + c) / 2))


def crossing(left, right, low, high):
    """Where the degrees of two curves are equal, the left one falling and the right one rising from low to high."""
    for _ in range(60):
        middle = (low + high) / 2
        low, high = (middle, high) if left(middle) >= right(middle) else (low, middle)
    return (low + high) / 2


def reach(left, right, at, step):
    """How far from a crossing straight sides have to end, so that the mean of two numbers passes over as steeply as
    with the curves; None where only one is above 0 there."""
    degree = (left(at) + right(at)) / 2
    if degree <= FIRES:
        return None
    steep = (right(at + step) - right(at - step) + left(at - step) - left(at + step)) / (2 * step)
    return 2 * degree / steep if steep > 0 else None


def widened(shape, span, foot, falls):
    """The shape with the foot of a side moved outwards; the side turns about its middle, up to the curve's top."""
    it = shape.trapezoid
    width = span[1] - span[0]
    first, last = map(float, tops_of(shape.degrees, span[0] - width, span[1] + width))
    if falls:
        moved = replace(it, c=max(it.b, rounded(max(last, float(it.c + it.d - foot)))), d=foot)
    else:
        moved = replace(it, b=min(it.c, rounded(min(first, float(it.a + it.b - foot)))), a=foot)
    return replace(shape, trapezoid=moved)


def met(left, right, span):
    """Two neighbours, so that they overlap where their sources do, and whether one was changed."""
    p, q = left.trapezoid, right.trapezoid
    if p.d is None or q.a is None or not (left.is_curve or right.is_curve) or p.c >= q.b:
        return left, right, False
    low, high = float(max(p.c, span[0])), float(min(q.b, span[1]))
    if not low < high:
        return left, right, False
    at = crossing(left.degrees, right.degrees, low, high)
    found = reach(left.degrees, right.degrees, at, (high - low) * 1e-4)
    if found is None or float(p.d - q.a) >= 2 * found:
        return left, right, False
    half = max(WIDER * found, float(LEAST_OVERLAP * (span[1] - span[0])))
    end, begin = rounded(min(at + half, high)), rounded(max(at - half, low))
    was = (p, q)
    if left.is_curve and end > p.d:
        left = widened(left, span, end, True)
    if right.is_curve and begin < q.a:
        right = widened(right, span, begin, False)
    return left, right, (left.trapezoid, right.trapezoid) != was


def overlapping(shapes, span):
    """The shapes in their order, and pairs of the names of those that were widened."""
    order = sorted(range(len(shapes)), key=lambda k: shapes[k].middle(span))
    found, pairs = list(shapes), []
    for k, other in zip(order, order[1:]):
        found[k], found[other], is_changed = met(found[k], found[other], span)
        if is_changed:
            pairs.append((found[k].name, found[other].name))
    return found, pairs
