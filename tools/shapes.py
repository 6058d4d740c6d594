"""The shapes of terms that other tools write, as courses, as trapezoids near to them, and as numbers."""
from fractions import Fraction
from math import cos, exp, pi

from cells import Trapezoid
from fcl import degree

STEPS = 2000


def sigmoid(x, inflection, slope):
    return 1 / (1 + exp(-min(max(slope * (x - inflection), -500), 500)))


def s_shape(x, start, end):
    part = min(max((x - start) / (end - start), 0), 1)
    return 2 * part * part if part < 0.5 else 1 - 2 * (1 - part) ** 2


def concave(x, inflection, end):
    if (end - x) * (end - inflection) <= 0:
        return 1.0
    return (end - inflection) / (2 * end - inflection - x)


def gaussian(x, mean, deviation):
    return exp(-((x - mean) ** 2) / (2 * deviation**2))


def cosine(x, center, width):
    return 0.5 * (1 + cos(2 * pi / width * (x - center))) if abs(x - center) < width / 2 else 0.0


def gaussian_product(x, left, deviation, right, other):
    return (gaussian(x, left, deviation) if x < left else 1.0) * (gaussian(x, right, other) if x > right else 1.0)


# The curves of fuzzylite by their names.
CURVES = {
    "bell": lambda x, center, width, slope: 1 / (1 + abs((x - center) / width) ** (2 * slope)),
    "concave": concave,
    "cosine": cosine,
    "gaussian": gaussian,
    "gaussianproduct": gaussian_product,
    "pishape": lambda x, a, b, c, d: s_shape(x, a, b) * (1 - s_shape(x, c, d)),
    "sigmoid": sigmoid,
    "sigmoiddifference": lambda x, a, up, down, b: abs(sigmoid(x, a, up) - sigmoid(x, b, down)),
    "sigmoidproduct": lambda x, a, up, down, b: sigmoid(x, a, up) * sigmoid(x, b, down),
    "spike": lambda x, center, width: exp(-abs(10 / width * (x - center))),
    "sshape": s_shape,
    "zshape": lambda x, a, b: 1 - s_shape(x, a, b),
}
# How many numbers a shape has.
COUNTS = {"triangle": 3, "trapezoid": 4, "rectangle": 2, "ramp": 2, "constant": 1,
          **{name: curve.__code__.co_argcount - 1 for name, curve in CURVES.items()}}
# The other names that jFuzzyLogic has, with the order of their numbers in fuzzylite's.
OTHERS = {
    "trian": ("triangle", (0, 1, 2)), "trape": ("trapezoid", (0, 1, 2, 3)), "gauss": ("gaussian", (0, 1)),
    "gauss2": ("gaussianproduct", (0, 1, 2, 3)), "gbell": ("bell", (2, 0, 1)), "sigm": ("sigmoid", (1, 0)),
    "dsigm": ("sigmoiddifference", (1, 0, 2, 3)),
}
HEDGES = {
    "any": lambda y: 1.0,
    "extremely": lambda y: 2 * y * y if y <= 0.5 else 1 - 2 * (1 - y) ** 2,
    "seldom": lambda y: (y / 2) ** 0.5 if y <= 0.5 else 1 - ((1 - y) / 2) ** 0.5,
    "somewhat": lambda y: y**0.5,
    "very": lambda y: y * y,
}


def corners(shape, numbers):
    """The corners of a shape with straight sides, or None."""
    if shape == "triangle" and len(numbers) == 3:
        return Trapezoid(numbers[0], numbers[1], numbers[1], numbers[2])
    if shape == "trapezoid" and len(numbers) == 4:
        return Trapezoid(*numbers)
    if shape == "rectangle" and len(numbers) == 2:
        return Trapezoid(numbers[0], *numbers, numbers[1])
    if shape == "discrete":
        return corners_of_points(pairs(numbers))
    if shape == "ramp" and len(numbers) == 2:
        start, end = numbers
        return Trapezoid(start, end, end, None) if start < end else Trapezoid(None, end, end, start)
    return None


def without_straight(points):
    """The points without those that lie on the line between their neighbours."""
    found = []
    for x, y in points:
        while len(found) > 1:
            (a, start), (b, middle) = found[-2:]
            if not a < b < x or (middle - start) * (x - a) != (y - start) * (b - a):
                break
            found.pop()
        found.append((x, y))
    return found


def corners_of_points(points):
    """The corners of a course of points, or None where it has other degrees, or more than one top."""
    points = without_straight(points)
    degrees = [y for _, y in points]
    ones = [k for k, y in enumerate(degrees) if y == 1]
    if not ones or set(degrees) - {0, 1} or set(degrees[ones[0]:ones[-1] + 1]) != {1}:
        return None
    a = points[ones[0] - 1][0] if ones[0] else None
    d = points[ones[-1] + 1][0] if ones[-1] + 1 < len(points) else None
    return Trapezoid(a, points[ones[0]][0], points[ones[-1]][0], d)


def pairs(numbers):
    return list(zip(numbers[::2], numbers[1::2]))


class Course:
    """The degree at each number, by points or by a curve."""

    def __init__(self, points=None, curve=None):
        self.points, self.curve = points, curve

    def __call__(self, x):
        return self.curve(float(x)) if self.points is None else float(degree(self.points, x))

    def breaks(self, low, high):
        """The range's ends and the places of points between them."""
        return sorted({low, high, *(x for x, _ in self.points if low < x < high)})


def course(shape, numbers):
    """The course of a shape, or None where there is no such shape."""
    exact = corners(shape, numbers)
    if exact:
        ends = ((exact.a, 0), (exact.b, 1), (exact.c, 1), (exact.d, 0))
        return Course([it for it in ends if it[0] is not None])
    if shape in ("points", "discrete"):
        return Course(numbers if shape == "points" else pairs(numbers))
    curve, values = CURVES.get(shape), [float(it) for it in numbers]
    return curve and Course(curve=lambda x: curve(x, *values))


def hedged(degrees, hedges):
    """A course under hedges, the last of which comes first."""
    def under_hedges(x):
        y = degrees(x)
        for it in reversed(hedges):
            y = HEDGES[it](y)
        return y
    return Course(curve=under_hedges)


def crossing(degrees, start, end, level):
    """The place from start to end, the degree at start being above the level, where it first goes below, or None."""
    step = (end - start) / STEPS
    above = start
    for k in range(1, STEPS + 1):
        x = start + k * step
        if degrees(x) < level:
            for _ in range(60):
                middle = (above + x) / 2
                above, x = (middle, x) if degrees(middle) >= level else (above, middle)
            return above
        above = x
    return None


def side(degrees, top, end):
    """The foot and the head of the straight side that goes through the degrees 3/4 and 1/4 as the course does."""
    upper, lower = crossing(degrees, top, end, 0.75), crossing(degrees, top, end, 0.25)
    if upper is None or lower is None:
        return None, None
    return lower + (lower - upper) / 2, upper - (lower - upper) / 2


def rounded(x):
    return None if x is None else Fraction(round(x * 10000), 10000)


def refined(degrees, low, high):
    """The place from low to high at which a course that rises and then falls is greatest."""
    for _ in range(80):
        third = (high - low) / 3
        low, high = (low + third, high) if degrees(low + third) < degrees(high - third) else (low, high - third)
    return (low + high) / 2


def edge(degrees, inside, outside, level):
    """The place between two at which a course goes below a level."""
    for _ in range(60):
        middle = (inside + outside) / 2
        inside, outside = (middle, outside) if degrees(middle) >= level else (inside, middle)
    return inside


def tops_of(degrees, low, high, near=1e-12):
    """The first and the last place of a range at which a course is greatest; of a curve, or near to that."""
    if degrees.points is not None:
        places = {x: degree(degrees.points, x) for x in degrees.breaks(low, high)}
        tops = [x for x, y in places.items() if y == max(places.values())]
        return tops[0], tops[-1]
    low, step = float(low), (float(high) - float(low)) / STEPS
    places = [*(low + k * step for k in range(STEPS)), float(high)]
    best = max(places, key=degrees)
    places = sorted({*places, refined(degrees, max(low, best - step), min(places[-1], best + step))})
    level = max(map(degrees, places)) - near
    inside = [k for k, x in enumerate(places) if degrees(x) >= level]
    first, last = inside[0], inside[-1]
    return (places[0] if first == 0 else edge(degrees, places[first], places[first - 1], level),
            places[-1] if last == len(places) - 1 else edge(degrees, places[last], places[last + 1], level))


def fitted(degrees, low, high):
    """The trapezoid near to a course over a range; its sides and its top may reach beyond."""
    low, width = float(low), float(high) - float(low)
    first, last = map(float, tops_of(degrees, low - width, low + 2 * width))
    a, b = side(degrees, first, low - 2 * width)
    d, c = side(degrees, last, low + 3 * width)
    b, c = first if b is None else min(b, last), last if c is None else max(c, first)
    if b > c:
        b = c = (b + c) / 2
    return Trapezoid(*map(rounded, (a, b, c, d)))


def area_of(points, start, end):
    """The area, and its moment about 0, below a course without a point between two places."""
    third = (end - start) / 3
    left, right = degree(points, start + third), degree(points, end - third)
    first, last = 2 * left - right, 2 * right - left
    area = (first + last) / 2 * (end - start)
    return area, (start + end) / 2 * area + (last - first) * (end - start) ** 2 / 12


def centroid(degrees, low, high):
    """The middle of the area below a course over a range; of a curve, by small steps."""
    if degrees.points is not None:
        breaks = degrees.breaks(low, high)
        parts = [area_of(degrees.points, *it) for it in zip(breaks, breaks[1:])]
    else:
        width = (float(high) - float(low)) / (10 * STEPS)
        places = [float(low) + (k + 0.5) * width for k in range(10 * STEPS)]
        parts = [(y, x * y) for x, y in ((x, degrees(x)) for x in places)]
    area = sum(it for it, _ in parts)
    return rounded(sum(it for _, it in parts) / area) if area else None


def middle_of_top(degrees, low, high):
    """The middle of the places at which a course is greatest over a range."""
    return rounded(sum(tops_of(degrees, low, high)) / 2)


def first_of_top(degrees, low, high):
    return rounded(tops_of(degrees, low, high)[0])


def last_of_top(degrees, low, high):
    return rounded(tops_of(degrees, low, high)[1])


def end_of_rise(degrees, low, high):
    """Where a course that only rises, or only falls, comes to 1, or near to it; else the middle of its top."""
    low, high = float(low), float(high)
    is_straight = max(map(degrees, (low, high))) == 1
    first, last = map(float, tops_of(degrees, low, high, 1e-9 if is_straight else 0.01))
    if last == high and first > low:
        return rounded(first)
    return rounded(last) if first == low and last < high else middle_of_top(degrees, low, high)
