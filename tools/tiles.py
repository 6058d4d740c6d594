"""A surface in tiles, over whose edges its answers may jump, and the contours of each tile."""
from dataclasses import dataclass

from fcl import answer_of, literals, strengths_of

NEAR = 1e-9  # of a part: so far from its ends an answer is taken there


@dataclass
class Part:
    """What is between two places of an input's range."""

    variable: object
    low: float
    high: float

    @property
    def part(self):
        return (self.high - self.low) / self.variable.width

    def middles(self, count):
        return [self.low + (k + 0.5) * (self.high - self.low) / count for k in range(count)]

    def ends(self, count):
        """So many steps from one end to the other, both just inside."""
        width = self.high - self.low
        return [self.low + min(max(k / count, NEAR), 1 - NEAR) * width for k in range(count + 1)]


@dataclass
class Tile:
    """The part of a surface over a part of each of two inputs. Either some rule fires in all of it, or none does."""

    block: object
    output: object
    first: Part
    second: Part
    fires: bool = True

    def answers(self, across, up):
        """A row for each number of the second input, from below, with the answer at each number of the first."""
        first, second = self.block.inputs
        return [[answer_at(self.block, self.output, {first.name: x, second.name: y}) for x in across] for y in up]

    def grid(self, wide, high):
        across, up = self.first.ends(wide), self.second.ends(high)
        return across, up, self.answers(across, up)

    def contours(self, grid, level):
        """The courses along which a level is the answer."""
        across, up, rows = grid
        for chain in chains(contour_segments(rows, level)):
            yield [point_of(it, rows, level, across, up) for it in chain]


# ---------------------------------------------------------------------------------------------------------------------
# Where tiles end.


def answer_at(block, output, sample):
    """An answer in binary fractions, rounded, since a sum of these differs a little from one Python to another."""
    answer = answer_of(output, strengths_of(block, sample), None)
    return None if answer is None else round(answer, 9)


def rules_of(block, output):
    return [it for it in block.rules if any(name == output.name for name, _ in it.conclusions)]


def corners_of(variable, terms):
    """The range's ends, and the places of points between them."""
    low, high = variable.span
    return sorted({low, high, *(x for it in terms for x, _ in variable.terms[it] if low < x < high)})


def jumps_of(variable, terms):
    """The places at which a term goes up or down at once."""
    sides = [side for it in terms for side in zip(variable.terms[it], variable.terms[it][1:])]
    return {x for (x, y), (other, end) in sides if x == other and y != end}


def fires(block, output, sample):
    """Whether some rule that concludes the output does."""
    rules = rules_of(block, output)
    return any(strength for rule, strength in strengths_of(block, sample) if rule in rules)


def edges_of(block, output):
    """For each input the places where an output's answer may jump: where a term does that its rules look at, and where
    a part in which one fires meets one in which none does; with the range's ends."""
    used = {it.name: set() for it in block.inputs}
    for rule in rules_of(block, output):
        for name, term in literals(rule.condition):
            used[name].add(term)
    corners = {it.name: corners_of(it, used[it.name]) for it in block.inputs}
    found = {it.name: {*it.span} | {x for x in jumps_of(it, used[it.name]) if it.span[0] < x < it.span[1]}
             for it in block.inputs}
    names = list(corners)
    for name in names:
        others = [it for it in names if it != name]
        for across in [dict(zip(others, it)) for it in middles_of([corners[it] for it in others])]:
            before = None
            for low, high in zip(corners[name], corners[name][1:]):
                here = fires(block, output, {**across, name: (low + high) / 2})
                if before not in (None, here):
                    found[name].add(low)
                before = here
    return [sorted(found[name]) for name in names]


def middles_of(corners):
    """The middles between the places of one input, or nothing at all of none."""
    return [((low + high) / 2,) for low, high in zip(corners[0], corners[0][1:])] if corners else [()]


def parts_of(block, output, variable):
    """The parts of the range of a block's only input."""
    edges = edges_of(block, output)[block.inputs.index(variable)]
    return [Part(variable, low, high) for low, high in zip(edges, edges[1:])]


def tiles_of(block, output):
    """The tiles of an output's surface over two inputs; over one, of its curve, without a second part."""
    edges = edges_of(block, output)
    firsts, seconds = ([Part(it, low, high) for low, high in zip(places, places[1:])]
                       for it, places in zip([*block.inputs, None][:2], [*edges, (0, 1)][:2]))
    for first in firsts:
        for second in seconds:
            sample = {it.variable.name: (it.low + it.high) / 2 for it in (first, second) if it.variable}
            yield Tile(block, output, first, second, fires(block, output, sample))


# ---------------------------------------------------------------------------------------------------------------------
# Contours.


def crossings(corners, level):
    """Where a level crosses the sides of a square, as pairs of sides; corners go round from the lower left."""
    sides = [k for k in range(4) if (corners[k] < level) != (corners[(k + 1) % 4] < level)]
    return [(sides[k], sides[k + 1]) for k in range(0, len(sides), 2)]


def contour_segments(rows, level):
    """The pieces of a contour, from a point on a grid's edge to another; a point is named by its edge."""
    for j in range(len(rows) - 1):
        for i in range(len(rows[0]) - 1):
            at = [(i, j), (i + 1, j), (i + 1, j + 1), (i, j + 1)]
            corners = [rows[y][x] for x, y in at]
            if None not in corners:
                for pair in crossings(corners, level):
                    yield [tuple(sorted((at[k], at[(k + 1) % 4]))) for k in pair]


def chains(segments):
    """Pieces that share their ends, joined."""
    ends = {}
    for segment in segments:
        for it in segment:
            ends.setdefault(it, []).append(segment)
    left = {id(segment): segment for segments_ in ends.values() for segment in segments_}
    for begin in sorted(ends, key=lambda it: (len(ends[it]), it)):
        chain = [begin]
        while True:
            segment = next((it for it in ends[chain[-1]] if id(it) in left), None)
            if segment is None:
                break
            del left[id(segment)]
            chain.append(segment[1] if segment[0] == chain[-1] else segment[0])
        if len(chain) > 1:
            yield chain


def point_of(edge, rows, level, across, up):
    """Where on an edge of the grid the level is."""
    (i, j), (p, q) = edge
    a, b = rows[j][i], rows[q][p]
    part = (level - a) / (b - a)
    return across[i] + part * (across[p] - across[i]), up[j] + part * (up[q] - up[j])
