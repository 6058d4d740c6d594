"""The cells of an output with the greatest Bounds: found in binary fractions, and computed exactly."""
from itertools import islice, product

from cells import BILLION, Cell, cell_of, literal_on, nearest_byte, offset, weight_byte, weight_errors
from fcl import literals, spell
from fuzz12 import NO_LEAF, Wrong
from masses import TightCell

MOST_INPUTS = 2
NEAR = 1e-6  # of a Bound in parts of the range: so near a binary fraction is
NONE = NO_LEAF / 10**6
MOST_GROUPS = 200  # that are computed exactly behind those that were wanted


class Rows:
    """For each byte of an input its terms' degrees, grades and errors, in one row: four numbers for each term. Bytes
    with the same row stand together."""

    def __init__(self, variable):
        self.places = {(variable.name, term): 4 * k for k, term in enumerate(variable.terms)}
        self.groups = {}
        for byte in range(256):
            found = [literal_on(variable, points, byte) for points in variable.terms.values()]
            row = tuple(part for it in found for part in (float(it.low), float(it.high), it.grade, it.error))
            self.groups.setdefault(row, []).append(byte)

    def by_byte(self):
        """The row of each byte."""
        found = {byte: row for row, bytes_ in self.groups.items() for byte in bytes_}
        return [found[byte] for byte in range(256)]


class Spelled:
    """The strengths of the rules of an output as an expression of Python, over a row for each input, `r0`, `r1` and so
    on: it is evaluated for each cell, and this is the quick way."""

    def __init__(self, block, output, rows):
        self.places = {key: f"r{k}[{{}} + {place}]" for k, it in enumerate(rows) for key, place in it.places.items()}
        rules, self.terms = [], []
        for rule in block.rules:
            concluded = [term for name, term in rule.conclusions if name == output.name]
            if concluded:
                rules.append(self.rule(rule))
                self.terms.append(concluded)
        names = ", ".join(f"r{k}" for k in range(len(rows)))
        self.strengths = eval(f"lambda {names}: [{', '.join(rules)}]")  # pylint: disable=eval-used

    def rule(self, rule):
        low, high, grade = self.truth(rule.condition)
        errors = self.called("max", [self.places[it].format(3) for it in dict.fromkeys(literals(rule.condition))])
        weight, byte = float(rule.weight), weight_byte(rule.weight) + 1
        return f"({low} * {weight}, {high} * {weight}, {grade} * {byte} // 256, {errors} + {sum(weight_errors(rule))})"

    @staticmethod
    def called(name, parts):
        return f"{name}({', '.join(parts)})" if len(parts) > 1 else parts[0]

    def truth(self, condition):
        """The least and the greatest truth, and the one over bytes."""
        kind, *parts = condition
        if kind == "is":
            return [self.places[tuple(parts)].format(k) for k in range(3)]
        inner = [self.truth(it) for it in parts]
        if kind == "not":
            low, high, grade = inner[0]
            return f"(1 - {high})", f"(1 - {low})", f"(255 - {grade})"
        return [self.called("min" if kind == "and" else "max", list(it)) for it in zip(*inner)]


class Tight:
    """The cell's error of an output, in parts of its range."""

    def __init__(self, output, terms, parts):
        order = sorted(output.terms, key=output.terms.get)
        self.terms = [[order.index(term) for term in it] for it in terms]
        self.places = [float(output.terms[it]) for it in order]
        self.bytes = [nearest_byte(output, output.terms[it]) for it in order]
        self.low, self.width, self.parts = float(output.span[0]), float(output.width), parts
        has_default = output.default is not None
        self.default = float(output.default) if has_default else None
        self.rest = nearest_byte(output, output.default) if has_default else None
        self.silent = float(offset(output, output.default)) if has_default else 0

    def masses(self, strengths):
        """By the output's terms in the order of their places: the least, the greatest, and the one over bytes."""
        lows, highs, grades = [0] * len(self.places), [0] * len(self.places), [0] * len(self.places)
        for (low, high, grade, _), terms in zip(strengths, self.terms):
            for k in terms:
                lows[k], highs[k], grades[k] = max(lows[k], low), max(highs[k], high), max(grades[k], grade)
        return lows, highs, grades

    def bound(self, strengths):
        lows, highs, grades = self.masses(strengths)
        total = sum(grades)
        if total == 0 and not any(highs):
            return self.silent
        if self.default is None and (total == 0 or not any(lows)):
            return NONE
        over = sum(map(int.__mul__, self.bytes, grades))
        answer = int(self.parts * (over / total if total else self.rest) + 1e-9) / (255 * self.parts)
        value = self.low + answer * self.width
        up, down = list(zip(self.places, lows, highs)), list(zip(self.places, lows, highs))[::-1]
        return max(self.end(down, max) - value, value - self.end(up, min)) / self.width

    def end(self, masses, choose):
        """The least or the greatest exact answer, where the masses of the first terms are the greatest and those of the
        others the least."""
        total, moment = sum(it[1] for it in masses), sum(at * low for at, low, _ in masses)
        best = moment / total if total else self.default
        for at, low, high in masses:
            total, moment = total + high - low, moment + at * (high - low)
            if total:
                best = choose(best, moment / total)
        return best


class Plain:
    """The Bound of the best leaf of an output, in parts of its range."""

    def __init__(self, output, terms, parts):
        self.terms = terms
        self.rest = float(max(offset(output, it) for it in output.terms.values())) + 1 / (255 * parts)
        self.silent = float(offset(output, output.default)) if output.default is not None else 0

    def bound(self, strengths):
        errors, best, still = {}, 0, True
        for (low, high, grade, error), terms in zip(strengths, self.terms):
            still = still and high == 0 and grade == 0
            best = max(best, int(255 * low + 1e-9) if grade else 0)
            for term in terms:
                errors[term] = max(errors.get(term, 0), error)
        if still:
            return self.silent
        return min(1, sum(errors.values()) * 255 / best / BILLION + self.rest) if best else NONE


def worst_cells(block, output, tight, parts, count):
    """So many of the cells with the greatest Bounds, each with it, the greatest first, and of equal ones in the order
    of their bytes."""
    if len(block.inputs) > MOST_INPUTS:
        raise Wrong(f"the worst cells are listed of at most {MOST_INPUTS} inputs")
    rows = [Rows(it) for it in block.inputs]
    spelled = Spelled(block, output, rows)
    measure = (Tight if tight else Plain)(output, spelled.terms, parts)
    groups = [(measure.bound(spelled.strengths(*some)), some) for some in product(*(it.groups for it in rows))]
    groups.sort(key=lambda it: -it[0])
    near, found = MOST_GROUPS, []
    for bound, some in groups:
        if near == 0 or (len(found) >= count and bound < found[count - 1][0] / 10**6 - NEAR):
            break
        near -= len(found) >= count
        places = list(islice(product(*(it.groups[row] for it, row in zip(rows, some))), count))
        exact = (TightCell if tight else Cell)(block, places[0], parts).bound(output)
        found = sorted(found + [(exact, it) for it in places], key=lambda it: (-it[0], it[1]))[:count]
    return found


def cells_told(block, output, tight, parts, count):
    """A line on each of them, as `why` has it."""
    for bound, bytes_ in worst_cells(block, output, tight, parts, count):
        said = "no bound" if bound == NO_LEAF else f"bound {bound}"
        spans = [(it.name, cell_of(it, byte)) for it, byte in zip(block.inputs, bytes_)]
        places = ", ".join(f"{name} from {spell(low)} to {spell(high)}" for name, (low, high) in spans)
        yield f"  cell {' '.join(map(str, bytes_))} {said}: {places}"


def count_of(text):
    """The word behind --cells."""
    if not text.isdigit():
        raise Wrong(f"--cells {text}: a number is wanted")
    return int(text)
