"""How far a block is from the engine of another tool that it was made of, at samples; and singletons that are fitted to
the engine's answers."""
import os
import random
import shutil
import subprocess
import tempfile
from dataclasses import dataclass, replace
from fractions import Fraction
from math import isnan

from cells import value_of
from fcl import Rule, spell, truth
from fuzz12 import read, write
from inference import RESOLUTION, Inference, degrees_of, in_doubles
from model import Model
from shapes import Course, rounded

SAMPLES = 2000
LEAST_WEIGHT = Fraction(2, 256)
MOST_RATIO = 2  # of the areas of output terms, up to which COGS may be near to a centre of areas
PULL = 1e-4  # of singletons to what they were, where few samples count on them
DIGITS = 6  # of a percentage: fuzzylite counts in doubles in another order
LITTLE = 0.05  # in percent of the range: so much nearer is to come what takes another number's place
ROUNDS = 8  # of fitting, where a singleton is beyond the range


def samples_for(engine, spans, count):
    """Rows of four places over the ranges, with a number for each input of the engine; an input alone goes through its
    range evenly."""
    chance = random.Random(1)
    if len(engine.inputs) == 1:
        (low, high), = spans
        return [[rounded(low + (high - low) * Fraction(k, count - 1))] for k in range(count)]
    return [[rounded(low + (high - low) * Fraction(chance.randint(0, 10**6), 10**6)) for low, high in spans]
            for _ in range(count)]


def fuzzylites(engine, text, rows):
    """What fuzzylite answers to rows: a list for each output of the engine, nan where it has no answer; None where it
    is not there, or doesn't take the text."""
    if shutil.which("fuzzylite") is None:
        return None
    with tempfile.TemporaryDirectory() as folder:
        data, out = (os.path.join(folder, name) for name in ("samples.fld", "out.fld"))
        write(data, "".join(" ".join(f"{float(it):.4f}" for it in row) + "\n" for row in rows))
        words = ["-i", text, "-if", engine.kind, "-d", data, "-o", out, "-of", "fld", "-dinputs", "false"]
        done = subprocess.run(["fuzzylite", *words, "-decimals", "9"], capture_output=True, check=False)
        if done.returncode or not os.path.exists(out):
            return None
        lines = [line.split() for line in read(out).splitlines()[1:]]
    columns = list(zip(*([float(it) for it in line] for line in lines)))
    return columns if len(columns) == len(engine.outputs) and len(lines) == len(rows) else None


@dataclass
class Difference:
    """Of an output's answers, in percent of its range: at worst, in the mean, and the sample of the worst."""

    worst: float
    mean: float
    row: list

    def told(self, inputs):
        at = ", ".join(f"{name} {spell(x)}" for name, x in zip(inputs, self.row))
        place = f" (at {at})" if self.worst >= LITTLE else ""
        return f"at worst {self.worst:.1f}{place}, in the mean {self.mean:.1f}"


class Comparison:
    """The answers of an engine and what an importer made of it at the same samples."""

    def __init__(self, importer, text, count=SAMPLES):
        engine = importer.engine
        self.spans = [importer.spans.get(it.name.lower(), (Fraction(0), Fraction(1))) for it in engine.inputs]
        self.rows = samples_for(engine, self.spans, count)
        enabled = [k for k, it in enumerate(engine.inputs) if it.is_enabled]
        self.inputs = [engine.inputs[k].name for k in enabled]
        self.places = [[row[k] for k in enabled] for row in self.rows]
        self.sources = {importer.names[it.name.lower()]: it for it in importer.targets}
        answers = fuzzylites(engine, text, self.rows) if engine.adds else None
        self.by = "fuzzylite" if answers else "the importer's own inference"
        if answers:
            self.theirs = {it.name: column for it, column in zip(engine.outputs, answers)}
        else:
            inference = Inference(engine, {self.sources[it.name].name for it in importer.block.outputs})
            found = [inference.answers([float(it) for it in row]) for row in self.rows]
            self.theirs = {it.name: [row[it.name] for row in found] for it in engine.outputs}

    def samples(self, block):
        return [dict(zip((it.name for it in block.inputs), row)) for row in self.places]

    def masses(self, block):
        """For each sample and output the masses of its terms, in their order, in doubles."""
        courses = {(it.name, term): (k, in_doubles(Course(points), 1)) for k, it in enumerate(block.inputs)
                   for term, points in it.terms.items()}
        rules = [(it.condition, float(it.weight), it.conclusions) for it in block.rules]
        places = [[(output.name, term) for term in output.terms] for output in block.outputs]
        for row in self.places:
            row = [float(it) for it in row]
            degrees = {pair: degree(row[k]) for pair, (k, degree) in courses.items()}
            found = {}
            for condition, weight, conclusions in rules:
                strength = truth(condition, degrees) * weight
                for it in conclusions:
                    found[it] = max(found.get(it, 0.0), strength)
            yield [[found.get(it, 0.0) for it in some] for some in places]

    @staticmethod
    def answers(block, masses):
        """The answers of each output to all samples, one after the other."""
        for k, output in enumerate(block.outputs):
            before, ours = float(output.span[0]), []
            numbers = [float(it) for it in output.terms.values()]
            for here in (it[k] for it in masses):
                total = sum(here)
                if total:
                    before = sum(at * mass for at, mass in zip(numbers, here)) / total
                elif output.default is not None:
                    before = float(output.default)
                ours.append(before)
            yield ours

    def difference(self, output, ours):
        """Of an output, at the samples at which the source has an answer; None where it has none at all."""
        parts = [(round(100 * abs(a - b) / float(output.width), DIGITS), k)
                 for k, (a, b) in enumerate(zip(self.theirs[self.sources[output.name].name], ours)) if not isnan(a)]
        if not parts:
            return None
        worst, k = max(parts, key=lambda it: it[0])
        return Difference(worst, sum(it for it, _ in parts) / len(parts), self.places[k])

    def of_block(self, block, masses):
        """The difference of each output."""
        return [self.difference(*it) for it in zip(block.outputs, self.answers(block, masses))]

    def of_firmware(self, block):
        model = Model(block)
        answers = list(zip(*(list(model.answers(it)) for it in self.samples(block))))
        return [self.difference(output, [float(value_of(output, it)) for it in column])
                for output, column in zip(block.outputs, answers)]

    def fitted(self, block, masses):
        """The block with the singletons that are nearest to the source by least squares, of each output that comes
        nearer with them in the mean."""
        outputs = []
        for k, output in enumerate(block.outputs):
            theirs = self.theirs[self.sources[output.name].name]
            parts = [([it / sum(here) for it in here], there)
                     for here, there in zip((it[k] for it in masses), theirs) if sum(here) and not isnan(there)]
            outputs.append(replace(output, terms=fitted_terms(output, parts)) if parts else output)
        found = replace(block, outputs=outputs)
        both = zip(self.of_block(block, masses), self.of_block(found, masses))
        is_nearer = [it is not None and new.mean < it.mean - LITTLE for it, new in both]
        return replace(block, outputs=[new if is_so else it
                                       for it, new, is_so in zip(block.outputs, outputs, is_nearer)])


# ---------------------------------------------------------------------------------------------------------------------
# Least squares.


def solved(matrix, right):
    """The solution of linear equations with a symmetric, positive matrix."""
    size = len(right)
    rows = [[*line, value] for line, value in zip(matrix, right)]
    for k in range(size):
        pivot = max(range(k, size), key=lambda it: abs(rows[it][k]))
        rows[k], rows[pivot] = rows[pivot], rows[k]
        for other in range(k + 1, size):
            factor = rows[other][k] / rows[k][k]
            rows[other] = [a - factor * b for a, b in zip(rows[other], rows[k])]
    found = [0.0] * size
    for k in reversed(range(size)):
        found[k] = (rows[k][size] - sum(rows[k][it] * found[it] for it in range(k + 1, size))) / rows[k][k]
    return found


def nearest(parts, old, held):
    """The numbers with the least sum of squares, of which some are held."""
    free = [k for k in range(len(old)) if k not in held]
    pull = PULL * len(parts)
    matrix = [[sum(shares[a] * shares[b] for shares, _ in parts) + pull * (a == b) for b in free] for a in free]
    right = [sum(shares[a] * (there - sum(shares[it] * at for it, at in held.items())) for shares, there in parts)
             + pull * old[a] for a in free]
    return {**held, **dict(zip(free, solved(matrix, right)))}


def fitted_terms(output, parts):
    """The terms with the nearest numbers that lie in the range."""
    low, high = map(float, output.span)
    old, held = [float(it) for it in output.terms.values()], {}
    for _ in range(ROUNDS):
        found = nearest(parts, old, held)
        beyond = {k: min(max(at, low), high) for k, at in found.items() if not low <= at <= high}
        held.update(beyond)
        if not beyond:
            break
    return {term: rounded(min(max(found[k], low), high)) for k, term in enumerate(output.terms)}


# ---------------------------------------------------------------------------------------------------------------------
# Areas.


def areas_of(variable, used):
    """The areas of an output's terms that rules conclude, by their names in small letters; {} where its method goes by
    none."""
    method = variable.method
    if not method.startswith(("cog", "coa", "centroid", "bisector")) or method.startswith("cogs"):
        return {}
    low, high = map(float, variable.span)
    steps = 10 * RESOLUTION
    places = [low + (high - low) * (k + 0.5) / steps for k in range(steps)]
    found = {}
    for it in variable.terms:
        degrees = degrees_of(it)
        if degrees is not None and it.name.lower() in used:
            found[it.name.lower()] = sum(map(degrees, places)) * (high - low) / steps
    return {name: area for name, area in found.items() if area > 0}


def unequal_areas(importer):
    """Each output with the areas of its terms, where these are so different that COGS can't be near to a centre of
    areas."""
    used = {(name.lower(), term.lower()) for rule in importer.engine.rules for name, _, term in rule.conclusions}
    for it in importer.targets:
        areas = areas_of(it, {term for name, term in used if name == it.name.lower()})
        if areas and round(max(areas.values()) / min(areas.values()), 2) > MOST_RATIO:
            yield it, areas


def parts_of_area(importer):
    """For each output whose areas are so different, and each of its terms, which part of the greatest its area is."""
    names = importer.names
    return {(names[it.name.lower()], names[term]): max(LEAST_WEIGHT, rounded(area / max(areas.values())))
            for it, areas in unequal_areas(importer) for term, area in areas.items()}


def weighed(importer, block):
    """The block with rules that weigh as the areas of what they conclude, where these are so different."""
    parts, rules = parts_of_area(importer), []
    for rule in block.rules:
        groups = {}
        for it in rule.conclusions:
            groups.setdefault(rounded(rule.weight * parts.get(it, 1)), []).append(it)
        rules += [Rule(rule.condition, conclusions, weight) for weight, conclusions in groups.items()]
    return replace(block, rules=rules)
