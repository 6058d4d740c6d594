"""What a cell's error is made of: how far the firmware's answer is from FCL's, step by step."""
from dataclasses import dataclass
from fractions import Fraction

from cells import cell_of, span_of, weight_byte
from fcl import answer_of, strengths_of
from masses import TightCell

NAMES = ("cell", "truncation", "slopes", "weights", "output")


@dataclass
class Losses:
    """The parts of an error, in millionths of the range, by their names; one that goes the other way is below 0."""

    bytes: list
    parts: dict

    def told(self):
        return ", ".join(f"{name} {part}" for name, part in self.parts.items())


def answers_of(cell, output):
    """FCL's answer at the low end of the cell, then by the terms' tables, then with the weights' bytes."""
    block = cell.block
    sample = {it.name: cell_of(it, byte)[0] for it, byte in zip(block.inputs, cell.bytes)}
    yield answer_of(output, strengths_of(block, sample), None)
    graded = [(rule, Fraction(span_of(rule.condition, cell.literals)[2], 255)) for rule in block.rules]
    yield answer_of(output, [(rule, grade * rule.weight) for rule, grade in graded], None)
    weighted = [(rule, int(grade * 255) * (weight_byte(rule.weight) + 1) // 256) for rule, grade in graded]
    yield answer_of(output, [(rule, Fraction(byte, 255)) for rule, byte in weighted], None)


def losses_of(block, output, bytes_, parts=1):
    """The parts of the error on a cell, or None where it has none: half of what the exact answers there differ by, and
    then each step from their middle to what the firmware's answer stands for."""
    cell = TightCell(block, bytes_, parts)
    reach = None if cell.is_silent(output) else cell.reach(output)
    if reach is None:
        return None
    middle = (reach.low + reach.high) / 2
    steps, before = [], middle
    for answer in (*answers_of(cell, output), reach.value):
        answer = before if answer is None else answer
        steps.append(answer - before)
        before = answer
    sign = 1 if reach.value >= middle else -1
    found = [reach.half, *(sign * it for it in steps)]
    return Losses(bytes_, {name: round(it / output.width * 10**6) for name, it in zip(NAMES, found)})
