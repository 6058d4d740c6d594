"""The search of the least target of an output, by calls of `certify` or `tcertify`."""
import os
import re
import time
from dataclasses import dataclass

from fcl import Block, Rule, spell_block
from fuzz12 import NO_LEAF, Wrong, read, tell, write
from trees import read_tree

REFUSED = re.compile(r"not reached: cell ([\d ]+) output \d+ bound (\d+)")
# How much more than the floor is asked for, one call after the other, as long as nothing was reached.
STEPS = (1, 1, 1.25, 2)


class Late(Exception):
    """The time that was given is over."""


@dataclass
class Clock:
    """When a search has to end; without a time given it never does."""

    end: float = None

    def left(self):
        return None if self.end is None else self.end - time.monotonic()

    def share(self, parts):
        """The clock of one of so many parts that are still to come."""
        return self if self.end is None else Clock(time.monotonic() + max(0, self.left()) / parts)


def clock_of(seconds):
    return Clock() if seconds is None else Clock(time.monotonic() + seconds)


def seconds_of(text):
    """The word behind --seconds, or None where it is not there."""
    if text is None:
        return None
    try:
        seconds = float(text)
    except ValueError:
        seconds = 0
    if not 0 < seconds < 10**6:
        raise Wrong(f"--seconds {text}: a number of seconds is wanted")
    return seconds


@dataclass
class Found:
    """The least target that was reached, with its certificate, the least that can be, and the cell that holds it."""

    target: int
    text: str
    floor: int
    cell: list  # its bytes, or None where no cell was told
    said: str

    @property
    def is_least(self):
        return self.target is not None and self.target <= self.floor

    @property
    def has_none(self):
        return self.floor == NO_LEAF


class Search:
    """Between what was reached and what was refused. A refused cell's Bound is the new floor, and is asked for next,
    since it often is the least; in turn with it the middle."""

    def __init__(self, program, certify, fcl, folder, clock=Clock(), tell=None):
        self.program, self.certify, self.fcl, self.clock, self.tell = program, certify, fcl, clock, tell
        self.out = os.path.join(folder, "found.cert")
        self.floor, self.cell, self.limited = 0, None, False
        self.ceiling, self.text, self.refused, self.calls = None, None, None, 0
        self.asked_floor = False

    def ask(self, target):
        """Either the ceiling sinks or the floor rises."""
        self.calls += 1
        answer = self.program.call(self.certify, self.fcl, target, self.out, seconds=self.clock.left())
        if answer is None:
            raise Late
        cell = REFUSED.fullmatch(answer.said)
        if answer.status == 0:
            errors = [int(line.split()[2]) for line in answer.lines if line.startswith("error")]
            self.ceiling, self.text = max(errors), read(self.out)
        elif cell:
            self.floor, self.cell, self.refused = int(cell[2]), cell[1].split(), target
        elif answer.said == "not reached: leaf limit":
            self.floor, self.limited, self.refused = target + 1, True, target
        else:
            raise Wrong(f"{self.certify}: {answer.said}")
        if self.tell:
            self.tell(self)

    def next_target(self):
        if self.ceiling is None:
            tries = self.calls - 1
            more = STEPS[tries] if tries < len(STEPS) else 2 ** (2 * (tries - len(STEPS)) + 2)
            return min(1000000, int(max(self.floor, 1000 * (more > 1)) * more))
        self.asked_floor = not self.asked_floor
        return self.floor if self.asked_floor else (self.floor + self.ceiling) // 2

    def done(self):
        return self.floor == NO_LEAF or (self.ceiling is not None and self.floor >= self.ceiling)

    def run(self, most=None):
        """What was found; the cell is the first one that holds it, which `certify` tells below it. With most, nothing
        is looked for where that is not reached."""
        try:
            self.ask(0 if most is None else max(0, most - 1))
            if most is not None and self.ceiling is None and self.floor <= most:
                self.ask(most)
            while not self.done() and (most is None or self.ceiling is not None):
                self.ask(self.next_target())
            if self.floor not in (0, NO_LEAF) and self.refused != self.floor - 1 and not self.limited:
                self.ask(self.floor - 1)
        except Late:
            pass
        return Found(self.ceiling, self.text, self.floor, self.cell, self.said())

    def said(self):
        """What stops the search below the floor."""
        if self.limited:
            return "the leaf limit"
        return f"cell {' '.join(self.cell)}" if self.cell else "nothing: the error is 0"


# ---------------------------------------------------------------------------------------------------------------------
# One output of several.


def alone(block, output):
    """The block with one output, and the numbers of the rules that are left."""
    rules, numbers = [], []
    for number, rule in enumerate(block.rules, start=1):
        conclusions = [it for it in rule.conclusions if it[0] == output.name]
        if conclusions:
            rules.append(Rule(rule.condition, conclusions, rule.weight))
            numbers.append(number)
    return Block(block.name, block.inputs, [output], rules), numbers


def text_of(fcl, block, output, folder):
    """A text in which the output stands alone, and the numbers that its rules have in the whole one."""
    part, numbers = alone(block, output)
    if len(block.outputs) > 1:
        fcl = os.path.join(folder, f"{output.name}.fcl")
        write(fcl, "\n".join(spell_block(part)) + "\n")
    return fcl, numbers


def renumbered(tree, numbers):
    if isinstance(tree, str):
        return tree
    if isinstance(tree, list):
        return [(numbers[rule], k) for rule, k in tree]
    place, byte, *parts = tree
    return (place, byte, *(renumbered(it, numbers) for it in parts))


def tree_of(text, numbers):
    """The version and the tree of an output's certificate, in the numbers of the whole block's rules."""
    version, tree = read_tree(text)
    return version, renumbered(tree, [0] + numbers)


def progress(name):
    """Tells how the search of an output goes."""
    def tell_search(search):
        reached = "nothing reached" if search.ceiling is None else f"{search.ceiling} reached"
        tell("" if search.done() else f"{name}: {search.calls} calls, {reached}, no less than {search.floor}")
    return tell_search
