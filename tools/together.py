"""One certificate for all outputs of a block, made of those of each output alone."""
import os
from dataclasses import dataclass

from fcl import literals
from fuzz12 import Wrong, read, tell
from searching import Found, Late, tree_of
from trees import MOST_LEAVES, fitting, spell_certificate
from worst import Rows

GROWTH = 3, 2  # of the target that is tried next, as long as none fits
NEAR = 64  # the search ends where the least target that fits is known up to such a part


@dataclass
class Alone:
    """An output alone: a text of it, the numbers that its rules have in the block, and what was found."""

    fcl: str
    numbers: list
    found: Found


def share_inputs(block):
    """Whether rules of two outputs name one input."""
    named = [{name for rule in block.rules for name, _ in literals(rule.condition)
              if any(it == output.name for it, _ in rule.conclusions)} for output in block.outputs]
    return sum(map(len, named)) > len(set().union(*named))


class Together:
    """The outputs alone and what their certificates come to as one. Alone an output has fewer inputs that matter, so
    its tree needs no cuts of the others'."""

    def __init__(self, program, certify, block, outputs, folder, clock):
        self.program, self.certify, self.outputs, self.clock = program, certify, outputs, clock
        self.out = os.path.join(folder, "raised.cert")
        self.box = [(0, 255)] * len(block.inputs)
        self.rows = [Rows(it).by_byte() for it in block.inputs]

    def tree(self, output, target):
        """The version and the tree of an output at a target, or with its own error where that is no less."""
        text = output.found.text
        if target > output.found.target:
            answer = self.program.call(self.certify, output.fcl, target, self.out, seconds=self.clock.left())
            if answer is None:
                tell("")
                raise Late
            text = read(self.out) if answer.status == 0 else text
        return tree_of(text, output.numbers)

    def certificate(self, target=0):
        """The certificate in which each output has its own error, or this target where that is more; None where it
        would have too many leaves."""
        tell(f"all outputs: {target} tried")
        versions, trees = zip(*(self.tree(it, target) for it in self.outputs))
        tree = fitting(list(trees), self.box, self.rows)
        tell("")
        claims = [max(it.found.target, target) for it in self.outputs]
        return tree and spell_certificate(versions[0], claims, tree)

    def first_fit(self, target):
        """The last target that does not fit, and the first one tried that does, with its certificate."""
        below = 0
        while True:
            text = self.certificate(target)
            if text:
                return below, target, text
            if target == 10**6:
                raise Wrong(f"no certificate for all outputs has at most {MOST_LEAVES} leaves")
            below, target = target, min(10**6, target * GROWTH[0] // GROWTH[1] + 1)

    def raised(self):
        """The least target for all that is found to fit, with its certificate."""
        targets = [it.found.target for it in self.outputs]
        try:
            below, target, text = self.first_fit(max(targets))
        except Late:
            raise Wrong("no certificate for all outputs was found in this time") from None
        below = max(below, min(targets))
        try:
            while target - below > target // NEAR:
                middle = (below + target) // 2
                less = self.certificate(middle)
                below, target, text = (below, middle, less) if less else (middle, target, text)
        except Late:
            pass
        return target, text
