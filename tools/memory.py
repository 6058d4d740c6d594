"""The memory of a firmware: where each part is, and how many bytes it has, read from its image."""
from dataclasses import dataclass

from fuzz12 import instructions_from, word_at

# Regions of an image by form: the first and the last address, and what is there.
MAIN = [
    (0xC000, 0xCFFF, "code"), (0xD000, 0xD1FF, "term tables"), (0xD200, 0xD2FF, "singletons"),
    (0xD300, 0xD7FF, "weights of rules"), (0xD800, 0xFEFF, "rule list"), (0xFFF2, 0xFFF3, "vector of IRQ"),
    (0xFFFE, 0xFFFF, "vector of reset"),
]
INSIDE = [
    (0x4000, 0x4FFF, "code of the fast block"), (0x5000, 0x51FF, "its term tables"), (0x5200, 0x52FF, "its singletons"),
    (0x5300, 0x57FF, "its weights"), (0x5800, 0x7EFF, "its rule list"),
]


@dataclass
class Region:
    first: int
    last: int
    used: int
    what: str

    @property
    def addresses(self):
        return f"${self.first:04X}" + (f" to ${self.last:04X}" if self.last > self.first else "")


FREE = Region(0x1800, 0x1FDF, 2016, "free: what interrupt handlers may write")
STACK = Region(0x1FE0, 0x1FFF, 32, "stack, which begins at `$2000` and goes down")


def regions_of(image, form):
    """The parts of an image that have bytes."""
    for first, last, what in (INSIDE if form == "fast" else []) + MAIN:
        used = sorted(it for it in image if first <= it <= last)
        if used:
            yield Region(used[0], used[-1], len(used), what)


def handler_regions(image):
    """A handler's code, which `hrun` puts next to the firmware."""
    return [Region(min(image), max(image), len(image), "the handler's code, to which the vector of IRQ then leads")]


def slots_of(image, entry, base):
    """How many slots the code from an address on has: for each term, complement and term of an output one."""
    code = [(name, word_at(image, at + 1)) for at, name, _ in instructions_from(image, entry)]
    cleared = [it for name, it in code if name == "CLR" and base + 0x100 <= it < base + 0x300]
    return sum(1 for name, _ in code if name in ("MEM", "COMA")) + len(cleared)


def block_regions(block, image, base, entry, parts, fast=False):
    """The RAM of a block: inputs, outputs and slots."""
    count, outputs = slots_of(image, entry, base), len(block.outputs) * parts
    its, order = "fast " if fast else "", ", the high byte first" if parts > 1 else ""
    yield Region(base + 1, base + len(block.inputs), len(block.inputs), f"{its}inputs, in the order of the text")
    yield Region(base + 16, base + 15 + outputs, outputs, f"{its}outputs{order}")
    yield Region(base + 0x100, base + 0xFF + count, count, f"{its}slots of degrees and strengths")


def ram_of(block, image, form, fast=None):
    """The regions of RAM that a form of the firmware uses, the stack and what is free left out."""
    if form != "mailbox":
        yield Region(0x1000, 0x1000, 1, "READY: 1 from outside asks for an answer")
    yield from block_regions(block, image, 0x1000, entry_of(image), 2 if form == "wide" else 1)
    if form == "mailbox":
        yield Region(0x1020, 0x101F + len(block.inputs), len(block.inputs), "mailbox: where the handler puts a sample")
        yield Region(0x1028, 0x1028, 1, "POSTED: the handler writes 1 here")
    if form == "watched":
        yield Region(0x1030, 0x1030, 1, "FAULT: 1 where the tables were changed")
    if fast:
        yield from block_regions(fast, image, 0x1400, 0x4000, 1, True)


def entry_of(image):
    """Where the frame's JSR leads: EVAL, or the check of the tables before it."""
    code = instructions_from(image, word_at(image, 0xFFFE))
    return next(word_at(image, at + 1) for at, name, _ in code if name == "JSR")
