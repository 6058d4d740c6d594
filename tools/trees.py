"""Certificates as trees: read, written, and joined."""
from math import ceil, prod

from fuzz12 import Wrong

MOST_LEAVES = 4096
MOST_CELLS = 64


def read_tree(text):
    """The version line, and the tree: a cut is a tuple of input, byte, lower and upper part, a leaf a list of pairs, or
    the word of a tight one."""
    lines = text.splitlines()
    try:
        nodes = iter([line.split() for line in lines[2:]])
        return lines[0], next_node(nodes)
    except (IndexError, ValueError, StopIteration):
        raise Wrong("no certificate") from None


def next_node(nodes):
    word, *numbers = next(nodes)
    if word in ("leaf", "cells") and not numbers:
        return word
    numbers = [int(it) for it in numbers]
    if word == "leaf":
        return list(zip(numbers[::2], numbers[1::2]))
    place, byte = numbers
    lower = next_node(nodes)
    return place, byte, lower, next_node(nodes)


def is_leaf(tree):
    return not isinstance(tree, tuple)


def spell_tree(tree):
    if is_leaf(tree):
        yield tree if isinstance(tree, str) else "leaf " + " ".join(f"{rule} {k}" for rule, k in tree)
        return
    place, byte, lower, upper = tree
    yield f"split {place} {byte}"
    yield from spell_tree(lower)
    yield from spell_tree(upper)


def spell_certificate(version, claims, tree):
    return "\n".join([version, "claim " + " ".join(map(str, claims)), *spell_tree(tree)]) + "\n"


def halves(box, place, byte):
    """A box, which is a list of intervals of bytes, cut at a byte: below it, and from it on."""
    low, high = box[place - 1]
    lower, upper = list(box), list(box)
    lower[place - 1], upper[place - 1] = (low, byte - 1), (byte, high)
    return lower, upper


def boxes(tree, box):
    """The leaves with their boxes."""
    if is_leaf(tree):
        yield box, tree
        return
    place, byte, *parts = tree
    for part, half in zip(parts, halves(box, place, byte)):
        yield from boxes(part, half)


def within(tree, box, add):
    """The part of a tree that a box meets, with each leaf changed by a function."""
    if is_leaf(tree):
        return add(tree)
    place, byte, lower, upper = tree
    low, high = box[place - 1]
    if high < byte:
        return within(lower, box, add)
    if low >= byte:
        return within(upper, box, add)
    parts = (within(part, half, add) for part, half in zip((lower, upper), halves(box, place, byte)))
    return (place, byte, *parts)


def both(leaf, other):
    """One leaf for the outputs of two: the pairs of both, or of tight ones the cells where either has them."""
    if isinstance(leaf, list):
        return leaf + other
    return "cells" if "cells" in (leaf, other) else "leaf"


def joined(tree, other, box):
    """One tree whose leaves are for the outputs of both, the one behind the other."""
    if is_leaf(tree):
        return within(other, box, lambda leaf: both(tree, leaf))
    place, byte, *parts = tree
    return (place, byte, *(joined(it, other, half) for it, half in zip(parts, halves(box, place, byte))))


def cut_cells(tree, box, rows):
    """A tight tree of several outputs, with each leaf of cells cut until its box has no more cells than it may have.
    An output alone has fewer inputs that matter."""
    if not is_leaf(tree):
        place, byte, *parts = tree
        return (place, byte, *(cut_cells(*it, rows) for it in zip(parts, halves(box, place, byte))))
    widths = cells_of(box, rows)
    if tree != "cells" or prod(widths) <= MOST_CELLS:
        return tree
    widest = widths.index(max(widths))
    return cut_cells((widest + 1, (sum(box[widest]) + 1) // 2, tree, tree), box, rows)


def cells_of(box, rows):
    """How many cells of a box differ: rows has for each input what its terms are at each byte."""
    return [high - low + 1 if len(set(row[low:high + 1])) > 1 else 1 for row, (low, high) in zip(rows, box)]


def count(tree):
    return 1 if is_leaf(tree) else count(tree[2]) + count(tree[3])


def joins(tree, other, box):
    """Whether one tree for both has at most as many leaves as it may have."""
    total = 0
    for part, _ in boxes(tree, box):
        total += count(within(other, part, lambda it: it))
        if total > MOST_LEAVES:
            return False
    return True


def fitting(trees, box, rows):
    """One tree for the outputs of all of these, or None where that would have too many leaves."""
    tree, *others = trees
    for other in others:
        if not joins(tree, other, box):
            return None
        tree = joined(tree, other, box)
    pieces = [ceil(prod(cells_of(it, rows)) / MOST_CELLS) if leaf == "cells" else 1 for it, leaf in boxes(tree, box)]
    if sum(pieces) > MOST_LEAVES:
        return None
    tree = cut_cells(tree, box, rows)
    return tree if count(tree) <= MOST_LEAVES else None
