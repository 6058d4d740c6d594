"""Where a rule fires in an engine of another tool, one is to fire in the block that was made of it."""
import fcl
from gaps import Gaps, pieces_of, told
from inference import FIRES, Inference

MOST_TOLD = 3
FINITE = ("triangle", "trapezoid", "rectangle", "ramp", "sshape", "zshape", "pishape")


def feet_of(term):
    """The places at which a term of a source may come to 0."""
    if term.shape == "cosine":
        middle, width = term.numbers
        return [middle - width / 2, middle + width / 2]
    if term.shape == "points":
        return [x for x, _ in term.numbers]
    return term.numbers[::2] if term.shape == "discrete" else term.numbers if term.shape in FINITE else []


class Kept:
    """Looks for gaps of a block that its source has not; makes a shoulder of an outermost term where that closes one,
    and tells of the others."""

    def __init__(self, importer):
        self.importer, self.block, self.engine = importer, importer.block, importer.engine
        self.inference = Inference(self.engine)

    def run(self):
        if not any(lost for _, lost in self.lost()):
            return
        for variable, source in zip(self.block.inputs, self.importer.sources):
            for end in variable.span:
                self.shoulder(variable, source, end)
        for gaps, lost in self.lost():
            boxes = [told(self.block, gaps.ends(it)) for it in gaps.joined(lost)]
            for it in boxes[:MOST_TOLD]:
                self.importer.note(f"{gaps.output.name}: where {it} a rule fired, and now none does")
            if len(boxes) > MOST_TOLD:
                self.importer.note(f"{gaps.output.name}: in {len(boxes) - MOST_TOLD} more places a rule fired, and now "
                                   "none does")

    def lost(self):
        """For each output its gaps, and those of them where a rule of the source fires."""
        pieces = {}
        for variable, source in zip(self.block.inputs, self.importer.sources):
            degrees = [self.inference.degrees[source.name.lower(), it.name.lower()] for it in source.terms]
            above = (lambda x, some=degrees: tuple(it is not None and it(float(x)) > FIRES for it in some))
            pieces[variable.name] = pieces_of(variable, [x for it in source.terms for x in feet_of(it)], above)
        for output in self.block.outputs:
            gaps = Gaps(self.block, output, pieces)
            yield gaps, [it for it in gaps.boxes if self.fired(output, gaps.sample(it))]

    def fired(self, output, sample):
        """Whether the source has a rule for an output that fires at a sample."""
        places = dict(zip((it.name for it in self.importer.sources), map(float, sample)))
        activated = self.inference.activated([places.get(it.name, 0.0) for it in self.engine.inputs])
        source = next(it for it in self.importer.targets if self.importer.names[it.name.lower()] == output.name)
        return bool(activated[source.name.lower()])

    def shoulder(self, variable, source, end):
        """Makes a shoulder at an end of a range, where a rule fires again with it."""
        place = self.block.inputs.index(variable)
        missing = [(gaps.output, gaps.sample(box)) for gaps, lost in self.lost() for box in lost
                   if end in (gaps.pieces[place][box[place]].low, gaps.pieces[place][box[place]].high)]
        if not missing:
            return
        found = [(degrees(float(end)), it) for it in source.terms
                 if (degrees := self.inference.degrees[source.name.lower(), it.name.lower()])]
        was, outermost = max(found, key=lambda it: it[0])
        name = self.importer.names[outermost.name.lower()]
        old = variable.terms[name]
        if fcl.degree(old, end) != 0:
            return
        top = [x for x, y in old if y == 1]
        is_low = end == variable.span[0]
        head = top[-1] if is_low else top[0]
        beyond = [(x, y) for x, y in old if (x > head if is_low else x < head)]
        variable.terms[name] = sorted([(end, 1), (head, 1), *beyond])
        if all(self.is_silent(*it) for it in missing):
            variable.terms[name] = old
            return
        said = f"{source.name} {outermost.name}: at the range's end ({fcl.spell(end)}) its degree was "
        self.importer.notes = [it for it in self.importer.notes if not it.startswith(said)]
        self.importer.note(f"{said}{was:.4g} and is now 1, as at {fcl.spell(head)}: no rule would fire there")

    def is_silent(self, output, sample):
        strengths = fcl.strengths_of(self.block, dict(zip((it.name for it in self.block.inputs), sample)))
        return not any(strength for rule, strength in strengths
                       if any(name == output.name for name, _ in rule.conclusions))
