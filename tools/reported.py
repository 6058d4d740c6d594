"""What a report tells: a run is made again, and what its files, its certificates and its answers say is gathered."""
import hashlib
import os
import re
from dataclasses import dataclass, field

from cells import cell_of, value_of
from deviations import check_form, deviations, parts_of
from fcl import block_of, exact_answers, samples_of, spell
from fuzz12 import Wrong, command, kind_of, read, read_lines, read_records, stem
from searching import REFUSED, text_of
from trees import boxes, read_tree

MOST_SECONDS = 120  # for the question whether a certificate is the least


@dataclass
class Form:
    """A form of the firmware: who compiles it and who runs it."""

    compiles: str
    runs: str
    parts: int = 1


FORMS = {
    "run": Form("compile", "run"), "wide": Form("compile16", "run", 256), "mailbox": Form("mcompile", "mrun"),
    "watched": Form("scompile", "srun"), "handled": Form("compile", "hrun"), "fast": Form("lcompile", "lrun"),
}


@dataclass
class Loop:
    """A block with its certificate, its samples and what the run printed of it."""

    fcl: str
    cert: str
    trace: str
    block: object
    lines: object
    kind: tuple
    leaves: int
    parts: int
    is_fast: bool = False
    samples: list = field(default_factory=list)
    exact: list = field(default_factory=list)

    def largest(self, place):
        """The largest deviation of an output in the run, with the number of its answer, or None."""
        found = deviations(self.block.outputs[place], self.lines, self.exact, place, self.parts)
        return max(found, key=lambda it: abs(it[1]), default=None)

    def line_of(self, text, k):
        """The line of an answer in what the run printed."""
        row = self.lines.rows[k]
        number = k + 1 if self.lines.posted else row.sample
        begin = f"{'fast' if self.is_fast else 'answer' if self.lines.posted else 'sample'} {number} "
        answers = f" answers {' '.join(map(str, row.answers))} "
        return next(it for it in text.splitlines() if it.startswith(begin) and answers in it)

    def value(self, k, place):
        return value_of(self.block.outputs[place], self.lines.rows[k].answers[place], self.parts)

    def counts(self, word):
        """The least and the greatest count of a kind in a row; those of steps in `mrun` have its waiting too."""
        found = [it for row in self.lines.rows for it in getattr(row, word)]
        return (min(found), max(found)) if found and not (word == "steps" and self.lines.posted) else None


def loop_of(fcl, cert, trace, lines, form, is_fast=False):
    block, text = block_of(read(fcl)), read(cert)
    version, tree = read_tree(text)
    found = read_lines(lines, is_fast)
    samples = samples_of(block, read(trace))
    check_form(block, samples, found)
    leaves = sum(1 for _ in boxes(tree, [(0, 255)] * len(block.inputs)))
    samples = [samples[it.sample - 1] for it in found.rows]
    return Loop(fcl, cert, trace, block, found, kind_of(version), leaves, parts_of(found, form == "wide"), is_fast,
                samples, list(exact_answers(block, samples)))


# ---------------------------------------------------------------------------------------------------------------------
# The run, made again.


class Run:
    """The words of a run, as a program is called with them, and what came."""

    def __init__(self, program, given, folder):
        self.program, self.given, self.form = program, given, FORMS[given.form]
        self.texts = [given.fcl, given.fast_fcl] if given.form == "fast" else [given.fcl]
        self.kind = kind_of(read(given.cert).partition("\n")[0])
        if (self.kind[1] == "16") != (given.form == "wide"):
            width = "a byte" if self.kind[1] else "16 bits"
            raise Wrong(f"{given.cert}: a certificate for answers of {width} is wanted")
        form = "" if given.form in ("run", "handled") else "." + given.form
        self.compiled = os.path.join(folder, f"{stem(given.fcl)}{form}.s19")
        self.bounds = dict(it.split() for it in program.ask(self.form.compiles, *self.texts, self.compiled))
        self.image_name = given.image or os.path.basename(self.compiled)
        if given.image and read_records(read(given.image)) != read_records(read(self.compiled)):
            raise Wrong(f"{given.image}: {self.form.compiles} makes another image of this text")
        self.text = self.check_lines(read(given.run))
        self.image = read_records(read(given.image or self.compiled))

    def words(self, image):
        """The words of the run, with a name for its image."""
        given, form = self.given, self.given.form
        plan = [given.plan or "/dev/null"]
        files = {
            "fast": [*self.texts, image, given.cert, given.fast_cert, given.trace, given.fast_trace, *plan],
            "handled": [given.fcl, given.handler, given.cert, given.trace, *plan],
            "watched": [given.fcl, image, given.cert, given.trace, *plan, given.upsets or "/dev/null"],
        }.get(form, [given.fcl, image, given.cert, given.trace, *plan])
        kind = self.kind if form in ("run", "wide") else (self.kind[0], "")
        return [command(kind, self.form.runs), *files, given.flags]

    def check_lines(self, text):
        """The run prints exactly these lines."""
        printed = self.program.ask(*self.words(self.given.image or self.compiled))
        lines = text.splitlines()
        for number, (one, other) in enumerate(zip(lines + [None] * len(printed), printed), start=1):
            if one != other:
                plan = "" if self.given.plan else " without a --plan"
                raise Wrong(f"{self.given.run}: line {number}: {self.words('')[0]}{plan} prints here: {other}")
        if len(lines) > len(printed):
            raise Wrong(f"{self.given.run}: more lines than {self.words('')[0]} prints")
        return text

    def loops(self):
        given = self.given
        yield loop_of(given.fcl, given.cert, given.trace, self.text, given.form)
        if given.form == "fast":
            yield loop_of(given.fast_fcl, given.fast_cert, given.fast_trace, self.text, given.form, True)

    def calls(self):
        """The calls that make everything again, as they are typed."""
        yield ["fuzz12", self.form.compiles, *self.texts, self.image_name]
        if self.given.form == "handled":
            yield ["fuzz12", "hcheck", self.given.handler]
        for fcl, cert in self.certified():
            yield ["fuzz12", command(kind_of(read(cert).partition("\n")[0]), "check"), fcl, cert]
        yield ["fuzz12", *self.words(self.image_name), ">", self.given.run]

    def certified(self):
        certs = [self.given.cert, self.given.fast_cert] if self.given.form == "fast" else [self.given.cert]
        return list(zip(self.texts, certs))

    def handler_steps(self):
        """The most instructions of the handler that an interrupt runs, where there is one."""
        if self.given.form != "handled":
            return None
        return int(self.program.ask("hcheck", self.given.handler)[0].split()[-1])

    def files(self):
        """What each file is, its name, and where its bytes are."""
        given = self.given
        plan = {"mailbox": "posts", "fast": "levels"}.get(given.form, "plan of interrupts")
        found = [("text", given.fcl), ("text of the fast block", given.fast_fcl), ("certificate", given.cert),
                 ("certificate of the fast block", given.fast_cert)]
        rest = [("handler", given.handler), ("samples", given.trace), ("samples of the fast block", given.fast_trace),
                (plan, given.plan), ("upsets", given.upsets), ("lines of the run", given.run)]
        yield from ((what, name, name) for what, name in found if name)
        yield "image", self.image_name, given.image or self.compiled
        yield from ((what, name, name) for what, name in rest if name)


def sum_of(name):
    with open(name, "rb") as file:
        data = file.read()
    return len(data), hashlib.sha256(data).hexdigest()


# ---------------------------------------------------------------------------------------------------------------------
# The certificate, the interrupts and the stack.


def held_by(program, loop, place, folder):
    """What holds the certified error of an output, as the program says of a target just below it."""
    output, error = loop.block.outputs[place], loop.lines.errors[place]
    if error == 0:
        return "nothing: it is 0"
    fcl, _ = text_of(loop.fcl, loop.block, output, folder)
    out = os.path.join(folder, "less.cert")
    answer = program.call(command(loop.kind, "certify"), fcl, error - 1, out, seconds=MOST_SECONDS)
    if answer is None:
        return "not looked for: it takes long"
    if answer.status == 0:
        return "this certificate; another can guarantee less (`tools/least` finds it)"
    cell = REFUSED.fullmatch(answer.said)
    if not cell:
        return f"not known ({answer.said})"
    spans = [(it, cell_of(it, int(byte))) for it, byte in zip(loop.block.inputs, cell[1].split())]
    where = ", ".join(f"{it.name} from {spell(low)} to {spell(high)}" for it, (low, high) in spans)
    whose = "certificate" if loop.kind[0] else "plain certificate"
    return f"cell {cell[1]} ({where}): no {whose} guarantees less"


FRAME = re.compile(r"(?:frame|inner)(?: \d+)+ ([0-9A-F]{4}) ([0-9A-F]{4}) (\d+)")


def frames_of(text, loop):
    """The interrupts of a loop, each with its line, its place in the run, and SP after the push."""
    word = "inner" if loop.is_fast else "frame"
    lines = [it for it in text.splitlines() if it.startswith(word + " ")]
    for line, frame in zip(lines, loop.lines.frames):
        yield line, frame, int(FRAME.match(line)[2], 16)


def lowest(text):
    """The least SP that any interrupt of the run left, or None."""
    return min((int(it[2], 16) for it in map(FRAME.match, text.splitlines()) if it), default=None)
