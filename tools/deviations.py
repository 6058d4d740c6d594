"""How far a run's answers are from FCL's own, and what is wrong with its lines."""
from cells import byte_of, nearest_byte, value_of
from fuzz12 import Wrong


def check_form(block, trace, lines):
    """The lines have an error for each output, and each row is of a sample and has an answer for each output."""
    inputs, outputs = len(block.inputs), len(block.outputs)
    fits = (lines.rows and len(lines.errors) == outputs
            and all(1 <= it.sample <= len(trace) for it in lines.rows)
            and all(len(it.answers) == outputs and len(it.bytes) in (0, inputs) for it in lines.rows)
            and all(0 <= it.row < len(lines.rows) and lines.rows[it.row].steps for it in lines.frames))
    if not fits:
        raise Wrong("the lines are not of a run of this block and this trace")


def wrong_bytes(block, sample, row):
    for byte, it in zip(row.bytes, block.inputs):
        if byte != byte_of(it, sample[it.name]):
            yield f"{it.name} has the byte {byte}"


def wrong_default(output, answer, before, parts):
    """Of a sample whose tables were found changed: it answers the default, or what it answered before."""
    wanted = before if output.default is None else nearest_byte(output, output.default) * parts
    if answer != wanted:
        yield f"{output.name} is {answer}, where the tables are changed and {wanted} is the default"


def wrong_answer(output, answer, error, exact, parts):
    off = abs(value_of(output, answer, parts) - exact)
    if off > band(output, error):
        yield f"{output.name} is {float(off):g} from the exact {float(exact):g}"


def faults(block, samples, lines, exact, parts):
    """What is wrong, as text. Behind a changed table an output that keeps its answer is compared with none."""
    changed = False
    before = [0] * len(block.outputs)
    for k, (sample, row, answers) in enumerate(zip(samples, lines.rows, exact), start=1):
        found = list(wrong_bytes(block, sample, row))
        here = row.fault == [1]
        changed = changed or here
        for output, answer, error, last in zip(block.outputs, row.answers, lines.errors, before):
            if here:
                found += wrong_default(output, answer, last, parts)
            elif not changed or output.default is not None:
                found += wrong_answer(output, answer, error, answers[output.name], parts)
        before = row.answers
        yield from (f"answer {k}: {it}" for it in found)


def band(output, error):
    """How far an answer may be from the exact one."""
    return error * output.width / 1000000


def deviations(output, lines, exact, place, parts):
    """How far above the exact answer each answer is, by its column. Behind a changed table one that is kept is compared
    with none."""
    changed = False
    for k, (row, answers) in enumerate(zip(lines.rows, exact)):
        changed = changed or row.fault == [1]
        if row.fault != [1] and not (changed and output.default is None):
            yield k, value_of(output, row.answers[place], parts) - answers[output.name]


def parts_of(lines, wide=False):
    """The parts of a byte that answers are counted in: 256 where they have 16 bits, as one above 255 says."""
    return 256 if wide or any(it > 255 for row in lines.rows for it in row.answers) else 1
