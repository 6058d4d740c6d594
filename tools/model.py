"""A block over bytes: the answers of its firmware, and the lines of a function in C89 that gives them."""
from cells import byte_of, grade, nearest_byte, table, trapezoid, weight_byte
from fcl import spell_rule


class Model:
    """The firmware of a block, without its instructions."""

    def __init__(self, block):
        self.block, self.before = block, [0] * len(block.outputs)
        self.grades = {(it.name, term): [grade(table(it, trapezoid(points)), byte) for byte in range(256)]
                       for it in block.inputs for term, points in it.terms.items()}
        self.singletons = [[nearest_byte(it, at) for at in it.terms.values()] for it in block.outputs]
        self.scales = [weight_byte(it.weight) + 1 for it in block.rules]

    def truth(self, condition, bytes_):
        kind, *parts = condition
        if kind == "is":
            return self.grades[tuple(parts)][bytes_[parts[0]]]
        if kind == "not":
            return 255 - self.truth(parts[0], bytes_)
        return (min if kind == "and" else max)(self.truth(it, bytes_) for it in parts)

    def masses(self, bytes_):
        found = {}
        for rule, scale in zip(self.block.rules, self.scales):
            strength = self.truth(rule.condition, bytes_) * scale // 256
            for pair in rule.conclusions:
                found[pair] = max(found.get(pair, 0), strength)
        return found

    def answers(self, sample):
        """A byte for each output, after those of the samples before; a sample has a number for each input by name."""
        masses = self.masses({it.name: byte_of(it, sample[it.name]) for it in self.block.inputs})
        for k, output in enumerate(self.block.outputs):
            here = [masses.get((output.name, term), 0) for term in output.terms]
            if sum(here):
                self.before[k] = sum(map(int.__mul__, self.singletons[k], here)) // sum(here)
            elif output.default is not None:
                self.before[k] = nearest_byte(output, output.default)
        return list(self.before)


# ---------------------------------------------------------------------------------------------------------------------
# The same in C.

HELPERS = {
    "grade": """
static unsigned UNIT_grade(unsigned a, unsigned p1, unsigned p2, unsigned s1, unsigned s2)
{
    unsigned y = 255;
    if (a < p1 || a > p2)
        return 0;
    if (s1 != 0 && (a - p1) * s1 < y)
        y = (a - p1) * s1;
    if (s2 != 0 && (p2 - a) * s2 < y)
        y = (p2 - a) * s2;
    return y;
}""",
    "least": """
static unsigned UNIT_least(unsigned a, unsigned b)
{
    return a < b ? a : b;
}""",
    "greatest": """
static unsigned UNIT_greatest(unsigned a, unsigned b)
{
    return a > b ? a : b;
}""",
}


def truth(unit, condition, places):
    """A condition's byte truth as an expression; places has where the grade of each literal stands."""
    kind, *parts = condition
    if kind == "is":
        return f"grade[{places[tuple(parts)]}]"
    found = [truth(unit, it, places) for it in parts]
    if kind == "not":
        return f"(255U - {found[0]})"
    text = found.pop()
    while found:
        text = f"{unit}_{'least' if kind == 'and' else 'greatest'}({found.pop()}, {text})"
    return text


def grade_lines(unit, block, places):
    for k, variable in enumerate(block.inputs):
        for term, points in variable.terms.items():
            row = ", ".join(map(str, table(variable, trapezoid(points))))
            at = places[variable.name, term]
            yield f"    grade[{at}] = {unit}_grade(inputs[{k}], {row}); /* {variable.name} IS {term} */"


def rule_lines(unit, block, places, masses):
    for rule in block.rules:
        scale = weight_byte(rule.weight) + 1
        yield f"    /* {spell_rule(rule)} */"
        yield f"    strength = {truth(unit, rule.condition, places)}{f' * {scale}U / 256U' if scale < 256 else ''};"
        for pair in dict.fromkeys(rule.conclusions):
            at = masses[pair]
            yield f"    mass[{at}] = {unit}_greatest(mass[{at}], strength);"


def answer_lines(k, output, masses, wide):
    """The mean of the singletons' bytes, or of 256 times them; where no rule fires the default."""
    parts, kind = ("256UL * ", "unsigned short") if wide else ("", "unsigned char")
    at = [masses[output.name, term] for term in output.terms]
    over = " + ".join(f"{nearest_byte(output, it)}UL * mass[{place}]" for it, place in zip(output.terms.values(), at))
    yield f"    total = {' + '.join(f'mass[{place}]' for place in at)}; /* {output.name} */"
    yield "    if (total != 0)"
    yield f"        outputs[{k}] = ({kind})({parts}({over}) / total);"
    if output.default is not None:
        yield "    else"
        yield f"        outputs[{k}] = {nearest_byte(output, output.default) * (256 if wide else 1)};"


def model_lines(block, wide):
    """The lines of the function, with what it calls before it."""
    unit = block.name.lower()
    places = {it: k for k, it in enumerate((it.name, term) for it in block.inputs for term in it.terms)}
    masses = {it: k for k, it in enumerate((it.name, term) for it in block.outputs for term in it.terms)}
    kind = "short" if wide else "char"
    head = (f"void {unit}_answer(const unsigned char inputs[{len(block.inputs)}], "
            f"unsigned {kind} outputs[{len(block.outputs)}])")
    body = [*grade_lines(unit, block, places), *rule_lines(unit, block, places, masses)]
    body += [line for k, it in enumerate(block.outputs) for line in answer_lines(k, it, masses, wide)]
    for name, text in HELPERS.items():
        if any(f"{unit}_{name}(" in line for line in body):
            yield from text.replace("UNIT", unit).splitlines()
    yield ""
    yield f"{head};"
    yield ""
    yield head
    yield "{"
    yield f"    unsigned grade[{len(places)}], mass[{len(masses)}] = {{0}}, strength, total;"
    yield from body
    yield "}"
