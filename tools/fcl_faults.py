"""What the lines `fcl: ..` mean of a text, and what is expected there."""
import re
from difflib import get_close_matches
from fractions import Fraction

from fcl import is_term, spell
from fcl_grammar import CHOICES, END, KEYWORDS, NAME, NUMBER, Grammar, tokens_of
from places import Told, listed
from shapes import CURVES, HEDGES, OTHERS, corners

ROOM = 9984  # bytes of a rule list
LIMITS = "8 inputs, 4 outputs, 15 terms of a variable and 256 rules"
# The code of what is left out: what it is, and what to write.
UNSUPPORTED = {
    1: ("a method other than COGS", "write METHOD : COGS; each term of the output is one number"),
    2: ("an AND other than MIN", "write AND : MIN; or leave the line out"),
    3: ("an OR other than MAX", "write OR : MAX; or leave the line out"),
    4: ("an accumulation other than MAX", "write ACCU : MAX; or leave the line out"),
    5: ("a type other than REAL", "write REAL"),
    6: ("local variables", "leave VAR .. END_VAR out, and write each constant where it is used"),
    7: ("an option block", "leave OPTION .. END_OPTION out"),
    8: ("a second rule block", "put its rules into the first"),
    10: ("a name in the place of a point's number", "write the number"),
    11: ("a degree other than 0 and 1", "write degrees 0 and 1 only; a rule can have a weight, WITH 0.8"),
    12: ("a variable without IS", "write both, as in name IS term"),
    13: ("an output's term with points", "write one number, the middle of its area"),
    14: ("an input's term without points",
         "write each point in parentheses, (place, degree), with no comma between points"),
    15: ("a variable as a weight", "write the number"),
}
BAD_BYTES = {
    "|": "choose one: a number, or NC, which keeps the answer before",
    ".": "a number has a digit on each side of its point: 0.5",
    "=": "a term, a RANGE and a DEFAULT have := before what they are, and a condition has IS",
    "[": "use parentheses", "]": "use parentheses", "{": "comments are (* .. *) or // ..",
    "}": "comments are (* .. *) or // ..", "#": "comments are (* .. *) or // ..", '"': "names have no quotes",
    "'": "names have no quotes", "\xef": "take off the byte order mark: sed '1s/^\\xEF\\xBB\\xBF//'",
    "<": "a condition compares nothing: it names a term", ">": "a condition compares nothing: it names a term",
    "\0": "the file is no plain text; save it as UTF-8",
}


def near(name, names):
    """What helps where a name is none of these."""
    by_upper = {it.upper(): it for it in names}
    found = get_close_matches(name.upper(), list(by_upper), 3, 0.6)
    if found:
        yield "near: " + listed([by_upper[it] for it in found])
    if names:
        yield "there are " + listed(names, "and")


# ---------------------------------------------------------------------------------------------------------------------
# Tokens.


def bad_byte(file, at):
    text = file.text
    byte = text[at:at + 1]
    told = file.at(at)
    shown = byte if " " < byte < "\x7f" else f"the byte ${ord(byte):02X}" if byte else "nothing"
    told.means = [f"{shown} begins nothing of the language"]
    if text.startswith("/*", at):
        told.helps = ["comments are (* .. *), or // up to the end of the line"]
    elif text.startswith("*)", at):
        told.helps = ["comments do not nest: the first *) ends one; take the inner (* and *) away"]
    elif byte in "*/^":
        told.helps = ["nothing is computed in a text: write the number"]
    elif byte in BAD_BYTES:
        told.helps = [BAD_BYTES[byte]]
    elif byte >= "\x80":
        told.helps = ["a name has letters of ASCII, digits and _; other letters may be in comments"]
    return told


def open_comment(file, at):
    told = file.at(at, 2)
    told.means = ["this comment has no end"]
    told.helps = ["end it with *)"]
    return told


def number(file, at):
    word = re.match(r"\d+(?:\.\d+)?(?:[eE][-+]?\d+)?\w*", file.text[at:])[0]
    told = file.at(at, len(word))
    power = re.fullmatch(r"(\d+(?:\.\d+)?)[eE]([-+]?\d+)\w*", word)
    plain = re.match(r"\d+(?:\.\d+)?", word)[0]
    if power:
        told.means = ["a number has no exponent"]
        value = Fraction(power[1]) * Fraction(10) ** int(power[2])
        told.helps = [f"write {spell(value)}"] if abs(int(power[2])) < 9 else []
    elif word != plain:
        told.means = [f"{word[len(plain):]} follows a number directly"]
        told.helps = ["leave units and _ out; a name begins with a letter or _"]
    elif Fraction(plain) > 100000:
        told.means = ["a number is at most 100000"]
        told.helps = ["take another unit"]
    else:
        told.means = ["a number has at most four places"]
        told.helps = [f"write {spell(Fraction(plain))}, or take another unit"]
    return told


# ---------------------------------------------------------------------------------------------------------------------
# The grammar.


def too_deep(file, at):
    told = file.at(at)
    told.means = ["this is the 65th parenthesis or NOT that is open at once; 64 are taken"]
    told.helps = ["take parentheses away that change nothing, or part the condition into two rules"]
    return told


def unsupported(file, at, code):
    """What is left out; a decimal comma in a point looks like a degree."""
    code = int(code)
    token = next((it for it in tokens_of(file.text) if it.at == at), None)
    told = file.at(at, len(token.text) if token else 1)
    what, helps = UNSUPPORTED.get(code, ("a part of the language that is left out", "see docs/LANGUAGE.md"))
    told.means, told.helps = [f"not taken: {what}"], [helps]
    behind = file.text[at + len(token.text):].lstrip() if token else ""
    if code == 11 and behind.startswith(","):
        told.helps.insert(0, "a decimal comma? write a point: 0.5")
    if code == 12:
        told.helps += terms_of(file, token.text)
    return told


def terms_of(file, name):
    """Where a name is a term, the variables that have it."""
    for section in Grammar(file.text).sections:
        if any(it.name.upper == name.upper() for it in section.terms):
            yield f"write {section.name.text} IS {name}"


def spelled_shape(grammar):
    """The points of a shape with straight sides that stands where points are wanted."""
    word = grammar.token.text.lower()
    numbers, k, sign = [], grammar.k + 1, ""
    while grammar.tokens[k].kind in (NUMBER, "-", "+"):
        text = grammar.tokens[k].text
        sign = text if text in "+-" else sign
        if text not in "+-":
            numbers.append(Fraction(sign + text))
            sign = ""
        k += 1
    shape, order = OTHERS.get(word, (word, range(len(numbers))))
    if len(numbers) != len(order):
        return None
    it = corners(shape, [numbers[k] for k in order])
    if it is None:
        return None
    ranges = grammar.sections[-1].ranges
    low, high = ranges[0][1:] if ranges else (it.b, it.c)
    feet = [None if it.a == it.b <= low else it.a, None if it.d == it.c >= high else it.d]
    points = [(feet[0], 0), (it.b, 1), (it.c, 1), (feet[1], 0)]
    return " ".join(f"({spell(x)}, {y})" for x, y in dict.fromkeys(points) if x is not None)


def helps_of_term(grammar):
    """What to write for a term that is a shape or a function."""
    word = grammar.token.text.lower()
    points = spelled_shape(grammar)
    if grammar.inside[0].startswith("DEFUZZIFY"):
        return ["an output's term is one number, the middle of its area; tools/import finds it"]
    if points:
        return [f"write {points}"]
    if word in CURVES or word in OTHERS:
        return ["write the trapezoid near to it, as tools/import does"]
    return ["write points: (place, degree) (place, degree)"]


def helps_of_choice(word):
    """What to write behind `METHOD :` and the like."""
    return [f"write {listed(CHOICES[word])}" + ("" if word == "METHOD" else ", or leave the line out")]


def helps_of_name(grammar):
    """What to write where a name is wanted and none is."""
    token, before = grammar.token, grammar.before
    if before and before.upper in ("RULEBLOCK", "FUNCTION_BLOCK"):
        return [f"give it a name: {before.text} control"]
    if token.upper in KEYWORDS:
        return [f"{token.upper} is a word of the language and no name: write {token.text}_"]
    return []


def missing(grammar, wanted):
    """Whether the token before stands on an earlier line, so that what is wanted is missing at its end."""
    return wanted in grammar.wanted and grammar.token.kind != wanted


def helps_of_rule(grammar):
    """What to write in a rule."""
    word, before = grammar.token.upper, grammar.before.upper
    if before.lower() in HEDGES:
        return ["leave a condition with any out" if before == "ANY" else
                f"{grammar.before.text} is a hedge: write a term of its own for it, as tools/import does"]
    if before == "RULEBLOCK":
        return []
    if grammar.inside[-1:] == ["RULEBLOCK"] and word == "IF":
        return ["a rule begins with its label: RULE 1 : IF .."]
    if word in ("AND", "OR") and "THEN" not in grammar.wanted:
        return ["part conclusions with commas: THEN power IS low, fan IS slow"]
    if word == "ELSE":
        return ["write a second rule with the condition's NOT"]
    if "IS" in grammar.wanted and grammar.token.kind in (NAME, END):
        return ["write IS between a variable and a term"]
    if before == "RULE":
        return ["a label is a whole number: RULE 1 :"]
    return []


def helps_of_place(grammar):
    """What helps where the grammar stops: the nearest of what is known."""
    token, before = grammar.token, grammar.before
    inside = grammar.inside[-1] if grammar.inside else ""
    asked = re.match(r"(AND|OR|ACCU|ACT|METHOD)$", inside) or (before and before.text == ":" and grammar.k > 1
                                                               and grammar.tokens[grammar.k - 2].upper in CHOICES)
    if asked and ":" not in grammar.wanted and ";" not in grammar.wanted:
        return helps_of_choice(inside if inside in CHOICES else grammar.tokens[grammar.k - 2].upper)
    if token.kind == END:
        return [f"the text ends too early: write {listed([quoted(it) for it in grammar.wanted])}"]
    if END in grammar.wanted:
        return ["one block is taken, and nothing behind END_FUNCTION_BLOCK"]
    if before and before.text == ":=" and inside.startswith("TERM"):
        return helps_of_term(grammar)
    if before and before.text == ":=" and inside == "DEFAULT":
        return ["write a number, or NC, which keeps the answer before"]
    for sign, other in ((":=", ":"), (":", ":=")):
        if sign in grammar.wanted and token.text == other:
            return [f"write {sign} here"]
    if missing(grammar, ".."):
        return ["a range is written (low .. high)"]
    if token.text == "," and "(" in grammar.wanted:
        return ["no comma between points"]
    return helps_of_word(grammar)


def helps_of_word(grammar):
    token, inside = grammar.token, grammar.inside
    if inside and inside[0] == "RULEBLOCK":
        found = helps_of_rule(grammar)
        if found:
            return found
    if NAME in grammar.wanted and token.kind != NAME:
        found = helps_of_name(grammar)
        if found:
            return found
    if missing(grammar, ";"):
        return [f"write ; behind {grammar.before.text}"]
    if missing(grammar, ":") and inside[0].startswith("VAR_"):
        return [f"write {grammar.before.text} : REAL;"]
    if inside and inside[0].split()[0] in ("FUZZIFY", "DEFUZZIFY") and len(inside) == 1:
        return ["leave the line out: settings of other tools have no place here"]
    if "VAR_INPUT" in grammar.wanted and token.upper.startswith("VAR"):
        return ["variables are inputs (VAR_INPUT) or outputs (VAR_OUTPUT)"]
    return [it for it in near(token.text, [it for it in grammar.wanted if it in KEYWORDS]) if it.startswith("near")]


def quoted(wanted):
    return wanted if wanted[0].isalpha() else f'"{wanted}"'


def expected(file, at):
    """What stands there, what is expected, and what helps. What is missing has its place on the line before."""
    grammar = Grammar(file.text)
    token = grammar.stopped
    if token is None or token.at != at:
        told = file.at(at)
        told.means = ["the grammar of docs/LANGUAGE.md has no such thing here"]
        return told
    told = file.at(at, max(1, len(token.text)))
    where = f", in {', '.join(grammar.inside)}" if grammar.inside else ""
    told.means = [f"{token.text or 'the end'} is not allowed here{where}"]
    told.expected = listed([quoted(it) for it in grammar.wanted])
    before = grammar.before
    if before and ";" in grammar.wanted and file.line_of(before.at)[0] < file.line_of(at)[0]:
        ended = file.at(before.at, len(before.text))
        told.place, told.shown = ended.place, ended.shown + told.shown
        told.means[0] = f"no ; ends this line, and so {told.means[0]}"
    told.helps = list(helps_of_place(grammar))
    return told


# ---------------------------------------------------------------------------------------------------------------------
# Names, terms, ranges and weights.


class Declared:
    """What a text without syntax faults declares, as the load rules see it."""

    def __init__(self, file):
        self.file, self.tree = file, Grammar(file.text)

    def names(self, word=None):
        return [it.text for kind, it in self.tree.variables if word in (None, kind)]

    def kind_of(self, name):
        return next((kind for kind, it in self.tree.variables if it.upper == name.upper()), None)

    def section_of(self, name):
        return next((it for it in self.tree.sections if it.name.upper == name.upper()), None)

    def section_at(self, at):
        return next((it for it in self.tree.sections if it.word.at <= at <= it.end.at), None)

    def term_at(self, at):
        """The term whose word TERM, or one of whose points, is there, with its section."""
        for section in self.tree.sections:
            for term in section.terms:
                if at in (term.word.at, term.name.at) or any(at == it.at for it, _, _ in term.points):
                    return section, term
        return None, None

    def line_of(self, at):
        return self.file.line_of(at)[0]

    def twice(self, token):
        """The first declaration of what is declared again."""
        same = [it for _, it in self.tree.variables if it.upper == token.upper]
        section = self.section_at(token.at)
        if section is not None:
            same = [it.name for it in section.terms if it.name.upper == token.upper]
            same += [it for word in section.settings.values() for it in word if it.upper == token.upper]
            same += [it for it, _, _ in section.ranges if it.upper == token.upper]
        sections = [it.name for it in self.tree.sections if it.name.upper == token.upper]
        if token.at in [it.at for it in sections]:
            same = sections
        settings = [it for word in self.tree.rule_settings.values() for it in word]
        if token.at in [it.at for it in settings]:
            same = [it for it in settings if it.upper == token.upper]
        return next((it for it in sorted(same, key=lambda it: it.at) if it.at < token.at), None)


def load_twice(block, token):
    first = block.twice(token)
    yield f"{token.text} is here a second time" + (f"; the first is in line {block.line_of(first.at)}" if first else "")
    yield "helps: take one of the two away, or give it another name"


def literals_at(block, token):
    """The variable, the term and whether it is a conclusion, of the pair of which a token is part."""
    for rule in block.tree.rules:
        for pairs, is_conclusion in ((rule.condition, False), (rule.conclusions, True)):
            for name, term in pairs:
                if token.at in (name.at, term.at):
                    return name, term, is_conclusion
    return None, None, False


def load_unknown(block, token):
    name, term, is_conclusion = literals_at(block, token)
    if term is not None and token.at == term.at:
        section = block.section_of(name.text)
        yield f"{name.text} has no term {token.text}"
        yield from helps_near(token, [it.name.text for it in section.terms] if section else [])
        return
    kind = "VAR_OUTPUT" if is_conclusion else "VAR_INPUT"
    section = block.section_at(token.at)
    if name is None and section is not None:
        kind = "VAR_INPUT" if section.word.upper == "FUZZIFY" else "VAR_OUTPUT"
    yield f"no variable {token.text} is declared in {kind}"
    yield from helps_near(token, block.names(kind))


def helps_near(token, names):
    return (f"helps: {it}" for it in near(token.text, names))


def load_no_terms(block, token):
    section = block.section_at(token.at)
    yield f"{section.word.upper} {section.name.text} has no TERM"
    yield "helps: " + ("write TERM name := (place, degree) (place, degree);" if section.word.upper == "FUZZIFY"
                       else "write TERM name := number;")


def load_too_many(block, token):
    yield f"the limits are {LIMITS}"
    yield "helps: leave out what no rule needs, or make two blocks"


def load_points(block, token):
    section, term = block.term_at(token.at)
    places = [x for _, x, _ in term.points]
    k = next((k for k, (at, _, _) in enumerate(term.points) if at.at == token.at), 0)
    yield f"{spell(places[k])} is below {spell(places[k - 1])}, the point before it"
    if places == sorted(places, reverse=True):
        yield "helps: write the points from left to right: " + spelled_points(term.points[::-1])
    else:
        yield "helps: write the points from left to right"


def spelled_points(points):
    return " ".join(f"({spell(x)}, {y})" for _, x, y in points)


def load_shape(block, token):
    section, term = block.term_at(token.at)
    degrees = "".join(str(y) for _, _, y in term.points)
    yield f"the degrees of {term.name.text} are {', '.join(degrees)}"
    if "1" not in degrees:
        yield "a term has the degree 1 somewhere"
    elif is_term([(x, y) for _, x, y in term.points]):
        yield "between ones there is a zero"
    yield "helps: zeros, then ones, then zeros: (a, 0) (b, 1) (c, 1) (d, 0), without what is not needed"
    if degrees.strip("0").count("0"):
        yield "helps: of a term with two tops make two terms, with OR in the rule"


def range_text(section):
    _, low, high = section.ranges[0]
    return f"({spell(low)} .. {spell(high)})"


def load_outside(block, token):
    section, term = block.term_at(token.at)
    x = next((x for at, x, _ in term.points if at.at == token.at), term.points[0][1])
    yield f"{spell(x)} is outside {section.name.text}'s RANGE {range_text(section)}"
    yield ("helps: cut the side at the range's end, where its degree is 0 or 1 there; or widen RANGE, which makes each "
           "byte's cell wider")


def reversed_range(block, at):
    """The word RANGE of the section of an offset, where its low end is not below its high end."""
    section = block.section_at(at)
    if section and section.ranges:
        word, low, high = section.ranges[0]
        return word if low >= high else None
    return None


def load_range(block, token):
    if token.upper == "RANGE":
        yield f"the low end of RANGE {range_text(block.section_at(token.at))} is not below its high end"
        yield "helps: write the lower number first"
        return
    yield f"{token.text} has no RANGE, and its points are all at one place"
    yield "helps: write RANGE := (low .. high);"


def load_singleton(block, token):
    section, term = block.term_at(token.at)
    section = section or block.section_at(token.at)
    if term is not None:
        yield f"{spell(term.number)} is outside {section.name.text}'s RANGE {range_text(section)}"
    else:
        yield f"DEFAULT {spell(section.default)} is outside {section.name.text}'s RANGE {range_text(section)}"
    yield "helps: take a number within RANGE, or widen RANGE"


def load_weight(block, token):
    rule = next(it for it in block.tree.rules if it.weight and it.weight[0].at == token.at)
    yield f"the weight {spell(rule.weight[1])} is not from 0 to 1"
    yield "helps: divide all weights by the greatest"


def load_side(block, token):
    is_output = block.kind_of(token.text) == "VAR_OUTPUT"
    yield f"{token.text} is an {'output' if is_output else 'input'}"
    if token.at in [it.name.at for it in block.tree.sections]:
        yield "helps: an input has FUZZIFY, an output DEFUZZIFY"
    elif is_output:
        yield "helps: a condition names inputs; make two blocks, the output of the first an input of the second"
    else:
        yield "helps: a conclusion names outputs: " + listed(block.names("VAR_OUTPUT"))


def load_missing(block, token):
    section = block.section_at(token.at)
    if section is not None:
        lacks = [word for word in ("METHOD", "DEFAULT") if word not in section.settings]
        yield f"DEFUZZIFY {section.name.text} has no {listed(lacks, 'and no')}"
        written = {"METHOD": "METHOD : COGS;",
                   "DEFAULT": "DEFAULT := 0; or another number, or NC, which keeps the answer before"}
        yield from (f"helps: write {written[it]}" for it in lacks)
    elif token.kind == NAME:
        word = "FUZZIFY" if block.kind_of(token.text) == "VAR_INPUT" else "DEFUZZIFY"
        yield f"{token.text} has no section {word}"
        yield f"helps: write {word} {token.text} .. END_{word}, or don't declare it"
    else:
        found = {"VAR_INPUT": "input", "VAR_OUTPUT": "output"}
        lacks = [f"no {what}" for kind, what in found.items() if not block.names(kind)]
        yield "the block has " + listed(lacks + ([] if block.tree.rules else ["no rule"]), "and")


LOADS = {1: load_twice, 2: load_unknown, 3: load_no_terms, 4: load_too_many, 5: load_points, 6: load_shape,
         7: load_outside, 8: load_range, 9: load_singleton, 10: load_weight, 11: load_side, 12: load_missing}


def load(file, at, kind):
    """Where a RANGE is reversed its numbers are outside, and that is what is told."""
    block = Declared(file)
    token = next((it for it in block.tree.tokens if it.at == at), None)
    word = reversed_range(block, at) if int(kind) in (7, 9) else None
    token, kind = (word, 8) if word else (token, kind)
    told = file.at(token.at, len(token.text)) if token else file.at(at)
    if block.tree.stopped is not None or token is None or int(kind) not in LOADS:
        told.means = ["a rule of docs/LANGUAGE.md on names, terms, ranges or weights is broken"]
        return told
    for line in LOADS[int(kind)](block, token):
        word, parted, helps = line.partition("helps: ")
        (told.helps if parted and not word else told.means).append(helps if parted and not word else line)
    return told


# ---------------------------------------------------------------------------------------------------------------------
# What fits no firmware.


def too_many_rules(file, number_):
    rules = Grammar(file.text).rules
    rule = rules[int(number_) - 1] if int(number_) <= len(rules) else None
    told = file.at(rule.word.at, len(rule.word.text)) if rule else Told(file.name)
    told.means = ["a rule with OR, or with NOT of an AND, spreads into several without, and with this one they are "
                  "more than 512"]
    told.helps = ["write a term that covers what OR joins; or fewer rules with OR in parentheses under AND"]
    return told


def list_too_long(file, length):
    told = Told(file.name)
    told.means = [f"the rules take {length} bytes, and there is room for {ROOM}"]
    told.helps = ["write fewer rules or conditions: each takes a byte, or two where a rule has a weight"]
    return told
