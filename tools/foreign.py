"""What fuzzylite, jFuzzyLogic and Matlab write, FLL, their FCL and .fis, read as an engine."""
import re

from engine import NUMBER, Block, Engine, Rules, Term, Variable, named, number, term_of
from fcl import comments_of
from fis import is_fis, read_fis
from fuzz12 import Wrong
from shapes import CURVES

# The words for shapes that fuzzylite has, and jFuzzyLogic has not.
FUZZYLITE = {"triangle", "trapezoid", "ramp", "rectangle", "discrete", *CURVES} - {"cosine"}
BLANK = r"\(\*.*?\*\)|/\*.*?\*/|//[^\n]*|#[^\n]*|\s+"
TOKEN = re.compile(rf"{BLANK}|(\.\.|:=|{NUMBER}|[-+]?\d+(?=\.\.)|[A-Za-z_][\w-]*|.)", re.S)


# ---------------------------------------------------------------------------------------------------------------------
# FLL: a line is a key and what is said of it.


def read_fll(text):
    engine, here = Engine("engine", "fll", adds=True), None
    for line_number, line in enumerate(text.splitlines(), start=1):
        said, _, comment = line.partition("#")
        key, _, value = (it.strip() for it in said.partition(":"))
        if key in ("InputVariable", "OutputVariable"):
            here = Variable(value, comment.strip())
            (engine.inputs if key == "InputVariable" else engine.outputs).append(here)
        elif key == "RuleBlock":
            here = Block(value)
            engine.blocks.append(here)
        elif key == "Engine":
            engine.name = value
        elif key == "enabled" and here:
            here.is_enabled = value != "false"
        elif isinstance(here, Variable):
            with named(f"line {line_number}"):
                read_line_of_variable(here, key, value)
        elif here:
            read_line_of_rules(engine, here, key, value)
    return engine


def read_line_of_variable(variable, key, value):
    words = value.split()
    if key == "term":
        variable.terms.append(term_of(words[0], words[1], words[2:]))
    elif key == "range":
        variable.span = tuple(map(number, words))
    elif key == "description":
        variable.comment = value
    elif key == "default":
        variable.default = number(value)
    elif key == "lock-previous":
        variable.keeps = value == "true"
    elif key == "lock-range":
        variable.clips = value == "true"
    elif key == "defuzzifier":
        variable.method = value.lower()
    elif key == "aggregation":
        variable.accumulation = value.lower()


def read_line_of_rules(engine, block, key, value):
    if key == "rule":
        engine.rules.append(Rules(re.findall(r"[\w.+-]+|[(),]", value)).rule(block))
    elif key in ("conjunction", "disjunction", "implication", "activation"):
        block.operators[key] = value.lower().split()[0] if value else ""


# ---------------------------------------------------------------------------------------------------------------------
# FCL as others write it.


class Fcl:
    def __init__(self, text):
        self.tokens = [it for it in TOKEN.findall(text) if it.strip()]
        self.comments = comments_of(re.sub(r"/\*(.*?)\*/", r"(*\1*)", text.replace("#", "//"), flags=re.S))
        self.engine = Engine("engine", adds="fuzzylite" in text)
        self.variables = {}

    def peek(self, ahead=0):
        return self.tokens[ahead].lower() if ahead < len(self.tokens) else ""

    def next(self):
        if not self.tokens:
            raise Wrong("the text ends too early")
        return self.tokens.pop(0)

    def line(self):
        """The words up to the next semicolon."""
        words = []
        while self.peek() not in (";", ""):
            words.append(self.next())
        if self.tokens:
            self.next()
        return words

    def read(self):
        parts = {"var_input": self.declared, "var_output": self.declared, "fuzzify": self.section,
                 "defuzzify": self.section, "ruleblock": self.rule_block, "var": self.passed, "option": self.passed}
        while self.tokens:
            word = self.next().lower()
            if word == "function_block" and self.peek() not in (*parts, ""):
                self.engine.name = self.next()
            elif word in parts:
                parts[word](word)
        return self.engine

    def passed(self, word):
        while self.tokens and self.next().lower() != "end_" + word:
            pass
        self.engine.left_out.append(f"{word.upper()} .. END_{word.upper()}")

    def declared(self, word):
        into = self.engine.inputs if word == "var_input" else self.engine.outputs
        while self.peek() != "end_var":
            for it in " ".join(self.line()).partition(":")[0].split(","):
                variable = Variable(it.strip(), self.comments.get(it.strip().lower(), ""))
                self.variables[variable.name.lower()] = variable
                into.append(variable)
        self.next()

    def section(self, word):
        variable = self.variables.get(self.peek())
        if variable is None:
            raise Wrong(f"{self.peek()} is not declared")
        self.next()
        while self.peek() != "end_" + word:
            key = self.next().lower()
            if not self.tokens:
                raise Wrong(f"{variable.name}: END_{word.upper()} is missing")
            with named(f"{variable.name}: {key}"):
                self.setting(variable, key, [it for it in self.line() if it not in (":=", ":")])
        self.next()

    def setting(self, variable, key, words):
        if key == "term":
            variable.terms.append(self.term(words))
            self.engine.adds |= len(words) > 2 and words[1].lower() in FUZZYLITE
        elif key in ("enabled", "lock", "lock-range", "lock-previous"):
            self.engine.adds = True
            said = {it.lower() for it in words}
            variable.is_enabled = variable.is_enabled and (key != "enabled" or "false" not in said)
            variable.clips = variable.clips or "range" in said or (key == "lock-range" and "true" in said)
        elif key == "range":
            variable.span = tuple(number(it) for it in words if number(it) is not None)
        elif key == "default":
            variable.default = number(words[0])
            variable.keeps = words[-1].lower() == "nc"
            self.engine.adds |= words[0].lower() == "nan" or len(words) > 1
        elif key == "method":
            variable.method = words[-1].lower()
        elif key == "accu":
            variable.accumulation = words[-1].lower()

    @staticmethod
    def term(words):
        name, *rest = words
        numbers = [number(it) for it in rest if it not in ("(", ")", ",")]
        if not rest or (None in numbers and rest[0] == "("):
            raise Wrong(f"{name}: a point is no pair of numbers")
        if rest[0] == "(" or "," in rest:
            return Term(name, "points", [(numbers[k], numbers[k + 1]) for k in range(0, len(numbers) - 1, 2)])
        return Term(name, "constant", numbers) if len(rest) == 1 else term_of(name, rest[0], rest[1:])

    def rule_block(self, _):
        block = Block("" if self.peek(1) == ":" else self.peek())
        self.engine.blocks.append(block)
        ends = ("rule", "end_ruleblock")
        while self.peek() != "end_ruleblock":
            if not self.tokens:
                raise Wrong("END_RULEBLOCK is missing")
            word = self.next().lower()
            if word in ("and", "or", "act", "accu", "enabled") and self.peek() == ":":
                with named(word):
                    self.operator(block, word, self.line()[-1].lower())
            elif word == "rule":
                words = []
                while self.peek() not in (*ends, ";", ""):
                    words.append(self.next())
                self.engine.adds |= self.peek() != ";"
                behind = next((k for k, it in enumerate(words) if it == ":"), -1)
                self.engine.rules.append(Rules(words[behind + 1:]).rule(block))
        self.next()

    def operator(self, block, word, name):
        if word == "accu":
            for it in self.engine.outputs:
                it.accumulation = it.accumulation or name
        elif word == "enabled":
            block.is_enabled = name != "false"
        else:
            block.operators[{"and": "conjunction", "or": "disjunction", "act": "implication"}[word]] = name


def read_foreign(text):
    """The engine of a text of any of these languages."""
    if is_fis(text):
        engine = read_fis(text)
    elif re.search(r"^\s*(Engine|InputVariable)\s*:", text, re.M):
        engine = read_fll(text)
    else:
        engine = Fcl(text).read()
    if not engine.inputs or not engine.outputs or not engine.rules:
        raise Wrong("no FLL, no .fis and no FCL with inputs, outputs and rules")
    return engine
