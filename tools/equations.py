"""Models of plants: a file of equations, of which nothing is run as Python, or a command that is talked to by lines."""
import ast
import math
import operator
import re
import shlex
import subprocess
from contextlib import suppress
from dataclasses import dataclass, field

from fcl import degree
from fuzz12 import Wrong, is_name
from picture import UNITS, time_of

HOUR, DAY = 3600, 24 * 3600


def seconds_of(words, option):
    number, unit = time_of(words, option)
    return float(number * UNITS[unit])


# ---------------------------------------------------------------------------------------------------------------------
# Expressions: an expression becomes a function of the names' values.

BINARY = {ast.Add: operator.add, ast.Sub: operator.sub, ast.Mult: operator.mul, ast.Div: operator.truediv,
          ast.Mod: operator.mod, ast.Pow: operator.pow}
UNARY = {ast.USub: operator.neg, ast.UAdd: operator.pos, ast.Not: operator.not_}
COMPARED = {ast.Lt: operator.lt, ast.LtE: operator.le, ast.Gt: operator.gt, ast.GtE: operator.ge,
            ast.Eq: operator.eq, ast.NotEq: operator.ne}


def course(x, *points):
    """The course through points, which are pairs of a place and a number; its ends go on level."""
    if not points or len(points) % 2:
        raise ValueError("pairs are wanted")
    return degree(list(zip(points[::2], points[1::2])), x)


FUNCTIONS = {"abs": abs, "clip": lambda x, low, high: min(max(x, low), high), "cos": math.cos, "course": course,
             "exp": math.exp, "floor": math.floor, "log": math.log, "max": max, "min": min, "sin": math.sin,
             "sqrt": math.sqrt}


def compiled(node, known):
    """A function that takes the values by their names. What is not listed here is refused."""
    def part(it):
        return compiled(it, known)
    if isinstance(node, ast.Constant) and type(node.value) in (int, float):
        number = float(node.value)
        return lambda values: number
    if isinstance(node, ast.Name):
        name = node.id
        if name not in known:
            raise Wrong(f"there is no {name}")
        return lambda values: values[name]
    if isinstance(node, ast.BinOp) and type(node.op) in BINARY:
        do, left, right = BINARY[type(node.op)], part(node.left), part(node.right)
        return lambda values: do(left(values), right(values))
    if isinstance(node, ast.UnaryOp) and type(node.op) in UNARY:
        do, inner = UNARY[type(node.op)], part(node.operand)
        return lambda values: do(inner(values))
    if isinstance(node, ast.Compare) and len(node.ops) == 1 and type(node.ops[0]) in COMPARED:
        do, left, right = COMPARED[type(node.ops[0])], part(node.left), part(node.comparators[0])
        return lambda values: do(left(values), right(values))
    if isinstance(node, ast.BoolOp):
        both, parts = isinstance(node.op, ast.And), [part(it) for it in node.values]
        return lambda values: (all if both else any)(it(values) for it in parts)
    if isinstance(node, ast.IfExp):
        test, yes, no = part(node.test), part(node.body), part(node.orelse)
        return lambda values: yes(values) if test(values) else no(values)
    if isinstance(node, ast.Call) and isinstance(node.func, ast.Name) and not node.keywords:
        if node.func.id not in FUNCTIONS:
            raise Wrong(f"there is no {node.func.id}()")
        do, parts = FUNCTIONS[node.func.id], [part(it) for it in node.args]
        return lambda values: do(*(it(values) for it in parts))
    raise Wrong("an expression of numbers, names, + - * / % **, comparisons and functions is wanted")


def expression(text, known):
    try:
        return compiled(ast.parse(text.strip(), mode="eval").body, known)
    except (SyntaxError, ValueError, OverflowError, MemoryError):
        raise Wrong("an expression is wanted behind =") from None


# ---------------------------------------------------------------------------------------------------------------------
# A file of equations.

KINDS = ("state", "output", "let", "input", "show", "sample", "step")
AT_A_SAMPLE, AT_A_STEP = ("let", "show", "input", "sample"), ("let", "step")
LINE = re.compile(r"(\w+)\s+(\w+)\s*(?:=(?!=)\s*(.+))?")


@dataclass
class Equation:
    place: str  # the file and the line
    kind: str
    name: str
    value: object  # a function of the values

    def of(self, values):
        try:
            number = float(self.value(values))
        except (ArithmeticError, ValueError, TypeError):
            number = math.nan
        if not math.isfinite(number):
            raise Wrong(f"{self.place}: {self.name} is no number here")
        return number


@dataclass
class Equations:
    """The model of a file: the values of its names, and its equations in their order."""

    name: str
    title: str = ""
    every: float = 60.0  # seconds from a sample to the next
    steps: int = 1
    values: dict = field(default_factory=lambda: {"second": 0.0, "hour": 0.0, "dt": 60.0})
    equations: list = field(default_factory=list)

    def names(self, kind):
        return [it.name for it in self.equations if it.kind == kind]

    def do(self, kinds, found=None):
        """Does the equations of some kinds; those of an input or of what is shown set nothing, and are found."""
        for it in self.equations:
            if it.kind in kinds:
                number = it.of(self.values)
                if it.kind in ("input", "show"):
                    found[it.kind][it.name] = number
                else:
                    self.values[it.name] = number

    def sense(self):
        """What is shown at a sample, and what its sensors tell, by name."""
        found = {"show": {}, "input": {}}
        self.do(AT_A_SAMPLE, found)
        return found["show"], found["input"]

    def go(self, answers):
        """The plant up to the next sample, driven by the answers."""
        self.values.update({name: it for name, it in answers.items() if name in self.names("output")})
        for _ in range(self.steps):
            self.do(AT_A_STEP)
            self.values["second"] += self.values["dt"]
            self.values["hour"] = self.values["second"] % DAY / HOUR

    def close(self):
        """There is nothing to end, as of a command."""

    # Reading.

    def read_every(self, words):
        parts = re.fullmatch(r"(\S+)(?:\s+in\s+([1-9]\d{0,5})\s+steps?)?", words)
        if not parts:
            raise Wrong("every TIME in N steps is wanted")
        self.every, self.steps = seconds_of(parts[1], "every"), int(parts[2] or 1)
        self.values["dt"] = self.every / self.steps

    def read_line(self, place, text):
        kind, _, rest = text.partition(" ")
        if kind == "title":
            self.title = rest.strip()
        elif kind == "every":
            self.read_every(rest.strip())
        else:
            self.read_equation(place, text.lower())

    def read_equation(self, place, text):
        parts = LINE.fullmatch(text)
        if not parts or parts[1] not in KINDS or not is_name(parts[2]) or (parts[3] is None and parts[1] != "show"):
            raise Wrong(f"title, every, or one of {', '.join(KINDS)} with NAME = EXPRESSION is wanted")
        kind, name = parts[1], parts[2]
        if kind in ("sample", "step") and name not in self.values:
            raise Wrong(f"there is no state {name}")
        it = Equation(place, kind, name, expression(parts[3] or name, self.values))
        if kind in ("state", "output", "let"):
            self.values[name] = it.of(self.values)
        self.equations.append(it)


def equations_of(name, file, text):
    """The model that a file spells. What is wrong is said with its line."""
    model = Equations(name)
    for number, line in enumerate(text.splitlines(), start=1):
        line, place = line.partition("#")[0].strip(), f"{file}: line {number}"
        if line:
            try:
                model.read_line(place, line)
            except Wrong as wrong:
                said = str(wrong)
                raise Wrong(said if said.startswith(place) else f"{place}: {said}") from None
    if not model.names("input") or not model.names("output"):
        raise Wrong(f"{file}: a model has inputs and outputs")
    return model


# ---------------------------------------------------------------------------------------------------------------------
# A command.


class Command:
    """A model that runs beside: for each sample it prints a line, and reads one with the answers, each of pairs of a
    name and a number. What the block has no input for is shown."""

    title = ""

    def __init__(self, words, inputs, outputs, every):
        self.name, self.inputs, self.every = words, inputs, every
        self.taken = {"input": inputs, "output": outputs}
        try:
            self.process = subprocess.Popen(shlex.split(words), stdin=subprocess.PIPE, stdout=subprocess.PIPE,
                                            text=True)
        except (ValueError, IndexError):
            raise Wrong(f"{words}: no command") from None

    def sense(self):
        words = self.process.stdout.readline().split()
        try:
            found = {name.lower(): float(number) for name, number in zip(words[::2], words[1::2])}
        except ValueError:
            found = {}
        if not all(map(math.isfinite, found.values())) or not set(self.inputs) <= set(found):
            said = " ".join(words) or "nothing"
            raise Wrong(f"the command says {said}, and not {', '.join(self.inputs)} with numbers")
        return {name: it for name, it in found.items() if name not in self.inputs}, found

    def names(self, kind):
        return self.taken[kind]

    def go(self, answers):
        try:
            self.process.stdin.write(" ".join(f"{name} {it:.9g}" for name, it in answers.items()) + "\n")
            self.process.stdin.flush()
        except BrokenPipeError:
            raise Wrong("the command ended before the last sample") from None

    def close(self):
        with suppress(BrokenPipeError):
            self.process.stdin.close()
        self.process.wait()
