"""The grammar of docs/LANGUAGE.md, read with the place of each part, up to the first token that no text has there."""
import re
from dataclasses import dataclass, field
from fractions import Fraction

SKIPPED = re.compile(r"(?:[ \t\r\n]|\(\*.*?\*\)|//[^\n]*)+", re.S)
TOKEN = re.compile(r"[A-Za-z_][A-Za-z0-9_]*|\d+(?:\.\d+)?|:=|\.\.|[-+:;,()]", re.A)
NAME, NUMBER, END = "a name", "a number", "the end of the text"
KEYWORDS = set("""FUNCTION_BLOCK END_FUNCTION_BLOCK VAR_INPUT VAR_OUTPUT END_VAR VAR OPTION END_OPTION FUZZIFY
    END_FUZZIFY DEFUZZIFY END_DEFUZZIFY TERM RANGE ACCU METHOD DEFAULT RULEBLOCK END_RULEBLOCK AND OR ACT RULE IF THEN
    IS NOT WITH""".split())
CHOICES = {"METHOD": ["COGS"], "ACCU": ["MAX"], "AND": ["MIN"], "OR": ["MAX"], "ACT": ["MIN", "PROD"]}


@dataclass
class Token:
    text: str
    at: int

    @property
    def upper(self):
        return self.text.upper()

    @property
    def kind(self):
        if not self.text:
            return END
        if self.upper in KEYWORDS or not (self.text[0].isalnum() or self.text[0] == "_"):
            return self.upper
        return NUMBER if self.text[0].isdigit() else NAME


def tokens_of(text):
    """The tokens, and the end; a byte that begins none is a token of its own."""
    tokens, at = [], 0
    while True:
        blank = SKIPPED.match(text, at)
        at = blank.end() if blank else at
        if at >= len(text):
            return tokens + [Token("", len(text))]
        found = TOKEN.match(text, at)
        tokens.append(Token(found[0] if found else text[at], at))
        at += len(tokens[-1].text)


@dataclass
class Section:
    """FUZZIFY or DEFUZZIFY."""

    word: Token
    name: Token
    terms: list = field(default_factory=list)
    ranges: list = field(default_factory=list)  # RANGE, and its two numbers
    settings: dict = field(default_factory=dict)  # the tokens METHOD, DEFAULT, ACCU by their words
    default: Fraction = None
    end: Token = None


@dataclass
class Term:
    word: Token
    name: Token
    points: list  # the parenthesis, the place and the degree of each
    number: Fraction = None


@dataclass
class Rule:
    word: Token
    label: str
    condition: list = field(default_factory=list)  # pairs of name and term
    conclusions: list = field(default_factory=list)
    weight: tuple = None  # WITH, and the number


class Number(Fraction):
    """A number of the text, which stands from one offset up to another."""

    span = (0, 0)


class Stop(Exception):
    """The first token that no text has there."""


class Grammar:
    """What a text declares, as far as it goes by the grammar; `stopped` is the token at which that ends, or None."""

    def __init__(self, text):
        self.tokens, self.k, self.wanted = tokens_of(text), 0, []
        self.inside = []  # what the token is part of
        self.variables, self.sections, self.rules, self.end = [], [], [], None
        try:
            self.block()
            self.stopped = None
        except Stop:
            self.stopped = self.token

    @property
    def token(self):
        return self.tokens[self.k]

    @property
    def before(self):
        return self.tokens[self.k - 1] if self.k else None

    def sees(self, *wanted):
        """Whether the token is one of these, each a kind or a word in capitals."""
        self.wanted += wanted
        it = self.token
        return it.kind in wanted or (it.kind == NAME and it.upper in wanted)

    def may(self, *wanted):
        """The token, if it is one of these."""
        if not self.sees(*wanted):
            return None
        self.k, self.wanted = self.k + 1, []
        return self.before

    def take(self, *wanted):
        found = self.may(*wanted)
        if found is None:
            raise Stop
        return found

    def block(self):
        self.take("FUNCTION_BLOCK")
        self.take(NAME)
        while word := self.may("VAR_INPUT", "VAR_OUTPUT"):
            self.inside = [word.upper]
            self.declarations(word)
        while word := self.may("FUZZIFY", "DEFUZZIFY"):
            self.section(word)
        self.inside = []
        self.take("RULEBLOCK")
        self.inside = ["RULEBLOCK"]
        self.take(NAME)
        self.rule_block()
        self.inside = []
        self.end = self.take("END_FUNCTION_BLOCK")
        self.take(END)

    def declarations(self, word):
        while not self.may("END_VAR"):
            self.variables.append((word.upper, self.take(NAME)))
            while self.may(","):
                self.variables.append((word.upper, self.take(NAME)))
            self.take(":")
            self.take("REAL")
            self.take(";")

    def section(self, word):
        section = Section(word, self.take(NAME))
        self.sections.append(section)
        here = self.inside = [f"{word.upper} {section.name.text}"]
        parts = {"TERM": self.term, "RANGE": self.range}
        if word.upper == "DEFUZZIFY":
            parts.update(METHOD=self.choice, ACCU=self.choice, DEFAULT=self.default)
        while not self.sees("END_" + word.upper):
            part = self.take(*parts)
            self.inside = here + [part.upper]
            parts[part.upper](section, part)
            self.inside = here
        section.end = self.take("END_" + word.upper)

    def term(self, section, word):
        term = Term(word, self.take(NAME), [])
        self.inside[-1] += f" {term.name.text}"
        self.take(":=")
        if section.word.upper == "DEFUZZIFY":
            term.number = self.number()
        else:
            term.points.append(self.point())
            while not self.sees(";"):
                term.points.append(self.point())
        self.take(";")
        section.terms.append(term)

    def point(self):
        at = self.take("(")
        place = self.number()
        self.take(",")
        degree = self.number()
        self.take(")")
        return at, place, degree

    def number(self):
        sign = self.may("+", "-")
        digits = self.take(NUMBER)
        number = Number((sign.text if sign else "") + digits.text)
        number.span = ((sign or digits).at, digits.at + len(digits.text))
        return number

    def range(self, section, word):
        self.may(":=")
        self.take("(")
        low = self.number()
        self.take("..")
        section.ranges.append((word, low, self.number()))
        self.take(")")
        self.take(";")

    def choice(self, section, word):
        section.settings.setdefault(word.upper, []).append(word)
        self.take(":")
        self.take(*CHOICES[word.upper])
        self.take(";")

    def default(self, section, word):
        section.settings.setdefault("DEFAULT", []).append(word)
        self.take(":=")
        section.default = None if self.may("NC") else self.number()
        self.take(";")

    def rule_block(self):
        chosen = Section(self.before, self.before)
        self.rule_settings = chosen.settings
        while not self.rules and (word := self.may("AND", "OR", "ACT", "ACCU")):
            self.choice(chosen, word)
        while word := self.may("RULE"):
            self.rules.append(Rule(word, ""))
            self.rule(self.rules[-1])
            self.inside = ["RULEBLOCK"]
        self.take("END_RULEBLOCK")

    def rule(self, rule):
        self.inside = ["RULEBLOCK", f"RULE {self.token.text}"]
        rule.label = self.take(NUMBER).text
        self.take(":")
        self.take("IF")
        self.either(rule)
        self.take("THEN")
        rule.conclusions.append(self.conclusion())
        while self.may(","):
            rule.conclusions.append(self.conclusion())
        if word := self.may("WITH"):
            rule.weight = (word, self.number())
        self.take(";")

    def conclusion(self):
        name = self.take(NAME)
        self.take("IS")
        return name, self.take(NAME)

    def either(self, rule):
        self.one(rule)
        while self.may("AND", "OR"):
            self.one(rule)

    def one(self, rule):
        while self.may("NOT"):
            pass
        if self.may("("):
            self.either(rule)
            self.take(")")
            return
        name = self.take(NAME)
        self.take("IS")
        self.may("NOT")
        rule.condition.append((name, self.take(NAME)))
