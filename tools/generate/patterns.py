"""Patterns of children, as specs/Pattern.antt defines them, and how they are read from specs/Rows.antt.

A pattern is a tuple: ("any_of", kinds), ("nothing",), ("then", p, q), ("or_else", p, q) or ("many", p). The kinds of
`any_of` are a tuple.
"""

import re
from dataclasses import dataclass

NEVER = ("any_of", ())
NOTHING = ("nothing",)


def any_of(kinds):
    return ("any_of", tuple(kinds))


@dataclass
class Definition:
    type: str
    parameters: list[str]
    body: str


def definitions(text):
    """Each `abbrev pub` or `unfoldable pub` of a file by its name, without comments."""
    text = re.sub(r"--.*", "", text)
    found = {}
    for block in re.split(r"\n(?=abbrev pub |unfoldable pub )", text):
        head = re.match(r"(?:abbrev|unfoldable) pub (\S+) :([^\n]*)\n", block)
        if not head:
            continue
        name = head.group(1)
        clause = re.match(re.escape(name) + r"((?: \w+)*) =(.*)", block[head.end():], re.S)
        if clause:
            found[name] = Definition(head.group(2).strip(), clause.group(1).split(), clause.group(2))
    return found


class Reader:
    """Reads patterns from their text. `grammar` has the kinds, the named lists of kinds and the named patterns; `bound`
    are the values of parameters, `row` is the kind whose row is read, and `within` are the patterns in which this one
    is."""

    def __init__(self, source, grammar, bound=None, row=None, within=()):
        self.words = re.findall(r"[()\[\],∷]|[^\s()\[\],∷]+", source)
        self.at = 0
        self.grammar, self.bound, self.row, self.within = grammar, bound or {}, row, within

    def refuse(self, what):
        raise SystemExit(f"Rows.antt: {what}" + (f", in the row of {self.row}" if self.row else ""))

    def peek(self):
        return self.words[self.at] if self.at < len(self.words) else None

    def take(self, expected=None):
        word = self.peek()
        if expected is not None and word != expected:
            following = " ".join(self.words[self.at + 1 : self.at + 8])
            self.refuse(f"expected {expected}, found {word or 'the end'}{' before ' + following if following else ''}")
        self.at += 1
        return word

    def kinds(self):
        """A list of kinds: the name of one, or `(A ∷ B ∷ [])`."""
        if self.peek() != "(":
            name = self.take()
            if name not in self.grammar.lists:
                self.refuse(f"no list of kinds is called {name}")
            return self.grammar.lists[name]
        self.take("(")
        found = []
        while self.peek() != "[":
            found.append(self.kind())
            self.take("∷")
        self.take("[")
        self.take("]")
        self.take(")")
        return found

    def kind(self):
        word = self.take()
        kind = self.bound.get(word, word)
        if kind not in self.grammar.number:
            self.refuse(f"{kind} is no kind")
        return kind

    def atom(self):
        """A pattern in parentheses, or one of the words for patterns with its argument."""
        if self.peek() == "(":
            self.take("(")
            pattern = self.pattern()
            self.take(")")
            return pattern
        word = self.take()
        if word == "nothing":
            return NOTHING
        if word == "any_of":
            return any_of(self.kinds())
        if word == "one":
            return any_of([self.kind()])
        if word == "optional":
            return ("or_else", any_of([self.kind()]), NOTHING)
        if word == "many":
            return ("many", self.atom())
        if word == "some":
            inner = self.atom()
            return ("then", inner, ("many", inner))
        return self.named(word)

    def named(self, name):
        """A pattern by its name, with a kind for each of its parameters."""
        if name not in self.grammar.patterns:
            self.refuse(f"no pattern is called {name}")
        if name in self.within:
            self.refuse(f"the pattern {name} has itself in it")
        definition = self.grammar.patterns[name]
        values = {parameter: self.kind() for parameter in definition.parameters}
        return Reader(definition.body, self.grammar, values, self.row, (*self.within, name)).pattern()

    def sequence(self):
        first = self.atom()
        if self.peek() == "then":
            self.take()
            return ("then", first, self.sequence())
        return first

    def pattern(self):
        first = self.sequence()
        if self.peek() == "or_else":
            self.take()
            return ("or_else", first, self.pattern())
        return first

    def rows(self):
        """The table: `(KIND, pattern) ∷ .. ∷ []`."""
        found = {}
        while self.peek() == "(":
            self.take("(")
            self.row = None
            kind = self.kind()
            if kind in found:
                self.refuse(f"{kind} has two rows")
            self.row = kind
            self.take(",")
            found[kind] = self.pattern()
            if self.peek() == ",":
                self.take()
            self.take(")")
            self.take("∷")
        self.take("[")
        self.take("]")
        return found


def symbols(pattern):
    """The kinds that are in a pattern, each once, in order."""
    found = []
    parts = pattern[1] if pattern[0] == "any_of" else [kind for part in pattern[1:] for kind in symbols(part)]
    for kind in parts:
        if kind not in found:
            found.append(kind)
    return found


def renamed(pattern, names):
    """The pattern with other lists in place of some of its lists of kinds, or other kinds in place of some of its
    kinds."""
    if pattern[0] == "any_of":
        if pattern[1] in names:
            return any_of(names[pattern[1]])
        return any_of(names.get(kind, kind) for kind in pattern[1])
    return (pattern[0], *(renamed(part, names) for part in pattern[1:]))


def then(first, second):
    """One pattern and then the other, without needless parts."""
    if NEVER in (first, second):
        return NEVER
    if first == NOTHING:
        return second
    if second == NOTHING:
        return first
    if first[0] == "then":
        return then(first[1], then(first[2], second))
    return ("then", first, second)


def or_else(first, second):
    """One of two patterns; each choice is there once."""
    choices = []
    for pattern in (first, second):
        while pattern[0] == "or_else":
            choices.append(pattern[1])
            pattern = pattern[2]
        choices.append(pattern)
    kept = [choice for index, choice in enumerate(choices) if choice != NEVER and choice not in choices[:index]]
    if not kept:
        return NEVER
    result = kept.pop()
    while kept:
        result = ("or_else", kept.pop(), result)
    return result


def nullable(pattern):
    """Whether the pattern fits no children at all."""
    if pattern[0] == "any_of":
        return False
    if pattern[0] == "then":
        return nullable(pattern[1]) and nullable(pattern[2])
    if pattern[0] == "or_else":
        return nullable(pattern[1]) or nullable(pattern[2])
    return True


def derivative(pattern, kind):
    """What may follow a child of the kind."""
    if pattern[0] == "any_of":
        return NOTHING if kind in pattern[1] else NEVER
    if pattern == NOTHING:
        return NEVER
    if pattern[0] == "many":
        return then(derivative(pattern[1], kind), pattern)
    if pattern[0] == "or_else":
        return or_else(derivative(pattern[1], kind), derivative(pattern[2], kind))
    after_first = then(derivative(pattern[1], kind), pattern[2])
    return or_else(after_first, derivative(pattern[2], kind)) if nullable(pattern[1]) else after_first
