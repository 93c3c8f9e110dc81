"""Documents at random, and other texts with the tokens of a document."""

import re

KEYWORDS = [
    "type", "query", "mutation", "subscription", "fragment", "on", "input", "enum", "union", "scalar", "schema",
    "extend", "interface", "implements", "directive", "repeatable", "true", "false", "null",
]
NAMES = ["a", "bb", "x_1", "name", "someLongerName", "aQuiteLongNameOfAFieldOrArgument", "_", "on1", *KEYWORDS]
STRINGS = [
    '""',
    '"text"',
    '"a b c"',
    '"é, 語"',
    '"\\n x"',
    '"\\""',
    '"# no comment"',
    '"a text that is longer than the others, so that lines get too long"',
    '"\\u0041 \\/"',
    '"😀"',
    '"\ttab"',
]
LINES = [
    "",
    "text",
    "  indented",
    'with "quotes"',
    'x \\""" y',
    "back\\ slash",
    "    deep",
    "é",
    'a "',
    "b \\",
    "# no comment",
    '\\"""',
    "   ",
    "\ttab",
    "a, b",
    "a line that is longer than seventy characters, and than the seventy-five of others",
]
LOCATIONS = [
    "FIELD", "QUERY", "OBJECT", "ENUM_VALUE", "ARGUMENT_DEFINITION", "VARIABLE_DEFINITION", "INPUT_FIELD_DEFINITION",
]
OPERATIONS = ["query", "mutation", "subscription"]
LF = "\n"
# The tokens and the comments of a document.
TOKEN = re.compile(
    r'"""(?:\\"""|(?!""").)*"""|"(?:\\.|[^"\\\n\r])*"|#[^\n\r]*|\.\.\.|[!$&()\[\]{}|:=@]|-?\d[\w.+-]*|[_A-Za-z]\w*',
    re.ASCII | re.DOTALL,
)


class Documents:
    """Makes documents: all definitions and extensions, all sorts of values, descriptions and block strings, and names
    that are keywords."""

    def __init__(self, random):
        self.random = random

    def pick(self, *choices):
        return self.random.choice(choices)

    def once(self, count):
        return self.random.randrange(count) == 0

    def maybe(self, make, count=2):
        return make() if self.once(count) else ""

    def many(self, make, least, most, sign=" "):
        return sign.join(make() for _ in range(self.random.randint(least, most)))

    def document(self):
        found = self.definition()
        for _ in range(self.random.randrange(4)):
            following = self.definition()
            # braces behind a definition that has none would be its own
            found += "\n" + ("query" if following.startswith("{") and not found.endswith("}") else "") + following
        return found

    def definition(self):
        kinds = [
            self.operation, self.operation, self.fragment, self.schema, self.scalar, self.fields, self.fields,
            self.union, self.enum, self.input, self.directive_definition, self.extension,
        ]
        return self.random.choice(kinds)()

    def extension(self):
        kinds = {
            "type": self.field_block, "interface": self.field_block, "union": self.members, "enum": self.enum_values,
            "input": self.input_fields,
        }
        kind = self.pick("schema", "scalar", *kinds)
        head = f"extend {kind} " if kind == "schema" else f"extend {kind} {self.name()} "
        return (
            head + self.directive() if kind not in kinds or self.once(3) else head + self.directives() + kinds[kind]()
        )

    def name(self):
        return self.random.choice(NAMES)

    def fragment_name(self):
        return self.random.choice([name for name in NAMES if name != "on"])

    def enum_value(self):
        return self.random.choice([name for name in NAMES if name not in ("true", "false", "null")])

    def type(self, depth=0):
        return (f"[{self.type(depth + 1)}]" if depth < 3 and self.once(3) else self.name()) + self.maybe(lambda: "!")

    def block_string(self):
        lines = self.many(lambda: self.random.choice(LINES), 1, 4, self.pick(LF, LF, "\n  ", "\r\n", "\r"))
        return f'"""{self.pick("", "", LF, "  ")}{lines}{self.pick(" ", LF, LF + "  ")}"""'

    def string(self):
        return self.random.choice(STRINGS)

    def value(self, constant, depth=0):
        kind = self.random.randrange(6 if depth > 1 else 9)
        inner = lambda: self.value(constant, depth + 1)
        if kind == 0:
            return self.pick("0", "-15", "100000", "0.5", "-1.5e9", "2E+3")
        if kind == 1:
            return self.string()
        if kind == 2:
            return self.pick("true", "false", "null")
        if kind == 3:
            return self.enum_value()
        if kind == 4:
            return "1" if constant else f"${self.name()}"
        if kind == 5:
            return self.maybe(self.block_string, 3) or self.string()
        if kind < 7:
            return f"[{self.many(inner, 0, 4)}]"
        return "{" + self.many(lambda: f"{self.name()}:{inner()}", 0, 4) + "}"

    def arguments(self, constant):
        return self.maybe(lambda: f"({self.many(lambda: f'{self.name()}:{self.value(constant)}', 1, 5)})")

    def directive(self, constant=True):
        return f"@{self.name()}{self.arguments(constant)}"

    def directives(self, constant=True):
        return self.maybe(lambda: f" {self.many(lambda: self.directive(constant), 1, 4)} ", 3)

    def description(self):
        return self.maybe(
            lambda: self.pick(
                '"text" ', '"" ', '""" a block """ ', '"""\nmany\n  lines\n""" ', f"{self.block_string()} "
            ),
            3,
        )

    def selection_set(self, depth=0):
        return "{" + self.many(lambda: self.selection(depth), 1, 4) + "}"

    def selection(self, depth):
        kind = self.random.randrange(8)
        if kind == 0:
            return f"...{self.fragment_name()}{self.directives(False)}"
        if kind == 1 and depth < 3:
            return (
                f"...{self.maybe(lambda: f' on {self.name()}')}{self.directives(False)}{self.selection_set(depth + 1)}"
            )
        below = self.selection_set(depth + 1) if depth < 3 and self.once(3) else ""
        return (
            self.maybe(lambda: f"{self.name()}:", 4)
            + self.name()
            + self.arguments(False)
            + self.directives(False)
            + below
        )

    def variable(self):
        return f"${self.name()}:{self.type()}{self.maybe(lambda: f'={self.value(True)}')}{self.directives()}"

    def operation(self):
        if self.once(3):
            return self.selection_set()
        variables = self.maybe(lambda: f"({self.many(self.variable, 1, 3)})")
        head = f"{self.random.choice(OPERATIONS)} {self.maybe(self.name)}{variables}"
        return head + self.directives(False) + self.selection_set()

    def fragment(self):
        return f"fragment {self.fragment_name()} on {self.name()}{self.directives(False)}{self.selection_set()}"

    def schema(self):
        head = f"{self.description()}schema{self.directives()}"
        return head + "{" + self.many(lambda: f"{self.random.choice(OPERATIONS)}:{self.name()}", 1, 3) + "}"

    def scalar(self):
        return f"{self.description()}scalar {self.name()}{self.directives()}"

    def lead(self, sign):
        return f" {self.maybe(lambda: sign)} "

    def interfaces(self):
        return self.maybe(lambda: f" implements{self.lead('&')}{self.many(self.name, 1, 5, ' & ')} ")

    def fields(self):
        head = f"{self.description()}{self.pick('type', 'interface')} {self.name()}"
        return head + self.interfaces() + self.directives() + self.maybe(self.field_block)

    def field_block(self):
        return "{" + self.many(self.field, 1, 4) + "}"

    def field(self):
        arguments = self.maybe(lambda: f"({self.many(self.input_value, 1, 3)})")
        return f"{self.description()}{self.name()}{arguments}:{self.type()}{self.directives()}"

    def input_value(self):
        default = lambda: f"={self.value(True)}"
        return f"{self.description()}{self.name()}:{self.type()}{self.maybe(default)}{self.directives()}"

    def union(self):
        return f"{self.description()}union {self.name()}{self.directives()}{self.maybe(self.members)}"

    def members(self):
        return f" ={self.lead('|')}{self.many(self.name, 1, 6, ' | ')}"

    def enum(self):
        return f"{self.description()}enum {self.name()}{self.directives()}{self.maybe(self.enum_values)}"

    def enum_values(self):
        return "{" + self.many(lambda: self.description() + self.enum_value() + self.directives(), 1, 4) + "}"

    def input(self):
        return f"{self.description()}input {self.name()}{self.directives()}{self.maybe(self.input_fields)}"

    def input_fields(self):
        return "{" + self.many(self.input_value, 1, 4) + "}"

    def directive_definition(self):
        arguments = self.maybe(lambda: f"({self.many(self.input_value, 1, 3)})")
        locations = self.many(lambda: self.random.choice(LOCATIONS), 1, 5, " | ")
        return (
            f"{self.description()}directive"
            f" @{self.name()}{arguments}{self.maybe(lambda: ' repeatable')} on{self.lead('|')}{locations}"
        )


def shaken(text, random):
    """The same tokens with other white space and commas between them, and block strings with other indents."""
    result = previous = ""
    for token in TOKEN.finditer(text):
        word = token[0]
        if word.startswith('"""') and random.random() < 0.5:
            more = random.choice(["", " ", "     ", "\t"])
            word = random.choice(["\n", "\n", "\r\n"]).join(
                more * (number > 0) + part for number, part in enumerate(word.split("\n"))
            )
        gap = random.choice(
            ["", "", " ", " ", "\n", " , ", "\n\n  ", "\t", "\r\n", "\n\n\n", ",", "\ufeff", "\n, \n", "\r"]
        )
        if gap == "" and re.search(r'[\w."-]$', previous) and re.match(r'[\w."-]', word):
            gap = " "
        is_comment = word.startswith("#")
        result += ("\n" if is_comment else gap) + word + ("\n" if is_comment else "")
        previous = word
    return result


def commented(text, random, rate=5):
    """The same tokens, with comments and blank lines at every fifth place."""
    count = 0

    def comment():
        nonlocal count
        count += 1
        return f"#{random.choice([' comment ', '', '!', ' a, {b} '])}{count}"

    makers = [
        lambda: f"{comment()}\n", lambda: f" {comment()}\n", lambda: f"\n{comment()}\n", lambda: f"\n\n{comment()}\n\n",
        lambda: f" {comment()}\n{comment()}\n", lambda: "#\n", lambda: f"\n{comment()}\r\n\r\n",
        lambda: f"\ufeff{comment()}\n", lambda: f", {comment()}\n,", lambda: f"\n\n\n{comment()}\r{comment()}\n",
        lambda: f"{comment()} \n", lambda: "\n# gqlfmt-ignore\n",
    ]
    result, last = "", 0
    for token in TOKEN.finditer(text):
        result += text[last : token.start()]
        if random.randrange(rate) == 0:
            result += random.choice(makers)()
        result += token[0] + ("\n" if token[0].startswith("#") else "")
        last = token.end()
    return result + text[last:] + (f"\n{comment()}" if random.randrange(3) == 0 else "")
