"""The symbols of the machine, and the pattern of each.

Most are the kinds. Where a rule of Derivation.antt makes a place differ from others, a symbol of its own has that
place: the machine's rows then need no rule beside them. Such a symbol is shown in trees as a kind.
"""

from .patterns import NOTHING, any_of, renamed

# The symbols that are no kinds: the name, the kind as which it is shown, and what it is. The first two are leaves.
LEAVES = [
    ("IDENT_FOR_FRAGMENT", "IDENT", "A Name but `on`"),
    ("IDENT_FOR_ENUM", "IDENT", "A Name but `true`, `false` and `null`"),
]
NODES = [
    ("TYPE", "NAMED_TYPE", "A type: a node of NAMED_TYPE or LIST_TYPE, perhaps `!`"),
    ("SHORT_QUERY", "OPERATION_DEFINITION", "An OPERATION_DEFINITION that is a selection set"),
    ("NAME_FOR_FRAGMENT", "NAME", "The NAME of a FRAGMENT_NAME"),
    ("NAME_FOR_ENUM", "NAME", "The NAME of an ENUM_VALUE"),
    ("DIRECTIVES_CONST", "DIRECTIVES", "DIRECTIVES in a constant place"),
    ("DIRECTIVE_CONST", "DIRECTIVE", "DIRECTIVE in a constant place"),
    ("ARGUMENTS_CONST", "ARGUMENTS", "ARGUMENTS in a constant place"),
    ("ARGUMENT_CONST", "ARGUMENT", "ARGUMENT in a constant place"),
    ("LIST_VALUE_CONST", "LIST_VALUE", "LIST_VALUE in a constant place"),
    ("OBJECT_VALUE_CONST", "OBJECT_VALUE", "OBJECT_VALUE in a constant place"),
    ("OBJECT_FIELD_CONST", "OBJECT_FIELD", "OBJECT_FIELD in a constant place"),
    ("BARE_SELECTIONS", "SELECTION_SET", "The selections of a SELECTION_SET without braces"),
]
# The kinds whose numbers the two leaves have.
NUMBERED_AS = {"IDENT_FOR_FRAGMENT": "COMMENT", "IDENT_FOR_ENUM": "COMMA"}


class Symbols:
    """`names` in the order of the numbers, the `number` of each, its `label`, the kind as which it is shown, and the
    `pattern` of each symbol that has a row."""

    def __init__(self, grammar):
        self.grammar = grammar
        self.names = grammar.kinds + [name for name, _, _ in NODES]
        for name, kind in NUMBERED_AS.items():
            self.names[grammar.number[kind]] = name
        self.number = {name: number for number, name in enumerate(self.names)}
        self.label = {name: name for name in grammar.kinds} | {name: kind for name, kind, _ in LEAVES + NODES}
        self.pattern = {name: self.pattern_of(name) for name in self.nodes if name != "NON_NULL_TYPE"}

    @property
    def nodes(self):
        return self.names[self.number["DOCUMENT"] :]

    @property
    def leaves(self):
        """The leaves that the machine reads."""
        unread = ("WHITESPACE", "ERROR")
        return [name for name in self.names[: self.number["DOCUMENT"]] if name not in unread]

    def pattern_of(self, name):
        """The pattern of a symbol: the pattern of the kind as which it is shown, with other symbols in some places."""
        grammar = self.grammar
        own = {
            "TYPE": ("then", any_of(["NAMED_TYPE", "LIST_TYPE"]), ("or_else", any_of(["BANG"]), NOTHING)),
            "SHORT_QUERY": any_of(["SELECTION_SET"]),
            "OPERATION_DEFINITION": grammar.pattern("keyword_operation"),
            "BARE_SELECTIONS": grammar.pattern("bare_selections"),
        }
        pattern = own[name] if name in own else grammar.rows[self.label[name]]
        return renamed(pattern, self.other_symbols(name))

    def other_symbols(self, name):
        """The symbols of a row in place of kinds, or in place of a list of kinds."""
        lists = self.grammar.lists
        values = tuple(lists["Values"])
        constant_values = [self.constant(kind) for kind in values if kind != "VARIABLE"]
        other = {tuple(lists["Types"]): ["TYPE"]}
        if name == "DOCUMENT":
            other[tuple(lists["Definitions"])] = with_short_query(lists["Definitions"])
        if name in lists["HasConstantDirectives"]:
            other["DIRECTIVES"] = "DIRECTIVES_CONST"
        if name == "DEFAULT_VALUE" or name.endswith("_CONST"):
            other |= {kind: self.constant(kind) for kind in self.grammar.nodes}
            other[values] = constant_values
        names = {
            "FRAGMENT_NAME": {"NAME": "NAME_FOR_FRAGMENT"},
            "ENUM_VALUE": {"NAME": "NAME_FOR_ENUM"},
            "NAME_FOR_FRAGMENT": {"IDENT": "IDENT_FOR_FRAGMENT"},
            "NAME_FOR_ENUM": {"IDENT": "IDENT_FOR_ENUM"},
        }
        return other | names.get(name, {})

    def constant(self, kind):
        """The symbol of a kind in a constant place."""
        return f"{kind}_CONST" if f"{kind}_CONST" in self.number else kind


def with_short_query(definitions):
    """The definitions; an operation is one with a keyword, or a selection set alone."""
    index = definitions.index("OPERATION_DEFINITION") + 1
    return definitions[:index] + ["SHORT_QUERY"] + definitions[index:]
