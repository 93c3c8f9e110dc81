"""What the generator reads: the list of kinds with their documentation, the choices of kinds, the rows, and two lists
of the rules on derivations.

Kinds are given by their names. Their numbers are their indices in the list.
"""

import re

from .layout import CRATES
from .patterns import Reader, definitions

FOLDER = CRATES / "document_grammar"

# The lists that a file has to have, besides those of the enums in places.py.
NEEDED = {
    "Choices": ("Definitions", "Selections", "Values", "Types"),
    "Derivation": ("HasConstantDirectives", "Braced", "Blocks"),
}

# The kinds that the generator names, besides those of symbols.py and typed_docs.py.
NAMED = "WHITESPACE COMMENT COMMA ERROR BANG L_CURLY IDENT STRING on_KW true_KW false_KW null_KW".split()
NAMED += "DOCUMENT OPERATION_DEFINITION SELECTION_SET NAME VARIABLE DEFAULT_VALUE DIRECTIVES NON_NULL_TYPE".split()

# How the punctuators are spelled.
PUNCTUATORS = {
    "BANG": "!",
    "DOLLAR": "$",
    "AMP": "&",
    "SPREAD": "...",
    "COLON": ":",
    "EQ": "=",
    "AT": "@",
    "L_PAREN": "(",
    "R_PAREN": ")",
    "L_BRACK": "[",
    "R_BRACK": "]",
    "L_CURLY": "{",
    "R_CURLY": "}",
    "PIPE": "|",
}


class Grammar:
    """`kinds` in the order of their numbers, `number` of each, the lines of its `documentation`, `lists` by their
    names, and `rows`, the pattern of each kind of node."""

    def __init__(self):
        self.documentation = read_kinds()
        self.kinds = list(self.documentation)
        self.number = {kind: number for number, kind in enumerate(self.kinds)}
        self.check_kinds()
        self.lists = {}
        self.choices = self.add_lists("Choices")
        self.patterns = definitions((FOLDER / "specs/Rows.antt").read_text())
        self.rows = Reader(self.body("children"), self).rows()
        self.check_rows()
        self.add_lists("Derivation")

    def check_kinds(self):
        """Punctuators come after ERROR, then the other tokens, and after STRING the keywords; DOCUMENT is the first
        node."""
        for kind in NAMED:
            if kind not in self.number:
                raise SystemExit(f"kind.rt: there is no kind {kind}")
        for kind in self.leaves[self.number["ERROR"] + 1 : self.number["IDENT"]]:
            if kind not in PUNCTUATORS:
                raise SystemExit(f"grammar.py: PUNCTUATORS does not say how {kind} is spelled")
        for kind in self.kinds:
            if kind.endswith("_KW") and kind not in self.keywords:
                raise SystemExit(
                    f"kind.rt: the keyword {kind} is not between STRING and DOCUMENT, where the keywords are"
                )
            if kind in self.keywords and not kind.endswith("_KW"):
                raise SystemExit(
                    f"kind.rt: {kind} is between STRING and DOCUMENT, where the keywords are, and does not end with _KW"
                )

    def add_lists(self, name):
        """Adds the lists of kinds that a file of definitions has, and gives their names."""
        found = definitions((FOLDER / f"specs/{name}.antt").read_text())
        names = [listed for listed, definition in found.items() if definition.type == "List ℕ"]
        for listed in names:
            self.lists[listed] = self.members(f"{name}.antt: the list {listed}", found[listed].body)
        for listed in NEEDED[name]:
            if listed not in names:
                raise SystemExit(f"{name}.antt: there is no list {listed}")
        return names

    def members(self, where, body):
        """The kinds of a list."""
        text, end, _ = body.partition("[]")
        kinds = [kind.strip() for kind in text.split("∷")]
        if not end or kinds.pop():
            raise SystemExit(f"{where} does not end with ∷ []")
        for index, kind in enumerate(kinds):
            if kind not in self.number:
                raise SystemExit(f"{where} has {kind}, which is no kind")
            if kind in kinds[:index]:
                raise SystemExit(f"{where} has {kind} twice")
        return kinds

    def check_rows(self):
        """The rows are those of the kinds of nodes, which come last, in order."""
        for kind in self.rows:
            if self.is_leaf(kind):
                raise SystemExit(
                    f"Rows.antt: {kind} has a row, and comes before DOCUMENT in kind.rt, where the leaves are"
                )
        for kind in self.kinds[self.number["DOCUMENT"] :]:
            if kind not in self.rows:
                raise SystemExit(f"Rows.antt: the kind {kind} has no row")
        for kind, row in zip(self.kinds[self.number["DOCUMENT"] :], self.rows):
            if kind != row:
                raise SystemExit(
                    f"Rows.antt: the row of {row} is in the place of {kind}'s; rows are in the order of kind.rt"
                )

    def body(self, name):
        """The text of a pattern, or of the table of rows."""
        if name not in self.patterns:
            raise SystemExit(f"Rows.antt: there is no definition {name}")
        return self.patterns[name].body

    def pattern(self, name):
        """A pattern of Rows.antt by its name."""
        return Reader(self.body(name), self).pattern()

    @property
    def leaves(self):
        return self.kinds[: self.number["DOCUMENT"]]

    @property
    def nodes(self):
        return list(self.rows)

    @property
    def keywords(self):
        """The kinds of keywords: the leaves after STRING."""
        return self.leaves[self.number["STRING"] + 1 :]

    def section(self, kind):
        """The number and the title of the section that the documentation of a kind of node names."""
        what = self.documentation[kind][0] if self.documentation[kind] else ""
        section = re.search(r"\(section ([\d.]+), \"(.+)\"\)\.$", what)
        if not section:
            raise SystemExit(
                f'kind.rt: the documentation of {kind} does not end its first line with (section NUMBER, "TITLE").'
            )
        return section.groups()

    def is_leaf(self, kind):
        return self.number[kind] < self.number["DOCUMENT"]


def read_kinds():
    """The variants of the enum, in order, each with the lines of its documentation."""
    text = (FOLDER / "src/kind.rt").read_text()
    found, documentation = {}, []
    for line in re.search(r"pub enum SyntaxKind \{\n(.*?\n)\}", text, re.S).group(1).splitlines():
        variant = re.fullmatch(r"    (\w+),", line)
        if line.startswith("    ///"):
            documentation.append(line.removeprefix("    ///").strip())
        elif not variant:
            raise SystemExit(
                f"kind.rt: the line `{line.strip()}` of the enum is neither documentation nor a kind with a comma"
                " after it"
            )
        elif variant.group(1) in found:
            raise SystemExit(f"kind.rt: the kind {variant.group(1)} is there twice")
        else:
            found[variant.group(1)], documentation = documentation, []
    return found


def word(keyword):
    """The word of a keyword's kind."""
    return keyword.removesuffix("_KW")


def type_case(kind):
    """The name of a kind's struct."""
    return "".join(part.capitalize() for part in kind.split("_"))
