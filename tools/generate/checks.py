"""What else the generator refuses, before it writes anything: mistakes that the grammar's files, the rules and the
generator's own lists make together. Each message names the file to mend, and the kind.

Misspelled kinds and rows that are missing are refused where the files are read (grammar.py), and rows of which two
tokens do not say which child comes next in lookahead.py.
"""

import re
from collections import Counter

from . import locations, nodes, typed_docs
from .accessors import accessors
from .automata import automaton
from .grammar import Grammar, type_case
from .patterns import nullable, symbols
from .places import CRATES, ENUMS, crate_of, enums_in, home, kinds_in, place_of_kind
from .symbols import LEAVES, NODES, Symbols

# The leaves that are in no row: those of ignored tokens, and those of tokens that were refused.
IN_NO_ROW = ("WHITESPACE", "COMMENT", "COMMA", "ERROR")
# The machine's nodes that no clause of `inside` is for: a part makes the root, what a bare root has, and a type, whose
# kind is known last.
MADE_BY_PARTS = ("DOCUMENT", "BARE_SELECTIONS", "TYPE", "NON_NULL_TYPE")


def checked_grammar():
    """The grammar, once nothing of it is refused. The checks are in an order in which the first message is the helpful
    one."""
    grammar = Grammar()
    check_symbol_list(grammar)
    check_enums(grammar)
    check_rows(grammar)
    check_marked(grammar)
    check_braces(grammar)
    check_places(grammar)
    check_words(grammar)
    for fault in locations.faults(grammar):
        refuse(fault)
    made = Symbols(grammar)
    check_constants(made)
    check_rules(made)
    return grammar


def refuse(message):
    raise SystemExit(message)


def check_symbol_list(grammar):
    """The symbols that are no kinds are shown as kinds."""
    for name, kind, _ in LEAVES + NODES:
        if kind not in grammar.number:
            refuse(f"symbols.py: the symbol {name} is shown as {kind}, which is no kind")


def check_enums(grammar):
    """Each choice of nodes has an enum."""
    listed = {choice.listed: enum for enum, choice in ENUMS.items()}
    for name, enum in listed.items():
        if name not in grammar.choices:
            refuse(f"places.py: ENUMS has {enum} for the list {name}, which Choices.antt lacks")
        for kind in grammar.lists[name]:
            if grammar.is_leaf(kind):
                refuse(f"Choices.antt: the list {name}, which has the enum {enum}, has the leaf {kind}")
    for name in grammar.choices:
        if name not in listed and not all(map(grammar.is_leaf, grammar.lists[name])):
            refuse(f"places.py: ENUMS has no enum for the list {name} of Choices.antt")


def check_places(grammar):
    """Each section has a module, each module has something, and a crate names only what is in it or before it."""
    keys = [key for modules in CRATES.values() for places in modules.values() for key in places]
    for key in keys:
        if keys.count(key) > 1:
            refuse(f"places.py: CRATES has {key} twice")
        if re.fullmatch("[A-Z_]+", key) and key not in grammar.nodes:
            refuse(f"places.py: CRATES has {key}, which is no kind of node")
    for kind in grammar.nodes:
        crate = crate_of(place_of_kind(kind, grammar))
        for target in named_in(grammar, kind):
            if crate_of(home(target, grammar)) > crate:
                refuse(
                    f"places.py: {kind} is in {list(CRATES)[crate]}, and has a part {target}, whose crate comes"
                    " after it"
                )
    for enum, choice in ENUMS.items():
        for kind in grammar.lists[choice.listed]:
            if crate_of(place_of_kind(kind, grammar)) > crate_of(home(enum, grammar)):
                refuse(f"places.py: the enum {enum} is in a crate before the crate of {kind}, one of {choice.listed}")
    for crate, modules in CRATES.items():
        for module in modules:
            if not kinds_in(crate, module, grammar) and not enums_in(crate, module):
                refuse(f"places.py: nothing is in the module {module} of {crate}")


def named_in(grammar, kind):
    """The structs and enums that the accessors of a kind give."""
    return [accessor.target for accessor in accessors(grammar, kind) if accessor.target]


def check_rows(grammar):
    """Each node has a child, and each kind is in a row."""
    used = {child for pattern in grammar.rows.values() for child in symbols(pattern)}
    for kind, pattern in grammar.rows.items():
        if nullable(pattern):
            refuse(f"Rows.antt: the row of {kind} fits no children at all; each node has a token")
        if kind != "DOCUMENT" and kind not in used:
            refuse(f"Rows.antt: no row has the kind {kind}")
    for kind in grammar.leaves:
        if kind not in used and kind not in IN_NO_ROW:
            where = (
                f". A directive location is in the list {locations.LISTED} of Choices.antt"
                if locations.is_one(kind)
                else ""
            )
            refuse(f"Rows.antt: no row has the leaf {kind}{where}")
    definitions = ("any_of", tuple(grammar.lists["Definitions"]))
    if grammar.rows["DOCUMENT"] != ("then", definitions, ("many", definitions)):
        refuse("Rows.antt: the row of DOCUMENT is not `some (any_of Definitions)`, for which the brace rule is made")


def check_marked(grammar):
    """The directives of the type system and of variables are constant: those in rows of no selection, and without a
    selection set."""
    for kind, pattern in grammar.rows.items():
        found = symbols(pattern)
        constant = "DIRECTIVES" in found and "SELECTION_SET" not in found and kind not in grammar.lists["Selections"]
        if constant and kind not in grammar.lists["HasConstantDirectives"]:
            refuse(
                f"Derivation.antt: the list HasConstantDirectives lacks {kind}: it is no selection and has none, so its"
                " directives are constant"
            )
        if not constant and kind in grammar.lists["HasConstantDirectives"]:
            refuse(f"Derivation.antt: the list HasConstantDirectives has {kind}, which has no constant directives")
    check_order(grammar, "HasConstantDirectives")


def check_order(grammar, listed):
    """A list is in the order of the kinds."""
    kinds = grammar.lists[listed]
    for kind, wanted in zip(kinds, sorted(kinds, key=grammar.number.get)):
        if kind != wanted:
            refuse(
                f"Derivation.antt: the list {listed} has {kind} where {wanted} should be; it is in the order of kind.rt"
            )


def check_braces(grammar):
    """The lists `Braced` and `Blocks` are those of the definitions that may end before a block in braces, and of such
    blocks."""
    blocks = set()
    for kind in grammar.lists["Definitions"]:
        after_end = [symbol for ends, arcs in automaton(grammar.rows[kind]) if ends for symbol, _ in arcs]
        opening = {symbol for symbol in after_end if "L_CURLY" in first_leaves(grammar, symbol)}
        blocks |= opening
        if opening and kind not in grammar.lists["Braced"]:
            refuse(
                f"Derivation.antt: the list Braced lacks {kind}, which may end before a {' or '.join(sorted(opening))}"
            )
        if not opening and kind in grammar.lists["Braced"]:
            refuse(f"Derivation.antt: the list Braced has {kind}, which has no block in braces that may be missing")
    for kind in grammar.lists["Braced"]:
        if kind not in grammar.lists["Definitions"]:
            refuse(f"Derivation.antt: the list Braced has {kind}, which is no definition")
    for kind in grammar.kinds:
        if kind in blocks and kind not in grammar.lists["Blocks"]:
            refuse(f"Derivation.antt: the list Blocks lacks {kind}, with which the block of a definition begins")
        if kind not in blocks and kind in grammar.lists["Blocks"]:
            refuse(f"Derivation.antt: the list Blocks has {kind}, with which no block begins that may be missing")


def first_leaves(grammar, kind, seen=()):
    """The leaves with which a kind may begin."""
    if grammar.is_leaf(kind):
        return {kind}
    if kind in seen:
        return set()
    first = [symbol for symbol, _ in automaton(grammar.rows[kind])[0][1]]
    return {leaf for symbol in first for leaf in first_leaves(grammar, symbol, (*seen, kind))}


def check_words(grammar):
    """The words of the documentation are of kinds of nodes."""
    of_kinds = {"VALUES": typed_docs.VALUES, "SEVERAL": typed_docs.SEVERAL, "PARTS": set(typed_docs.PARTS) - set(ENUMS)}
    for name, kinds in of_kinds.items():
        for kind in kinds:
            if kind not in grammar.nodes:
                refuse(f"typed_docs.py: {name} has {kind}, which is no kind of node")
    for parent, kind in typed_docs.SPECIAL:
        if parent not in grammar.nodes or kind not in grammar.number:
            refuse(f"typed_docs.py: SPECIAL has {parent} with {kind}, and one of them is no kind")


def check_constants(made):
    """Where a place is constant, what a variable may be below has a symbol of its own."""
    above = {"VARIABLE"}
    children = {name: set(symbols(pattern)) for name, pattern in made.pattern.items()}
    while more := {name for name in children if children[name] & above} - above:
        above |= more
    for name in children:
        if name == "DEFAULT_VALUE" or name.endswith("_CONST"):
            for child in sorted(children[name] & above):
                if not child.endswith("_CONST"):
                    parent = made.label[name]
                    refuse(
                        f"symbols.py: NODES lacks {child}_CONST: {child} may be in a constant {parent}, and a VARIABLE"
                        " below it"
                    )


def check_rules(made):
    """Each symbol of a node has one rule, which some rule uses; and what the rules name is there."""
    text = nodes.rules_text()
    words = Counter(re.findall(r"\w+", text))
    inside, body = nodes.clauses("inside"), nodes.clauses("body")
    built = [symbol for node in inside for symbol in nodes.symbols_of(node, made)]
    for name in made.nodes:
        constant = f"{made.label[name]}_CONST" == name
        if name not in [*built, *MADE_BY_PARTS] and constant:
            refuse(f"Rules.antt: {type_case(made.label[name])} has no parameter `c`, and symbols.py has {name}")
        if name not in [*built, *MADE_BY_PARTS]:
            refuse(f"Rules.antt: the kind {name} has no rule: no clause `inside {type_case(name)} = ..`")
    check_clauses("inside", inside, re.findall(r"\bChild \(?([A-Z]\w*)", text))
    check_clauses("body", body, re.findall(r"\bCall \(?([A-Z]\w*)", text))
    for node in inside:
        if words[node.name] == 1:
            refuse(f"Rules.antt: no rule uses {node.name}")
    for kind in re.findall(r"\bkind\.(\w+)", text):
        if kind not in made.grammar.number:
            refuse(f"Rules.antt: {kind} is no kind")


def check_clauses(function, clauses, used):
    """Each name has one clause, and what is used has one."""
    names = [clause.name for clause in clauses]
    for name in names:
        if names.count(name) > 1:
            refuse(f"Rules.antt: {function} has two clauses for {name}")
    for name in used:
        if name not in names:
            refuse(f"Rules.antt: {name} is used, and {function} has no clause for it")
