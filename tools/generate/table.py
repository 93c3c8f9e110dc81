"""The table of the machine: its rows and what they begin with, and what only its proofs use."""

from .grammar import PUNCTUATORS, word
from .layout import CRATES, antt_list, commented_list, in_parentheses, long_list, mark, use
from .lookahead import Lookahead
from .symbols import LEAVES, NODES, Symbols

FOLDER = CRATES / "grammar_machine"
SOURCE = "the rows of the grammar"
PRELUDE = "use Rattle.std.specs.Prelude.{ℕ, List, [], ◌∷◌}\n"
# A text of each leaf that is no keyword.
TEXTS = PUNCTUATORS | {
    "IDENT": "a",
    "IDENT_FOR_FRAGMENT": "a",
    "IDENT_FOR_ENUM": "a",
    "INT": "0",
    "FLOAT": "0.0",
    "STRING": '\\"\\"',
}


def mask(classes):
    """A set of classes as a number, bit `a` for the class `a`."""
    return sum(1 << a for a in classes)


def uses(symbols, names):
    """The lines that bring these symbols into a file."""
    kinds = [name for name in symbols.names if name in names and name in symbols.grammar.number]
    others = [name for name in symbols.names if name in names and name not in symbols.grammar.number]
    return use("document_grammar.specs.Kinds", kinds) + use("grammar_machine.specs.Symbols", others)


def symbol_list(names):
    return in_parentheses(antt_list(names))


def symbols_file(symbols):
    """specs/Symbols.antt: the symbols that are no kinds."""
    constants = [
        f"-- {about}\nabbrev pub {name} : ℕ\n{name} = {symbols.number[name]}\n" for name, _, about in LEAVES + NODES
    ]
    return (
        mark("--", SOURCE)
        + """-- The symbols of the machine: the syntax kinds, and these, which no tree shows. Two leaves have the numbers of COMMENT and COMMA, which
-- are in no row.
use Rattle.std.specs.Prelude.{ℕ}

"""
        + "\n".join(constants)
    )


def came_by(states, index, symbols):
    """What leads to the state, as a word for its comment."""
    state = next(state for state in states if any(target == index for _, target in state.arcs))
    found = [symbol for symbol, target in state.arcs if target == index]
    if len(found) == 1:
        return found[0].removesuffix("_KW")
    groups = {"Definitions": "definition", "Selections": "selection", "Values": "value", "Types": "type"}
    for listed, group in groups.items():
        if all(symbols.label[symbol] in symbols.grammar.lists[listed] for symbol in found):
            return group
    return "word" if all(symbol.endswith("_KW") for symbol in found) else found[0]


def state_comments(name, states, symbols):
    """The number of each state, and what was read last."""
    comments = ["0"] + [
        f"{index}, after {came_by(states, index, symbols)}" for index in range(1, len(states) - (name == "DOCUMENT"))
    ]
    return comments + (["2, after a definition that lacks its block"] if name == "DOCUMENT" else [])


def row(name, lookahead):
    """The states of a symbol's row. The kind NON_NULL_TYPE is no symbol of the machine, and has none."""
    head = f"unfoldable pub row_{name} : List State\nrow_{name} ="
    if name not in lookahead.rows:
        return f"{head} []\n\n"
    states = lookahead.rows[name]
    texts = []
    for state in states:
        arcs = antt_list(f"({symbol}, {target})" for symbol, target in state.arcs)
        texts.append(f"state {str(state.ends).lower()} {state.exit} {in_parentheses(arcs)}")
    return f"{head}\n{commented_list(zip(state_comments(name, states, lookahead.symbols), texts))}\n"


def first_sets(lookahead):
    """The entries of each symbol, with a comment that names their classes."""
    items = []
    for number, name in enumerate(lookahead.symbols.names):
        entries = lookahead.entries(name)
        texts = [f"entry {mask(first)} {mask(second)} {str(alone).lower()}" for first, second, alone in entries]
        words = []
        for first, second, _ in entries:
            words.append(lookahead.class_names(first) + (", then " + lookahead.class_names(second) if second else ""))
        items.append((f"{number}, {name}: {'; '.join(words) or 'nothing'}", in_parentheses(antt_list(texts))))
    return commented_list(items)


def table_file(lookahead):
    """specs/Table.antt: what the machine reads by."""
    symbols = lookahead.symbols
    used = {symbol for states in lookahead.rows.values() for state in states for symbol, _ in state.arcs}
    rows = [f"row_{name}" for name in symbols.nodes]
    own_leaves = {symbols.number[name] for name, _, _ in LEAVES}
    tokens = lookahead.classes - lookahead.names - own_leaves - {symbols.number["WHITESPACE"], symbols.number["ERROR"]}
    return f"""{mark("--", SOURCE)}-- The rows of the grammar as automata, with the tokens that begin each symbol. proofs/Patterns and proofs/Checks show by computing that they
-- agree with the rows. A symbol before DOCUMENT is a leaf, one from DOCUMENT on a node.
use Rattle.std.specs.Prelude.{{ℕ, Bool, true, false, List, [], ◌∷◌}}
{uses(symbols, used)}
-- A state of a row: whether the row may end there, what the node then adds to its parent's state, and the symbols
-- that may come next, each with the state after it.
pub data State : Type 0 where
  state : Bool → ℕ → List (ℕ × ℕ) → State

{"".join(row(name, lookahead) for name in symbols.nodes)}unfoldable pub rows : List (List State)
unfolding {" ".join(rows)}
rows =
{long_list(rows)}
-- What a symbol begins with: classes of its first token, classes of its second, and whether the first may be all. Sets of classes
-- are numbers, bit `a` for the class `a`.
pub data Entry : Type 0 where
  entry : ℕ → ℕ → Bool → Entry

unfoldable pub firsts : List (List Entry)
firsts =
{first_sets(lookahead)}
-- The leaves that are names: {lookahead.class_names(lookahead.names)}, and the two that are names but some.
abbrev pub name_leaves : ℕ
name_leaves = {mask(lookahead.names | own_leaves)}

-- The kinds of tokens that are no names: {lookahead.class_names(tokens)}.
abbrev pub token_kinds : ℕ
token_kinds = {mask(tokens)}
"""


def follows_file(lookahead):
    """proofs/generated/Follows.antt: what may follow each symbol."""
    items = []
    for number, name in enumerate(lookahead.symbols.names):
        closed, lacking = lookahead.follow[name, 0], lookahead.follow[name, 1]
        words = lookahead.class_names(closed) + ("; " + lookahead.class_names(lacking) if lacking else "")
        items.append((f"{number}, {name}: {words}", f"({mask(closed)}, {mask(lacking)})"))
    return f"""{mark("--", SOURCE)}-- The classes that may follow each symbol, for each number that it may add to its parent's state, and the classes of names.
{PRELUDE}
unfoldable pub follows : List (ℕ × ℕ)
follows =
{commented_list(items)}
abbrev pub name_classes : ℕ
name_classes = {mask(lookahead.names)}
"""


def samples_file(lookahead):
    """proofs/generated/Samples.antt: how each row can be brought to its end, and a text of each leaf."""
    symbols = lookahead.symbols
    used = {symbol for endings in lookahead.endings.values() for ending in endings for symbol in ending}
    endings = [
        (name, symbol_list(symbol_list(ending) for ending in lookahead.endings.get(name, []))) for name in symbols.nodes
    ]
    leaves = symbols.names[: symbols.number["DOCUMENT"]]
    texts = [(leaf, f'codes "{TEXTS.get(leaf, word(leaf))}"' if leaf in symbols.leaves else "[]") for leaf in leaves]
    return f"""{mark("--", SOURCE)}-- For each state of a row the shortest symbols that end the row, and a text of each leaf.
use Rattle.std.specs.Prelude.{{ℕ, List, [], ◌∷◌, codes}}
use Rattle.document_grammar.specs.Tree.{{Text}}
{uses(symbols, used)}
unfoldable pub endings : List (List (List ℕ))
endings =
{commented_list(endings)}
unfoldable pub spellings : List Text
spellings =
{commented_list(texts)}"""


def paths(states, symbols):
    """For each state kinds of children that lead there, by a shortest way; a definition that lacks its block is an
    operation as well."""
    found = {0: []}
    for index in range(len(states)):
        for symbol, target in states[index].arcs:
            if index in found and target not in found:
                found[target] = [*found[index], symbols.label[symbol]]
    return [found.get(index, ["OPERATION_DEFINITION"]) for index in range(len(states))]


def labels_file(lookahead):
    """proofs/generated/Labels.antt: kinds that lead to states, and the kinds as which symbols are shown."""
    symbols = lookahead.symbols
    found = [(name, paths(lookahead.rows[name], symbols) if name in lookahead.rows else []) for name in symbols.nodes]
    labels = [(f"{number}, {name}", symbols.label[name]) for number, name in enumerate(symbols.names)]
    used = {label for _, label in labels} | {kind for _, ways in found for way in ways for kind in way}
    return f"""{mark("--", SOURCE)}-- For each state of a row the kinds of children that lead there; the kinds as which symbols are shown.
{PRELUDE}{uses(symbols, used)}
unfoldable pub paths : List (List (List ℕ))
paths =
{commented_list((name, symbol_list(symbol_list(way) for way in ways)) for name, ways in found)}
unfoldable pub labels : List ℕ
labels =
{commented_list(labels)}"""


def outputs(grammar):
    """The text of each file, by its path."""
    lookahead = Lookahead(Symbols(grammar))
    lookahead.check()
    return {
        FOLDER / "specs/Symbols.antt": symbols_file(lookahead.symbols),
        FOLDER / "specs/Table.antt": table_file(lookahead),
        FOLDER / "proofs/generated/Follows.antt": follows_file(lookahead),
        FOLDER / "proofs/generated/Samples.antt": samples_file(lookahead),
        FOLDER / "proofs/generated/Labels.antt": labels_file(lookahead),
    }
