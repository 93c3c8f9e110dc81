"""The nodes and parts of the parser's rules, with their kinds and the machine's symbols: specs/Nodes.antt of the crate
parser_rules.

Both are the left sides of specs/Rules.antt: `inside` has a clause for each node, `body` one for each part. A parameter
`c` says whether the place is constant; another one is a Bool. """

import re

from .layout import CRATES, mark
from .symbols import Symbols

FOLDER = CRATES / "parser_rules/specs"

# The node whose symbol has another name. The others are called as their symbols: SelectionSet as SELECTION_SET.
OTHER_NAMES = {"QueryShorthand": "SHORT_QUERY"}


class Clause:
    """What a clause of `inside` or `body` is for: the name of the node or part, and its parameters."""

    def __init__(self, name, parameters):
        self.name, self.parameters = name, parameters
        self.type = "".join(f"{'Constness' if parameter == 'c' else 'Bool'} → " for parameter in parameters)
        self.pattern = f"({' '.join([name, *parameters])})" if parameters else name


def rules_text():
    """The text of Rules.antt without its `use` lines and comments."""
    return re.sub(r"^use .*|--.*", "", (FOLDER / "Rules.antt").read_text(), flags=re.M)


def clauses(function):
    """The clauses of a function of Rules.antt, in order."""
    heads = re.findall(rf"^{function} (?:(\w+)|\((\w+) ([\w ]+)\)) =", rules_text(), re.M)
    return [Clause(plain or name, parameters.split()) for plain, name, parameters in heads]


def symbol_of(node, symbols):
    """The symbol of a node, in a place that is not constant."""
    symbol = OTHER_NAMES.get(node.name) or re.sub(r"(?<!^)(?=[A-Z])", "_", node.name).upper()
    if symbol not in symbols.number:
        raise SystemExit(f"Rules.antt: the node {node.name} has no kind {symbol}")
    return symbol


def symbols_of(node, symbols):
    """The symbols of a node: its symbol in a place that is not constant, and where it has a parameter the one in a
    constant place."""
    symbol = symbol_of(node, symbols)
    if node.parameters and f"{symbol}_CONST" not in symbols.number:
        raise SystemExit(
            f"symbols.py: NODES lacks {symbol}_CONST, and the rule of {node.name} has a parameter for constant places"
        )
    return [symbol, f"{symbol}_CONST"] if node.parameters else [symbol]


def own_symbols(nodes, symbols):
    """The clauses of `symbol` for the nodes whose symbol is not the number of their kind; those of constant places come
    last."""
    plain, constant = [], []
    for node in nodes:
        symbol = symbol_of(node, symbols)
        if symbols.label[symbol] != symbol:
            plain.append(f"symbol {node.pattern} = symbols.{symbol}\n")
        if node.parameters:
            constant.append(f"symbol ({node.name} Const) = symbols.{symbols.constant(symbol)}\n")
    return "".join(plain + constant)


def constructors(of, made):
    """The constructors of the type of nodes, or of parts."""
    return "".join(f"  {clause.name} : {clause.type}{of}\n" for clause in made)


def nodes_file(symbols):
    """specs/Nodes.antt."""
    nodes = clauses("inside")
    kinds = "".join(f"kind_of {node.pattern} = kind.{symbols.label[symbol_of(node, symbols)]}\n" for node in nodes)
    return (
        mark("--", "the left sides of specs/Rules.antt")
        + f"""-- The nodes that the parser builds, and the parts of the grammar that work within the node that is open.
use Rattle.std.specs.Prelude.{{ℕ, Bool}}
use Rattle.document_grammar.specs.declared.kind.SyntaxKind.{{SyntaxKind}}
use Rattle.document_grammar.specs.declared.kind.SyntaxKind.TheVariants as kind
use Rattle.document_grammar.specs.Numbers.{{number}}
use Rattle.grammar_machine.specs.Symbols as symbols
use Rattle.parser_rules.specs.declared.constness.Constness.{{Constness}}
use Rattle.parser_rules.specs.declared.constness.Constness.TheVariants.{{Const}}

-- the nodes
pub data Node : Type 0 where
{constructors("Node", nodes)}
-- the kind of a node
abbrev pub kind_of : Node → SyntaxKind
{kinds}
-- the machine's symbol of a node: its kind's, but for these
unfoldable pub symbol : Node → ℕ
{own_symbols(nodes, symbols)}symbol c = number (kind_of c)

-- the rules that work within the node that is open
pub data Part : Type 0 where
{constructors("Part", clauses("body"))}"""
    )


def outputs(grammar):
    """The text of the file, by its path."""
    return {FOLDER / "Nodes.antt": nodes_file(Symbols(grammar))}
