"""A lossless, error-tolerant parser of GraphQL, proved correct.

    >>> import dumyroke
    >>> tree = dumyroke.parse("type Hero { name: String, friends: [Hero] }")
    >>> [field.name.text for field in tree.find(dumyroke.nodes.FieldDefinition)]
    ['name', 'friends']
    >>> [str(error) for error in dumyroke.check("{ hero(id) { name }")]
    ['1:10: expected COLON, got )', '1:20: expected R_CURLY, got EOF']
    >>> [violation.rule for violation in dumyroke.validate("query Q($id: ID) { a ...F }")]
    ['NoUnusedVariables', 'KnownFragmentNames']
    >>> dumyroke.measure("{ a ...F } fragment F on T { b { c } }")[0].figures.depth
    2

`parse` gives a tree of any text, `check` its errors alone, and `format` a document in the layout of the program gqlfmt.
`parse_selection_set` and `parse_type` give trees of parts of documents, and `lex` the tokens. `validate` has the rules
that need no schema, `measure` says how large operations are with their fragments expanded, and `check_limits` which
limit is exceeded. `nodes` has a class for each kind of node. The parser is a library in C that is in the package; what
is proved of it is in docs/BINDINGS.md.
"""

from . import nodes
from .calls import NotADocument, check, format, lex, parse, parse_selection_set, parse_type
from .errors import Error, Errors
from .items import Item
from .positions import Position
from .tree import Element, Node, Token, Tree
from .validation import (
    Exceeded, Figures, NoFigures, Operation, Undecided, Violation, check_limits, measure, validate,
)

__version__ = "0.1.0"

__all__ = [
    "Element", "Error", "Errors", "Item", "Node", "NotADocument", "Position", "Token", "Tree", "check", "format", "lex",
    "nodes", "parse",
]
__all__ += [
    "parse_selection_set", "parse_type", "Exceeded", "Figures", "NoFigures", "Operation", "Undecided", "Violation",
    "check_limits", "measure", "validate",
]
