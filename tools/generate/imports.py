"""The `use` lines of kinds and of nodes in files of definitions that are otherwise written by hand."""

import re

from . import nodes
from .grammar import FOLDER
from .layout import uses

# The files of document_grammar that have rows, choices of kinds and rules on kinds.
FILES = ("Rows", "Choices", "Derivation")


def kinds_used(text, grammar):
    """The kinds that a file names besides its `use` lines and comments, and the list of keywords' words, in the order
    of Kinds.antt."""
    words = set(re.findall(r"\w+", re.sub(r"^use .*|--.*", "", text, flags=re.M)))
    return [name for name in [*grammar.kinds, "words"] if name in words]


def with_names(path, module, names):
    """The text of a file with these names in the `use` lines of a module, which follow one another."""
    lines = re.compile(rf"(?:^use Rattle\.{re.escape(module)}\.\{{.*\}}\n)+", re.M)
    return lines.sub(uses(module, names), path.read_text())


def outputs(grammar):
    """The text of each file, by its path."""
    files = {}
    for name in FILES:
        path = FOLDER / f"specs/{name}.antt"
        files[path] = with_names(path, "document_grammar.specs.Kinds", kinds_used(path.read_text(), grammar))
    rules = nodes.FOLDER / "Rules.antt"
    files[rules] = with_names(
        rules, "parser_rules.specs.Nodes", ["Node", *names_of("inside"), "Part", *names_of("body")]
    )
    return files


def names_of(function):
    """The nodes or parts for which a function of Rules.antt has clauses."""
    return [clause.name for clause in nodes.clauses(function)]
