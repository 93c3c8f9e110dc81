"""The roots of the crates of typed nodes, and the module of apollo_parser that passes all typed nodes on."""

from .accessors import LEAVES
from .grammar import type_case
from .layout import CRATES as FOLDER
from .layout import mark, use_line
from .places import CRATES, enums_in, kinds_in

SOURCE = "the rows of the grammar"

ABOUT = {
    "apollo_cst_executable": """//! Typed nodes of operations, selections and fragments, and of the names, values, directives and types in them.
//!
//! There is a struct for each kind of node, and an enum for each choice of the grammar. An accessor gives a part of a node, which may be missing
//! in a faulty text. The values of strings, integers and booleans and the texts of names are written by hand, in `literals` and `text`.
//! `apollo_parser` passes all of them on as `cst`.
""",
    "apollo_cst_type_system": """//! Typed nodes of the type system's definitions and extensions, and of the document, which holds definitions of all sorts.
//!
//! There is a struct for each kind of node, and `Definition` is the choice of all definitions. An accessor gives a part of a node, which may be
//! missing in a faulty text. The calls of `Definition` and the names of directive locations are written by hand.
//! `apollo_parser` passes all of them on as `cst`, and its `SyntaxTree::document` gives the root.
""",
}

# What is passed on besides the typed nodes and the types of leaves.
SHARED = ["CstChildren", "CstNode", "CstToken", "LiteralError"]
TREE = ["SyntaxNode", "SyntaxNodePtr"]

# The names of enums that are reserved words where they are declared.
RENAMED = {"Ty": "Ty as Type"}


def exports(crate, module, grammar):
    """The structs and enums of a module, in order."""
    return sorted([type_case(kind) for kind in kinds_in(crate, module, grammar)] + enums_in(crate, module))


def root_text(crate, grammar):
    """The root of a crate: its modules, also those that are written by hand, and what the generated ones have."""
    source = FOLDER / crate / "src"
    modules = {path.stem for path in source.glob("*.rt")} - {"lib"} | set(CRATES[crate])
    declared = "".join(f"mod {module};\n" for module in sorted(modules))
    passed_on = "".join(
        f"pub {use_line(module, exports(crate, module, grammar), 4)}" for module in sorted(CRATES[crate])
    )
    return f"""{mark("//", SOURCE)}{ABOUT[crate]}#![tactic(auto)]

{declared}
{passed_on}"""


def all_nodes_text(grammar):
    """The module `cst` of apollo_parser."""
    passed_on = {
        "apollo_cst_core": sorted(SHARED + [f"{type_case(kind)}Token" for kind in LEAVES]),
        "apollo_tree": TREE,
    }
    for crate, modules in CRATES.items():
        names = [name for module in modules for name in exports(crate, module, grammar)]
        passed_on[crate] = [RENAMED.get(name, name) for name in sorted(names)]
    return f"""{mark("//", SOURCE)}//! The typed tree: a struct for each kind of node, with an accessor for each part that the grammar gives it.
//!
//! `SyntaxTree::document` gives the root. A name has its `text`, a string, an integer and a boolean their value.
{"".join(f"pub {use_line(crate, names, 4)}" for crate, names in sorted(passed_on.items()))}"""


def outputs(grammar):
    """The text of each file, by its path."""
    roots = {FOLDER / crate / "src/lib.rt": root_text(crate, grammar) for crate in CRATES}
    return {**roots, FOLDER / "apollo_parser/src/cst.rt": all_nodes_text(grammar)}
