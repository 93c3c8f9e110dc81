"""The text of the typed nodes: a struct for each kind of node, with its casts and accessors; and the types of leaves.

The names of accessors are those of accessors.py. A struct's documentation is its kind's; the other words are in
typed_docs.py.
"""

import re

from . import typed_docs
from .accessors import LEAVES, accessors
from .grammar import type_case
from .layout import CRATES as FOLDER
from .layout import long_list, mark, use, use_line
from .places import CRATES, ENUMS, enums_in, home, kinds_in

SOURCE = "the rows of the grammar"
VARIANTS = "Rattle.document_grammar.specs.declared.kind.SyntaxKind.TheVariants"


def struct_text(kind, row, grammar):
    """The struct of a kind, with its impls."""
    name = type_case(kind)
    return f"""
{typed_docs.struct_doc(grammar, kind)}#[derive(Clone, Copy)]
pub struct {name}<'t> {{
    syntax: SyntaxNode<'t>,
    ghost of_kind: {{ is_kind {kind} (node_kind syntax) ≡ true }},
}}
{cast_text("Node", name, kind)}}}
{known_cast_text(name, struct_cast(name))}
impl<'t> {name}<'t> {{
{accessors_text(kind, row, grammar)}}}
"""


def cast_text(of, name, kind, ghost="node", variable="n"):
    """The impl of the casts of a struct of a node or a leaf, without its closing brace."""
    cast = NODE_CAST if of == "Node" else leaf_cast_text(name)
    return f"""
impl<'t> Cst{of}<'t> for {name}<'t> {{
    ghost casts = {{ is_kind {kind} }};

    ghost {ghost} = {{ λ {variable}. {variable}.syntax }};

    #[inline(always)]
    fn can_cast(kind: SyntaxKind) -> bool
        ensures {{ result ≡ is_kind {kind} kind }}
    {{
        kind.is(SyntaxKind::{kind})
    }}

{cast}
    fn syntax(&self) -> &Syntax{of}<'t> {{
        &self.syntax
    }}
"""


# The cast of a type of nodes, by its cast where the kind is known.
NODE_CAST = """    #[inline(always)]
    fn cast(syntax: SyntaxNode<'t>) -> Option<Self> {
        Self::cast_as(syntax.kind(), syntax)
    }
"""


def known_cast_text(name, body):
    """The impl of the cast of a type of nodes where the kind is known, which has this body."""
    return f"""
impl<'t> CastAs<'t> for {name}<'t> {{
    #[inline(always)]
    fn cast_as(kind: SyntaxKind, syntax: SyntaxNode<'t>) -> Option<Self> {{
{body}    }}
}}
"""


def struct_cast(name):
    """The node as a struct's, where its kind is the struct's."""
    return f"""        if Self::can_cast(kind) {{
            Some({name} {{ syntax }})
        }} else {{
            None
        }}
"""


def leaf_cast_text(name):
    """The cast of a type of leaves."""
    return f"""    #[inline(always)]
    fn cast(syntax: SyntaxToken<'t>) -> Option<Self> {{
        if Self::can_cast(syntax.kind()) {{
            Some({name} {{ syntax }})
        }} else {{
            None
        }}
    }}
"""


def accessors_text(kind, row, grammar):
    """The accessors of a struct, and before them what their clauses cite."""
    chosen = sorted({accessor.target for accessor in row if accessor.target in ENUMS and not accessor.gives_all})
    cited = "".join(
        f"    ghost use Rattle.{home(enum, grammar)[0]}.specs.{enum}.{{{enum.lower()}_node}};\n" for enum in chosen
    )
    return "\n".join(([cited] if cited else []) + [accessor_text(kind, accessor) for accessor in row])


def accessor_text(kind, accessor):
    """A method that gives a leaf, the first node, or all nodes."""
    doc = f"    /// {typed_docs.accessor_doc(kind, accessor)}\n"
    target, wanted = accessor.target, accessor.kinds[0]
    if target is None:
        clause = f"GivesLeaf {wanted} self.now.syntax result"
        return doc + method(
            accessor.name, "Option<SyntaxToken<'t>>", clause, f"token(&self.syntax, SyntaxKind::{wanted})"
        )
    if target in ENUMS:
        casts, node = f"(one_of {ENUMS[target].listed})", f"{target.lower()}_node"
    else:
        casts, node = f"(is_kind {wanted})", "(λ n. n.syntax)"
    if accessor.gives_all:
        clause = f"GivesAll {casts} self.now.syntax (rest_cast {casts} result)"
        return doc + method(accessor.name, f"CstChildren<'t, {target}<'t>>", clause, "children(&self.syntax)")
    clause = f"GivesFirst {casts} {node} self.now.syntax result"
    return doc + method(accessor.name, f"Option<{target}<'t>>", clause, "child(&self.syntax)")


def method(name, answer, clause, body):
    return f"""{signature(name, answer)}
        ensures {{ {clause} }}
    {{
        {body}
    }}
"""


def signature(name, answer):
    line = f"    pub fn {name}(&self) -> {answer}"
    return line if len(line) <= 100 else f"    pub fn {name}(\n        &self,\n    ) -> {answer}"


def leaf_text(kind, grammar):
    """The struct of a kind of leaf."""
    name = type_case(kind) + "Token"
    return f"""
{typed_docs.doc(grammar.documentation[kind])}#[derive(Clone, Copy)]
pub struct {name}<'t> {{
    syntax: SyntaxToken<'t>,
}}
{cast_text("Token", name, kind, "leaf", "t")}
    fn text(&self) -> &'t str {{
        self.syntax.text()
    }}
}}
"""


def leaves_text(grammar):
    """The module of the types of leaves."""
    return (
        mark("//", SOURCE)
        + f"""
ghost use Rattle.std.specs.Prelude.{{◌≡◌}};
ghost use {VARIANTS}.{{{', '.join(LEAVES)}}};
ghost use Rattle.document_grammar.specs.Numbers.{{is_kind}};

use crate::typed::CstToken;
use apollo_tree::{{SyntaxKind, SyntaxToken}};
"""
        + "".join(leaf_text(kind, grammar) for kind in LEAVES)
    )


def enum_text(enum, crate, grammar):
    """An enum of nodes, with its casts."""
    name, listed = enum.lower(), ENUMS[enum].listed
    kinds = grammar.lists[listed]
    types = [type_case(kind) for kind in kinds]
    variants = "".join(f"    {variant}({variant}<'t>),\n" for variant in types)
    nodes = "".join(f"            {enum}::{variant}(node) => node.syntax(),\n" for variant in types)
    return f"""
{typed_docs.enum_doc(grammar, enum)}#[derive(Clone, Copy)]
pub enum {enum}<'t> {{
{variants}}}

impl<'t> CstNode<'t> for {enum}<'t> {{
    ghost use Rattle.{crate}.specs.{enum}.{{{name}_node}};

    ghost casts = {{ one_of {listed} }};

    ghost node = {{ {name}_node }};

    #[inline(always)]
    fn can_cast(kind: SyntaxKind) -> bool
        ensures {{ result ≡ one_of {listed} kind }}
    {{
        {any_cast(types)}
    }}

{NODE_CAST}
    fn syntax(&self) -> &SyntaxNode<'t> {{
        match self {{
{nodes}        }}
    }}
}}
{known_cast_text(enum, tried_casts(enum, types))}"""


def any_cast(types):
    """Whether one of the structs has the kind."""
    tests = [f"{name}::can_cast(kind)" for name in types]
    flat = " || ".join(tests)
    return flat if len(flat) <= 92 else "\n            || ".join(tests)


def tried_casts(enum, types):
    """Each struct's cast in turn."""
    tried = "".join(
        f"""        if let Some(node) = {name}::cast_as(kind, syntax) {{
            return Some({enum}::{name}(node));
        }}
"""
        for name in types
    )
    return tried + "        None\n"


def enum_spec(enum, crate, module, grammar):
    """The file of definitions that has the node of an enum's value."""
    name = enum.lower()
    kinds = grammar.lists[ENUMS[enum].listed]
    variants = ", ".join(map(type_case, kinds))
    clauses = "".join(f"{name}_node ({type_case(kind)} n) = n.syntax\n" for kind in kinds)
    return f"""{mark("--", SOURCE)}-- The node of a value of `{enum}`.
use Rattle.apollo_tree.specs.declared.node.SyntaxNode.{{SyntaxNode}}
use Rattle.{crate}.specs.declared.{module}.{enum}.{{{enum}}}
use Rattle.{crate}.specs.declared.{module}.{enum}.TheVariants.{{{variants}}}

abbrev pub {name}_node : {enum} → SyntaxNode
{clauses}"""


def module_text(crate, module, grammar):
    """A module of structs, and of enums after them."""
    kinds, enums = kinds_in(crate, module, grammar), enums_in(crate, module)
    body = "".join(struct_text(kind, accessors(grammar, kind), grammar) for kind in kinds)
    body += "".join(enum_text(enum, crate, grammar) for enum in enums)
    here = {*map(type_case, kinds), *enums}
    return mark("//", SOURCE) + "\n" + ghost_uses(body, grammar) + "\n" + rust_uses(body, crate, here, grammar) + body


def ghost_uses(body, grammar):
    """What the clauses of a module cite."""
    words = set(re.findall(r"\w+", " ".join(re.findall(r"(?:ensures|ghost \w+[:=]? ?=?) \{(.*)\}", body))))
    cited = lambda names: [name for name in names if name in words]
    lines = [
        ("Rattle.std.specs.Prelude", ["◌≡◌", "true"]),
        (VARIANTS, cited(grammar.kinds)),
        (
            "Rattle.document_grammar.specs.Choices",
            [choice.listed for choice in ENUMS.values() if f"one_of {choice.listed}" in body],
        ),
        ("Rattle.document_grammar.specs.Numbers", ["is_kind"]),
        ("Rattle.apollo_cst_core.specs.Cast", cited(["GivesAll", "GivesFirst", "GivesLeaf", "node_kind", "one_of"])),
        ("Rattle.apollo_cst_core.specs.Children", cited(["rest_cast"])),
    ]
    return "".join(f"ghost use {path}.{{{', '.join(names)}}};\n" for path, names in lines if names)


def rust_uses(body, crate, here, grammar):
    """What the code of a module calls: of this crate, of the crate of casts, of other crates, and of the tree's."""
    names = set(re.findall(r"\b[A-Z]\w*", body))
    core = [name for name in ["CastAs", "CstChildren", "CstNode"] if name in names]
    core += [name for name in ["child", "children", "token"] if re.search(rf"\b{name}\(&self", body)]
    tree = [name for name in ["SyntaxKind", "SyntaxNode", "SyntaxToken"] if name in names]
    imports = {}
    for target in sorted((names & {*map(type_case, grammar.nodes), *ENUMS}) - here):
        other, module = home(target, grammar)
        imports.setdefault(f"crate::{module}" if other == crate else other, []).append(target)
    lines = [use_line(path, targets) for path, targets in sorted(imports.items()) if path.startswith("crate")]
    lines.append(f"use apollo_cst_core::{{{', '.join(core)}}};\n")
    lines += [use_line(path, targets) for path, targets in sorted(imports.items()) if not path.startswith("crate")]
    return "".join(lines) + f"use apollo_tree::{{{', '.join(tree)}}};\n"


def accessors_spec(grammar):
    """The accessors of all rows, as the list that the law on reading back goes through."""
    listed = {tuple(grammar.lists[choice.listed]): choice.listed for choice in ENUMS.values()}
    used, items = set(), []
    for kind in grammar.rows:
        used.add(kind)
        for accessor in accessors(grammar, kind):
            name = listed.get(tuple(accessor.kinds), accessor.kinds[0])
            used.add(name)
            one = name if accessor.target is None or name in listed.values() else f"({name} ∷ [])"
            items.append(f"{'leaf' if accessor.target is None else 'nodes'} {kind} {one} {accessor.number}")
    return f"""{mark("--", SOURCE)}-- The accessors of all kinds of nodes, in the order of the rows. A choice that is no enum has an accessor for each of its kinds.
use Rattle.std.specs.Prelude.{{List, [], ◌∷◌}}
{use("document_grammar.specs.Kinds", [kind for kind in grammar.kinds if kind in used])}{use("document_grammar.specs.Choices", sorted(set(listed.values()) & used))}use Rattle.apollo_cst_core.specs.ReadingBack.{{Accessor, nodes, leaf, exactly_one, at_most_one, at_least_one, any_number}}

unfoldable pub accessors : List Accessor
accessors =
{long_list(items)}"""


def outputs(grammar):
    """The text of each file, by its path."""
    core = FOLDER / "apollo_cst_core"
    files = {core / "src/tokens.rt": leaves_text(grammar), core / "specs/Accessors.antt": accessors_spec(grammar)}
    for crate, modules in CRATES.items():
        for module in modules:
            files[FOLDER / crate / "src" / f"{module}.rt"] = module_text(crate, module, grammar)
            for enum in enums_in(crate, module):
                files[FOLDER / crate / "specs" / f"{enum}.antt"] = enum_spec(enum, crate, module, grammar)
    return files


def print_accessors(grammar):
    """Each kind of node with its accessors."""
    total = 0
    for kind in grammar.rows:
        row = accessors(grammar, kind)
        total += len(row)
        print(
            grammar.number[kind],
            type_case(kind) + ":",
            ", ".join(f"{accessor.name} ({accessor.number})" for accessor in row),
        )
    print(total, "accessors")
