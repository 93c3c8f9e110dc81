"""The kinds and the typed nodes of the Rust crate: bindings/rust/src/kind.rs and bindings/rust/src/cst/nodes.rs.

There is a struct for each kind of node, with the accessors of the typed tree, and an enum for each choice. Some leaves
have a second accessor, under the name that users of `apollo-parser` know. """

import re

from . import typed_docs
from .accessors import accessors
from .grammar import PUNCTUATORS, type_case, word
from .layout import TOP, mark
from .places import ENUMS

FOLDER = TOP / "bindings/rust/src"
ROWS = "the rows of the grammar"
KINDS = "the enum of crates/document_grammar/src/kind.rt"

# The enums that have another name here.
CHOICES = {"Ty": "Type"}

# What the leaves are that the grammar does not describe.
LEAVES = {"COMMA": "`,`", "ERROR": "Text that was refused."}

# Leaves whose accessor has a second name.
ALIASES = {"SPREAD": "dotdotdot_token", "BANG": "excl_token"}

DERIVES = "#[derive(Debug, Clone, PartialEq, Eq, Hash)]\n"


def choice_name(enum):
    return CHOICES.get(enum, enum)


def escaped(text):
    """Documentation in which brackets outside code, as in productions, begin no link."""
    parts = text.split("`")
    parts[::2] = [re.sub(r"([][])", r"\\\1", part) for part in parts[::2]]
    return "`".join(parts)


def choice_doc(text):
    """The documentation of a struct, with the call of this crate in place of the one in Rattle."""
    return escaped(text.replace("`to_string_in` gives the value", "`String::from` gives the value"))


def docs(lines, indent="    "):
    return "".join(f"{indent}/// {escaped(line)}\n" if line else f"{indent}///\n" for line in lines)


def kind_doc(kind, grammar):
    if grammar.documentation[kind]:
        return docs(grammar.documentation[kind])
    if kind in grammar.keywords:
        return docs([f"The keyword `{word(kind)}`."])
    return docs([LEAVES.get(kind) or f"`{PUNCTUATORS[kind]}`"])


def kinds_text(grammar):
    """kind.rs: the enum, and the kind of each number."""
    variants = "".join(f"{kind_doc(kind, grammar)}    {kind},\n" for kind in grammar.kinds)
    numbered = "".join(f"            {number} => SyntaxKind::{kind},\n" for number, kind in enumerate(grammar.kinds))
    return f"""{mark("//", KINDS)}/// The kind of a node or a token, under the number that it has in the library. Kinds of tokens are below `DOCUMENT`.
///
/// The sections are those of GraphQL October 2021.
#[allow(bad_style, clippy::upper_case_acronyms)]
#[derive(Debug, Clone, Copy, PartialEq, Eq, PartialOrd, Ord, Hash)]
#[repr(u16)]
pub enum SyntaxKind {{
{variants}}}

impl SyntaxKind {{
    /// The kind with a number, or `ERROR` if there is none. The compiler makes it one comparison, and a test for one kind of it no more than that test.
    #[inline]
    pub(crate) fn of_number(number: u16) -> SyntaxKind {{
        match number {{
{numbered}            _ => SyntaxKind::ERROR,
        }}
    }}

    /// Whether it is white space or a comment. A comma is neither.
    pub fn is_trivia(self) -> bool {{
        matches!(self, SyntaxKind::WHITESPACE | SyntaxKind::COMMENT)
    }}
}}

/// The kind with a number. Panics if there is none.
impl From<u16> for SyntaxKind {{
    fn from(number: u16) -> SyntaxKind {{
        let kind = SyntaxKind::of_number(number);
        assert_eq!(kind as u16, number, "there is no kind with this number");
        kind
    }}
}}

impl From<SyntaxKind> for u16 {{
    fn from(kind: SyntaxKind) -> u16 {{
        kind as u16
    }}
}}
"""


def accessor_text(kind, accessor):
    doc = f"    /// {typed_docs.accessor_doc(kind, accessor)}\n"
    wanted = accessor.kinds[0]
    if accessor.target is None:
        text = method(doc, accessor.name, "Option<SyntaxToken>", f"support::token(&self.syntax, SyntaxKind::{wanted})")
        if wanted in ALIASES:
            other = f"    /// [`{accessor.name}`](Self::{accessor.name}) under another name.\n"
            text += "\n" + method(other, ALIASES[wanted], "Option<SyntaxToken>", f"self.{accessor.name}()")
        return text
    target = choice_name(accessor.target)
    if accessor.gives_all:
        return method(doc, accessor.name, f"CstChildren<{target}>", "support::children(&self.syntax)")
    return method(doc, accessor.name, f"Option<{target}>", "support::child(&self.syntax)")


def method(doc, name, answer, body):
    return f"{doc}    #[inline]\n    pub fn {name}(&self) -> {answer} {{\n        {body}\n    }}\n"


def struct_text(kind, grammar):
    name = type_case(kind)
    parts = "\n".join(accessor_text(kind, one) for one in accessors(grammar, kind))
    return f"""
{choice_doc(typed_docs.struct_doc(grammar, kind))}{DERIVES}pub struct {name} {{
    pub(crate) syntax: SyntaxNode,
}}

impl CstNode for {name} {{
    #[inline]
    fn can_cast(kind: SyntaxKind) -> bool {{
        kind == SyntaxKind::{kind}
    }}

    #[inline]
    fn cast(syntax: SyntaxNode) -> Option<Self> {{
        Self::cast_as(syntax.kind(), syntax)
    }}

    #[inline]
    fn cast_as(kind: SyntaxKind, syntax: SyntaxNode) -> Option<Self> {{
        Self::can_cast(kind).then_some(Self {{ syntax }})
    }}

    #[inline]
    fn syntax(&self) -> &SyntaxNode {{
        &self.syntax
    }}
}}

impl fmt::Display for {name} {{
    fn fmt(&self, f: &mut fmt::Formatter<'_>) -> fmt::Result {{
        fmt::Display::fmt(&self.syntax, f)
    }}
}}

impl {name} {{
{parts}}}
"""


def what(grammar, kind):
    """What a kind is, in the first line of its documentation, without the section."""
    return grammar.documentation[kind][0].partition(" (section")[0] + "."


def kind_names(types):
    """The call `kind` of definitions."""
    arms = "".join(f'            Definition::{one}(_) => "{one}",\n' for one in types)
    return f"""
impl Definition {{
    /// The name of the struct that it has, as `ObjectTypeDefinition`.
    pub fn kind(&self) -> &'static str {{
        match self {{
{arms}        }}
    }}
}}
"""


def enum_text(enum, grammar):
    name = choice_name(enum)
    kinds = grammar.lists[ENUMS[enum].listed]
    types = [type_case(kind) for kind in kinds]
    variants = "".join(f"    /// {what(grammar, kind)}\n    {one}({one}),\n" for kind, one in zip(kinds, types))
    test = "\n                | ".join(f"SyntaxKind::{kind}" for kind in kinds)
    casts = "".join(
        f"            SyntaxKind::{kind} => {name}::{one}({one} {{ syntax }}),\n" for kind, one in zip(kinds, types)
    )
    nodes = "".join(f"            {name}::{one}(node) => &node.syntax,\n" for one in types)
    froms = "".join(
        f"\nimpl From<{one}> for {name} {{\n    fn from(node: {one}) -> Self {{\n        {name}::{one}(node)\n   "
        " }\n}\n"
        for one in types
    )
    return f"""
{escaped(typed_docs.enum_doc(grammar, enum))}{DERIVES}pub enum {name} {{
{variants}}}

impl CstNode for {name} {{
    #[inline]
    fn can_cast(kind: SyntaxKind) -> bool {{
        matches!(
            kind,
            {test}
        )
    }}

    #[inline]
    fn cast(syntax: SyntaxNode) -> Option<Self> {{
        Self::cast_as(syntax.kind(), syntax)
    }}

    #[inline]
    fn cast_as(kind: SyntaxKind, syntax: SyntaxNode) -> Option<Self> {{
        Some(match kind {{
{casts}            _ => return None,
        }})
    }}

    #[inline]
    fn syntax(&self) -> &SyntaxNode {{
        match self {{
{nodes}        }}
    }}
}}

impl fmt::Display for {name} {{
    fn fmt(&self, f: &mut fmt::Formatter<'_>) -> fmt::Result {{
        fmt::Display::fmt(self.syntax(), f)
    }}
}}
{froms}{kind_names(types) if enum == "Definition" else ""}"""


def nodes_text(grammar):
    body = "".join(struct_text(kind, grammar) for kind in grammar.nodes) + "".join(
        enum_text(enum, grammar) for enum in ENUMS
    )
    return f"""{mark("//", ROWS)}use super::{{support, CstChildren, CstNode}};
use crate::{{SyntaxKind, SyntaxNode, SyntaxToken}};
use std::fmt;
{body}"""


def outputs(grammar):
    """The text of each file, by its path."""
    return {FOLDER / "kind.rs": kinds_text(grammar), FOLDER / "cst/nodes.rs": nodes_text(grammar)}
