"""The kinds of elements for other languages, under the numbers that they have in a tree: the header for C, a module
each for Python and the page, and the enum of bench/original."""

from .grammar import PUNCTUATORS, word
from .layout import TOP, mark

SOURCE = "the enum of crates/document_grammar/src/kind.rt"


def about(kind, grammar):
    """What a kind is, as a comment: what the enum says of it, or how its token is spelled."""
    if kind in grammar.keywords:
        return f" /* `{word(kind)}` */"
    if kind in PUNCTUATORS:
        return f" /* `{PUNCTUATORS[kind]}` */"
    return f" /* {grammar.documentation[kind][0]} */" if grammar.documentation[kind] else ""


def names(grammar, indent="    "):
    """The names of all kinds as texts, with commas, a line each."""
    return "".join(f'{indent}"{kind}",\n' for kind in grammar.kinds)


def for_c(grammar):
    """The header."""
    entries = "".join(
        f"    DUMYROKE_{kind} = {number},{about(kind, grammar)}\n" for number, kind in enumerate(grammar.kinds)
    )
    return f"""/*{mark("", SOURCE).rstrip()} */
#ifndef DUMYROKE_KINDS_H
#define DUMYROKE_KINDS_H

/* The kinds of elements. Leaves are below DUMYROKE_{grammar.nodes[0]}, nodes begin with it. The sections are those of GraphQL October 2021. */
enum dumyroke_kind {{
{entries}    /* how many there are */
    DUMYROKE_KINDS = {len(grammar.kinds)}
}};

/* The name of each kind. */
static const char *const dumyroke_kind_names[DUMYROKE_KINDS] = {{
{names(grammar)}}};

#endif
"""


def for_python(grammar):
    """The module of the Python package."""
    if len(grammar.kinds) > 255:
        raise SystemExit(
            "foreign_kinds.py: bindings/python/dumyroke/tree.py has one byte for a kind, and one number of its own, and"
            " there are more than 255"
        )
    numbers = "".join(f"{kind} = {number}\n" for number, kind in enumerate(grammar.kinds))
    return f'''{mark("#", SOURCE)}"""The kinds of elements: their numbers, as in bindings/c/include/dumyroke_kinds.h, and their names."""

{numbers}
FIRST_NODE = {grammar.nodes[0]}
"""The first kind of node. Those before it are kinds of tokens."""

NAMES = (
{names(grammar)})

NUMBERS = {{name: number for number, name in enumerate(NAMES)}}
'''


def for_page(grammar):
    """The module of the page."""
    return f"""{mark("//", SOURCE)}// The name of each kind of element, at its number.
export const KINDS = [
{names(grammar, "  ")}];

// The first kind of node. Those before it are kinds of tokens.
export const FIRST_NODE = {grammar.kinds.index(grammar.nodes[0])};
"""


def for_original(grammar):
    """The enum for the original's parser over a stand-in for `rowan`, in bench/original."""
    entries = "".join(f"    {kind},\n" for kind in grammar.kinds)
    quoted = lambda sign: f"'{sign}'" if sign in "()[]{}" else sign
    arms = "".join(f"    [{quoted(sign)}] => {{ $crate::SyntaxKind::{kind} }};\n" for kind, sign in PUNCTUATORS.items())
    return f"""{mark("//", SOURCE)}#![allow(non_camel_case_types)]

#[derive(Debug, Clone, Copy, PartialEq, Eq, Hash)]
#[repr(u16)]
pub enum SyntaxKind {{
{entries}    __LAST,
}}

/// The kind of a punctuator.
#[macro_export]
macro_rules! S {{
{arms}}}
"""


def outputs(grammar):
    """The text of each file, by its path."""
    return {
        TOP / "bindings/c/include/dumyroke_kinds.h": for_c(grammar),
        TOP / "bindings/python/dumyroke/kinds.py": for_python(grammar),
        TOP / "bindings/web/kinds.js": for_page(grammar),
        TOP / "bench/original/stand_in/src/parser/generated/syntax_kind.rs": for_original(grammar),
    }
