"""The lists of kinds, one entry for each kind: those of the crate document_grammar, and the names that gqlcst_run
prints."""

from .grammar import FOLDER, word
from .layout import CRATES, long_list, mark, use

SOURCE = "the enum of src/kind.rt"
VARIANTS = "document_grammar.specs.declared.kind.SyntaxKind"


def lookup(grammar):
    """src/kind/lookup.rt: the kind of a number, and the word of a keyword's kind."""
    words = "".join(f'            SyntaxKind::{keyword} => Some("{word(keyword)}"),\n' for keyword in grammar.keywords)
    arms = "".join(f"            {number} => SyntaxKind::{kind},\n" for number, kind in enumerate(grammar.kinds))
    return (
        mark("//", SOURCE)
        + f"""
ghost use Rattle.std.specs.Prelude.{{◌≡◌, ℕ, ◌<◌, ◌≤◌, ◌↔◌, ◌⊎◌, IsTrue, None, Some, MatchOption}};
ghost use Rattle.document_grammar.specs.Choices.{{keyword_word}};
ghost use Rattle.document_grammar.specs.Kinds.{{kind_count}};
ghost use Rattle.document_grammar.specs.Numbers.{{number}};

use crate::kind::SyntaxKind;

impl SyntaxKind {{
    /// How many kinds there are: their numbers are those below it.
    pub const COUNT: u16 = {len(grammar.kinds)};

    /// The kind with the number `of`, or None from `SyntaxKind::COUNT` on.
    pub fn from_u16(of: u16) -> Option<SyntaxKind>
        ensures {{ MatchOption result (kind_count ≤ of) (λ k. number k ≡ of) }}
    {{
        let kind = match of {{
{arms}            _ => return None,
        }};
        Some(kind)
    }}

    /// The word of a keyword's kind, or None for other kinds.
    #[tactic(auto, unfolding(crate::specs::Choices::keyword_word, crate::specs::Kinds::words))]
    pub fn keyword(self) -> Option<&'static str>
        ensures {{ MatchOption result (keyword_word (number self) ≡ None) (λ text. keyword_word (number self) ≡ Some text.now) }}
    {{
        match self {{
{words}            _ => None,
        }}
    }}
}}
"""
    )


def names(grammar):
    """specs/Kinds.antt: the numbers under the kinds' names, and the words of keywords."""
    constants = "".join(f"abbrev pub {kind} : ℕ\n{kind} = {number}\n\n" for number, kind in enumerate(grammar.kinds))
    words = long_list(f'({keyword}, codes "{word(keyword)}")' for keyword in grammar.keywords)
    return (
        mark("--", SOURCE)
        + """-- The numbers of the syntax kinds under their names, and the words of keyword leaves (GraphQL October 2021, sections 2 and 3). Leaves
-- come first: those of ignored tokens, ERROR, those of the other tokens, those of keywords; nodes begin with DOCUMENT. The numbers are
-- this project's own.
use Rattle.std.specs.Prelude.{ℕ, List, [], ◌∷◌, codes}
use Rattle.document_grammar.specs.Tree.{Text}

"""
        + constants
        + f"""-- The kinds before it are those of leaves, and from it on those of nodes.
abbrev pub first_node : ℕ
first_node = {grammar.nodes[0]}

-- How many kinds there are.
abbrev pub kind_count : ℕ
kind_count = {len(grammar.kinds)}

-- The word of each keyword leaf. Each is a Name for the lexical grammar.
unfoldable pub words : List (ℕ × Text)
words =
{words}"""
    )


def numbering(grammar):
    """specs/Numbering.antt: the number of each kind."""
    clauses = "".join(f"number {kind} = {number}\n" for number, kind in enumerate(grammar.kinds))
    return (
        mark("--", SOURCE)
        + """-- The number of each syntax kind; `Kinds` has the same numbers under the kinds' names.
use Rattle.std.specs.Prelude.{ℕ}
"""
        + use(VARIANTS, ["SyntaxKind"])
        + use(f"{VARIANTS}.TheVariants", grammar.kinds)
        + f"""
abbrev pub number : SyntaxKind → ℕ
{clauses}"""
    )


def lists(grammar):
    """proofs/generated/KindLists.antt: all kinds, and their numbers under their names."""
    kinds, leaves, nodes = (
        long_list(items) for items in ([f"kind.{kind}" for kind in grammar.kinds], grammar.leaves, grammar.nodes)
    )
    return (
        mark("--", SOURCE)
        + """-- All kinds, and the numbers of those of leaves and of nodes, each in the order of the numbers.
use Rattle.std.specs.Prelude.{ℕ, List, [], ◌∷◌}
"""
        + use(VARIANTS, ["SyntaxKind"])
        + f"use Rattle.{VARIANTS}.TheVariants as kind\n"
        + use("document_grammar.specs.Kinds", grammar.kinds)
        + f"""
unfoldable pub all_kinds : List SyntaxKind
all_kinds =
{kinds}
abbrev pub leaf_kinds : List ℕ
leaf_kinds =
{leaves}
abbrev pub node_kinds : List ℕ
node_kinds =
{nodes}"""
    )


def printed_names(grammar):
    """src/rendering/kind_name.rt of the crate gqlcst_run: the name of each kind, as the program prints it."""
    arms = "".join(f'        SyntaxKind::{kind} => "{kind}",\n' for kind in grammar.kinds)
    return (
        mark("//", f"{SOURCE} of the crate document_grammar")
        + f"""
use apollo_parser::SyntaxKind;

/// The name of a kind, as `Debug` prints it. It is a static text, so printing it takes one copy.
pub fn kind_name(kind: SyntaxKind) -> &'static str {{
    match kind {{
{arms}    }}
}}
"""
    )


def outputs(grammar):
    """The text of each file, by its path."""
    return {
        FOLDER / "src/kind/lookup.rt": lookup(grammar),
        FOLDER / "specs/Kinds.antt": names(grammar),
        FOLDER / "specs/Numbering.antt": numbering(grammar),
        FOLDER / "proofs/generated/KindLists.antt": lists(grammar),
        CRATES / "gqlcst_run/src/report/kind_name.rt": printed_names(grammar),
    }
