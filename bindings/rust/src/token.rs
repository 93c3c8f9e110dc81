//! The tokens of a text.
use crate::SyntaxKind;
use std::fmt;

/// A token of a text.
///
/// It prints as `NAME@0:4 "type"`: its kind, its bytes, and its text.
#[derive(Clone, PartialEq, Eq)]
pub struct Token<'a> {
    kind: TokenKind,
    data: &'a str,
    index: usize,
}

impl<'a> Token<'a> {
    pub(crate) fn new(kind: TokenKind, data: &'a str, index: usize) -> Self {
        Token { kind, data, index }
    }

    /// Its kind.
    pub fn kind(&self) -> TokenKind {
        self.kind
    }

    /// Its text, which is empty for the end.
    pub fn data(&self) -> &'a str {
        self.data
    }

    /// The byte offset of its text.
    pub fn index(&self) -> usize {
        self.index
    }
}

impl fmt::Debug for Token<'_> {
    fn fmt(&self, f: &mut fmt::Formatter<'_>) -> fmt::Result {
        write!(f, "{}@{}:{}", self.kind.name(), self.index, self.index + self.data.len())?;
        match self.kind {
            TokenKind::Eof => Ok(()),
            _ => write!(f, " {:?}", self.data),
        }
    }
}

/// Writes the enum of kinds, with the kind of the leaf that each is in a tree, and the name under which it is printed.
macro_rules! token_kinds {
    ($($(#[$doc:meta])* $kind:ident, $leaf:ident, $name:literal;)*) => {
        /// The kinds of tokens (GraphQL October 2021, section 2.1.6, "Lexical Tokens", and section 2.1.7, "Ignored Tokens").
        #[derive(Debug, Clone, Copy, PartialEq, Eq)]
        pub enum TokenKind {
            $($(#[$doc])* $kind,)*
        }

        impl TokenKind {
            fn name(self) -> &'static str {
                match self {
                    $(TokenKind::$kind => $name,)*
                }
            }

            /// The kind of the token that has this leaf in a tree; the end is an empty ERROR leaf.
            pub(crate) fn of_leaf(leaf: SyntaxKind) -> TokenKind {
                match leaf {
                    $(SyntaxKind::$leaf => TokenKind::$kind,)*
                    _ => TokenKind::Name,
                }
            }
        }
    };
}

token_kinds! {
    /// A run of white space and line terminators.
    Whitespace, WHITESPACE, "WHITESPACE";
    /// `#` and what follows it in its line.
    Comment, COMMENT, "COMMENT";
    /// `!`
    Bang, BANG, "BANG";
    /// `$`
    Dollar, DOLLAR, "DOLLAR";
    /// `&`
    Amp, AMP, "AMP";
    /// `...`
    Spread, SPREAD, "SPREAD";
    /// `,`
    Comma, COMMA, "COMMA";
    /// `:`
    Colon, COLON, "COLON";
    /// `=`
    Eq, EQ, "EQ";
    /// `@`
    At, AT, "AT";
    /// `(`
    LParen, L_PAREN, "L_PAREN";
    /// `)`
    RParen, R_PAREN, "R_PAREN";
    /// `[`
    LBracket, L_BRACK, "L_BRACKET";
    /// `]`
    RBracket, R_BRACK, "R_BRACKET";
    /// `{`
    LCurly, L_CURLY, "L_CURLY";
    /// `}`
    RCurly, R_CURLY, "R_CURLY";
    /// `|`
    Pipe, PIPE, "PIPE";
    /// The end of the text.
    Eof, ERROR, "EOF";
    /// A name, keywords among them.
    Name, IDENT, "NAME";
    /// A quoted string or a block string, with its quotes.
    StringValue, STRING, "STRING_VALUE";
    /// An integer.
    Int, INT, "INT";
    /// A number with a fraction, an exponent or both.
    Float, FLOAT, "FLOAT";
}

/// The [`TokenKind`] of a punctuator, or of `name`, `string`, `int` and `float`: `T![...]`, `T!['{']`, `T![name]`. A bracket is written as a character.
#[macro_export]
macro_rules! T {
    [!] => { $crate::TokenKind::Bang };
    [$] => { $crate::TokenKind::Dollar };
    [&] => { $crate::TokenKind::Amp };
    [...] => { $crate::TokenKind::Spread };
    [,] => { $crate::TokenKind::Comma };
    [:] => { $crate::TokenKind::Colon };
    [=] => { $crate::TokenKind::Eq };
    [@] => { $crate::TokenKind::At };
    ['('] => { $crate::TokenKind::LParen };
    [')'] => { $crate::TokenKind::RParen };
    ['['] => { $crate::TokenKind::LBracket };
    [']'] => { $crate::TokenKind::RBracket };
    ['{'] => { $crate::TokenKind::LCurly };
    ['}'] => { $crate::TokenKind::RCurly };
    [|] => { $crate::TokenKind::Pipe };
    [name] => { $crate::TokenKind::Name };
    [string] => { $crate::TokenKind::StringValue };
    [int] => { $crate::TokenKind::Int };
    [float] => { $crate::TokenKind::Float };
}
