#![doc = include_str!("../README.md")]
#![deny(unsafe_code, missing_docs)]

pub mod cst;
mod error;
mod ffi;
#[rustfmt::skip]
mod kind;
mod lexer;
mod limit;
mod parser;
mod range;
#[rustfmt::skip]
mod rows;
mod token;
mod token_text;
mod tree;
pub mod validation;

pub use crate::error::Error;
pub use crate::kind::SyntaxKind;
pub use crate::lexer::Lexer;
pub use crate::limit::LimitTracker;
pub use crate::parser::{Parser, SyntaxTree};
pub use crate::range::TextRange;
pub use crate::token::{Token, TokenKind};
pub use crate::token_text::TokenText;
pub use crate::tree::{SyntaxElement, SyntaxNode, SyntaxToken};

/// The names that a program imports from the crate `rowan` beside `apollo-parser`: `use dumyroke::rowan;` takes its place.
pub mod rowan {
    pub use crate::range::{TextLen, TextRange, TextSize};
    pub use crate::tree::{Direction, NodeOrToken, Preorder, PreorderWithTokens, SyntaxElementChildren, SyntaxNodeChildren};
    pub use crate::tree::{SyntaxText, TokenAtOffset, WalkEvent};
}
