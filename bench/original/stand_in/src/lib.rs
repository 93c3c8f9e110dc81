//! The original's lexer and parser over a stand-in for `rowan`, without its typed tree.
#![allow(dead_code, unused_imports)]
pub mod cst;
mod error;
mod lexer;
mod limit;
mod parser;
pub mod values;

pub use error::Error;
pub use lexer::{Lexer, Token, TokenKind};
pub use limit::LimitTracker;
pub use parser::{Parser, SyntaxKind, SyntaxTree};
