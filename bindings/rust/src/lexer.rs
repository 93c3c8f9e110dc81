//! The tokens of a text, without a tree.
use crate::ffi;
use crate::rows::ItemRow;
use crate::{Error, SyntaxKind, Token, TokenKind};
use std::sync::Arc;

/// Cuts a text into tokens. It is an iterator of them, of bad text as errors, and at last of the end, [`TokenKind::Eof`].
///
/// If more tokens come than the limit allows, it gives an error in place of the next one, and then nothing more. The whole text is cut before the
/// first token is given.
///
/// ```
/// use dumyroke::{Lexer, TokenKind};
///
/// let (tokens, errors) = Lexer::new("{ name }").lex();
/// assert_eq!(errors, []);
/// assert_eq!(tokens[2].kind(), TokenKind::Name);
/// assert_eq!(tokens[2].data(), "name");
/// ```
#[derive(Clone, Debug)]
pub struct Lexer<'a> {
    text: &'a str,
    /// How many items it gives at most, those among them that it gave.
    allowed: usize,
    given: usize,
    errors_given: usize,
    is_finished: bool,
    items: Option<Arc<Items>>,
}

#[derive(Debug)]
struct Items {
    rows: Vec<ItemRow>,
    errors: Vec<Error>,
}

impl<'a> Lexer<'a> {
    /// A lexer of a text, without a limit.
    pub fn new(input: &'a str) -> Self {
        Lexer { text: input, allowed: usize::MAX, given: 0, errors_given: 0, is_finished: false, items: None }
    }

    /// Sets the limit: how many tokens it gives from here on, bad text and the end among them. After the end, or after the limit was met, it gives
    /// nothing more.
    pub fn with_limit(mut self, limit: usize) -> Self {
        self.allowed = self.given.saturating_add(limit);
        self.items = None;
        self
    }

    /// The tokens and the errors, each in order.
    pub fn lex(self) -> (Vec<Token<'a>>, Vec<Error>) {
        let (mut tokens, mut errors) = (Vec::new(), Vec::new());
        for item in self {
            match item {
                Ok(token) => tokens.push(token),
                Err(error) => errors.push(error),
            }
        }
        (tokens, errors)
    }

    /// The items of the text, as many as are allowed, and then the limit.
    fn cut(&self) -> Items {
        match ffi::lex(self.text, self.allowed) {
            Ok(found) => Items { errors: found.errors(self.text), rows: found.rows },
            Err(ffi::TooLong) => {
                let limit = ItemRow { start: 0, end: 0, kind: 0, is_error: 1 };
                Items { rows: vec![limit], errors: vec![Error::limit("the text has 2^31 bytes or more", 0)] }
            }
        }
    }
}

impl<'a> Iterator for Lexer<'a> {
    type Item = Result<Token<'a>, Error>;

    fn next(&mut self) -> Option<Self::Item> {
        if self.is_finished {
            return None;
        }
        let items = match self.items.take() {
            Some(items) => items,
            None => Arc::new(self.cut()),
        };
        let row = *items.rows.get(self.given)?;
        self.given += 1;
        let item = if row.is_error == 0 {
            let (start, end) = (row.start as usize, row.end as usize);
            let kind = TokenKind::of_leaf(SyntaxKind::of_number(row.kind));
            self.is_finished = kind == TokenKind::Eof;
            Ok(Token::new(kind, &self.text[start..end], start))
        } else {
            let error = items.errors[self.errors_given].clone();
            self.errors_given += 1;
            self.is_finished = error.is_limit();
            Err(error)
        };
        self.items = Some(items);
        Some(item)
    }
}
