//! The texts of names.
use crate::tree::Tree;
use std::cmp::Ordering;
use std::fmt;
use std::ops::Deref;
use std::sync::Arc;

/// The text of a name or of another word of a tree. It is a part of the tree's text, keeps the tree alive, and may go to other threads.
#[derive(Clone)]
pub struct TokenText {
    tree: Arc<Tree>,
    start: u32,
    end: u32,
}

impl TokenText {
    pub(crate) fn new(tree: Arc<Tree>, start: u32, end: u32) -> Self {
        TokenText { tree, start, end }
    }

    /// The text.
    #[inline]
    pub fn as_str(&self) -> &str {
        &self.tree.text[self.start as usize..self.end as usize]
    }
}

impl Deref for TokenText {
    type Target = str;

    fn deref(&self) -> &str {
        self.as_str()
    }
}

impl AsRef<str> for TokenText {
    fn as_ref(&self) -> &str {
        self
    }
}

impl From<TokenText> for String {
    fn from(text: TokenText) -> String {
        text.as_str().to_owned()
    }
}

impl fmt::Display for TokenText {
    fn fmt(&self, f: &mut fmt::Formatter<'_>) -> fmt::Result {
        fmt::Display::fmt(self.as_str(), f)
    }
}

impl fmt::Debug for TokenText {
    fn fmt(&self, f: &mut fmt::Formatter<'_>) -> fmt::Result {
        fmt::Debug::fmt(self.as_str(), f)
    }
}

impl Eq for TokenText {}

impl PartialEq for TokenText {
    fn eq(&self, other: &TokenText) -> bool {
        self.as_str() == other.as_str()
    }
}

impl PartialOrd for TokenText {
    fn partial_cmp(&self, other: &TokenText) -> Option<Ordering> {
        Some(self.cmp(other))
    }
}

impl Ord for TokenText {
    fn cmp(&self, other: &TokenText) -> Ordering {
        self.as_str().cmp(other)
    }
}

/// Comparisons with other texts, in both orders.
macro_rules! equal_to {
    ($($other:ty),*) => {
        $(impl PartialEq<$other> for TokenText {
            fn eq(&self, other: &$other) -> bool {
                let text: &str = other.as_ref();
                self.as_str() == text
            }
        }

        impl PartialEq<TokenText> for $other {
            fn eq(&self, other: &TokenText) -> bool {
                other == self
            }
        })*
    };
}
equal_to!(str, &'_ str, String);
