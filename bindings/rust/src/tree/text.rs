//! The texts of nodes.
use super::*;
use crate::range::TextSize;
use std::fmt;
use std::ops::{Bound, RangeBounds};

/// The text of a node. It is one part of the tree's text, which [`as_str`](SyntaxText::as_str) gives, and has the calls that it has in `rowan`.
#[derive(Clone)]
pub struct SyntaxText {
    share: Share,
    start: usize,
    end: usize,
}

impl SyntaxText {
    pub(super) fn new(share: Share, range: TextRange) -> SyntaxText {
        SyntaxText { share, start: range.start().into(), end: range.end().into() }
    }

    /// The text.
    #[inline]
    pub fn as_str(&self) -> &str {
        &self.share.text[self.start..self.end]
    }

    /// How many bytes it has.
    pub fn len(&self) -> TextSize {
        TextSize::of(self.as_str())
    }

    /// Whether it has no bytes.
    pub fn is_empty(&self) -> bool {
        self.start == self.end
    }

    /// Whether a character is in it.
    pub fn contains_char(&self, c: char) -> bool {
        self.as_str().contains(c)
    }

    /// Where a character is first in it.
    pub fn find_char(&self, c: char) -> Option<TextSize> {
        self.as_str().split_once(c).map(|(before, _)| TextSize::of(before))
    }

    /// The character at an offset.
    pub fn char_at(&self, offset: TextSize) -> Option<char> {
        self.as_str().get(usize::from(offset)..)?.chars().next()
    }

    /// A part of it. Panics if the range is not within it.
    pub fn slice<R: RangeBounds<TextSize>>(&self, range: R) -> SyntaxText {
        let after = |offset: TextSize| usize::from(offset) + 1;
        let start = match range.start_bound() {
            Bound::Included(&offset) => offset.into(),
            Bound::Excluded(&offset) => after(offset),
            Bound::Unbounded => 0,
        };
        let end = match range.end_bound() {
            Bound::Included(&offset) => after(offset),
            Bound::Excluded(&offset) => offset.into(),
            Bound::Unbounded => self.end - self.start,
        };
        assert!(start <= end && end <= self.end - self.start, "the range {start}..{end} is not within the text");
        SyntaxText { share: self.share.clone(), start: self.start + start, end: self.start + end }
    }

    /// Calls a function with the text, which is one piece.
    pub fn try_for_each_chunk<F: FnMut(&str) -> Result<(), E>, E>(&self, mut f: F) -> Result<(), E> {
        f(self.as_str())
    }

    /// Calls a function with the text, which is one piece.
    pub fn for_each_chunk<F: FnMut(&str)>(&self, mut f: F) {
        f(self.as_str())
    }
}

impl fmt::Debug for SyntaxText {
    fn fmt(&self, f: &mut fmt::Formatter<'_>) -> fmt::Result {
        fmt::Debug::fmt(self.as_str(), f)
    }
}

impl fmt::Display for SyntaxText {
    fn fmt(&self, f: &mut fmt::Formatter<'_>) -> fmt::Result {
        fmt::Display::fmt(self.as_str(), f)
    }
}

impl From<SyntaxText> for String {
    fn from(text: SyntaxText) -> String {
        text.as_str().to_owned()
    }
}

impl Eq for SyntaxText {}

impl PartialEq for SyntaxText {
    fn eq(&self, other: &SyntaxText) -> bool {
        self.as_str() == other.as_str()
    }
}

impl PartialEq<str> for SyntaxText {
    fn eq(&self, other: &str) -> bool {
        self.as_str() == other
    }
}

impl PartialEq<&'_ str> for SyntaxText {
    fn eq(&self, other: &&str) -> bool {
        self.as_str() == *other
    }
}

impl PartialEq<SyntaxText> for str {
    fn eq(&self, other: &SyntaxText) -> bool {
        other == self
    }
}

impl PartialEq<SyntaxText> for &'_ str {
    fn eq(&self, other: &SyntaxText) -> bool {
        other == self
    }
}
