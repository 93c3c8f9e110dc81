//! Iterators over the elements of a tree.
use super::*;
use std::fmt;
use std::iter;

/// In which direction siblings come.
#[derive(Clone, Copy, PartialEq, Eq, Hash, PartialOrd, Ord, Debug)]
pub enum Direction {
    /// In document order.
    Next,
    /// Against it.
    Prev,
}

/// An element and its siblings in a direction.
pub(super) fn siblings(first: SyntaxElement, direction: Direction) -> impl Iterator<Item = SyntaxElement> {
    iter::successors(Some(first), move |element| match direction {
        Direction::Next => element.next_sibling_or_token(),
        Direction::Prev => element.prev_sibling_or_token(),
    })
}

/// A step of a walk.
#[derive(Debug, Copy, Clone, PartialEq, Eq)]
pub enum WalkEvent<T> {
    /// Before what is below it.
    Enter(T),
    /// After what is below it.
    Leave(T),
}

impl<T> WalkEvent<T> {
    /// The same step with something else in it.
    pub fn map<F: FnOnce(T) -> U, U>(self, f: F) -> WalkEvent<U> {
        match self {
            WalkEvent::Enter(entered) => WalkEvent::Enter(f(entered)),
            WalkEvent::Leave(left) => WalkEvent::Leave(f(left)),
        }
    }
}

/// The tokens at an offset of a text. It is an iterator of them, too.
#[derive(Clone, Debug)]
pub enum TokenAtOffset<T> {
    /// The node has no text.
    None,
    /// The token that the offset is in, or at the edge of the text.
    Single(T),
    /// The token that ends at the offset, and the one that begins there.
    Between(T, T),
}

impl<T> TokenAtOffset<T> {
    /// The same with something else in it.
    pub fn map<F: Fn(T) -> U, U>(self, f: F) -> TokenAtOffset<U> {
        match self {
            TokenAtOffset::None => TokenAtOffset::None,
            TokenAtOffset::Single(one) => TokenAtOffset::Single(f(one)),
            TokenAtOffset::Between(left, right) => TokenAtOffset::Between(f(left), f(right)),
        }
    }

    /// Of two tokens the right one.
    pub fn right_biased(self) -> Option<T> {
        self.last()
    }

    /// Of two tokens the left one.
    pub fn left_biased(mut self) -> Option<T> {
        self.next()
    }
}

impl<T> Iterator for TokenAtOffset<T> {
    type Item = T;

    fn next(&mut self) -> Option<T> {
        match std::mem::replace(self, TokenAtOffset::None) {
            TokenAtOffset::None => None,
            TokenAtOffset::Single(one) => Some(one),
            TokenAtOffset::Between(left, right) => {
                *self = TokenAtOffset::Single(right);
                Some(left)
            }
        }
    }
}

/// An iterator of all children of a node.
#[derive(Clone)]
pub struct SyntaxElementChildren {
    pub(super) share: Share,
    pub(super) next: u32,
    pub(super) end: u32,
}

impl Iterator for SyntaxElementChildren {
    type Item = SyntaxElement;

    #[inline]
    fn next(&mut self) -> Option<SyntaxElement> {
        let mut children = self.share.siblings(self.next, self.end);
        let (index, _) = children.next()?;
        self.next = children.next;
        Some(self.share.element(index))
    }
}

impl fmt::Debug for SyntaxElementChildren {
    fn fmt(&self, f: &mut fmt::Formatter<'_>) -> fmt::Result {
        f.debug_list().entries(self.clone()).finish()
    }
}

/// An iterator of the children of a node that are nodes.
#[derive(Debug, Clone)]
pub struct SyntaxNodeChildren(pub(super) SyntaxElementChildren);

impl SyntaxNodeChildren {
    /// The next one of a kind that passes a test, and its kind. It makes no node of the others.
    #[inline]
    pub(crate) fn next_of(&mut self, test: impl Fn(SyntaxKind) -> bool) -> Option<(SyntaxKind, SyntaxNode)> {
        let SyntaxElementChildren { share, next, end } = &mut self.0;
        let mut children = share.siblings(*next, *end);
        let found = children.find(|(_, row)| test(row.kind()) && !row.is_token());
        *next = children.next;
        found.map(|(index, row)| (row.kind(), share.node(index)))
    }
}

impl Iterator for SyntaxNodeChildren {
    type Item = SyntaxNode;

    #[inline]
    fn next(&mut self) -> Option<SyntaxNode> {
        self.next_of(|_| true).map(|(_, node)| node)
    }
}

/// A walk that enters and leaves a node and each element below it.
#[derive(Clone)]
pub struct PreorderWithTokens {
    share: Share,
    root: u32,
    next: Option<WalkEvent<u32>>,
    skips: bool,
}

impl PreorderWithTokens {
    pub(super) fn new(share: Share, root: u32) -> Self {
        PreorderWithTokens { share, root, next: Some(WalkEvent::Enter(root)), skips: false }
    }

    /// Leaves out what is below the element that was entered last.
    pub fn skip_subtree(&mut self) {
        self.skips = true;
    }

    #[inline]
    fn after(&self, event: WalkEvent<u32>) -> Option<WalkEvent<u32>> {
        match event {
            WalkEvent::Enter(index) => Some(self.share.first_child(index).map_or(WalkEvent::Leave(index), WalkEvent::Enter)),
            WalkEvent::Leave(index) if index == self.root => None,
            WalkEvent::Leave(index) => {
                let (next, parent) = (self.share.after(index), self.share.parent(index)?);
                Some(if next < self.share.after(parent) { WalkEvent::Enter(next) } else { WalkEvent::Leave(parent) })
            }
        }
    }
}

impl Iterator for PreorderWithTokens {
    type Item = WalkEvent<SyntaxElement>;

    #[inline]
    fn next(&mut self) -> Option<Self::Item> {
        if std::mem::take(&mut self.skips) {
            // a step that enters is one to the first child of what was entered last
            if let Some(WalkEvent::Enter(child)) = self.next {
                self.next = self.share.parent(child).map(WalkEvent::Leave);
            }
        }
        let event = self.next?;
        self.next = self.after(event);
        Some(event.map(|index| self.share.element(index)))
    }
}

/// A walk that enters and leaves a node and each node below it.
#[derive(Clone)]
pub struct Preorder(pub(super) PreorderWithTokens);

impl Preorder {
    /// Leaves out what is below the node that was entered last.
    pub fn skip_subtree(&mut self) {
        self.0.skip_subtree();
    }
}

impl Iterator for Preorder {
    type Item = WalkEvent<SyntaxNode>;

    #[inline]
    fn next(&mut self) -> Option<Self::Item> {
        self.0.find_map(|event| match event {
            WalkEvent::Enter(element) => element.into_node().map(WalkEvent::Enter),
            WalkEvent::Leave(element) => element.into_node().map(WalkEvent::Leave),
        })
    }
}
