//! Nodes and tokens.
use super::walk::siblings;
use super::*;
use crate::range::{TextRange, TextSize};
use crate::TokenText;
use std::fmt;
use std::hash::{Hash, Hasher};
use std::iter;

/// A node of a tree: its kind, its bytes, and the elements around it.
///
/// Two nodes are equal when they are the same element of the same parse. Printed with `{}` a node is its text, with `{:?}` its kind and its range, and with
/// `{:#?}` a line for each element at or below it.
#[derive(Clone)]
pub struct SyntaxNode {
    share: Share,
    index: u32,
}

/// A token of a tree: white space, a comment, a comma, a punctuator, a word, a number, a string, or refused text (`ERROR`).
///
/// Two tokens are equal when they are the same element of the same parse. Printed with `{}` a token is its text, with `{:?}` its kind, its range and its
/// text, which is cut short if it is long.
#[derive(Clone)]
pub struct SyntaxToken {
    share: Share,
    index: u32,
}

impl Share {
    #[inline]
    pub(super) fn node(&self, index: u32) -> SyntaxNode {
        SyntaxNode { share: self.clone(), index }
    }

    #[inline]
    pub(super) fn token(&self, index: u32) -> Option<SyntaxToken> {
        self.is_token(index).then(|| SyntaxToken { share: self.clone(), index })
    }

    #[inline]
    pub(super) fn element(&self, index: u32) -> SyntaxElement {
        let share = self.clone();
        if self.is_token(index) {
            NodeOrToken::Token(SyntaxToken { share, index })
        } else {
            NodeOrToken::Node(SyntaxNode { share, index })
        }
    }
}

/// The calls that nodes and tokens have alike.
macro_rules! elements {
    ($($name:ident, $variant:ident;)*) => {
        $(impl $name {
            /// Its kind.
            #[inline]
            pub fn kind(&self) -> SyntaxKind {
                self.share.kind(self.index)
            }

            /// Its bytes.
            #[inline]
            pub fn text_range(&self) -> TextRange {
                self.share.range(self.index)
            }

            /// How many siblings come before it, tokens among them. The first call counts those of all elements, which takes four bytes for each of them.
            pub fn index(&self) -> usize {
                self.share.place_among_siblings(self.index)
            }

            /// The node that it is a child of. The root has none.
            #[inline]
            pub fn parent(&self) -> Option<SyntaxNode> {
                self.share.parent(self.index).map(|parent| self.share.node(parent))
            }

            /// The next child of its parent.
            #[inline]
            pub fn next_sibling_or_token(&self) -> Option<SyntaxElement> {
                self.share.next_sibling(self.index).map(|sibling| self.share.element(sibling))
            }

            /// The child of its parent before it.
            pub fn prev_sibling_or_token(&self) -> Option<SyntaxElement> {
                self.share.previous_sibling(self.index).map(|sibling| self.share.element(sibling))
            }

            /// It and its siblings in a direction.
            pub fn siblings_with_tokens(&self, direction: Direction) -> impl Iterator<Item = SyntaxElement> {
                siblings(NodeOrToken::$variant(self.clone()), direction)
            }
        }

        impl PartialEq for $name {
            fn eq(&self, other: &Self) -> bool {
                self.index == other.index && Arc::ptr_eq(self.share.tree(), other.share.tree())
            }
        }

        impl Eq for $name {}

        impl Hash for $name {
            fn hash<H: Hasher>(&self, state: &mut H) {
                (Arc::as_ptr(self.share.tree()), self.index).hash(state);
            }
        }

        impl From<$name> for SyntaxElement {
            fn from(element: $name) -> Self {
                NodeOrToken::$variant(element)
            }
        })*
    };
}
elements! {
    SyntaxNode, Node;
    SyntaxToken, Token;
}

impl SyntaxNode {
    /// The root of a tree.
    pub(crate) fn root_of(tree: &Arc<Tree>) -> SyntaxNode {
        Share::new(Arc::clone(tree)).node(0)
    }

    /// The index after the node and all below it.
    #[inline]
    fn after(&self) -> u32 {
        self.share.after(self.index)
    }

    /// Its text, with white space and comments. `as_str` gives it as a `&str`.
    #[inline]
    pub fn text(&self) -> SyntaxText {
        SyntaxText::new(self.share.clone(), self.text_range())
    }

    /// Its text, with white space and comments. (`rowan` has no such call.)
    #[inline]
    pub fn as_str(&self) -> &str {
        self.share.text(self.index)
    }

    /// The node itself and all above it, up to the root.
    pub fn ancestors(&self) -> impl Iterator<Item = SyntaxNode> {
        iter::successors(Some(self.clone()), SyntaxNode::parent)
    }

    /// Its children that are nodes.
    #[inline]
    pub fn children(&self) -> SyntaxNodeChildren {
        SyntaxNodeChildren(self.children_with_tokens())
    }

    /// All of its children.
    #[inline]
    pub fn children_with_tokens(&self) -> SyntaxElementChildren {
        SyntaxElementChildren { share: self.share.clone(), next: self.index + 1, end: self.after() }
    }

    /// Its first child that is a node.
    #[inline]
    pub fn first_child(&self) -> Option<SyntaxNode> {
        self.children().next()
    }

    /// Its last child that is a node.
    pub fn last_child(&self) -> Option<SyntaxNode> {
        let last = self.share.last_child(self.index);
        let child = iter::successors(last, |&child| self.share.previous_sibling(child)).find(|&child| !self.share.is_token(child));
        child.map(|child| self.share.node(child))
    }

    /// Its first child.
    #[inline]
    pub fn first_child_or_token(&self) -> Option<SyntaxElement> {
        self.share.first_child(self.index).map(|child| self.share.element(child))
    }

    /// Its last child.
    pub fn last_child_or_token(&self) -> Option<SyntaxElement> {
        self.share.last_child(self.index).map(|child| self.share.element(child))
    }

    /// The first child that is a node of a kind that passes a test, and its kind.
    #[inline]
    pub(crate) fn first_child_of(&self, test: impl Fn(SyntaxKind) -> bool) -> Option<(SyntaxKind, SyntaxNode)> {
        let found = self.share.children(self.index).find(|(_, row)| test(row.kind()) && !row.is_token());
        found.map(|(child, row)| (row.kind(), self.share.node(child)))
    }

    /// The first child that is a token of a kind.
    #[inline]
    pub(crate) fn first_token_of(&self, kind: SyntaxKind) -> Option<SyntaxToken> {
        let found = self.share.children(self.index).find(|(_, row)| row.kind() == kind && row.is_token());
        found.and_then(|(child, _)| self.share.token(child))
    }

    /// The next sibling that is a node.
    pub fn next_sibling(&self) -> Option<SyntaxNode> {
        self.siblings(Direction::Next).nth(1)
    }

    /// The last sibling before it that is a node.
    pub fn prev_sibling(&self) -> Option<SyntaxNode> {
        self.siblings(Direction::Prev).nth(1)
    }

    /// It and its siblings in a direction that are nodes.
    pub fn siblings(&self, direction: Direction) -> impl Iterator<Item = SyntaxNode> {
        self.siblings_with_tokens(direction).filter_map(NodeOrToken::into_node)
    }

    /// The first token below it.
    #[inline]
    pub fn first_token(&self) -> Option<SyntaxToken> {
        (self.index..self.after()).find_map(|below| self.share.token(below))
    }

    /// The last token below it.
    pub fn last_token(&self) -> Option<SyntaxToken> {
        (self.index..self.after()).rev().find_map(|below| self.share.token(below))
    }

    /// The text of its first child, if that is a token; else no text.
    pub(crate) fn first_token_text(&self) -> TokenText {
        let first = self.share.children(self.index).next().filter(|(_, row)| row.is_token());
        let (start, end) = first.map_or((0, 0), |(child, _)| self.share.bounds(child));
        TokenText::new(Arc::clone(self.share.tree()), start, end)
    }

    /// The same as a `&str`.
    #[inline]
    pub(crate) fn first_token_str(&self) -> &str {
        let first = self.share.children(self.index).next().filter(|(_, row)| row.is_token());
        first.map_or("", |(child, _)| self.share.text(child))
    }

    /// The empty text.
    pub(crate) fn no_text(&self) -> TokenText {
        TokenText::new(Arc::clone(self.share.tree()), 0, 0)
    }

    /// The node itself and all nodes below it, in document order.
    #[inline]
    pub fn descendants(&self) -> impl Iterator<Item = SyntaxNode> {
        self.descendants_with_tokens().filter_map(NodeOrToken::into_node)
    }

    /// The node itself and all elements below it, in document order.
    #[inline]
    pub fn descendants_with_tokens(&self) -> impl Iterator<Item = SyntaxElement> {
        let share = self.share.clone();
        (self.index..self.after()).map(move |below| share.element(below))
    }

    /// A walk that enters and leaves the node and each node below it.
    pub fn preorder(&self) -> Preorder {
        Preorder(self.preorder_with_tokens())
    }

    /// A walk that enters and leaves the node and each element below it.
    #[inline]
    pub fn preorder_with_tokens(&self) -> PreorderWithTokens {
        PreorderWithTokens::new(self.share.clone(), self.index)
    }

    /// The tokens at an offset: two if it is where one ends and the next begins. Panics if the offset is outside the node.
    pub fn token_at_offset(&self, offset: TextSize) -> TokenAtOffset<SyntaxToken> {
        let range = self.text_range();
        assert!(range.contains_inclusive(offset), "the offset {offset:?} is outside the node {self:?}");
        let (left, right) = self.share.tokens_at(self.index, offset.into());
        match (left.and_then(|left| self.share.token(left)), right.and_then(|right| self.share.token(right))) {
            (Some(left), Some(right)) => TokenAtOffset::Between(left, right),
            (Some(one), None) | (None, Some(one)) => TokenAtOffset::Single(one),
            (None, None) => TokenAtOffset::None,
        }
    }

    /// The smallest element whose range has this range in it. Panics if the range is not within the node's.
    pub fn covering_element(&self, range: TextRange) -> SyntaxElement {
        assert!(self.text_range().contains_range(range), "the range {range:?} is not within the node {self:?}");
        self.share.element(self.share.covering(self.index, range))
    }

    /// The first child whose range has this range in it.
    pub fn child_or_token_at_range(&self, range: TextRange) -> Option<SyntaxElement> {
        self.share.child_with(self.index, range).map(|child| self.share.element(child))
    }

    /// The node as the root of a tree of its own, with ranges from 0 on.
    pub fn clone_subtree(&self) -> SyntaxNode {
        let mut rows = self.share.rows[self.index as usize..self.after() as usize].to_vec();
        let start = rows[0].start();
        for row in &mut rows {
            row.start_and_node -= start;
        }
        rows[0] = rows[0].without_parent();
        SyntaxNode::root_of(&Arc::new(Tree::new(self.as_str().into(), rows)))
    }

    /// The first node at or below it with a kind and a range.
    pub(super) fn find(&self, kind: SyntaxKind, range: TextRange) -> Option<SyntaxNode> {
        self.share.node_with(self.index, kind, range).map(|below| self.share.node(below))
    }
}

impl SyntaxToken {
    /// Its text.
    #[inline]
    pub fn text(&self) -> &str {
        self.share.text(self.index)
    }

    /// The nodes above it, up to the root.
    pub fn parent_ancestors(&self) -> impl Iterator<Item = SyntaxNode> {
        iter::successors(self.parent(), SyntaxNode::parent)
    }

    /// The next token of the tree.
    pub fn next_token(&self) -> Option<SyntaxToken> {
        (self.index + 1..self.share.after(0)).find_map(|index| self.share.token(index))
    }

    /// The token of the tree before it.
    pub fn prev_token(&self) -> Option<SyntaxToken> {
        (0..self.index).rev().find_map(|index| self.share.token(index))
    }
}

impl fmt::Display for SyntaxNode {
    fn fmt(&self, f: &mut fmt::Formatter<'_>) -> fmt::Result {
        f.write_str(self.as_str())
    }
}

impl fmt::Display for SyntaxToken {
    fn fmt(&self, f: &mut fmt::Formatter<'_>) -> fmt::Result {
        f.write_str(self.text())
    }
}

impl fmt::Debug for SyntaxNode {
    fn fmt(&self, f: &mut fmt::Formatter<'_>) -> fmt::Result {
        if !f.alternate() {
            return write!(f, "{:?}@{:?}", self.kind(), self.text_range());
        }
        let mut level = 0;
        for event in self.preorder_with_tokens() {
            match event {
                WalkEvent::Enter(NodeOrToken::Node(node)) => writeln!(f, "{:1$}{node:?}", "", 2 * level)?,
                WalkEvent::Enter(NodeOrToken::Token(token)) => writeln!(f, "{:1$}{token:?}", "", 2 * level)?,
                WalkEvent::Leave(_) => {
                    level -= 1;
                    continue;
                }
            }
            level += 1;
        }
        Ok(())
    }
}

/// The longest text, in bytes, that a printed token has in full.
const SHOWN: usize = 24;

impl fmt::Debug for SyntaxToken {
    fn fmt(&self, f: &mut fmt::Formatter<'_>) -> fmt::Result {
        let text = self.text();
        write!(f, "{:?}@{:?} ", self.kind(), self.text_range())?;
        if text.len() <= SHOWN {
            return write!(f, "{text:?}");
        }
        let cut = text.char_indices().map(|(offset, _)| offset).find(|&offset| offset >= SHOWN - 3).unwrap_or(text.len());
        write!(f, "{:?}", format!("{} ...", &text[..cut]))
    }
}
