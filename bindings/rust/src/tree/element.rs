//! Elements: a node or a token.
use super::*;
use std::{fmt, iter};

/// A node or a token.
#[derive(Debug, Clone, PartialEq, Eq, Hash, PartialOrd, Ord)]
pub enum NodeOrToken<N, T> {
    /// A node.
    Node(N),
    /// A token.
    Token(T),
}

/// A node or a token of a tree.
pub type SyntaxElement = NodeOrToken<SyntaxNode, SyntaxToken>;

impl<N, T> NodeOrToken<N, T> {
    /// The node, if it is one.
    #[inline]
    pub fn into_node(self) -> Option<N> {
        match self {
            NodeOrToken::Node(node) => Some(node),
            NodeOrToken::Token(_) => None,
        }
    }

    /// The token, if it is one.
    #[inline]
    pub fn into_token(self) -> Option<T> {
        match self {
            NodeOrToken::Node(_) => None,
            NodeOrToken::Token(token) => Some(token),
        }
    }

    /// The node, if it is one.
    #[inline]
    pub fn as_node(&self) -> Option<&N> {
        match self {
            NodeOrToken::Node(node) => Some(node),
            NodeOrToken::Token(_) => None,
        }
    }

    /// The token, if it is one.
    #[inline]
    pub fn as_token(&self) -> Option<&T> {
        match self {
            NodeOrToken::Node(_) => None,
            NodeOrToken::Token(token) => Some(token),
        }
    }
}

/// The calls that a node and a token have alike.
macro_rules! of_either {
    ($($(#[$doc:meta])* $name:ident, $answer:ty;)*) => {
        impl SyntaxElement {
            $($(#[$doc])*
            #[inline]
            pub fn $name(&self) -> $answer {
                match self {
                    NodeOrToken::Node(node) => node.$name(),
                    NodeOrToken::Token(token) => token.$name(),
                }
            })*
        }
    };
}
of_either! {
    /// Its kind.
    kind, SyntaxKind;
    /// Its bytes.
    text_range, TextRange;
    /// How many siblings come before it, tokens among them.
    index, usize;
    /// The node that it is a child of. The root has none.
    parent, Option<SyntaxNode>;
    /// The next child of its parent.
    next_sibling_or_token, Option<SyntaxElement>;
    /// The child of its parent before it.
    prev_sibling_or_token, Option<SyntaxElement>;
}

impl SyntaxElement {
    /// The nodes above it, up to the root, and before them itself if it is a node.
    pub fn ancestors(&self) -> impl Iterator<Item = SyntaxNode> {
        let first = self.as_node().cloned().or_else(|| self.parent());
        iter::successors(first, SyntaxNode::parent)
    }
}

impl<N: fmt::Display, T: fmt::Display> fmt::Display for NodeOrToken<N, T> {
    fn fmt(&self, f: &mut fmt::Formatter<'_>) -> fmt::Result {
        match self {
            NodeOrToken::Node(node) => node.fmt(f),
            NodeOrToken::Token(token) => token.fmt(f),
        }
    }
}
