//! The typed tree: a struct for each kind of node, with an accessor for each part that the grammar gives it.
//!
//! [`SyntaxTree::document`](crate::SyntaxTree::document) gives the root. A part may be missing where the parse reported errors, so most accessors give an
//! `Option`. Each struct is a [`CstNode`]: [`syntax`](CstNode::syntax) leads to the untyped node with its neighbours and its range, and
//! [`cast`](CstNode::cast) back. Strings, integers, numbers and booleans convert `into` their values.
//!
//! ```
//! use dumyroke::{cst, Parser};
//!
//! let tree = Parser::new("query { hero(episode: 3) { name friends } }").parse();
//! let cst::Definition::OperationDefinition(operation) = tree.document().definitions().next().unwrap() else { panic!() };
//! let cst::Selection::Field(hero) = operation.selection_set().unwrap().selections().next().unwrap() else { panic!() };
//! let argument = hero.arguments().unwrap().arguments().next().unwrap();
//! let cst::Value::IntValue(episode) = argument.value().unwrap() else { panic!() };
//! assert_eq!(i32::try_from(episode), Ok(3));
//! assert_eq!(hero.selection_set().unwrap().selections().count(), 2);
//! ```
#[rustfmt::skip]
mod nodes;
mod values;

pub use crate::tree::SyntaxNodePtr;
pub use crate::SyntaxNode;
pub use nodes::*;

use crate::tree::SyntaxNodeChildren;
use crate::{SyntaxKind, SyntaxToken};
use std::marker::PhantomData;

/// A typed node.
pub trait CstNode {
    /// Whether nodes of a kind have this type.
    fn can_cast(kind: SyntaxKind) -> bool
    where
        Self: Sized;

    /// The node with this type, if its kind has it.
    fn cast(syntax: SyntaxNode) -> Option<Self>
    where
        Self: Sized;

    /// The same of a node whose kind is known, so that it is not read again.
    #[doc(hidden)]
    #[inline]
    fn cast_as(_kind: SyntaxKind, syntax: SyntaxNode) -> Option<Self>
    where
        Self: Sized,
    {
        Self::cast(syntax)
    }

    /// The untyped node.
    fn syntax(&self) -> &SyntaxNode;

    /// The text of the node, with its white space and comments.
    fn source_string(&self) -> String {
        self.syntax().as_str().to_owned()
    }

    /// A copy as the root of a tree of its own, with ranges from 0 on.
    fn clone_subtree(&self) -> Self
    where
        Self: Sized,
    {
        Self::cast(self.syntax().clone_subtree()).expect("a copy has the kind of its node")
    }
}

/// A typed token.
pub trait CstToken {
    /// Whether tokens of a kind have this type.
    fn can_cast(token: SyntaxKind) -> bool
    where
        Self: Sized;

    /// The token with this type, if its kind has it.
    fn cast(syntax: SyntaxToken) -> Option<Self>
    where
        Self: Sized;

    /// The untyped token.
    fn syntax(&self) -> &SyntaxToken;

    /// The text of the token.
    fn text(&self) -> &str {
        self.syntax().text()
    }
}

/// An iterator of the children of a node that have a type.
#[derive(Debug, Clone)]
pub struct CstChildren<N> {
    nodes: SyntaxNodeChildren,
    of: PhantomData<N>,
}

impl<N: CstNode> Iterator for CstChildren<N> {
    type Item = N;

    #[inline]
    fn next(&mut self) -> Option<N> {
        self.nodes.next_of(N::can_cast).and_then(|(kind, node)| N::cast_as(kind, node))
    }
}

/// What the generated accessors call.
mod support {
    use super::*;

    /// The first child of a type.
    #[inline]
    pub(super) fn child<N: CstNode>(parent: &SyntaxNode) -> Option<N> {
        parent.first_child_of(N::can_cast).and_then(|(kind, node)| N::cast_as(kind, node))
    }

    /// All children of a type.
    #[inline]
    pub(super) fn children<N: CstNode>(parent: &SyntaxNode) -> CstChildren<N> {
        CstChildren { nodes: parent.children(), of: PhantomData }
    }

    /// The first token of a kind among the children.
    #[inline]
    pub(super) fn token(parent: &SyntaxNode, kind: SyntaxKind) -> Option<SyntaxToken> {
        parent.first_token_of(kind)
    }
}
