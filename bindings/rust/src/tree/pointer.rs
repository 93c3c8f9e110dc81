//! References to nodes that keep no tree alive.
use super::*;

/// A reference to a node that keeps no tree alive: the node's kind and range.
#[derive(Debug, Clone, PartialEq, Eq, Hash)]
pub struct SyntaxNodePtr {
    kind: SyntaxKind,
    range: TextRange,
}

impl SyntaxNodePtr {
    /// A reference to the node.
    pub fn new(node: &SyntaxNode) -> Self {
        SyntaxNodePtr { kind: node.kind(), range: node.text_range() }
    }

    /// The first node with the kind and the range, at or below a root. Panics if there is none.
    pub fn to_node(&self, root: &SyntaxNode) -> SyntaxNode {
        self.try_to_node(root).unwrap_or_else(|| panic!("the tree has no node {:?}@{:?}", self.kind, self.range))
    }

    /// The same, or `None`.
    pub fn try_to_node(&self, root: &SyntaxNode) -> Option<SyntaxNode> {
        root.find(self.kind, self.range)
    }

    /// The kind of the node.
    pub fn kind(&self) -> SyntaxKind {
        self.kind
    }

    /// The bytes of the node.
    pub fn text_range(&self) -> TextRange {
        self.range
    }
}
