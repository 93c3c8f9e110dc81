//! The tree with its errors and limits, printed as the original prints it.
use crate::cst::{Document, SelectionSet, Type};
use crate::{Error, LimitTracker, SyntaxKind};
use rowan::{Checkpoint, Element, GreenNode, GreenNodeBuilder};
use std::fmt;
use std::marker::PhantomData;

pub struct SyntaxTree<T = Document> {
    pub tree: GreenNode,
    errors: Vec<Error>,
    recursion_limit: LimitTracker,
    token_limit: LimitTracker,
    root: PhantomData<T>,
}

pub(crate) enum SyntaxTreeWrapper {
    Document(SyntaxTree<Document>),
    FieldSet(SyntaxTree<SelectionSet>),
    Type(SyntaxTree<Type>),
}

impl<T> SyntaxTree<T> {
    pub fn errors(&self) -> std::slice::Iter<'_, Error> {
        self.errors.iter()
    }

    fn print(&self, f: &mut fmt::Formatter<'_>, indent: usize, element: Element) -> fmt::Result {
        write!(f, "{:indent$}", "")?;
        let (kind, range) = match element {
            Element::Node(node) => (self.tree.node(node).kind, self.tree.node(node).range),
            Element::Token(kind, range) => (kind, range),
        };
        write!(f, "- {:?}@{}..{}", SyntaxKind::from(kind.0), range.start, range.end)?;
        match element {
            Element::Node(node) => {
                writeln!(f)?;
                self.tree.children(node).iter().try_for_each(|child| self.print(f, indent + 4, *child))
            }
            Element::Token(..) => writeln!(f, " {:?}", self.tree.text(range)),
        }
    }
}

impl<T> fmt::Debug for SyntaxTree<T> {
    fn fmt(&self, f: &mut fmt::Formatter<'_>) -> fmt::Result {
        self.print(f, 0, Element::Node(self.tree.root()))?;
        for error in &self.errors {
            writeln!(f, "- {error:?}")?;
        }
        write!(f, "{:?}", self.recursion_limit)
    }
}

#[derive(Debug)]
pub(crate) struct SyntaxTreeBuilder(GreenNodeBuilder);

impl SyntaxTreeBuilder {
    pub(crate) fn new() -> Self {
        Self(GreenNodeBuilder::new())
    }

    pub(crate) fn checkpoint(&self) -> Checkpoint {
        self.0.checkpoint()
    }

    pub(crate) fn start_node(&mut self, kind: SyntaxKind) {
        self.0.start_node(rowan::SyntaxKind(kind as u16));
    }

    pub(crate) fn finish_node(&mut self) {
        self.0.finish_node();
    }

    pub(crate) fn wrap_node(&mut self, checkpoint: Checkpoint, kind: SyntaxKind) {
        self.0.start_node_at(checkpoint, rowan::SyntaxKind(kind as u16));
    }

    pub(crate) fn token(&mut self, kind: SyntaxKind, text: &str) {
        self.0.token(rowan::SyntaxKind(kind as u16), text);
    }

    fn finish<T>(self, errors: Vec<Error>, recursion_limit: LimitTracker, token_limit: LimitTracker) -> SyntaxTree<T> {
        SyntaxTree { tree: self.0.finish(), errors, recursion_limit, token_limit, root: PhantomData }
    }

    pub(crate) fn finish_document(self, errors: Vec<Error>, recursion: LimitTracker, tokens: LimitTracker) -> SyntaxTreeWrapper {
        SyntaxTreeWrapper::Document(self.finish(errors, recursion, tokens))
    }

    pub(crate) fn finish_selection_set(self, errors: Vec<Error>, recursion: LimitTracker, tokens: LimitTracker) -> SyntaxTreeWrapper {
        SyntaxTreeWrapper::FieldSet(self.finish(errors, recursion, tokens))
    }

    pub(crate) fn finish_type(self, errors: Vec<Error>, recursion: LimitTracker, tokens: LimitTracker) -> SyntaxTreeWrapper {
        SyntaxTreeWrapper::Type(self.finish(errors, recursion, tokens))
    }
}
