//! Parsing, and its result.
use crate::ffi::{self, Sort};
use crate::rows::Limits;
use crate::tree::{NodeOrToken, SyntaxNode, Tree, WalkEvent};
use crate::{cst, Error, LimitTracker};
use cst::CstNode;
use std::fmt;
use std::marker::PhantomData;
use std::sync::Arc;

/// A parser of a text, with its limits.
///
/// ```
/// use dumyroke::Parser;
///
/// let tree = Parser::new("type Hero { name: String }").parse();
/// assert_eq!(tree.errors().len(), 0);
///
/// let tree = Parser::new("{ a { b { c } } }").recursion_limit(2).parse();
/// assert!(tree.errors().next().unwrap().is_limit());
/// ```
#[derive(Debug)]
pub struct Parser<'input> {
    pub(crate) text: &'input str,
    pub(crate) limits: Limits,
}

impl<'input> Parser<'input> {
    /// A parser of a text, with the recursion limit 500 and no token limit.
    pub fn new(input: &'input str) -> Self {
        Parser { text: input, limits: Limits { recursion: 500, tokens: usize::MAX } }
    }

    /// Sets the recursion limit: how deep selection sets, list types and values may nest.
    ///
    /// Parsing takes 80 to 192 bytes of stack for each level. Where the limit is higher than the stack allows, a deep text ends the program.
    pub fn recursion_limit(mut self, recursion_limit: usize) -> Self {
        self.limits.recursion = recursion_limit;
        self
    }

    /// Sets the token limit: how many tokens are read at most, ignored ones and the end of the text among them.
    ///
    /// So it bounds memory: after n tokens a tree has at most 5 n + 1 elements, and there are at most 3 n + 1 errors.
    pub fn token_limit(mut self, token_limit: usize) -> Self {
        self.limits.tokens = token_limit;
        self
    }

    /// Parses a document. Any text has a tree, faulty ones too; the errors say what is wrong.
    ///
    /// It never panics. A text of 2 GiB or more, or one whose tree has 2^28 elements, gets an empty document with a limit's error. Refused memory ends
    /// the process, as it does where a `Vec` grows.
    pub fn parse(self) -> SyntaxTree<cst::Document> {
        self.parse_as(Sort::Document)
    }

    /// Parses a selection set, with its outer braces or with both left away. What follows it is not in the tree, and has no errors.
    pub fn parse_selection_set(self) -> SyntaxTree<cst::SelectionSet> {
        self.parse_as(Sort::SelectionSet)
    }

    /// Parses a type. What follows it is not in the tree, and has no errors.
    pub fn parse_type(self) -> SyntaxTree<cst::Type> {
        self.parse_as(Sort::Type)
    }

    fn parse_as<T: CstNode>(self, sort: Sort) -> SyntaxTree<T> {
        let Parser { text, limits } = self;
        let Ok(found) = ffi::parse(sort, text, limits) else {
            return SyntaxTree::too_long(sort, limits);
        };
        let errors = found.errors(text);
        SyntaxTree {
            // with the token limit the tree has only the first tokens
            tree: Arc::new(Tree::new(text[..found.counts.text_bytes].into(), found.rows)),
            errors,
            recursion_limit: LimitTracker::used(limits.recursion, found.counts.recursion_high),
            token_limit: LimitTracker::used(limits.tokens, found.counts.token_high),
            root: PhantomData,
        }
    }
}

/// The tree of a text, and its errors. `T` is the type of its root.
///
/// It never changes, and any number of threads may read it. Its nodes, which [`document`](SyntaxTree::document) and the like give, stay in their thread.
///
/// Printed with `{:?}` it has a line for each element, and then the errors and the recursion limit.
pub struct SyntaxTree<T: CstNode = cst::Document> {
    tree: Arc<Tree>,
    errors: Vec<Error>,
    recursion_limit: LimitTracker,
    token_limit: LimitTracker,
    root: PhantomData<fn() -> T>,
}

impl<T: CstNode> SyntaxTree<T> {
    /// Of a text that is too long for the numbers of a tree: an empty root, and one error.
    fn too_long(sort: Sort, limits: Limits) -> Self {
        SyntaxTree {
            tree: Arc::new(Tree::empty(sort.root())),
            errors: vec![Error::limit("the text has 2^31 bytes or more, or its tree 2^28 elements or more", 0)],
            recursion_limit: LimitTracker::new(limits.recursion),
            token_limit: LimitTracker::new(limits.tokens),
            root: PhantomData,
        }
    }

    /// The errors, in the order in which they were found. There are none exactly if the text is a document within both limits.
    pub fn errors(&self) -> std::slice::Iter<'_, Error> {
        self.errors.iter()
    }

    /// The recursion limit, and the deepest level that was tried.
    pub fn recursion_limit(&self) -> LimitTracker {
        self.recursion_limit
    }

    /// The token limit, and how many tokens were counted, the end of the text among them.
    pub fn token_limit(&self) -> LimitTracker {
        self.token_limit
    }

    fn root(&self) -> SyntaxNode {
        SyntaxNode::root_of(&self.tree)
    }
}

impl SyntaxTree<cst::Document> {
    /// The root.
    pub fn document(&self) -> cst::Document {
        cst::Document { syntax: self.root() }
    }
}

impl SyntaxTree<cst::SelectionSet> {
    /// The root.
    pub fn field_set(&self) -> cst::SelectionSet {
        cst::SelectionSet { syntax: self.root() }
    }
}

impl SyntaxTree<cst::Type> {
    /// The root. Where the text begins with no type, it is an ERROR node in place of a type: a [`NamedType`](cst::NamedType) without a name.
    pub fn ty(&self) -> cst::Type {
        self.try_ty().unwrap_or_else(|| cst::Type::NamedType(cst::NamedType { syntax: self.root() }))
    }

    /// The root, or `None` where the text begins with no type.
    pub fn try_ty(&self) -> Option<cst::Type> {
        cst::Type::cast(self.root())
    }
}

impl<T: CstNode> Clone for SyntaxTree<T> {
    fn clone(&self) -> Self {
        SyntaxTree { tree: Arc::clone(&self.tree), errors: self.errors.clone(), ..*self }
    }
}

/// Trees are equal when their texts, their elements, their errors and the uses of their limits are.
impl<T: CstNode> PartialEq for SyntaxTree<T> {
    fn eq(&self, other: &Self) -> bool {
        let limits = |tree: &Self| [tree.recursion_limit, tree.token_limit];
        self.tree == other.tree && self.errors == other.errors && limits(self) == limits(other)
    }
}

impl<T: CstNode> Eq for SyntaxTree<T> {}

impl<T: CstNode> fmt::Debug for SyntaxTree<T> {
    fn fmt(&self, f: &mut fmt::Formatter<'_>) -> fmt::Result {
        let mut level = 0;
        for event in self.root().preorder_with_tokens() {
            let element = match event {
                WalkEvent::Enter(element) => element,
                WalkEvent::Leave(_) => {
                    level -= 1;
                    continue;
                }
            };
            write!(f, "{:1$}- {2:?}@{3:?}", "", 4 * level, element.kind(), element.text_range())?;
            match element {
                NodeOrToken::Node(_) => writeln!(f)?,
                NodeOrToken::Token(token) => writeln!(f, " {:?}", token.text())?,
            }
            level += 1;
        }
        for error in self.errors() {
            writeln!(f, "- {error:?}")?;
        }
        write!(f, "{:?}", self.recursion_limit)
    }
}
