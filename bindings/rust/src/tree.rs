//! Trees: nodes and tokens, with the calls that they have in `rowan`.
//!
//! A tree is the rows that the library wrote, of twelve bytes each, and one copy of the text. A node is a share of the tree and the index of its row, so
//! making one allocates nothing. Rows are in document order: the first child of a node is the row after it, and the next child after a child comes after all
//! rows of that child's subtree, whose number is the child's size. The text of an element ends where that of the row after its subtree begins.
//!
//! Starts never fall from a row to the next one, so a place of the text is found by halving; and the last row that starts before a place is a token.
mod element;
mod node;
mod pointer;
mod text;
mod walk;

pub use element::{NodeOrToken, SyntaxElement};
pub use node::{SyntaxNode, SyntaxToken};
pub use pointer::SyntaxNodePtr;
pub use text::SyntaxText;
pub use walk::{Direction, Preorder, PreorderWithTokens, SyntaxElementChildren, SyntaxNodeChildren, TokenAtOffset, WalkEvent};

use crate::range::TextRange;
use crate::rows::CompactElement;
use crate::SyntaxKind;
use std::fmt;
use std::ops::Deref;
use std::panic::{RefUnwindSafe, UnwindSafe};
use std::rc::Rc;
use std::sync::{Arc, OnceLock};

/// What `start_and_node` has more for a node.
const NODE: u32 = 1 << 31;

impl CompactElement {
    /// The byte at which its text begins.
    #[inline]
    fn start(&self) -> u32 {
        self.start_and_node & !NODE
    }

    #[inline]
    fn is_token(&self) -> bool {
        self.start_and_node < NODE
    }

    #[inline]
    fn kind(&self) -> SyntaxKind {
        SyntaxKind::of_number(self.kind.into())
    }

    /// How many elements its subtree has, itself counted.
    #[inline]
    fn size(&self) -> u32 {
        self.size_and_parent >> 4
    }

    /// How many elements before it its parent is; 0 for the root.
    #[inline]
    fn parent_distance(&self) -> u32 {
        u32::from(self.parent_low) | u32::from(self.parent_middle) << 16 | (self.size_and_parent & 15) << 24
    }

    /// The same as a root.
    fn without_parent(self) -> CompactElement {
        CompactElement { size_and_parent: self.size() << 4, parent_low: 0, parent_middle: 0, ..self }
    }
}

/// The rows of a text and the text. They never change, and any number of threads may share them.
#[derive(Debug)]
pub(crate) struct Tree {
    pub(crate) text: Box<str>,
    pub(crate) rows: Vec<CompactElement>,
    places: Box<dyn Places>,
}

/// How many siblings come before each element of a tree, counted when one is wanted: four bytes an element. It is a trait since clippy warns of a key of a map
/// that has a lock in it, and nodes are such keys; the count is no part of their equality.
trait Places: fmt::Debug + Send + Sync + UnwindSafe + RefUnwindSafe {
    fn of(&self, tree: &Tree) -> &[u32];
}

impl Places for OnceLock<Vec<u32>> {
    fn of(&self, tree: &Tree) -> &[u32] {
        self.get_or_init(|| tree.counted_places())
    }
}

/// Whether two trees have the same text and rows.
impl PartialEq for Tree {
    fn eq(&self, other: &Tree) -> bool {
        self.text == other.text && self.rows == other.rows
    }
}

impl Eq for Tree {}

impl Tree {
    pub(crate) fn new(text: Box<str>, rows: Vec<CompactElement>) -> Tree {
        Tree { text, rows, places: Box::<OnceLock<_>>::default() }
    }

    /// A root without children, of no text.
    pub(crate) fn empty(root: SyntaxKind) -> Tree {
        let row = CompactElement { start_and_node: NODE, size_and_parent: 1 << 4, parent_low: 0, parent_middle: 0, kind: root as u8 };
        Tree::new("".into(), vec![row])
    }

    #[inline]
    fn row(&self, index: u32) -> &CompactElement {
        &self.rows[index as usize]
    }

    #[inline]
    fn is_token(&self, index: u32) -> bool {
        self.row(index).is_token()
    }

    #[inline]
    fn kind(&self, index: u32) -> SyntaxKind {
        self.row(index).kind()
    }

    /// The index after an element and all below it.
    #[inline]
    fn after(&self, index: u32) -> u32 {
        index + self.row(index).size()
    }

    /// The bytes of an element: the first, and the one after the last.
    #[inline]
    fn bounds(&self, index: u32) -> (u32, u32) {
        let row = self.row(index);
        let end = self.rows.get((index + row.size()) as usize).map_or(self.text.len() as u32, CompactElement::start);
        (row.start(), end)
    }

    #[inline]
    fn range(&self, index: u32) -> TextRange {
        let (start, end) = self.bounds(index);
        TextRange::new(start.into(), end.into())
    }

    #[inline]
    fn text(&self, index: u32) -> &str {
        let (start, end) = self.bounds(index);
        &self.text[start as usize..end as usize]
    }

    /// The children of an element. A token has none.
    #[inline]
    fn children(&self, index: u32) -> Children<'_> {
        self.siblings(index + 1, self.after(index))
    }

    /// The siblings from an index on and before another one.
    #[inline]
    fn siblings(&self, next: u32, end: u32) -> Children<'_> {
        Children { rows: &self.rows[..end as usize], next }
    }

    #[inline]
    fn first_child(&self, index: u32) -> Option<u32> {
        (self.row(index).size() > 1).then_some(index + 1)
    }

    /// The rows at or below an element that start before a place of the text: the index after them.
    fn starting_before(&self, index: u32, place: u32) -> u32 {
        let rows = &self.rows[index as usize..self.after(index) as usize];
        index + rows.partition_point(|row| row.start() < place) as u32
    }

    /// The smallest element at or below one that has a range in it, which is within that one's. An empty range at the edge of two is in the left one.
    fn covering(&self, index: u32, range: TextRange) -> u32 {
        let (start, end) = (u32::from(range.start()), u32::from(range.end()));
        let after = self.starting_before(index, if range.is_empty() { start } else { start + 1 });
        if after == index {
            // no row starts before the range: the first one below that has no children
            return (index..).find(|&below| self.row(below).size() == 1).unwrap_or(index);
        }
        let mut found = after - 1;
        while found > index && self.bounds(found).1 < end {
            found -= self.row(found).parent_distance();
        }
        found
    }

    /// The first child whose range has a range in it.
    fn child_with(&self, index: u32, range: TextRange) -> Option<u32> {
        if !self.range(index).contains_range(range) {
            return None;
        }
        let mut found = self.covering(index, range);
        while found > index && self.parent(found) != Some(index) {
            found -= self.row(found).parent_distance();
        }
        (found > index).then_some(found)
    }

    /// The token that ends at a place within an element or has it inside; and the one that begins there.
    fn tokens_at(&self, index: u32, place: u32) -> (Option<u32>, Option<u32>) {
        let (before, after) = (self.starting_before(index, place), self.starting_before(index, place + 1));
        let has_text = |&row: &u32| self.bounds(row).0 < self.bounds(row).1 && self.is_token(row);
        let left = (before > index).then(|| before - 1).filter(has_text);
        let right = (after > before).then(|| after - 1).filter(has_text);
        (left, right)
    }

    /// The first node at or below an element with a kind and a range.
    fn node_with(&self, index: u32, kind: SyntaxKind, range: TextRange) -> Option<u32> {
        let start = u32::from(range.start());
        let starting = (self.starting_before(index, start)..self.after(index)).take_while(|&below| self.row(below).start() == start);
        starting.filter(|&below| !self.is_token(below) && self.kind(below) == kind).find(|&below| self.range(below) == range)
    }

    #[inline]
    fn parent(&self, index: u32) -> Option<u32> {
        (index != 0).then(|| index - self.row(index).parent_distance())
    }

    #[inline]
    fn next_sibling(&self, index: u32) -> Option<u32> {
        let (next, parent) = (self.after(index), self.parent(index)?);
        (next < self.after(parent)).then_some(next)
    }

    /// The last child of an element before an index. It goes through the children and up from the last row at the same time, until one of them is there:
    /// so it takes no more steps than the element has children, and no more than the last child is deep.
    fn last_child_before(&self, index: u32, end: u32) -> Option<u32> {
        let (mut forward, mut backward) = (index + 1, end - 1);
        if end == forward {
            return None;
        }
        while backward - self.row(backward).parent_distance() != index {
            let next = self.after(forward);
            if next == end {
                return Some(forward);
            }
            forward = next;
            backward -= self.row(backward).parent_distance();
        }
        Some(backward)
    }

    fn last_child(&self, index: u32) -> Option<u32> {
        self.last_child_before(index, self.after(index))
    }

    fn previous_sibling(&self, index: u32) -> Option<u32> {
        self.last_child_before(self.parent(index)?, index)
    }

    /// How many siblings come before an element.
    fn place_among_siblings(&self, index: u32) -> usize {
        self.places.of(self)[index as usize] as usize
    }

    fn counted_places(&self) -> Vec<u32> {
        let mut places = vec![0; self.rows.len()];
        for index in 0..self.rows.len() as u32 {
            for (place, (child, _)) in self.children(index).enumerate() {
                places[child as usize] = place as u32;
            }
        }
        places
    }
}

/// Siblings: their indices and their rows.
#[derive(Clone)]
struct Children<'t> {
    /// All rows before the end of the last one's subtree.
    rows: &'t [CompactElement],
    next: u32,
}

impl<'t> Iterator for Children<'t> {
    type Item = (u32, &'t CompactElement);

    #[inline]
    fn next(&mut self) -> Option<Self::Item> {
        let index = self.next;
        let row = self.rows.get(index as usize)?;
        self.next = index + row.size();
        Some((index, row))
    }
}

/// The share of a tree that the nodes of one walk have. Its count is not atomic: with an atomic one a walk over all nodes takes five times as long. So
/// nodes stay in their thread, as those of `rowan` do.
#[derive(Clone)]
#[allow(clippy::redundant_allocation)]
struct Share(Rc<Arc<Tree>>);

impl Share {
    fn new(tree: Arc<Tree>) -> Share {
        Share(Rc::new(tree))
    }

    fn tree(&self) -> &Arc<Tree> {
        &self.0
    }
}

impl Deref for Share {
    type Target = Tree;

    #[inline]
    fn deref(&self) -> &Tree {
        &self.0
    }
}
