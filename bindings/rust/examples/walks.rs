//! Walks that go backwards, count siblings, or lead from a place of the text to an element: the microseconds that each takes over all definitions of a text.
//! `walks N..` prints a line for each walk, with its time for each number of definitions. `bench/walks.py` runs it.
use dumyroke::cst::{CstNode, SyntaxNodePtr};
use dumyroke::rowan::Direction;
use dumyroke::{Parser, SyntaxNode};
use std::time::Instant;

/// A walk over a tree, which gives the number of elements that it met.
pub type Walk = fn(&SyntaxNode) -> usize;

pub const WALKS: [(&str, Walk); 8] = [
    ("siblings backwards", |root| root.last_child().map_or(0, |last| last.siblings(Direction::Prev).count())),
    ("element before each", |root| root.children_with_tokens().filter_map(|child| child.prev_sibling_or_token()).count()),
    ("index of each", |root| root.children_with_tokens().filter(|child| child.index() % 2 == 0).count()),
    ("last child of each", |root| root.descendants().filter_map(|node| node.last_child_or_token()).count()),
    ("token at each", |root| root.children().filter_map(|node| root.token_at_offset(node.text_range().start()).right_biased()).count()),
    ("element that covers each", |root| root.children().filter(|node| root.covering_element(node.text_range()).parent().is_some()).count()),
    ("child at each", |root| root.children().filter_map(|node| root.child_or_token_at_range(node.text_range())).count()),
    ("pointer back to each", |root| root.children().filter_map(|node| SyntaxNodePtr::new(&node).try_to_node(root)).count()),
];

/// A text with this number of definitions, of which each has tokens below it and white space after it.
pub fn text(definitions: usize) -> String {
    "scalar A\n".repeat(definitions)
}

pub fn root(text: &str) -> SyntaxNode {
    Parser::new(text).parse().document().syntax().clone()
}

fn main() {
    let sizes: Vec<usize> = std::env::args().skip(1).map(|word| word.parse().expect("a number of definitions")).collect();
    for (name, walk) in WALKS {
        let times = sizes.iter().map(|&size| {
            let root = root(&text(size));
            let started = Instant::now();
            assert!(walk(&root) > 0);
            started.elapsed().as_micros().to_string()
        });
        println!("{name}\t{}", times.collect::<Vec<_>>().join("\t"));
    }
}
