//! Walks take time for what they meet, and not for all that lies beside it.
use std::time::{Duration, Instant};

#[allow(dead_code)]
#[path = "../examples/walks.rs"]
mod walks;

/// Far more than a walk takes, and far less than one that takes a step for each pair of definitions: these would be 1.6 billion.
const MOST: Duration = Duration::from_secs(5);

#[test]
fn walks_over_many_definitions() {
    let root = walks::root(&walks::text(40_000));
    for (name, walk) in walks::WALKS {
        let started = Instant::now();
        assert!(walk(&root) >= 40_000, "{name}");
        assert!(started.elapsed() < MOST, "{name} takes {:?}", started.elapsed());
    }
}

/// Down by last children, and at each level back by siblings, in a text of which each level has few children and all others below it.
#[test]
fn walks_down_a_nest() {
    let depth = 5_000;
    let text = "{a".repeat(depth) + &"}".repeat(depth);
    let tree = dumyroke::Parser::new(&text).recursion_limit(depth).parse();
    assert_eq!(tree.errors().len(), 0);
    let started = Instant::now();
    for _ in 0..20 {
        let mut element = Some(dumyroke::cst::CstNode::syntax(&tree.document()).clone());
        let mut met = 0;
        while let Some(node) = element {
            met += node.last_child_or_token().map_or(0, |last| 1 + usize::from(last.prev_sibling_or_token().is_some()));
            element = node.last_child();
        }
        assert!(met > 2 * depth);
    }
    assert!(started.elapsed() < MOST, "it takes {:?}", started.elapsed());
}
