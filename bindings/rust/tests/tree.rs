//! The calls on trees, against what the children alone say: for the texts below, and for those of the folders in DUMYROKE_TEXTS (files `*.graphql`).
use dumyroke::cst::{self, CstNode, SyntaxNodePtr};
use dumyroke::rowan::{Direction, NodeOrToken, TextRange, TextSize, TokenAtOffset, WalkEvent};
use dumyroke::{Lexer, Parser, SyntaxElement, SyntaxKind, SyntaxNode, SyntaxToken};
use std::collections::HashSet;

const TEXTS: &[&str] = &[
    "",
    " ",
    "{a}",
    "query Q($v: [Int!]! = [1, 2] @d) @x { a: b(c: {d: \"e\\n\", f: $v}) { ...F ... on T { g } } } fragment F on T { h }",
    "\"\"\"d\"\"\" type T implements A & B @d { \"f\" f(a: Int = 1): [T] } union U = | A | B extend schema { query: Q } # é\n",
    "{ é } garbage type Query { ..a field(: } \u{1f680} enum E { true A } ]]]",
    "type A { f: [[[[ } { a(b: [{c: [",
    "directive @d(a: B) repeatable on | FIELD | QUERY\n\n\ninput I { a: B = {c: \"\"\"  x\n  y\"\"\"} }",
];

fn texts() -> Vec<String> {
    let mut found: Vec<String> = TEXTS.iter().map(|&text| text.to_owned()).collect();
    for folder in std::env::var("DUMYROKE_TEXTS").unwrap_or_default().split(':').filter(|it| !it.is_empty()) {
        for file in std::fs::read_dir(folder).unwrap().map(|file| file.unwrap().path()) {
            if file.extension().is_some_and(|it| it == "graphql") {
                found.extend(std::fs::read_to_string(&file).ok().filter(|text| text.len() < 4000));
            }
        }
    }
    found
}

fn range(element: &SyntaxElement) -> (usize, usize) {
    (element.text_range().start().into(), element.text_range().end().into())
}

/// All elements at or below an element, by recursion over children.
fn below(element: SyntaxElement, found: &mut Vec<SyntaxElement>, walk: &mut Vec<WalkEvent<SyntaxElement>>) {
    found.push(element.clone());
    walk.push(WalkEvent::Enter(element.clone()));
    if let NodeOrToken::Node(node) = &element {
        for child in node.children_with_tokens() {
            below(child, found, walk);
        }
    }
    walk.push(WalkEvent::Leave(element));
}

/// The smallest element whose range has a range in it, down from an element: of the children that have, the first.
fn covering(element: SyntaxElement, range: TextRange) -> SyntaxElement {
    let below = element.as_node().and_then(|node| node.children_with_tokens().find(|it| it.text_range().contains_range(range)));
    below.map_or(element, |child| covering(child, range))
}

fn check_node(node: &SyntaxNode, text: &str) {
    let children: Vec<SyntaxElement> = node.children_with_tokens().collect();
    let nodes: Vec<SyntaxNode> = children.iter().filter_map(|it| it.as_node().cloned()).collect();
    assert_eq!(node.children().collect::<Vec<_>>(), nodes);
    assert_eq!(node.first_child(), nodes.first().cloned());
    assert_eq!(node.last_child(), nodes.last().cloned());
    assert_eq!(node.first_child_or_token(), children.first().cloned());
    assert_eq!(node.last_child_or_token(), children.last().cloned());
    // the children tile the node
    let (mut at, end) = range(&node.clone().into());
    for (index, child) in children.iter().enumerate() {
        assert_eq!(range(child).0, at);
        at = range(child).1;
        assert_eq!(child.parent().as_ref(), Some(node));
        assert_eq!(child.index(), index);
        assert_eq!(child.next_sibling_or_token(), children.get(index + 1).cloned());
        assert_eq!(child.prev_sibling_or_token(), index.checked_sub(1).map(|it| children[it].clone()));
        if let NodeOrToken::Node(child) = child {
            let after: Vec<SyntaxElement> = child.siblings_with_tokens(Direction::Next).collect();
            assert_eq!(after, children[index..]);
            let before: Vec<SyntaxElement> = child.siblings_with_tokens(Direction::Prev).collect();
            assert_eq!(before, children[..=index].iter().rev().cloned().collect::<Vec<_>>());
            let among = nodes.iter().position(|it| it == child).unwrap();
            assert_eq!(child.next_sibling(), nodes.get(among + 1).cloned());
            assert_eq!(child.prev_sibling(), among.checked_sub(1).map(|it| nodes[it].clone()));
        }
    }
    assert!(children.is_empty() || at == end);
    assert_eq!(node.text(), &text[node.text_range()]);
    assert_eq!(node.to_string(), &text[node.text_range()]);

    let (mut elements, mut walk) = (vec![], vec![]);
    below(node.clone().into(), &mut elements, &mut walk);
    assert_eq!(node.descendants_with_tokens().collect::<Vec<_>>(), elements);
    assert_eq!(node.descendants().collect::<Vec<_>>(), elements.iter().filter_map(|it| it.as_node().cloned()).collect::<Vec<_>>());
    assert_eq!(node.preorder_with_tokens().collect::<Vec<_>>(), walk);
    let only_nodes = |event: &WalkEvent<SyntaxElement>| match event {
        WalkEvent::Enter(it) => it.as_node().cloned().map(WalkEvent::Enter),
        WalkEvent::Leave(it) => it.as_node().cloned().map(WalkEvent::Leave),
    };
    assert_eq!(node.preorder().collect::<Vec<_>>(), walk.iter().filter_map(only_nodes).collect::<Vec<_>>());
    // to enter the node and to leave out what is below it
    let mut skipping = node.preorder();
    assert_eq!(skipping.next(), Some(WalkEvent::Enter(node.clone())));
    skipping.skip_subtree();
    assert_eq!(skipping.collect::<Vec<_>>(), [WalkEvent::Leave(node.clone())]);

    let tokens: Vec<SyntaxToken> = elements.iter().filter_map(|it| it.as_token().cloned()).collect();
    assert_eq!(node.first_token(), tokens.first().cloned());
    assert_eq!(node.last_token(), tokens.last().cloned());
    let (start, end) = range(&node.clone().into());
    for offset in (start..=end).step_by(1 + (end - start) / 200) {
        let at = TextSize::try_from(offset).unwrap();
        let touched: Vec<&SyntaxToken> = tokens.iter().filter(|it| !it.text_range().is_empty() && it.text_range().contains_inclusive(at)).collect();
        match (node.token_at_offset(at), &touched[..]) {
            (TokenAtOffset::None, []) => {}
            (TokenAtOffset::Single(it), [one]) => assert_eq!(&it, *one),
            (TokenAtOffset::Between(left, right), [one, other]) => assert!(&left == *one && &right == *other),
            (got, wanted) => panic!("{got:?} and not {wanted:?}"),
        }
        for length in [0, 1, 2, 7, end - start] {
            let covered = TextRange::new(at, TextSize::try_from((offset + length).min(end)).unwrap());
            assert_eq!(node.covering_element(covered), covering(node.clone().into(), covered));
            let child = children.iter().find(|it| it.text_range().contains_range(covered));
            assert_eq!(node.child_or_token_at_range(covered).as_ref(), child);
        }
    }
    let outside = TextRange::new(TextSize::try_from(end).unwrap(), TextSize::try_from(end + 1).unwrap());
    assert_eq!(node.child_or_token_at_range(outside), None);
    for below in elements.iter().filter_map(|it| it.as_node()) {
        let is_it = |it: &&SyntaxElement| it.as_node().is_some() && it.kind() == below.kind() && it.text_range() == below.text_range();
        assert_eq!(SyntaxNodePtr::new(below).try_to_node(node), elements.iter().find(is_it).and_then(|it| it.as_node().cloned()));
    }
    let copy = node.clone_subtree();
    assert_eq!(copy.parent(), None);
    let shifted: Vec<_> = elements.iter().map(|it| (it.kind(), it.text_range() - node.text_range().start())).collect();
    assert_eq!(copy.descendants_with_tokens().map(|it| (it.kind(), it.text_range())).collect::<Vec<_>>(), shifted);
    assert_eq!(copy.to_string(), node.to_string());
}

/// The selection set of `{a,a,..}` has more than 2^24 elements, so the distance to it takes more than three bytes.
#[test]
fn parents_may_be_far_away() {
    let text = format!("{{{}}}", "a,".repeat((1 << 22) + 50));
    let tree = Parser::new(&text).parse();
    let last = tree.document().syntax().last_token().unwrap();
    assert_eq!(last.text(), "}");
    assert_eq!(last.text_range().end(), TextSize::of(&text));
    let set = last.parent().unwrap();
    assert_eq!(set.kind(), SyntaxKind::SELECTION_SET);
    assert_eq!(set.text_range().len(), TextSize::of(&text));
    assert_eq!(set.children().count(), (1 << 22) + 50);
    let copy = last.prev_token().unwrap().parent().unwrap().clone_subtree();
    assert_eq!(copy.parent().map(|it| it.kind()), None);
}

#[test]
fn calls_agree_with_the_children() {
    for text in texts() {
        let tree = Parser::new(&text).parse();
        let root = tree.document().syntax().clone();
        assert_eq!(root.to_string(), text);
        assert_eq!(root, *tree.document().syntax());
        for node in root.descendants() {
            check_node(&node, &text);
            assert_eq!(node.ancestors().last(), Some(root.clone()));
            assert_eq!(node.ancestors().count(), 1 + node.parent().map_or(0, |it| it.ancestors().count()));
            let found = SyntaxNodePtr::new(&node).to_node(&root);
            assert_eq!((found.kind(), found.text_range()), (node.kind(), node.text_range()));
        }
        // the tokens of the tree, one after another, and its elements in a set
        let tokens: Vec<SyntaxToken> = root.descendants_with_tokens().filter_map(NodeOrToken::into_token).collect();
        let mut one = root.first_token();
        for token in &tokens {
            assert_eq!(one.as_ref(), Some(token));
            one = token.next_token();
            assert_eq!(one.as_ref().map_or(root.last_token(), SyntaxToken::prev_token).as_ref(), Some(token));
        }
        assert_eq!(one, None);
        let all: HashSet<SyntaxElement> = root.descendants_with_tokens().collect();
        assert_eq!(all.len(), root.descendants_with_tokens().count());
        assert_eq!(tree, Parser::new(&text).parse());
    }
}

#[test]
fn a_lexer_takes_a_limit_at_any_place() {
    for text in texts() {
        let all: Vec<_> = Lexer::new(&text).collect();
        for taken in 0..all.len().min(20) {
            let mut lexer = Lexer::new(&text);
            lexer.by_ref().take(taken).for_each(drop);
            let rest: Vec<_> = lexer.clone().with_limit(usize::MAX).collect();
            assert_eq!(rest, all[taken..]);
            let some: Vec<_> = lexer.with_limit(2).collect();
            assert_eq!(some[..some.len().min(2)], all[taken..all.len().min(taken + 2)]);
            assert_eq!(some.len(), (all.len() - taken).min(3));
            assert_eq!(some.len() == 3, some.last().unwrap().as_ref().is_err_and(|error| error.is_limit()));
        }
    }
}

#[test]
fn trees_go_to_other_threads() {
    let tree = Parser::new(TEXTS[3]).parse();
    let name = |tree: &dumyroke::SyntaxTree| tree.document().definitions().next().unwrap().name().unwrap().text();
    let names: Vec<_> = std::thread::scope(|scope| {
        let threads: Vec<_> = (0..4).map(|_| scope.spawn(|| name(&tree))).collect();
        threads.into_iter().map(|it| it.join().unwrap()).collect()
    });
    drop(tree);
    assert!(names.iter().all(|name| *name == "Q"));
}

#[test]
fn parts_that_errors_left_out() {
    let tree = Parser::new("{ a(b: $) } type").parse();
    for node in tree.document().syntax().descendants() {
        if let Some(variable) = cst::Variable::cast(node) {
            assert_eq!(variable.text(), "");
        }
    }
    assert!(Parser::new("!").parse_type().try_ty().is_none());
    assert_eq!(Parser::new(" [Int!]! ").parse_type().ty().source_string(), " [Int!]!");
    assert_eq!(Parser::new("a b { c }").parse_selection_set().field_set().selections().count(), 2);
}

/// More errors and longer messages than the first call has room for, and more elements.
#[test]
fn a_second_call_gives_all() {
    let text = "{".repeat(300) + &"a(b) ".repeat(400);
    let tree = Parser::new(&text).parse();
    assert!(tree.errors().len() > 400);
    assert!(tree.errors().all(|error| !error.message().is_empty()));
    assert_eq!(tree.document().source_string(), text);
    let dense = "{a(b:[[[[[[[[[[1]]]]]]]]]])}".repeat(20_000);
    let tree = Parser::new(&dense).parse();
    assert_eq!(tree.document().syntax().text().len(), TextSize::of(dense.as_str()));
}
