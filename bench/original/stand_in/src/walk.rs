//! Walks over the tree of the text of standard input, as ../../src/walk.rs does. It searches the children of a node by kind, as the
//! original's accessors do, which need `rowan`.
use apollo_parser::{values, Parser, SyntaxKind};
use rowan::{Element, GreenNode};
use std::hint::black_box;
use std::rc::Rc;
use std::time::Instant;

#[derive(Default)]
struct Walk {
    fields: usize,
    arguments: usize,
    string_bytes: usize,
}

/// A node: a share of the tree, which is counted as `rowan` counts those of its nodes, and an index.
#[derive(Clone)]
struct Node(Rc<GreenNode>, u32);

impl Node {
    fn kind(&self) -> SyntaxKind {
        SyntaxKind::from(self.0.node(self.1).kind.0)
    }

    fn nodes(&self) -> impl Iterator<Item = Node> + '_ {
        self.0.children(self.1).iter().filter_map(|child| match child {
            Element::Node(node) => Some(Node(Rc::clone(&self.0), *node)),
            Element::Token(..) => None,
        })
    }

    fn children(&self, wanted: SyntaxKind) -> impl Iterator<Item = Node> + '_ {
        self.nodes().filter(move |child| child.kind() == wanted)
    }

    fn text(&self) -> &str {
        self.0.text(self.0.node(self.1).range)
    }
}

fn is_value(kind: SyntaxKind) -> bool {
    use SyntaxKind::*;
    matches!(
        kind,
        VARIABLE | INT_VALUE | FLOAT_VALUE | STRING_VALUE | BOOLEAN_VALUE | NULL_VALUE | ENUM_VALUE | LIST_VALUE | OBJECT_VALUE
    )
}

fn string_length(text: &str) -> usize {
    if values::is_block_string(text) {
        values::unescape_block_string(&text[3..text.len() - 3]).len()
    } else {
        values::unescape_string(&text[1..text.len() - 1]).len()
    }
}

impl Walk {
    fn selections(&mut self, node: &Node) {
        for set in node.children(SyntaxKind::SELECTION_SET).take(1) {
            for selection in set.nodes() {
                match selection.kind() {
                    SyntaxKind::FIELD => self.field(&selection),
                    SyntaxKind::INLINE_FRAGMENT => self.selections(&selection),
                    _ => {}
                }
            }
        }
    }

    fn field(&mut self, field: &Node) {
        self.fields += 1;
        for list in field.children(SyntaxKind::ARGUMENTS).take(1) {
            for argument in list.children(SyntaxKind::ARGUMENT) {
                self.arguments += 1;
                self.values(&argument, 1);
            }
        }
        self.selections(field);
    }

    fn values(&mut self, node: &Node, most: usize) {
        for value in node.nodes().filter(|child| is_value(child.kind())).take(most) {
            match value.kind() {
                SyntaxKind::STRING_VALUE => self.string_bytes += string_length(value.text()),
                SyntaxKind::LIST_VALUE => self.values(&value, usize::MAX),
                SyntaxKind::OBJECT_VALUE => value.children(SyntaxKind::OBJECT_FIELD).for_each(|field| self.values(&field, 1)),
                _ => {}
            }
        }
    }
}

fn main() {
    let text = std::io::read_to_string(std::io::stdin()).expect("a text");
    let walks: u64 = std::env::args().nth(1).map_or(1, |word| word.parse().expect("a number of walks"));
    let root = Node(Rc::new(Parser::new(&text).parse().tree), 0);
    let root = Node(Rc::clone(&root.0), root.0.root());
    let started = Instant::now();
    let mut walk = Walk::default();
    for _ in 0..walks {
        walk = Walk::default();
        black_box(&root).nodes().for_each(|definition| walk.selections(&definition));
    }
    let nanoseconds = started.elapsed().as_nanos();
    let Walk { fields, arguments, string_bytes } = walk;
    eprintln!("{} MB/s", 1000 * u128::from(walks) * text.len() as u128 / nanoseconds.max(1));
    println!("{nanoseconds} 0: {fields} fields, {arguments} arguments, {string_bytes} bytes of strings");
}
