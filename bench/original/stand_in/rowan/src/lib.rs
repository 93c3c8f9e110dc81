//! A stand-in for `rowan`: a builder with checkpoints, whose tree is lists of children over one text.

/// The number of a kind.
#[derive(Debug, Clone, Copy, PartialEq, Eq)]
pub struct SyntaxKind(pub u16);

/// A range of the text, in bytes.
#[derive(Debug, Clone, Copy, PartialEq, Eq)]
pub struct TextRange {
    pub start: u32,
    pub end: u32,
}

#[derive(Debug, Clone, Copy, PartialEq, Eq)]
pub enum Element {
    Node(u32),
    Token(SyntaxKind, TextRange),
}

#[derive(Debug, Clone, Copy, PartialEq, Eq)]
pub struct Node {
    pub kind: SyntaxKind,
    pub range: TextRange,
    first_child: u32,
    children: u32,
}

#[derive(Debug, Clone, Copy)]
pub struct Checkpoint(usize);

#[derive(Debug, Default)]
pub struct GreenNodeBuilder {
    tree: GreenNode,
    // the kinds of the open nodes, and how many children were there when each was opened
    open: Vec<(SyntaxKind, usize)>,
    children: Vec<Element>,
}

/// A whole tree.
#[derive(Debug, Default, Clone, PartialEq, Eq)]
pub struct GreenNode {
    text: String,
    nodes: Vec<Node>,
    elements: Vec<Element>,
}

impl GreenNodeBuilder {
    pub fn new() -> Self {
        Self::default()
    }

    fn end(&self) -> u32 {
        self.tree.text.len() as u32
    }

    pub fn token(&mut self, kind: SyntaxKind, text: &str) {
        let start = self.end();
        self.tree.text.push_str(text);
        let end = self.end();
        self.children.push(Element::Token(kind, TextRange { start, end }));
    }

    pub fn start_node(&mut self, kind: SyntaxKind) {
        self.open.push((kind, self.children.len()));
    }

    pub fn checkpoint(&self) -> Checkpoint {
        Checkpoint(self.children.len())
    }

    pub fn start_node_at(&mut self, checkpoint: Checkpoint, kind: SyntaxKind) {
        assert!(checkpoint.0 <= self.children.len(), "a checkpoint behind the last child");
        assert!(self.open.last().map_or(true, |(_, first)| checkpoint.0 >= *first), "a checkpoint of an outer node");
        self.open.push((kind, checkpoint.0));
    }

    pub fn finish_node(&mut self) {
        let (kind, first) = self.open.pop().expect("an open node");
        let end = self.end();
        let start = match self.children.get(first) {
            None => end,
            Some(Element::Node(node)) => self.tree.nodes[*node as usize].range.start,
            Some(Element::Token(_, range)) => range.start,
        };
        let (first_child, children) = (self.tree.elements.len() as u32, (self.children.len() - first) as u32);
        self.tree.elements.extend(self.children.drain(first..));
        self.children.push(Element::Node(self.tree.nodes.len() as u32));
        self.tree.nodes.push(Node { kind, range: TextRange { start, end }, first_child, children });
    }

    pub fn finish(self) -> GreenNode {
        assert!(matches!(self.children[..], [Element::Node(_)]), "a tree has one root");
        self.tree
    }
}

impl GreenNode {
    /// The root, which was finished last.
    pub fn root(&self) -> u32 {
        self.nodes.len() as u32 - 1
    }

    pub fn node(&self, node: u32) -> &Node {
        &self.nodes[node as usize]
    }

    pub fn children(&self, node: u32) -> &[Element] {
        let Node { first_child, children, .. } = self.nodes[node as usize];
        &self.elements[first_child as usize..(first_child + children) as usize]
    }

    pub fn text(&self, range: TextRange) -> &str {
        &self.text[range.start as usize..range.end as usize]
    }
}
