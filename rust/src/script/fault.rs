//! What is wrong with a file, and where.

use super::kind;
use super::node::Node;
use std::fmt;

/// Why a tree file is refused: the number, what is wrong, and where.
///
/// ```
/// let fault = sif::script::Script::read(&[0, 1, 1, 6]).unwrap_err();
/// assert_eq!(fault.number, 1);
/// assert_eq!(fault.byte, Some(4));
/// ```
#[derive(Clone, Debug, PartialEq, Eq)]
pub struct Fault {
    /// The number: by [`super::Script::read`] 1 to 5 or 39, by [`crate::check::check`] also 6 or 7.
    pub number: u8,
    /// What is wrong, for people.
    pub words: String,
    /// The byte of the file, from 0.
    pub byte: Option<usize>,
    /// The text that is wrong, or that the node names.
    pub text: Option<TextPlace>,
    /// The node.
    pub node: Option<NodePlace>,
}

/// A text of the file.
#[derive(Clone, Debug, PartialEq, Eq)]
pub struct TextPlace {
    /// Its number, from 0.
    pub number: usize,
    /// Its bytes; empty where the file does not hold them.
    pub bytes: Vec<u8>,
}

/// A node of the file.
#[derive(Clone, Debug, PartialEq, Eq)]
pub struct NodePlace {
    /// Its number in the order of the file, from 0.
    pub number: usize,
    /// The way to it from the Program, in words.
    pub path: String,
}

impl Fault {
    /// A fault with neither byte, text nor node yet.
    pub(crate) fn new(number: u8, words: impl Into<String>) -> Fault {
        Fault { number, words: words.into(), byte: None, text: None, node: None }
    }

    pub(crate) fn at_byte(mut self, byte: usize) -> Fault {
        self.byte = Some(byte);
        self
    }

    pub(crate) fn at_text(mut self, number: usize, bytes: &[u8]) -> Fault {
        self.text = Some(TextPlace { number, bytes: bytes.to_vec() });
        self
    }

    pub(crate) fn at_node(mut self, nodes: &[Node], number: usize) -> Fault {
        self.node = Some(NodePlace { number, path: path(nodes, number) });
        self
    }
}

impl fmt::Display for TextPlace {
    fn fmt(&self, f: &mut fmt::Formatter<'_>) -> fmt::Result {
        write!(f, "text {} \"{}\"", self.number, self.bytes.escape_ascii())
    }
}

impl fmt::Display for NodePlace {
    fn fmt(&self, f: &mut fmt::Formatter<'_>) -> fmt::Result {
        write!(f, "node {}: {}", self.number, self.path)
    }
}

impl fmt::Display for Fault {
    fn fmt(&self, f: &mut fmt::Formatter<'_>) -> fmt::Result {
        write!(f, "{}: {}", self.number, self.words)?;
        if let Some(byte) = self.byte {
            write!(f, "; at byte {byte}")?;
        }
        if let Some(text) = &self.text {
            write!(f, "; {text}")?;
        }
        if let Some(node) = &self.node {
            write!(f, "; {node}")?;
        }
        Ok(())
    }
}

impl std::error::Error for Fault {}

/// A node above the one that is looked for.
struct Above<'n> {
    node: &'n Node,
    /// How many of its children have begun.
    begun: usize,
}

/// The way to a node in words, by the child counts alone: `Program > statement 2 (For) > Block`.
pub(crate) fn path(nodes: &[Node], number: usize) -> String {
    let mut above: Vec<Above> = Vec::new();
    for node in nodes.iter().take(number) {
        begin_child(&mut above);
        above.push(Above { node, begun: 0 });
    }
    begin_child(&mut above);
    let mut steps = Vec::new();
    let ends = above.iter().skip(1).map(|a| a.node).chain(nodes.get(number));
    if number == 0 {
        steps.extend(nodes.first().map(|node| kind_words(node.kind)));
    } else {
        steps.extend(above.first().map(|a| kind_words(a.node.kind)));
        steps.extend(above.iter().zip(ends).map(|(a, node)| step(a.node, a.begun, node.kind)));
    }
    steps.join(" > ")
}

/// Leaves the nodes whose children are all there; the node that is then last has one child more.
fn begin_child(above: &mut Vec<Above>) {
    while above.len() > 1 && above.last().is_some_and(|a| a.begun >= a.node.count) {
        above.pop();
    }
    if let Some(parent) = above.last_mut() {
        parent.begun += 1;
    }
}

fn kind_words(kind: u8) -> String {
    match kind::body(kind) {
        Some(_) => kind::name(kind).to_string(),
        None => format!("kind {kind}"),
    }
}

/// One step of a path: the child's part in its parent where that has several, and its kind.
fn step(parent: &Node, child: usize, kind: u8) -> String {
    let kind = kind_words(kind);
    match part(parent, child) {
        Some(part) => format!("{part} ({kind})"),
        None => kind,
    }
}

/// The part that child 1, 2, ... has in its parent; none where the kind says enough.
fn part(parent: &Node, child: usize) -> Option<String> {
    match (parent.kind, child) {
        (kind::PROGRAM | kind::BLOCK, n) => Some(format!("statement {n}")),
        (kind::IF | kind::ELIF, 1) => Some("condition".to_string()),
        (kind::IF | kind::ELIF | kind::FOR, 2) => None,
        (kind::IF, n) => Some(if_part(usize::from(parent.first()), n.saturating_sub(2))),
        (kind::FOR, 1) => Some("over".to_string()),
        (kind::FN_DECL, n) if n == parent.count => None,
        (kind::FN_DECL, n) => Some(format!("parameter {n}")),
        (kind::CALL, n) => Some(format!("parameter {n}")),
        (kind::TABLE | kind::ARRAY, n) => Some(format!("item {n}")),
        (kind::ARRAY_MUT, 1) => Some("index".to_string()),
        (kind::ARRAY_MUT, 2) => Some("value".to_string()),
        (kind::BINARY, 1) => Some("left".to_string()),
        (kind::BINARY, 2) => Some("right".to_string()),
        (_, 1) => None,
        (_, n) => Some(format!("child {n}")),
    }
}

/// Behind condition and Block of an If: its Elifs, then the else statements.
fn if_part(elifs: usize, n: usize) -> String {
    match n.checked_sub(elifs) {
        None | Some(0) => format!("elif {n}"),
        Some(n) => format!("else statement {n}"),
    }
}
