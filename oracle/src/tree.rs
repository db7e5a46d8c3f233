//! The tree of a tree file, and the file of a tree.

pub mod kind {
    pub const PROGRAM: u8 = 1;
    pub const BLOCK: u8 = 2;
    pub const IF: u8 = 3;
    pub const ELIF: u8 = 4;
    pub const FOR: u8 = 5;
    pub const RETURN: u8 = 6;
    pub const EXPR_STMT: u8 = 7;
    pub const VAR_DECL: u8 = 8;
    pub const FN_DECL: u8 = 9;
    pub const TABLE: u8 = 10;
    pub const ITEM: u8 = 11;
    pub const ARRAY: u8 = 12;
    pub const ACCESS: u8 = 13;
    pub const MUTATE: u8 = 14;
    pub const CALL: u8 = 15;
    pub const ASSIGN: u8 = 16;
    pub const BINARY: u8 = 17;
    pub const UNARY: u8 = 18;
    pub const NUM: u8 = 19;
    pub const TEXT: u8 = 20;
    pub const NAME: u8 = 21;
    pub const TRUE: u8 = 22;
    pub const FALSE: u8 = 23;
}

use kind::*;

/// A node with its body bytes as in the file.
#[derive(Clone, Debug, PartialEq)]
pub struct Node {
    pub kind: u8,
    pub body: Vec<u8>,
    pub kids: Vec<Node>,
}

impl Node {
    pub fn new(kind: u8, body: &[u8], kids: Vec<Node>) -> Node {
        Node { kind, body: body.to_vec(), kids }
    }

    /// The first text number of the body; a For's index name.
    pub fn text(&self) -> u8 {
        self.body[0]
    }

    /// A For's item name.
    pub fn item_name(&self) -> u8 {
        self.body[1]
    }

    pub fn number(&self) -> f64 {
        f64::from_be_bytes(self.body[..8].try_into().expect("8 bytes"))
    }

    /// An If's Elifs.
    pub fn elifs(&self) -> &[Node] {
        &self.kids[2..2 + self.body[0] as usize]
    }

    /// An If's else statements.
    pub fn else_statements(&self) -> &[Node] {
        &self.kids[2 + self.body[0] as usize..]
    }
}

/// The body's length, or none for an unknown kind.
pub fn body_length(kind: u8) -> Option<usize> {
    match kind {
        PROGRAM | BLOCK | ELIF | RETURN | EXPR_STMT | TABLE | TRUE | FALSE => Some(0),
        FOR => Some(2),
        NUM => Some(8),
        IF | VAR_DECL | FN_DECL | ITEM..=UNARY | TEXT | NAME => Some(1),
        _ => None,
    }
}

pub fn is_statement(kind: u8) -> bool {
    matches!(kind, BLOCK | IF | FOR..=FN_DECL)
}

pub fn is_expression(kind: u8) -> bool {
    matches!(kind, MUTATE..=FALSE)
}

pub fn is_right_side(kind: u8) -> bool {
    is_expression(kind) || matches!(kind, TABLE | ARRAY | ACCESS)
}

/// A plain script as document 01 defines it.
pub fn is_plain(root: &Node) -> bool {
    root.kids.iter().all(|kid| {
        let stands = match kid.kind {
            RETURN | FN_DECL | CALL => false,
            MUTATE | ASSIGN => root.kind == EXPR_STMT,
            TRUE | FALSE => matches!(root.kind, VAR_DECL | ARRAY | ASSIGN | BINARY | UNARY),
            _ => true,
        };
        stands && is_plain(kid)
    })
}

pub fn program(kids: Vec<Node>) -> Node {
    Node::new(PROGRAM, &[], kids)
}

pub fn block(kids: Vec<Node>) -> Node {
    Node::new(BLOCK, &[], kids)
}

pub fn if_(cond: Node, then: Node, elifs: Vec<(Node, Node)>, other: Vec<Node>) -> Node {
    let count = elifs.len() as u8;
    let mut kids = vec![cond, then];
    kids.extend(elifs.into_iter().map(|(cond, then)| Node::new(ELIF, &[], vec![cond, then])));
    kids.extend(other);
    Node::new(IF, &[count], kids)
}

pub fn for_(index: u8, item: u8, over: Node, body: Node) -> Node {
    Node::new(FOR, &[index, item], vec![over, body])
}

pub fn give(value: Option<Node>) -> Node {
    Node::new(RETURN, &[], value.into_iter().collect())
}

pub fn stmt(expr: Node) -> Node {
    Node::new(EXPR_STMT, &[], vec![expr])
}

pub fn decl(name: u8, right: Option<Node>) -> Node {
    Node::new(VAR_DECL, &[name], right.into_iter().collect())
}

/// A declaration with a right side.
pub fn set(name: u8, right: Node) -> Node {
    decl(name, Some(right))
}

pub fn function(name: u8, params: &[u8], body: Node) -> Node {
    let mut kids: Vec<Node> = params.iter().map(|p| self::name(*p)).collect();
    kids.push(body);
    Node::new(FN_DECL, &[name], kids)
}

pub fn table(items: Vec<(u8, Node)>) -> Node {
    let item = |(key, value)| Node::new(ITEM, &[key], vec![value]);
    Node::new(TABLE, &[], items.into_iter().map(item).collect())
}

pub fn array(name: u8, items: Vec<Node>) -> Node {
    Node::new(ARRAY, &[name], items)
}

/// The declaration of an array under its own name.
pub fn set_array(name: u8, items: Vec<Node>) -> Node {
    set(name, array(name, items))
}

pub fn access(name: u8, index: Node) -> Node {
    Node::new(ACCESS, &[name], vec![index])
}

pub fn mutate(name: u8, index: Node, value: Node) -> Node {
    Node::new(MUTATE, &[name], vec![index, value])
}

pub fn call(name: u8, params: Vec<Node>) -> Node {
    Node::new(CALL, &[name], params)
}

pub fn assign(name: u8, right: Node) -> Node {
    Node::new(ASSIGN, &[name], vec![right])
}

pub fn binary(op: u8, left: Node, right: Node) -> Node {
    Node::new(BINARY, &[op], vec![left, right])
}

pub fn unary(op: u8, arg: Node) -> Node {
    Node::new(UNARY, &[op], vec![arg])
}

pub fn num(value: f64) -> Node {
    Node::new(NUM, &value.to_be_bytes(), vec![])
}

pub fn bits(value: u64) -> Node {
    Node::new(NUM, &value.to_be_bytes(), vec![])
}

pub fn text(number: u8) -> Node {
    Node::new(TEXT, &[number], vec![])
}

pub fn name(number: u8) -> Node {
    Node::new(NAME, &[number], vec![])
}

pub fn yes() -> Node {
    Node::new(TRUE, &[], vec![])
}

pub fn no() -> Node {
    Node::new(FALSE, &[], vec![])
}

/// `fortmp` and ascending one-letter texts, `count` in all.
pub fn short_texts(count: usize) -> Vec<Vec<u8>> {
    let letter = |n: usize| if n == 0 { b"fortmp".to_vec() } else { vec![32 + n as u8] };
    (0..count).map(letter).collect()
}

/// A tree file in parts, so that each part can be spoilt on its own.
#[derive(Clone)]
pub struct Parts {
    pub node_count: usize,
    pub text_count: usize,
    pub texts: Vec<Vec<u8>>,
    /// Kind, child count, body of each node.
    pub nodes: Vec<(u8, u8, Vec<u8>)>,
}

impl Parts {
    pub fn new(root: &Node, texts: Vec<Vec<u8>>) -> Parts {
        let mut nodes = Vec::new();
        flatten(root, &mut nodes);
        Parts { node_count: nodes.len(), text_count: texts.len(), texts, nodes }
    }

    pub fn bytes(&self) -> Vec<u8> {
        let mut out = (self.node_count as u16).to_be_bytes().to_vec();
        out.push(self.text_count as u8);
        out.extend(self.texts.iter().map(|t| t.len() as u8));
        out.extend(self.nodes.iter().flat_map(|n| [n.0, n.1]));
        out.extend(self.texts.iter().flatten());
        out.extend(self.nodes.iter().flat_map(|n| &n.2));
        out
    }
}

fn flatten(node: &Node, out: &mut Vec<(u8, u8, Vec<u8>)>) {
    assert!(node.kids.len() < 256, "too many children");
    out.push((node.kind, node.kids.len() as u8, node.body.clone()));
    node.kids.iter().for_each(|kid| flatten(kid, out));
}

/// The highest text number in the tree.
pub fn highest_text(node: &Node) -> u8 {
    let own = match node.kind {
        FOR => node.text().max(node.item_name()),
        VAR_DECL | FN_DECL | ITEM..=ASSIGN | TEXT | NAME => node.text(),
        _ => 0,
    };
    node.kids.iter().map(highest_text).fold(own, u8::max)
}

/// The file of a tree, with as many short texts as it uses.
pub fn file_of(root: &Node) -> Vec<u8> {
    Parts::new(root, short_texts(highest_text(root) as usize + 1)).bytes()
}
