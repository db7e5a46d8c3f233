//! A script: what a tree file says, as a tree of statements and expressions.
//!
//! [`Script::read`] makes the checks of document 01 that answer 1 to 5, in its order, with document
//! 02's 39 beside 5, and names the place of the first fault. A [`Script`] is always one that these
//! checks accept, so it can be written again, to the byte.
//!
//! ```
//! use sif::script::Script;
//!
//! // var x = 2
//! let file = [
//!     &[0, 3, 2, 6, 1, 1, 1, 8, 1, 19, 0][..],
//!     b"fortmpx",
//!     &[1, 0x40, 0, 0, 0, 0, 0, 0, 0],
//! ]
//! .concat();
//! let script = Script::read(&file).unwrap();
//! assert_eq!(script.texts(), ["fortmp", "x"]);
//! assert_eq!(script.to_bytes(), file);
//! ```

mod fault;
mod file;
pub mod kind;
pub(crate) mod node;
mod structure;
mod write;

pub use fault::{Fault, NodePlace, TextPlace};
use node::Node;

/// The most nodes of a script.
pub const NODES: usize = 1024;
/// The most texts of a script, `fortmp` among them.
pub const TEXTS: usize = 64;
/// The most bytes of a text.
pub const TEXT_BYTES: usize = 40;
/// How deep nodes may stand in one another; the Program has depth 1.
pub const DEPTH: usize = 32;
/// The most loops in one another.
pub const LOOPS: usize = 8;
/// The most items of an array.
pub const ARRAY_ITEMS: usize = 24;
/// The most items of a table.
pub const TABLE_ITEMS: usize = 16;
/// The most children of a node: a file gives one byte for their number.
pub const CHILDREN: usize = 255;
/// Text 0 of every file.
pub const FORTMP: &str = "fortmp";
/// What is said of a NaN or an infinity as a number.
pub(crate) const FINITE: &str = "the numbers of a script are finite";

/// A script that the checks 1 to 5 and 39 accept.
#[derive(Clone, Debug, PartialEq, Eq)]
pub struct Script {
    texts: Vec<String>,
    statements: Vec<Statement>,
    nodes: Vec<Node>,
}

/// A statement.
#[derive(Clone, Debug, PartialEq, Eq)]
pub struct Statement {
    /// Its node's number.
    pub node: usize,
    /// What it is.
    pub form: StatementForm,
}

/// The forms of a statement. Names are text numbers.
#[derive(Clone, Debug, PartialEq, Eq)]
pub enum StatementForm {
    /// Statements that belong together.
    Block(Block),
    /// The first branch whose condition holds, or the else statements.
    If {
        /// The first branch.
        first: Branch,
        /// The further branches, each an Elif.
        elifs: Vec<Branch>,
        /// The else statements.
        otherwise: Vec<Statement>,
    },
    /// A loop.
    For {
        /// The name of the index.
        index: u8,
        /// The name of the item.
        item: u8,
        /// A name or a call.
        over: Expression,
        /// What is done for each item.
        block: Block,
    },
    /// The end of a function's work, with or without a value.
    Return(Option<Expression>),
    /// An expression as a statement.
    Expression(Expression),
    /// A variable, with or without a first value.
    Variable {
        /// Its name.
        name: u8,
        /// Its first value.
        value: Option<Right>,
    },
    /// A function.
    Function {
        /// Its name.
        name: u8,
        /// Its parameters.
        parameters: Vec<Parameter>,
        /// What it does.
        block: Block,
    },
}

/// A Block.
#[derive(Clone, Debug, PartialEq, Eq)]
pub struct Block {
    /// Its node's number.
    pub node: usize,
    /// Its statements.
    pub statements: Vec<Statement>,
}

/// A condition and what is done where it holds.
#[derive(Clone, Debug, PartialEq, Eq)]
pub struct Branch {
    /// The number of the node: If or Elif.
    pub node: usize,
    /// The condition.
    pub condition: Expression,
    /// What is done.
    pub block: Block,
}

/// A parameter of a function.
#[derive(Clone, Copy, Debug, PartialEq, Eq)]
pub struct Parameter {
    /// Its node's number.
    pub node: usize,
    /// Its name.
    pub name: u8,
}

/// The right side of a variable or an assignment. Names are text numbers.
#[derive(Clone, Debug, PartialEq, Eq)]
pub enum Right {
    /// An expression.
    Expression(Expression),
    /// Values by key.
    Table {
        /// Its node's number.
        node: usize,
        /// The items, in the file's order.
        items: Vec<Item>,
    },
    /// Values in a row.
    Array {
        /// Its node's number.
        node: usize,
        /// The name that the array is stored under, whatever stands on the left.
        name: u8,
        /// Numbers, texts, yes and no.
        items: Vec<Expression>,
    },
    /// An item of an array, read.
    Access {
        /// Its node's number.
        node: usize,
        /// The array's name.
        name: u8,
        /// The index.
        index: Expression,
    },
}

/// One key of a table.
#[derive(Clone, Debug, PartialEq, Eq)]
pub struct Item {
    /// Its node's number.
    pub node: usize,
    /// The key, a text number.
    pub key: u8,
    /// The value.
    pub value: Expression,
}

/// An expression.
#[derive(Clone, Debug, PartialEq, Eq)]
pub struct Expression {
    /// Its node's number.
    pub node: usize,
    /// What it is.
    pub form: ExpressionForm,
}

/// The forms of an expression. Names are text numbers.
#[derive(Clone, Debug, PartialEq, Eq)]
pub enum ExpressionForm {
    /// An item of an array, written.
    Mutate {
        /// The array's name.
        name: u8,
        /// The index.
        index: Box<Expression>,
        /// The value.
        value: Box<Expression>,
    },
    /// A function called.
    Call {
        /// The function's name.
        name: u8,
        /// The parameters.
        parameters: Vec<Expression>,
    },
    /// A name set.
    Assign {
        /// The name.
        name: u8,
        /// The right side.
        value: Box<Right>,
    },
    /// An operator between two expressions.
    Binary(Binary, Box<Expression>, Box<Expression>),
    /// An operator before an expression.
    Unary(Unary, Box<Expression>),
    /// A number, by its binary64 pattern; a script's are finite.
    Number(u64),
    /// A text.
    Text(u8),
    /// A name, read.
    Name(u8),
    /// Yes.
    True,
    /// No.
    False,
}

/// The operators between two expressions, in the order of their numbers from 1.
#[derive(Clone, Copy, Debug, PartialEq, Eq)]
#[allow(missing_docs)]
pub enum Binary {
    Plus,
    Minus,
    Star,
    Slash,
    Percent,
    EqEq,
    LtEq,
    Lt,
    GtEq,
    Gt,
    AmpAmp,
    PipePipe,
    BangEq,
}

/// The operators before an expression, in the order of their numbers from 1.
#[derive(Clone, Copy, Debug, PartialEq, Eq)]
#[allow(missing_docs)]
pub enum Unary {
    Bang,
    Minus,
}

impl Binary {
    /// All of them, in the order of their numbers.
    pub const ALL: [Binary; 13] = [
        Binary::Plus,
        Binary::Minus,
        Binary::Star,
        Binary::Slash,
        Binary::Percent,
        Binary::EqEq,
        Binary::LtEq,
        Binary::Lt,
        Binary::GtEq,
        Binary::Gt,
        Binary::AmpAmp,
        Binary::PipePipe,
        Binary::BangEq,
    ];

    /// Its number in a file.
    pub fn number(self) -> u8 {
        self as u8 + 1
    }

    /// The operator of a number.
    pub fn from_number(number: u8) -> Option<Binary> {
        Binary::ALL.into_iter().find(|operator| operator.number() == number)
    }

    /// Its sign.
    pub fn sign(self) -> &'static str {
        match self {
            Binary::Plus => "+",
            Binary::Minus => "-",
            Binary::Star => "*",
            Binary::Slash => "/",
            Binary::Percent => "%",
            Binary::EqEq => "==",
            Binary::LtEq => "<=",
            Binary::Lt => "<",
            Binary::GtEq => ">=",
            Binary::Gt => ">",
            Binary::AmpAmp => "&&",
            Binary::PipePipe => "||",
            Binary::BangEq => "!=",
        }
    }

    /// How tightly it binds, from 1.
    pub fn strength(self) -> u8 {
        match self {
            Binary::PipePipe => 1,
            Binary::AmpAmp => 2,
            Binary::EqEq | Binary::BangEq => 3,
            Binary::LtEq | Binary::Lt | Binary::GtEq | Binary::Gt => 4,
            Binary::Plus | Binary::Minus => 5,
            Binary::Star | Binary::Slash | Binary::Percent => 6,
        }
    }
}

impl Unary {
    /// Its number in a file.
    pub fn number(self) -> u8 {
        self as u8 + 1
    }

    /// The operator of a number.
    pub fn from_number(number: u8) -> Option<Unary> {
        [Unary::Bang, Unary::Minus].into_iter().find(|operator| operator.number() == number)
    }

    /// Its sign.
    pub fn sign(self) -> &'static str {
        match self {
            Unary::Bang => "!",
            Unary::Minus => "-",
        }
    }
}

impl Script {
    /// Reads a tree file, or names its first fault.
    pub fn read(file: &[u8]) -> Result<Script, Fault> {
        let (texts, nodes) = file::read(file)?;
        Script::from_nodes(texts, nodes).map_err(|fault| file::with_entry_byte(fault, file))
    }

    /// A script of texts and nodes that the earlier checks accept; the structure is checked.
    pub(crate) fn from_nodes(texts: Vec<String>, nodes: Vec<Node>) -> Result<Script, Fault> {
        let statements = structure::read(&nodes, &texts)?;
        Ok(Script { texts, statements, nodes })
    }

    /// The tree file.
    pub fn to_bytes(&self) -> Vec<u8> {
        file::write(&self.texts, &write::nodes(&self.statements))
    }

    /// The texts, by number.
    pub fn texts(&self) -> &[String] {
        &self.texts
    }

    /// The text of a number; empty where there is none.
    pub fn text(&self, number: u8) -> &str {
        self.texts.get(usize::from(number)).map_or("", String::as_str)
    }

    /// The texts that no node names, but for text 0.
    pub fn unused_texts(&self) -> impl Iterator<Item = &str> {
        let mut used = [false; TEXTS];
        for node in &self.nodes {
            if let kind::Body::Texts(_) = node.holds() {
                for text in node.bytes() {
                    used.iter_mut().skip(usize::from(*text)).take(1).for_each(|used| *used = true);
                }
            }
        }
        let texts = self.texts.iter().zip(used).skip(1);
        texts.filter(|(_, used)| !used).map(|(text, _)| text.as_str())
    }

    /// The Program's statements.
    pub fn statements(&self) -> &[Statement] {
        &self.statements
    }

    /// How many nodes the script has.
    pub fn node_count(&self) -> usize {
        self.nodes.len()
    }

    /// The way to a node in words.
    ///
    /// ```
    /// # let file = [&[0, 2, 1, 6, 1, 1, 6, 0][..], b"fortmp"].concat();
    /// let script = sif::script::Script::read(&file).unwrap();
    /// assert_eq!(script.path(1), "Program > statement 1 (Return)");
    /// ```
    pub fn path(&self, node: usize) -> String {
        fault::path(&self.nodes, node)
    }

    /// The node with its path.
    pub fn node_place(&self, node: usize) -> NodePlace {
        NodePlace { number: node, path: self.path(node) }
    }

    /// The kind of a node, where there is one of this number.
    pub fn kind(&self, node: usize) -> Option<u8> {
        self.nodes.get(node).map(|node| node.kind)
    }

    /// Whether it is a plain script: "no 6, 9 or 15; 14 and 16 stand only under 7; 22 and 23 only
    /// under 8, 12, 16, 17, 18", where "under" means the parent.
    pub fn is_plain(&self) -> bool {
        structure::parents(&self.nodes)
            .into_iter()
            .zip(&self.nodes)
            .all(|(parent, node)| is_plain_under(parent, node.kind))
    }

    /// The most items of an array of the script, or 1 where that is more: the L of the bound.
    pub fn longest_array(&self) -> u64 {
        let arrays = self.nodes.iter().filter(|node| node.kind == kind::ARRAY);
        arrays.map(|node| node.count as u64).fold(1, u64::max)
    }
}

fn is_plain_under(parent: u8, kind: u8) -> bool {
    use kind::*;
    match kind {
        RETURN | FN_DECL | CALL => false,
        ARRAY_MUT | ASSIGN => parent == EXPR_STMT,
        TRUE | FALSE => matches!(parent, VAR_DECL | ARRAY | ASSIGN | BINARY | UNARY),
        _ => true,
    }
}
