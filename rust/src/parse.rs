//! Reads a script from indented text; what [`crate::show`] prints comes back to the same file.
//!
//! The grammar stands in `examples/pages/README.md`.
//!
//! ```
//! use sif::parse::parse;
//! let parsed = parse("var x = 2\nif x == 2:\n    y = x + 1\n").unwrap();
//! assert_eq!(parsed.script.texts(), ["fortmp", "x", "y"]);
//!
//! let error = parse("var x = 2\nif x = 2:\n    y = 1\n").unwrap_err();
//! assert_eq!(error.to_string(), "line 2, column 6: `=` cannot stand here: to compare, write ==");
//! ```

mod cursor;
mod expression;
mod lex;
mod statement;

use crate::script::kind::{self, *};
use crate::script::node::Node;
use crate::script::{Script, ARRAY_ITEMS, CHILDREN, FORTMP, NODES, TABLE_ITEMS, TEXTS};
use crate::show::RESERVED;
use cursor::Cursor;
use lex::{Line, Token};
use std::collections::BTreeSet;
use std::fmt;

/// A place in a text.
#[derive(Clone, Copy, Debug, PartialEq, Eq, PartialOrd, Ord)]
pub struct Position {
    /// The line, from 1.
    pub line: usize,
    /// The character in the line, from 1.
    pub column: usize,
}

impl fmt::Display for Position {
    fn fmt(&self, f: &mut fmt::Formatter<'_>) -> fmt::Result {
        write!(f, "line {}, column {}", self.line, self.column)
    }
}

/// Why a text is not read.
#[derive(Clone, Debug, PartialEq, Eq)]
pub struct Error {
    /// Where.
    pub at: Position,
    /// What is wrong, for people.
    pub words: String,
}

impl Error {
    fn new(at: Position, words: impl Into<String>) -> Error {
        Error { at, words: words.into() }
    }
}

impl fmt::Display for Error {
    fn fmt(&self, f: &mut fmt::Formatter<'_>) -> fmt::Result {
        write!(f, "{}: {}", self.at, self.words)
    }
}

impl std::error::Error for Error {}

/// A script with the place of each node in its text.
#[derive(Clone, Debug, PartialEq, Eq)]
pub struct Parsed {
    /// The script.
    pub script: Script,
    positions: Vec<Position>,
}

impl Parsed {
    /// Where a node stands in the text.
    pub fn position(&self, node: usize) -> Option<Position> {
        self.positions.get(node).copied()
    }
}

/// Reads a script from the bytes of a text file, UTF-8.
///
/// ```
/// let error = sif::parse::parse_bytes(b"var x\nvar \xff").unwrap_err();
/// assert_eq!(error.to_string(), "line 2, column 5: this is not a text file (UTF-8)");
/// ```
pub fn parse_bytes(bytes: &[u8]) -> Result<Parsed, Error> {
    let error = match std::str::from_utf8(bytes) {
        Ok(text) => return parse(text),
        Err(error) => error,
    };
    let read = bytes.get(..error.valid_up_to()).unwrap_or(&[]);
    let before = String::from_utf8_lossy(read);
    let before = before.strip_prefix('\u{feff}').unwrap_or(&before);
    let line = before.matches('\n').count() + 1;
    let column = before.rsplit('\n').next().unwrap_or("").chars().count() + 1;
    Err(Error::new(Position { line, column }, "this is not a text file (UTF-8)"))
}

/// Reads a script from a text.
pub fn parse(text: &str) -> Result<Parsed, Error> {
    let lines = lex::lines(text)?;
    let mut parser = Parser { lines: &lines, at: 0, nodes: 1, texts: BTreeSet::new(), nesting: 0 };
    let statements = parser.statements("", 0)?;
    let start = Position { line: 1, column: 1 };
    let mut parts = vec![Part::new(PROGRAM, Fields::Nothing, start)];
    adopt(&mut parts, statements)?;
    let mut texts = vec![FORTMP.to_string()];
    texts.extend(parser.texts);
    let nodes = parts.iter().map(|part| part.node(&texts)).collect();
    let script = Script::from_nodes(texts, nodes).map_err(|fault| {
        let part = fault.node.as_ref().and_then(|node| parts.get(node.number));
        Error::new(part.map_or(start, |part| part.at), fault.words)
    })?;
    Ok(Parsed { script, positions: parts.iter().map(|part| part.at).collect() })
}

/// A node whose names are not yet numbers.
#[derive(Debug)]
struct Part {
    kind: u8,
    count: usize,
    fields: Fields,
    at: Position,
}

/// What a node's body will hold.
#[derive(Debug)]
enum Fields {
    Nothing,
    Byte(u8),
    Text(String),
    Texts(String, String),
    Number(u64),
}

/// A node with all below it, in preorder.
type Parts = Vec<Part>;

impl Part {
    fn new(kind: u8, fields: Fields, at: Position) -> Part {
        Part { kind, count: 0, fields, at }
    }

    /// The node, its names by the numbers of the texts: text 0, then the others ascending.
    fn node(&self, texts: &[String]) -> Node {
        let number = |text: &String| {
            let later = texts.get(1..).unwrap_or(&[]);
            later.binary_search(text).map_or(0, |at| (at + 1) as u8)
        };
        match &self.fields {
            Fields::Nothing => Node::new(self.kind, self.count, &[]),
            Fields::Byte(byte) => Node::new(self.kind, self.count, &[*byte]),
            Fields::Text(text) => Node::new(self.kind, self.count, &[number(text)]),
            Fields::Texts(a, b) => Node::new(self.kind, self.count, &[number(a), number(b)]),
            Fields::Number(bits) => Node::new(self.kind, self.count, &bits.to_be_bytes()),
        }
    }
}

/// Puts children below the first of the parts.
fn adopt(parts: &mut Parts, children: Vec<Parts>) -> Result<(), Error> {
    if let Some(parent) = parts.first_mut() {
        parent.count += children.len();
        if parent.count > CHILDREN {
            let name = kind::name(parent.kind);
            let rule = match parent.kind {
                ARRAY => format!("items; it has at most {ARRAY_ITEMS}"),
                TABLE => format!("items; it has at most {TABLE_ITEMS}"),
                PROGRAM | BLOCK | IF => {
                    format!("children; {CHILDREN} is the most: put some into a block")
                }
                _ => format!("children; {CHILDREN} is the most"),
            };
            return Err(Error::new(parent.at, format!("{name} with {} {rule}", parent.count)));
        }
    }
    parts.extend(children.into_iter().flatten());
    Ok(())
}

/// How a word of the language is written where it is a name.
fn as_name(word: &str) -> String {
    format!("as a name this word is written in backquotes, `{word}`")
}

/// Reads lines; the nodes and texts are counted.
struct Parser<'l> {
    lines: &'l [Line],
    at: usize,
    /// The nodes so far.
    nodes: usize,
    /// The texts so far, but for text 0.
    texts: BTreeSet<String>,
    nesting: usize,
}

impl Parser<'_> {
    fn part(&mut self, kind: u8, fields: Fields, at: Position) -> Result<Parts, Error> {
        if self.nodes == NODES {
            return Err(Error::new(at, format!("the script is too long: over {NODES} nodes")));
        }
        self.nodes += 1;
        Ok(vec![Part::new(kind, fields, at)])
    }

    fn parent(
        &mut self,
        kind: u8,
        fields: Fields,
        at: Position,
        children: Vec<Parts>,
    ) -> Result<Parts, Error> {
        let mut parts = self.part(kind, fields, at)?;
        adopt(&mut parts, children)?;
        Ok(parts)
    }

    fn text(&mut self, text: &str, at: Position) -> Result<String, Error> {
        if text != FORTMP {
            self.texts.insert(text.to_string());
        }
        if self.texts.len() >= TEXTS {
            let words = format!(
                "the script has over {} different names, keys and texts together",
                TEXTS - 1
            );
            return Err(Error::new(at, words));
        }
        Ok(text.to_string())
    }

    /// A name, bare or in backquotes.
    fn name(&mut self, cursor: &mut Cursor, what: &str) -> Result<String, Error> {
        let at = cursor.at();
        match cursor.peek() {
            Some(Token::Word(word)) if RESERVED.contains(&word.as_str()) => {
                Err(cursor.unexpected(&format!("{what} is missing; {}", as_name(word))))
            }
            Some(Token::Word(name) | Token::Name(name)) => {
                cursor.advance();
                self.text(name, at)
            }
            _ => Err(cursor.unexpected(&format!("{what} is missing before it"))),
        }
    }
}
