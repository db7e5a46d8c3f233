//! A script as indented text, which [`crate::parse`] reads back to the same file.
//!
//! ```
//! let file = [
//!     &[0, 3, 2, 6, 1, 1, 1, 8, 1, 19, 0][..],
//!     b"fortmpx",
//!     &[1, 0x40, 0, 0, 0, 0, 0, 0, 0],
//! ]
//! .concat();
//! let script = sif::script::Script::read(&file).unwrap();
//! assert_eq!(sif::show::show(&script), "var x = 2\n");
//! ```

use crate::decimal;
use crate::script::{
    Binary, Block, Branch, Expression, ExpressionForm, Item, Right, Script, Statement,
    StatementForm, Unary,
};

/// Words of the language that a name has to be put in backquotes for.
pub const RESERVED: [&str; 16] = [
    "var", "fn", "return", "if", "elif", "else", "for", "in", "as", "true", "false", "inf", "nan",
    "block", "empty", "unused",
];

/// A longer line is broken where it ends in an array or a table.
const WIDTH: usize = 80;
/// What the lines of a block have in front of those around it.
const INDENT: &str = "    ";
/// Above the strength of all operators between two expressions.
const TIGHTEST: u8 = 7;

/// The text of a script with the line of each node.
#[derive(Clone, Debug, PartialEq, Eq)]
pub struct Shown {
    /// The text.
    pub text: String,
    /// Node and line where a statement or a branch begins, both ascending.
    begins: Vec<(usize, usize)>,
}

impl Shown {
    /// The line, from 1, of the statement or branch that a node belongs to.
    pub fn line(&self, node: usize) -> usize {
        let before = self.begins.partition_point(|(begin, _)| *begin <= node);
        before.checked_sub(1).and_then(|at| self.begins.get(at)).map_or(1, |(_, line)| *line)
    }

    /// The text of the line that a node belongs to, without its indentation.
    pub fn line_text(&self, node: usize) -> &str {
        self.text.lines().nth(self.line(node) - 1).map_or("", str::trim_start)
    }
}

/// The text of a script.
pub fn show(script: &Script) -> String {
    show_with_lines(script).text
}

/// The text of a script with the line of each node.
pub fn show_with_lines(script: &Script) -> Shown {
    let mut writer = Writer { script, text: String::new(), lines: 0, begins: Vec::new() };
    writer.program();
    Shown { text: writer.text, begins: writer.begins }
}

/// The text of an expression.
pub fn show_expression(script: &Script, expression: &Expression) -> String {
    Words { script }.expression(expression, 0)
}

/// A name as the text has it: as it is, or in backquotes.
///
/// ```
/// use sif::show::name;
/// assert_eq!(name("total"), "total");
/// assert_eq!(name("page 2"), "`page 2`");
/// assert_eq!(name("if"), "`if`");
/// ```
pub fn name(text: &str) -> String {
    if is_bare(text) {
        text.to_string()
    } else {
        enclosed(text, '`')
    }
}

/// A text in double quotes.
///
/// ```
/// assert_eq!(sif::show::quoted("2\" pipe"), r#""2\" pipe""#);
/// ```
pub fn quoted(text: &str) -> String {
    enclosed(text, '"')
}

/// A key of a table: as it is, or in double quotes.
pub fn key(text: &str) -> String {
    if is_bare(text) {
        text.to_string()
    } else {
        quoted(text)
    }
}

/// Whether a name can stand without quotes: a letter or `_`, then letters, digits and `_`, and no
/// word of the language.
fn is_bare(text: &str) -> bool {
    let begins = text.starts_with(|c: char| c.is_ascii_alphabetic() || c == '_');
    begins
        && text.chars().all(|c| c.is_ascii_alphanumeric() || c == '_')
        && !RESERVED.contains(&text)
}

fn enclosed(text: &str, quote: char) -> String {
    let mut all = String::from(quote);
    for c in text.chars() {
        if c == quote || c == '\\' {
            all.push('\\');
        }
        all.push(c);
    }
    all.push(quote);
    all
}

/// Writes statements, line by line.
struct Writer<'s> {
    script: &'s Script,
    text: String,
    lines: usize,
    begins: Vec<(usize, usize)>,
}

impl Writer<'_> {
    fn words(&self) -> Words<'_> {
        Words { script: self.script }
    }

    fn name(&self, number: u8) -> String {
        name(self.script.text(number))
    }

    /// Writes a line that begins a statement or a branch.
    fn begin(&mut self, node: usize, depth: usize, line: &str) {
        self.begins.push((node, self.lines + 1));
        self.line(depth, line);
    }

    fn line(&mut self, depth: usize, line: &str) {
        if !line.is_empty() {
            self.text.push_str(&INDENT.repeat(depth));
            self.text.push_str(line);
        }
        self.text.push('\n');
        self.lines += 1;
    }

    fn program(&mut self) {
        let statements = self.script.statements();
        let mut before: Option<&Statement> = None;
        for statement in statements {
            let is_function = |s: &Statement| matches!(s.form, StatementForm::Function { .. });
            if before.is_some_and(|before| is_function(before) || is_function(statement)) {
                self.line(0, "");
            }
            self.statement(statement, 0);
            before = Some(statement);
        }
        for text in self.script.unused_texts() {
            let line = format!("unused {}", quoted(text));
            self.line(0, &line);
        }
    }

    fn statements(&mut self, statements: &[Statement], depth: usize) {
        for statement in statements {
            self.statement(statement, depth);
        }
    }

    fn block(&mut self, block: &Block, depth: usize) {
        if block.statements.is_empty() {
            self.line(depth + 1, "empty");
        }
        self.statements(&block.statements, depth + 1);
    }

    fn branch(&mut self, word: &str, branch: &Branch, depth: usize) {
        let condition = self.words().expression(&branch.condition, 0);
        self.begin(branch.node, depth, &format!("{word} {condition}:"));
        self.block(&branch.block, depth);
    }

    fn statement(&mut self, statement: &Statement, depth: usize) {
        let node = statement.node;
        match &statement.form {
            StatementForm::Block(block) => {
                self.begin(node, depth, "block:");
                self.block(block, depth);
            }
            StatementForm::If { first, elifs, otherwise } => {
                self.branch("if", first, depth);
                for elif in elifs {
                    self.branch("elif", elif, depth);
                }
                if !otherwise.is_empty() {
                    self.line(depth, "else:");
                    self.statements(otherwise, depth + 1);
                }
            }
            StatementForm::For { index, item, over, block } => {
                let over = self.words().expression(over, 0);
                let line = format!("for {}, {} in {over}:", self.name(*index), self.name(*item));
                self.begin(node, depth, &line);
                self.block(block, depth);
            }
            StatementForm::Return(None) => self.begin(node, depth, "return"),
            StatementForm::Return(Some(value)) => {
                let line = format!("return {}", self.words().expression(value, 0));
                self.begin(node, depth, &line);
            }
            StatementForm::Expression(expression) => self.expression(node, expression, depth),
            StatementForm::Variable { name, value: None } => {
                let line = format!("var {}", self.name(*name));
                self.begin(node, depth, &line);
            }
            StatementForm::Variable { name, value: Some(value) } => {
                let left = format!("var {} = ", self.name(*name));
                self.setting(node, &left, *name, value, depth);
            }
            StatementForm::Function { name, parameters, block } => {
                let parameters: Vec<_> = parameters.iter().map(|p| self.name(p.name)).collect();
                let line = format!("fn {}({}):", self.name(*name), parameters.join(", "));
                self.begin(node, depth, &line);
                self.block(block, depth);
            }
        }
    }

    fn expression(&mut self, node: usize, expression: &Expression, depth: usize) {
        match &expression.form {
            ExpressionForm::Assign { name, value } => {
                let left = format!("{} = ", self.name(*name));
                self.setting(node, &left, *name, value, depth);
            }
            form => {
                let line = self.words().bare(form, 0);
                self.begin(node, depth, &line);
            }
        }
    }

    /// A name with its right side, over several lines where one would be too long.
    fn setting(&mut self, node: usize, left: &str, name: u8, right: &Right, depth: usize) {
        let words = self.words();
        let line = format!("{left}{}", words.right(name, right));
        if INDENT.len() * depth + line.len() <= WIDTH {
            self.begin(node, depth, &line);
            return;
        }
        match right {
            Right::Array { name: own, items, .. } => {
                let room = WIDTH.saturating_sub(INDENT.len() * (depth + 1));
                let rows = filled(items.iter().map(|item| words.expression(item, 0)), room);
                let close = format!("]{}", words.stored_as(name, *own));
                self.begin(node, depth, &format!("{left}["));
                self.rows(rows, &close, depth);
            }
            Right::Table { items, .. } => {
                let rows = items.iter().map(|item| format!("{},", words.item(item))).collect();
                self.begin(node, depth, &format!("{left}{{"));
                self.rows(rows, "}", depth);
            }
            _ => self.begin(node, depth, &line),
        }
    }

    fn rows(&mut self, rows: Vec<String>, close: &str, depth: usize) {
        for row in rows {
            self.line(depth + 1, &row);
        }
        self.line(depth, close);
    }
}

/// Puts items into rows of at most so many characters, each item with a comma behind it.
fn filled(items: impl Iterator<Item = String>, room: usize) -> Vec<String> {
    let mut rows: Vec<String> = Vec::new();
    for item in items {
        match rows.last_mut() {
            Some(row) if row.len() + 1 + item.len() < room => {
                row.push(' ');
                row.push_str(&item);
                row.push(',');
            }
            _ => rows.push(format!("{item},")),
        }
    }
    rows
}

/// Gives expressions and right sides as text.
struct Words<'s> {
    script: &'s Script,
}

impl Words<'_> {
    fn name(&self, number: u8) -> String {
        name(self.script.text(number))
    }

    /// An expression, in parentheses where it binds less tightly than its place asks for.
    fn expression(&self, expression: &Expression, strength: u8) -> String {
        match &expression.form {
            form @ (ExpressionForm::Assign { .. } | ExpressionForm::Mutate { .. }) => {
                format!("({})", self.bare(form, 0))
            }
            form => self.bare(form, strength),
        }
    }

    fn list(&self, expressions: &[Expression]) -> String {
        let all: Vec<_> = expressions.iter().map(|e| self.expression(e, 0)).collect();
        all.join(", ")
    }

    /// An expression, where assignments stand without parentheses.
    fn bare(&self, form: &ExpressionForm, strength: u8) -> String {
        match form {
            ExpressionForm::Mutate { name, index, value } => {
                let index = self.expression(index, 0);
                format!("{}[{index}] = {}", self.name(*name), self.expression(value, 0))
            }
            ExpressionForm::Call { name, parameters } => {
                format!("{}({})", self.name(*name), self.list(parameters))
            }
            ExpressionForm::Assign { name, value } => {
                format!("{} = {}", self.name(*name), self.right(*name, value))
            }
            ExpressionForm::Binary(operator, left, right) => {
                let text = self.binary(*operator, left, right);
                if operator.strength() < strength {
                    format!("({text})")
                } else {
                    text
                }
            }
            ExpressionForm::Unary(operator, operand) => self.unary(*operator, operand),
            ExpressionForm::Number(pattern) => decimal::write(f64::from_bits(*pattern)),
            ExpressionForm::Text(text) => quoted(self.script.text(*text)),
            ExpressionForm::Name(name) => self.name(*name),
            ExpressionForm::True => "true".to_string(),
            ExpressionForm::False => "false".to_string(),
        }
    }

    /// Operators of one strength go from the left to the right.
    fn binary(&self, operator: Binary, left: &Expression, right: &Expression) -> String {
        let left = self.expression(left, operator.strength());
        let right = self.expression(right, operator.strength() + 1);
        format!("{left} {} {right}", operator.sign())
    }

    /// A minus sign before a number belongs to the number, so a negated number is in parentheses.
    fn unary(&self, operator: Unary, operand: &Expression) -> String {
        let text = self.expression(operand, TIGHTEST);
        let apart = match operand.form {
            ExpressionForm::Number(_) | ExpressionForm::Unary(Unary::Minus, _) => {
                operator == Unary::Minus
            }
            _ => false,
        };
        if apart {
            format!("{}({text})", operator.sign())
        } else {
            format!("{}{text}", operator.sign())
        }
    }

    /// The right side of a name.
    fn right(&self, name: u8, right: &Right) -> String {
        match right {
            Right::Expression(expression) => self.expression(expression, 0),
            Right::Table { items, .. } => {
                let items: Vec<_> = items.iter().map(|item| self.item(item)).collect();
                format!("{{{}}}", items.join(", "))
            }
            Right::Array { name: own, items, .. } => {
                format!("[{}]{}", self.list(items), self.stored_as(name, *own))
            }
            Right::Access { name, index, .. } => {
                format!("{}[{}]", self.name(*name), self.expression(index, 0))
            }
        }
    }

    /// An array's own name, where it is not the name on the left.
    fn stored_as(&self, left: u8, own: u8) -> String {
        if left == own {
            String::new()
        } else {
            format!(" as {}", self.name(own))
        }
    }

    fn item(&self, item: &Item) -> String {
        format!("{}: {}", key(self.script.text(item.key)), self.expression(&item.value, 0))
    }
}
