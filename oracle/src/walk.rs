//! The walk of document 01, with document 02, M-100 and M-103: a plain script's meaning from its tree
//! alone.
//!
//! Nothing here lowers the tree or steps the machine. Every step of the machine has its place as
//! one `step` of the walk, so that the walk can be cut off after any number of steps.

use std::collections::BTreeMap;

use crate::driver::Stop;
use crate::tree::kind::*;
use crate::tree::Node;
use crate::value_text::number_text;

#[derive(Clone, Debug)]
pub enum Value {
    Num(f64),
    Text(u8),
    Truth(bool),
    Null,
    Array(Vec<Value>),
    Table(BTreeMap<u8, Value>),
}

impl Value {
    fn is_single(&self) -> bool {
        !matches!(self, Value::Array(_) | Value::Table(_))
    }

    pub fn text(&self) -> String {
        match self {
            Value::Num(n) => number_text(*n),
            Value::Text(t) => format!("Str:{t}"),
            Value::Truth(b) => format!("Bl:{}", u8::from(*b)),
            Value::Null => String::from("Null"),
            Value::Array(items) => {
                let items: Vec<String> = items.iter().map(Value::text).collect();
                format!("Arr:[{}]", items.join(","))
            }
            Value::Table(map) => {
                let item = |(key, value): (&u8, &Value)| format!("{key}={}", value.text());
                let items: Vec<String> = map.iter().map(item).collect();
                format!("Tab:[{}]", items.join(","))
            }
        }
    }
}

/// Why a walk ended before the script's end.
#[derive(Clone, Debug, PartialEq)]
pub enum Cut {
    Stopped(Stop),
    Spent,
}

type Steps<T> = Result<T, Cut>;

pub struct Walk {
    values: BTreeMap<u8, Value>,
    pub count: u64,
    budget: u64,
}

/// Walks a plain script for at most `budget` steps.
pub fn walk(root: &Node, budget: u64) -> (Walk, Option<Cut>) {
    let mut walk = Walk { values: BTreeMap::new(), count: 0, budget };
    let end = walk.statements(&root.kids);
    (walk, end.err())
}

impl Walk {
    /// The `held` and `name` lines.
    pub fn names_text(&self) -> String {
        let names = self.values.iter().map(|(text, v)| format!("name {text} {}\n", v.text()));
        format!("held {}\n{}", self.values.len(), names.collect::<String>())
    }

    /// A name's value as text.
    pub fn name_text(&self, name: u64) -> Option<String> {
        let name = u8::try_from(name).ok()?;
        self.values.get(&name).map(Value::text)
    }

    /// One step; a stopping one is not counted.
    fn step<T>(&mut self, result: impl FnOnce(&mut Walk) -> Result<T, Stop>) -> Steps<T> {
        if self.count == self.budget {
            return Err(Cut::Spent);
        }
        let value = result(self).map_err(Cut::Stopped)?;
        self.count += 1;
        Ok(value)
    }

    /// A step that only passes on.
    fn pass(&mut self) -> Steps<()> {
        self.step(|_| Ok(()))
    }

    fn store(&mut self, name: u8, value: Value) -> Steps<()> {
        self.step(|walk| {
            walk.values.insert(name, value);
            Ok(())
        })
    }

    fn read(&self, name: u8) -> Result<&Value, Stop> {
        self.values.get(&name).ok_or_else(|| Stop::new(20, &[u64::from(name)]))
    }

    fn array(&self, name: u8) -> Result<&Vec<Value>, Stop> {
        match self.read(name)? {
            Value::Array(items) => Ok(items),
            _ => Err(Stop::new(28, &[u64::from(name)])),
        }
    }

    /// The array's item at an index, or 31 with name, index and length.
    fn item(&self, name: u8, index: u64) -> Result<&Value, Stop> {
        let items = self.array(name)?;
        let place = usize::try_from(index).ok();
        let details = [u64::from(name), index, items.len() as u64];
        place.and_then(|p| items.get(p)).ok_or_else(|| Stop::new(31, &details))
    }

    /// An empty list of statements takes one step of its own.
    fn statements(&mut self, statements: &[Node]) -> Steps<()> {
        if statements.is_empty() {
            return self.pass();
        }
        statements.iter().try_for_each(|statement| self.statement(statement))
    }

    fn statement(&mut self, node: &Node) -> Steps<()> {
        match node.kind {
            BLOCK => self.statements(&node.kids),
            IF => self.branches(node),
            FOR => self.passes(node),
            EXPR_STMT => self.expression_statement(&node.kids[0]),
            VAR_DECL => match node.kids.first() {
                None => self.store(node.text(), Value::Null),
                Some(right) => self.right_side(node.text(), right),
            },
            other => panic!("kind {other} is no statement of a plain script"),
        }
    }

    fn expression_statement(&mut self, node: &Node) -> Steps<()> {
        match node.kind {
            ASSIGN => self.right_side(node.text(), &node.kids[0]),
            MUTATE => self.set_item(node),
            _ => self.expression(node).map(|_| ()),
        }
    }

    /// Stores a right side under a name, each in its own way.
    fn right_side(&mut self, name: u8, right: &Node) -> Steps<()> {
        match right.kind {
            NUM => self.store(name, Value::Num(right.number())),
            TEXT => self.store(name, Value::Text(right.text())),
            TRUE => self.store(name, Value::Truth(true)),
            FALSE => self.store(name, Value::Truth(false)),
            NAME => {
                let value = self.values.get(&right.text()).cloned().unwrap_or(Value::Null);
                self.store(name, value)
            }
            TABLE => self.table(name, right),
            ARRAY => {
                let items = right.kids.iter().map(literal).collect();
                self.store(right.text(), Value::Array(items))
            }
            ACCESS => {
                let value = self.access(right)?;
                self.store(name, value)
            }
            _ => {
                let value = self.expression(right)?;
                self.store(name, value)
            }
        }
    }

    fn table(&mut self, name: u8, right: &Node) -> Steps<()> {
        self.store(name, Value::Table(BTreeMap::new()))?;
        for item in &right.kids {
            let value = self.expression(&item.kids[0])?;
            self.step(|walk| walk.insert(name, item.text(), value))?;
        }
        Ok(())
    }

    fn insert(&mut self, name: u8, key: u8, value: Value) -> Result<(), Stop> {
        if !value.is_single() {
            return Err(Stop::bare(34));
        }
        match self.values.get_mut(&name) {
            Some(Value::Table(map)) => map.insert(key, value),
            _ => panic!("the table was stored just before"),
        };
        Ok(())
    }

    /// Reads an item.
    fn access(&mut self, node: &Node) -> Steps<Value> {
        let index = self.expression(&node.kids[0])?;
        self.step(|walk| walk.item(node.text(), index_of(&index)?).cloned())
    }

    /// The value first, then the index, then the array is changed.
    fn set_item(&mut self, node: &Node) -> Steps<()> {
        let value = self.expression(&node.kids[1])?;
        let index = self.expression(&node.kids[0])?;
        self.step(|walk| {
            let index = index_of(&index)?;
            walk.item(node.text(), index)?;
            if !value.is_single() {
                return Err(Stop::bare(34));
            }
            if let Some(Value::Array(items)) = walk.values.get_mut(&node.text()) {
                items[index as usize] = value;
            }
            Ok(())
        })
    }

    /// One step decides a condition; a branch taken has a step out and all meet in one step.
    fn branches(&mut self, node: &Node) -> Steps<()> {
        if self.condition(&node.kids[0])? {
            self.branch(&node.kids[1])?;
            return self.pass();
        }
        for elif in node.elifs() {
            if self.condition(&elif.kids[0])? {
                self.branch(&elif.kids[1])?;
                return self.pass();
            }
        }
        node.else_statements().iter().try_for_each(|statement| self.statement(statement))?;
        self.pass()
    }

    fn branch(&mut self, block: &Node) -> Steps<()> {
        self.statement(block)?;
        self.pass()
    }

    fn condition(&mut self, node: &Node) -> Steps<bool> {
        let value = self.expression(node)?;
        self.step(|_| truth(&value))
    }

    /// Two steps before the passes; in each pass three before the Block and four after it. The
    /// size is read once, the index is the loop's own.
    fn passes(&mut self, node: &Node) -> Steps<()> {
        let (index_name, item_name, array) = (node.text(), node.item_name(), node.kids[0].text());
        self.store(index_name, Value::Num(0.0))?;
        let size = self.step(|walk| walk.array(array).map(|items| items.len() as u64))?;
        let mut index = 0;
        loop {
            self.pass()?;
            let item = self.step(|walk| walk.item(array, index).cloned())?;
            self.store(item_name, item)?;
            self.statement(&node.kids[1])?;
            self.pass()?;
            index += 1;
            self.store(index_name, Value::Num(index as f64))?;
            self.pass()?;
            self.pass()?;
            if index >= size {
                return Ok(());
            }
        }
    }

    fn expression(&mut self, node: &Node) -> Steps<Value> {
        match node.kind {
            NAME => self.step(|walk| walk.read(node.text()).cloned()),
            BINARY => {
                let left = self.expression(&node.kids[0])?;
                let right = self.expression(&node.kids[1])?;
                self.step(|_| binary(node.body[0], &left, &right))
            }
            UNARY => {
                let arg = self.expression(&node.kids[0])?;
                self.step(|_| unary(node.body[0], &arg))
            }
            _ => self.step(|_| Ok(literal(node))),
        }
    }
}

fn literal(node: &Node) -> Value {
    match node.kind {
        NUM => Value::Num(node.number()),
        TEXT => Value::Text(node.text()),
        TRUE => Value::Truth(true),
        FALSE => Value::Truth(false),
        other => panic!("kind {other} is no literal"),
    }
}

/// Whole numbers from 0 up to below 2^64 pass, and minus zero is 0. NaN, negatives, fractions,
/// infinities and larger numbers stop the step.
fn index_of(value: &Value) -> Result<u64, Stop> {
    match value {
        Value::Num(n) => whole(*n).ok_or_else(|| Stop::bare(38)),
        _ => Err(Stop::bare(27)),
    }
}

/// The whole number that a number is, from its digits; the exponent of an infinity or a NaN is far
/// above 11.
fn whole(n: f64) -> Option<u64> {
    match digits(n) {
        (0, _) => Some(0),
        _ if n.is_sign_negative() => None,
        (digits, exponent @ 0..=11) => Some(digits << exponent),
        (digits, exponent @ -52..=-1) => {
            let fraction = -exponent as u32;
            (digits.trailing_zeros() >= fraction).then_some(digits >> fraction)
        }
        _ => None,
    }
}

fn truth(value: &Value) -> Result<bool, Stop> {
    match value {
        Value::Truth(b) => Ok(*b),
        _ => Err(Stop::bare(27)),
    }
}

/// Operators 1 to 10 are for numbers, 11 to 13 for yes and no.
fn binary(op: u8, left: &Value, right: &Value) -> Result<Value, Stop> {
    match (left, right) {
        (Value::Num(a), Value::Num(b)) if op <= 5 => Ok(Value::Num(arithmetic(op, *a, *b))),
        (Value::Num(a), Value::Num(b)) if op <= 10 => Ok(Value::Truth(order(op, *a, *b))),
        (Value::Truth(a), Value::Truth(b)) if op > 10 => Ok(Value::Truth(logic(op, *a, *b))),
        _ => Err(Stop::bare(27)),
    }
}

fn arithmetic(op: u8, a: f64, b: f64) -> f64 {
    match op {
        1 => a + b,
        2 => a - b,
        3 => a * b,
        4 => a / b,
        _ => remainder(a, b),
    }
}

/// Document 01's `%`, in whole numbers: the dividend less the divisor times the quotient cut
/// toward zero, with the dividend's sign.
fn remainder(a: f64, b: f64) -> f64 {
    if a.is_nan() || b.is_nan() || a.is_infinite() || b == 0.0 {
        return f64::NAN;
    }
    if b.is_infinite() {
        return a;
    }
    let ((a_digits, a_exponent), (b_digits, b_exponent)) = (digits(a), digits(b));
    let (rest, exponent) = if a_exponent >= b_exponent {
        let doubled = |rest: u64, _| rest * 2 % b_digits;
        ((b_exponent..a_exponent).fold(a_digits % b_digits, doubled), b_exponent)
    } else if b_exponent - a_exponent > 64 {
        (a_digits, a_exponent)
    } else {
        let divisor = u128::from(b_digits) << (b_exponent - a_exponent);
        ((u128::from(a_digits) % divisor) as u64, a_exponent)
    };
    (rest as f64 * power_of_two(exponent)).copysign(a)
}

/// A finite number's size as a whole number times a power of two.
fn digits(n: f64) -> (u64, i64) {
    let fraction = n.to_bits() & ((1 << 52) - 1);
    match (n.to_bits() >> 52) & 0x7ff {
        0 => (fraction, -1074),
        exponent => (fraction | (1 << 52), exponent as i64 - 1075),
    }
}

/// For exponents from -1074 to 971.
fn power_of_two(exponent: i64) -> f64 {
    if exponent < -1022 {
        f64::from_bits(1 << (exponent + 1074))
    } else {
        f64::from_bits(((exponent + 1023) as u64) << 52)
    }
}

fn order(op: u8, a: f64, b: f64) -> bool {
    match op {
        6 => a == b,
        7 => a <= b,
        8 => a < b,
        9 => a >= b,
        _ => a > b,
    }
}

fn logic(op: u8, a: bool, b: bool) -> bool {
    match op {
        11 => a && b,
        12 => a || b,
        _ => a != b,
    }
}

fn unary(op: u8, arg: &Value) -> Result<Value, Stop> {
    match (op, arg) {
        (1, Value::Truth(b)) => Ok(Value::Truth(!b)),
        (2, Value::Num(n)) => Ok(Value::Num(-n)),
        _ => Err(Stop::bare(27)),
    }
}
