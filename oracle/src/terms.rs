//! Terms of the tables' language, as far as the tables write trees and values: applications, lists,
//! and short names for them.

use std::collections::HashMap;

use crate::tree::{self, Node};

/// A word applied to terms; `a ∷ b` is `∷` applied to both.
#[derive(Clone, Debug, PartialEq)]
pub struct Term {
    pub head: String,
    pub args: Vec<Term>,
}

/// Short names with their clauses: patterns, and what they stand for.
#[derive(Default)]
pub struct Abbreviations {
    known: HashMap<String, Vec<(Vec<Term>, Term)>>,
}

/// Definitions that the oracle has itself: a list of statements, and a number's pattern.
const OWN: [&str; 2] = ["script", "pattern"];

/// The short names that a table defines.
pub fn abbreviations_of(table: &str) -> Result<Abbreviations, String> {
    let mut short = Abbreviations::default();
    for lines in paragraphs(table) {
        let Some(rest) = lines[0].strip_prefix("abbrev ") else {
            continue;
        };
        let (name, _) = rest.split_once(" : ").ok_or(format!("no name: {rest}"))?;
        if !OWN.contains(&name) {
            clauses(name, &lines[1..]).iter().try_for_each(|clause| short.define(clause))?;
        }
    }
    Ok(short)
}

/// The clauses of a definition: each begins with the name.
fn clauses(name: &str, lines: &[&str]) -> Vec<String> {
    let mut out: Vec<String> = Vec::new();
    for line in lines {
        match out.last_mut() {
            Some(clause) if !line.starts_with(&format!("{name} ")) => {
                *clause = format!("{clause} {line}");
            }
            _ => out.push(line.to_string()),
        }
    }
    out
}

/// Lines between empty ones, without comments.
pub fn paragraphs(table: &str) -> Vec<Vec<&str>> {
    let mut out = vec![Vec::new()];
    for line in table.lines().map(str::trim).filter(|line| !line.starts_with("--")) {
        if line.is_empty() {
            out.push(Vec::new());
        } else {
            out.last_mut().expect("a paragraph").push(line);
        }
    }
    out.retain(|paragraph| !paragraph.is_empty());
    out
}

fn words(text: &str) -> Vec<String> {
    text.replace('(', " ( ").replace(')', " ) ").split_whitespace().map(String::from).collect()
}

/// The whole of a text as one term.
pub fn term(text: &str) -> Result<Term, String> {
    let words = words(text);
    let mut at = 0;
    let term = sequence(&words, &mut at)?;
    if at == words.len() {
        Ok(term)
    } else {
        Err(format!("a term breaks off before {}: {text}", words[at]))
    }
}

/// A term, or a list's head and tail.
fn sequence(words: &[String], at: &mut usize) -> Result<Term, String> {
    let first = application(words, at)?;
    if words.get(*at).is_some_and(|word| word == "∷") {
        *at += 1;
        let rest = sequence(words, at)?;
        return Ok(Term { head: String::from("∷"), args: vec![first, rest] });
    }
    Ok(first)
}

fn application(words: &[String], at: &mut usize) -> Result<Term, String> {
    let mut term = atom(words, at)?;
    while words.get(*at).is_some_and(|word| word != ")" && word != "∷") {
        term.args.push(atom(words, at)?);
    }
    Ok(term)
}

fn atom(words: &[String], at: &mut usize) -> Result<Term, String> {
    let word = words.get(*at).ok_or("a term breaks off")?;
    *at += 1;
    match word.as_str() {
        "(" => {
            let inner = sequence(words, at)?;
            *at += 1;
            match words.get(*at - 1).map(String::as_str) {
                Some(")") => Ok(inner),
                _ => Err(String::from("a bracket is not closed")),
            }
        }
        ")" | "∷" => Err(format!("no term: {word}")),
        _ => Ok(Term { head: word.clone(), args: Vec::new() }),
    }
}

impl Abbreviations {
    /// Takes a clause `name patterns = term`. A pattern is a parameter, `zero` or `(suc n)`.
    pub fn define(&mut self, clause: &str) -> Result<(), String> {
        let (left, right) = clause.split_once(" = ").ok_or(format!("no definition: {clause}"))?;
        let left = term(left)?;
        self.known.entry(left.head).or_default().push((left.args, term(right)?));
        Ok(())
    }

    /// A term without short names.
    pub fn expand(&self, term: &Term) -> Term {
        let args: Vec<Term> = term.args.iter().map(|arg| self.expand(arg)).collect();
        let clauses = self.known.get(&term.head).into_iter().flatten();
        let mut fitting = clauses.filter_map(|(patterns, meaning)| {
            let bound = matched(patterns, &args)?;
            Some(self.expand(&with(meaning, &bound)))
        });
        fitting.next().unwrap_or_else(|| successor(Term { head: term.head.clone(), args }))
    }
}

/// `suc` of a number as a number.
fn successor(term: Term) -> Term {
    match (term.head.as_str(), term.args.as_slice()) {
        ("suc", [before]) => match before.number() {
            Ok(number) => Term { head: (number + 1).to_string(), args: Vec::new() },
            Err(_) => term,
        },
        _ => term,
    }
}

/// What the parameters of patterns stand for, where the terms fit them.
fn matched(patterns: &[Term], args: &[Term]) -> Option<HashMap<String, Term>> {
    if patterns.len() != args.len() {
        return None;
    }
    let mut bound = HashMap::new();
    for (pattern, arg) in patterns.iter().zip(args) {
        let (name, value) = match (pattern.head.as_str(), pattern.args.as_slice()) {
            ("zero", []) if arg.number() == Ok(0) => continue,
            ("zero", []) => return None,
            ("suc", [before]) => {
                let number = arg.number().ok()?.checked_sub(1)?;
                (&before.head, Term { head: number.to_string(), args: Vec::new() })
            }
            (_, []) => (&pattern.head, arg.clone()),
            _ => return None,
        };
        bound.insert(name.clone(), value);
    }
    Some(bound)
}

/// A term with its parameters replaced.
fn with(term: &Term, given: &HashMap<String, Term>) -> Term {
    match given.get(&term.head) {
        Some(value) if term.args.is_empty() => value.clone(),
        _ => {
            let args = term.args.iter().map(|arg| with(arg, given)).collect();
            Term { head: term.head.clone(), args }
        }
    }
}

impl Term {
    /// The head with its arguments, to be matched.
    pub fn parts(&self) -> (&str, &[Term]) {
        (&self.head, &self.args)
    }

    fn unknown<T>(&self, what: &str) -> Result<T, String> {
        Err(format!("no {what}: {self:?}"))
    }

    /// A decimal or hexadecimal number.
    pub fn number(&self) -> Result<u64, String> {
        let parsed = match self.head.strip_prefix("0x") {
            Some(hex) => u64::from_str_radix(hex, 16).ok(),
            None => self.head.parse().ok(),
        };
        match parsed {
            Some(number) if self.args.is_empty() => Ok(number),
            _ => self.unknown("number"),
        }
    }

    fn text(&self) -> Result<u8, String> {
        u8::try_from(self.number()?).or_else(|_| self.unknown("text number"))
    }

    /// The terms of a list.
    pub fn list(&self) -> Result<Vec<&Term>, String> {
        match self.parts() {
            ("[]", []) => Ok(Vec::new()),
            ("∷", [first, rest]) => Ok([vec![first], rest.list()?].concat()),
            ("replicate", [count, item]) => Ok(vec![item; count.number()? as usize]),
            _ => self.unknown("list"),
        }
    }

    /// A script's tree.
    pub fn script(&self) -> Result<Node, String> {
        Ok(tree::program(self.statements()?))
    }

    fn statements(&self) -> Result<Vec<Node>, String> {
        match self.parts() {
            ("no_stmts", []) => Ok(Vec::new()),
            ("script", [list]) => list.list()?.into_iter().map(Term::statement).collect(),
            ("more_stmts", [first, rest]) => {
                Ok([vec![first.statement()?], rest.statements()?].concat())
            }
            _ => self.unknown("statements"),
        }
    }

    fn block(&self) -> Result<Node, String> {
        Ok(tree::block(self.statements()?))
    }

    fn statement(&self) -> Result<Node, String> {
        match self.parts() {
            ("Block", [body]) => body.block(),
            ("IfStmt", [cond, body, rest]) => {
                let (elifs, other) = rest.rest()?;
                Ok(tree::if_(cond.expression()?, body.block()?, elifs, other))
            }
            ("ForStmt", [index, item, over, body]) => {
                Ok(tree::for_(index.text()?, item.text()?, over.source()?, body.block()?))
            }
            ("Return", []) => Ok(tree::give(None)),
            ("ReturnExpr", [value]) => Ok(tree::give(Some(value.expression()?))),
            ("ExprStmt", [inner]) => Ok(tree::stmt(inner.expression()?)),
            ("VarDecl", [name]) => Ok(tree::decl(name.text()?, None)),
            ("VarInit", [name, right]) => Ok(tree::set(name.text()?, right.right_side()?)),
            ("FnDecl", [name, params, body]) => {
                let params = params.list()?.into_iter().map(Term::text);
                let params = params.collect::<Result<Vec<u8>, String>>()?;
                Ok(tree::function(name.text()?, &params, body.block()?))
            }
            _ => self.unknown("statement"),
        }
    }

    /// Elifs, then the else statements.
    fn rest(&self) -> Result<(Vec<(Node, Node)>, Vec<Node>), String> {
        match self.parts() {
            ("Else", [other]) => Ok((Vec::new(), other.statements()?)),
            ("Elif", [cond, body, rest]) => {
                let (mut elifs, other) = rest.rest()?;
                elifs.insert(0, (cond.expression()?, body.block()?));
                Ok((elifs, other))
            }
            _ => self.unknown("rest of an If"),
        }
    }

    fn source(&self) -> Result<Node, String> {
        match self.parts() {
            ("OverName", [name]) => Ok(tree::name(name.text()?)),
            ("OverCall", [name, params]) => Ok(tree::call(name.text()?, params.expressions()?)),
            _ => self.unknown("source of a For"),
        }
    }

    fn right_side(&self) -> Result<Node, String> {
        match self.parts() {
            ("Expression", [inner]) => inner.expression(),
            ("Table", [items]) => Ok(tree::table(items.items()?)),
            ("Array", [name, items]) => {
                let items = items.list()?.into_iter().map(Term::literal);
                Ok(tree::array(name.text()?, items.collect::<Result<Vec<Node>, String>>()?))
            }
            ("ArrayAccess", [name, index]) => Ok(tree::access(name.text()?, index.expression()?)),
            _ => self.unknown("right side"),
        }
    }

    fn items(&self) -> Result<Vec<(u8, Node)>, String> {
        match self.parts() {
            ("no_items", []) => Ok(Vec::new()),
            ("more_items", [key, value, rest]) => {
                Ok([vec![(key.text()?, value.expression()?)], rest.items()?].concat())
            }
            _ => self.unknown("items"),
        }
    }

    fn expressions(&self) -> Result<Vec<Node>, String> {
        match self.parts() {
            ("no_exprs", []) => Ok(Vec::new()),
            ("more_exprs", [first, rest]) => {
                Ok([vec![first.expression()?], rest.expressions()?].concat())
            }
            _ => self.unknown("expressions"),
        }
    }

    fn expression(&self) -> Result<Node, String> {
        match self.parts() {
            ("Literal", [literal]) => literal.literal(),
            ("Name", [name]) => Ok(tree::name(name.text()?)),
            ("BinaryExpr", [op, left, right]) => {
                let op = op.operator(&BINARY)?;
                Ok(tree::binary(op, left.expression()?, right.expression()?))
            }
            ("UnaryExpr", [op, inner]) => {
                Ok(tree::unary(op.operator(&UNARY)?, inner.expression()?))
            }
            ("VarAssign", [name, right]) => Ok(tree::assign(name.text()?, right.right_side()?)),
            ("ArrayMut", [name, index, value]) => {
                Ok(tree::mutate(name.text()?, index.expression()?, value.expression()?))
            }
            ("FnCall", [name, params]) => Ok(tree::call(name.text()?, params.expressions()?)),
            _ => self.unknown("expression"),
        }
    }

    fn literal(&self) -> Result<Node, String> {
        match self.parts() {
            ("Val", [pattern]) => Ok(tree::bits(pattern.number()?)),
            ("Text", [text]) => Ok(tree::text(text.text()?)),
            ("Truth", [truth]) if truth.head == "true" => Ok(tree::yes()),
            ("Truth", [truth]) if truth.head == "false" => Ok(tree::no()),
            _ => self.unknown("literal"),
        }
    }

    fn operator(&self, list: &[&str]) -> Result<u8, String> {
        match list.iter().position(|name| *name == self.head) {
            Some(at) => Ok(at as u8 + 1),
            None => self.unknown("operator"),
        }
    }
}

/// The operators by their numbers in a tree file, from 1 on.
const BINARY: [&str; 13] = [
    "Plus", "Minus", "Star", "Slash", "Percent", "EqEq", "LtEq", "Lt", "GtEq", "Gt", "AmpAmp",
    "PipePipe", "BangEq",
];
const UNARY: [&str; 2] = ["Bang", "Negate"];
