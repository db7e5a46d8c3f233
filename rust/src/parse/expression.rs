//! Expressions and right sides.

use super::cursor::{is_sign, Cursor, ITEM_READ};
use super::lex::Token;
use super::{Error, Fields, Parser, Parts, Position};
use crate::script::kind::*;
use crate::script::Unary;

/// How many parentheses, signs and brackets may stand in one another.
const NESTING: usize = 100;

const NOT_INSIDE: &str = "arrays and tables stand only behind the = of a name";

const ITEMS: &str = "the items of an array are numbers, texts, true and false";

impl Parser<'_> {
    /// A name or an item that is set, or an expression: a statement, or what stands in parentheses.
    pub(super) fn setting_or_expression(&mut self, cursor: &mut Cursor) -> Result<Parts, Error> {
        let at = cursor.at();
        let named = cursor.is_name();
        if named && cursor.second().is_some_and(|token| is_sign(token, "=")) {
            let name = self.name(cursor, "a name")?;
            cursor.expect("=")?;
            let right = self.right(cursor, &name)?;
            return self.parent(ASSIGN, Fields::Text(name), at, vec![right]);
        }
        if named && cursor.second().is_some_and(|token| is_sign(token, "[")) {
            let name = self.name(cursor, "a name")?;
            let index = self.index(cursor)?;
            if !cursor.is("=") {
                let words = "an item is given to a name, as in x = cells[2], or set, as in \
                             cells[2] = 1";
                return Err(Error::new(at, words));
            }
            cursor.expect("=")?;
            let value = self.expression(cursor)?;
            return self.parent(ARRAY_MUT, Fields::Text(name), at, vec![index, value]);
        }
        self.expression(cursor)
    }

    pub(super) fn expression(&mut self, cursor: &mut Cursor) -> Result<Parts, Error> {
        self.binary(cursor, 1)
    }

    /// Operators of at least a strength; those of one strength go from the left to the right.
    fn binary(&mut self, cursor: &mut Cursor, strength: u8) -> Result<Parts, Error> {
        let mut left = self.unary(cursor)?;
        while let Some(operator) = cursor.operator().filter(|o| o.strength() >= strength) {
            let at = cursor.at();
            cursor.advance();
            let right = self.binary(cursor, operator.strength() + 1)?;
            left = self.parent(BINARY, Fields::Byte(operator.number()), at, vec![left, right])?;
        }
        Ok(left)
    }

    fn negative_number(&mut self, cursor: &mut Cursor, pattern: u64) -> Result<Parts, Error> {
        let at = cursor.at();
        cursor.advance();
        cursor.advance();
        self.part(NUM, Fields::Number(pattern), at)
    }

    fn unary(&mut self, cursor: &mut Cursor) -> Result<Parts, Error> {
        if let Some(pattern) = cursor.negative() {
            return self.negative_number(cursor, pattern);
        }
        let operator = match cursor.peek() {
            Some(Token::Sign("!")) => Unary::Bang,
            Some(Token::Sign("-")) => Unary::Minus,
            _ => return self.primary(cursor),
        };
        let at = cursor.at();
        cursor.advance();
        let operand = self.nested(at, |parser| parser.unary(cursor))?;
        self.parent(UNARY, Fields::Byte(operator.number()), at, vec![operand])
    }

    /// Reads something that stands inside another expression.
    fn nested<T>(
        &mut self,
        at: Position,
        read: impl FnOnce(&mut Self) -> Result<T, Error>,
    ) -> Result<T, Error> {
        if self.nesting == NESTING {
            return Err(Error::new(at, format!("more than {NESTING} brackets in one another")));
        }
        self.nesting += 1;
        let read = read(self);
        self.nesting -= 1;
        read
    }

    pub(super) fn primary(&mut self, cursor: &mut Cursor) -> Result<Parts, Error> {
        let at = cursor.at();
        match cursor.peek() {
            Some(Token::Number(pattern)) => {
                cursor.advance();
                self.part(NUM, Fields::Number(*pattern), at)
            }
            Some(Token::Text(text)) => {
                cursor.advance();
                let text = self.text(text, at)?;
                self.part(TEXT, Fields::Text(text), at)
            }
            Some(Token::Word(word)) if word == "true" || word == "false" => {
                cursor.advance();
                self.part(if word == "true" { TRUE } else { FALSE }, Fields::Nothing, at)
            }
            Some(Token::Sign("(")) => {
                cursor.advance();
                let inside = self.nested(at, |parser| parser.setting_or_expression(cursor))?;
                cursor.expect(")")?;
                Ok(inside)
            }
            Some(Token::Sign("[" | "{")) => Err(cursor.unexpected(NOT_INSIDE)),
            _ => {
                let name = self.name(cursor, "a value")?;
                if cursor.takes("(") {
                    return self.nested(at, |parser| parser.call(cursor, name, at));
                }
                if cursor.is("[") {
                    return Err(cursor.unexpected(ITEM_READ));
                }
                self.part(NAME, Fields::Text(name), at)
            }
        }
    }

    /// The parameters of a call, behind its opening parenthesis.
    fn call(&mut self, cursor: &mut Cursor, name: String, at: Position) -> Result<Parts, Error> {
        let mut parameters = Vec::new();
        while !cursor.takes(")") {
            parameters.push(self.expression(cursor)?);
            cursor.separator(")")?;
        }
        self.parent(CALL, Fields::Text(name), at, parameters)
    }

    /// What stands behind `name =`.
    pub(super) fn right(&mut self, cursor: &mut Cursor, name: &str) -> Result<Parts, Error> {
        let at = cursor.at();
        if cursor.takes("[") {
            return self.array(cursor, name, at);
        }
        if cursor.takes("{") {
            return self.table(cursor, at);
        }
        let access = cursor.is_name() && cursor.second().is_some_and(|t| is_sign(t, "["));
        if !access {
            return self.expression(cursor);
        }
        let array = self.name(cursor, "an array's name")?;
        let index = self.index(cursor)?;
        if cursor.is("=") {
            let why = "inside an expression an item is set in parentheses, as in x = (a[0] = 1)";
            return Err(cursor.unexpected(why));
        }
        if cursor.operator().is_some() {
            return Err(cursor.unexpected(ITEM_READ));
        }
        self.parent(ARRAY_ACCESS, Fields::Text(array), at, vec![index])
    }

    fn array(&mut self, cursor: &mut Cursor, name: &str, at: Position) -> Result<Parts, Error> {
        let mut items = Vec::new();
        while !cursor.takes("]") {
            items.push(self.array_item(cursor)?);
            if cursor.operator().is_some() {
                let why = format!("{ITEMS}; others are set afterwards, as in cells[1] = 1 / 0");
                return Err(cursor.unexpected(&why));
            }
            cursor.separator("]")?;
        }
        let own = if cursor.is_word("as") {
            cursor.advance();
            self.name(cursor, "the array's own name")?
        } else {
            name.to_string()
        };
        self.parent(ARRAY, Fields::Text(own), at, items)
    }

    fn array_item(&mut self, cursor: &mut Cursor) -> Result<Parts, Error> {
        if let Some(pattern) = cursor.negative() {
            return self.negative_number(cursor, pattern);
        }
        let value = match cursor.peek() {
            Some(Token::Number(_) | Token::Text(_)) => true,
            Some(Token::Word(word)) => word == "true" || word == "false",
            _ => false,
        };
        if !value {
            return Err(cursor.unexpected(ITEMS));
        }
        self.primary(cursor)
    }

    fn table(&mut self, cursor: &mut Cursor, at: Position) -> Result<Parts, Error> {
        let mut items = Vec::new();
        while !cursor.takes("}") {
            let at = cursor.at();
            let key = match cursor.peek() {
                Some(Token::Text(key)) => {
                    cursor.advance();
                    self.text(key, at)?
                }
                _ => self.name(cursor, "a key or `}`")?,
            };
            cursor.expect(":")?;
            let value = self.expression(cursor)?;
            items.push(self.parent(ITEM, Fields::Text(key), at, vec![value])?);
            cursor.separator("}")?;
        }
        self.parent(TABLE, Fields::Nothing, at, items)
    }

    /// `[`, an index, `]`.
    fn index(&mut self, cursor: &mut Cursor) -> Result<Parts, Error> {
        cursor.expect("[")?;
        let index = self.expression(cursor)?;
        cursor.expect("]")?;
        Ok(index)
    }
}
