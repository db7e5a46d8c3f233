//! The tokens of a line, one after the other, and what is said of one that cannot stand where it is.

use super::lex::{Line, Placed, Token};
use super::{Error, Position};
use crate::decimal;
use crate::script::Binary;
use crate::show::RESERVED;

/// What is said where an item is read inside an expression.
pub(super) const ITEM_READ: &str =
    "an item is first given to a name, as in x = cells[2]; the expression then takes x";

/// The tokens of a line, one after the other.
pub(super) struct Cursor<'l> {
    tokens: &'l [Placed],
    /// The token that was taken last.
    before: Option<&'l Token>,
    end: Position,
}

impl<'l> Cursor<'l> {
    pub(super) fn new(line: &'l Line) -> Cursor<'l> {
        Cursor { tokens: &line.tokens, before: None, end: line.end }
    }

    /// Where the next token begins, or the line ends.
    pub(super) fn at(&self) -> Position {
        self.tokens.first().map_or(self.end, |placed| placed.at)
    }

    pub(super) fn peek(&self) -> Option<&'l Token> {
        self.tokens.first().map(|placed| &placed.token)
    }

    pub(super) fn second(&self) -> Option<&'l Token> {
        self.tokens.get(1).map(|placed| &placed.token)
    }

    pub(super) fn advance(&mut self) {
        self.before = self.peek();
        self.tokens = self.tokens.get(1..).unwrap_or(&[]);
    }

    pub(super) fn is(&self, sign: &str) -> bool {
        self.peek().is_some_and(|token| is_sign(token, sign))
    }

    pub(super) fn is_word(&self, word: &str) -> bool {
        matches!(self.peek(), Some(Token::Word(w)) if w == word)
    }

    /// Takes a sign if it is the next token.
    pub(super) fn takes(&mut self, sign: &str) -> bool {
        let is = self.is(sign);
        if is {
            self.advance();
        }
        is
    }

    /// Takes a sign that has to be the next token.
    pub(super) fn expect(&mut self, sign: &str) -> Result<(), Error> {
        if self.takes(sign) {
            return Ok(());
        }
        Err(self.unexpected(&format!("`{sign}` is missing before it")))
    }

    /// The next token cannot stand here.
    pub(super) fn unexpected(&self, why: &str) -> Error {
        let why = self.hint().unwrap_or(why);
        match self.peek() {
            Some(token) => {
                Error::new(self.at(), format!("`{}` cannot stand here: {why}", spelled(token)))
            }
            None => {
                let why = why.strip_suffix(" before it").unwrap_or(why);
                Error::new(self.end, format!("the line ends too early: {why}"))
            }
        }
    }

    /// How a thing is written that other languages, or people, write as it stands here.
    fn hint(&self) -> Option<&'static str> {
        let word = |token: Option<&'l Token>| match token {
            Some(Token::Word(word)) => word.as_str(),
            _ => "",
        };
        let sign = |token: Option<&'l Token>| match token {
            Some(Token::Sign(sign)) => *sign,
            _ => "",
        };
        match (word(self.before), word(self.peek())) {
            (_, "and") => return Some("\"and\" is written &&"),
            (_, "or") => return Some("\"or\" is written ||"),
            ("not", _) => return Some("\"not\" is written !"),
            ("else", "if") => return Some("\"else if\" is written elif"),
            ("while", _) => return Some("a loop goes over an array, as in for i, v in cells"),
            _ => {}
        }
        match (sign(self.before), sign(self.peek())) {
            ("+" | "-" | "*" | "/" | "%", "=") => Some("x += 1 is written x = x + 1"),
            (_, ",") if matches!(self.before, Some(Token::Number(_))) => {
                Some("a number has a point before its fraction, as in 1.5")
            }
            _ => None,
        }
    }

    /// The line has to end here.
    pub(super) fn finish(&self) -> Result<(), Error> {
        match self.peek() {
            None => Ok(()),
            Some(token) if is_sign(token, "=") => Err(self.unexpected(
                "only a name or an item is set; inside an expression that stands in parentheses, \
                 as in x = (y = 1)",
            )),
            Some(token) if is_sign(token, "[") => Err(self.unexpected(ITEM_READ)),
            Some(_) => {
                Err(self.unexpected("the statement ends before it; the next has its own line"))
            }
        }
    }

    /// Whether the next token is a name.
    pub(super) fn is_name(&self) -> bool {
        match self.peek() {
            Some(Token::Word(word)) => !RESERVED.contains(&word.as_str()),
            Some(Token::Name(_)) => true,
            _ => false,
        }
    }

    /// The operator between two expressions that comes next.
    pub(super) fn operator(&self) -> Option<Binary> {
        match self.peek() {
            Some(Token::Sign(sign)) => Binary::ALL.into_iter().find(|o| o.sign() == *sign),
            _ => None,
        }
    }

    /// A minus sign with the number that it belongs to: the number's pattern.
    pub(super) fn negative(&self) -> Option<u64> {
        match self.second() {
            Some(Token::Number(pattern)) if self.is("-") => {
                Some((-f64::from_bits(*pattern)).to_bits())
            }
            _ => None,
        }
    }

    /// The colon that ends a line before a block.
    pub(super) fn colon(&mut self) -> Result<(), Error> {
        if self.is("=") {
            return Err(self.unexpected("to compare, write =="));
        }
        if self.is("[") {
            return Err(self.unexpected(ITEM_READ));
        }
        self.expect(":")?;
        match self.peek() {
            None => Ok(()),
            Some(_) => Err(self.unexpected("a block begins on the next line, indented")),
        }
    }

    /// Behind an item of a list: a comma, or its end, which is left where it is.
    pub(super) fn separator(&mut self, close: &str) -> Result<(), Error> {
        if self.takes(",") || self.is(close) {
            return Ok(());
        }
        Err(self.unexpected(&format!("a comma or `{close}` is missing before it")))
    }
}

pub(super) fn is_sign(token: &Token, wanted: &str) -> bool {
    matches!(token, Token::Sign(sign) if *sign == wanted)
}

/// A token as it is written.
fn spelled(token: &Token) -> String {
    match token {
        Token::Word(word) => word.clone(),
        Token::Name(name) => crate::show::name(name),
        Token::Text(text) => crate::show::quoted(text),
        Token::Number(pattern) => decimal::write(f64::from_bits(*pattern)),
        Token::Sign(sign) => sign.to_string(),
    }
}
