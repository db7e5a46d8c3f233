//! The words and signs of a text, line by line.

use super::{as_name, Error, Position};
use crate::decimal;
use crate::script::{FINITE, TEXT_BYTES};

/// A word, sign or value.
#[derive(Clone, Debug, PartialEq, Eq)]
pub(super) enum Token {
    /// A name or a word of the language.
    Word(String),
    /// A name in backquotes.
    Name(String),
    /// A text in double quotes.
    Text(String),
    /// A finite number, by its pattern.
    Number(u64),
    Sign(&'static str),
}

/// A token and where it begins.
#[derive(Clone, Debug)]
pub(super) struct Placed {
    pub(super) token: Token,
    pub(super) at: Position,
}

/// A line of the script; where a bracket is open it goes on with the text's next line.
#[derive(Debug)]
pub(super) struct Line {
    /// The blanks and tabs in front.
    pub(super) indent: String,
    /// Never empty.
    pub(super) tokens: Vec<Placed>,
    /// Behind the last token.
    pub(super) end: Position,
}

const SIGNS: [&str; 23] = [
    "==", "!=", "<=", ">=", "&&", "||", "(", ")", "[", "]", "{", "}", ",", ":", "=", "<", ">", "+",
    "-", "*", "/", "%", "!",
];

/// Cuts a text into its lines.
pub(super) fn lines(text: &str) -> Result<Vec<Line>, Error> {
    let mut lexer = Lexer { lines: Vec::new(), line: None, open: Vec::new() };
    let text = text.strip_prefix('\u{feff}').unwrap_or(text);
    for (number, line) in text.lines().enumerate() {
        lexer.line(number + 1, line)?;
    }
    match lexer.open.last() {
        None => Ok(lexer.lines),
        Some((sign, at)) => Err(Error::new(*at, format!("this `{sign}` is not closed"))),
    }
}

struct Lexer {
    lines: Vec<Line>,
    /// The line that is being read.
    line: Option<Line>,
    /// The brackets that are open.
    open: Vec<(&'static str, Position)>,
}

impl Lexer {
    fn line(&mut self, number: usize, text: &str) -> Result<(), Error> {
        let body = text.trim_start_matches([' ', '\t']);
        let indent = text.get(..text.len() - body.len()).unwrap_or("");
        let mut rest = Rest { text: body, at: Position { line: number, column: 1 } };
        rest.at.column += indent.chars().count();
        while let Some(placed) = rest.next()? {
            self.bracket(&placed)?;
            let line = self.line.get_or_insert_with(|| Line {
                indent: indent.to_string(),
                tokens: Vec::new(),
                end: placed.at,
            });
            line.tokens.push(placed);
            line.end = rest.at;
        }
        if self.open.is_empty() {
            self.lines.extend(self.line.take());
        }
        Ok(())
    }

    /// Keeps the open brackets.
    fn bracket(&mut self, placed: &Placed) -> Result<(), Error> {
        let Token::Sign(sign) = placed.token else {
            return Ok(());
        };
        let wanted = match sign {
            "(" | "[" | "{" => {
                self.open.push((sign, placed.at));
                return Ok(());
            }
            ")" => "(",
            "]" => "[",
            "}" => "{",
            _ => return Ok(()),
        };
        match self.open.pop() {
            Some((open, _)) if open == wanted => Ok(()),
            Some((open, at)) => {
                let words = format!("`{sign}` cannot close the `{open}` at {at}");
                Err(Error::new(placed.at, words))
            }
            None => Err(Error::new(placed.at, format!("`{sign}` without a `{wanted}` before it"))),
        }
    }
}

/// What is left of a line of the text.
struct Rest<'t> {
    text: &'t str,
    at: Position,
}

impl<'t> Rest<'t> {
    /// Takes so many bytes, which are whole characters.
    fn take(&mut self, bytes: usize) -> &'t str {
        let (taken, rest) = self.text.split_at_checked(bytes).unwrap_or((self.text, ""));
        self.text = rest;
        self.at.column += taken.chars().count();
        taken
    }

    /// Takes the characters at the front that are of a sort.
    fn take_while(&mut self, mut is: impl FnMut(char) -> bool) -> &'t str {
        let end = self.text.find(|c| !is(c)).unwrap_or(self.text.len());
        self.take(end)
    }

    /// The next token; none at the line's end or a comment.
    fn next(&mut self) -> Result<Option<Placed>, Error> {
        self.take_while(|c| c == ' ' || c == '\t');
        let at = self.at;
        let Some(first) = self.text.chars().next() else {
            return Ok(None);
        };
        let token = match first {
            '#' => return self.comment(),
            '"' => Token::Text(self.enclosed('"')?),
            '`' => Token::Name(self.enclosed('`')?),
            '0'..='9' => self.number()?,
            c if c.is_ascii_alphabetic() || c == '_' => self.word()?,
            c => self.sign(c)?,
        };
        if let Token::Word(text) | Token::Name(text) | Token::Text(text) = &token {
            if text.len() > TEXT_BYTES {
                let words = format!("{} characters; {TEXT_BYTES} is the most", text.len());
                return Err(Error::new(at, words));
            }
        }
        Ok(Some(Placed { token, at }))
    }

    /// Up to the line's end. Where lines end with a carriage return alone, all would be one comment.
    fn comment(&mut self) -> Result<Option<Placed>, Error> {
        self.take_while(|c| c != '\r');
        match self.text.chars().next() {
            None => Ok(None),
            Some(first) => self.sign(first).map(|_| None),
        }
    }

    fn word(&mut self) -> Result<Token, Error> {
        let at = self.at;
        let word = self.take_while(|c| c.is_ascii_alphanumeric() || c == '_');
        match word {
            "inf" => Err(not_finite(at, word, "1 / 0")),
            "nan" => Err(not_finite(at, word, "0 / 0")),
            _ => Ok(Token::Word(word.to_string())),
        }
    }

    fn number(&mut self) -> Result<Token, Error> {
        let at = self.at;
        let mut before = ' ';
        let text = self.take_while(|c| {
            let signed = matches!(c, '+' | '-') && matches!(before, 'e' | 'E');
            before = c;
            signed || c.is_ascii_alphanumeric() || matches!(c, '.' | '_')
        });
        let number = decimal::read(text).map_err(|e| Error::new(at, e.to_string()))?;
        Ok(Token::Number(number.to_bits()))
    }

    /// What stands in quotes; a backslash stands before a quote or a backslash inside.
    fn enclosed(&mut self, quote: char) -> Result<String, Error> {
        let begin = self.at;
        let mut inside = String::new();
        self.take(1);
        while let Some(c) = self.text.chars().next() {
            let at = self.at;
            self.take(c.len_utf8());
            match c {
                c if c == quote => return Ok(inside),
                '\\' => match self.text.chars().next() {
                    Some(escaped) if escaped == quote || escaped == '\\' => {
                        self.take(1);
                        inside.push(escaped);
                    }
                    _ => {
                        let words = format!("a backslash is written \\\\, a quote \\{quote}");
                        return Err(Error::new(at, words));
                    }
                },
                ' '..='~' => inside.push(c),
                _ => {
                    let words = format!(
                        "{} cannot stand in a text: only letters a to z and A to Z, digits, \
                         blanks and the signs of a plain keyboard can",
                        spelled(c)
                    );
                    return Err(Error::new(at, words));
                }
            }
        }
        Err(Error::new(begin, format!("this {quote} has no second {quote} on its line")))
    }

    fn sign(&mut self, first: char) -> Result<Token, Error> {
        let at = self.at;
        if let Some(sign) = SIGNS.into_iter().find(|sign| self.text.starts_with(sign)) {
            self.take(sign.len());
            return Ok(Token::Sign(sign));
        }
        self.take(first.len_utf8());
        let hint = match first {
            '\'' | '\u{2018}' | '\u{2019}' | '\u{201c}' | '\u{201d}' | '\u{201e}' => {
                ": texts stand in straight double quotes, as in \"text\""
            }
            ';' => ": the end of the line ends a statement",
            '\r' => ": a line ends with a line feed (10), or with 13 and 10",
            '&' => ": \"and\" is written &&",
            '|' => ": \"or\" is written ||",
            '.' if self.text.starts_with(|c: char| c.is_ascii_digit()) => {
                ": a number begins with a digit, as in 0.5"
            }
            c if c.is_alphabetic() => ": names have letters a to z and A to Z, digits and _",
            _ => "",
        };
        Err(Error::new(at, format!("{} has no meaning here{hint}", spelled(first))))
    }
}

/// A word for what is no number of a script; arithmetic gives it.
fn not_finite(at: Position, word: &str, quotient: &str) -> Error {
    Error::new(at, format!("{FINITE}; {quotient} gives {word}; {}", as_name(word)))
}

/// A character for people: in backquotes, a control character by its number.
fn spelled(c: char) -> String {
    if c.is_control() {
        format!("the character {}", u32::from(c))
    } else {
        format!("`{c}`")
    }
}
