//! Statements and blocks.

use super::cursor::{is_sign, Cursor};
use super::lex::{Line, Token};
use super::{Error, Fields, Parser, Parts, Position};
use crate::script::kind::*;
use crate::script::{CHILDREN, DEPTH};

impl<'l> Parser<'l> {
    fn line(&self) -> Option<&'l Line> {
        self.lines.get(self.at)
    }

    /// The statements of the lines that are indented so, up to a line that is indented less.
    pub(super) fn statements(&mut self, indent: &str, depth: usize) -> Result<Vec<Parts>, Error> {
        let mut all = Vec::new();
        while let Some(line) = self.line() {
            if line.indent != indent {
                if indent.starts_with(&line.indent) {
                    break;
                }
                let at = Cursor::new(line).at();
                return Err(Error::new(at, "this line's indentation fits no block around it"));
            }
            self.at += 1;
            all.extend(self.statement(line, depth)?);
        }
        Ok(all)
    }

    /// The indented statements behind a line that ends with a colon.
    fn block_statements(&mut self, header: &Line, depth: usize) -> Result<Vec<Parts>, Error> {
        let missing = || {
            let words = "after this line comes a block, indented further; a block with nothing in \
                         it is the word empty";
            Error::new(header.end, words)
        };
        let first = self.line().ok_or_else(missing)?;
        let deeper = first.indent.len() > header.indent.len();
        if !deeper || !first.indent.starts_with(&header.indent) {
            return Err(missing());
        }
        if depth >= DEPTH {
            return Err(Error::new(header.end, format!("more than {DEPTH} blocks in one another")));
        }
        if !Cursor::new(first).is_word("empty") {
            return self.statements(&first.indent, depth + 1);
        }
        self.at += 1;
        let mut cursor = Cursor::new(first);
        cursor.advance();
        cursor.finish()?;
        match self.line() {
            Some(line) if line.indent.len() >= first.indent.len() => {
                Err(Error::new(Cursor::new(line).at(), "empty has to be alone in its block"))
            }
            _ => Ok(Vec::new()),
        }
    }

    fn block(&mut self, header: &Line, depth: usize) -> Result<Parts, Error> {
        let statements = self.block_statements(header, depth)?;
        self.parent(BLOCK, Fields::Nothing, header.end, statements)
    }

    /// The statement that begins with a line; none for a line of unused texts.
    fn statement(&mut self, line: &'l Line, depth: usize) -> Result<Option<Parts>, Error> {
        let mut cursor = Cursor::new(line);
        let at = cursor.at();
        let word = match cursor.peek() {
            Some(Token::Word(word)) => word.as_str(),
            _ => "",
        };
        let parts = match word {
            "var" => self.variable(&mut cursor, at)?,
            "if" => self.if_statement(line, depth)?,
            "for" => self.for_statement(line, depth)?,
            "fn" => self.function(line, depth)?,
            "return" => self.return_statement(&mut cursor, at)?,
            "block" => {
                cursor.advance();
                cursor.colon()?;
                let statements = self.block_statements(line, depth)?;
                self.parent(BLOCK, Fields::Nothing, at, statements)?
            }
            "unused" => {
                self.unused(&mut cursor, depth)?;
                return Ok(None);
            }
            "elif" | "else" => {
                return Err(cursor.unexpected("it follows an if, indented as the if is"))
            }
            "empty" => return Err(cursor.unexpected("it has to be alone in its block")),
            _ => {
                let expression = self.setting_or_expression(&mut cursor)?;
                cursor.finish()?;
                self.parent(EXPR_STMT, Fields::Nothing, at, vec![expression])?
            }
        };
        Ok(Some(parts))
    }

    fn unused(&mut self, cursor: &mut Cursor, depth: usize) -> Result<(), Error> {
        if depth > 0 {
            return Err(cursor.unexpected("unused texts are not named inside a block"));
        }
        cursor.advance();
        loop {
            let at = cursor.at();
            let Some(Token::Text(text)) = cursor.peek() else {
                return Err(cursor.unexpected("a text in double quotes is missing before it"));
            };
            cursor.advance();
            self.text(text, at)?;
            if !cursor.takes(",") {
                return cursor.finish();
            }
        }
    }

    fn variable(&mut self, cursor: &mut Cursor, at: Position) -> Result<Parts, Error> {
        cursor.advance();
        let name = self.name(cursor, "a name")?;
        let mut children = Vec::new();
        if cursor.takes("=") {
            children.push(self.right(cursor, &name)?);
        } else if cursor.peek().is_some() {
            return Err(cursor.unexpected("after the name comes = or the end of the line"));
        }
        cursor.finish()?;
        self.parent(VAR_DECL, Fields::Text(name), at, children)
    }

    fn return_statement(&mut self, cursor: &mut Cursor, at: Position) -> Result<Parts, Error> {
        cursor.advance();
        let mut children = Vec::new();
        if cursor.peek().is_some() {
            children.push(self.expression(cursor)?);
        }
        cursor.finish()?;
        self.parent(RETURN, Fields::Nothing, at, children)
    }

    /// The condition of a line that begins with `if` or `elif`, and its block.
    fn branch(&mut self, line: &'l Line, depth: usize) -> Result<Vec<Parts>, Error> {
        let mut cursor = Cursor::new(line);
        cursor.advance();
        let condition = self.expression(&mut cursor)?;
        cursor.colon()?;
        Ok(vec![condition, self.block(line, depth)?])
    }

    /// The line that goes on with an If, if it begins with the word.
    fn branch_line(&mut self, first: &Line, word: &str) -> Option<&'l Line> {
        let line = self.line()?;
        let goes_on = line.indent == first.indent && Cursor::new(line).is_word(word);
        goes_on.then(|| {
            self.at += 1;
            line
        })
    }

    fn if_statement(&mut self, first: &'l Line, depth: usize) -> Result<Parts, Error> {
        let at = Cursor::new(first).at();
        let mut children = self.branch(first, depth)?;
        let mut elifs = 0;
        while let Some(line) = self.branch_line(first, "elif") {
            let branch = self.branch(line, depth)?;
            children.push(self.parent(ELIF, Fields::Nothing, Cursor::new(line).at(), branch)?);
            elifs += 1;
        }
        if let Some(line) = self.branch_line(first, "else") {
            let mut cursor = Cursor::new(line);
            cursor.advance();
            cursor.colon()?;
            let statements = self.block_statements(line, depth)?;
            if statements.is_empty() {
                let words = "an else with nothing in it is left out";
                return Err(Error::new(Cursor::new(line).at(), words));
            }
            children.extend(statements);
        }
        // Over 255 Elifs are over 255 children, which are refused.
        self.parent(IF, Fields::Byte(elifs.min(CHILDREN) as u8), at, children)
    }

    fn for_statement(&mut self, line: &'l Line, depth: usize) -> Result<Parts, Error> {
        let mut cursor = Cursor::new(line);
        let at = cursor.at();
        cursor.advance();
        let index = self.name(&mut cursor, "the index's name")?;
        if !cursor.takes(",") {
            return Err(cursor.unexpected("a loop has two names, as in for i, v in cells"));
        }
        let item = self.name(&mut cursor, "the item's name")?;
        if !cursor.is_word("in") {
            return Err(cursor.unexpected("the word in is missing before it"));
        }
        cursor.advance();
        let item_of = cursor.is_name() && cursor.second().is_some_and(|token| is_sign(token, "["));
        if item_of {
            cursor.advance();
        }
        if item_of || !cursor.is_name() {
            return Err(
                cursor.unexpected("a loop goes over a name or a call, as in for i, v in cells")
            );
        }
        let over = self.primary(&mut cursor)?;
        cursor.colon()?;
        let block = self.block(line, depth)?;
        self.parent(FOR, Fields::Texts(index, item), at, vec![over, block])
    }

    fn function(&mut self, line: &'l Line, depth: usize) -> Result<Parts, Error> {
        let mut cursor = Cursor::new(line);
        let at = cursor.at();
        cursor.advance();
        let name = self.name(&mut cursor, "the function's name")?;
        cursor.expect("(")?;
        let mut children = Vec::new();
        while !cursor.takes(")") {
            let at = cursor.at();
            let parameter = self.name(&mut cursor, "a parameter's name or `)`")?;
            children.push(self.part(NAME, Fields::Text(parameter), at)?);
            cursor.separator(")")?;
        }
        cursor.colon()?;
        children.push(self.block(line, depth)?);
        self.parent(FN_DECL, Fields::Text(name), at, children)
    }
}
