//! The nodes of a tree of statements, in preorder.

use super::kind::*;
use super::node::Node;
use super::{Block, Branch, Expression, ExpressionForm, Item, Right, Statement, StatementForm};

/// The nodes of a Program with these statements.
pub(super) fn nodes(statements: &[Statement]) -> Vec<Node> {
    let mut writer = Writer { nodes: Vec::new() };
    writer.push(PROGRAM, statements.len(), &[]);
    writer.statements(statements);
    writer.nodes
}

struct Writer {
    nodes: Vec<Node>,
}

impl Writer {
    fn push(&mut self, kind: u8, count: usize, body: &[u8]) {
        self.nodes.push(Node::new(kind, count, body));
    }

    fn statements(&mut self, statements: &[Statement]) {
        for statement in statements {
            self.statement(statement);
        }
    }

    fn statement(&mut self, statement: &Statement) {
        match &statement.form {
            StatementForm::Block(block) => self.block(block),
            StatementForm::If { first, elifs, otherwise } => {
                let count = 2 + elifs.len() + otherwise.len();
                self.push(IF, count, &[elifs.len() as u8]);
                self.branch(first);
                for elif in elifs {
                    self.push(ELIF, 2, &[]);
                    self.branch(elif);
                }
                self.statements(otherwise);
            }
            StatementForm::For { index, item, over, block } => {
                self.push(FOR, 2, &[*index, *item]);
                self.expression(over);
                self.block(block);
            }
            StatementForm::Return(value) => {
                self.push(RETURN, usize::from(value.is_some()), &[]);
                value.iter().for_each(|value| self.expression(value));
            }
            StatementForm::Expression(expression) => {
                self.push(EXPR_STMT, 1, &[]);
                self.expression(expression);
            }
            StatementForm::Variable { name, value } => {
                self.push(VAR_DECL, usize::from(value.is_some()), &[*name]);
                value.iter().for_each(|value| self.right(value));
            }
            StatementForm::Function { name, parameters, block } => {
                self.push(FN_DECL, parameters.len() + 1, &[*name]);
                parameters.iter().for_each(|parameter| self.push(NAME, 0, &[parameter.name]));
                self.block(block);
            }
        }
    }

    fn block(&mut self, block: &Block) {
        self.push(BLOCK, block.statements.len(), &[]);
        self.statements(&block.statements);
    }

    fn branch(&mut self, branch: &Branch) {
        self.expression(&branch.condition);
        self.block(&branch.block);
    }

    fn right(&mut self, right: &Right) {
        match right {
            Right::Expression(expression) => self.expression(expression),
            Right::Table { items, .. } => {
                self.push(TABLE, items.len(), &[]);
                items.iter().for_each(|item| self.item(item));
            }
            Right::Array { name, items, .. } => {
                self.push(ARRAY, items.len(), &[*name]);
                items.iter().for_each(|item| self.expression(item));
            }
            Right::Access { name, index, .. } => {
                self.push(ARRAY_ACCESS, 1, &[*name]);
                self.expression(index);
            }
        }
    }

    fn item(&mut self, item: &Item) {
        self.push(ITEM, 1, &[item.key]);
        self.expression(&item.value);
    }

    fn expression(&mut self, expression: &Expression) {
        match &expression.form {
            ExpressionForm::Mutate { name, index, value } => {
                self.push(ARRAY_MUT, 2, &[*name]);
                self.expression(index);
                self.expression(value);
            }
            ExpressionForm::Call { name, parameters } => {
                self.push(CALL, parameters.len(), &[*name]);
                parameters.iter().for_each(|parameter| self.expression(parameter));
            }
            ExpressionForm::Assign { name, value } => {
                self.push(ASSIGN, 1, &[*name]);
                self.right(value);
            }
            ExpressionForm::Binary(operator, left, right) => {
                self.push(BINARY, 2, &[operator.number()]);
                self.expression(left);
                self.expression(right);
            }
            ExpressionForm::Unary(operator, operand) => {
                self.push(UNARY, 1, &[operator.number()]);
                self.expression(operand);
            }
            ExpressionForm::Number(bits) => self.push(NUM, 0, &bits.to_be_bytes()),
            ExpressionForm::Text(text) => self.push(TEXT, 0, &[*text]),
            ExpressionForm::Name(name) => self.push(NAME, 0, &[*name]),
            ExpressionForm::True => self.push(TRUE, 0, &[]),
            ExpressionForm::False => self.push(FALSE, 0, &[]),
        }
    }
}
