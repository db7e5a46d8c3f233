//! The structure of the nodes, number 4: document 01, "Numbers given for the input" and the table of
//! "The tree file", column "Children".

use super::fault::Fault;
use super::kind::{self, *};
use super::node::Node;
use super::{
    Binary, Block, Branch, Expression, ExpressionForm, Item, Parameter, Right, Statement,
    StatementForm, Unary, ARRAY_ITEMS, DEPTH, LOOPS, TABLE_ITEMS,
};

/// The Program's statements, or the first fault.
pub(super) fn read(nodes: &[Node], texts: &[String]) -> Result<Vec<Statement>, Fault> {
    let mut reader = Reader { nodes, texts, at: 0 };
    let above = Above { depth: 0, loops: 0, function: false };
    let (_, program, here) = reader.next(above, "the Program", |kind| kind == PROGRAM)?;
    let statements = reader.statements(program.count, here)?;
    if reader.at < nodes.len() {
        let left = nodes.len() - reader.at;
        let words = format!("the Program ends before this node: {left} nodes are left over");
        return Err(reader.fault(words, reader.at));
    }
    Ok(statements)
}

/// The kind of each node's parent; 0 for the Program's. The structure has been checked.
pub(super) fn parents(nodes: &[Node]) -> Vec<u8> {
    let mut open: Vec<(u8, usize)> = Vec::new();
    let mut parents = Vec::new();
    for node in nodes {
        while open.last().is_some_and(|(_, left)| *left == 0) {
            open.pop();
        }
        parents.push(open.last().map_or(0, |(kind, _)| *kind));
        if let Some((_, left)) = open.last_mut() {
            *left -= 1;
        }
        open.push((node.kind, node.count));
    }
    parents
}

/// What lies above a node.
#[derive(Clone, Copy)]
struct Above {
    depth: usize,
    loops: usize,
    function: bool,
}

/// Takes the nodes one after the other.
struct Reader<'n> {
    nodes: &'n [Node],
    texts: &'n [String],
    at: usize,
}

impl Reader<'_> {
    fn fault(&self, words: impl Into<String>, number: usize) -> Fault {
        Fault::new(4, words).at_node(self.nodes, number)
    }

    /// The next node, which has to be one that may stand here: its number, itself, and what its
    /// children have above them.
    fn next(
        &mut self,
        above: Above,
        wanted: &str,
        may_stand: fn(u8) -> bool,
    ) -> Result<(usize, Node, Above), Fault> {
        let number = self.at;
        let Some(node) = self.nodes.get(number).copied() else {
            let words = format!("the nodes end where {wanted} has to follow");
            return Err(self.fault(words, number.saturating_sub(1)));
        };
        self.at += 1;
        let name = kind::name(node.kind);
        if !may_stand(node.kind) {
            return Err(self.fault(format!("{name} where {wanted} has to stand"), number));
        }
        let here = Above {
            depth: above.depth + 1,
            loops: above.loops + usize::from(node.kind == FOR),
            function: above.function || node.kind == FN_DECL,
        };
        if here.depth > DEPTH {
            return Err(self.fault(format!("depth {}; {DEPTH} is the most", here.depth), number));
        }
        if here.loops > LOOPS {
            return Err(self.fault(format!("more than {LOOPS} loops in one another"), number));
        }
        if node.kind == FN_DECL && above.function {
            return Err(self.fault("a function inside a function", number));
        }
        Ok((number, node, here))
    }

    /// A child count that has to be within a range.
    fn check_count(
        &self,
        number: usize,
        node: Node,
        allowed: std::ops::RangeInclusive<usize>,
    ) -> Result<(), Fault> {
        if allowed.contains(&node.count) {
            return Ok(());
        }
        let name = kind::name(node.kind);
        let allowed = match (*allowed.start(), *allowed.end()) {
            (0, 0) => "it has none".to_string(),
            (low, usize::MAX) => format!("it has at least {low}"),
            (low, high) if low == high => format!("it has {low}"),
            (0, 1) => "it has none or 1".to_string(),
            (_, high) => format!("it has at most {high}"),
        };
        let children = match (node.kind, node.count) {
            (TABLE | ARRAY, _) => "items",
            (_, 1) => "child",
            _ => "children",
        };
        Err(self.fault(format!("{name} with {} {children}; {allowed}", node.count), number))
    }

    fn statements(&mut self, count: usize, above: Above) -> Result<Vec<Statement>, Fault> {
        (0..count).map(|_| self.statement(above)).collect()
    }

    fn statement(&mut self, above: Above) -> Result<Statement, Fault> {
        let (number, node, here) = self.next(above, "a statement", kind::is_statement)?;
        let form = match node.kind {
            BLOCK => StatementForm::Block(self.block_of(number, node, here)?),
            IF => self.if_statement(number, node, here)?,
            FOR => self.for_statement(number, node, here)?,
            RETURN => {
                self.check_count(number, node, 0..=1)?;
                let value = (node.count == 1).then(|| self.expression(here)).transpose()?;
                StatementForm::Return(value)
            }
            EXPR_STMT => {
                self.check_count(number, node, 1..=1)?;
                StatementForm::Expression(self.expression(here)?)
            }
            VAR_DECL => {
                self.check_count(number, node, 0..=1)?;
                let value = (node.count == 1).then(|| self.right(here)).transpose()?;
                StatementForm::Variable { name: node.first(), value }
            }
            _ => self.function(number, node, here)?,
        };
        Ok(Statement { node: number, form })
    }

    fn block_of(&mut self, number: usize, node: Node, here: Above) -> Result<Block, Fault> {
        Ok(Block { node: number, statements: self.statements(node.count, here)? })
    }

    fn block(&mut self, above: Above) -> Result<Block, Fault> {
        let (number, node, here) = self.next(above, "a Block", |kind| kind == BLOCK)?;
        self.block_of(number, node, here)
    }

    fn branch(&mut self, node: usize, here: Above) -> Result<Branch, Fault> {
        Ok(Branch { node, condition: self.expression(here)?, block: self.block(here)? })
    }

    /// "condition, Block, Elifs, else statements"; the body is the Elif count.
    fn if_statement(
        &mut self,
        number: usize,
        node: Node,
        here: Above,
    ) -> Result<StatementForm, Fault> {
        let elif_count = usize::from(node.first());
        let Some(others) = node.count.checked_sub(2 + elif_count) else {
            let words = format!(
                "If with {} children; with {elif_count} Elifs it has at least {}",
                node.count,
                2 + elif_count
            );
            return Err(self.fault(words, number));
        };
        let first = self.branch(number, here)?;
        let elifs = (0..elif_count).map(|_| self.elif(here)).collect::<Result<_, _>>()?;
        let otherwise = self.statements(others, here)?;
        Ok(StatementForm::If { first, elifs, otherwise })
    }

    fn elif(&mut self, above: Above) -> Result<Branch, Fault> {
        let (number, node, here) = self.next(above, "an Elif", |kind| kind == ELIF)?;
        self.check_count(number, node, 2..=2)?;
        self.branch(number, here)
    }

    fn for_statement(
        &mut self,
        number: usize,
        node: Node,
        here: Above,
    ) -> Result<StatementForm, Fault> {
        self.check_count(number, node, 2..=2)?;
        let over = self.expression_of(here, "a Name or a Call", |k| matches!(k, NAME | CALL))?;
        let block = self.block(here)?;
        Ok(StatementForm::For { index: node.first(), item: node.second(), over, block })
    }

    fn function(&mut self, number: usize, node: Node, here: Above) -> Result<StatementForm, Fault> {
        self.check_count(number, node, 1..=usize::MAX)?;
        let parameters = (1..node.count).map(|_| self.parameter(here)).collect::<Result<_, _>>()?;
        let block = self.block(here)?;
        Ok(StatementForm::Function { name: node.first(), parameters, block })
    }

    fn parameter(&mut self, above: Above) -> Result<Parameter, Fault> {
        let (number, node, _) = self.next(above, "a Name", |kind| kind == NAME)?;
        self.check_count(number, node, 0..=0)?;
        Ok(Parameter { node: number, name: node.first() })
    }

    fn right(&mut self, above: Above) -> Result<Right, Fault> {
        let (number, node, here) = self.next(above, "a right side", kind::is_right_side)?;
        match node.kind {
            TABLE => self.table(number, node, here),
            ARRAY => {
                self.check_count(number, node, 0..=ARRAY_ITEMS)?;
                let items = (0..node.count).map(|_| self.array_item(here));
                let items = items.collect::<Result<_, _>>()?;
                Ok(Right::Array { node: number, name: node.first(), items })
            }
            ARRAY_ACCESS => {
                self.check_count(number, node, 1..=1)?;
                let index = self.expression(here)?;
                Ok(Right::Access { node: number, name: node.first(), index })
            }
            _ => self.form(number, node, here).map(Right::Expression),
        }
    }

    fn array_item(&mut self, above: Above) -> Result<Expression, Fault> {
        let may_stand = |kind| matches!(kind, NUM | TEXT | TRUE | FALSE);
        self.expression_of(above, "a Num, Text, True or False", may_stand)
    }

    fn table(&mut self, number: usize, node: Node, here: Above) -> Result<Right, Fault> {
        self.check_count(number, node, 0..=TABLE_ITEMS)?;
        let mut items: Vec<Item> = Vec::new();
        for _ in 0..node.count {
            let item = self.item(here)?;
            if items.iter().any(|before| before.key == item.key) {
                let key = usize::from(item.key);
                let text = self.texts.get(key).map_or("", String::as_str);
                let fault = self.fault(format!("key \"{text}\" twice in one table"), item.node);
                return Err(fault.at_text(key, text.as_bytes()));
            }
            items.push(item);
        }
        Ok(Right::Table { node: number, items })
    }

    fn item(&mut self, above: Above) -> Result<Item, Fault> {
        let (number, node, here) = self.next(above, "an Item", |kind| kind == ITEM)?;
        self.check_count(number, node, 1..=1)?;
        Ok(Item { node: number, key: node.first(), value: self.expression(here)? })
    }

    fn expression(&mut self, above: Above) -> Result<Expression, Fault> {
        self.expression_of(above, "an expression", kind::is_expression)
    }

    fn expression_of(
        &mut self,
        above: Above,
        wanted: &str,
        may_stand: fn(u8) -> bool,
    ) -> Result<Expression, Fault> {
        let (number, node, here) = self.next(above, wanted, may_stand)?;
        self.form(number, node, here)
    }

    fn boxed(&mut self, above: Above) -> Result<Box<Expression>, Fault> {
        self.expression(above).map(Box::new)
    }

    /// An expression whose node has been taken.
    fn form(&mut self, number: usize, node: Node, here: Above) -> Result<Expression, Fault> {
        let name = node.first();
        let form = match node.kind {
            ARRAY_MUT => {
                self.check_count(number, node, 2..=2)?;
                let (index, value) = (self.boxed(here)?, self.boxed(here)?);
                ExpressionForm::Mutate { name, index, value }
            }
            CALL => {
                let parameters = (0..node.count).map(|_| self.expression(here));
                ExpressionForm::Call { name, parameters: parameters.collect::<Result<_, _>>()? }
            }
            ASSIGN => {
                self.check_count(number, node, 1..=1)?;
                ExpressionForm::Assign { name, value: Box::new(self.right(here)?) }
            }
            BINARY => {
                self.check_count(number, node, 2..=2)?;
                let operator = Binary::from_number(name)
                    .ok_or_else(|| self.fault("unknown operator", number))?;
                ExpressionForm::Binary(operator, self.boxed(here)?, self.boxed(here)?)
            }
            UNARY => {
                self.check_count(number, node, 1..=1)?;
                let operator = Unary::from_number(name)
                    .ok_or_else(|| self.fault("unknown operator", number))?;
                ExpressionForm::Unary(operator, self.boxed(here)?)
            }
            leaf => {
                self.check_count(number, node, 0..=0)?;
                match leaf {
                    NUM => ExpressionForm::Number(node.binary64()),
                    TEXT => ExpressionForm::Text(name),
                    NAME => ExpressionForm::Name(name),
                    TRUE => ExpressionForm::True,
                    _ => ExpressionForm::False,
                }
            }
        };
        Ok(Expression { node: number, form })
    }
}
