//! Where a script is refused with 6 or 7, and from which node an instruction comes.
//!
//! The lowering takes registers and pushes instructions node by node. Here the same is counted,
//! without making the instructions; the order is that of the original's `compiler.rs`, `stmt.rs` and
//! `array.rs`, named at each function, with document 02's M-100 where an item is read. The engine
//! remains the judge of whether a file is accepted; the tests hold this count to it.
//!
//! ```
//! use sif::{parse, place::Lowering};
//! let script = parse::parse("var x = !(y = 1)\n").unwrap().script;
//! let refused = Lowering::of(&script).refused.unwrap();
//! assert_eq!(refused.number, 6);
//! assert_eq!(script.path(refused.node), "Program > statement 1 (VarDecl) > Unary > Assign");
//! ```

use crate::script::{
    Block, Branch, Expression, ExpressionForm, Right, Script, Statement, StatementForm,
};

/// The most registers of a program.
pub const REGISTERS: usize = 96;
/// The most instructions of a program.
pub const INSTRUCTIONS: usize = 1024;

/// What the lowering of a script takes, as far as it goes.
#[derive(Clone, Debug, PartialEq, Eq)]
pub struct Lowering {
    /// Where it is refused.
    pub refused: Option<Refused>,
    /// The registers taken.
    pub registers: usize,
    /// How many of the origins are of functions; they come first in the program.
    pub code_start: usize,
    /// Where each instruction comes from, in the program's order.
    pub origins: Vec<Origin>,
}

/// Where the lowering refuses a script.
#[derive(Clone, Copy, Debug, PartialEq, Eq)]
pub struct Refused {
    /// 6 or 7.
    pub number: u8,
    /// What is missing.
    pub lack: Lack,
    /// The node at which it is missing.
    pub node: usize,
}

/// What a refused lowering lacks.
#[derive(Clone, Copy, Debug, PartialEq, Eq)]
pub enum Lack {
    /// 6: the operand leaves no register, and none is taken before it.
    Operand,
    /// 7: a 97th register.
    Register,
    /// 7: a 1,025th instruction.
    Instruction,
}

impl Lack {
    /// What is missing, for people.
    pub fn words(self) -> &'static str {
        match self {
            Lack::Operand => "this operand leaves no value, and nothing was computed before it",
            Lack::Register => "the script takes more than 96 registers; the 97th is taken here",
            Lack::Instruction => {
                "the script takes more than 1,024 instructions; the 1,025th is needed here"
            }
        }
    }
}

/// Where an instruction comes from.
#[derive(Clone, Copy, Debug, PartialEq, Eq)]
pub struct Origin {
    /// The node.
    pub node: usize,
    /// How many loops go over the instruction.
    pub loops: u32,
}

impl Lowering {
    /// Counts what the lowering of a script takes.
    pub fn of(script: &Script) -> Lowering {
        let mut counter = Counter::default();
        let refused = counter.statements(script.statements(), 0).err();
        let code_start = counter.functions.len();
        let mut origins = counter.functions;
        origins.append(&mut counter.code);
        Lowering { refused, registers: counter.registers, code_start, origins }
    }

    /// The node that an instruction comes from.
    pub fn node(&self, instruction: usize) -> Option<usize> {
        self.origins.get(instruction).map(|origin| origin.node)
    }
}

/// Demand 3's bound, for a plain script: over all instructions, the sum of L to the power of the
/// loops around each, L the longest array or 1. "A loop's first Stc and its Ldas stand outside that
/// loop, its Ldn to its JmpCnd inside."
///
/// ```
/// use sif::{parse, place};
/// let text = "var a = [1, 2, 3]\nfor i, v in a:\n    s = v\n";
/// let script = parse::parse(text).unwrap().script;
/// assert_eq!(place::bound(&script), Some(27));
/// ```
pub fn bound(script: &Script) -> Option<u64> {
    if !script.is_plain() {
        return None;
    }
    let longest = script.longest_array();
    let times = |origin: &Origin| longest.saturating_pow(origin.loops);
    Some(Lowering::of(script).origins.iter().map(times).fold(0, u64::saturating_add))
}

type Counted = Result<(), Refused>;

#[derive(Default)]
struct Counter {
    registers: usize,
    functions: Vec<Origin>,
    code: Vec<Origin>,
    in_function: bool,
    loops: u32,
}

impl Counter {
    /// `push_op`: an instruction of the node.
    fn push(&mut self, node: usize) -> Counted {
        if self.functions.len() + self.code.len() == INSTRUCTIONS {
            return Err(Refused { number: 7, lack: Lack::Instruction, node });
        }
        let origin = Origin { node, loops: self.loops };
        if self.in_function {
            self.functions.push(origin);
        } else {
            self.code.push(origin);
        }
        Ok(())
    }

    /// `nextreg`: a register for the node.
    fn register(&mut self, node: usize) -> Counted {
        if self.registers == REGISTERS {
            return Err(Refused { number: 7, lack: Lack::Register, node });
        }
        self.registers += 1;
        Ok(())
    }

    /// A register, then the instruction that fills it.
    fn load(&mut self, node: usize) -> Counted {
        self.register(node)?;
        self.push(node)
    }

    /// `self.ri - 1`: the operand's register, which has to be there.
    fn operand_register(&self, node: usize) -> Counted {
        match self.registers {
            0 => Err(Refused { number: 6, lack: Lack::Operand, node }),
            _ => Ok(()),
        }
    }

    /// `blocks`: no statements are one Nop.
    fn statements(&mut self, statements: &[Statement], node: usize) -> Counted {
        if statements.is_empty() {
            return self.push(node);
        }
        statements.iter().try_for_each(|statement| self.statement(statement))
    }

    fn block(&mut self, block: &Block) -> Counted {
        self.statements(&block.statements, block.node)
    }

    /// `block`.
    fn statement(&mut self, statement: &Statement) -> Counted {
        let node = statement.node;
        match &statement.form {
            StatementForm::Block(block) => self.block(block),
            StatementForm::If { first, elifs, otherwise } => {
                self.branch(first)?;
                elifs.iter().try_for_each(|elif| self.branch(elif))?;
                otherwise.iter().try_for_each(|statement| self.statement(statement))?;
                self.push(node)
            }
            StatementForm::For { over, block, .. } => self.for_statement(node, over, block),
            StatementForm::Return(None) => self.push(node),
            StatementForm::Return(Some(value)) => {
                self.expression(value)?;
                self.push(node)?;
                self.push(node)
            }
            StatementForm::Expression(expression) => self.expression(expression),
            StatementForm::Variable { value: None, .. } => self.push(node),
            StatementForm::Variable { value: Some(value), .. } => self.assign(node, value),
            StatementForm::Function { parameters, block, .. } => {
                self.in_function = true;
                parameters.iter().try_for_each(|parameter| self.register(parameter.node))?;
                self.push(node)?;
                for parameter in parameters {
                    self.push(parameter.node)?;
                    self.push(parameter.node)?;
                }
                self.block(block)?;
                self.in_function = false;
                Ok(())
            }
        }
    }

    /// `ifstmt`, `elif`: condition, jump, statements, jump out.
    fn branch(&mut self, branch: &Branch) -> Counted {
        self.expression(&branch.condition)?;
        self.push(branch.node)?;
        self.block(&branch.block)?;
        self.push(branch.node)
    }

    /// `forstmt`.
    fn for_statement(&mut self, node: usize, over: &Expression, block: &Block) -> Counted {
        self.register(node)?;
        if let ExpressionForm::Call { .. } = over.form {
            self.expression(over)?;
            self.push(node)?;
        }
        self.push(node)?;
        self.load(node)?;
        self.loops += 1;
        self.push(node)?;
        self.load(node)?;
        self.push(node)?;
        self.block(block)?;
        self.push(node)?;
        self.push(node)?;
        self.load(node)?;
        self.push(node)?;
        self.loops -= 1;
        Ok(())
    }

    /// `assign`: the right side of a VarDecl or an Assign, whose node stores.
    fn assign(&mut self, node: usize, right: &Right) -> Counted {
        match right {
            Right::Expression(expression) => match expression.form {
                ExpressionForm::Number(_)
                | ExpressionForm::Text(_)
                | ExpressionForm::Name(_)
                | ExpressionForm::True
                | ExpressionForm::False => self.push(node),
                _ => {
                    self.expression(expression)?;
                    self.push(node)
                }
            },
            Right::Table { items, .. } => {
                self.push(node)?;
                items.iter().try_for_each(|item| {
                    self.expression(&item.value)?;
                    self.push(item.node)
                })
            }
            Right::Array { .. } => self.push(node),
            Right::Access { node: access, index, .. } => {
                self.expression(index)?;
                self.load(*access)?;
                self.push(node)
            }
        }
    }

    /// `expr`: yes and no are nothing here.
    fn expression(&mut self, expression: &Expression) -> Counted {
        let node = expression.node;
        match &expression.form {
            ExpressionForm::Mutate { index, value, .. } => {
                self.expression(value)?;
                self.operand_register(value.node)?;
                self.expression(index)?;
                self.push(node)
            }
            ExpressionForm::Call { parameters, .. } => {
                for parameter in parameters {
                    self.expression(parameter)?;
                    self.push(node)?;
                }
                self.push(node)?;
                self.load(node)
            }
            ExpressionForm::Assign { value, .. } => self.assign(node, value),
            ExpressionForm::Binary(_, left, right) => {
                self.operand(left)?;
                self.operand(right)?;
                self.load(node)
            }
            ExpressionForm::Unary(_, operand) => {
                self.operand(operand)?;
                self.load(node)
            }
            ExpressionForm::Number(_) | ExpressionForm::Text(_) | ExpressionForm::Name(_) => {
                self.load(node)
            }
            ExpressionForm::True | ExpressionForm::False => Ok(()),
        }
    }

    /// `binarg`: yes and no are loaded here.
    fn operand(&mut self, operand: &Expression) -> Counted {
        match operand.form {
            ExpressionForm::True | ExpressionForm::False => self.load(operand.node)?,
            _ => self.expression(operand)?,
        }
        self.operand_register(operand.node)
    }
}
