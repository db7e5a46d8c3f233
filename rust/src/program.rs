//! A program's instructions, labels and functions as they stand in its buffer (docs/FORMATS.md).

use crate::bytes::{part, u16_at, u64_at, u8_at};
use crate::engine::Program;
use crate::value::{Name, Single, Value};

/// An instruction: its label, and its operation with operands in the order of the listing.
#[derive(Clone, Debug, PartialEq)]
pub struct Instruction {
    /// The label that the instruction carries.
    pub label: u16,
    /// The operation's name, as in the listing.
    pub operation: &'static str,
    /// Its operands.
    pub operands: Vec<Operand>,
}

/// An operand of an instruction.
#[derive(Clone, Debug, PartialEq)]
pub enum Operand {
    /// The kind of an operator or a jump, by its name in the listing.
    Kind(&'static str),
    /// A register, 0 to 95.
    Register(u8),
    /// A name, a key or a parameter.
    Name(Name),
    /// A literal.
    Literal(Value),
    /// The label that a jump goes to.
    Label(u64),
    /// The number of a call's parameters.
    Count(u64),
}

/// Where an operand is found in a record.
enum Field {
    BinaryKind,
    UnaryKind,
    JumpKind,
    Register(usize),
    Name(usize),
    Literal,
    Label,
    Count,
    Parameters,
}

// Places in a program buffer.
const POOL_AT: usize = 16_384;
const LABELS_AT: usize = 32_768;
const FUNCTIONS_AT: usize = 34_816;
const COUNT_AT: usize = 34_944;
const CODE_START_AT: usize = 34_946;
const LABELS: u16 = 1024;

// Places in a record; a pool entry has its kind at 0 and its number where a record has it.
const RECORD: usize = 16;
const KIND: usize = 1;
const LABEL: usize = 2;
const A: usize = 4;
const B: usize = 5;
const C: usize = 6;
const LENGTH: usize = 7;
const NUMBER: usize = 8;

const BINARY_KINDS: [&str; 14] = [
    "Add", "Sub", "Mul", "Div", "Modu", "Eq", "Neq", "LtEq", "Lt", "GtEq", "Gt", "Land", "Lnot",
    "Lor",
];
const UNARY_KINDS: [&str; 2] = ["Lneg", "Nneg"];
const JUMP_KINDS: [&str; 2] = ["Jmpt", "Jmpf"];

/// The operations from number 1 on, with their operands in the listing's order.
const OPERATIONS: [(&str, &[Field]); 24] = [
    ("Binary", &[Field::BinaryKind, Field::Register(A), Field::Register(B), Field::Register(C)]),
    ("Unary", &[Field::UnaryKind, Field::Register(A), Field::Register(B)]),
    ("Ldc", &[Field::Register(A), Field::Literal]),
    ("Ldn", &[Field::Register(A), Field::Name(B)]),
    ("Mv", &[Field::Register(A), Field::Register(B)]),
    ("Ldas", &[Field::Name(A), Field::Register(B)]),
    ("Ldav", &[Field::Name(A), Field::Register(B), Field::Register(C)]),
    ("Upda", &[Field::Name(A), Field::Register(B), Field::Register(C)]),
    ("Stc", &[Field::Literal, Field::Name(A)]),
    ("Stn", &[Field::Name(A), Field::Name(B)]),
    ("Str", &[Field::Register(A), Field::Name(B)]),
    ("JmpCnd", &[Field::JumpKind, Field::Register(A), Field::Label]),
    ("Jmpa", &[Field::Label]),
    ("Incrr", &[Field::Register(A)]),
    ("Decrr", &[Field::Register(A)]),
    ("Fn", &[Field::Name(A), Field::Parameters]),
    ("Call", &[Field::Name(A), Field::Count]),
    ("FnRet", &[]),
    ("FnStackPush", &[Field::Register(A)]),
    ("FnStackPop", &[Field::Register(A)]),
    ("Tbli", &[Field::Name(A), Field::Name(B), Field::Register(C)]),
    ("Tblg", &[Field::Name(A), Field::Name(B), Field::Register(C)]),
    ("Nop", &[]),
    ("Stop", &[]),
];

impl Program {
    /// How many instructions there are, 0 to 1,024.
    pub fn count(&self) -> u16 {
        u16_at(self.bytes(), COUNT_AT)
    }

    /// The index at which running starts; functions stand in front of it.
    pub fn code_start(&self) -> u16 {
        u16_at(self.bytes(), CODE_START_AT)
    }

    /// The instruction at an index.
    ///
    /// ```
    /// use sif::{Operand, Program, Refusal};
    /// let program = Program::lower(b"\x00\x01\x01\x06\x01\x00fortmp")?;
    /// let first = program.instruction(0).unwrap();
    /// assert_eq!((first.label, first.operation, first.operands), (0, "Nop", vec![]));
    /// assert_eq!(program.instruction(1), None);
    /// # Ok::<(), Refusal>(())
    /// ```
    pub fn instruction(&self, index: u16) -> Option<Instruction> {
        if index >= self.count() {
            return None;
        }
        let record = part(self.bytes(), RECORD * usize::from(index), RECORD);
        let (operation, fields) = named(&OPERATIONS, u8_at(record, 0))?;
        let operands = fields.iter().flat_map(|field| self.operands(record, field)).collect();
        Some(Instruction { label: u16_at(record, LABEL), operation, operands })
    }

    /// All instructions in order.
    pub fn instructions(&self) -> impl Iterator<Item = Instruction> + '_ {
        (0..self.count()).map_while(|index| self.instruction(index))
    }

    /// The labels, ascending, each with the index that a jump to it goes to.
    pub fn labels(&self) -> Vec<(u16, u16)> {
        let index = |label: u16| u16_at(self.bytes(), LABELS_AT + 2 * usize::from(label));
        (0..LABELS).filter_map(|label| Some((label, index(label).checked_sub(1)?))).collect()
    }

    /// The functions by name, ascending, each with the index of its declaration.
    pub fn functions(&self) -> Vec<(Name, u16)> {
        let index =
            |name: Name| u16_at(self.bytes(), FUNCTIONS_AT + 2 * usize::from(name.number()));
        Name::all().filter_map(|name| Some((name, index(name).checked_sub(1)?))).collect()
    }

    /// The operands at a field of a record: one, or a function's parameters.
    fn operands(&self, record: &[u8], field: &Field) -> Vec<Operand> {
        let kind = u8_at(record, KIND);
        let number = u64_at(record, NUMBER);
        let one = match field {
            Field::BinaryKind => named(&BINARY_KINDS, kind).copied().map(Operand::Kind),
            Field::UnaryKind => named(&UNARY_KINDS, kind).copied().map(Operand::Kind),
            Field::JumpKind => named(&JUMP_KINDS, kind).copied().map(Operand::Kind),
            Field::Register(at) => Some(Operand::Register(u8_at(record, *at))),
            Field::Name(at) => Name::new(u8_at(record, *at)).map(Operand::Name),
            Field::Literal => self.literal(record, kind, number).map(Operand::Literal),
            Field::Label => Some(Operand::Label(number)),
            Field::Count => Some(Operand::Count(number)),
            Field::Parameters => return self.parameters(record),
        };
        one.into_iter().collect()
    }

    fn literal(&self, record: &[u8], kind: u8, number: u64) -> Option<Value> {
        match kind {
            Value::ARR => Some(Value::Array(self.pool(record))),
            Value::TAB => Some(Value::Table(Vec::new())),
            _ => Single::decode(kind, number).map(Value::Single),
        }
    }

    fn parameters(&self, record: &[u8]) -> Vec<Operand> {
        let name = |single: Single| match single {
            Single::Text(name) => Some(Operand::Name(name)),
            _ => None,
        };
        self.pool(record).into_iter().filter_map(name).collect()
    }

    /// The pool entries of a record.
    fn pool(&self, record: &[u8]) -> Vec<Single> {
        let first = usize::from(u16_at(record, NUMBER + 6));
        let length = usize::from(u8_at(record, LENGTH));
        let entry = |i: usize| part(self.bytes(), POOL_AT + RECORD * i, RECORD);
        let single = |entry: &[u8]| Single::decode(u8_at(entry, 0), u64_at(entry, NUMBER));
        (first..first + length).map_while(|i| single(entry(i))).collect()
    }
}

/// The row of a number that counts from 1.
fn named<T>(rows: &[T], number: u8) -> Option<&T> {
    rows.get(usize::from(number).checked_sub(1)?)
}
