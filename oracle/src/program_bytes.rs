//! A program in its buffer, and back: docs/FORMATS.md, "Program buffer". Reading decides document
//! 01's 8 on the bytes.

use std::collections::HashMap;

use crate::driver::Machine;
use crate::names::{name_of, text_of};
use crate::original::sifc_bytecode::compiler::CompileResult;
use crate::original::sifc_bytecode::instr::Instr;
use crate::original::sifc_bytecode::opc::{BinOpKind, JmpOpKind, Op, UnOpKind};
use crate::original::sifc_bytecode::sifv::SifVal;
use crate::original::sifc_bytecode::tables;
use crate::refuse::PROGRAM_REFUSED;
use crate::state_bytes::{number_at, single_kind, single_number};

pub const SIZE: usize = 40_960;
pub const POOL: usize = 16_384;
pub const LABELS: usize = 32_768;
pub const FUNCTIONS: usize = 34_816;
pub const COUNT: usize = 34_944;
pub const START: usize = 34_946;
const ENTRIES: usize = 1024;

const BINARY: [BinOpKind; 14] = [
    BinOpKind::Add,
    BinOpKind::Sub,
    BinOpKind::Mul,
    BinOpKind::Div,
    BinOpKind::Modu,
    BinOpKind::Eq,
    BinOpKind::Neq,
    BinOpKind::LtEq,
    BinOpKind::Lt,
    BinOpKind::GtEq,
    BinOpKind::Gt,
    BinOpKind::Land,
    BinOpKind::Lnot,
    BinOpKind::Lor,
];
const UNARY: [UnOpKind; 2] = [UnOpKind::Lneg, UnOpKind::Nneg];
const JUMPS: [JmpOpKind; 2] = [JmpOpKind::Jmpt, JmpOpKind::Jmpf];

/// A program with the tables that the original computes of it.
#[derive(Clone)]
pub struct Code {
    pub instrs: Vec<Instr>,
    pub start: usize,
    pub labels: HashMap<usize, usize>,
    pub functions: HashMap<String, usize>,
}

impl Code {
    pub fn new(instrs: Vec<Instr>, start: usize) -> Code {
        let (labels, functions) = tables::compute(&instrs);
        Code { instrs, start, labels, functions }
    }

    pub fn of_lowered(lowered: CompileResult) -> Code {
        Code {
            instrs: lowered.program,
            start: lowered.code_start,
            labels: lowered.jumptab,
            functions: lowered.fntab,
        }
    }

    /// The original's machine, started.
    pub fn machine(&self) -> Machine {
        let Code { instrs, start, labels, functions } = self.clone();
        Machine::new(instrs, start, labels, functions)
    }

    pub fn bytes(&self) -> Vec<u8> {
        let mut out = vec![0; SIZE];
        let mut first = 0;
        for (index, instr) in self.instrs.iter().enumerate() {
            let record = &mut out[16 * index..16 * index + 16];
            fields(&instr.op, first).write(instr.lblidx, record);
            for item in pool_items(&instr.op) {
                let entry = &mut out[POOL + 16 * first..][..16];
                entry[0] = single_kind(&item);
                entry[8..].copy_from_slice(&single_number(&item).to_be_bytes());
                first += 1;
            }
        }
        put_u16(&mut out, COUNT, self.instrs.len());
        put_u16(&mut out, START, self.start);
        put_tables(&mut out, &self.labels, &self.functions);
        out
    }

    /// The program in the first 40,960 bytes, or 8.
    pub fn read(bytes: &[u8]) -> Result<Code, u8> {
        let count = u16_at(bytes, COUNT);
        let start = u16_at(bytes, START);
        if count > ENTRIES || start > count {
            return Err(PROGRAM_REFUSED);
        }
        let mut instrs = Vec::with_capacity(count);
        let mut first = 0;
        for index in 0..count {
            let record = Record { bytes: &bytes[16 * index..16 * index + 16], whole: bytes, first };
            let label = u16_at(record.bytes, 2);
            let op = record.op().filter(|_| label <= 1023).ok_or(PROGRAM_REFUSED)?;
            first += record.taken();
            instrs.push(Instr::new(label, op, index + 1));
        }
        let code = Code::new(instrs, start);
        let mut stored = vec![0; SIZE];
        put_tables(&mut stored, &code.labels, &code.functions);
        (stored[LABELS..COUNT] == bytes[LABELS..COUNT]).then_some(code).ok_or(PROGRAM_REFUSED)
    }
}

fn u16_at(bytes: &[u8], at: usize) -> usize {
    usize::from(bytes[at]) * 256 + usize::from(bytes[at + 1])
}

fn put_u16(bytes: &mut [u8], at: usize, value: usize) {
    bytes[at..at + 2].copy_from_slice(&(value as u16).to_be_bytes());
}

/// For each label and each text 0, or the index and 1.
fn put_tables(out: &mut [u8], labels: &HashMap<usize, usize>, functions: &HashMap<String, usize>) {
    labels.iter().for_each(|(label, index)| put_u16(out, LABELS + 2 * label, index + 1));
    functions.iter().for_each(|(name, index)| {
        put_u16(out, FUNCTIONS + 2 * usize::from(text_of(name)), index + 1);
    });
}

/// What an instruction keeps in the pool.
fn pool_items(op: &Op) -> Vec<SifVal> {
    match op {
        Op::Ldc { val: SifVal::Arr(items), .. } | Op::Stc { val: SifVal::Arr(items), .. } => {
            items.clone()
        }
        Op::Fn { params, .. } => params.iter().map(|p| SifVal::Str(p.clone())).collect(),
        _ => Vec::new(),
    }
}

/// The fields of a record but its label.
#[derive(Default)]
struct Fields {
    operation: u8,
    kind: u8,
    operands: [u8; 3],
    length: u8,
    number: u64,
}

impl Fields {
    fn write(&self, label: usize, out: &mut [u8]) {
        out[0] = self.operation;
        out[1] = self.kind;
        put_u16(out, 2, label);
        out[4..7].copy_from_slice(&self.operands);
        out[7] = self.length;
        out[8..].copy_from_slice(&self.number.to_be_bytes());
    }

    fn of(operation: u8, kind: u8, operands: [u8; 3]) -> Fields {
        Fields { operation, kind, operands, length: 0, number: 0 }
    }

    fn with(self, length: usize, number: u64) -> Fields {
        Fields { length: length as u8, number, ..self }
    }
}

/// A kind's number: its place in the list, from 1.
fn place<T: PartialEq>(kinds: &[T], kind: &T) -> u8 {
    1 + kinds.iter().position(|k| k == kind).expect("a kind of the list") as u8
}

fn literal(operation: u8, val: &SifVal, operand: u8, first: usize) -> Fields {
    let fields = Fields::of(operation, single_kind(val), [operand, 0, 0]);
    match val {
        SifVal::Arr(items) => fields.with(items.len(), first as u64),
        SifVal::Tab(_) => fields,
        single => fields.with(0, single_number(single)),
    }
}

/// The fields of an operation whose pool entries begin at `first`.
fn fields(op: &Op, first: usize) -> Fields {
    let t = |name: &String| text_of(name);
    let r = |register: &usize| *register as u8;
    match op {
        Op::Binary { kind, src1, src2, dest } => {
            Fields::of(1, place(&BINARY, kind), [r(src1), r(src2), r(dest)])
        }
        Op::Unary { kind, src1, dest } => Fields::of(2, place(&UNARY, kind), [r(src1), r(dest), 0]),
        Op::Ldc { dest, val } => literal(3, val, r(dest), first),
        Op::Ldn { dest, name } => Fields::of(4, 0, [r(dest), t(name), 0]),
        Op::Mv { src, dest } => Fields::of(5, 0, [r(src), r(dest), 0]),
        Op::Ldas { name, dest } => Fields::of(6, 0, [t(name), r(dest), 0]),
        Op::Ldav { name, idx_reg, dest } => Fields::of(7, 0, [t(name), r(idx_reg), r(dest)]),
        Op::Upda { name, idx_reg, val_reg } => Fields::of(8, 0, [t(name), r(idx_reg), r(val_reg)]),
        Op::Stc { val, name } => literal(9, val, t(name), first),
        Op::Stn { srcname, destname } => Fields::of(10, 0, [t(srcname), t(destname), 0]),
        Op::Str { src, name } => Fields::of(11, 0, [r(src), t(name), 0]),
        Op::JmpCnd { kind, src, lblidx } => {
            Fields::of(12, place(&JUMPS, kind), [r(src), 0, 0]).with(0, *lblidx as u64)
        }
        Op::Jmpa { lblidx } => Fields::of(13, 0, [0; 3]).with(0, *lblidx as u64),
        Op::Incrr { src } => Fields::of(14, 0, [r(src), 0, 0]),
        Op::Decrr { src } => Fields::of(15, 0, [r(src), 0, 0]),
        Op::Fn { name, params } => {
            Fields::of(16, 0, [t(name), 0, 0]).with(params.len(), first as u64)
        }
        Op::Call { name, param_count } => {
            Fields::of(17, 0, [t(name), 0, 0]).with(0, *param_count as u64)
        }
        Op::FnRet => Fields::of(18, 0, [0; 3]),
        Op::FnStackPush { src } => Fields::of(19, 0, [r(src), 0, 0]),
        Op::FnStackPop { dest } => Fields::of(20, 0, [r(dest), 0, 0]),
        Op::Tbli { tabname, key, src } => Fields::of(21, 0, [t(tabname), t(key), r(src)]),
        Op::Tblg { tabname, key, dest } => Fields::of(22, 0, [t(tabname), t(key), r(dest)]),
        Op::Nop => Fields::of(23, 0, [0; 3]),
        Op::Stop => Fields::of(24, 0, [0; 3]),
        Op::StdCall { .. } => panic!("StdCall is not part of the engine"),
    }
}

/// A record being read; its pool entries have to begin at `first`.
struct Record<'b> {
    bytes: &'b [u8],
    whole: &'b [u8],
    first: usize,
}

impl Record<'_> {
    fn register(&self, operand: usize) -> Option<usize> {
        let number = usize::from(self.bytes[4 + operand]);
        (number <= 95).then_some(number)
    }

    fn text(&self, operand: usize) -> Option<String> {
        let number = self.bytes[4 + operand];
        (number <= 63).then(|| name_of(number))
    }

    fn number(&self) -> u64 {
        number_at(self.bytes, 8)
    }

    fn number_up_to(&self, highest: u64) -> Option<usize> {
        (self.number() <= highest).then_some(self.number() as usize)
    }

    fn kind<T: Clone>(&self, kinds: &[T]) -> Option<T> {
        kinds.get(usize::from(self.bytes[1]).checked_sub(1)?).cloned()
    }

    /// Pool entries that belong to the record.
    fn taken(&self) -> usize {
        match (self.bytes[0], self.bytes[1]) {
            (16, _) | (3 | 9, 5) => usize::from(self.bytes[7]),
            _ => 0,
        }
    }

    fn entries(&self) -> Option<Vec<SifVal>> {
        let length = usize::from(self.bytes[7]);
        if self.number() != self.first as u64 || self.first + length > ENTRIES {
            return None;
        }
        let entry = |index: usize| &self.whole[POOL + 16 * (self.first + index)..][..16];
        (0..length).map(|i| literal_single(entry(i)[0], number_at(entry(i), 8))).collect()
    }

    fn literal(&self) -> Option<SifVal> {
        match (self.bytes[1], self.bytes[7]) {
            (5, length) => self.entries().filter(|_| length <= 24).map(SifVal::Arr),
            (6, length) => (length == 0).then(|| SifVal::Tab(HashMap::new())),
            (kind, _) => literal_single(kind, self.number()),
        }
    }

    fn params(&self) -> Option<Vec<String>> {
        let text = |value: SifVal| match value {
            SifVal::Str(name) => Some(name),
            _ => None,
        };
        self.entries()?.into_iter().map(text).collect()
    }

    fn op(&self) -> Option<Op> {
        let reg = |operand| self.register(operand);
        let text = |operand| self.text(operand);
        Some(match self.bytes[0] {
            1 => {
                let kind = self.kind(&BINARY)?;
                Op::Binary { kind, src1: reg(0)?, src2: reg(1)?, dest: reg(2)? }
            }
            2 => Op::Unary { kind: self.kind(&UNARY)?, src1: reg(0)?, dest: reg(1)? },
            3 => Op::Ldc { dest: reg(0)?, val: self.literal()? },
            4 => Op::Ldn { dest: reg(0)?, name: text(1)? },
            5 => Op::Mv { src: reg(0)?, dest: reg(1)? },
            6 => Op::Ldas { name: text(0)?, dest: reg(1)? },
            7 => Op::Ldav { name: text(0)?, idx_reg: reg(1)?, dest: reg(2)? },
            8 => Op::Upda { name: text(0)?, idx_reg: reg(1)?, val_reg: reg(2)? },
            9 => Op::Stc { val: self.literal()?, name: text(0)? },
            10 => Op::Stn { srcname: text(0)?, destname: text(1)? },
            11 => Op::Str { src: reg(0)?, name: text(1)? },
            12 => {
                let kind = self.kind(&JUMPS)?;
                Op::JmpCnd { kind, src: reg(0)?, lblidx: self.number_up_to(1023)? }
            }
            13 => Op::Jmpa { lblidx: self.number_up_to(1023)? },
            14 => Op::Incrr { src: reg(0)? },
            15 => Op::Decrr { src: reg(0)? },
            16 => Op::Fn { name: text(0)?, params: self.params()? },
            17 => Op::Call { name: text(0)?, param_count: self.number_up_to(255)? },
            18 => Op::FnRet,
            19 => Op::FnStackPush { src: reg(0)? },
            20 => Op::FnStackPop { dest: reg(0)? },
            21 => Op::Tbli { tabname: text(0)?, key: text(1)?, src: reg(2)? },
            22 => Op::Tblg { tabname: text(0)?, key: text(1)?, dest: reg(2)? },
            23 => Op::Nop,
            24 => Op::Stop,
            _ => return None,
        })
    }
}

/// A single value of a program: any pattern is a number, a text is at most 63, a yes/no 0 or 1;
/// nothing's number carries nothing.
fn literal_single(kind: u8, number: u64) -> Option<SifVal> {
    match kind {
        1 => Some(SifVal::Num(f64::from_bits(number))),
        2 => (number <= 63).then(|| SifVal::Str(name_of(number as u8))),
        3 => (number <= 1).then_some(SifVal::Bl(number == 1)),
        4 => Some(SifVal::Null),
        _ => None,
    }
}
