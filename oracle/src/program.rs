//! Programs written as the listing's `start` and `op` lines.

use crate::driver::Machine;
use crate::listing::whole_machine;
use crate::names::name_of;
use crate::original::sifc_bytecode::instr::Instr;
use crate::original::sifc_bytecode::opc::{BinOpKind, JmpOpKind, Op, UnOpKind};
use crate::original::sifc_bytecode::sifv::SifVal;
use crate::original::sifc_bytecode::tables;
use crate::program_bytes::Code;
use crate::refuse::{INSTRUCTIONS, REGISTERS};
use crate::value_text::read_literal;

const ITEMS_AND_PARAMETERS: usize = 1024;

pub struct Program {
    pub steps: Option<u64>,
    pub start: usize,
    pub instrs: Vec<Instr>,
}

/// Why a text is no program: not written as one, or refused by document 01.
#[derive(Debug)]
pub enum Fault {
    Written(String),
    Refused(u8),
}

/// Runs a program text and prints the whole machine; the steps are given here or in the text.
pub fn run_text(text: &str, steps: Option<u64>) -> Result<String, String> {
    let program = match read_program(text) {
        Ok(program) => program,
        Err(Fault::Refused(number)) => return Ok(format!("refused {number}\n")),
        Err(Fault::Written(why)) => return Err(why),
    };
    let steps = steps.or(program.steps).ok_or("no number of steps")?;
    let mut machine = program.machine();
    let end = machine.run(steps);
    Ok(whole_machine(&mut machine, &end))
}

/// The program of a text; none where document 01 refuses it.
pub fn code_of_text(text: &[u8]) -> Result<Option<Code>, String> {
    let text = std::str::from_utf8(text).map_err(|e| e.to_string())?;
    match read_program(text) {
        Ok(program) => Ok(Some(Code::new(program.instrs, program.start))),
        Err(Fault::Refused(_)) => Ok(None),
        Err(Fault::Written(why)) => Err(why),
    }
}

impl Program {
    pub fn machine(self) -> Machine {
        let (labels, functions) = tables::compute(&self.instrs);
        Machine::new(self.instrs, self.start, labels, functions)
    }
}

pub fn read_program(text: &str) -> Result<Program, Fault> {
    let mut program = Program { steps: None, start: 0, instrs: Vec::new() };
    let mut refused = false;
    for line in text.lines() {
        let words: Vec<&str> = line.split(' ').collect();
        let wrong = || Fault::Written(format!("not a program line: {line}"));
        match words[0] {
            "steps" => program.steps = Some(number(&words, 1).ok_or_else(wrong)? as u64),
            "start" => program.start = number(&words, 1).ok_or_else(wrong)?,
            "op" => {
                let index = number(&words, 1).ok_or_else(wrong)?;
                let label = number(&words, 2).ok_or_else(wrong)?;
                if index != program.instrs.len() {
                    return Err(wrong());
                }
                let mut operands = Operands { words: &words, at: 4, refused: label > 1023 };
                let op = operands.op(words.get(3).copied().ok_or_else(wrong)?).ok_or_else(wrong)?;
                refused |= operands.refused;
                program.instrs.push(Instr::new(label, op, index + 1));
            }
            _ => return Err(wrong()),
        }
    }
    let listed: usize = program.instrs.iter().map(|instr| listed(&instr.op)).sum();
    refused |= program.instrs.len() > INSTRUCTIONS
        || listed > ITEMS_AND_PARAMETERS
        || program.start > program.instrs.len();
    if refused {
        Err(Fault::Refused(8))
    } else {
        Ok(program)
    }
}

fn number(words: &[&str], at: usize) -> Option<usize> {
    words.get(at)?.parse().ok()
}

/// Array items and parameters of one instruction.
fn listed(op: &Op) -> usize {
    match op {
        Op::Ldc { val: SifVal::Arr(items), .. } | Op::Stc { val: SifVal::Arr(items), .. } => {
            items.len()
        }
        Op::Fn { params, .. } => params.len(),
        _ => 0,
    }
}

/// The operands of a line; `refused` is set by one outside its range.
struct Operands<'l> {
    words: &'l [&'l str],
    at: usize,
    refused: bool,
}

impl Operands<'_> {
    fn word(&mut self) -> Option<&str> {
        self.at += 1;
        self.words.get(self.at - 1).copied()
    }

    fn up_to(&mut self, highest: usize) -> Option<usize> {
        let value: usize = self.word()?.parse().ok()?;
        self.refused |= value > highest;
        Some(value.min(highest))
    }

    fn register(&mut self) -> Option<usize> {
        self.up_to(REGISTERS - 1)
    }

    fn text(&mut self) -> Option<String> {
        self.up_to(63).map(|text| name_of(text as u8))
    }

    fn label(&mut self) -> Option<usize> {
        self.up_to(1023)
    }

    fn literal(&mut self) -> Option<SifVal> {
        let literal = read_literal(self.word()?)?;
        self.refused |= literal.is_err();
        Some(literal.unwrap_or(SifVal::Null))
    }

    fn params(&mut self) -> Option<Vec<String>> {
        let mut params = Vec::new();
        while self.at < self.words.len() {
            params.push(self.text()?);
        }
        Some(params)
    }

    /// The operation of the line; an unknown one sets `refused`.
    fn op(&mut self, operation: &str) -> Option<Op> {
        let op = match operation {
            "Binary" => Op::Binary {
                kind: binary_kind(self.word()?)?,
                src1: self.register()?,
                src2: self.register()?,
                dest: self.register()?,
            },
            "Unary" => Op::Unary {
                kind: unary_kind(self.word()?)?,
                src1: self.register()?,
                dest: self.register()?,
            },
            "Ldc" => Op::Ldc { dest: self.register()?, val: self.literal()? },
            "Ldn" => Op::Ldn { dest: self.register()?, name: self.text()? },
            "Mv" => Op::Mv { src: self.register()?, dest: self.register()? },
            "Ldas" => Op::Ldas { name: self.text()?, dest: self.register()? },
            "Ldav" => {
                Op::Ldav { name: self.text()?, idx_reg: self.register()?, dest: self.register()? }
            }
            "Upda" => Op::Upda {
                name: self.text()?,
                idx_reg: self.register()?,
                val_reg: self.register()?,
            },
            "Stc" => Op::Stc { val: self.literal()?, name: self.text()? },
            "Stn" => Op::Stn { srcname: self.text()?, destname: self.text()? },
            "Str" => Op::Str { src: self.register()?, name: self.text()? },
            "JmpCnd" => Op::JmpCnd {
                kind: jump_kind(self.word()?)?,
                src: self.register()?,
                lblidx: self.label()?,
            },
            "Jmpa" => Op::Jmpa { lblidx: self.label()? },
            "Incrr" => Op::Incrr { src: self.register()? },
            "Decrr" => Op::Decrr { src: self.register()? },
            "Fn" => Op::Fn { name: self.text()?, params: self.params()? },
            "Call" => Op::Call { name: self.text()?, param_count: self.up_to(255)? },
            "FnRet" => Op::FnRet,
            "FnStackPush" => Op::FnStackPush { src: self.register()? },
            "FnStackPop" => Op::FnStackPop { dest: self.register()? },
            "Tbli" => Op::Tbli { tabname: self.text()?, key: self.text()?, src: self.register()? },
            "Tblg" => Op::Tblg { tabname: self.text()?, key: self.text()?, dest: self.register()? },
            "Nop" => Op::Nop,
            "Stop" => Op::Stop,
            _ => return self.unknown(),
        };
        (self.at == self.words.len()).then_some(op)
    }

    fn unknown(&mut self) -> Option<Op> {
        self.refused = true;
        Some(Op::Nop)
    }
}

fn binary_kind(word: &str) -> Option<BinOpKind> {
    Some(match word {
        "Add" => BinOpKind::Add,
        "Sub" => BinOpKind::Sub,
        "Mul" => BinOpKind::Mul,
        "Div" => BinOpKind::Div,
        "Modu" => BinOpKind::Modu,
        "Eq" => BinOpKind::Eq,
        "Neq" => BinOpKind::Neq,
        "LtEq" => BinOpKind::LtEq,
        "Lt" => BinOpKind::Lt,
        "GtEq" => BinOpKind::GtEq,
        "Gt" => BinOpKind::Gt,
        "Land" => BinOpKind::Land,
        "Lnot" => BinOpKind::Lnot,
        "Lor" => BinOpKind::Lor,
        _ => return None,
    })
}

fn unary_kind(word: &str) -> Option<UnOpKind> {
    match word {
        "Lneg" => Some(UnOpKind::Lneg),
        "Nneg" => Some(UnOpKind::Nneg),
        _ => None,
    }
}

fn jump_kind(word: &str) -> Option<JmpOpKind> {
    match word {
        "Jmpt" => Some(JmpOpKind::Jmpt),
        "Jmpf" => Some(JmpOpKind::Jmpf),
        _ => None,
    }
}
