//! The listing of document 01, "The listing program": the bytes that the proved listing program
//! prints (docs/FORMATS.md, "Listing").

use crate::answer::{Answer, Refusal};
use crate::engine::{Machine, Program};
use crate::program::{Instruction, Operand};
use crate::value::{Name, Single, Value};

/// The steps that a listing gives a program.
pub const STEPS: u64 = 100_000;

/// The listing of a program whose script has that bound; none where it is not plain.
///
/// ```
/// use sif::{listing, Program, Refusal};
/// let program = Program::lower(b"\x00\x01\x01\x06\x01\x00fortmp")?;
/// let text = listing::listing(&program, Some(1))?;
/// assert_eq!(text, "start 0\nop 0 0 Nop\nlabel 0 0\nbound 1\nend done 1\nheld 0\n");
/// # Ok::<(), Refusal>(())
/// ```
pub fn listing(program: &Program, bound: Option<u64>) -> Result<String, Refusal> {
    let mut out = format!("start {}\n", program.code_start());
    for (index, instruction) in program.instructions().enumerate() {
        out += &format!("op {index} {}\n", instruction_text(&instruction));
    }
    for (label, index) in program.labels() {
        out += &format!("label {label} {index}\n");
    }
    for (name, index) in program.functions() {
        out += &format!("fn {} {index}\n", name.number());
    }
    out += &bound.map_or("bound none\n".into(), |bound| format!("bound {bound}\n"));
    let mut machine = program.start()?;
    let report = machine.run(STEPS)?;
    Ok(out + &end_text(report.answer, report.steps) + &names_text(&machine))
}

/// The listing of a file that is refused with that number.
pub fn refused(number: u8) -> String {
    format!("refused {number}\n")
}

fn instruction_text(instruction: &Instruction) -> String {
    let operands: String =
        instruction.operands.iter().map(|operand| format!(" {}", operand_text(operand))).collect();
    format!("{} {}{operands}", instruction.label, instruction.operation)
}

fn operand_text(operand: &Operand) -> String {
    match operand {
        Operand::Kind(kind) => kind.to_string(),
        Operand::Register(register) => register.to_string(),
        Operand::Name(name) => name.number().to_string(),
        Operand::Literal(value) => value_text(value),
        Operand::Label(number) | Operand::Count(number) => number.to_string(),
    }
}

/// The `end` line.
pub fn end_text(answer: Answer, steps: u64) -> String {
    match answer {
        Answer::Done => format!("end done {steps}\n"),
        Answer::Spent => format!("end spent {steps}\n"),
        Answer::Stopped { stop, line } => {
            let details: String = stop.details().iter().map(|d| format!(" {d}")).collect();
            format!("end stopped {steps} {} {line}{details}\n", stop.number())
        }
    }
}

/// The `held` and `name` lines.
pub fn names_text(machine: &Machine) -> String {
    let mut out = format!("held {}\n", machine.held());
    for (name, value) in machine.names() {
        out += &format!("name {} {}\n", name.number(), value_text(&value));
    }
    out
}

/// A value, for example `Arr:[Num:3ff0000000000000,Str:2]`.
pub fn value_text(value: &Value) -> String {
    match value {
        Value::Single(single) => single_text(*single),
        Value::Array(items) => {
            let items: Vec<String> = items.iter().map(|item| single_text(*item)).collect();
            format!("Arr:[{}]", items.join(","))
        }
        Value::Table(pairs) => {
            let pair = |(key, value): &(_, _)| pair_text(*key, *value);
            format!("Tab:[{}]", pairs.iter().map(pair).collect::<Vec<_>>().join(","))
        }
    }
}

fn pair_text(key: Name, value: Single) -> String {
    format!("{}={}", key.number(), single_text(value))
}

fn single_text(single: Single) -> String {
    match single {
        Single::Number(number) => format!("Num:{:016x}", number.to_bits()),
        Single::Text(name) => format!("Str:{}", name.number()),
        Single::Bool(yes) => format!("Bl:{}", u8::from(yes)),
        Single::Nothing => "Null".into(),
    }
}
