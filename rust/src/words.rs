//! Names and values as people write them, with a script's own texts.

use crate::answer::{Stop, PLACES};
use crate::decimal;
use crate::engine::Machine;
use crate::program::{Instruction, Operand};
use crate::script::Script;
use crate::show;
use crate::value::{Name, Single, Value};

/// A name as the text form writes it: in backquotes where it is no identifier.
pub fn name(script: &Script, name: Name) -> String {
    show::name(script.text(name.number()))
}

/// A number in its shortest form, a text in quotes, yes or no, or nothing.
pub fn single(script: &Script, single: Single) -> String {
    match single {
        Single::Number(number) => decimal::write(number),
        Single::Text(text) => show::quoted(script.text(text.number())),
        Single::Bool(true) => "yes".into(),
        Single::Bool(false) => "no".into(),
        Single::Nothing => "nothing".into(),
    }
}

/// The items of an array.
pub fn items(script: &Script, items: &[Single]) -> Vec<String> {
    items.iter().map(|item| single(script, *item)).collect()
}

/// A key with its value.
pub fn pair(script: &Script, key: Name, value: Single) -> String {
    format!("{}: {}", show::key(script.text(key.number())), single(script, value))
}

/// A value in one line.
pub fn value(script: &Script, value: &Value) -> String {
    match value {
        Value::Single(value) => single(script, *value),
        Value::Array(array) => format!("[{}]", items(script, array).join(", ")),
        Value::Table(pairs) => {
            let pairs: Vec<String> = pairs.iter().map(|(k, v)| pair(script, *k, *v)).collect();
            format!("{{{}}}", pairs.join(", "))
        }
    }
}

/// An instruction with names instead of numbers; registers are `r0` and on.
pub fn instruction(script: &Script, instruction: &Instruction) -> String {
    let operand = |operand: &Operand| match operand {
        Operand::Kind(kind) => format!(" {kind}"),
        Operand::Register(register) => format!(" r{register}"),
        Operand::Name(number) => format!(" {}", name(script, *number)),
        Operand::Literal(literal) => format!(" {}", value(script, literal)),
        Operand::Label(label) => format!(" label {label}"),
        Operand::Count(count) => format!(" {count}"),
    };
    let operands: String = instruction.operands.iter().map(operand).collect();
    format!("{}{operands}", instruction.operation)
}

/// What happened at a stop, as far as the stopped machine tells.
pub fn stop(script: &Script, machine: &Machine, stop: Stop) -> String {
    let told = match stop {
        Stop::NoIndex => no_index(script, machine),
        _ => None,
    };
    told.unwrap_or_else(|| stop.words(|number| name(script, number)))
}

/// The number that is no index, and the name of the array. The stopped step changed nothing: the
/// machine is still at its instruction, whose register holds the number. None where the machine is at
/// no Ldav or Upda with such a number.
fn no_index(script: &Script, machine: &Machine) -> Option<String> {
    let instruction = machine.program().instruction(machine.position())?;
    let (array, register) = match (instruction.operation, instruction.operands.as_slice()) {
        ("Ldav" | "Upda", [Operand::Name(array), Operand::Register(index), _]) => (*array, *index),
        _ => return None,
    };
    let Some(Value::Single(Single::Number(index))) = machine.register(register) else {
        return None;
    };
    if index >= 0.0 && index < 18_446_744_073_709_551_616.0 && index.trunc() == index {
        return None;
    }
    let kind = match machine.name(array) {
        Some(Value::Array(_)) => "array ",
        _ => "",
    };
    let (index, array) = (decimal::write(index), name(script, array));
    Some(format!("the index {index} is no place in {kind}{array}: {PLACES}"))
}
