//! A run step by step.

use std::io::{self, Write};

use crate::answer::{Answer, Refusal};
use crate::engine::Machine;
use crate::page;
use crate::script::Script;
use crate::value::Value;
use crate::words;

/// The steps that are shown, counted from 1, out of those that are given.
#[derive(Clone, Copy, Debug, PartialEq, Eq)]
pub struct Window {
    /// The first step that is shown.
    pub from: u64,
    /// The last step that is shown.
    pub to: u64,
    /// Steps given to the run.
    pub steps: u64,
}

/// Why a trace was not written.
#[derive(Debug)]
pub enum TraceError {
    /// The engine refused a call.
    Refused(Refusal),
    /// The lines could not be written.
    Io(io::Error),
}

impl From<Refusal> for TraceError {
    fn from(refusal: Refusal) -> TraceError {
        TraceError::Refused(refusal)
    }
}

impl From<io::Error> for TraceError {
    fn from(error: io::Error) -> TraceError {
        TraceError::Io(error)
    }
}

/// Runs a started machine to the end of its steps and writes a line for each step in the window: the
/// step's number, the instruction's index, the operation, what changed. A step that stops has a line
/// as well. `tell` is called now and then with the steps taken.
pub fn trace(
    out: &mut dyn Write,
    script: &Script,
    machine: &mut Machine,
    window: Window,
    tell: &mut dyn FnMut(u64),
) -> Result<Answer, TraceError> {
    let before = window.from.saturating_sub(1).min(window.steps);
    let mut answer = page::run(machine, before, tell)?;
    while answer == Answer::Spent && machine.steps() < window.to.min(window.steps) {
        answer = show_step(out, script, machine)?;
        tell(machine.steps());
    }
    if answer == Answer::Spent {
        answer = page::run(machine, window.steps.saturating_sub(machine.steps()), tell)?;
    }
    Ok(answer)
}

/// Takes one step and writes its line.
fn show_step(
    out: &mut dyn Write,
    script: &Script,
    machine: &mut Machine,
) -> Result<Answer, TraceError> {
    let before = machine.clone();
    let report = machine.run(1)?;
    let index = before.position();
    let instruction = before.program().instruction(index);
    let operation = instruction.map_or(String::new(), |i| words::instruction(script, &i));
    let effect = match report.answer {
        Answer::Stopped { .. } => "stops".to_string(),
        _ => changes(script, &before, machine).join(", "),
    };
    let line = format!("{:>6} {index:>4}  {operation:<28}  {effect}", before.steps() + 1);
    writeln!(out, "{}", line.trim_end())?;
    Ok(report.answer)
}

/// What one step changed: registers, names, stacks, functions, the position.
fn changes(script: &Script, before: &Machine, after: &Machine) -> Vec<String> {
    let mut list = Vec::new();
    for register in after.registers_unlike(before) {
        list.push(format!("r{register} {}", contents(script, after.register(register))));
    }
    for name in after.names_unlike(before) {
        list.push(format!("{} {}", words::name(script, name), contents(script, after.name(name))));
    }
    list.extend(stack_change(script, &before.stack(), &after.stack()));
    list.extend(calls_change(&before.calls(), &after.calls()));
    for name in after.functions_unlike(before) {
        let index = after.function(name).map_or("nowhere".into(), |index| index.to_string());
        list.push(format!("function {} at {index}", words::name(script, name)));
    }
    if after.position() != before.position().saturating_add(1) {
        list.push(format!("goes to {}", after.position()));
    }
    list
}

fn contents(script: &Script, value: Option<Value>) -> String {
    value.map_or("empty".into(), |value| format!("= {}", words::value(script, &value)))
}

/// A step pushes or pops one value at most.
fn stack_change(script: &Script, before: &[Value], after: &[Value]) -> Option<String> {
    let top = |stack: &[Value]| stack.last().map(|value| words::value(script, value));
    match after.len().cmp(&before.len()) {
        std::cmp::Ordering::Greater => top(after).map(|value| format!("pushed {value}")),
        std::cmp::Ordering::Less => top(before).map(|value| format!("popped {value}")),
        std::cmp::Ordering::Equal => None,
    }
}

fn calls_change(before: &[u16], after: &[u16]) -> Option<String> {
    match after.len().cmp(&before.len()) {
        std::cmp::Ordering::Greater => after.last().map(|index| format!("called from {index}")),
        std::cmp::Ordering::Less => {
            before.last().map(|index| format!("returned to the call at {index}"))
        }
        std::cmp::Ordering::Equal => None,
    }
}
