//! The listing of document 01, and the whole machine as text.

use std::collections::HashMap;
use std::fmt::Write;

use crate::bound::bound_of_tree;
use crate::driver::{End, Machine};
use crate::lower::lower_file;
use crate::names::text_of;
use crate::original::sifc_bytecode::compiler::CompileResult;
use crate::original::sifc_bytecode::opc::Op;
use crate::original::sifc_bytecode::sifv::SifVal;
use crate::refuse::REGISTERS;
use crate::tree::{is_plain, Node};
use crate::value_text::value_text;

pub const STEPS: u64 = 100_000;

/// The listing of a tree file.
pub fn listing(file: &[u8]) -> String {
    match lower_file(file) {
        Ok((root, lowered)) => accepted(&root, lowered),
        Err(number) => format!("refused {number}\n"),
    }
}

/// The whole machine after some steps of a tree file.
pub fn state_of_file(file: &[u8], steps: u64) -> String {
    match lower_file(file) {
        Ok((_, lowered)) => {
            let mut machine = machine_of(lowered);
            let end = machine.run(steps);
            whole_machine(&mut machine, &end)
        }
        Err(number) => format!("refused {number}\n"),
    }
}

pub fn machine_of(lowered: CompileResult) -> Machine {
    Machine::new(lowered.program, lowered.code_start, lowered.jumptab, lowered.fntab)
}

fn accepted(root: &Node, lowered: CompileResult) -> String {
    let mut out = format!("start {}\n", lowered.code_start);
    for (index, instr) in lowered.program.iter().enumerate() {
        line(&mut out, format!("op {index} {} {}", instr.lblidx, op_text(&instr.op)));
    }
    let mut labels: Vec<(usize, usize)> = lowered.jumptab.clone().into_iter().collect();
    labels.sort_unstable();
    labels.iter().for_each(|(label, index)| line(&mut out, format!("label {label} {index}")));
    out += &functions_text(&lowered.fntab);
    let bound = is_plain(root).then(|| bound_of_tree(root).to_string());
    line(&mut out, format!("bound {}", bound.unwrap_or_else(|| String::from("none"))));
    let mut machine = machine_of(lowered);
    let end = machine.run(STEPS);
    out + &end_text(&end, machine.count) + &names_text(&machine.vm.heap)
}

fn line(out: &mut String, text: String) {
    writeln!(out, "{text}").expect("writing to a string");
}

fn functions_text(functions: &HashMap<String, usize>) -> String {
    let mut pairs: Vec<(u8, usize)> = functions.iter().map(|(n, i)| (text_of(n), *i)).collect();
    pairs.sort_unstable();
    pairs.iter().map(|(text, index)| format!("fn {text} {index}\n")).collect()
}

pub fn end_text(end: &End, count: u64) -> String {
    match end {
        End::Done => format!("end done {count}\n"),
        End::Spent => format!("end spent {count}\n"),
        End::Stopped { stop, line } => {
            let details: String = stop.details.iter().map(|d| format!(" {d}")).collect();
            format!("end stopped {count} {} {line}{details}\n", stop.number)
        }
    }
}

/// The `held` and `name` lines.
pub fn names_text(heap: &HashMap<String, SifVal>) -> String {
    let mut names: Vec<(u8, &SifVal)> = heap.iter().map(|(n, v)| (text_of(n), v)).collect();
    names.sort_unstable_by_key(|pair| pair.0);
    let mut out = format!("held {}\n", names.len());
    for (text, value) in names {
        line(&mut out, format!("name {text} {}", value_text(value)));
    }
    out
}

/// End, names, registers, stacks, function table, position and count.
pub fn whole_machine(machine: &mut Machine, end: &End) -> String {
    let mut out = end_text(end, machine.count) + &names_text(&machine.vm.heap);
    for index in 0..REGISTERS {
        if let Some(value) = machine.register(index) {
            line(&mut out, format!("reg {index} {}", value_text(&value)));
        }
    }
    let stack: String = machine.vm.fn_stack.iter().map(|v| format!(" {}", value_text(v))).collect();
    line(&mut out, format!("stack{stack}"));
    let calls: String = machine.vm.call_stack.iter().map(|p| format!(" {p}")).collect();
    line(&mut out, format!("calls{calls}"));
    out += &functions_text(&machine.vm.fntab);
    line(&mut out, format!("position {}", machine.vm.ip));
    line(&mut out, format!("count {}", machine.count));
    out
}

/// An operation with its operands in `opc.rs` order.
pub fn op_text(op: &Op) -> String {
    let t = |name: &String| text_of(name);
    match op {
        Op::Binary { kind, src1, src2, dest } => format!("Binary {kind:?} {src1} {src2} {dest}"),
        Op::Unary { kind, src1, dest } => format!("Unary {kind:?} {src1} {dest}"),
        Op::Ldc { dest, val } => format!("Ldc {dest} {}", value_text(val)),
        Op::Ldn { dest, name } => format!("Ldn {dest} {}", t(name)),
        Op::Mv { src, dest } => format!("Mv {src} {dest}"),
        Op::Ldas { name, dest } => format!("Ldas {} {dest}", t(name)),
        Op::Ldav { name, idx_reg, dest } => format!("Ldav {} {idx_reg} {dest}", t(name)),
        Op::Upda { name, idx_reg, val_reg } => format!("Upda {} {idx_reg} {val_reg}", t(name)),
        Op::Stc { val, name } => format!("Stc {} {}", value_text(val), t(name)),
        Op::Stn { srcname, destname } => format!("Stn {} {}", t(srcname), t(destname)),
        Op::Str { src, name } => format!("Str {src} {}", t(name)),
        Op::JmpCnd { kind, src, lblidx } => format!("JmpCnd {kind:?} {src} {lblidx}"),
        Op::Jmpa { lblidx } => format!("Jmpa {lblidx}"),
        Op::Incrr { src } => format!("Incrr {src}"),
        Op::Decrr { src } => format!("Decrr {src}"),
        Op::Fn { name, params } => {
            let params: String = params.iter().map(|p| format!(" {}", t(p))).collect();
            format!("Fn {}{params}", t(name))
        }
        Op::Call { name, param_count } => format!("Call {} {param_count}", t(name)),
        Op::StdCall { .. } => panic!("StdCall is not part of the engine"),
        Op::FnRet => String::from("FnRet"),
        Op::FnStackPush { src } => format!("FnStackPush {src}"),
        Op::FnStackPop { dest } => format!("FnStackPop {dest}"),
        Op::Tbli { tabname, key, src } => format!("Tbli {} {} {src}", t(tabname), t(key)),
        Op::Tblg { tabname, key, dest } => format!("Tblg {} {} {dest}", t(tabname), t(key)),
        Op::Nop => String::from("Nop"),
        Op::Stop => String::from("Stop"),
    }
}
