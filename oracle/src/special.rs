//! Infinities and NaNs, which no tree holds as a literal (document 02, M-104): how many scripts and
//! programs of each kind meet one while they run, and how many of them their steps write.

use crate::driver::Machine;
use crate::gen::{by_seed, directed};
use crate::gen_small;
use crate::lower::lower_file;
use crate::original::sifc_bytecode::opc::Op;
use crate::original::sifc_bytecode::sifv::SifVal;
use crate::program::code_of_text;
use crate::program_bytes::Code;
use crate::refuse::NUMBER_NOT_FINITE;
use crate::tree::file_of;

/// The steps that each is given.
const STEPS: u64 = 2_000;

/// Nodes of the exhaustive trees; the least in which a quotient arises.
const SMALL: usize = 5;

/// The kinds that are run; how many of the three sorts have to be met (trees of five nodes give no
/// negative infinity, and `rows` may meet none); by how many of a hundred, at the least; and at how many
/// of the places. This holds for counts from 1,000 on.
const KINDS: [(&str, usize, u64, usize); 9] = [
    ("plain", 3, 30, 3),
    ("values", 3, 35, 3),
    ("other", 3, 20, 4),
    ("limits", 0, 0, 0),
    ("large", 3, 60, 3),
    ("small", 2, 0, 0),
    ("programs", 3, 0, 0),
    ("routines", 3, 10, 0),
    ("rows", 2, 10, 0),
];

#[derive(Default)]
struct Figures {
    ran: u64,
    met: u64,
    /// How many were written, by sort.
    written: [u64; 3],
    /// How many of them were an item read, an item set, an entry of a table, a parameter.
    placed: [u64; 4],
}

/// Every kind: its directed list, and so many items by the seed.
pub fn check(seed: u64, count: u64) -> Result<(), String> {
    for (kind, sorts, least, places) in KINDS {
        let mut figures = Figures::default();
        for (item, given) in items(kind, seed, count as usize)?.iter().enumerate() {
            let code = code(kind, given).map_err(|why| format!("{kind} item {item}: {why}"))?;
            code.iter().for_each(|code| one(code, &mut figures));
        }
        let Figures { ran, met, written, placed } = figures;
        let [infinite, negative, nan] = written;
        let [read, set, entry, pushed] = placed;
        println!(
            "special: {kind}: {met} of {ran} meet one; written {infinite} times infinity, \
             {negative} times -infinity, {nan} times NaN; {read} items read, {set} set, {entry} \
             entries of tables, {pushed} parameters"
        );
        let some = |counts: &[u64]| counts.iter().filter(|times| **times > 0).count();
        if some(&written) < sorts || some(&placed) < places {
            return Err(format!("{kind}: not {sorts} sorts are met, or not at {places} places"));
        }
        if 100 * met < least * ran {
            return Err(format!("{kind}: fewer than {least} of a hundred meet one"));
        }
    }
    Ok(())
}

fn items(kind: &str, seed: u64, count: usize) -> Result<Vec<Vec<u8>>, String> {
    if kind == "small" {
        return Ok(gen_small::all(SMALL).iter().map(file_of).collect());
    }
    let mut out = directed(kind, seed)?;
    out.extend(by_seed(kind, seed, count));
    Ok(out)
}

/// The program of an item, or none where it is refused.
fn code(kind: &str, given: &[u8]) -> Result<Option<Code>, String> {
    if matches!(kind, "programs" | "routines" | "rows") {
        return code_of_text(given);
    }
    match lower_file(given) {
        Ok((_, lowered)) => Ok(Some(Code::of_lowered(lowered))),
        Err(NUMBER_NOT_FINITE) => {
            Err(String::from("a tree with an infinity or a NaN as a literal"))
        }
        Err(_) => Ok(None),
    }
}

fn one(code: &Code, figures: &mut Figures) {
    let mut machine = code.machine();
    let before = total(figures);
    for _ in 0..STEPS {
        if machine.at_end() {
            break;
        }
        let op = machine.vm.prog[machine.vm.ip].op.clone();
        if machine.step().is_err() {
            break;
        }
        let so_far = total(figures);
        written(&mut machine, &op).iter().for_each(|value| count(value, &mut figures.written));
        if let Some(place) = place(&op) {
            figures.placed[place] += total(figures) - so_far;
        }
    }
    figures.ran += 1;
    figures.met += u64::from(total(figures) > before);
}

fn total(figures: &Figures) -> u64 {
    figures.written.iter().sum()
}

/// The place of what an operation writes, if it is one of those that are counted.
fn place(op: &Op) -> Option<usize> {
    match op {
        Op::Ldav { .. } => Some(0),
        Op::Upda { .. } => Some(1),
        Op::Tbli { .. } => Some(2),
        Op::FnStackPush { .. } => Some(3),
        _ => None,
    }
}

/// What a step has written: to a register, under a name, as an item or an entry, on the stack.
fn written(machine: &mut Machine, op: &Op) -> Option<SifVal> {
    match op {
        Op::Binary { dest, .. }
        | Op::Unary { dest, .. }
        | Op::Ldc { dest, .. }
        | Op::Ldn { dest, .. }
        | Op::Mv { dest, .. }
        | Op::Ldas { dest, .. }
        | Op::Ldav { dest, .. }
        | Op::FnStackPop { dest }
        | Op::Tblg { dest, .. } => machine.register(*dest),
        Op::Incrr { src }
        | Op::Decrr { src }
        | Op::Str { src, .. }
        | Op::Upda { val_reg: src, .. }
        | Op::Tbli { src, .. }
        | Op::FnStackPush { src } => machine.register(*src),
        Op::Stc { name, .. } | Op::Stn { destname: name, .. } => machine.vm.heap.get(name).cloned(),
        _ => None,
    }
}

/// Counts the infinities and NaNs of a value, those of its items among them.
fn count(value: &SifVal, written: &mut [u64; 3]) {
    match value {
        SifVal::Num(n) if n.is_nan() => written[2] += 1,
        SifVal::Num(n) if n.is_infinite() => written[usize::from(*n < 0.0)] += 1,
        SifVal::Arr(items) => items.iter().for_each(|item| count(item, written)),
        SifVal::Tab(map) => map.values().for_each(|item| count(item, written)),
        _ => {}
    }
}
