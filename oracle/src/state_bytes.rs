//! The original's machine in the state's bytes, and back: docs/FORMATS.md, "State" and "Value
//! slot". Reading decides document 01's 10 on the bytes, field by field.

use std::collections::HashMap;

use crate::driver::{Machine, CALL_STACK, KEYS, VALUE_STACK};
use crate::names::{name_of, text_of};
use crate::original::sifc_bytecode::sifv::SifVal;
use crate::program_bytes::Code;
use crate::refuse::{REGISTERS, STATE_REFUSED};
use crate::value_text::NAN;

pub const SIZE: usize = 65_536;
/// The bytes that have a field.
pub const USED: usize = 47_360;
pub const SLOT: usize = 256;
pub const NAMES: usize = 24_576;
pub const STACK: usize = 40_960;
pub const CALLS: usize = 47_104;
pub const FUNCTIONS: usize = 47_200;
pub const MARK: usize = 47_328;
pub const COUNT: usize = 47_336;
pub const POSITION: usize = 47_344;
pub const DEPTHS: usize = 47_346;
const REST: usize = 47_348;
const TEXTS: usize = 64;
const ITEMS: usize = 24;

pub fn number_at(bytes: &[u8], at: usize) -> u64 {
    u64::from_be_bytes(bytes[at..at + 8].try_into().expect("8 bytes"))
}

fn u16_at(bytes: &[u8], at: usize) -> usize {
    usize::from(bytes[at]) * 256 + usize::from(bytes[at + 1])
}

/// The kind byte of a value.
pub fn single_kind(value: &SifVal) -> u8 {
    match value {
        SifVal::Num(_) => 1,
        SifVal::Str(_) => 2,
        SifVal::Bl(_) => 3,
        SifVal::Null => 4,
        SifVal::Arr(_) => 5,
        SifVal::Tab(_) => 6,
    }
}

/// The number of a single value; every NaN has one pattern.
pub fn single_number(value: &SifVal) -> u64 {
    match value {
        SifVal::Num(n) if n.is_nan() => NAN,
        SifVal::Num(n) => n.to_bits(),
        SifVal::Str(name) => u64::from(text_of(name)),
        SifVal::Bl(b) => u64::from(*b),
        SifVal::Null => 0,
        SifVal::Arr(_) | SifVal::Tab(_) => panic!("an array or table inside another"),
    }
}

/// Writes a value into a slot of zeros.
pub fn write_slot(value: &SifVal, slot: &mut [u8]) {
    slot[0] = single_kind(value);
    match value {
        SifVal::Arr(items) => write_items(items.iter(), slot),
        SifVal::Tab(map) => {
            let mut pairs: Vec<(u8, &SifVal)> = map.iter().map(|(k, v)| (text_of(k), v)).collect();
            pairs.sort_unstable_by_key(|pair| pair.0);
            write_items(pairs.iter().map(|pair| pair.1), slot);
            pairs.iter().enumerate().for_each(|(index, pair)| slot[232 + index] = pair.0);
        }
        single => slot[8..16].copy_from_slice(&single_number(single).to_be_bytes()),
    }
}

fn write_items<'v>(items: impl Iterator<Item = &'v SifVal>, slot: &mut [u8]) {
    for (index, item) in items.enumerate() {
        slot[1] = index as u8 + 1;
        slot[16 + index] = single_kind(item);
        slot[40 + 8 * index..][..8].copy_from_slice(&single_number(item).to_be_bytes());
    }
}

/// The state's used bytes of a machine.
pub fn bytes(machine: &mut Machine) -> Vec<u8> {
    let mut out = vec![0; USED];
    for index in 0..REGISTERS {
        if let Some(value) = machine.register(index) {
            write_slot(&value, &mut out[SLOT * index..][..SLOT]);
        }
    }
    let vm = &machine.vm;
    let mut mark = 0u64;
    for (name, value) in &vm.heap {
        let text = usize::from(text_of(name));
        mark |= 1 << text;
        write_slot(value, &mut out[NAMES + SLOT * text..][..SLOT]);
    }
    for (index, value) in vm.fn_stack.iter().enumerate() {
        write_slot(value, &mut out[STACK + SLOT * index..][..SLOT]);
    }
    let mut put = |at: usize, value: &[u8]| out[at..at + value.len()].copy_from_slice(value);
    for (index, position) in vm.call_stack.iter().enumerate() {
        put(CALLS + 4 * index, &(*position as u16).to_be_bytes());
    }
    for (name, index) in &vm.fntab {
        put(FUNCTIONS + 2 * usize::from(text_of(name)), &(*index as u16 + 1).to_be_bytes());
    }
    put(MARK, &mark.to_be_bytes());
    put(COUNT, &machine.count.to_be_bytes());
    put(POSITION, &(vm.ip as u16).to_be_bytes());
    put(DEPTHS, &[vm.fn_stack.len() as u8, vm.call_stack.len() as u8]);
    out
}

/// What a state's bytes hold.
pub struct Held {
    registers: Vec<Option<SifVal>>,
    names: Vec<Option<SifVal>>,
    stack: Vec<SifVal>,
    calls: Vec<usize>,
    functions: Vec<Option<usize>>,
    position: usize,
    pub count: u64,
}

impl Held {
    /// The fields of a state, each in its range, or 10. The count of instructions is the
    /// program's, or 1,024 where no program is lent.
    pub fn read(bytes: &[u8], instructions: usize) -> Result<Held, u8> {
        let slots = |at: usize, count: usize| -> Result<Vec<Option<SifVal>>, u8> {
            (0..count).map(|index| read_slot(&bytes[at + SLOT * index..][..SLOT])).collect()
        };
        let (values, frames) = (usize::from(bytes[DEPTHS]), usize::from(bytes[DEPTHS + 1]));
        let position = u16_at(bytes, POSITION);
        let sizes = values <= VALUE_STACK && frames <= CALL_STACK && position <= instructions;
        if !sizes || !zero(&bytes[REST..USED]) {
            return Err(STATE_REFUSED);
        }
        let names = slots(NAMES, TEXTS)?;
        let held = |text: usize| number_at(bytes, MARK) >> text & 1 == 1;
        if (0..TEXTS).any(|text| names[text].is_some() != held(text)) {
            return Err(STATE_REFUSED);
        }
        Ok(Held {
            registers: slots(0, REGISTERS)?,
            names,
            stack: stack(slots(STACK, VALUE_STACK)?, values)?,
            calls: calls(&bytes[CALLS..FUNCTIONS], frames, instructions)?,
            functions: functions(&bytes[FUNCTIONS..MARK], instructions)?,
            position,
            count: number_at(bytes, COUNT),
        })
    }

    /// The original's machine in this state.
    pub fn machine(self, code: &Code) -> Machine {
        let mut machine = code.machine();
        for (index, value) in self.registers.into_iter().enumerate() {
            machine.vm.dregs.set_contents(index, value);
        }
        machine.vm.heap = named(self.names);
        machine.vm.fn_stack = self.stack;
        machine.vm.call_stack = self.calls;
        machine.vm.fntab = named(self.functions);
        machine.vm.ip = self.position;
        machine.count = self.count;
        machine
    }
}

fn named<T>(values: Vec<Option<T>>) -> HashMap<String, T> {
    let pair = |(text, value): (usize, Option<T>)| Some((name_of(text as u8), value?));
    values.into_iter().enumerate().filter_map(pair).collect()
}

fn zero(bytes: &[u8]) -> bool {
    bytes.iter().fold(0, |all, byte| all | byte) == 0
}

/// The slots below the depth hold values, those above are empty.
fn stack(slots: Vec<Option<SifVal>>, depth: usize) -> Result<Vec<SifVal>, u8> {
    let fitting = slots.iter().enumerate().all(|(index, slot)| slot.is_some() == (index < depth));
    fitting.then(|| slots.into_iter().flatten().collect()).ok_or(STATE_REFUSED)
}

fn calls(bytes: &[u8], depth: usize, instructions: usize) -> Result<Vec<usize>, u8> {
    let (frames, above) = bytes.split_at(4 * depth);
    let position = |frame: &[u8]| {
        let position = u16_at(frame, 0);
        (position < instructions && zero(&frame[2..])).then_some(position).ok_or(STATE_REFUSED)
    };
    let positions = frames.chunks(4).map(position).collect();
    if zero(above) {
        positions
    } else {
        Err(STATE_REFUSED)
    }
}

fn functions(bytes: &[u8], instructions: usize) -> Result<Vec<Option<usize>>, u8> {
    let index = |entry: &[u8]| match u16_at(entry, 0).checked_sub(1) {
        Some(index) if index >= instructions => Err(STATE_REFUSED),
        index => Ok(index),
    };
    bytes.chunks(2).map(index).collect()
}

/// The value of a slot in its one form, or 10.
pub fn read_slot(slot: &[u8]) -> Result<Option<SifVal>, u8> {
    let (kind, length) = (slot[0], usize::from(slot[1]));
    if !zero(&slot[2..8]) || !zero(&slot[248..]) {
        return Err(STATE_REFUSED);
    }
    match kind {
        0..=4 if length != 0 || !zero(&slot[16..248]) => Err(STATE_REFUSED),
        0 => zero(&slot[8..16]).then_some(None).ok_or(STATE_REFUSED),
        1..=4 => single(kind, number_at(slot, 8)).map(Some),
        5 if length <= ITEMS && zero(&slot[232..248]) => {
            Ok(Some(SifVal::Arr(read_items(slot, length)?)))
        }
        6 if length <= KEYS => read_table(slot, length).map(Some),
        _ => Err(STATE_REFUSED),
    }
}

/// Items of an array or a table; the bytes behind them are zero.
fn read_items(slot: &[u8], length: usize) -> Result<Vec<SifVal>, u8> {
    if !zero(&slot[8..16]) || !zero(&slot[16 + length..40]) || !zero(&slot[40 + 8 * length..232]) {
        return Err(STATE_REFUSED);
    }
    (0..length).map(|index| single(slot[16 + index], number_at(slot, 40 + 8 * index))).collect()
}

fn read_table(slot: &[u8], length: usize) -> Result<SifVal, u8> {
    let (keys, above) = slot[232..248].split_at(length);
    let ascending = keys.windows(2).all(|pair| pair[0] < pair[1]);
    if !ascending || !zero(above) || keys.iter().any(|key| usize::from(*key) >= TEXTS) {
        return Err(STATE_REFUSED);
    }
    let values = read_items(slot, length)?;
    Ok(SifVal::Tab(keys.iter().map(|key| name_of(*key)).zip(values).collect()))
}

/// A single value of a state: its number in its one form.
fn single(kind: u8, number: u64) -> Result<SifVal, u8> {
    match kind {
        1 if !f64::from_bits(number).is_nan() || number == NAN => {
            Ok(SifVal::Num(f64::from_bits(number)))
        }
        2 if number < TEXTS as u64 => Ok(SifVal::Str(name_of(number as u8))),
        3 if number <= 1 => Ok(SifVal::Bl(number == 1)),
        4 if number == 0 => Ok(SifVal::Null),
        _ => Err(STATE_REFUSED),
    }
}
