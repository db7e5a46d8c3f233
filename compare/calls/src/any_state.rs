//! States that a run might not reach and that are accepted all the same: values of every kind in
//! any slot, stacks and tables of any contents, any position and count.

use std::collections::HashMap;

use oracle::gen_numbers::NUMBERS;
use oracle::names::name_of;
use oracle::original::sifc_bytecode::sifv::SifVal;
use oracle::rng::Rng;
use oracle::state_bytes::{self, SLOT};

fn single(rng: &mut Rng) -> SifVal {
    match rng.below(9) {
        0 => SifVal::Null,
        1 | 2 => SifVal::Bl(rng.chance(50)),
        3 => SifVal::Str(name_of(rng.below(64) as u8)),
        4 => SifVal::Num(f64::from_bits(rng.pick(&NUMBERS))),
        5 => SifVal::Num(f64::from_bits(rng.next())),
        _ => SifVal::Num(rng.below(26) as f64),
    }
}

fn value(rng: &mut Rng) -> SifVal {
    match rng.below(6) {
        0 => {
            let length = rng.pick(&[0, 1, 3, 23, 24]);
            SifVal::Arr((0..length).map(|_| single(rng)).collect())
        }
        1 => {
            let length = rng.pick(&[0, 1, 3, 15, 16]);
            let mut map = HashMap::new();
            while map.len() < length {
                map.insert(name_of(rng.below(64) as u8), single(rng));
            }
            SifVal::Tab(map)
        }
        _ => single(rng),
    }
}

/// A slot with a value, or empty.
fn fill(state: &mut [u8], at: usize, value: Option<SifVal>) {
    let slot = &mut state[at..at + SLOT];
    slot.fill(0);
    if let Some(value) = value {
        state_bytes::write_slot(&value, slot);
    }
}

fn put_u16(state: &mut [u8], at: usize, value: usize) {
    state[at..at + 2].copy_from_slice(&(value as u16).to_be_bytes());
}

/// Changes some of the fields; the state stays accepted for a program of so many instructions.
pub fn change(state: &mut [u8], instructions: usize, rng: &mut Rng) {
    for _ in 0..rng.pick(&[0, 3, 10, 60]) {
        let held = rng.chance(90).then(|| value(rng));
        let slot = if rng.chance(60) { rng.below(8) } else { rng.below(96) };
        fill(state, SLOT * slot, held);
    }
    for _ in 0..rng.pick(&[0, 3, 10, 60]) {
        let text = if rng.chance(60) { rng.below(8) } else { rng.below(64) };
        let held = rng.chance(90).then(|| value(rng));
        let mark = state_bytes::number_at(state, state_bytes::MARK) & !(1 << text);
        let mark = mark | u64::from(held.is_some()) << text;
        state[state_bytes::MARK..][..8].copy_from_slice(&mark.to_be_bytes());
        fill(state, state_bytes::NAMES + SLOT * text, held);
    }
    if rng.chance(40) {
        stacks(state, instructions, rng);
    }
    if rng.chance(40) {
        put_u16(state, state_bytes::POSITION, rng.below(instructions + 1));
    }
    if rng.chance(40) {
        let count = rng.pick(&[0, 1, 1 << 32, u64::MAX, u64::MAX - 1, u64::MAX - 30]);
        state[state_bytes::COUNT..][..8].copy_from_slice(&count.to_be_bytes());
    }
}

fn stacks(state: &mut [u8], instructions: usize, rng: &mut Rng) {
    let values = rng.pick(&[0, 1, 5, 23, 24]);
    for index in 0..24 {
        let held = (index < values).then(|| value(rng));
        fill(state, state_bytes::STACK + SLOT * index, held);
    }
    let frames = if instructions == 0 { 0 } else { rng.pick(&[0, 1, 5, 23, 24]) };
    state[state_bytes::CALLS..][..96].fill(0);
    for index in 0..frames {
        put_u16(state, state_bytes::CALLS + 4 * index, rng.below(instructions));
    }
    for text in 0..64 {
        let entry = if rng.chance(20) { rng.below(instructions + 1) } else { 0 };
        put_u16(state, state_bytes::FUNCTIONS + 2 * text, entry);
    }
    state[state_bytes::DEPTHS] = values as u8;
    state[state_bytes::DEPTHS + 1] = frames as u8;
}
