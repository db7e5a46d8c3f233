//! `start`, `run` and `read_name` on damaged programs and states, and on any accepted states: the
//! oracle's own reading of the bytes decides 8, 9 and 10.

use oracle::lower::lower_file;
use oracle::program::code_of_text;
use oracle::program_bytes::{self, Code};
use oracle::rng::Rng;
use oracle::{calls, gen, state_bytes};

use crate::any_state;
use crate::place::{length, marked, Place};

/// Calls made on damaged copies of one program and state.
const COPIES: u64 = 40;

/// A program and a state, both accepted.
struct Sound {
    code: Code,
    program: Vec<u8>,
    state: Vec<u8>,
}

fn sound(seed: u64, item: u64, rng: &mut Rng) -> Option<Sound> {
    let kinds = ["plain", "other", "programs", "large", "routines", "values"];
    let kind = kinds[item as usize % kinds.len()];
    let bytes = gen::seeded(kind, &mut Rng::new(seed, item));
    let code = match kind {
        "programs" | "routines" => code_of_text(&bytes).expect("a program text")?,
        _ => Code::of_lowered(lower_file(&bytes).ok()?.1),
    };
    let mut machine = code.machine();
    machine.run(rng.below(200) as u64);
    let mut state = marked(state_bytes::SIZE, rng);
    let used = state_bytes::bytes(&mut machine);
    state[..used.len()].copy_from_slice(&used);
    if rng.chance(50) {
        any_state::change(&mut state, code.instrs.len(), rng);
    }
    let program = code.bytes();
    Some(Sound { code, program, state })
}

/// So many calls.
pub fn calls(place: &mut Place, seed: u64, count: u64) -> Result<(), String> {
    let mut item = 0;
    let end = place.calls + count;
    while place.calls < end {
        let mut rng = Rng::new(seed ^ 0xda, item);
        place.comes_from(format!("damaged seed {seed} item {item}"));
        if let Some(sound) = sound(seed, item, &mut rng) {
            for _ in 0..COPIES {
                one(place, &sound, &mut rng)?;
            }
        }
        item += 1;
    }
    Ok(())
}

fn one(place: &mut Place, sound: &Sound, rng: &mut Rng) -> Result<(), String> {
    let (mut program, mut state) = (sound.program.clone(), sound.state.clone());
    match rng.below(12) {
        0 => {}
        1..=5 => damage_program(&mut program, &sound.code, rng),
        6..=10 => damage_state(&mut state, sound.code.instrs.len(), rng),
        _ => {
            damage_program(&mut program, &sound.code, rng);
            damage_state(&mut state, sound.code.instrs.len(), rng);
        }
    }
    resize(&mut program, program_bytes::SIZE, rng);
    resize(&mut state, state_bytes::SIZE, rng);
    match rng.below(10) {
        0 => start(place, &program, &state, rng),
        1 | 2 => read(place, &state, rng),
        _ => run(place, &program, &state, rng),
    }
}

fn resize(buffer: &mut Vec<u8>, size: usize, rng: &mut Rng) {
    buffer.resize(if rng.chance(90) { size } else { length(size, rng) }, 0x6b);
}

fn start(place: &mut Place, program: &[u8], state: &[u8], rng: &mut Rng) -> Result<(), String> {
    let mut expected = state.to_vec();
    let number = calls::start(program, &mut expected);
    place.start(program, state, (number, &expected), rng.chance(50))
}

fn read(place: &mut Place, state: &[u8], rng: &mut Rng) -> Result<(), String> {
    let text = if rng.chance(10) { rng.next() } else { rng.below(66) as u64 };
    let out = marked(length(calls::VALUE, rng), rng);
    let mut expected = out.clone();
    let number = calls::read_name(state, text, &mut expected);
    place.read_name((state, text, &out), (number, &expected), rng.chance(50))
}

fn run(place: &mut Place, program: &[u8], state: &[u8], rng: &mut Rng) -> Result<(), String> {
    let report = marked(length(calls::REPORT, rng), rng);
    let steps = steps(state, rng);
    let (mut left, mut told) = (state.to_vec(), report.clone());
    let number = calls::run(program, &mut left, steps, &mut told);
    let given = (program, state, steps, &report[..]);
    place.run(given, (number, &left, &told), rng.chance(50))
}

/// Few steps; or just as many as the count allows, where those are few, or more than it allows.
fn steps(state: &[u8], rng: &mut Rng) -> u64 {
    let few = rng.pick(&[0, 1, 2, 3, 10, 40]);
    if state.len() < state_bytes::SIZE {
        return few;
    }
    let room = u64::MAX - state_bytes::number_at(state, state_bytes::COUNT);
    match rng.below(6) {
        0 if room < u64::MAX => room + 1,
        1 if room < u64::MAX => room + 1 + rng.next() % (u64::MAX - room),
        2 if room < 100 => room,
        _ => few,
    }
}

/// A value for a byte: an edge of some range, a neighbour, a bit flipped, or any.
fn other(byte: u8, rng: &mut Rng) -> u8 {
    const EDGES: [u8; 20] =
        [0, 1, 2, 3, 4, 5, 6, 7, 14, 15, 16, 17, 24, 25, 63, 64, 95, 96, 127, 255];
    match rng.below(6) {
        0 | 1 => rng.pick(&EDGES),
        2 => byte.wrapping_add(1),
        3 => byte.wrapping_sub(1),
        4 => byte ^ (1 << rng.below(8)),
        _ => rng.next() as u8,
    }
}

fn damage_program(program: &mut [u8], code: &Code, rng: &mut Rng) {
    let count = code.instrs.len();
    let record = |rng: &mut Rng| 16 * rng.below(count.max(1)) + rng.below(16);
    for _ in 0..rng.pick(&[1, 1, 1, 2, 3]) {
        let at = match rng.below(16) {
            0..=8 => record(rng),
            9 => 16 * rng.below(1024) + rng.below(16),
            10 | 11 => program_bytes::POOL + rng.below(16 * 30),
            12 => program_bytes::LABELS + rng.below(2 * (count + 2)).min(2047),
            13 => program_bytes::LABELS + rng.below(2048 + 128),
            14 => program_bytes::COUNT + rng.below(4),
            _ => rng.below(program.len()),
        };
        program[at] = other(program[at], rng);
    }
    if rng.chance(15) {
        exchange_records(program, count, rng);
    }
}

/// A record takes the place of another; the tables stay.
fn exchange_records(program: &mut [u8], count: usize, rng: &mut Rng) {
    if count > 1 {
        let (from, to) = (rng.below(count), rng.below(count));
        program.copy_within(16 * from..16 * from + 16, 16 * to);
    }
}

fn damage_state(state: &mut [u8], count: usize, rng: &mut Rng) {
    if rng.chance(40) {
        any_state::change(state, count, rng);
    }
    for _ in 0..rng.pick(&[0, 1, 1, 1, 2, 3]) {
        let slot = state_bytes::SLOT * rng.below(184);
        let at = match rng.below(16) {
            0..=2 => slot + rng.below(2),
            3 => slot + rng.below(16),
            4 => slot + 16 + rng.below(24),
            5 => slot + 40 + rng.below(192),
            6 => slot + 232 + rng.below(24),
            7 => held_slot(state, rng) + rng.below(256),
            8 => held_slot(state, rng) + rng.below(20),
            9 => state_bytes::CALLS + rng.below(96),
            10 => state_bytes::FUNCTIONS + rng.below(128),
            11 => state_bytes::MARK + rng.below(8),
            12 => state_bytes::COUNT + rng.below(8),
            13 => state_bytes::POSITION + rng.below(4),
            14 => state_bytes::POSITION + rng.below(16),
            _ => rng.below(state.len()),
        };
        state[at] = other(state[at], rng);
    }
}

/// A slot that holds something, if one is found soon.
fn held_slot(state: &[u8], rng: &mut Rng) -> usize {
    let mut slot = 0;
    for _ in 0..30 {
        slot = state_bytes::SLOT * rng.below(184);
        if state[slot] != 0 {
            break;
        }
    }
    slot
}
