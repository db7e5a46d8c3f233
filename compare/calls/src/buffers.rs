//! Buffers with each field at its edge and one past it: the number is known from how they are made,
//! and the oracle's reading has to give it too.

use oracle::gen_buffers::{programs, states};
use oracle::program_bytes::SIZE;
use oracle::rng::Rng;
use oracle::{calls, state_bytes};

use crate::place::{marked, Place};

/// The number of the oracle's reading has to be the one that the buffer is made for.
fn known(what: &str, number: u64, expected: u64) -> Result<(), String> {
    if number == expected {
        Ok(())
    } else {
        Err(format!("{what}: the oracle's reading gives {number}, not {expected}"))
    }
}

/// Starts each program buffer and runs each state buffer, with few steps; reads every state buffer.
pub fn all(place: &mut Place) -> Result<usize, String> {
    let programs = programs();
    let mut rng = Rng::new(8, 0);
    for (what, program, number) in &programs {
        place.comes_from(format!("buffer: {what}"));
        let state = marked(state_bytes::SIZE, &mut rng);
        let mut expected = state.clone();
        known(what, calls::start(program, &mut expected), *number)?;
        place.start(program, &state, (*number, &expected), rng.chance(50))?;
        let mut fresh = vec![0; state_bytes::SIZE];
        if *number == 0 {
            fresh.copy_from_slice(&expected);
        }
        run(place, program, &fresh, *number, what, &mut rng)?;
    }
    let program = &programs[0].1;
    let count = usize::from(program[oracle::program_bytes::COUNT + 1]);
    for (what, state, number) in states(count as u16) {
        place.comes_from(format!("buffer: {what}"));
        run(place, program, &state, number, &what, &mut rng)?;
    }
    for (what, state, number) in states(1024) {
        place.comes_from(format!("buffer: {what}"));
        for text in [0, 1, 63] {
            let out = marked(calls::VALUE, &mut rng);
            let mut expected = out.clone();
            known(&what, calls::read_name(&state, text, &mut expected), number)?;
            place.read_name((&state, text, &out), (number, &expected), rng.chance(50))?;
        }
    }
    nothing_lent(place)?;
    Ok(programs.len() + 2 * states(1).len())
}

fn run(
    place: &mut Place,
    program: &[u8],
    state: &[u8],
    number: u64,
    what: &str,
    rng: &mut Rng,
) -> Result<(), String> {
    let room = u64::MAX - state_bytes::number_at(state, state_bytes::COUNT);
    for steps in [0, 1, 2] {
        let report = marked(calls::REPORT, rng);
        let (mut left, mut told) = (state.to_vec(), report.clone());
        let answered = calls::run(program, &mut left, steps, &mut told);
        let expected = if number == 0 && steps > room { 10 } else { number };
        known(what, answered, expected)?;
        let given = (program, state, steps, &report[..]);
        place.run(given, (answered, &left, &told), rng.chance(50))?;
    }
    Ok(())
}

/// Buffers of no bytes at all.
fn nothing_lent(place: &mut Place) -> Result<(), String> {
    place.comes_from(String::from("buffers of no bytes"));
    let file = calls::lowered(&[]);
    place.lower(&[], &[0x11; SIZE], &file, true)?;
    place.lower(&[], &[], &file, false)?;
    place.start(&[], &[], (9, &[]), true)?;
    place.run((&[], &[], 1, &[]), (9, &[], &[]), false)?;
    place.read_name((&[], 0, &[]), (9, &[]), true)
}
