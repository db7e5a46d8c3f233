//! The oracle's own forms of programs and states: buffers with a known number, and machines that go
//! through their bytes and back.

use crate::calls;
use crate::driver::Machine;
use crate::gen;
use crate::gen_buffers::{programs, states};
use crate::lower::lower_file;
use crate::program::code_of_text;
use crate::program_bytes::{self, Code};
use crate::rng::Rng;
use crate::state_bytes::{self, Held};

/// Buffers get the number that they are made for; machines of so many scripts and programs, cut off
/// at some step, are read back from their bytes and run on in portions.
pub fn check(seed: u64, count: u64) -> Result<(), String> {
    let buffers = directed()?;
    let (mut machines, mut item) = (0, 0);
    let kinds = ["plain", "other", "large", "texts", "programs", "routines"];
    while machines < count {
        let kind = kinds[item as usize % kinds.len()];
        let bytes = gen::seeded(kind, &mut Rng::new(seed, item));
        let code = match kind {
            "programs" | "routines" => code_of_text(&bytes)?,
            _ => lower_file(&bytes).ok().map(|(_, lowered)| Code::of_lowered(lowered)),
        };
        if let Some(code) = code {
            let mut rng = Rng::new(seed ^ 0xb5, item);
            one(&code, &mut rng).map_err(|why| format!("{kind} seed {seed} item {item}: {why}"))?;
            machines += 1;
        }
        item += 1;
    }
    println!(
        "bytes: {buffers} buffers for 8, 9 and 10 get their numbers; {machines} machines cut at a \
         step are read back from their bytes and run on in portions"
    );
    Ok(())
}

fn expect(what: &str, number: u64, expected: u64) -> Result<(), String> {
    if number == expected {
        Ok(())
    } else {
        Err(format!("{what}: {number}, not {expected}"))
    }
}

fn directed() -> Result<usize, String> {
    let programs = programs();
    for (what, program, number) in &programs {
        let mut state = vec![0; state_bytes::SIZE];
        expect(what, calls::start(program, &mut state), *number)?;
        let short = &program[..program_bytes::SIZE - 1];
        expect(what, calls::start(short, &mut state), 9)?;
        expect(what, calls::start(program, &mut state[..state_bytes::SIZE - 1]), 9)?;
    }
    let sound = Code::read(&programs[0].1).map_err(|_| "the first program")?;
    let lent = states(sound.instrs.len() as u16);
    for (what, state, number) in &lent {
        let mut after = state.clone();
        let mut report = [0; calls::REPORT];
        expect(what, calls::run(&programs[0].1, &mut after, 0, &mut report), *number)?;
        expect(what, calls::run(&programs[0].1, &mut after, 0, &mut report[..47]), 9)?;
        let highest = state_bytes::number_at(state, state_bytes::COUNT) == u64::MAX;
        if highest {
            expect(what, calls::run(&programs[0].1, &mut after, 1, &mut report), 10)?;
        }
    }
    let alone = states(1024);
    for (what, state, number) in &alone {
        let mut value = [0; calls::VALUE];
        expect(what, calls::read_name(state, 63, &mut value), *number)?;
        expect(what, calls::read_name(state, 64, &mut value), 8)?;
        expect(what, calls::read_name(state, 63, &mut value[..255]), 9)?;
    }
    Ok(programs.len() + lent.len() + alone.len())
}

fn one(code: &Code, rng: &mut Rng) -> Result<(), String> {
    let program = code.bytes();
    let read = Code::read(&program).map_err(|_| "its own program is refused")?;
    if read.bytes() != program || read.instrs.len() != code.instrs.len() {
        return Err(String::from("the program is not read back"));
    }
    let steps = rng.below(400) as u64;
    let mut whole = code.machine();
    whole.run(steps);
    let mut cut = code.machine();
    let mut left = steps;
    while left > 0 {
        let portion = left.min(rng.below(90) as u64);
        cut.run(portion);
        left -= portion;
        cut = reread(&mut cut, &read)?;
    }
    if state_bytes::bytes(&mut cut) == state_bytes::bytes(&mut whole) {
        Ok(())
    } else {
        Err(format!("{steps} steps in portions, through the bytes, leave another state"))
    }
}

/// The machine of a machine's bytes.
fn reread(machine: &mut Machine, code: &Code) -> Result<Machine, String> {
    let bytes = state_bytes::bytes(machine);
    let held = Held::read(&bytes, code.instrs.len()).map_err(|_| "its own state is refused")?;
    let mut again = held.machine(code);
    if state_bytes::bytes(&mut again) == bytes {
        Ok(again)
    } else {
        Err(String::from("the state is not read back"))
    }
}
