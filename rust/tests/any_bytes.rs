//! No function panics, whatever bytes it is given.

mod scripts;

use scripts::{program_of, records, stored, Random};
use sif::check::{check, Accepted};
use sif::listing::listing;
use sif::page::{self, Layout};
use sif::trace::{trace, Window};
use sif::{Answer, Machine, Name, Program, Refusal};

/// Steps of a run here.
const STEPS: u64 = 200;

/// Bytes with some of them changed.
fn damaged(bytes: &[u8], used: usize, random: &mut Random) -> Vec<u8> {
    let mut bytes = bytes.to_vec();
    for _ in 0..random.between(1, 4) {
        let at = random.below(used.min(bytes.len()));
        bytes[at] = random.pick(&[0, 1, 2, 23, 24, 63, 64, 95, 96, 127, 128, 255]);
    }
    bytes
}

/// Everything that can be asked of a machine.
fn ask(machine: &Machine) {
    for register in 0..=255 {
        machine.register(register);
    }
    for name in Name::all() {
        machine.read(name).unwrap();
        machine.function(name);
    }
    assert_eq!(machine.names().len() as u32, machine.held());
    assert!(machine.stack().len() <= 24 && machine.calls().len() <= 24);
    assert!(machine.position() <= machine.program().count());
}

/// All that the command does with an accepted file.
fn print(accepted: &Accepted) {
    let mut out = Vec::new();
    let script = &accepted.script;
    let mut machine = accepted.program.start().unwrap();
    let window = Window { from: 3, to: 20, steps: STEPS };
    let answer = trace(&mut out, script, &mut machine, window, &mut |_| ()).unwrap();
    for width in [1, 80] {
        let layout = Layout { dots: width == 1, width };
        page::write_names(&mut out, script, &machine, layout).unwrap();
    }
    assert!(!page::end_text(accepted, &machine, answer).is_empty());
    assert!(out.is_ascii() || String::from_utf8(out).is_ok());
}

#[test]
fn files() {
    let mut random = Random::new(1);
    for (number, case) in stored().iter().enumerate().filter(|(_, case)| !case.file.is_empty()) {
        if let Ok(accepted) = check(&case.file) {
            print(&accepted);
        }
        let file = damaged(&case.file, usize::MAX, &mut random);
        match (check(&file), Program::lower(&file)) {
            (Ok(accepted), Ok(_)) => print(&accepted),
            (Err(fault), Err(refusal)) => assert_eq!(fault.number, refusal.number(), "{number}"),
            (ours, theirs) => panic!("{number}: {:?}, {:?}", ours.err(), theirs.err()),
        }
    }
    for _ in 0..20_000 {
        let length = random.below(60);
        let file: Vec<u8> = (0..length).map(|_| random.next() as u8).collect();
        assert_eq!(check(&file).is_ok(), Program::lower(&file).is_ok());
    }
}

/// Damaged programs and states: what is accepted runs, and what is not is a refusal.
#[test]
fn buffers() {
    let mut random = Random::new(2);
    let (mut programs, mut states) = ([0, 0], [0, 0]);
    for (given, answer) in records("programs.bin") {
        if answer.starts_with("refused") {
            continue;
        }
        let (_, bytes) = program_of(&given);
        for _ in 0..4 {
            let bytes = damaged(&bytes, 400, &mut random);
            match Program::from_bytes(&bytes) {
                Err(refusal) => {
                    assert_eq!(refusal, Refusal::ProgramRefused);
                    programs[0] += 1;
                }
                Ok(program) => {
                    programs[1] += 1;
                    assert_eq!(program.instructions().count(), usize::from(program.count()));
                    listing(&program, None).unwrap();
                    let mut machine = program.start().unwrap();
                    machine.run(STEPS).unwrap();
                    ask(&machine);
                    let used = random.pick(&[300, 25_000, 47_360]);
                    let state = damaged(machine.bytes(), used, &mut random);
                    let accepted = from_state(&program, &state);
                    states[usize::from(accepted)] += 1;
                }
            }
        }
    }
    assert!(programs.iter().chain(&states).all(|count| *count > 50), "{programs:?} {states:?}");
}

fn from_state(program: &Program, state: &[u8]) -> bool {
    match Machine::from_bytes(program, state) {
        Err(refusal) => {
            assert_eq!(refusal, Refusal::StateRefused);
            false
        }
        Ok(mut machine) => {
            ask(&machine);
            machine.run(STEPS).unwrap();
            ask(&machine);
            true
        }
    }
}

/// A count that would pass 2^64 − 1 is refused, and the machine stays as it was.
#[test]
fn too_many_steps() {
    let text = "var x\nfor i, v in x:\n    x = 1\n";
    let file = sif::parse::parse(text).unwrap().script.to_bytes();
    let program = Program::lower(&file).unwrap();
    let mut machine = program.start().unwrap();
    machine.run(1).unwrap();
    let before = machine.clone();
    assert_eq!(machine.run(u64::MAX), Err(Refusal::StateRefused));
    assert_eq!(machine, before);
    assert!(matches!(machine.run(u64::MAX - 1).unwrap().answer, Answer::Stopped { .. }));
}
