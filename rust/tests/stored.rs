//! The stored cases: what the original answers to tree files and programs, beside this crate.

mod scripts;

use scripts::generator::NOT_FINITE;
use scripts::{program_of, records, stored};
use sif::check::check;
use sif::listing::{end_text, listing, names_text, refused, value_text};
use sif::parse::parse;
use sif::{Answer, Machine, Name, Program, Refusal};

#[test]
fn listings() {
    for (number, case) in stored().iter().enumerate() {
        let text = match check(&case.file) {
            Ok(accepted) => listing(&accepted.program, accepted.bound).unwrap(),
            Err(fault) => refused(fault.number),
        };
        assert_eq!(text, case.listing, "stored case {number}");
    }
}

/// Programs that no tree yields: the whole machine after their steps, by the machine's accessors.
#[test]
fn programs() {
    let programs = records("programs.bin");
    assert_eq!(programs.len(), 1568);
    for (number, (given, answer)) in programs.iter().enumerate() {
        let (steps, bytes) = program_of(given);
        assert_eq!(whole_machine(&bytes, steps), *answer, "stored program {number}");
    }
}

/// The machine as oracle/README.md describes its text.
fn whole_machine(bytes: &[u8], steps: u64) -> String {
    let program = match Program::from_bytes(bytes) {
        Ok(program) => program,
        Err(refusal) => return format!("refused {}\n", refusal.number()),
    };
    assert_eq!(program.bytes(), bytes);
    let mut machine = program.start().unwrap();
    let report = machine.run(steps).unwrap();
    assert_eq!(Machine::from_bytes(&program, machine.bytes()).as_ref(), Ok(&machine));
    let mut out = end_text(report.answer, machine.steps());
    out += &names_text(&machine);
    for name in Name::all() {
        let (read, kept) = (machine.read(name).unwrap(), machine.name(name));
        assert_eq!(read.as_ref().map(value_text), kept.as_ref().map(value_text));
    }
    for register in 0..Machine::REGISTERS {
        if let Some(value) = machine.register(register) {
            out += &format!("reg {register} {}\n", value_text(&value));
        }
    }
    let stack: String = machine.stack().iter().map(|v| format!(" {}", value_text(v))).collect();
    let calls: String = machine.calls().iter().map(|position| format!(" {position}")).collect();
    out += &format!("stack{stack}\ncalls{calls}\n");
    for name in Name::all() {
        if let Some(index) = machine.function(name) {
            out += &format!("fn {} {index}\n", name.number());
        }
    }
    out + &format!("position {}\ncount {}\n", machine.position(), machine.steps())
}

/// Programs from before document 02's M-104 run as they did: a literal that no tree file has now,
/// in Stc, in an array's item and in Ldc, stays what it was, and every NaN is one.
#[test]
fn literals_that_are_not_finite() {
    let rows = [
        ("var x = 2\n", 8, "held 1\nname 1 V\n"),
        ("var x = [2, 3]\n", 16_384 + 16 + 8, "held 1\nname 1 Arr:[Num:4000000000000000,V]\n"),
        ("x = 2 * 1\n", 8, "held 1\nname 1 V\n"),
    ];
    for (text, at, names) in rows {
        for pattern in NOT_FINITE {
            let lowered = Program::lower(&parse(text).unwrap().script.to_bytes()).unwrap();
            let mut bytes = lowered.bytes().to_vec();
            bytes[at..at + 8].copy_from_slice(&pattern.to_be_bytes());
            let program = Program::from_bytes(&bytes).unwrap();
            let mut machine = program.start().unwrap();
            assert_eq!(machine.run(100).unwrap().answer, Answer::Done);
            let word = if f64::from_bits(pattern).is_nan() { 0x7ff8 << 48 } else { pattern };
            let expected = names.replace('V', &format!("Num:{word:016x}"));
            assert_eq!(names_text(&machine), expected, "{text}{pattern:016x}");
        }
    }
}

/// Each refusal of a buffer.
#[test]
fn wrong_lengths() {
    let zeros = Program::from_bytes(&[0; Program::SIZE]).unwrap();
    let state = zeros.start().unwrap().bytes().to_vec();
    for length in [0, 1, 47, 48, 255, 40_959, 40_961, 65_535, 65_536, 65_537, 1 << 20] {
        let long = length > Program::SIZE;
        let expected = if long { Refusal::ProgramRefused } else { Refusal::BufferTooShort };
        assert_eq!(Program::from_bytes(&vec![0; length]), Err(expected), "{length}");
    }
    for length in [0, 1, 40_960, 65_535] {
        let refused = Machine::from_bytes(&zeros, &state[..length]);
        assert_eq!(refused, Err(Refusal::BufferTooShort), "{length}");
    }
    let longer = [&state[..], &[0]].concat();
    assert_eq!(Machine::from_bytes(&zeros, &longer), Err(Refusal::StateRefused));
}
