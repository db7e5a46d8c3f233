//! What the engine's four calls leave of a stored file or program, by the original.

use crate::calls::{lowered, report_bytes, value_of};
use crate::driver::{End, Machine};
use crate::listing::STEPS;
use crate::names::name_of;
use crate::program_bytes::Code;
use crate::state_bytes;

pub struct Outcome {
    /// 0, or the number that refuses it.
    pub refused: u64,
    pub end: End,
    pub steps: u64,
    pub held: u64,
    /// Whether the steps in portions leave the same.
    pub portions: bool,
    pub sum: u64,
}

/// A checksum over words of 8 bytes.
#[derive(Clone, Copy, Default)]
struct Sum(u64);

impl Sum {
    fn word(self, word: u64) -> Sum {
        let mut sum = self.0.wrapping_add(word);
        sum ^= sum << 13;
        sum ^= sum >> 7;
        sum ^= sum << 17;
        Sum(sum)
    }

    fn bytes(self, bytes: &[u8]) -> Sum {
        bytes.chunks_exact(8).fold(self, |sum, word| sum.word(state_bytes::number_at(word, 0)))
    }
}

/// A tree file, with the listing's steps.
pub fn of_file(file: &[u8]) -> Outcome {
    let (number, program) = lowered(file);
    let sum = Sum::default().word(number).bytes(&program);
    match number {
        0 => ran(&Code::read(&program).expect("a lowered program"), STEPS, sum),
        _ => refused(number, sum),
    }
}

/// A program's bytes, with so many steps.
pub fn of_program(program: &[u8], steps: u64) -> Outcome {
    match Code::read(program) {
        Ok(code) => ran(&code, steps, Sum::default()),
        Err(number) => refused(u64::from(number), Sum::default().word(u64::from(number))),
    }
}

fn refused(number: u64, sum: Sum) -> Outcome {
    Outcome { refused: number, end: End::Done, steps: 0, held: 0, portions: false, sum: sum.0 }
}

/// The whole state buffer, over zeros.
fn state(machine: &mut Machine) -> Vec<u8> {
    let mut out = state_bytes::bytes(machine);
    out.resize(state_bytes::SIZE, 0);
    out
}

fn ran(code: &Code, steps: u64, sum: Sum) -> Outcome {
    let mut machine = code.machine();
    let end = machine.run(steps);
    let left = state(&mut machine);
    let sum = sum.word(0).word(0).bytes(&report_bytes(&end, machine.count)).bytes(&left);
    let values = (0..64).map(|text| value_of(&machine, &name_of(text)));
    let sum = values.fold(sum, |sum, value| sum.word(0).bytes(&value));
    let mut other = code.machine();
    let portions = [steps / 7, steps / 3, steps - steps / 7 - steps / 3];
    let ends = portions.map(|portion| other.run(portion));
    Outcome {
        refused: 0,
        steps: machine.count,
        held: machine.vm.heap.len() as u64,
        portions: ends[2] == end && state(&mut other) == left,
        end,
        sum: sum.0,
    }
}
