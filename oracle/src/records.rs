//! Records of stored answers: what is given and what is answered, each behind its length in 4
//! bytes; then the checksum of all that the four calls leave.

use std::fs;

use crate::listing::{listing, whole_machine};
use crate::outcome::{self, Outcome};
use crate::packed::unpacked;
use crate::program_bytes::Code;
use crate::state_bytes::number_at;

pub struct Record {
    pub given: Vec<u8>,
    pub answer: Vec<u8>,
    pub sum: u64,
}

impl Record {
    /// A tree file's.
    pub fn of_file(given: Vec<u8>) -> Record {
        let answer = listing(&given).into_bytes();
        let sum = outcome::of_file(&given).sum;
        Record { given, answer, sum }
    }

    /// A stored program's.
    pub fn of_program(given: Vec<u8>) -> Result<Record, String> {
        let (steps, program) = program(&given)?;
        let answer = run_program(&program, steps).into_bytes();
        let sum = outcome::of_program(&program, steps).sum;
        Ok(Record { given, answer, sum })
    }

    /// The bytes of a record: two lengths, what they tell, the checksum.
    pub fn length(&self) -> usize {
        16 + self.given.len() + self.answer.len()
    }

    pub fn write(&self, out: &mut Vec<u8>) {
        for part in [&self.given, &self.answer] {
            out.extend((part.len() as u32).to_be_bytes());
            out.extend(part);
        }
        out.extend(self.sum.to_be_bytes());
    }
}

/// The steps and the buffer of a stored program: 8 bytes, then the parts.
pub fn program(given: &[u8]) -> Result<(u64, Vec<u8>), String> {
    let (_, parts) = given.split_at_checked(8).ok_or("a stored program is cut off")?;
    Ok((number_at(given, 0), unpacked(parts)?))
}

pub fn outcome_of_program(given: &[u8]) -> Result<Outcome, String> {
    let (steps, program) = program(given)?;
    Ok(outcome::of_program(&program, steps))
}

/// The whole machine after some steps of a program's bytes.
fn run_program(program: &[u8], steps: u64) -> String {
    match Code::read(program) {
        Ok(code) => {
            let mut machine = code.machine();
            let end = machine.run(steps);
            whole_machine(&mut machine, &end)
        }
        Err(number) => format!("refused {number}\n"),
    }
}

/// Computes every stored answer again; the first difference is an error.
pub fn replay(folder: &str) -> Result<(), String> {
    let same = |a: &Record, b: &Record| a.answer == b.answer && a.sum == b.sum;
    let cases = load(folder, "cases.bin")?;
    for (number, case) in cases.iter().enumerate() {
        if !same(&Record::of_file(case.given.clone()), case) {
            return Err(format!("case {number} differs"));
        }
    }
    let programs = load(folder, "programs.bin")?;
    for (number, program) in programs.iter().enumerate() {
        if !same(&Record::of_program(program.given.clone())?, program) {
            return Err(format!("program {number} differs"));
        }
    }
    println!("replay: {} cases and {} programs as stored", cases.len(), programs.len());
    Ok(())
}

pub fn load(folder: &str, name: &str) -> Result<Vec<Record>, String> {
    let bytes = fs::read(format!("{folder}/{name}")).map_err(|e| format!("{name}: {e}"))?;
    let mut out = Vec::new();
    let mut rest = &bytes[..];
    let mut take = |length: usize| {
        let (part, tail) = rest.split_at_checked(length).ok_or(format!("{name} is cut off"))?;
        rest = tail;
        Ok::<(&[u8], bool), String>((part, tail.is_empty()))
    };
    let mut ended = bytes.is_empty();
    while !ended {
        let mut part = || {
            let length = u32::from_be_bytes(take(4)?.0.try_into().expect("4 bytes"));
            Ok::<Vec<u8>, String>(take(length as usize)?.0.to_vec())
        };
        let (given, answer) = (part()?, part()?);
        let (sum, last) = take(8)?;
        out.push(Record { given, answer, sum: number_at(sum, 0) });
        ended = last;
    }
    Ok(out)
}
