//! What the program `replay` has to print, by the original.

use std::fmt::Write;

use crate::cases::shown;
use crate::driver::End;
use crate::outcome::{of_file, Outcome};
use crate::records::{load, outcome_of_program, Record};

/// An answer's place in the order of the counts, and its words.
fn answer(outcome: &Outcome) -> (u64, String) {
    match (outcome.refused, &outcome.end) {
        (0, End::Done) => (0, String::from("done")),
        (0, End::Spent) => (11, String::from("spent")),
        (0, End::Stopped { stop, .. }) => {
            (u64::from(stop.number), format!("stopped {}", stop.number))
        }
        (number, _) => (number, format!("refused {number}")),
    }
}

/// The lines of a list of outcomes, each beside the stored checksum.
fn lines(what: &str, list: &[(Outcome, u64)]) -> String {
    let mut out = format!("{what}: {}\n", list.len());
    let mut answers: Vec<(u64, String)> = list.iter().map(|(one, _)| answer(one)).collect();
    answers.sort();
    for same in answers.chunk_by(|a, b| a == b) {
        writeln!(out, "{}: {}", same[0].1, same.len()).expect("writing to a string");
    }
    let sum = |of: fn(&Outcome) -> u64| list.iter().map(|(one, _)| of(one)).sum::<u64>();
    let stored = list.iter().filter(|(one, stored)| one.sum == *stored).count();
    out += &format!("steps: {}\nnames held: {}\n", sum(|one| one.steps), sum(|one| one.held));
    out += &format!("in portions as in one run: {}\n", sum(|one| u64::from(one.portions)));
    out + &format!("every byte as stored: {stored}\n")
}

/// Everything that it prints.
pub fn text(folder: &str) -> Result<String, String> {
    let files = load(folder, "cases.bin")?;
    let programs = load(folder, "programs.bin")?;
    let of_record = |one: &Record| (of_file(&one.given), one.sum);
    let files: Vec<(Outcome, u64)> = files.iter().map(of_record).collect();
    let of_record = |one: &Record| Ok((outcome_of_program(&one.given)?, one.sum));
    let programs = programs.iter().map(of_record).collect::<Result<Vec<_>, String>>()?;
    let mut out = String::new();
    for ((name, _), (one, _)) in shown().iter().zip(&files) {
        writeln!(out, "{name}, {}: 1", answer(one).1).expect("writing to a string");
    }
    Ok(out + &lines("files", &files) + &lines("programs", &programs))
}
