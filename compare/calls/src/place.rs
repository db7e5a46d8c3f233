//! The four calls on guarded buffers, each held against what the original gives.

use oracle::{calls, program_bytes, rng::Rng, state_bytes};

use crate::guarded::Lent;
use crate::{case, engine};

/// Longer buffers have up to so many bytes more.
pub const MORE: usize = 4096;

/// The buffers that are lent, and how often each number was answered.
pub struct Place {
    file: Lent,
    program: Lent,
    state: Lent,
    report: Lent,
    value: Lent,
    pub origin: String,
    pub calls: u64,
    /// Answers 0 to 39 of lower, start, run, read_name.
    pub answers: [[u64; 40]; 4],
}

/// A buffer of such a length filled with marks.
pub fn marked(len: usize, rng: &mut Rng) -> Vec<u8> {
    let mark = rng.next() as u8 | 1;
    (0..len).map(|at| mark.wrapping_add(at as u8)).collect()
}

/// A length for a buffer of a call: mostly its own, sometimes longer, seldom too short.
pub fn length(size: usize, rng: &mut Rng) -> usize {
    match rng.below(40) {
        0 => size - 1,
        1 => rng.below(size),
        2..=5 => size + rng.between(1, MORE),
        _ => size,
    }
}

impl Place {
    pub fn new() -> Place {
        Place {
            file: Lent::new(81_920, 0),
            program: Lent::new(program_bytes::SIZE, MORE),
            state: Lent::new(state_bytes::SIZE, MORE),
            report: Lent::new(calls::REPORT, MORE),
            value: Lent::new(calls::VALUE, MORE),
            origin: String::new(),
            calls: 0,
            answers: [[0; 40]; 4],
        }
    }

    /// Where the next calls come from: kind, seed, item.
    pub fn comes_from(&mut self, origin: String) {
        case::at(&origin);
        self.origin = origin;
    }

    fn answered(&mut self, call: usize, ours: u64, expected: u64) -> Result<(), String> {
        self.calls += 1;
        self.answers[call][ours.min(39) as usize] += 1;
        if ours == expected {
            Ok(())
        } else {
            Err(format!("answered {ours}, not {expected}"))
        }
    }

    /// Lowers a file into a buffer; the original's number and program are given.
    pub fn lower(
        &mut self,
        file: &[u8],
        program: &[u8],
        lowered: &(u64, Vec<u8>),
        at_end: bool,
    ) -> Result<(), String> {
        let mut expected = program.to_vec();
        let mut number = 9;
        if program.len() >= program_bytes::SIZE {
            expected[..program_bytes::SIZE].copy_from_slice(&lowered.1);
            number = lowered.0;
        }
        self.file.lend(file, at_end);
        self.program.lend(program, at_end);
        case::note("lower", None, &[("file", file), ("program", program)]);
        let ours = engine::lower(self.file.bytes(), self.program.bytes());
        let result = self
            .answered(0, ours, number)
            .and_then(|()| self.program.holds("the program", &expected))
            .and_then(|()| self.file.holds("the file", file));
        case::judged(result)
    }

    /// Starts a program; the expected number and state are given.
    pub fn start(
        &mut self,
        program: &[u8],
        state: &[u8],
        expected: (u64, &[u8]),
        at_end: bool,
    ) -> Result<(), String> {
        self.program.lend(program, at_end);
        self.state.lend(state, at_end);
        case::note("start", None, &[("program", program), ("state", state)]);
        let ours = engine::start(self.program.bytes(), self.state.bytes());
        let result = self
            .answered(1, ours, expected.0)
            .and_then(|()| self.state.holds("the state", expected.1))
            .and_then(|()| self.program.holds("the program", program));
        case::judged(result)
    }

    /// Runs a program; the expected number, state and report are given.
    pub fn run(
        &mut self,
        given: (&[u8], &[u8], u64, &[u8]),
        expected: (u64, &[u8], &[u8]),
        at_end: bool,
    ) -> Result<(), String> {
        let (program, state, steps, report) = given;
        self.program.lend(program, at_end);
        self.state.lend(state, at_end);
        self.report.lend(report, at_end);
        let lent = [("program", program), ("state", state), ("report", report)];
        case::note("run", Some(steps), &lent);
        let out = self.report.bytes();
        let ours = engine::run(self.program.bytes(), self.state.bytes(), steps, out);
        let result = self
            .answered(2, ours, expected.0)
            .and_then(|()| self.state.holds("the state", expected.1))
            .and_then(|()| self.report.holds("the report", expected.2))
            .and_then(|()| self.program.holds("the program", program));
        case::judged(result)
    }

    /// Reads a name; the expected number and value are given.
    pub fn read_name(
        &mut self,
        given: (&[u8], u64, &[u8]),
        expected: (u64, &[u8]),
        at_end: bool,
    ) -> Result<(), String> {
        let (state, text, out) = given;
        self.state.lend(state, at_end);
        self.value.lend(out, at_end);
        case::note("read_name", Some(text), &[("state", state), ("out", out)]);
        let ours = engine::read_name(self.state.bytes(), text, self.value.bytes());
        let result = self
            .answered(3, ours, expected.0)
            .and_then(|()| self.value.holds("the value", expected.1))
            .and_then(|()| self.state.holds("the state", state));
        case::judged(result)
    }

    /// How often each call answered what.
    pub fn figures(&self) -> String {
        let names = ["lower", "start", "run", "read_name"];
        let one = |(name, answers): (&str, &[u64; 40])| {
            let all: u64 = answers.iter().sum();
            let each: Vec<String> = (0..40usize)
                .filter(|n| answers[*n] > 0)
                .map(|n| format!("{n}: {}", answers[n]))
                .collect();
            format!("{name} {all} calls ({})", each.join(", "))
        };
        let all = names.into_iter().zip(&self.answers).filter(|(_, a)| a.iter().sum::<u64>() > 0);
        all.map(one).collect::<Vec<String>>().join("; ")
    }
}
