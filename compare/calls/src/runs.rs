//! `start`, `run` and `read_name` on the programs of trees and on other programs: after every call
//! all bytes, beside the original's machine, which goes the same steps.

use oracle::calls;
use oracle::driver::{End, Machine};
use oracle::lower::lower_file;
use oracle::names::name_of;
use oracle::program::code_of_text;
use oracle::program_bytes::{self, Code};
use oracle::rng::Rng;
use oracle::{gen, records, state_bytes};

use crate::place::{length, marked, Place, MORE};

#[derive(Default)]
pub struct Figures {
    pub programs: u64,
    pub done: u64,
    pub stopped: u64,
    pub cut: u64,
    pub by_run: u64,
    pub steps: u64,
}

/// How the steps are given.
#[derive(Clone, Copy)]
enum Plan {
    Whole,
    Portions,
    Single,
}

/// A program that runs: the engine's buffers and the original's machine.
struct Beside<'p> {
    place: &'p mut Place,
    code: &'p Code,
    machine: Machine,
    program: Vec<u8>,
    /// The whole buffer as it has to be.
    state: Vec<u8>,
}

fn longer(size: usize, rng: &mut Rng) -> usize {
    if rng.chance(15) {
        size + rng.between(1, MORE)
    } else {
        size
    }
}

impl Beside<'_> {
    fn start<'p>(
        place: &'p mut Place,
        code: &'p Code,
        rng: &mut Rng,
    ) -> Result<Beside<'p>, String> {
        let mut program = marked(longer(program_bytes::SIZE, rng), rng);
        program[..program_bytes::SIZE].copy_from_slice(&code.bytes());
        let before = marked(longer(state_bytes::SIZE, rng), rng);
        let machine = code.machine();
        let mut beside = Beside { place, code, machine, program, state: before.clone() };
        beside.expect();
        let (program, state) = (&beside.program, &beside.state);
        beside.place.start(program, &before, (0, state), rng.chance(50))?;
        Ok(beside)
    }

    /// Brings the expected state to the machine's.
    fn expect(&mut self) {
        let bytes = state_bytes::bytes(&mut self.machine);
        self.state[..bytes.len()].copy_from_slice(&bytes);
    }

    fn run(&mut self, steps: u64, rng: &mut Rng) -> Result<End, String> {
        let before = self.state.clone();
        let count = self.machine.count;
        let end = self.machine.run(steps);
        self.expect();
        let report = marked(longer(calls::REPORT, rng), rng);
        let mut expected = report.clone();
        let told = calls::report_bytes(&end, self.machine.count - count);
        expected[..calls::REPORT].copy_from_slice(&told);
        if rng.chance(5) {
            self.read_back(&before, steps, &expected)?;
        }
        let given = (&self.program[..], &before[..], steps, &report[..]);
        self.place.run(given, (0, &self.state, &expected), rng.chance(50))?;
        Ok(end)
    }

    /// The original's machine, read from the state's bytes, leaves the same.
    fn read_back(&self, before: &[u8], steps: u64, expected: &[u8]) -> Result<(), String> {
        let mut state = before.to_vec();
        let mut report = expected.to_vec();
        let number = calls::run(&self.program, &mut state, steps, &mut report);
        if number == 0 && state == self.state && report == expected {
            Ok(())
        } else {
            Err(format!("the oracle's reading of its own state ({})", self.place.origin))
        }
    }

    /// A read, or a call that is refused, between the runs.
    fn between(&mut self, rng: &mut Rng) -> Result<(), String> {
        match rng.below(4) {
            0 | 1 => self.read(rng),
            2 => self.too_short(rng),
            _ => self.out_of_range(rng),
        }
    }

    fn read(&mut self, rng: &mut Rng) -> Result<(), String> {
        let text = match rng.below(8) {
            0 => rng.pick(&[64, 65, 255, 256, u64::MAX]),
            _ => rng.below(64) as u64,
        };
        let out = marked(length(calls::VALUE, rng), rng);
        let mut expected = out.clone();
        let number = if out.len() < calls::VALUE {
            9
        } else if text > 63 {
            8
        } else {
            let value = calls::value_of(&self.machine, &name_of(text as u8));
            expected[..calls::VALUE].copy_from_slice(&value);
            0
        };
        let given = (&self.state[..], text, &out[..]);
        self.place.read_name(given, (number, &expected), rng.chance(50))
    }

    /// Each buffer too short in turn: 9, and nothing is written.
    fn too_short(&mut self, rng: &mut Rng) -> Result<(), String> {
        let shorter =
            |size: usize, rng: &mut Rng| if rng.chance(50) { size - 1 } else { rng.below(size) };
        let which = rng.below(5);
        let mut cut = |own: usize, bytes: &[u8], size: usize| {
            let len = if which == own { shorter(size, rng) } else { bytes.len() };
            bytes[..len].to_vec()
        };
        let program = cut(0, &self.program, program_bytes::SIZE);
        let state = cut(1, &self.state, state_bytes::SIZE);
        let report = cut(2, &[0x5a; calls::REPORT], calls::REPORT);
        let state_alone = cut(3, &self.state, state_bytes::SIZE);
        let at_end = rng.chance(50);
        match which {
            0..=2 => {
                let given = (&program[..], &state[..], 7, &report[..]);
                self.place.run(given, (9, &state, &report), at_end)?;
                if which < 2 {
                    self.place.start(&program, &state, (9, &state), at_end)?;
                }
                Ok(())
            }
            3 => {
                let out = [0xa5; calls::VALUE];
                self.place.read_name((&state_alone, 64, &out), (9, &out), at_end)
            }
            _ => {
                let out = marked(rng.below(calls::VALUE), rng);
                self.place.read_name((&self.state, 64, &out), (9, &out), at_end)
            }
        }
    }

    /// A byte of the program or of the state out of range, or too many steps: 8 or 10, and nothing
    /// is written.
    fn out_of_range(&mut self, rng: &mut Rng) -> Result<(), String> {
        let report = marked(calls::REPORT, rng);
        let (mut program, mut state) = (self.program.clone(), self.state.clone());
        let (steps, number) = match rng.below(3) {
            0 => {
                program[program_bytes::COUNT] = 0xff;
                (rng.next(), 8)
            }
            1 => {
                state[state_bytes::POSITION + rng.pick(&[0, 2, 3, 4, 9, 15])] = 0xff;
                (rng.next(), 10)
            }
            _ if self.machine.count > 0 => (u64::MAX - self.machine.count + 1, 10),
            _ => return Ok(()),
        };
        let given = (&program[..], &state[..], steps, &report[..]);
        self.place.run(given, (number, &state, &report), rng.chance(50))
    }

    /// Gives the steps by the plan; answers whether the end was reached.
    fn go(&mut self, plan: Plan, most: u64, rng: &mut Rng) -> Result<End, String> {
        let mut left = most;
        let mut end = self.run(0, rng)?;
        let mut portion_size = rng.pick(&[2, 7, 30, 200, 2000]);
        while left > 0 {
            let portion = match plan {
                Plan::Whole => left,
                Plan::Portions => left.min(rng.below(portion_size) as u64),
                Plan::Single => 1,
            };
            end = self.run(portion, rng)?;
            left -= portion;
            if rng.chance(12) {
                self.between(rng)?;
            }
            if portion > 0 && end != End::Spent {
                break;
            }
            portion_size += portion_size / 8;
        }
        // Once more: done again, the same stop again, or a few steps further.
        self.run(rng.pick(&[0, 1, 5]), rng)?;
        Ok(end)
    }

    /// The original's own `run` from the start leaves the same bytes.
    fn by_original(&mut self, end: &End) -> Result<bool, String> {
        if !self.machine.is_reached_by_original(end) {
            return Ok(false);
        }
        let stop = match end {
            End::Stopped { stop, .. } => Some(stop.clone()),
            _ => None,
        };
        let mut whole = self.code.machine();
        let ended = whole.run_by_original().err();
        whole.count = self.machine.count;
        let bytes = state_bytes::bytes(&mut whole);
        if ended == stop && bytes == self.state[..bytes.len()] {
            Ok(true)
        } else {
            Err(format!("VM::run and the stepped original differ ({})", self.place.origin))
        }
    }
}

/// One program: started and run by one plan.
pub fn one(
    place: &mut Place,
    code: &Code,
    rng: &mut Rng,
    most: u64,
    figures: &mut Figures,
) -> Result<(), String> {
    let plan = match rng.below(20) {
        0..=9 => Plan::Whole,
        10..=18 => Plan::Portions,
        _ => Plan::Single,
    };
    let most = if matches!(plan, Plan::Single) { most.min(300) } else { most };
    let mut beside = Beside::start(place, code, rng)?;
    let end = beside.go(plan, most, rng)?;
    figures.by_run += u64::from(beside.by_original(&end)?);
    figures.programs += 1;
    figures.steps += beside.machine.count;
    match end {
        End::Done => figures.done += 1,
        End::Stopped { .. } => figures.stopped += 1,
        End::Spent => figures.cut += 1,
    }
    Ok(())
}

/// All stored cases and programs, with the listing's steps.
pub fn stored(place: &mut Place, folder: &str, figures: &mut Figures) -> Result<(), String> {
    for (item, case) in records::load(folder, "cases.bin")?.iter().enumerate() {
        if let Ok((_, lowered)) = lower_file(&case.given) {
            place.comes_from(format!("stored case {item}"));
            let mut rng = Rng::new(2, item as u64);
            one(place, &Code::of_lowered(lowered), &mut rng, 100_000, figures)?;
        }
    }
    for (item, stored) in records::load(folder, "programs.bin")?.iter().enumerate() {
        if let Ok(code) = Code::read(&records::program(&stored.given)?.1) {
            place.comes_from(format!("stored program {item}"));
            one(place, &code, &mut Rng::new(3, item as u64), 1000, figures)?;
        }
    }
    Ok(())
}

/// So many programs: of trees by the seed, and by the seed themselves.
pub fn generated(
    place: &mut Place,
    seed: u64,
    count: u64,
    figures: &mut Figures,
) -> Result<(), String> {
    let kinds =
        ["plain", "other", "values", "texts", "large", "programs", "rows", "routines", "rows"];
    let mut item = 0;
    while figures.programs < count {
        let mut rng = Rng::new(seed, item);
        let kind = kinds[item as usize % kinds.len()];
        place.comes_from(format!("{kind} seed {seed} item {item}"));
        item += 1;
        let bytes = gen::seeded(kind, &mut rng);
        let code = match kind {
            "programs" | "routines" | "rows" => code_of_text(&bytes)?,
            _ => lower_file(&bytes).ok().map(|(_, lowered)| Code::of_lowered(lowered)),
        };
        if let Some(code) = code {
            let most = rng.pick(&[0, 1, 20, 200, 2000, 2000]);
            one(place, &code, &mut rng, most, figures)?;
        }
    }
    Ok(())
}
