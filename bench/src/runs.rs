//! Runs: a whole page, the checks alone, and how both grow.

use std::process::Command;

use oracle::calls;
use oracle::lower::lower_file;
use oracle::names::name_of;
use oracle::original::sifc_bytecode::instr::Instr;
use oracle::original::sifc_bytecode::opc::{BinOpKind, JmpOpKind, Op};
use oracle::original::sifc_bytecode::sifv::SifVal;
use oracle::program_bytes::Code;
use oracle::state_bytes;

use crate::engine;
use crate::measure::{best, digits, timed, timed_row, turn, Figures, Group, Plan};
use crate::pages;

type Run = fn(&[u8], &mut [u8], u64, &mut [u8]) -> u64;

const RUNS: [(&str, Run); 3] = [
    ("sif_run", engine::run),
    ("C, one switch", crate::hand::switch),
    ("C, computed goto", crate::hand::threaded),
];

/// A program with a state, lent again and again.
struct Lent {
    program: Vec<u8>,
    state: Vec<u8>,
}

impl Lent {
    fn started(code: &Code) -> Lent {
        let mut state = vec![0; state_bytes::SIZE];
        let program = code.bytes();
        assert_eq!(calls::start(&program, &mut state), 0);
        Lent { program, state }
    }

    /// All of them leave the same state and the same report.
    fn agree(&self, steps: u64) {
        let after = |run: Run| {
            let (mut state, mut report) = (self.state.clone(), [0; calls::REPORT]);
            assert_eq!(run(&self.program, &mut state, steps, &mut report), 0);
            (state, report)
        };
        let first = after(RUNS[0].1);
        RUNS[1..].iter().for_each(|(name, run)| assert!(after(*run) == first, "{name} differs"));
    }

    /// Microseconds of each implementation's call with so many steps, each on a fresh copy.
    fn times(&self, steps: u64, rounds: usize) -> Figures {
        let one = |run: Run| {
            move || {
                let mut report = [0; calls::REPORT];
                timed_row(
                    || self.state.clone(),
                    |state| assert_eq!(run(&self.program, state, steps, &mut report), 0),
                ) / 1000.0
            }
        };
        best(rounds, RUNS.map(|(name, run)| turn(name, one(run))).into_iter().collect())
    }

    /// The same with 0 steps, many calls in a row: nothing changes.
    fn checks(&self, rounds: usize) -> Figures {
        let one = |run: Run| {
            let mut state = self.state.clone();
            let mut report = [0; calls::REPORT];
            move || {
                timed(50, || assert_eq!(run(&self.program, &mut state, 0, &mut report), 0)) / 1000.0
            }
        };
        best(rounds, RUNS.map(|(name, run)| turn(name, one(run))).into_iter().collect())
    }

    /// After so many steps.
    fn after(&self, steps: u64) -> Lent {
        let mut state = self.state.clone();
        let mut report = [0; calls::REPORT];
        assert_eq!(calls::run(&self.program, &mut state, steps, &mut report), 0);
        Lent { program: self.program.clone(), state }
    }
}

fn code_of(folder: &str, page: &str) -> Result<Code, String> {
    let file = pages::file(folder, page)?;
    let (_, lowered) = lower_file(&file).map_err(|number| format!("{page}: refused {number}"))?;
    Ok(Code::of_lowered(lowered))
}

/// Microseconds of a page in Lua, where that is installed, and the number that it leaves.
fn lua(folder: &str, page: &str, rounds: usize) -> Option<(f64, f64)> {
    let script = format!("{folder}/pages.lua");
    let arguments = [&script, page, &rounds.to_string()];
    let run = |lua: &&str| Command::new(lua).args(arguments).output().ok();
    let text = String::from_utf8(["lua5.4", "lua"].iter().find_map(run)?.stdout).ok()?;
    let (time, left) = text.trim().split_once(' ')?;
    Some((time.parse::<f64>().ok()? * 1000.0, left.parse().ok()?))
}

/// The number under a name at a page's end, by the engine.
fn left(folder: &str, page: &str, word: &str, lent: &Lent) -> Result<f64, String> {
    let text = pages::text_number(&pages::file(folder, page)?, word)
        .ok_or(format!("{page}: no {word}"))?;
    let mut value = [0; calls::VALUE];
    let read = engine::read_name(&lent.after(u64::MAX).state, u64::from(text), &mut value);
    match state_bytes::read_slot(&value) {
        Ok(Some(SifVal::Num(number))) if read == 0 => Ok(number),
        _ => Err(format!("{page}: {word} is no number")),
    }
}

/// Microseconds of a whole page, with Lua and the original.
fn whole(
    folder: &str,
    page: &str,
    number: f64,
    lent: &Lent,
    code: &Code,
    rounds: usize,
) -> Figures {
    let mut times = lent.times(u64::MAX, rounds);
    if let Some((time, left)) = lua(folder, page, rounds) {
        assert!(left == number, "{page}: Lua leaves {left}, the engine {number}");
        times.push(("Lua 5.4", time));
    }
    let original = turn("original", || {
        timed_row(|| code.machine(), |machine| assert!(machine.vm.run().is_ok())) / 1000.0
    });
    times.extend(best(rounds.div_ceil(2), vec![original]));
    times
}

const WHOLE: &str = "A whole page, all checks included";
const CHECKS: &str = "The checks of a call: 0 steps";

/// Nanoseconds a step of each page, less the checks, from what was measured.
pub fn steps(groups: &[Group]) -> Group {
    let rows = |title: &'static str| {
        groups.iter().filter(move |group| group.title == title).flat_map(|group| &group.rows)
    };
    let mut steps = Group::new("A step, less the checks", "ns");
    for (row, (name, ..)) in rows(WHOLE).zip(pages::PAGES) {
        let started = format!("{name}, started");
        let checks = rows(CHECKS).filter(|row| row.what == started).flat_map(|row| &row.figures);
        let less = |(whole, checks): (&(&'static str, f64), &(&'static str, f64))| {
            (whole.0, (whole.1 - checks.1) * 1000.0 / row.work)
        };
        steps.row(name, row.work, row.figures.iter().zip(checks).map(less).collect());
    }
    steps
}

fn nops(count: usize) -> Code {
    Code::new((0..count).map(|index| Instr::new(0, Op::Nop, index + 1)).collect(), 0)
}

/// So many instructions of many kinds, with items and parameters.
fn every(count: usize) -> Code {
    let name = || name_of(5);
    let ops = [
        Op::Ldc { dest: 1, val: SifVal::Num(0.5) },
        Op::Stc { val: SifVal::Arr(vec![SifVal::Null; 4]), name: name() },
        Op::Binary { kind: BinOpKind::Lt, src1: 1, src2: 2, dest: 3 },
        Op::Ldn { dest: 1, name: name() },
        Op::JmpCnd { kind: JmpOpKind::Jmpt, src: 3, lblidx: 1 },
        Op::Fn { name: name(), params: vec![name()] },
        Op::Ldav { name: name(), idx_reg: 1, dest: 2 },
        Op::Call { name: name(), param_count: 1 },
        Op::Tbli { tabname: name(), key: name(), src: 1 },
        Op::Str { src: 1, name: name() },
    ];
    let instr = |index: usize| Instr::new(index / 4, ops[index % ops.len()].clone(), index + 1);
    Code::new((0..count).map(instr).collect(), 0)
}

/// A loop without end of so many instructions.
fn endless(count: usize) -> Code {
    let mut ops = vec![Op::Ldc { dest: 0, val: SifVal::Num(0.0) }];
    ops.extend((2..count).map(|_| Op::Incrr { src: 0 }));
    ops.push(Op::Jmpa { lblidx: 1 });
    let label = |index: usize| usize::from(index > 0);
    let instr = |(index, op): (usize, Op)| Instr::new(label(index), op, index + 1);
    Code::new(ops.into_iter().enumerate().map(instr).collect(), 0)
}

/// A state with so many names holding a value, and as many registers.
fn filled(code: &Code, names: usize, registers: usize, value: &SifVal) -> Lent {
    let mut machine = code.machine();
    for text in 0..names {
        machine.vm.heap.insert(name_of(text as u8), value.clone());
    }
    for register in 0..registers {
        machine.vm.dregs.set_contents(register, Some(value.clone()));
    }
    let mut lent = Lent::started(code);
    let bytes = state_bytes::bytes(&mut machine);
    lent.state[..bytes.len()].copy_from_slice(&bytes);
    lent
}

/// A line for the checks of a call; all implementations have first left the same.
fn checks(plan: &mut Plan, what: &str, work: usize, lent: Lent) {
    lent.agree(0);
    plan.line(what, work as f64, move |rounds| lent.checks(rounds));
}

pub fn all(folder: &str) -> Result<Vec<Plan>, String> {
    let (mut whole_pages, mut checked) = (Plan::new(WHOLE, "µs"), Plan::new(CHECKS, "µs"));
    for (name, what, word) in pages::PAGES {
        let code = code_of(folder, name)?;
        let mut machine = code.machine();
        machine.run(u64::MAX);
        let (steps, count) = (machine.count, code.instrs.len());
        let lent = Lent::started(&code);
        let number = left(folder, name, word, &lent)?;
        lent.agree(u64::MAX);
        checks(&mut checked, &format!("{name}, started"), count, Lent::started(&code));
        checks(&mut checked, &format!("{name}, at its end"), count, lent.after(u64::MAX));
        let folder = folder.to_string();
        whole_pages.line(
            &format!("{name}: {what}, {} steps", digits(steps as f64)),
            steps as f64,
            move |rounds| whole(&folder, name, number, &lent, &code, rounds),
        );
    }
    let full = SifVal::Arr(vec![SifVal::Num(1.5); 24]);
    let mixed = [SifVal::Num(1.5), SifVal::Bl(true), SifVal::Null, SifVal::Str(name_of(3))];
    let mixed = SifVal::Arr((0..24).map(|n| mixed[n % 4].clone()).collect());
    let entries = (0..16).map(|key| (name_of(key), SifVal::Num(2.5))).collect();
    let table = SifVal::Tab(entries);
    let small = nops(16);
    for (what, value) in [
        ("numbers", &SifVal::Num(1.0)),
        ("arrays of 24 numbers", &full),
        ("arrays of 24 of mixed kinds", &mixed),
        ("tables of 16 keys", &table),
    ] {
        let what = format!("64 names, 96 registers: {what}");
        checks(&mut checked, &what, 16, filled(&small, 64, 96, value));
    }
    let most = "1,024 instructions, 64 names, 96 registers: arrays";
    checks(&mut checked, most, 1024, filled(&every(1024), 64, 96, &full));
    let mut names = Plan::new("The checks by names held (arrays of 24, 16 instructions)", "µs");
    for count in [0, 16, 32, 48, 64] {
        checks(&mut names, &format!("{count} names"), count, filled(&small, count, 0, &full));
    }
    let mut length = Plan::new("The checks by instructions (of many kinds, no names)", "µs");
    for count in [0, 128, 256, 512, 1024] {
        let lent = Lent::started(&every(count));
        checks(&mut length, &format!("{} instructions", digits(count as f64)), count, lent);
    }
    let mut by_steps = Plan::new("A call by its steps (a loop of 64 instructions)", "µs");
    for count in [0, 100, 1_000, 10_000, 100_000, 1_000_000] {
        let lent = Lent::started(&endless(64));
        lent.agree(count);
        by_steps.line(&format!("{} steps", digits(count as f64)), count as f64, move |rounds| {
            lent.times(count, rounds)
        });
    }
    Ok(vec![whole_pages, checked, names, length, by_steps])
}
