//! The engine's four calls, linked from its static library, beside the original: see README.md in
//! the folder above.

mod any_state;
mod buffers;
mod case;
mod damaged;
mod engine;
mod guarded;
mod lowering;
mod place;
mod runs;
mod small;

use std::panic::catch_unwind;
use std::process::ExitCode;
use std::time::Instant;

use place::Place;
use runs::Figures;

/// How much is compared.
struct Amount {
    small: usize,
    files: u64,
    damaged_files: u64,
    programs: u64,
    damaged_calls: u64,
}

const GATE: Amount = Amount {
    small: 5,
    files: 40_000,
    damaged_files: 60_000,
    programs: 25_000,
    damaged_calls: 400_000,
};

const WHOLE: Amount = Amount {
    small: 6,
    files: 1_000_000,
    damaged_files: 4_000_000,
    programs: 1_000_000,
    damaged_calls: 10_000_000,
};

fn main() -> ExitCode {
    oracle::refuse::quiet_refusals();
    case::watch_faults();
    let args: Vec<String> = std::env::args().skip(1).collect();
    let words: Vec<&str> = args.iter().map(String::as_str).collect();
    let done = catch_unwind(|| command(&words));
    match done.unwrap_or_else(|_| Err(format!("a panic beside {}", case::last()))) {
        Ok(()) => ExitCode::SUCCESS,
        Err(why) => {
            eprintln!("calls: {why}");
            ExitCode::FAILURE
        }
    }
}

fn command(words: &[&str]) -> Result<(), String> {
    match words {
        ["gate", cases] => all(cases, 2024, &GATE),
        ["whole", cases, seed] => match seed.parse() {
            Ok(seed) => all(cases, seed, &WHOLE),
            Err(_) => Err(format!("not a number: {seed}")),
        },
        ["counts", cases, seed, counts @ ..] => counted(cases, seed, counts),
        _ => Err(String::from("gate CASES; whole CASES SEED; counts CASES SEED and five counts")),
    }
}

/// With counts of one's own, in the order of `Amount`.
fn counted(cases: &str, seed: &str, counts: &[&str]) -> Result<(), String> {
    let number = |word: &&str| word.parse().map_err(|_| format!("not a number: {word}"));
    let seed = number(&seed)?;
    let counts = counts.iter().map(number).collect::<Result<Vec<u64>, String>>()?;
    let [small, files, damaged_files, programs, damaged_calls] = counts[..] else {
        return Err(String::from(
            "five counts: nodes, files, damaged files, programs, damaged calls",
        ));
    };
    let small = small as usize;
    all(cases, seed, &Amount { small, files, damaged_files, programs, damaged_calls })
}

/// Runs one part and prints what it made.
fn part(
    name: &str,
    work: impl FnOnce(&mut Place) -> Result<String, String>,
) -> Result<u64, String> {
    let start = Instant::now();
    let mut place = Place::new();
    let said = work(&mut place).map_err(|why| format!("{name}: {why}"))?;
    let seconds = start.elapsed().as_secs_f64();
    println!("{name}: {said}; 0 differences; {}; {seconds:.0} s", place.figures());
    Ok(place.calls)
}

fn said(f: &Figures) -> String {
    format!(
        "{} programs run ({} done, {} stopped, {} cut off), {} steps, {} of them by VM::run too",
        f.programs, f.done, f.stopped, f.cut, f.steps, f.by_run
    )
}

fn all(cases: &str, seed: u64, amount: &Amount) -> Result<(), String> {
    let mut calls = part("stored", |place| {
        let mut figures = Figures::default();
        let files = lowering::stored(place, cases)?;
        runs::stored(place, cases, &mut figures)?;
        Ok(format!("{files} stored files; {}", said(&figures)))
    })?;
    calls += part("buffers", |place| {
        Ok(format!("{} buffers at the edges of 8, 9 and 10", buffers::all(place)?))
    })?;
    calls += part("small", |place| {
        let mut figures = Figures::default();
        let trees = small::all(place, amount.small, &mut figures)?;
        Ok(format!(
            "all {trees} trees of at most {} nodes, alone and behind an array; {}",
            amount.small,
            said(&figures)
        ))
    })?;
    calls += part("files", |place| {
        let files = lowering::generated(place, seed, amount.files)?;
        Ok(format!("{files} generated files"))
    })?;
    calls += part("damaged files", |place| {
        lowering::damaged(place, cases, seed, amount.damaged_files)?;
        Ok(format!("{} damaged copies", amount.damaged_files))
    })?;
    calls += part("runs", |place| {
        let mut figures = Figures::default();
        runs::generated(place, seed, amount.programs, &mut figures)?;
        Ok(said(&figures))
    })?;
    calls += part("damaged programs and states", |place| {
        damaged::calls(place, seed, amount.damaged_calls)?;
        Ok(format!("{} calls", place.calls))
    })?;
    println!("calls: {calls} calls, every number and every lent byte as by the original");
    Ok(())
}
