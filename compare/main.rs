//! The proved leaves, called as C functions, beside Rust: see README.md in this folder.

mod files;
mod numbers;
#[allow(dead_code)]
#[path = "../oracle/src/reader.rs"]
mod reader;
#[allow(dead_code)]
#[path = "../oracle/src/refuse.rs"]
mod refuse;
#[allow(dead_code)]
#[path = "../oracle/src/rng.rs"]
mod rng;
#[allow(dead_code)]
#[path = "../oracle/src/tree.rs"]
mod tree;

use std::hint::black_box;
use std::process::ExitCode;
use std::time::Instant;

/// From the repository's root.
const CASES: &str = "crates/replay/data/cases.bin";

fn main() -> ExitCode {
    let args: Vec<String> = std::env::args().skip(1).collect();
    let words: Vec<&str> = args.iter().map(String::as_str).collect();
    let done = match words.as_slice() {
        ["check"] => check(),
        ["time"] => time(),
        _ => Err(String::from("check or time")),
    };
    match done {
        Ok(()) => ExitCode::SUCCESS,
        Err(why) => {
            eprintln!("compare: {why}");
            ExitCode::FAILURE
        }
    }
}

fn check() -> Result<(), String> {
    numbers::compare(2024, 2_000_000)?;
    files::compare(CASES, 2024, 500_000)?;
    files::numbers()
}

/// Nanoseconds of one call of f, over all items, so many times.
fn nanoseconds<T: Copy, R>(items: &[T], turns: usize, f: impl Fn(T) -> R) -> f64 {
    let start = Instant::now();
    for _ in 0..turns {
        for &item in items {
            black_box(f(black_box(item)));
        }
    }
    start.elapsed().as_nanos() as f64 / (turns * items.len()) as f64
}

/// The least time of each of the two, measured in turn.
fn least(rounds: usize, ours: impl Fn() -> f64, theirs: impl Fn() -> f64) -> (f64, f64) {
    (0..rounds).fold((f64::MAX, f64::MAX), |(a, b), _| (a.min(ours()), b.min(theirs())))
}

fn time() -> Result<(), String> {
    for (what, pairs) in numbers::timed(7) {
        let ours = || nanoseconds(&pairs, 10, |(a, b)| numbers::modu(a, b));
        let (ours, rust) = least(40, ours, || nanoseconds(&pairs, 10, |(a, b)| a % b));
        println!("remainder, {what}: {ours:.1} ns, Rust {rust:.1} ns, ratio {:.2}", ours / rust);
    }
    for file in files::timed(CASES)? {
        let ours = nanoseconds(&[file.as_slice()], 20_000, files::ours) / 1000.0;
        let rust = nanoseconds(&[file.as_slice()], 2_000, files::theirs) / 1000.0;
        println!("reading {} bytes: {ours:.2} us, the oracle's reader {rust:.2} us, ratio {:.2}", file.len(), ours / rust);
    }
    Ok(())
}
