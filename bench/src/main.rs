//! The engine's calls measured: see README.md in the folder above.

#[path = "../../compare/calls/src/engine.rs"]
#[allow(dead_code)]
mod engine;
mod hand;
mod lowering;
mod measure;
mod pages;
mod plot;
mod runs;
mod size;
mod stack;
mod table;

use std::process::ExitCode;

fn main() -> ExitCode {
    let args: Vec<String> = std::env::args().skip(1).collect();
    let words: Vec<&str> = args.iter().map(String::as_str).collect();
    let done = match words.as_slice() {
        ["pages", folder] => pages::write(folder),
        [folder, engine, out, rounds] => match rounds.parse() {
            Ok(rounds) => measured(folder, engine, out, rounds),
            Err(_) => Err(format!("not a number: {rounds}")),
        },
        _ => Err(String::from("FOLDER ENGINE OUT ROUNDS, or pages FOLDER")),
    };
    match done {
        Ok(()) => ExitCode::SUCCESS,
        Err(why) => {
            eprintln!("bench: {why}");
            ExitCode::FAILURE
        }
    }
}

/// Measures all, and writes the table and the plot.
fn measured(folder: &str, engine: &str, out: &str, rounds: usize) -> Result<(), String> {
    println!("best of {rounds} rounds in turn; in brackets, how many times the engine's time");
    let mut plans = runs::all(folder)?;
    plans.extend(lowering::all(folder)?);
    let mut groups = measure::measured(rounds, plans);
    groups.insert(1, runs::steps(&groups));
    groups.extend(size::all(engine)?);
    groups.extend(stack::all(folder)?);
    table::write(&format!("{out}/BENCH.md"), rounds, &groups)?;
    plot::write(&format!("{out}/bench.svg"), rounds, &groups)
}
