//! The program `oracle`: see README.md beside this folder.

use oracle::{
    bytes, cases, compare, counts, examples, gen, listing, listings, mutants, page, program,
    records, refuse, rows, special, store,
};
use std::io::{self, Read, Write};
use std::process::ExitCode;

fn main() -> ExitCode {
    refuse::quiet_refusals();
    let args: Vec<String> = std::env::args().skip(1).collect();
    let words: Vec<&str> = args.iter().map(String::as_str).collect();
    match command(&words) {
        Ok(()) => ExitCode::SUCCESS,
        Err(why) => {
            eprintln!("oracle: {why}");
            ExitCode::FAILURE
        }
    }
}

fn command(words: &[&str]) -> Result<(), String> {
    match words {
        ["list"] => print(&listing::listing(&input()?)),
        ["examples", folder] => examples::write(folder),
        ["page"] => print(&page::page(&input()?)?),
        ["state", steps] => print(&listing::state_of_file(&input()?, number(steps)?)),
        ["program"] => print(&program::run_text(&input_text()?, None)?),
        ["program", steps] => print(&program::run_text(&input_text()?, Some(number(steps)?))?),
        ["walk"] => print(&compare::walk_text(&input()?, listing::STEPS)?),
        ["walk", steps] => print(&compare::walk_text(&input()?, number(steps)?)?),
        ["compare", seed, count] => compare::compare(number(seed)?, number(count)?),
        ["small", nodes] => compare::small(number(nodes)? as usize),
        ["bytes", seed, count] => bytes::check(number(seed)?, number(count)?),
        ["runs", seed, count] => compare::runs(number(seed)?, number(count)?),
        ["gen", seed, count, kind, target] => {
            gen::generate(number(seed)?, number(count)? as usize, kind, target)
        }
        ["store", folder] => store::store(folder),
        ["replay", folder] => records::replay(folder),
        ["listings", program, folder, seed, count, scratch] => {
            listings::check(program, folder, number(seed)?, number(count)?, scratch)
        }
        ["counts", folder] => print(&counts::text(folder)?),
        ["rows", folder] => rows::check(folder),
        ["faults", seed] => store::faults(number(seed)?),
        ["special", seed, count] => special::check(number(seed)?, number(count)?),
        ["mutants", sources, list, cases, scratch] => mutants::run(sources, list, cases, scratch),
        ["cases"] => cases::check(),
        _ => Err(String::from("unknown command; README.md lists the commands")),
    }
}

fn number(word: &str) -> Result<u64, String> {
    word.parse().map_err(|_| format!("not a number: {word}"))
}

fn input() -> Result<Vec<u8>, String> {
    let mut bytes = Vec::new();
    io::stdin().read_to_end(&mut bytes).map_err(|e| e.to_string())?;
    Ok(bytes)
}

fn input_text() -> Result<String, String> {
    String::from_utf8(input()?).map_err(|e| e.to_string())
}

fn print(text: &str) -> Result<(), String> {
    io::stdout().write_all(text.as_bytes()).map_err(|e| e.to_string())
}
