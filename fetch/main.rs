//! Document 02, M-102: nothing on the way from the run loop to a record multiplies, divides or takes a remainder but by
//! a power of two. By the source (`source.rs`) and by the compiled code (`code.rs`); see fetch/README.md.
mod code;
#[path = "../reading/files.rs"]
mod files;
mod source;
mod trials;
mod words;

use source::{Edit, Sources};
use std::collections::BTreeMap;
use std::fs;
use std::path::Path;

/// The run loop: a turn of it reads one to four records and carries out what they say.
const LOOP: &str = "run::turns";

/// The only function of its crate that computes where a record is.
const PLACE: &str = "opc::place";

/// The instructions that carry out Mul and Div in place, each with the sign of the source.
const IN_PLACE: [(&str, &str); 2] = [("mulsd", "*"), ("divsd", "/")];

/// What carries out an operation: the functions, and by whom each is called.
pub type Operations = BTreeMap<String, Vec<String>>;

fn main() {
    let words: Vec<String> = std::env::args().skip(1).collect();
    let words: Vec<&str> = words.iter().map(String::as_str).collect();
    let said = match words[..] {
        ["source", list] => listed(list).and_then(|operations| source_and_trials(&operations)),
        ["show", list] => listed(list).and_then(|operations| shown(&read(&operations, None)?, &operations)),
        ["code", list, dump] => listed(list).and_then(|operations| by_code(&read(&operations, None)?, dump, &operations)),
        _ => Err(vec!["usage: fetch source LIST, fetch show LIST, or fetch code LIST DUMP".to_string()]),
    };
    match said {
        Ok(text) => println!("fetch: {text}"),
        Err(faults) => {
            println!("fetch: {}", faults.join("\nfetch: "));
            std::process::exit(1);
        }
    }
}

/// An answer, or what is wrong.
pub fn told<T>(answer: T, faults: Vec<String>) -> Result<T, Vec<String>> {
    if faults.is_empty() {
        Ok(answer)
    } else {
        Err(faults)
    }
}

/// The functions of the list, each with those that call it.
fn listed(path: &str) -> Result<Operations, Vec<String>> {
    let text = fs::read_to_string(path).map_err(|e| vec![format!("{path}: {e}")])?;
    let mut out = Operations::new();
    for line in text.lines().filter(|line| !line.starts_with('#')) {
        let entry = line.split_once(": ").and_then(|(entry, _)| entry.split_once(" <- "));
        let (name, callers) = entry.ok_or_else(|| vec![format!("{path}: not an entry: {line}")])?;
        out.insert(name.to_string(), callers.split(' ').map(str::to_string).collect());
    }
    Ok(out)
}

/// The sources, which have all functions that are named here.
fn read(operations: &Operations, edit: Option<&Edit>) -> Result<Sources, Vec<String>> {
    let sources = Sources::read(Path::new("."), edit).map_err(|e| vec![e])?;
    let named = operations.keys().map(String::as_str).chain([LOOP, PLACE]);
    let lost: Vec<String> = named.filter(|name| !sources.has(name)).map(|name| format!("there is no function {name}")).collect();
    told(sources, lost)
}

/// The check, and that it refuses wrong code.
fn source_and_trials(operations: &Operations) -> Result<String, Vec<String>> {
    let said = by_source(&read(operations, None)?, operations)?;
    let wrong = trials::all(|edit| by_source(&read(operations, Some(edit))?, operations))?;
    Ok(format!("{said}; {wrong} wrong edits refused"))
}

/// Follows the calls of the source.
fn by_source(sources: &Sources, operations: &Operations) -> Result<String, Vec<String>> {
    let (met, mut faults) = sources.reached(LOOP, operations);
    faults.extend(operations.iter().flat_map(|(name, callers)| misused(sources, name, callers)));
    let mut count = 0;
    for name in &met {
        for product in sources.products(name) {
            count += 1;
            if !product.power {
                faults.push(format!("{name} multiplies, divides or takes a remainder by no power of two: {}", product.shown));
            } else if name.starts_with("opc::") && name != PLACE {
                faults.push(format!("{name} computes a place beside {PLACE}: {}", product.shown));
            }
        }
    }
    if !met.contains(PLACE) {
        faults.push(format!("{LOOP} does not come to {PLACE}"));
    }
    let said = format!(
        "{} functions of the source from {LOOP} on, {count} products, quotients and remainders, each by a power of two",
        met.len()
    );
    told(said, faults)
}

/// A listed function that is called from elsewhere, or is given a buffer.
fn misused(sources: &Sources, name: &str, callers: &[String]) -> Vec<String> {
    let mut left = callers.to_vec();
    let mut faults = Vec::new();
    for caller in sources.callers(LOOP, name) {
        match left.iter().position(|listed| *listed == caller) {
            Some(at) => _ = left.remove(at),
            None => faults.push(format!("{caller} calls {name}, and is not listed for it")),
        }
    }
    faults.extend(left.iter().map(|caller| format!("{caller} is listed for {name}, and does not call it")));
    if sources.takes_buffer(name) {
        faults.push(format!("{name} carries out an operation, and is given a buffer"));
    }
    faults
}

/// Follows the calls of the compiled code. Where Mul and Div are carried out in place, the run loop has an instruction
/// for each: no more than the source has ways to them.
fn by_code(sources: &Sources, dump: &str, operations: &Operations) -> Result<String, Vec<String>> {
    let code = code::Code::read(&fs::read_to_string(dump).map_err(|e| vec![format!("{dump}: {e}")])?);
    let code::Reached { functions, instructions, products, mut faults } = code.reached(LOOP, operations);
    let mut said = format!("{functions} functions of the code from {LOOP} on, {instructions} instructions");
    for (word, sign) in IN_PLACE {
        let most = sources.copies(&[LOOP], operations, sign);
        let found = products.iter().filter(|(name, _)| name == word).count();
        said += &format!(", {found} {word} for {most} `{sign}` of two numbers");
        if found > most {
            faults.push(format!("{found} {word}, and the source has {most} ways to `{sign}` of two numbers"));
        }
    }
    for (word, place) in products {
        if IN_PLACE.iter().all(|(allowed, _)| word != *allowed) {
            faults.push(place);
        }
    }
    told(said + ", nothing else that multiplies or divides", faults)
}

/// The functions that the check by the source looks at, each with its products.
fn shown(sources: &Sources, operations: &Operations) -> Result<String, Vec<String>> {
    let line = |name: &String| {
        let products: Vec<String> = sources.products(name).into_iter().map(|product| product.shown).collect();
        format!("\n{name}  {}", products.join("  |  "))
    };
    Ok(sources.reached(LOOP, operations).0.iter().map(line).collect())
}
