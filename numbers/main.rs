//! Refusals, stops, sizes and places: the definitions, the code's constants, include/sif.h, the desk, docs/FORMATS.md and the
//! oracle have the same, by name (numbers/README.md).
#[allow(dead_code)]
#[path = "../reading/files.rs"]
mod files;
mod kinds;
mod layout;
mod literals;
mod trials;
mod words;

use std::collections::BTreeMap;
use std::fs;
use std::path::Path;

/// What is read, by its path.
pub type Texts = BTreeMap<String, String>;

pub type Faults = Vec<String>;

pub const HEADER: &str = "include/sif.h";
pub const FORMATS: &str = "docs/FORMATS.md";

/// A number's name and value.
pub type Numbers = BTreeMap<String, u64>;

fn main() {
    let said = read().and_then(|texts| {
        let said = told(checked(&texts))?;
        let wrong = told(trials::all(&texts, |texts| checked(texts).1))?;
        Ok(format!("{said}; {wrong} wrong edits refused"))
    });
    match said {
        Ok(text) => println!("numbers: {text}"),
        Err(faults) => {
            println!("numbers: {}", faults.join("\nnumbers: "));
            std::process::exit(1);
        }
    }
}

fn told<T>((answer, faults): (T, Faults)) -> Result<T, Faults> {
    if faults.is_empty() {
        Ok(answer)
    } else {
        Err(faults)
    }
}

/// All files that have a number.
fn read() -> Result<Texts, Faults> {
    let mut texts = Texts::new();
    let folders = [("crates", "rt"), ("crates", "antt"), ("rust/src", "rs"), ("oracle/src", "rs"), ("numbers", "txt")];
    let inside = folders.iter().flat_map(|(folder, extension)| files::files(Path::new(folder), extension));
    let paths = inside.map(|path| path.to_string_lossy().into_owned());
    for path in paths.chain([HEADER.to_string(), FORMATS.to_string()]) {
        let text = fs::read_to_string(&path).map_err(|e| vec![format!("{path}: {e}")])?;
        texts.insert(path, text);
    }
    Ok(texts)
}

/// What was held to what, and the faults.
fn checked(texts: &Texts) -> (String, Faults) {
    let mut faults = Faults::new();
    let header = words::header(&texts[HEADER]);
    let named = kinds::checked(texts, &header, &mut faults);
    let count = named.len();
    let listed = layout::checked(texts, &header, &named, &mut faults);
    let left = literals::checked(texts, &mut faults);
    (
        format!("{count} refusals and stops, {listed} sizes, places, limits and kinds; {left} literals left in the code, as listed"),
        faults,
    )
}
