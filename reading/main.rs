//! What a reader has to believe: the files of definitions that the public contracts, the theorems over the definitions in
//! docs/CLAIMS.md and the computed tables need, found by names. Held to the lists of docs/CLAIMS.md and docs/CONTRACTS.md;
//! see reading/README.md. Also what moved between two trees.
mod antt;
mod contracts;
mod files;
mod list;
mod moved;
mod trials;

use antt::{Library, Need};
use moved::Tree;
use std::collections::BTreeSet;
use std::path::Path;

/// Crates of calls that are begun and that no caller has yet: what they need counts as needed, and where their own files stand is
/// not looked at.
pub const BEGUN: [&str; 2] = ["file_calls", "program_file"];

/// Whether a file is of such a crate.
pub fn begun(file: &str) -> bool {
    BEGUN.iter().any(|name| file.split('/').nth(1) == Some(*name))
}

fn main() {
    let args: Vec<String> = std::env::args().skip(1).collect();
    let args: Vec<&str> = args.iter().map(String::as_str).collect();
    let told = match args[..] {
        ["moved", old, new] => compared(old, new, false),
        ["moved", old, new, "--names"] => compared(old, new, true),
        ["trials"] => trials::all().map(|n| format!("reading: {n} small trees, of which reading/moved tells what moved")),
        _ => run(Path::new("."), args.first().unwrap_or(&"")),
    };
    match told {
        Ok(text) => println!("{text}"),
        Err(faults) => {
            for fault in &faults {
                println!("reading: {fault}");
            }
            std::process::exit(1);
        }
    }
}

/// What moved between the trees in two folders.
fn compared(old: &str, new: &str, names: bool) -> Result<String, Vec<String>> {
    let read = |root: &str| Tree::read(Path::new(root)).map_err(|e| vec![e]);
    Ok(moved::compare(&read(old)?, &read(new)?, names).trim_end().to_string())
}

/// The whole check: the line to print, or what is wrong.
fn run(root: &Path, show: &str) -> Result<String, Vec<String>> {
    let library = Library::read(root).map_err(|e| vec![e])?;
    let claims = list::Claims::read(root).map_err(|e| vec![e])?;
    let (public, inner) = contracts::needs(root, &library).map_err(|e| vec![e])?;
    let mut faults = contracts::listed(root, &claims.promised, &claims.inside).map_err(|e| vec![e])?;
    let mut roots: BTreeSet<Need> = public;
    roots.extend(stated(&library, &claims.theorems, &mut faults));
    let told = stated(&library, &claims.inner_theorems, &mut faults);
    let inner: BTreeSet<Need> = inner.union(&told).copied().collect();
    for (table, file) in &claims.rows {
        if library.item(file, table).is_none() {
            faults.push(format!("docs/CLAIMS.md: {file} has no {table}"));
        }
    }
    for file in &claims.tables {
        match library.whole(file) {
            Some(needs) => roots.extend(needs),
            None => faults.push(format!("docs/CLAIMS.md: there is no {file}")),
        }
    }
    faults.extend(library.unseen(&roots.union(&told).copied().collect()));
    let needed = library.definitions_of(&library.closure(&roots));
    let cited = library.definitions_of(&library.closure(&inner));
    if show == "show" {
        return Ok(shown(&library, &needed, &cited));
    }
    let later: BTreeSet<Need> = library.all().iter().filter(|file| begun(file)).filter_map(|file| library.whole(file)).flatten().collect();
    let later = library.definitions_of(&library.closure(&later));
    let used: BTreeSet<Need> = needed.union(&cited).copied().collect();
    faults.extend(library.shared_names(&used));
    let used: BTreeSet<Need> = used.union(&later).copied().collect();
    let believed: BTreeSet<String> = library.files(&needed).difference(&claims.tables).cloned().collect();
    let cited: BTreeSet<String> = library.files(&cited).into_iter().filter(|file| !begun(file)).collect();
    faults.extend(library.spare(&believed, &used));
    for (theorem, file) in &claims.inner_theorems {
        let need = library.item(file, theorem);
        if need.is_some_and(|need| library.files_for(&BTreeSet::from([need])).is_subset(&believed)) {
            faults.push(format!("docs/CLAIMS.md: {theorem} needs no inner definition, and belongs among the theorems over the definitions"));
        }
    }
    faults.extend(claims.compare(&believed, &cited, &library.files_for(&told), &library));
    if faults.is_empty() {
        Ok(format!(
            "reading: {} files, {} lines to believe, as docs/CLAIMS.md lists them; {} further files that inner contracts and theorems cite, as docs/CONTRACTS.md does",
            believed.len(),
            library.lines(&believed),
            cited.difference(&believed).count()
        ))
    } else {
        Err(faults)
    }
}

/// The theorems of a list, where their files have them.
fn stated(library: &Library, theorems: &[(String, String)], faults: &mut Vec<String>) -> BTreeSet<Need> {
    let mut out = BTreeSet::new();
    for (theorem, file) in theorems {
        match library.item(file, theorem) {
            Some(need) => _ = out.insert(need),
            None => faults.push(format!("docs/CLAIMS.md: {file} has no {theorem}")),
        }
    }
    out
}

/// Each file of definitions and laws with what it is needed for, for a person who writes the list.
fn shown(library: &Library, needed: &BTreeSet<Need>, cited: &BTreeSet<Need>) -> String {
    let mut out = String::new();
    for file in library.all() {
        let believe = library.names(needed, &file);
        let inner = library.names(cited, &file);
        let (definitions, laws) = library.counts(&file);
        out += &format!("{file}: {definitions} definitions, {laws} laws; to believe: {}; inner: {}\n", believe.join(" "), inner.join(" "));
    }
    out
}
