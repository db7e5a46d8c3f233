//! The lists of docs/CLAIMS.md (the files to read, the theorems, the computed tables) and of docs/CONTRACTS.md (the
//! functions, the files that only inner contracts cite).
use crate::antt::Library;
use std::collections::BTreeSet;
use std::fs;
use std::path::Path;

pub struct Claims {
    pub believed: BTreeSet<String>,
    pub cited: BTreeSet<String>,
    pub theorems: Vec<(String, String)>,
    /// those that speak of what only inner contracts cite
    pub inner_theorems: Vec<(String, String)>,
    pub tables: BTreeSet<String>,
    /// the tables by name, with their files
    pub rows: Vec<(String, String)>,
    /// the functions that the project promises, and those inside the engine: names, and the crates that have them
    pub promised: Vec<Functions>,
    pub inside: Vec<Functions>,
    /// the lines to believe, as the document says
    lines: Option<usize>,
    /// the lines of inner definitions that the theorems over what the code holds need beside them
    inner_lines: Option<usize>,
}

/// Functions of a row, by their names, and the crates of that row.
pub type Functions = (Vec<String>, Vec<String>);

/// The rows of the tables under a heading, as cells.
fn rows(text: &str, heading: &str) -> Vec<Vec<String>> {
    let mut out = Vec::new();
    let mut inside = false;
    for line in text.lines() {
        if line.starts_with('#') {
            inside = line.trim_start_matches('#').trim() == heading;
        } else if inside && line.starts_with('|') && !line.starts_with("|---") {
            out.push(line.trim_matches('|').split('|').map(|c| c.trim().to_string()).collect());
        }
    }
    out
}

/// What stands between back quotes.
fn quoted(cell: &str) -> Vec<String> {
    cell.split('`').skip(1).step_by(2).map(str::to_string).collect()
}

fn files(text: &str, heading: &str, column: usize) -> BTreeSet<String> {
    rows(text, heading).iter().filter_map(|row| row.get(column)).flat_map(|c| quoted(c)).filter(|f| f.ends_with(".antt")).collect()
}

/// The names of a table's first column, each with its file in the second.
fn named(text: &str, heading: &str) -> Vec<(String, String)> {
    let mut out = Vec::new();
    for row in rows(text, heading) {
        if let [names, places, ..] = &row[..] {
            let places = quoted(places);
            for (i, name) in quoted(names).into_iter().enumerate() {
                if let Some(place) = places.get(i).or(places.last()) {
                    out.push((name, place.clone()));
                }
            }
        }
    }
    out
}

/// The functions of a table, but those that stand for several (`leaf_…`).
fn functions(text: &str, heading: &str) -> Vec<Functions> {
    let whole = |names: Vec<String>| names.into_iter().filter(|n| !n.contains('…')).collect();
    rows(text, heading).iter().skip(1).filter_map(|row| Some((whole(quoted(row.first()?)), quoted(row.get(1)?)))).collect()
}

impl Claims {
    pub fn read(root: &Path) -> Result<Claims, String> {
        let document = |path: &str| fs::read_to_string(root.join(path)).map_err(|e| format!("{path}: {e}"));
        let (text, contracts) = (document("docs/CLAIMS.md")?, document("docs/CONTRACTS.md")?);
        Ok(Claims {
            believed: files(&text, "Definitions, in reading order", 0),
            cited: files(&contracts, "What only inner contracts cite", 0),
            promised: functions(&contracts, "The promises to a caller"),
            inside: functions(&contracts, "Inside the engine"),
            tables: files(&text, "Computed tables", 1),
            theorems: named(&text, "Theorems over the definitions"),
            inner_theorems: named(&text, "Theorems over what the code holds"),
            rows: named(&text, "Computed tables"),
            lines: number(&text, " lines to believe"),
            inner_lines: number(&text, " lines of inner definitions"),
        })
    }

    /// What the lists lack, and what they have that nothing needs.
    pub fn compare(&self, believed: &BTreeSet<String>, cited: &BTreeSet<String>, told: &BTreeSet<String>, library: &Library) -> Vec<String> {
        let mut faults = Vec::new();
        let inner: BTreeSet<String> = cited.difference(believed).cloned().collect();
        for (list, needed, what) in [
            (&self.believed, believed, "the reading list of docs/CLAIMS.md"),
            (&self.cited, &inner, "the list of inner definitions in docs/CONTRACTS.md"),
        ] {
            for file in needed.difference(list) {
                faults.push(format!("{what} lacks {file}"));
            }
            for file in list.difference(needed) {
                faults.push(format!("{what} has {file}, which nothing needs"));
            }
        }
        faults.extend(misplaced(library, believed, &inner));
        let more = library.lines(&told.difference(believed).cloned().collect());
        if self.inner_lines != Some(more) {
            faults.push(format!("the theorems over what the code holds need {more} lines of inner definitions"));
        }
        let lines = library.lines(believed);
        if self.lines != Some(lines) {
            faults.push(format!("there are {lines} lines to believe"));
        }
        faults
    }
}

/// Files of definitions and laws that do not stand where they belong, and laws among definitions.
fn misplaced(library: &Library, believed: &BTreeSet<String>, inner: &BTreeSet<String>) -> Vec<String> {
    let mut faults = Vec::new();
    for file in library.all().into_iter().filter(|file| !crate::begun(file)) {
        let (definitions, laws) = library.counts(&file);
        if definitions + laws == 0 {
            continue;
        }
        let folder = if believed.contains(&file) {
            "specs"
        } else if inner.contains(&file) {
            "specs/inner"
        } else {
            "specs/laws"
        };
        let inside = file.split_once("/specs/").map(|(_, rest)| rest);
        let stands = match inside.map(|rest| rest.split_once('/')) {
            Some(None) => "specs",
            Some(Some(("inner", _))) => "specs/inner",
            // proofs/laws has laws too
            _ => "specs/laws",
        };
        if folder != stands {
            faults.push(format!("{file} belongs into {folder}"));
        }
        if folder != "specs/laws" && laws > 0 {
            faults.push(format!("{file} has {laws} laws among its definitions"));
        }
    }
    faults
}

/// The number before some words.
fn number(text: &str, words: &str) -> Option<usize> {
    let (before, _) = text.split_once(words)?;
    before.split_whitespace().last()?.replace(',', "").parse().ok()
}
