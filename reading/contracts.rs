//! The contracts of Rattle's functions, and the names that `requires` and `ensures` cite.
use crate::antt::{import, tokens, Library, Need};
use crate::files::sources;
use crate::list::Functions;
use std::collections::{BTreeMap, BTreeSet};
use std::path::Path;

/// The functions whose contracts are the project's promises, with the files that they stand in.
const PUBLIC: [(&str, &str); 7] = [
    ("crates/engine/src/lib.rt", "sif_lower"),
    ("crates/engine/src/lib.rt", "sif_start"),
    ("crates/engine/src/lib.rt", "sif_run"),
    ("crates/engine/src/lib.rt", "sif_read_name"),
    ("crates/call_list/src/lib.rt", "call_all"),
    ("crates/listing/src/main.rt", "listing"),
    ("crates/numeric/src/lib.rt", "index_of"),
];

/// The leaves as C functions: for `compare/` alone, no promise.
const COMPARED: &str = "crates/leaves/src/lib.rt";

/// What the contracts need: of the public functions, and of all other functions.
pub fn needs(root: &Path, library: &Library) -> Result<(BTreeSet<Need>, BTreeSet<Need>), String> {
    let mut public = BTreeSet::new();
    let mut inner = BTreeSet::new();
    let mut met = 0;
    for (name, text) in sources(root, "rt")? {
        let (imports, aliases) = imported(&text);
        let called_from_c = |function: &str| text.contains(&format!("extern \"C\" fn {function}("));
        for Part { name: function, contract, .. } in parts(&text).into_iter().filter(|p| p.function) {
            let cited = tokens(&contract);
            let promised = PUBLIC.contains(&(name.as_str(), function.as_str()));
            if called_from_c(&function) && !promised && name != COMPARED {
                return Err(format!("{name}: {function} may be called from C, and its contract is on no list"));
            }
            met += usize::from(promised);
            let needed = cited.iter().filter_map(|token| resolve(library, &imports, &aliases, token));
            if promised {
                if let Some(lost) = cited.iter().find(|token| lost(library, &imports, token)) {
                    return Err(format!("{name}: the contract of {function} cites {lost}, which is not found"));
                }
                public.extend(needed);
            } else {
                inner.extend(needed);
            }
        }
    }
    if met == PUBLIC.len() {
        Ok((public, inner))
    } else {
        Err(format!("{met} of {} public functions found", PUBLIC.len()))
    }
}

/// What the tables of docs/CONTRACTS.md have wrong: a function that its crate lacks, promises that are not the public ones.
pub fn listed(root: &Path, promised: &[Functions], inside: &[Functions]) -> Result<Vec<String>, String> {
    let mut held = BTreeSet::new();
    for (path, text) in sources(root, "rt")? {
        let name = path.split('/').nth(1).unwrap_or("").to_string();
        held.extend(parts(&text).into_iter().filter(|p| p.function).map(|p| (name.clone(), p.name)));
    }
    let mut faults = Vec::new();
    let mut told = BTreeSet::new();
    for (row, (names, crates)) in promised.iter().chain(inside).enumerate() {
        for function in names.iter().filter_map(|n| n.split("::").last()) {
            let found = crates.iter().map(|c| (c.clone(), function.to_string())).find(|f| held.contains(f));
            match found {
                Some(f) if row < promised.len() => _ = told.insert(f),
                Some(_) => {}
                None => faults.push(format!("docs/CONTRACTS.md: {} has no function {function}", crates.join(", "))),
            }
        }
    }
    let public = PUBLIC.iter().map(|(path, f)| (path.split('/').nth(1).unwrap_or("").to_string(), f.to_string())).collect();
    if told != public {
        faults.push("docs/CONTRACTS.md: the promises to a caller are not those whose contracts are followed".to_string());
    }
    Ok(faults)
}

pub type Imports = BTreeMap<String, (String, String)>;

pub fn imported(text: &str) -> (Imports, BTreeMap<String, String>) {
    let mut imports = BTreeMap::new();
    let mut aliases = BTreeMap::new();
    for used in text.split("ghost use ").skip(1) {
        let used = used.split(';').next().unwrap_or("");
        import(&used.replace('\n', " "), &mut imports, &mut aliases);
    }
    (imports, aliases)
}

/// A function, or a struct, an enum or a const.
#[derive(Default)]
pub struct Part {
    pub function: bool,
    pub name: String,
    /// of a function, what stands before its contract: parameters and result
    pub signature: String,
    /// `requires` and `ensures`
    pub contract: String,
    /// what is left: of anything but a function all of it
    pub body: String,
}

/// The parts of a file of code. A function's contract is where a line begins with `requires` or `ensures`, up to the end of
/// its braces.
pub fn parts(text: &str) -> Vec<Part> {
    let mut out: Vec<Part> = Vec::new();
    let mut attributes = String::new();
    let mut depth = 0;
    // in what the last part's signature goes on, or in what is no part
    let (mut signature, mut outside) = (false, true);
    for line in text.lines().filter(|l| !l.trim_start().starts_with("//")) {
        let line = line.split(" // ").next().unwrap_or(line);
        if let Some(name) = function(line) {
            out.push(Part { function: true, name, signature: std::mem::take(&mut attributes), ..Part::default() });
            (signature, outside) = (true, false);
        } else if depth == 0 && line.starts_with(|c: char| c.is_alphabetic()) {
            let declared = declared(line);
            outside = declared.is_none();
            if let Some(name) = declared {
                out.push(Part { name, body: std::mem::take(&mut attributes), ..Part::default() });
            }
            signature = false;
        } else if line.starts_with('#') {
            (attributes, outside) = (format!("{attributes} {line}"), true);
        }
        let word = line.trim_start();
        let starts = depth == 0 && (word.starts_with("requires") || word.starts_with("ensures"));
        let Some(part) = out.last_mut() else { continue };
        if starts || depth > 0 {
            part.contract += &format!(" {line}");
            depth += line.matches('{').count();
            depth = depth.saturating_sub(line.matches('}').count());
        } else if !outside {
            signature = signature && !line.starts_with('{');
            let text = if signature { &mut part.signature } else { &mut part.body };
            *text += &format!(" {line}");
            signature = signature && !line.ends_with('{');
        }
    }
    out
}

/// The name that a line at the left declares.
fn declared(line: &str) -> Option<String> {
    let mut words = line.split(|c: char| !c.is_alphanumeric() && c != '_').filter(|w| !w.is_empty() && *w != "pub");
    let kind = words.next()?;
    ["struct", "enum", "const", "static", "type", "impl", "trait"].contains(&kind).then(|| words.next().unwrap_or("").to_string())
}

fn function(line: &str) -> Option<String> {
    let (before, after) = line.split_once("fn ")?;
    let plain = before.split_whitespace().all(|w| ["pub", "extern", "\"C\""].contains(&w));
    let name = after.split('(').next()?.trim();
    plain.then(|| name.to_string())
}

/// A name that is imported from the project, and not found there; structs and enums of src/ are not looked for.
fn lost(library: &Library, imports: &Imports, token: &str) -> bool {
    let Some((module, name)) = imports.get(token) else { return false };
    library.has_crate(module) && !module.contains(".declared.") && library.named(module, name).is_none()
}

pub fn resolve(library: &Library, imports: &Imports, aliases: &BTreeMap<String, String>, token: &str) -> Option<Need> {
    if let Some((module, name)) = imports.get(token) {
        return library.named(module, name);
    }
    let (alias, name) = token.split_once('.')?;
    library.named(aliases.get(alias)?, name)
}
