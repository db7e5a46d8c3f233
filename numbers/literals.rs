//! The numbers that are left in the code's functions: numbers/literals.txt says which may be, and what they are.
use crate::words::word;
use crate::{Faults, Texts};
use std::collections::{BTreeMap, BTreeSet};

const LIST: &str = "numbers/literals.txt";

/// How many there are. 0 and 1 are let through everywhere.
pub fn checked(texts: &Texts, faults: &mut Faults) -> usize {
    let mut allowed: BTreeMap<&str, BTreeSet<&str>> = BTreeMap::new();
    for line in texts[LIST].lines().filter(|line| !line.is_empty() && !line.starts_with('#')) {
        let mut words = line.split(": ").next().unwrap_or("").split(' ');
        let path = words.next().unwrap_or("");
        allowed.entry(path).or_default().extend(words);
    }
    let mut count = 0;
    let mut met = BTreeSet::new();
    for (path, text) in texts.iter().filter(|(path, _)| path.ends_with(".rt")) {
        for literal in text.lines().flat_map(literals) {
            count += 1;
            let entry = if literal.starts_with("0x") { "0x*" } else { &literal };
            let fits = allowed.get(path.as_str()).is_some_and(|all| all.contains(entry));
            if met.insert((path.clone(), entry.to_string())) && !fits {
                faults.push(format!("{path}: the literal {literal} is not in {LIST}"));
            }
        }
    }
    for (path, all) in &allowed {
        let gone = all.iter().filter(|literal| !met.contains(&(path.to_string(), literal.to_string())));
        faults.extend(gone.map(|literal| format!("{LIST}: {path} has no literal {literal}")));
    }
    count
}

/// The whole numbers of a line of code, but 0 and 1: no comment, contract, constant, text or fraction.
fn literals(line: &str) -> Vec<String> {
    let code = line.split("//").next().unwrap_or("");
    let first = word(code.trim_start());
    if ["requires", "ensures", "ghost", "const"].contains(&first) || code.trim_start().starts_with("pub const") {
        return Vec::new();
    }
    let code: String = code.split('"').step_by(2).collect();
    let mut out = Vec::new();
    let mut rest = code.as_str();
    while let Some(at) = rest.find(|c: char| c.is_alphanumeric() || c == '_') {
        let end = rest[at..].find(|c: char| !c.is_alphanumeric() && c != '_' && c != '.').map_or(rest.len(), |end| at + end);
        let token = rest[at..end].split("..").next().unwrap_or("");
        let whole = ["usize", "u64", "u16", "u8"].iter().find_map(|kind| token.strip_suffix(kind)).unwrap_or(token);
        if token.starts_with(|c: char| c.is_ascii_digit()) && !whole.contains('.') && !["0", "1"].contains(&whole) {
            out.push(whole.to_string());
        }
        rest = &rest[at + token.len().max(1)..];
    }
    out
}
