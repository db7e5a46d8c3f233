//! Sizes, places and limits: numbers/list.txt says where each stands.
use crate::words::{constant, found, number, part};
use crate::{Faults, Numbers, Texts, FORMATS};
use std::collections::{BTreeMap, BTreeSet};

const LIST: &str = "numbers/list.txt";

/// A number of the list.
struct Entry<'t> {
    name: &'t str,
    in_code: bool,
    in_header: bool,
    /// path and phrase
    places: Vec<(&'t str, &'t str)>,
}

/// A file of the list, and whether all its numbers are listed.
type Files<'t> = BTreeMap<&'t str, (&'t str, bool)>;

/// How many numbers the list has. `named`: refusals and stops, which it does not have.
pub fn checked(texts: &Texts, header: &Numbers, named: &[String], faults: &mut Faults) -> usize {
    let (files, entries) = read(&texts[LIST], faults);
    let code = code(texts, faults);
    let mut covered = BTreeSet::new();
    let mut values = Numbers::new();
    for entry in &entries {
        let mut numbers = Vec::new();
        match code.get(entry.name) {
            Some(number) if entry.in_code => numbers.push(("the code".to_string(), *number)),
            None if !entry.in_code => {}
            Some(_) => faults.push(format!("{LIST}: {} is a constant of the code", entry.name)),
            None => faults.push(format!("the code: {} is not there", entry.name)),
        }
        match header.get(entry.name) {
            Some(number) if entry.in_header => numbers.push(("include/sif.h".to_string(), *number)),
            None if !entry.in_header => {}
            Some(_) => faults.push(format!("{LIST}: {} is in the header", entry.name)),
            None => faults.push(format!("include/sif.h: {} is not there", entry.name)),
        }
        for (path, phrase) in &entry.places {
            match &standing(&texts[*path], phrase)[..] {
                [(line, number)] => {
                    covered.insert((*path, *line));
                    numbers.push((format!("{path}, `{phrase}`"), *number));
                }
                places => faults.push(format!("{path}: {} is there {} times: `{phrase}`", entry.name, places.len())),
            }
        }
        let right = numbers.first().map_or(0, |(_, number)| *number);
        for (place, _) in numbers.iter().filter(|(_, number)| *number != right) {
            faults.push(format!("{}: {right} in {}, and another number in {place}", entry.name, numbers[0].0));
        }
        values.insert(entry.name.to_string(), right);
    }
    let more = |there: &Numbers, named: &[String]| {
        let known = |name: &&String| values.contains_key(*name) || named.contains(name) || *name == "OK";
        there.keys().filter(|name| !known(name)).cloned().collect::<Vec<_>>()
    };
    faults.extend(more(&code, named).iter().map(|name| format!("the code: {name} is not listed")));
    faults.extend(more(header, named).iter().map(|name| format!("include/sif.h: {name} is not listed")));
    let own: Vec<&str> = files.values().filter(|(_, whole)| !whole).map(|(path, _)| *path).collect();
    for (path, text) in texts.iter().filter(|(path, _)| path.ends_with(".rs") && !own.contains(&path.as_str())) {
        for (at, line) in text.lines().enumerate() {
            let known = |name: &String| covered.contains(&(path.as_str(), at)) || named.contains(name);
            let more = constant(line).filter(|(name, ..)| !known(name));
            faults.extend(more.map(|(name, ..)| format!("{path}: {name} is not listed")));
        }
    }
    longest(&values, faults);
    tables(&texts[FORMATS], faults);
    entries.len()
}

fn read<'t>(text: &'t str, faults: &mut Faults) -> (Files<'t>, Vec<Entry<'t>>) {
    let mut files = Files::new();
    let mut entries: Vec<Entry> = Vec::new();
    for line in text.lines().filter(|line| !line.is_empty() && !line.starts_with('#')) {
        let (first, rest) = line.trim_start().split_once(' ').unwrap_or((line.trim(), ""));
        if let (true, Some((name, path))) = (["=", "~"].contains(&first), rest.split_once(' ')) {
            files.insert(name, (path, first == "="));
        } else if !line.starts_with(' ') {
            let name = first.trim_matches(['(', ')']);
            entries.push(Entry { name, in_code: name == first, in_header: rest == "header", places: Vec::new() });
        } else if let (Some((path, _)), Some(entry)) = (files.get(first), entries.last_mut()) {
            entry.places.push((path, rest));
        } else {
            faults.push(format!("{LIST}: not a place: {line}"));
        }
    }
    (files, entries)
}

/// The public constants of all crates that are numbers. One that stands twice is a fault.
fn code(texts: &Texts, faults: &mut Faults) -> Numbers {
    let mut out = Numbers::new();
    for (path, text) in texts.iter().filter(|(path, _)| path.ends_with(".rt")) {
        for (name, _, number) in text.lines().filter_map(|line| constant(line.strip_prefix("pub ")?)) {
            if out.insert(name.clone(), number).is_some() {
                faults.push(format!("{path}: {name} is a constant of another file too"));
            }
        }
    }
    out
}

/// Where a phrase stands in a text, or in a part of it, and the numbers there.
fn standing(text: &str, phrase: &str) -> Vec<(usize, u64)> {
    let lines: Vec<&str> = text.lines().collect();
    let (first, lines, phrase) = match phrase.split_once(" > ") {
        Some((start, phrase)) => part(&lines, start).map_or((0, Vec::new(), phrase), |(first, lines)| (first, lines, phrase)),
        None => (0, lines, phrase),
    };
    found(&lines, phrase).into_iter().map(|(at, number)| (first + at, number)).collect()
}

/// The longest file: node and text count, a length and a text each, an entry and a body each.
fn longest(values: &Numbers, faults: &mut Faults) {
    let value = |name: &str| values.get(name).copied().unwrap_or(0);
    let texts = value("TEXTS") * (1 + value("TEXT_BYTES"));
    let nodes = value("NODES") * (value("NODE_SIZE") + value("NUMBER_SIZE"));
    if value("FILE_LENGTHS") + texts + nodes != value("FILE_LONGEST") {
        faults.push("FILE_LONGEST: the limits of a file come to another number".to_string());
    }
}

/// The tables of places in docs/FORMATS.md: each row begins where the one before ends, and the last ends with the whole.
fn tables(text: &str, faults: &mut Faults) {
    let (mut size, mut at, mut inside) = (0, 0, false);
    for line in text.lines() {
        let cells: Vec<&str> = line.split('|').map(str::trim).collect();
        if cells.len() < 4 {
            if inside && at != size {
                faults.push(format!("{FORMATS}: a table ends at {at}, and what it lays out has {size} bytes"));
            }
            (inside, at) = (false, 0);
            let last = line.match_indices(" bytes").filter_map(|(end, _)| number(line[..end].rsplit(' ').next()?)).last();
            size = last.map_or(size, |(number, _)| number);
        } else if cells[1] == "offset" {
            inside = true;
        } else if inside && !cells[1].starts_with('-') {
            let each = if cells[2].is_empty() { size - at } else { product(cells[2]) };
            for offset in cells[1].split(", ").map(|cell| number(cell).map(|two| two.0)) {
                if offset != Some(at) {
                    faults.push(format!("{FORMATS}: a row that should begin at {at}: {line}"));
                }
                at += each;
            }
        }
    }
}

/// `1,024 × 16`, `1 each`, `6`.
fn product(cell: &str) -> u64 {
    cell.split(" × ").filter_map(|factor| number(factor).map(|two| two.0)).product()
}
