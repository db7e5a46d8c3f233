//! Refusals and stops: the definitions have their names and numbers, and of a stop how many details it has. All other places
//! have the same.
use crate::words::{constant, number, part, upper, word};
use crate::{Faults, Numbers, Texts, FORMATS};

const REFUSALS: &str = "crates/lent/specs/Refusals.antt";
const STOPS: &str = "crates/vm/specs/RuntimeErr.antt";
const CODE: &str = "crates/lent/src/refusal.rt";
const DESK: &str = "rust/src/answer.rs";
const ROWS: &str = "oracle/src/byte_rows.rs";
const DRIVER: &str = "oracle/src/driver.rs";
const REFUSE: &str = "oracle/src/refuse.rs";

/// Refusals of calls that are begun and that no caller has yet: the definitions and the code have them, and nothing else.
const BEGUN: [&str; 1] = ["PROGRAM_FILE_REFUSED"];

/// The names of all of them, which the code and the header have too.
pub fn checked(texts: &Texts, header: &Numbers, faults: &mut Faults) -> Vec<String> {
    let refusals: Numbers = lines(&texts[REFUSALS]).filter_map(|line| equation(line, "")).collect();
    let stops: Numbers = lines(&texts[STOPS]).filter_map(|line| equation(line, "stop_number ")).collect();
    let details: Numbers = lines(&texts[STOPS]).filter_map(counted).collect();
    let mut hold = |place: &str, right: &Numbers, there: Numbers| held(place, right, &there, faults);
    let known =
        |right: &Numbers| header.iter().filter(|(name, _)| right.contains_key(*name)).map(|(n, v)| (n.clone(), *v)).collect();

    hold("crates/lent/src/lib.rt", &Numbers::new(), constants(&texts["crates/lent/src/lib.rt"], "u64"));
    hold("crates/lent/src/refusal.rt, Refusal", &refusals, variants(&texts[CODE], "pub enum Refusal {"));
    let refusals: Numbers = refusals.iter().filter(|(name, _)| !BEGUN.contains(&name.as_str())).map(|(n, v)| (n.clone(), *v)).collect();
    hold("include/sif.h, refusals", &refusals, known(&refusals));
    hold("rust/src/answer.rs, Refusal", &refusals, variants(&texts[DESK], "pub enum Refusal {"));
    hold(REFUSE, &refusals, constants(&texts[REFUSE], "u8"));
    hold("docs/FORMATS.md, Refusals", &refusals, table(&texts[FORMATS], "## Refusals", |row| number(row[1])));

    hold("crates/vm/src/lib.rt", &stops, constants(&texts["crates/vm/src/lib.rt"], "u64"));
    hold("include/sif.h, stops", &stops, known(&stops));
    hold("rust/src/answer.rs, Stop::number", &stops, arms(&texts[DESK], "pub fn number(self) -> u8 {\n        match"));
    hold("rust/src/answer.rs, Stop::decode", &stops, decoded(&texts[DESK]));
    hold("rust/src/answer.rs, the details of Stop", &details, fields(&texts[DESK]));
    hold("docs/FORMATS.md, Stops", &stops, table(&texts[FORMATS], "## Stops", |row| number(row[1])));
    hold(
        "docs/FORMATS.md, the details of Stops",
        &details,
        table(&texts[FORMATS], "## Stops", |row| Some((listed(row[3]), ""))),
    );
    hold("oracle/src/byte_rows.rs", &stops, rows(&texts[ROWS]));
    let own: Numbers = stops.iter().filter(|(_, number)| **number <= 31).map(|(n, v)| (n.clone(), *v)).collect();
    hold("oracle/src/driver.rs", &own, by_original(&texts[DRIVER], |stop| number(stop.split_once('(')?.1).map(|two| two.0)));
    let own: Numbers = details.iter().filter(|(name, _)| own.contains_key(*name)).map(|(n, v)| (n.clone(), *v)).collect();
    hold(
        "oracle/src/driver.rs, details",
        &own,
        by_original(&texts[DRIVER], |stop| Some(stop.split_once("&[").map_or(0, |two| listed(two.1)))),
    );
    refusals.keys().chain(stops.keys()).cloned().chain(BEGUN.map(str::to_string)).collect()
}

/// What lacks, what has another number, and what is no more than there.
fn held(place: &str, right: &Numbers, there: &Numbers, faults: &mut Faults) {
    for (name, number) in right {
        match there.get(name) {
            None => faults.push(format!("{place}: {name}, {number}, is not there")),
            Some(other) if other != number => faults.push(format!("{place}: {name} is {other}, and should be {number}")),
            Some(_) => {}
        }
    }
    let more = there.keys().filter(|name| !right.contains_key(*name));
    faults.extend(more.map(|name| format!("{place}: {name} is not among the definitions")));
}

fn lines(text: &str) -> impl Iterator<Item = &str> {
    text.lines()
}

/// `bad_name = 3`, `stop_number (Name x) = 3`.
fn equation(line: &str, function: &str) -> Option<(String, u64)> {
    let (left, right) = line.strip_prefix(function)?.split_once(" = ")?;
    Some((upper(word(left.trim_start_matches('('))), number(right)?.0))
}

/// `details (Name x) = x ∷ []`.
fn counted(line: &str) -> Option<(String, u64)> {
    let (left, right) = line.strip_prefix("details ")?.split_once(" = ")?;
    Some((upper(word(left.trim_start_matches('('))), right.matches('∷').count() as u64))
}

/// The public constants of a type.
fn constants(text: &str, kind: &str) -> Numbers {
    let public = text.lines().filter_map(|line| constant(line.strip_prefix("pub ")?));
    public.filter(|found| found.1 == kind).map(|(name, _, number)| (name, number)).collect()
}

/// The variants of an enum by their numbers; one without its own has the next.
fn variants(text: &str, start: &str) -> Numbers {
    let all: Vec<&str> = text.lines().collect();
    let mut next = 0;
    let mut out = Numbers::new();
    for line in part(&all, start).map_or(Vec::new(), |found| found.1).into_iter().skip(1).map(str::trim) {
        if line.starts_with(char::is_uppercase) {
            next = line.split_once(" = ").and_then(|two| number(two.1)).map_or(next, |two| two.0);
            out.insert(upper(word(line)), next);
            next += 1;
        }
    }
    out
}

/// `Stop::Name.. => 3,` behind a place in a text, up to the match's end.
fn arms(text: &str, start: &str) -> Numbers {
    let inside = text.split("impl Stop {").nth(1).and_then(|rest| rest.split_once(start)).map_or("", |two| two.1);
    let inside = inside.split("\n        }\n").next().unwrap_or("");
    let arm = |line: &str| {
        let (left, right) = line.trim().strip_prefix("Stop::")?.split_once(" => ")?;
        Some((upper(word(left)), number(right)?.0))
    };
    inside.lines().filter_map(arm).collect()
}

/// `3 => .. Stop::Name ..` of the desk's reading of a report.
fn decoded(text: &str) -> Numbers {
    let inside = text.split("fn decode(number: u8").nth(1).unwrap_or("").split("_ => None").next().unwrap_or("");
    let arm = |line: &str| {
        let (number, rest) = number(line.trim())?;
        Some((upper(word(rest.strip_prefix(" => ")?.split_once("Stop::")?.1)), number))
    };
    inside.lines().filter_map(arm).collect()
}

/// How many fields each variant of the desk's stops has.
fn fields(text: &str) -> Numbers {
    let all: Vec<&str> = text.lines().collect();
    let mut out = Numbers::new();
    let mut last = String::new();
    for line in part(&all, "pub enum Stop {").map_or(Vec::new(), |found| found.1).into_iter().skip(1).map(str::trim) {
        if line.starts_with(char::is_uppercase) {
            last = upper(word(line));
            out.insert(last.clone(), line.contains('(').into());
        } else if line.starts_with(char::is_lowercase) {
            *out.entry(last.clone()).or_default() += 1;
        }
    }
    out
}

/// A table of docs/FORMATS.md below a heading: `| number | NAME | ..`.
fn table<'t>(text: &'t str, heading: &str, value: impl Fn(&[&'t str]) -> Option<(u64, &'t str)>) -> Numbers {
    let all: Vec<&str> = text.lines().collect();
    let rows = part(&all, heading).map_or(Vec::new(), |found| found.1);
    let entry = |line: &'t str| {
        let row: Vec<&str> = line.split('|').map(str::trim).collect();
        number(row.get(1)?)?;
        Some((row.get(2)?.trim_matches('`').to_string(), value(&row)?.0))
    };
    rows.into_iter().filter_map(entry).collect()
}

/// How many things a list between commas names.
fn listed(text: &str) -> u64 {
    let inside = text.split("])").next().unwrap_or("").trim();
    if inside.is_empty() {
        0
    } else {
        inside.split(", ").count() as u64
    }
}

/// `("Name", 3),` of the oracle's rows.
fn rows(text: &str) -> Numbers {
    let entry = |line: &str| {
        let (name, rest) = line.trim().strip_prefix("(\"")?.split_once("\", ")?;
        let (number, end) = number(rest)?;
        (end == "),").then(|| (upper(name), number))
    };
    text.lines().filter_map(entry).collect()
}

/// `RuntimeErrTy::Name.. => Stop::new(3, &[..])` of the oracle: the original's own stops.
fn by_original(text: &str, value: impl Fn(&str) -> Option<u64>) -> Numbers {
    let inside = text.split("fn stop_of_type").nth(1).unwrap_or("");
    let inside = inside.split("\n}\n").next().unwrap_or("");
    let entry = |arm: &str| {
        let stop = arm.split("Stop::").nth(1)?;
        Some((upper(word(arm)), value(stop)?))
    };
    inside.split("RuntimeErrTy::").skip(1).filter_map(entry).collect()
}
