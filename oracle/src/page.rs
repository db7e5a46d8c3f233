//! A page as examples/page.c prints it, from the original: a line for each name that is set, with the
//! texts of the tree file, and how the run ended.

use crate::driver::{End, Machine};
use crate::listing::{machine_of, STEPS};
use crate::lower::lower_file;
use crate::names::{name_of, text_of};
use crate::original::sifc_bytecode::sifv::SifVal;

/// The stops by number, from 20 to 36.
const STOPS: [&str; 17] = [
    "a name that is not set",
    "nothing to increment",
    "not a number to increment",
    "nothing to decrement",
    "not a number to decrement",
    "a label that is not there",
    "an empty register",
    "an operator on a value of the wrong kind",
    "not an array",
    "a function that is not declared",
    "a return outside a call",
    "an index past the end",
    "an empty register pushed or put into a table",
    "a key that the table does not have",
    "an array or table put inside another",
    "stack full",
    "table full",
];

/// The page of a tree file; the run is given 100,000 steps.
pub fn page(file: &[u8]) -> Result<String, String> {
    let (_, lowered) = lower_file(file).map_err(|number| format!("refused {number}"))?;
    let texts = texts(file);
    let mut machine = machine_of(lowered);
    let end = machine.run(STEPS);
    let mut out = String::new();
    for (text, own) in texts.iter().enumerate() {
        if let Some(value) = machine.vm.heap.get(&name_of(text as u8)) {
            out += &format!("{own} = {}\n", value_text(value, &texts));
        }
    }
    Ok(out + &end_text(&end, &machine))
}

/// The texts of an accepted file.
fn texts(file: &[u8]) -> Vec<String> {
    let nodes = usize::from(file[0]) * 256 + usize::from(file[1]);
    let count = usize::from(file[2]);
    let mut at = 3 + count + 2 * nodes;
    let mut out = Vec::new();
    for length in &file[3..3 + count] {
        let end = at + usize::from(*length);
        out.push(String::from_utf8_lossy(&file[at..end]).to_string());
        at = end;
    }
    out
}

fn value_text(value: &SifVal, texts: &[String]) -> String {
    let text = |name: &String| texts[usize::from(text_of(name))].clone();
    match value {
        SifVal::Num(n) => number_text(*n),
        SifVal::Str(name) => format!("\"{}\"", text(name)),
        SifVal::Bl(true) => String::from("yes"),
        SifVal::Bl(false) => String::from("no"),
        SifVal::Null => String::from("nothing"),
        SifVal::Arr(items) => {
            let items: Vec<String> = items.iter().map(|item| value_text(item, texts)).collect();
            format!("[{}]", items.join(", "))
        }
        SifVal::Tab(map) => {
            let mut keys: Vec<&String> = map.keys().collect();
            keys.sort_by_key(|key| text_of(key));
            let item = |key: &&String| format!("{}: {}", text(key), value_text(&map[*key], texts));
            let items: Vec<String> = keys.iter().map(item).collect();
            format!("{{{}}}", items.join(", "))
        }
    }
}

/// A number as C's `%.17g` writes it.
fn number_text(n: f64) -> String {
    if n.is_nan() {
        return String::from("not a number");
    }
    if n.is_infinite() {
        return String::from(if n < 0.0 { "-inf" } else { "inf" });
    }
    let short = |digits: &str| match digits.contains('.') {
        true => digits.trim_end_matches('0').trim_end_matches('.').to_string(),
        false => digits.to_string(),
    };
    let scientific = format!("{n:.16e}");
    let (digits, exponent) = scientific.split_once('e').expect("an exponent");
    let exponent: i32 = exponent.parse().expect("a number");
    if (-4..17).contains(&exponent) {
        return short(&format!("{n:.*}", (16 - exponent) as usize));
    }
    let sign = if exponent < 0 { '-' } else { '+' };
    format!("{}e{sign}{:02}", short(digits), exponent.abs())
}

fn end_text(end: &End, machine: &Machine) -> String {
    let count = machine.count;
    match end {
        End::Done => format!("done after {count} steps\n"),
        End::Spent => format!("not done after {count} steps\n"),
        End::Stopped { stop, line } => {
            let words = match stop.number {
                38 => "a number that is no index",
                number => STOPS[usize::from(number) - 20],
            };
            format!("stopped after {count} steps at line {line}: {}, {words}\n", stop.number)
        }
    }
}
