//! The rows of the computed tables on bytes (`Rows.antt` in proofs/ of opc, tables, vm and boundary,
//! `Written.antt` of opc, `Reports.antt` of vm and `Lowered.antt` of boundary) and on numbers (`Rows.antt` of numeric): each is answered
//! by the original, by the oracle's own reader or writer of its bytes, by the driver's rule, or by
//! Rust's `is_finite`.

use std::collections::HashMap;

use crate::calls;
use crate::driver::{exact_index, End, Stop};
use crate::listing::op_text;
use crate::program::code_of_text;
use crate::program_bytes::{self, Code};
use crate::rows::instr_text;
use crate::state_bytes::{read_slot, Held, SLOT};

/// A row's words: brackets are words of their own.
struct Words<'t> {
    left: std::vec::IntoIter<&'t str>,
    named: &'t HashMap<String, Vec<u8>>,
}

fn words(text: &str) -> Vec<&str> {
    let mut out = Vec::new();
    for mut word in text.split_whitespace() {
        while let Some(at) = word.find(['(', ')']) {
            if at > 0 {
                out.push(&word[..at]);
            }
            out.push(&word[at..at + 1]);
            word = &word[at + 1..];
        }
        if !word.is_empty() {
            out.push(word);
        }
    }
    out
}

/// A number's last so many bytes; it may have more than 8.
fn big_endian(width: usize, number: &str) -> Result<Vec<u8>, String> {
    let wrong = || format!("not {width} bytes: {number}");
    let hex = match number.strip_prefix("0x") {
        Some(hex) => hex.to_string(),
        None => format!("{:x}", number.parse::<u64>().map_err(|_| wrong())?),
    };
    let hex = hex.trim_start_matches('0');
    let padded = format!("{hex:0>0$}", 2 * width);
    if padded.len() != 2 * width {
        return Err(wrong());
    }
    let digits = |at: usize| u8::from_str_radix(&padded[at..at + 2], 16).map_err(|_| wrong());
    (0..2 * width).step_by(2).map(digits).collect()
}

impl<'t> Words<'t> {
    fn of(text: &'t str, named: &'t HashMap<String, Vec<u8>>) -> Words<'t> {
        Words { left: words(text).into_iter(), named }
    }

    fn next(&mut self) -> Result<&'t str, String> {
        self.left.next().ok_or(String::from("a row breaks off"))
    }

    fn expect(&mut self, word: &str) -> Result<(), String> {
        match self.next()? {
            found if found == word => Ok(()),
            found => Err(format!("{found} where {word} should be")),
        }
    }

    fn number(&mut self) -> Result<u64, String> {
        let word = self.next()?;
        word.parse().map_err(|_| format!("no number: {word}"))
    }

    fn truth(&mut self) -> Result<bool, String> {
        let word = self.next()?;
        word.parse().map_err(|_| format!("neither true nor false: {word}"))
    }

    /// A number by its bits.
    fn float(&mut self) -> Result<f64, String> {
        let word = self.next()?;
        let bits = word.strip_prefix("0x").and_then(|hex| u64::from_str_radix(hex, 16).ok());
        bits.map(f64::from_bits).ok_or(format!("no bits: {word}"))
    }

    /// One run of bytes, or several as a list.
    fn runs(&mut self) -> Result<Vec<u8>, String> {
        Ok(match self.next()? {
            "zeros" => vec![0; self.number()? as usize],
            "replicate" => {
                let count = self.number()? as usize;
                vec![u8::try_from(self.number()?).map_err(|_| "no byte")?; count]
            }
            "be_bytes" => {
                let width = self.number()? as usize;
                big_endian(width, self.next()?)?
            }
            "concat" => {
                self.expect("(")?;
                let mut out = Vec::new();
                while !self.left.as_slice().starts_with(&["[]"]) {
                    out.extend(self.runs()?);
                    self.expect("∷")?;
                }
                self.expect("[]")?;
                self.expect(")")?;
                out
            }
            word => return Err(format!("no bytes: {word}")),
        })
    }

    /// A buffer: a name, or runs in brackets.
    fn buffer(&mut self) -> Result<Vec<u8>, String> {
        match self.next()? {
            "(" => {
                let out = self.runs()?;
                self.expect(")")?;
                Ok(out)
            }
            name => self.named.get(name).cloned().ok_or(format!("no buffer: {name}")),
        }
    }

    /// What stands before the proof.
    fn rest(self) -> Result<String, String> {
        let text = self.left.as_slice().join(" ");
        let rest = text.strip_suffix("refl ∷").ok_or(format!("a row cannot be read: {text}"))?;
        Ok(rest.trim_end().to_string())
    }

    fn end(self) -> Result<(), String> {
        match self.rest()?.as_str() {
            "" => Ok(()),
            rest => Err(format!("a row cannot be read: {rest}")),
        }
    }
}

/// The lines of a file's lists of such rows, without comments.
fn lists<'t>(table: &'t str, of: &str) -> Result<Vec<&'t str>, String> {
    let mut lines = Vec::new();
    for behind in table.split(&format!(" : List {of}\n")).skip(1) {
        let (_, list) = behind.split_once(" =\n").ok_or(format!("no list of {of}"))?;
        let (list, _) = list.split_once("\n    []\n").ok_or(format!("no end of a list of {of}"))?;
        lines.extend(list.lines().map(str::trim).filter(|line| !line.starts_with("--")));
    }
    if lines.is_empty() {
        return Err(format!("no rows of {of}"));
    }
    Ok(lines)
}

/// The buffers that a file names: `name = runs` behind `abbrev name : List ℕ`.
fn buffers(table: &str) -> Result<HashMap<String, Vec<u8>>, String> {
    let mut out = HashMap::new();
    let none = HashMap::new();
    for part in table.split("\nabbrev ").skip(1) {
        let Some((name, behind)) = part.split_once(" : List ℕ\n") else { continue };
        let line = behind.lines().next().unwrap_or("");
        let runs = line.strip_prefix(&format!("{name} = ")).ok_or(format!("no buffer: {line}"))?;
        let mut words = Words::of(runs, &none);
        out.insert(name.to_string(), words.runs()?);
        if words.left.next().is_some() {
            return Err(format!("no buffer: {line}"));
        }
    }
    Ok(out)
}

fn each(
    lines: &[&str],
    table: &str,
    row: impl Fn(Words) -> Result<bool, String>,
) -> Result<usize, String> {
    let named = buffers(table)?;
    for line in lines {
        let held = row(Words::of(line, &named)).map_err(|why| format!("{why} in: {line}"))?;
        if !held {
            return Err(format!("not the original's: {line}"));
        }
    }
    Ok(lines.len())
}

/// Calls with their buffers, the number, and the buffers afterwards.
pub fn calls_of(table: &str) -> Result<usize, String> {
    each(&lists(table, "Row")?, table, |mut words| {
        let held = match words.next()? {
            "lower" => {
                let size = words.number()? as usize;
                let file = big_endian(size, words.next()?)?;
                let mut program = words.buffer()?;
                let number = calls::lower(&file, &mut program);
                number == words.number()? && program == words.buffer()?
            }
            "start" => {
                let (program, mut state) = (words.buffer()?, words.buffer()?);
                let number = calls::start(&program, &mut state);
                number == words.number()? && state == words.buffer()?
            }
            "run" => {
                let (program, mut state) = (words.buffer()?, words.buffer()?);
                let (steps, mut report) = (words.number()?, words.buffer()?);
                let number = calls::run(&program, &mut state, steps, &mut report);
                let same = number == words.number()?;
                same & (state == words.buffer()?) & (report == words.buffer()?)
            }
            "read" => {
                let (state, text, mut out) = (words.buffer()?, words.number()?, words.buffer()?);
                let number = calls::read_name(&state, text, &mut out);
                number == words.number()? && out == words.buffer()?
            }
            word => return Err(format!("no call: {word}")),
        };
        if held {
            words.end()?;
        }
        Ok(held)
    })
}

/// Slots, each with whether it is accepted.
pub fn slots_of(table: &str) -> Result<usize, String> {
    each(&lists(table, "Row")?, table, |mut words| {
        words.expect("row")?;
        let (slot, accepted) = (words.buffer()?, words.truth()?);
        words.end()?;
        if slot.len() != SLOT {
            return Err(format!("a slot of {} bytes", slot.len()));
        }
        Ok(read_slot(&slot).is_ok() == accepted)
    })
}

/// States, each with the count of instructions and whether it is accepted.
pub fn states_of(table: &str) -> Result<usize, String> {
    each(&lists(table, "Row")?, table, |mut words| {
        words.expect("row")?;
        let (count, state) = (words.number()? as usize, words.buffer()?);
        let accepted = words.truth()?;
        words.end()?;
        Ok(Held::read(&state, count).is_ok() == accepted)
    })
}

/// The instructions and the start of a program's buffer as the tables write them.
fn program_text(buffer: &[u8]) -> Option<(Vec<String>, usize)> {
    let code = Code::read(buffer).ok()?;
    let line = |(label, text): (usize, String)| format!("{label} {text}");
    let ops = code.instrs.iter().map(|instr| line((instr.lblidx, op_text(&instr.op)))).collect();
    Some((ops, code.start))
}

/// Program buffers, each with its program or none; and such with whether they are accepted.
pub fn programs_of(table: &str) -> Result<usize, String> {
    let programs = each(&lists(table, "Row")?, table, |mut words| {
        words.expect("row")?;
        let found = program_text(&words.buffer()?);
        let expected = words.rest()?;
        if expected == "none" {
            return Ok(found.is_none());
        }
        let text = expected.strip_prefix("( some ( record { code =");
        let text = text.and_then(|text| text.strip_suffix("} ) )"));
        let (code, start) =
            text.and_then(|t| t.split_once("; code_start =")).ok_or("no program")?;
        let ops = code.split("instr ").skip(1).map(instr_text).collect();
        Ok(found == Some((ops, start.trim().parse().map_err(|_| "no start")?)))
    })?;
    let whole = each(&lists(table, "Whole")?, table, |mut words| {
        words.expect("whole")?;
        let buffer = words.buffer()?;
        let accepted = words.truth()?;
        words.end()?;
        Ok(Code::read(&buffer).is_ok() == accepted)
    })?;
    Ok(programs + whole)
}

/// Records, each with its entry and its pool, and the instruction or none: read as the last record
/// of a program whose arrays before it take up the entries before its own.
pub fn records_of(table: &str) -> Result<usize, String> {
    each(&lists(table, "Row")?, table, |mut words| {
        words.expect("row")?;
        let record = big_endian(16, words.next()?)?;
        let (entry, size) = (words.number()? as usize, words.number()? as usize);
        let pool = big_endian(size, words.next()?)?;
        let mut program = vec![0; program_bytes::SIZE];
        program[program_bytes::POOL..][..size].copy_from_slice(&pool);
        let (mut index, mut first) = (0, 0);
        while first < entry {
            let items = (entry - first).min(24);
            let array = [9, 5, 0, 0, 0, 0, 0, items as u8];
            program[16 * index..][..8].copy_from_slice(&array);
            program[16 * index + 14..][..2].copy_from_slice(&(first as u16).to_be_bytes());
            (first..first + items).for_each(|k| program[program_bytes::POOL + 16 * k] = 4);
            (index, first) = (index + 1, first + items);
        }
        program[16 * index..][..16].copy_from_slice(&record);
        let mut put = |at: usize, value: usize| {
            program[at..at + 2].copy_from_slice(&(value as u16).to_be_bytes());
        };
        put(program_bytes::COUNT, index + 1);
        put(program_bytes::LABELS, 1);
        let label = usize::from(record[2]) * 256 + usize::from(record[3]);
        if index > 0 && (1..1024).contains(&label) {
            put(program_bytes::LABELS + 2 * label, index + 1);
        }
        if record[0] == 16 && record[4] < 64 {
            put(program_bytes::FUNCTIONS + 2 * usize::from(record[4]), index + 1);
        }
        let found = program_text(&program).and_then(|(mut ops, _)| ops.pop());
        let expected = words.rest()?;
        if expected == "none" {
            return Ok(found.is_none());
        }
        let instr = expected.strip_prefix("( some ( instr ").ok_or("no instruction")?;
        Ok(found == Some(instr_text(instr)))
    })
}

/// The buffer of a program, its operations as the listing writes them.
fn written(ops: &[String]) -> Result<Vec<u8>, String> {
    let text: String = ops.iter().enumerate().map(|(at, op)| format!("op {at} {op}\n")).collect();
    Ok(code_of_text(text.as_bytes())?.ok_or("refused")?.bytes())
}

/// Instructions, each with its entry of the pool and its record, written behind an array that takes up
/// the entries before its own; and single values, each with its entry, written as an array's item.
pub fn written_of(table: &str) -> Result<usize, String> {
    let records = each(&lists(table, "Row")?, table, |words| {
        let row = words.rest()?;
        let row = row.strip_prefix("row ( instr ").ok_or("no instruction")?;
        let (row, record) = row.rsplit_once(' ').ok_or("no record")?;
        let (instr, entry) = row.rsplit_once(' ').ok_or("no entry")?;
        let before = vec!["Null"; entry.parse().map_err(|_| "no entry")?].join(",");
        let program = written(&[format!("0 Stc Arr:[{before}] 0"), instr_text(instr)])?;
        Ok(program[16..32] == big_endian(16, record)?[..])
    })?;
    let items = each(&lists(table, "Item")?, table, |words| {
        let row = words.rest()?;
        let row = row.strip_prefix("item ").ok_or("no item")?;
        let (single, entry) = row.rsplit_once(' ').ok_or("no entry")?;
        let program = written(&[instr_text(&format!("0 Stc Arr {single} ∷ [] 0"))])?;
        Ok(program[program_bytes::POOL..][..16] == big_endian(16, entry)?[..])
    })?;
    Ok(records + items)
}

/// Numbers by their bits, each with its index or none.
pub fn indexes_of(table: &str) -> Result<usize, String> {
    each(&lists(table, "Row")?, table, |mut words| {
        words.expect("row")?;
        let found = exact_index(words.float()?);
        let expected = words.rest()?;
        let text = found.map_or(String::from("none"), |index| format!("( some {index} )"));
        Ok(text == expected)
    })
}

/// Numbers by their bits, each with whether it is finite.
pub fn patterns_of(table: &str) -> Result<usize, String> {
    each(&lists(table, "Pattern")?, table, |mut words| {
        words.expect("pattern")?;
        let (number, finite) = (words.float()?, words.truth()?);
        words.end()?;
        Ok(number.is_finite() == finite)
    })
}

/// The stops with their numbers.
const STOPS: [(&str, u8); 18] = [
    ("InvalidName", 20),
    ("InvalidIncr", 21),
    ("InvalidIncrTy", 22),
    ("InvalidDecr", 23),
    ("InvalidDecrTy", 24),
    ("InvalidJump", 25),
    ("RegNoContents", 26),
    ("TyMismatch", 27),
    ("NotAnArray", 28),
    ("InvalidFnSym", 29),
    ("EmptyCallStack", 30),
    ("IndexOutOfBounds", 31),
    ("EmptyRegister", 32),
    ("KeyAbsent", 33),
    ("Nested", 34),
    ("StackFull", 35),
    ("TableFull", 36),
    ("NoIndex", 38),
];

/// The stop that the definitions call so.
pub fn stop_named(name: &str, details: &[u64]) -> Result<Stop, String> {
    let stop = STOPS.iter().find(|stop| stop.0 == name).ok_or(format!("no stop: {name}"))?;
    Ok(Stop::new(stop.1, details))
}

/// Reports, each with the code's start, the position, the steps and the answer.
pub fn reports_of(table: &str) -> Result<usize, String> {
    each(&lists(table, "Row")?, table, |mut words| {
        words.expect("row")?;
        let (start, position) = (words.number()? as i64, words.number()? as i64);
        let steps = words.number()?;
        let rest = words.rest()?;
        let (answer, bytes) = rest.rsplit_once(' ').ok_or("no report")?;
        let plain = answer.replace(['(', ')'], " ");
        let answer: Vec<&str> = plain.split_whitespace().collect();
        let end = match answer.as_slice() {
            ["Done"] => End::Done,
            ["Spent"] => End::Spent,
            ["Stopped", name, details @ ..] => {
                let details: Result<Vec<u64>, _> = details.iter().map(|d| d.parse()).collect();
                let stop = stop_named(name, &details.map_err(|_| "no detail")?)?;
                End::Stopped { stop, line: position + 1 - start }
            }
            _ => return Err(String::from("no answer")),
        };
        Ok(calls::report_bytes(&end, steps).to_vec() == big_endian(calls::REPORT, bytes)?)
    })
}
