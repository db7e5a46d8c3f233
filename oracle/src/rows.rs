//! The rows of the computed tables in crates/: what they expect has to be what the original leaves.
//! Every line of a table has to be read: one that cannot be is a failure.

use std::fs;

use crate::byte_rows::{
    calls_of, indexes_of, patterns_of, programs_of as buffers_of, records_of, reports_of, slots_of,
    states_of, written_of,
};
use crate::listing::{listing, state_of_file, STEPS};
use crate::program::run_text;
use crate::reader::read as read_file;
use crate::terms::{abbreviations_of, term, Term};
use crate::value_text::NAN;
use crate::walk_rows::figures_of;

/// Compares every row of the tables in the folder of the crates with the original.
pub fn check(crates: &str) -> Result<(), String> {
    let read = |name: &str| {
        fs::read_to_string(format!("{crates}/{name}")).map_err(|e| format!("{name}: {e}"))
    };
    let files = files_of(&read("listing_text/proofs/Cases.antt")?)?
        + files_of(&read("listing_text/proofs/Rows.antt")?)?;
    let programs = programs_of(&read("listing_text/proofs/Programs.antt")?)?;
    let lowerings = lowerings_of(&read("compiler/proofs/Computed.antt")?)?;
    let readings = readings_of(&read("ast/proofs/Computed.antt")?)?;
    let walked = "walk/proofs/Computed.antt";
    let figures = figures_of(&read(walked)?).map_err(|why| format!("{walked}: {why}"))?;
    // rows on bytes and on numbers, a line each: every line that ends in a proof has to have been read
    let each_read = |name: &str, rows_of: fn(&str) -> Result<usize, String>| {
        let table = read(name)?;
        let (rows, read) = (table.matches("refl ∷\n").count(), rows_of(&table)?);
        if rows == read {
            Ok(read)
        } else {
            Err(format!("{name}: {read} of {rows} rows read"))
        }
    };
    let records = each_read("opc/proofs/Rows.antt", records_of)?
        + each_read("opc/proofs/Written.antt", written_of)?;
    let buffers = each_read("tables/proofs/Rows.antt", buffers_of)?;
    let slots = each_read("sifv/proofs/Rows.antt", slots_of)?;
    let states = each_read("stored/proofs/Rows.antt", states_of)?;
    let reports = each_read("vm/proofs/Reports.antt", reports_of)?;
    let numbers = "numeric/proofs/Rows.antt";
    let patterns = patterns_of(&read(numbers)?)?;
    let both = |table: &str| Ok(indexes_of(table)? + patterns_of(table)?);
    let indexes = each_read(numbers, both)? - patterns;
    let calls = each_read("boundary/proofs/Lowered.antt", calls_of)?
        + each_read("boundary/proofs/Rows.antt", calls_of)?;
    println!(
        "rows: {files} files, {programs} programs, {lowerings} lowerings, {readings} readings, \
         {records} records, {buffers} program buffers, {slots} slots, {states} states, \
         {reports} reports and {calls} calls of the computed tables, as by the original, \
         a 38 by the driver's rule, and {indexes} indexes by that rule; {figures} figures by the \
         oracle's walk and bound; {patterns} numbers finite or not, as by Rust"
    );
    Ok(())
}

/// The text between a line's first and last quotation marks.
fn quoted(line: Option<&str>) -> Result<String, String> {
    let line = line.ok_or("a row breaks off")?;
    let (from, to) = (line.find('"'), line.rfind('"'));
    match (from, to) {
        (Some(from), Some(to)) if from < to => Ok(line[from + 1..to].replace("\\n", "\n")),
        _ => Err(format!("no text: {line}")),
    }
}

fn bytes(hex: &str) -> Result<Vec<u8>, String> {
    let digits = |at: usize| u8::from_str_radix(hex.get(at..at + 2).unwrap_or("?"), 16);
    (0..hex.len()).step_by(2).map(|at| digits(at).map_err(|_| format!("no hex: {hex}"))).collect()
}

/// The machine's lines but those that the listing has too.
fn machine_lines(text: &str) -> String {
    let shared = |line: &&str| {
        ["end ", "held ", "name ", "refused "].iter().any(|word| line.starts_with(word))
    };
    text.lines().filter(|line| !shared(line)).map(|line| format!("{line}\n")).collect()
}

/// The lines of a file's lists of such rows, each behind `name =` and before `[]`, without comments.
fn list<'t>(table: &'t str, of: &str) -> Result<Vec<&'t str>, String> {
    let head = format!(": List {of}\n");
    let mut out = Vec::new();
    for behind in table.split(&head).skip(1) {
        let (_, list) = behind.split_once(" =\n").ok_or(format!("no list of {of}"))?;
        let (list, _) =
            list.split_once("\n    []\n").ok_or(format!("no end of the list of {of}"))?;
        let lines = list.lines().map(str::trim);
        out.extend(lines.filter(|line| !line.is_empty() && !line.starts_with("--")));
    }
    Ok(out)
}

/// The text of a line that is one quoted text, with what may stand behind it.
fn text_alone(line: Option<&&str>, behind: &str) -> Result<String, String> {
    let line = line.ok_or("a row breaks off")?;
    if line.starts_with('"') && line.ends_with(&format!("\"{behind}")) {
        quoted(Some(line))
    } else {
        Err(format!("a row cannot be read: {line}"))
    }
}

fn files_of(table: &str) -> Result<usize, String> {
    let lines = list(table, "Row")?;
    for row in lines.chunks(3) {
        let hex = row[0].strip_prefix("row ").ok_or(format!("no row: {}", row[0]))?;
        let file = bytes(&text_alone(Some(&hex), "")?)?;
        let expected = (text_alone(row.get(1), "")?, text_alone(row.get(2), " ∷")?);
        if (listing(&file), machine_lines(&state_of_file(&file, STEPS))) != expected {
            return Err(format!("not the original's: {}", row[0]));
        }
    }
    all_read(table, "row", lines.len() / 3)
}

/// That so many rows were read, and no row of the table was left out.
fn all_read(table: &str, word: &str, count: usize) -> Result<usize, String> {
    let rows = table.lines().filter(|line| line.starts_with(&format!("    {word} "))).count();
    if count > 0 && rows == count {
        Ok(count)
    } else {
        Err(format!("{count} of {rows} rows read"))
    }
}

/// The file of a row that begins with its size and the file as one number, and what stands behind.
fn file_row(line: &str) -> Result<(Vec<u8>, &str), String> {
    let no_row = || format!("no row: {line}");
    let rest = line.strip_prefix("row ").ok_or_else(no_row)?;
    let (size, rest) = rest.split_once(" 0x").ok_or_else(no_row)?;
    let (hex, behind) = rest.split_once(' ').unwrap_or((rest, ""));
    let file = bytes(hex)?;
    if size.parse() == Ok(file.len()) {
        Ok((file, behind))
    } else {
        Err(format!("not so many bytes: {line}"))
    }
}

/// What the original lowers a file to: code start and instructions, or the refusal.
fn lowering(file: &[u8]) -> String {
    let text = listing(file);
    let shown = |line: &&str| ["start ", "op ", "refused "].iter().any(|w| line.starts_with(w));
    text.lines().filter(shown).map(|line| format!("{line}\n")).collect()
}

/// Rows with a file, its tree, and what the tree is lowered to. That the file is read as the tree
/// is proved in the table itself.
fn lowerings_of(table: &str) -> Result<usize, String> {
    let lines = list(table, "Row")?;
    let mut lines = lines.iter();
    let mut count = 0;
    while let Some(line) = lines.next() {
        let (file, behind) = file_row(line)?;
        let tree = lines.next().ok_or("a row breaks off")?;
        if !behind.is_empty()
            || !["(script ", "(times ", "no_stmts"].iter().any(|w| tree.starts_with(w))
        {
            return Err(format!("a row cannot be read: {line}"));
        }
        if lowering(&file) != lowered_text(&mut lines)? {
            return Err(format!("not the original's: {line}"));
        }
        count += 1;
    }
    all_read(table, "row", count)
}

/// What a row says its tree is lowered to, in the listing's words.
fn lowered_text<'l>(lines: &mut impl Iterator<Item = &'l &'l str>) -> Result<String, String> {
    let line = lines.next().ok_or("a row breaks off")?;
    let refused =
        line.strip_prefix("(refused ").and_then(|rest| rest.strip_suffix(") refl refl ∷"));
    if let Some(number) = refused {
        return Ok(format!("refused {number}\n"));
    }
    let start = line.strip_prefix("(program ").and_then(|rest| rest.strip_suffix(" ("));
    let start = start.ok_or(format!("a row cannot be read: {line}"))?;
    Ok(format!("start {start}\n{}", ops_until(lines, "[])) refl refl ∷")?))
}

/// Rows with a file and what it is read as: a refusal or a tree.
fn readings_of(table: &str) -> Result<usize, String> {
    let short = abbreviations_of(table)?;
    let lines = list(table, "Row")?;
    for line in &lines {
        let (file, behind) = file_row(line)?;
        let stated = behind.strip_suffix(" refl ∷").ok_or(format!("no row: {line}"))?;
        let stated = short.expand(&term(stated)?);
        if !is_read_as(&file, &stated)? {
            return Err(format!("not as the oracle's reader: {line}"));
        }
    }
    all_read(table, "row", lines.len())
}

fn is_read_as(file: &[u8], stated: &Term) -> Result<bool, String> {
    match (stated.parts(), read_file(file)) {
        (("Refused", [number]), Err(own)) => Ok(number.number()? == u64::from(own)),
        (("Tree", [script]), Ok(own)) => Ok(script.script()? == own),
        _ => Ok(false),
    }
}

/// The `op` lines of instructions, up to a list's end.
fn ops_until<'l>(
    lines: &mut impl Iterator<Item = &'l &'l str>,
    end: &str,
) -> Result<String, String> {
    let mut text = String::new();
    for index in 0.. {
        let line = lines.next().ok_or("a program breaks off")?;
        if *line == end {
            break;
        }
        let instr = line.strip_prefix("instr ").and_then(|rest| rest.strip_suffix(" ∷"));
        let instr = instr.ok_or(format!("a row cannot be read: {line}"))?;
        text.push_str(&format!("op {index} {}\n", instr_text(instr)));
    }
    Ok(text)
}

/// Code start and steps of a program row's first line.
fn head(line: &str) -> Option<(u64, u64)> {
    let words: Vec<&str> = line.strip_prefix("program_row ")?.split_whitespace().collect();
    match words.as_slice() {
        [start, steps, "("] => Some((start.parse().ok()?, steps.parse().ok()?)),
        _ => None,
    }
}

fn programs_of(table: &str) -> Result<usize, String> {
    let lines = list(table, "ProgramRow")?;
    let mut lines = lines.iter();
    let mut count = 0;
    while let Some(line) = lines.next() {
        let (start, steps) = head(line).ok_or(format!("no program row: {line}"))?;
        let text = format!("start {start}\n{}", ops_until(&mut lines, "[])")?);
        let answer = text_alone(lines.next(), " ∷")?;
        if run_text(&text, Some(steps))? != answer {
            return Err(format!("not the original's: {text}"));
        }
        count += 1;
    }
    all_read(table, "program_row", count)
}

/// An instruction as the listing writes it: label, operation, operands.
pub fn instr_text(instr: &str) -> String {
    let plain = instr.replace(['(', ')'], " ");
    let words: Vec<&str> = plain.split_whitespace().collect();
    let mut out = Vec::new();
    let mut at = 0;
    while at < words.len() {
        match words[at] {
            "∷" | "[]" | "One" => at += 1,
            "Num" | "Text" | "Bl" | "Null" => out.push(single(&words, &mut at)),
            "Tab" => {
                out.push(String::from("Tab:[]"));
                at += 2;
            }
            "Arr" => {
                at += 1;
                let mut items = Vec::new();
                while words[at] != "[]" {
                    items.push(single(&words, &mut at));
                    at += 1;
                }
                out.push(format!("Arr:[{}]", items.join(",")));
                at += 1;
            }
            word => {
                out.push(String::from(word.trim_start_matches("BinOpKind.")));
                at += 1;
            }
        }
    }
    out.join(" ")
}

fn single(words: &[&str], at: &mut usize) -> String {
    let (text, taken) = match words[*at] {
        "Num" => (format!("Num:{}", pattern(words[*at + 3].trim_start_matches("0x"))), 4),
        "Text" => (format!("Str:{}", words[*at + 1]), 2),
        "Bl" => (format!("Bl:{}", u8::from(words[*at + 1] == "true")), 2),
        word => (String::from(word), 1),
    };
    *at += taken;
    text
}

/// A number's pattern as the listing writes it: one for every NaN.
fn pattern(hex: &str) -> String {
    match u64::from_str_radix(hex, 16) {
        Ok(bits) if f64::from_bits(bits).is_nan() => format!("{NAN:016x}"),
        _ => String::from(hex),
    }
}
