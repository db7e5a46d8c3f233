//! The stored answers: tree files with their listings, programs with the machine that they leave.

use std::collections::BTreeSet;
use std::fs;

use crate::cases::shown;
use crate::gen::{by_seed, damaged_list, directed, items};
use crate::gen_buffers;
use crate::listing::listing;
use crate::packed::packed;
use crate::program::{read_program, Fault};
use crate::program_bytes::Code;
use crate::records::Record;

const CASES_BYTES: usize = 1 << 20;
const PROGRAMS_BYTES: usize = 5 << 16;
/// A stored program has at most so many bytes.
const PROGRAM_BYTES: usize = 6_000;
const BUFFER_STEPS: u64 = 50;
const SEED: u64 = 2024;

/// Kinds in the order of the store: how many items are made by the seed behind the directed
/// ones, how long a record of these may be, how many bytes they may take in all, and a word that
/// their listings have to hold.
const KINDS: [(&str, usize, usize, usize, &str); 5] = [
    ("limits", 0, 0, 0, ""),
    ("damaged", 500, 158, 34_000, ""),
    ("other", 5000, 1_000, 102_500, "Call"),
    ("values", 6, 3_000, 18_500, ""),
    ("plain", 4000, 1_000, 64_000, "JmpCnd"),
];

/// Writes `cases.bin` and `programs.bin` into a folder; prints how many of each kind.
pub fn store(folder: &str) -> Result<(), String> {
    let (cases, counts) = cases()?;
    for (kind, count, bytes) in counts {
        println!("{kind}: {count} records, {bytes} bytes");
    }
    save(folder, "cases.bin", &cases, CASES_BYTES)?;
    let (programs, count) = programs()?;
    println!("programs: {count} records, {} bytes", programs.len());
    save(folder, "programs.bin", &programs, PROGRAMS_BYTES)
}

fn save(folder: &str, name: &str, bytes: &[u8], most: usize) -> Result<(), String> {
    if bytes.len() > most {
        return Err(format!("{name} has {} bytes, over {most}", bytes.len()));
    }
    println!("{name}: {} bytes", bytes.len());
    fs::create_dir_all(folder).map_err(|e| e.to_string())?;
    fs::write(format!("{folder}/{name}"), bytes).map_err(|e| e.to_string())
}

/// How many records of a kind, and their bytes.
type Count = (&'static str, usize, usize);

fn cases() -> Result<(Vec<u8>, Vec<Count>), String> {
    let mut out = Vec::new();
    let mut seen = BTreeSet::new();
    for (_, given) in shown() {
        seen.insert(given.clone());
        Record::of_file(given).write(&mut out);
    }
    let mut counts = vec![("cases 9 to 11", seen.len(), out.len())];
    for (kind, made, longest, room, word) in KINDS {
        let directed = directed(kind, SEED)?.into_iter().map(|given| (given, false));
        let by_seed = by_seed(kind, SEED, made).into_iter().map(|given| (given, true));
        let (mut count, start, mut room) = (0, out.len(), room);
        for (given, chosen) in directed.chain(by_seed) {
            let record = Record::of_file(given);
            let length = record.length();
            let fits = length <= longest.min(room) && contains(&record.answer, word);
            if !seen.insert(record.given.clone()) || chosen && !fits {
                continue;
            }
            room -= if chosen { length } else { 0 };
            record.write(&mut out);
            count += 1;
        }
        counts.push((kind, count, out.len() - start));
    }
    Ok((out, counts))
}

fn contains(text: &[u8], word: &str) -> bool {
    word.is_empty() || text.windows(word.len()).any(|part| part == word.as_bytes())
}

/// The steps of a stored program, then its parts.
fn given(steps: u64, program: &[u8]) -> Vec<u8> {
    let mut out = steps.to_be_bytes().to_vec();
    out.extend(packed(program));
    out
}

/// The stored form of a program text; none where document 01 refuses it.
fn given_of_text(text: &[u8]) -> Result<Option<Vec<u8>>, String> {
    let text = std::str::from_utf8(text).map_err(|e| e.to_string())?;
    match read_program(text) {
        Ok(program) => {
            let steps = program.steps.ok_or("no number of steps")?;
            Ok(Some(given(steps, &Code::new(program.instrs, program.start).bytes())))
        }
        Err(Fault::Refused(_)) => Ok(None),
        Err(Fault::Written(why)) => Err(why),
    }
}

/// Buffers at the edges of 8, then the programs of texts.
fn programs() -> Result<(Vec<u8>, usize), String> {
    let mut all = Vec::new();
    for (_, program, _) in gen_buffers::programs() {
        all.push(given(BUFFER_STEPS, &program));
    }
    for text in items("programs", SEED, 1295)? {
        all.extend(given_of_text(&text)?);
    }
    let mut out = Vec::new();
    let mut count = 0;
    for given in all {
        let record = Record::of_program(given)?;
        let chosen = record.given.len() <= PROGRAM_BYTES;
        if chosen && out.len() + record.length() <= PROGRAMS_BYTES {
            record.write(&mut out);
            count += 1;
        }
    }
    Ok((out, count))
}

/// Damaged files get the number that their damage stands for; those that it leaves sound are accepted.
pub fn faults(seed: u64) -> Result<(), String> {
    let list = damaged_list(seed);
    let refused =
        |answer: &str| answer.strip_prefix("refused ").map(|rest| rest.trim_end().parse());
    for (item, (file, number)) in list.iter().enumerate() {
        let answer = listing(file);
        if refused(&answer).unwrap_or(Ok(0)) != Ok(*number) {
            let head: String = answer.lines().take(1).collect();
            return Err(format!("damaged file {item}: {head} in place of {number}: {file:?}"));
        }
    }
    let accepted = list.iter().filter(|(_, number)| *number == 0).count();
    let special = list.iter().filter(|(_, number)| *number == 39).count();
    println!(
        "faults: {} damaged files get their numbers, {special} of them 39; {accepted} with numbers \
         that are just finite are accepted",
        list.len() - accepted
    );
    Ok(())
}
