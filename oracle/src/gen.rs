//! Generated files, by kind and seed.

use std::fs;
use std::io::Write;
use std::sync::OnceLock;

use crate::gen_script::{other, plain};
use crate::rng::Rng;
use crate::tree::file_of;
use crate::{gen_damaged, gen_large, gen_limits, gen_other, gen_programs, gen_small, gen_values};

/// The kinds of tree files.
pub const FILES: [&str; 8] =
    ["plain", "values", "other", "limits", "damaged", "large", "texts", "small"];

/// Nodes of the exhaustive trees.
const SMALL: usize = 4;

/// So many items of a kind: tree files, or program texts with their `steps` line. The directed
/// list of the kind comes first, then items by the seed.
pub fn items(kind: &str, seed: u64, count: usize) -> Result<Vec<Vec<u8>>, String> {
    let mut out = directed(kind, seed)?;
    out.truncate(count);
    let more = count - out.len();
    out.extend(by_seed(kind, seed, more));
    Ok(out)
}

/// The directed list of a kind.
pub fn directed(kind: &str, seed: u64) -> Result<Vec<Vec<u8>>, String> {
    Ok(match kind {
        "plain" | "large" | "texts" | "routines" | "rows" => Vec::new(),
        "small" => gen_small::all(SMALL).iter().map(file_of).collect(),
        "values" => gen_values::all().iter().map(file_of).collect(),
        "other" => gen_other::all().iter().map(file_of).collect(),
        "limits" => gen_limits::all(),
        "damaged" => damaged_list(seed).into_iter().map(|(file, _)| file).collect(),
        "programs" => gen_programs::all().into_iter().map(String::into_bytes).collect(),
        _ => return Err(format!("unknown kind {kind}")),
    })
}

/// So many items of a kind by the seed.
pub fn by_seed(kind: &str, seed: u64, count: usize) -> Vec<Vec<u8>> {
    (0..count as u64).map(|item| seeded(kind, &mut Rng::new(seed, item))).collect()
}

/// Damaged files with the number that each has to get; 0 where it is accepted.
pub fn damaged_list(seed: u64) -> Vec<(Vec<u8>, u8)> {
    let mut out = gen_damaged::all(10, seed);
    out.extend(gen_damaged::wrong_counts());
    out.extend(gen_damaged::unknown_fields());
    out.extend(gen_damaged::special_numbers());
    out.extend(gen_damaged::in_node_order());
    out.extend(gen_damaged::just_finite());
    out
}

/// One item of a kind by the seed.
pub fn seeded(kind: &str, rng: &mut Rng) -> Vec<u8> {
    match kind {
        "other" => file_of(&other(rng)),
        "limits" => limit_beside(rng),
        "damaged" => gen_damaged::scratched(rng),
        "programs" => gen_programs::random(rng).into_bytes(),
        "routines" => gen_programs::routine(rng).into_bytes(),
        "rows" => gen_programs::rows(rng).into_bytes(),
        "large" => gen_large::file(rng),
        "texts" => unused_texts(rng),
        "values" => file_of(&gen_values::numbers(rng)),
        _ => file_of(&plain(rng)),
    }
}

/// A script with long texts and unused ones.
fn unused_texts(rng: &mut Rng) -> Vec<u8> {
    let root = if rng.chance(50) { plain(rng) } else { other(rng) };
    gen_large::with_texts(&root, rng)
}

/// A file of the list of limits, with one of its first bytes changed.
fn limit_beside(rng: &mut Rng) -> Vec<u8> {
    static LIST: OnceLock<Vec<Vec<u8>>> = OnceLock::new();
    let list = LIST.get_or_init(gen_limits::all);
    let mut file = list[rng.below(list.len())].clone();
    let at = rng.below(file.len().min(80));
    file[at] = file[at].wrapping_add(1);
    file
}

/// Writes the items into a folder, or to standard output, each behind its length in 4 bytes.
pub fn generate(seed: u64, count: usize, kind: &str, target: &str) -> Result<(), String> {
    for (number, bytes) in items(kind, seed, count)?.iter().enumerate() {
        write_item(bytes, target, kind, seed, number).map_err(|e| e.to_string())?;
    }
    Ok(())
}

fn write_item(bytes: &[u8], to: &str, kind: &str, seed: u64, item: usize) -> std::io::Result<()> {
    if to == "--pack" {
        let mut out = std::io::stdout().lock();
        out.write_all(&(bytes.len() as u32).to_be_bytes())?;
        return out.write_all(bytes);
    }
    fs::create_dir_all(to)?;
    let ending = if matches!(kind, "programs" | "routines" | "rows") { "program" } else { "tree" };
    fs::write(format!("{to}/{kind}-{seed}-{item:05}.{ending}"), bytes)
}
