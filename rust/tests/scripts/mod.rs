//! What the tests of scripts share: the stored cases, numbers from a seed, generated tree files.
#![allow(dead_code)]

pub mod generator;

use std::path::PathBuf;

/// A stored tree file and the listing that the original gives for it.
pub struct Case {
    pub file: Vec<u8>,
    pub listing: String,
}

impl Case {
    /// The number that refuses the file, if one does.
    pub fn refused(&self) -> Option<u8> {
        self.listing.strip_prefix("refused ").map(|number| number.trim().parse().unwrap())
    }

    /// What stands behind the first line's word.
    pub fn line(&self, word: &str) -> Option<&str> {
        let behind = |line: &'_ str| line.strip_prefix(word).is_some_and(|l| l.starts_with(' '));
        self.listing.lines().find(|line| behind(line)).map(|line| &line[word.len() + 1..])
    }
}

/// The root of the repository.
pub fn root() -> PathBuf {
    PathBuf::from(env!("CARGO_MANIFEST_DIR")).join("..")
}

/// The stored cases.
pub fn stored() -> Vec<Case> {
    records("cases.bin").into_iter().map(|(file, listing)| Case { file, listing }).collect()
}

/// A list of stored records as cases/README.md describes them: what is given, and the answer.
pub fn records(list: &str) -> Vec<(Vec<u8>, String)> {
    let all = std::fs::read(root().join("crates/replay/data").join(list)).unwrap();
    let mut rest = &all[..];
    let mut records = Vec::new();
    while !rest.is_empty() {
        let given = take_counted(&mut rest);
        let answer = String::from_utf8(take_counted(&mut rest)).unwrap();
        rest = &rest[8..];
        records.push((given, answer));
    }
    records
}

/// So many bytes as the first four say.
fn take_counted(rest: &mut &[u8]) -> Vec<u8> {
    let (length, behind) = rest.split_at(4);
    let length = u32::from_be_bytes(length.try_into().unwrap()) as usize;
    let (part, behind) = behind.split_at(length);
    *rest = behind;
    part.to_vec()
}

/// The steps and the program buffer of a record (cases/README.md).
pub fn program_of(given: &[u8]) -> (u64, Vec<u8>) {
    let steps = u64::from_be_bytes(given[..8].try_into().unwrap());
    let mut bytes = vec![0; sif::Program::SIZE];
    let mut rest = &given[8..];
    while let [a, b, c, d, behind @ ..] = rest {
        let (at, length) = (u16::from_be_bytes([*a, *b]), u16::from_be_bytes([*c, *d]));
        let (part, behind) = behind.split_at(usize::from(length));
        bytes[usize::from(at)..][..part.len()].copy_from_slice(part);
        rest = behind;
    }
    (steps, bytes)
}

/// Numbers from a seed (SplitMix64).
pub struct Random(u64);

impl Random {
    pub fn new(seed: u64) -> Random {
        Random(seed)
    }

    pub fn next(&mut self) -> u64 {
        self.0 = self.0.wrapping_add(0x9e37_79b9_7f4a_7c15);
        let mut z = self.0;
        z = (z ^ (z >> 30)).wrapping_mul(0xbf58_476d_1ce4_e5b9);
        z = (z ^ (z >> 27)).wrapping_mul(0x94d0_49bb_1331_11eb);
        z ^ (z >> 31)
    }

    pub fn below(&mut self, limit: usize) -> usize {
        (self.next() % limit as u64) as usize
    }

    pub fn between(&mut self, low: usize, high: usize) -> usize {
        low + self.below(high - low + 1)
    }

    /// Yes in so many of a hundred cases.
    pub fn chance(&mut self, percent: usize) -> bool {
        self.below(100) < percent
    }

    pub fn pick<T: Clone>(&mut self, from: &[T]) -> T {
        from[self.below(from.len())].clone()
    }
}
