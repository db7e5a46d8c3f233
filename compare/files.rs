//! The reader of tree files beside the oracle's, on stored cases, on damaged copies of them, on numbers, and timed.

use crate::reader;
use crate::rng::Rng;
use crate::tree::{bits, file_of, is_plain, num, program, set, set_array, Node, Parts};

extern "C" {
    fn leaf_read(file: *const u8, length: usize) -> u64;
    fn leaf_plain(file: *const u8, length: usize) -> bool;
}

/// The refusal number of the proved reader, or 0.
pub fn ours(file: &[u8]) -> u64 {
    unsafe { leaf_read(file.as_ptr(), file.len()) }
}

/// The refusal number of the oracle's reader, or 0.
pub fn theirs(file: &[u8]) -> u64 {
    reader::read(file).err().map_or(0, u64::from)
}

/// Whether a file holds a plain script, by the proved code and by the oracle's.
fn plain(file: &[u8]) -> [bool; 2] {
    [unsafe { leaf_plain(file.as_ptr(), file.len()) }, reader::read(file).is_ok_and(|tree| is_plain(&tree))]
}

fn length(bytes: &[u8]) -> usize {
    u32::from_be_bytes(bytes[..4].try_into().expect("four bytes")) as usize
}

/// The files of the stored cases, each with its listing.
fn stored(bytes: &[u8]) -> Vec<(&[u8], &[u8])> {
    let mut cases = Vec::new();
    let mut rest = bytes;
    while !rest.is_empty() {
        let (file, behind) = rest[4..].split_at(length(rest));
        let (listing, behind) = behind[4..].split_at(length(behind));
        cases.push((file, listing));
        rest = &behind[8..];
    }
    cases
}

/// What a listing says of the reader: 1 to 5 or 39 where the file is refused so, else 0.
fn expected(listing: &[u8]) -> u64 {
    match listing.strip_prefix(b"refused ") {
        Some([digit @ b'1'..=b'5', b'\n']) => u64::from(digit - b'0'),
        Some(b"39\n") => 39,
        _ => 0,
    }
}

/// A copy with a byte set, added or taken out, or two set as infinities and NaNs begin, up to three times.
fn damaged(file: &[u8], rng: &mut Rng) -> Vec<u8> {
    let mut copy = file.to_vec();
    for _ in 0..rng.between(1, 3) {
        let at = rng.below(copy.len() + 1);
        match rng.below(7) {
            0 => copy.insert(at, rng.next() as u8),
            1 if at < copy.len() => {
                copy.remove(at);
            }
            2 => copy.truncate(at),
            3 if at < copy.len() => copy[at] = copy[at].wrapping_add(1),
            4 if at < copy.len() => copy[at] = rng.below(25) as u8,
            5 if at + 1 < copy.len() => {
                copy[at] |= 0x7f;
                copy[at + 1] |= 0xf0;
            }
            _ if at < copy.len() => copy[at] = rng.next() as u8,
            _ => copy.push(0),
        }
    }
    copy
}

/// Compares the readers on every stored case and on so many damaged copies.
pub fn compare(path: &str, seed: u64, count: u64) -> Result<(), String> {
    let bytes = std::fs::read(path).map_err(|e| format!("{path}: {e}"))?;
    let cases = stored(&bytes);
    let (mut differences, mut plains) = (0, 0);
    let mut both = |file: &[u8]| {
        let [a, b] = plain(file);
        plains += u64::from(b);
        u64::from(a != b)
    };
    for (file, listing) in &cases {
        differences += both(file) + u64::from(ours(file) != expected(listing) || theirs(file) != expected(listing));
    }
    // accepted, refused with 1 to 5, refused with 39
    let mut answers = [0u64; 7];
    for item in 0..count {
        let mut rng = Rng::new(seed, item);
        let copy = damaged(rng.pick(&cases).0, &mut rng);
        let answer = ours(&copy);
        answers[answer.min(6) as usize] += 1;
        differences += both(&copy) + u64::from(answer != theirs(&copy));
    }
    println!("files: {} stored cases, {count} damaged copies (accepted, refused 1 to 5 and 39: {answers:?}), {plains} plain scripts, {differences} differences", cases.len());
    if differences == 0 && answers.iter().all(|n| *n > 0) { Ok(()) } else { Err(String::from("the readers differ, or a number is not met")) }
}

/// The number of a file with this pattern as a right side, by its bits: 39 where the exponent is all ones (document 02, M-104).
fn by_bits(pattern: u64) -> u64 {
    if pattern >> 52 & 0x7ff == 0x7ff { 39 } else { 0 }
}

/// Compares the readers, and the rule on the bits, on numbers with every first two bytes: the others are 0, 0 but for the last
/// bit, or all ones. The exponent is all ones in 2 times 16 of 65,536.
pub fn numbers() -> Result<(), String> {
    let (mut accepted, mut refused, mut differences) = (0, 0, 0);
    for head in 0..1 << 16 {
        for rest in [0, 1, (1 << 48) - 1] {
            let pattern = head << 48 | rest;
            let file = file_of(&program(vec![set(1, bits(pattern))]));
            let (answer, expected) = (ours(&file), by_bits(pattern));
            accepted += u64::from(answer == 0);
            refused += u64::from(answer == 39);
            differences += u64::from(answer != expected || theirs(&file) != expected);
        }
    }
    println!("numbers in files: {accepted} accepted, {refused} refused with 39, {differences} differences");
    match (accepted, refused, differences) {
        (196_512, 96, 0) => Ok(()),
        _ => Err(String::from("numbers in files: the readers differ, or not so many are finite")),
    }
}

/// Files to be timed: the largest accepted ones among the stored cases, and one near the largest that there is (1,015 nodes,
/// arrays of numbers, 64 texts of 40 bytes).
pub fn timed(path: &str) -> Result<Vec<Vec<u8>>, String> {
    let bytes = std::fs::read(path).map_err(|e| format!("{path}: {e}"))?;
    let mut files: Vec<Vec<u8>> = stored(&bytes).iter().filter(|c| expected(c.1) == 0).map(|c| c.0.to_vec()).collect();
    files.sort_by_key(|f| std::cmp::Reverse(f.len()));
    files.truncate(3);
    let items = (0..24).map(|n| num(f64::from(n) + 0.5)).collect::<Vec<Node>>();
    let root = program((1..=39).map(|name| set_array(name, items.clone())).collect());
    let texts = (0..64).map(|n| if n == 0 { b"fortmp".to_vec() } else { format!("{n:040}").into_bytes() });
    files.push(Parts::new(&root, texts.collect()).bytes());
    Ok(files)
}
