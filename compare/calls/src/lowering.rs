//! `lower` on stored, generated and damaged files.

use oracle::rng::Rng;
use oracle::{calls, gen, program_bytes, records};

use crate::place::{length, marked, Place};

/// One file, into a buffer of its exact size, a longer one and one too short; or into one of them.
fn one(place: &mut Place, file: &[u8], rng: &mut Rng, all: bool) -> Result<u64, String> {
    let lowered = calls::lowered(file);
    let size = program_bytes::SIZE;
    let lengths = if all {
        vec![size, size - 1, size + 1, size + rng.between(2, crate::place::MORE), rng.below(size)]
    } else {
        vec![length(size, rng)]
    };
    for len in lengths {
        let program = marked(len, rng);
        place.lower(file, &program, &lowered, rng.chance(50))?;
    }
    Ok(lowered.0)
}

/// All stored cases, each into every sort of buffer.
pub fn stored(place: &mut Place, folder: &str) -> Result<usize, String> {
    let cases = records::load(folder, "cases.bin")?;
    for (item, case) in cases.iter().enumerate() {
        place.comes_from(format!("stored case {item}"));
        let number = one(place, &case.given, &mut Rng::new(1, item as u64), true)?;
        let refused = format!("refused {number}\n");
        if (number != 0) != (case.answer.starts_with(b"refused")) {
            return Err(format!("stored case {item} is not {refused}"));
        }
    }
    Ok(cases.len())
}

/// The directed files of every kind, then so many by the seed.
pub fn generated(place: &mut Place, seed: u64, count: u64) -> Result<u64, String> {
    let mut files = 0;
    for kind in gen::FILES {
        for (item, file) in gen::directed(kind, seed)?.iter().enumerate() {
            place.comes_from(format!("directed {kind} {item}"));
            one(place, file, &mut Rng::new(seed, item as u64), false)?;
            files += 1;
        }
    }
    for item in 0..count {
        let mut rng = Rng::new(seed, item);
        let kind = gen::FILES[item as usize % (gen::FILES.len() - 1)];
        place.comes_from(format!("{kind} seed {seed} item {item}"));
        let file = gen::seeded(kind, &mut rng);
        one(place, &file, &mut rng, item % 64 == 0)?;
    }
    Ok(files + count)
}

/// Damaged copies of stored and generated files.
pub fn damaged(place: &mut Place, folder: &str, seed: u64, count: u64) -> Result<(), String> {
    let mut files: Vec<Vec<u8>> =
        records::load(folder, "cases.bin")?.into_iter().map(|case| case.given).collect();
    files.extend(gen::by_seed("large", seed, 200));
    files.extend(gen::by_seed("texts", seed, 200));
    for item in 0..count {
        let mut rng = Rng::new(seed ^ 0xd0, item);
        let from = rng.below(files.len());
        let copy = damage(&files[from], &mut rng);
        place.comes_from(format!("damaged copy, seed {seed} item {item}"));
        one(place, &copy, &mut rng, false)?;
    }
    Ok(())
}

/// A copy with bytes set, added, taken out or cut off, or two set as infinities and NaNs begin, up to
/// three times.
fn damage(file: &[u8], rng: &mut Rng) -> Vec<u8> {
    let mut copy = file.to_vec();
    for _ in 0..rng.between(1, 3) {
        let near = if rng.chance(60) { copy.len().min(200) } else { copy.len() };
        let at = rng.below(near + 1);
        match rng.below(9) {
            0 => copy.insert(at, rng.next() as u8),
            1 => copy.truncate(if rng.chance(90) { copy.len().saturating_sub(1) } else { at }),
            2 => copy.push(rng.next() as u8),
            _ if at == copy.len() => copy.push(0),
            3 => {
                copy.remove(at);
            }
            4 => copy[at] = copy[at].wrapping_add(1),
            5 => copy[at] = copy[at].wrapping_sub(1),
            6 => copy[at] = rng.below(25) as u8,
            7 if at + 1 < copy.len() => {
                copy[at] |= 0x7f;
                copy[at + 1] |= 0xf0;
            }
            _ => copy[at] = rng.next() as u8,
        }
    }
    copy
}
