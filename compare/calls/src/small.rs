//! All trees of few nodes: lowered, started, run, every byte compared; and with a number that is not
//! finite.

use oracle::gen_damaged::NOT_FINITE_NUMBERS;
use oracle::gen_small;
use oracle::lower::lower;
use oracle::program_bytes::{self, Code};
use oracle::rng::Rng;
use oracle::tree::kind::NUM;
use oracle::tree::{short_texts, Parts};

use crate::place::{marked, Place};
use crate::runs::{self, Figures};

/// Every tree of at most so many nodes, alone and behind an array.
pub fn all(place: &mut Place, most: usize, figures: &mut Figures) -> Result<u64, String> {
    let roots = gen_small::all(most);
    let behind = roots.iter().map(gen_small::behind_array);
    for (item, root) in roots.iter().cloned().chain(behind).enumerate() {
        place.comes_from(format!("small tree {item} of at most {most} nodes"));
        let mut rng = Rng::new(5, item as u64);
        let parts = Parts::new(&root, short_texts(2));
        let file = parts.bytes();
        let lowered = oracle::calls::lowered(&file);
        let program = marked(program_bytes::SIZE, &mut rng);
        place.lower(&file, &program, &lowered, rng.chance(50))?;
        if let (0, Ok(result)) = (lowered.0, lower(&root)) {
            runs::one(place, &Code::of_lowered(result), &mut rng, 40, figures)?;
        }
        not_finite(place, parts, &mut rng)?;
    }
    Ok(roots.len() as u64)
}

/// One of the tree's numbers infinite or a NaN: 39, and the program's bytes are zero.
fn not_finite(place: &mut Place, mut parts: Parts, rng: &mut Rng) -> Result<(), String> {
    let numbers: Vec<usize> =
        (0..parts.nodes.len()).filter(|at| parts.nodes[*at].0 == NUM).collect();
    if numbers.is_empty() {
        return Ok(());
    }
    parts.nodes[rng.pick(&numbers)].2 = rng.pick(&NOT_FINITE_NUMBERS).to_be_bytes().to_vec();
    let file = parts.bytes();
    let expected = (39, vec![0; program_bytes::SIZE]);
    if oracle::calls::lowered(&file) != expected {
        return Err(format!("the oracle's reading of a number ({})", place.origin));
    }
    let program = marked(program_bytes::SIZE, rng);
    place.lower(&file, &program, &expected, rng.chance(50))
}
