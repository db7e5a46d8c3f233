//! Whether a file is accepted; where not, why and at which place.

use crate::answer::Refusal;
use crate::engine::Program;
use crate::place::{self, Lowering};
use crate::script::{Fault, Script};

/// A file that the engine accepts.
#[derive(Clone, Debug, PartialEq, Eq)]
pub struct Accepted {
    /// Its script.
    pub script: Script,
    /// Its program.
    pub program: Program,
    /// The bound of its steps; none where the script is not plain.
    pub bound: Option<u64>,
}

/// Lowers and reads a tree file; a refusal is answered with its place. The engine decides, and the
/// number is always the engine's.
///
/// ```
/// let fault = sif::check::check(b"\x00\x01\x01\x06\x07\x00fortmp").unwrap_err();
/// assert_eq!(fault.number, 4);
/// assert_eq!(fault.node.unwrap().number, 0);
/// ```
pub fn check(file: &[u8]) -> Result<Accepted, Fault> {
    match (Program::lower(file), Script::read(file)) {
        (Ok(program), Ok(script)) => {
            let bound = place::bound(&script);
            Ok(Accepted { script, program, bound })
        }
        (Err(refusal), Ok(script)) => Err(lowering_fault(&script, refusal)),
        (Err(refusal), Err(fault)) if fault.number != refusal.number() => Err(no_place(refusal)),
        // Where the engine accepts a file, `Script::read` does: tested on all kinds of files.
        (_, Err(fault)) => Err(fault),
    }
}

/// The place of a refusal with 6 or 7.
fn lowering_fault(script: &Script, refusal: Refusal) -> Fault {
    match Lowering::of(script).refused {
        Some(refused) if refused.number == refusal.number() => Fault {
            words: refused.lack.words().into(),
            node: Some(script.node_place(refused.node)),
            ..no_place(refusal)
        },
        _ => no_place(refusal),
    }
}

/// A refusal whose place is not found, which the tests do not know.
fn no_place(refusal: Refusal) -> Fault {
    let words = refusal.words().into();
    Fault { number: refusal.number(), words, byte: None, text: None, node: None }
}
