//! Demand 3's bound: the sum, over the instructions, of L to the power of the loops around each.

use crate::original::sifc_bytecode::compiler::CompileResult;
use crate::original::sifc_bytecode::opc::{JmpOpKind, Op};
use crate::original::sifc_bytecode::sifv::SifVal;
use crate::tree::kind::*;
use crate::tree::Node;

/// The bound from the tree alone; the tree is plain.
pub fn bound_of_tree(root: &Node) -> u64 {
    sum(root, longest_array(root), 1)
}

fn longest_array(node: &Node) -> u64 {
    let own = if node.kind == ARRAY { node.kids.len() as u64 } else { 0 };
    node.kids.iter().map(longest_array).fold(own.max(1), u64::max)
}

/// The instructions of a node and below, each counted `weight` times, more inside loops.
fn sum(node: &Node, longest: u64, weight: u64) -> u64 {
    let below = |weight: u64| node.kids.iter().map(|kid| sum(kid, longest, weight)).sum::<u64>();
    match node.kind {
        PROGRAM | BLOCK if node.kids.is_empty() => weight,
        // The condition's jump, the jump out, the Nop at the end.
        IF => 3 * weight + below(weight),
        ELIF => 2 * weight + below(weight),
        FOR => {
            let inside = weight * longest;
            2 * weight + 7 * inside + sum(&node.kids[1], longest, inside)
        }
        // Stores a constant, a name, or what was computed or read; or is the array's own store.
        VAR_DECL | ASSIGN => match node.kids.first() {
            None => weight,
            Some(right) => right_side(right, longest, weight),
        },
        TABLE | ITEM | ACCESS | MUTATE | BINARY | UNARY => weight + below(weight),
        NUM | TEXT | NAME | TRUE | FALSE => weight,
        _ => below(weight),
    }
}

fn right_side(right: &Node, longest: u64, weight: u64) -> u64 {
    match right.kind {
        ARRAY | NUM | TEXT | NAME | TRUE | FALSE => weight,
        TABLE => sum(right, longest, weight),
        _ => weight + sum(right, longest, weight),
    }
}

/// The same from the lowered program: a loop reaches from the label that its Jmpt names to the
/// Jmpt itself.
pub fn bound_of_program(lowered: &CompileResult) -> u64 {
    let ops = || lowered.program.iter().map(|instr| &instr.op);
    let loops: Vec<(usize, usize)> = ops()
        .enumerate()
        .filter_map(|(index, op)| match op {
            Op::JmpCnd { kind: JmpOpKind::Jmpt, lblidx, .. } => {
                Some((lowered.jumptab[lblidx], index))
            }
            _ => None,
        })
        .collect();
    let length = |op: &Op| match op {
        Op::Stc { val: SifVal::Arr(items), .. } => items.len() as u64,
        _ => 1,
    };
    let longest = ops().map(length).fold(1, u64::max);
    let around = |index: usize| {
        loops.iter().filter(|(from, to)| (*from..=*to).contains(&index)).count() as u32
    };
    (0..lowered.program.len()).map(|index| longest.pow(around(index))).sum()
}
