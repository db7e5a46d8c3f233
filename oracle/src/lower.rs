//! Lowering by the original's `Compiler::compile`.

use std::panic::{catch_unwind, resume_unwind, AssertUnwindSafe};

use crate::build_tree::ast_of;
use crate::original::sifc_bytecode::compiler::{CompileResult, Compiler};
use crate::reader::read;
use crate::refuse::Refuse;
use crate::tree::Node;

/// The lowered tree, or 6 or 7.
pub fn lower(root: &Node) -> Result<CompileResult, u8> {
    let ast = ast_of(root);
    match catch_unwind(AssertUnwindSafe(|| Compiler::new(&ast).compile())) {
        Ok(result) => {
            assert!(result.err.is_none(), "the original refused the tree");
            Ok(result)
        }
        Err(payload) => match payload.downcast::<Refuse>() {
            Ok(refuse) => Err(refuse.0),
            Err(other) => resume_unwind(other),
        },
    }
}

/// Reads and lowers a tree file, or gives the number that refuses it.
pub fn lower_file(file: &[u8]) -> Result<(Node, CompileResult), u8> {
    let root = read(file)?;
    let lowered = lower(&root)?;
    Ok((root, lowered))
}
