//! Puts the original's files together as one module file, `original.rs`, in the build directory.
//!
//! The files are read from the folder named by SIF_SRC, or from `../shared/docs/src` beside the
//! repository. Each scripted edit names a fragment and how often it occurs; any other number of
//! occurrences ends the build.

use std::path::{Path, PathBuf};
use std::{env, fs};

/// Fragment, replacement, number of occurrences.
type Edit = (&'static str, &'static str, usize);

const INSTR: &[Edit] = &[("use crate::{", "use super::{", 1)];
const OPC: &[Edit] = &[("use crate::sifv", "use super::sifv", 1)];
const SIFV: &[Edit] = &[];
const TABLES: &[Edit] = &[("use crate::{", "use super::{", 1)];
const TOKEN: &[Edit] = &[];
const CONFIG: &[Edit] = &[];
const RUNTIME_ERR: &[Edit] = &[("use crate::err", "use super::err", 1)];
const DREG: &[Edit] = &[("use sifc_bytecode::", "use crate::original::sifc_bytecode::", 1)];

const ARRAY: &[Edit] = &[
    ("use crate::{", "use super::{", 1),
    ("use sifc_parse::", "use crate::original::sifc_parse::", 1),
];

const STMT: &[Edit] = &[
    ("use crate::{", "use super::{", 1),
    ("use sifc_parse::", "use crate::original::sifc_parse::", 1),
];

/// Table items keep the order of the file.
const AST: &[Edit] = &[
    ("use crate::token", "use super::token", 1),
    ("items: HashMap<String, AstNode>,", "items: Vec<(String, AstNode)>,", 1),
];

/// Refusals 6 and 7 are raised where the register or the instruction would be taken.
const COMPILER: &[Edit] = &[
    ("use crate::{", "use super::{", 1),
    ("use sifc_err::", "use crate::original::sifc_err::", 1),
    ("use sifc_parse::", "use crate::original::sifc_parse::", 1),
    ("crate::tables::compute", "super::tables::compute", 1),
    ("let reg = self.ri;", "crate::refuse::register_free(self.ri);\n        let reg = self.ri;", 1),
    (
        "pub fn push_op(&mut self, op: Op) {",
        "pub fn push_op(&mut self, op: Op) {\n        \
         crate::refuse::instruction_free(self.decls.len() + self.ops.len());",
        1,
    ),
    ("let valr = self.ri - 1;", "let valr = crate::refuse::register_before(self.ri);", 1),
    ("};\n        self.ri - 1\n", "};\n        crate::refuse::register_before(self.ri)\n", 1),
    // Document 02, M-100: a name takes what it was given.
    (
        "TokenTy::True => {\n                self.push_op(Op::Stc {\n                    val: SifVal::Bl(false),",
        "TokenTy::True => {\n                self.push_op(Op::Stc {\n                    val: SifVal::Bl(true),",
        1,
    ),
    (
        "AstNode::ArrayAccess { array_tkn, index } => self.arrayaccess(array_tkn, index),",
        "AstNode::ArrayAccess { array_tkn, index } => {\n                \
         self.arrayaccess(array_tkn, index);\n                \
         let op = Op::Str { name: st_name, src: self.prevreg() };\n                \
         self.push_op(op);\n            }",
        1,
    ),
];

/// Fields and the single step are opened to the driver; three sums wrap, as they do in an
/// optimised build; Stop is silent.
const VM: &[Edit] = &[
    ("use crate::{", "use super::{", 1),
    ("use sifc_bytecode::", "use crate::original::sifc_bytecode::", 1),
    ("use sifc_err::", "use crate::original::sifc_err::", 1),
    ("use sifc_std::", "use crate::original::sifc_std::", 1),
    ("\n    prog: Vec<Instr>,", "\n    pub prog: Vec<Instr>,", 1),
    ("\n    jumptab: HashMap", "\n    pub jumptab: HashMap", 1),
    ("\n    fntab: HashMap", "\n    pub fntab: HashMap", 1),
    ("\n    dregs: DataRegisterList,", "\n    pub dregs: DataRegisterList,", 1),
    ("\n    heap: HashMap", "\n    pub heap: HashMap", 1),
    ("\n    fn_stack: Vec<SifVal>,", "\n    pub fn_stack: Vec<SifVal>,", 1),
    ("\n    call_stack: Vec<usize>,", "\n    pub call_stack: Vec<usize>,", 1),
    ("\n    csi: usize,", "\n    pub csi: usize,", 1),
    ("\n    ip: usize,", "\n    pub ip: usize,", 1),
    ("    fn execute(&mut self)", "    pub fn execute(&mut self)", 1),
    ("self.ip = *i - 1", "self.ip = i.wrapping_sub(1)", 3),
    ("self.ip = self.ip + 1;", "self.ip = self.ip.wrapping_add(1);", 1),
    ("self.ip + 1 - self.csi", "(self.ip + 1).wrapping_sub(self.csi)", 1),
    ("eprintln!(\"sif: stop instruction found, halting execution\");", "", 1),
];

/// What the sources lean on and do not hold.
const STAND_IN_ERR: &str = "
pub mod err {
    pub trait SifErr {
        fn emit(&self);
        fn to_msg(&self) -> String;
    }
}
pub mod compile_err {
    #[derive(Debug)]
    pub enum CompileErrTy { InvalidAst }
    #[derive(Debug)]
    pub struct CompileErr { pub ty: CompileErrTy }
    impl CompileErr {
        pub fn new(ty: CompileErrTy) -> CompileErr { CompileErr { ty } }
    }
}
";

const STAND_IN_STD: &str = "
pub struct Std<'v>(std::marker::PhantomData<&'v ()>);
impl<'v> Std<'v> {
    pub fn new() -> Std<'v> { Std(std::marker::PhantomData) }
    pub fn call(&self, name: &str, _params: Vec<super::sifc_bytecode::sifv::SifVal>)
        -> super::sifc_bytecode::sifv::SifVal {
        panic!(\"standard-library call of {name}\")
    }
}
";

fn main() {
    println!("cargo:rerun-if-env-changed=SIF_SRC");
    println!("cargo:rerun-if-changed=build.rs");
    let source = source_folder();
    let bytecode = [
        ("sifv", SIFV),
        ("opc", OPC),
        ("instr", INSTR),
        ("tables", TABLES),
        ("compiler", COMPILER),
        ("stmt", STMT),
        ("array", ARRAY),
    ];
    let mut out = String::new();
    out += &group(&source, "sifc_parse", "", &[("token", TOKEN), ("ast", AST)]);
    out += &group(&source, "sifc_err", STAND_IN_ERR, &[("runtime_err", RUNTIME_ERR)]);
    out += &group(&source, "sifc_std", STAND_IN_STD, &[]);
    out += &group(&source, "sifc_bytecode", "", &bytecode);
    let machine = [("config", CONFIG), ("dreg", DREG), ("vm", VM)];
    out += &group(&source, "sifc_vm", "", &machine);
    let target = PathBuf::from(env::var("OUT_DIR").expect("OUT_DIR")).join("original.rs");
    fs::write(&target, out).expect("original.rs cannot be written");
}

fn source_folder() -> PathBuf {
    let root = Path::new(&env::var("CARGO_MANIFEST_DIR").expect("CARGO_MANIFEST_DIR")).join("..");
    match env::var("SIF_SRC") {
        Ok(folder) => root.join(folder),
        Err(_) => root.join("../shared/docs/src"),
    }
}

/// One of the original's crates as a module, its files as modules inside.
fn group(source: &Path, name: &str, stand_in: &str, files: &[(&str, &[Edit])]) -> String {
    let mut out = format!("pub mod {name} {{\n{stand_in}");
    for (file, edits) in files {
        let path = source.join(name).join("src").join(format!("{file}.rs"));
        println!("cargo:rerun-if-changed={}", path.display());
        let text = fs::read_to_string(&path).unwrap_or_else(|e| panic!("{}: {e}", path.display()));
        out += &format!("pub mod {file} {{\n{}}}\n", edited(&text, edits, file));
    }
    out + "}\n"
}

fn edited(text: &str, edits: &[Edit], file: &str) -> String {
    let mut text = text.to_string();
    for (fragment, replacement, times) in edits {
        let found = text.matches(fragment).count();
        assert!(
            found == *times,
            "{file}.rs: {found} of {times} places found for the edit of {fragment:?}"
        );
        text = text.replace(fragment, replacement);
    }
    text
}
