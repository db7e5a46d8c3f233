//! Wrong code that the check by the source has to refuse, tried each time.
use crate::source::Edit;
use crate::told;

/// An edit, and how a fault must begin: with the function, or with one that is no longer found, since its file is not read.
const WRONG: [(Edit, &str); 31] = [
    (edit("opc", "    RECORD_SIZE * index\n", "    24 * index\n"), "opc::place"),
    (edit("opc", "    RECORD_SIZE * index\n", "    3 * 8 * index\n"), "opc::place"),
    (edit("opc", "    RECORD_SIZE * index\n", "    (16 + 8) * index\n"), "opc::place"),
    (edit("opc", "    RECORD_SIZE * index\n", "    16 * index / 3\n"), "opc::place"),
    (edit("opc", "    RECORD_SIZE * index\n", "    usize::pow(index, 2)\n"), "opc::place"),
    (edit("opc", "RECORD_SIZE: usize = 16;", "RECORD_SIZE: usize = 24;"), "opc::place"),
    (edit("sifv", "VALUE_SIZE: usize = 256;", "VALUE_SIZE: usize = 257;"), "execute::reg"),
    (edit("opc", "program[place(index) + k]", "program[16 * index + k]"), "opc::byte_of"),
    (edit("lent", "get_u8(s, at) * 256 + get_u8(s, at + 1)", "get_u8(s, at) * 255 + get_u8(s, at + 1)"), "lent::get_u16"),
    (edit("groups", "as usize * tables::INDEX_SIZE", "as usize * 3"), "groups::target"),
    (edit("execute", "lblidx as usize * tables::INDEX_SIZE", "lblidx as usize * 3"), "execute::jump"),
    (edit("run", "plan[pos], p", "plan[pos % 1000], p"), "run::turns"),
    // through what carries out an operation
    (
        edit("run", "let pos = loc.pos;", "let pos = numeric::index_or_max(numeric::modu(loc.pos as f64, n as f64)) as usize;"),
        "run::turns",
    ),
    (edit("numeric", "pub fn modu(a: f64,", "pub fn modu(s: &[u8], a: f64,"), "numeric::modu"),
    // by forms that are read with care, or not at all
    (edit("execute", "    r * sifv::VALUE_SIZE\n", "    let mut a = r;\n    a *= 256 + 1;\n    a\n"), "execute::reg"),
    (edit("execute", "    r * sifv::VALUE_SIZE\n", "    { r } * 257\n"), "execute::reg"),
    (edit("execute", "    r * sifv::VALUE_SIZE\n", "    /* } */\n    r * 257\n"), UNREAD),
    (edit("execute", "    r * sifv::VALUE_SIZE\n", "    let e = b'}';\n    r * 257\n"), UNREAD),
    (edit("numeric", "const SIGN: u64 = 0x8000_0000_0000_0000;", "const SIGN: u64 = 16 + 1;"), "numeric::canonical"),
    (edit("execute", "#[derive(Clone, Copy)]\n", "#[derive(Clone, Copy, Scaled)]\n"), UNREAD),
    (
        edit(
            "execute",
            "    r * sifv::VALUE_SIZE\n}\n",
            "    Loc::far(r)\n}\nimpl Loc {\n    fn far(r: usize) -> usize {\n        r * 257\n    }\n}\n",
        ),
        "execute::Loc::far",
    ),
    // a method that is called without its name, one with a buffer's method's
    (
        edit(
            "execute",
            "    r * sifv::VALUE_SIZE\n}\n",
            "    r * sifv::VALUE_SIZE\n}\nimpl PartialEq for Loc {\n    fn eq(&self, other: &Loc) -> bool {\n        self.pos * 257 == other.pos\n    }\n}\n",
        ),
        UNREAD,
    ),
    (
        edit(
            "execute",
            "    r * sifv::VALUE_SIZE\n}\n",
            "    r * sifv::VALUE_SIZE\n}\nimpl Loc {\n    fn min<const N: usize>(self, r: usize) -> usize {\n        r * 257\n    }\n}\n",
        ),
        "./crates/execute",
    ),
    (edit("execute", "    r * sifv::VALUE_SIZE\n", "    Loc::far(r)\n"), "execute::reg"),
    (
        edit(
            "execute",
            "        Op::Bad => Ok(loc),\n    }\n}\n",
            "        Op::Bad => Ok(loc),\n    }\n}\ntrait Far {}\n",
        ),
        "execute::execute",
    ),
    (edit("run", "fn took(", "fn len(n: usize) -> usize {\n    n * 17\n}\nfn took("), "./crates/run"),
    (edit("run", "let last = end - m;", "let last = end - m;\n    let seen = [Seven { a: 1 }; 1024];"), "run::turns"),
    (edit("groups", "+ 1.0;", "* 1e-4 + 1.0;"), "there is no function groups::arith"),
    (edit("opc", "    RECORD_SIZE * index\n", "    Op::dest(index)\n"), "opc::place"),
    (edit("opc", "    RECORD_SIZE * index\n", "    (lent::seventeen)(index)\n"), "opc::place"),
    (edit("opc", "    RECORD_SIZE * index\n", "    lent :: place(index)\n"), "opc::place"),
];

const UNREAD: &str = "there is no function execute::numbers";

const fn edit(name: &'static str, old: &'static str, new: &'static str) -> Edit {
    Edit { name, old, new }
}

/// Each wrong edit that is not refused, or not at its place; else how many were refused.
pub fn all(check: impl Fn(&Edit) -> Result<String, Vec<String>>) -> Result<usize, Vec<String>> {
    let passed = |(edit, start): &&(Edit, &str)| {
        let faults = check(edit).err().unwrap_or_default();
        !faults.iter().any(|fault| fault.starts_with(start))
    };
    let faults: Vec<String> = WRONG.iter().filter(passed).map(|(edit, _)| format!("not refused: {:?}", edit.new)).collect();
    told(WRONG.len(), faults)
}
