//! Wrong numbers that the check has to find, tried each time.
use crate::{Faults, Texts};

/// A file, a text in it and one to put in its place, and how the fault must begin.
const WRONG: [(&str, &str, &str, &str); 48] = [
    ("crates/lent/specs/Refusals.antt", "file_counts = 2", "file_counts = 11", "crates/lent/src/refusal.rt, Refusal: FILE_COUNTS is 2"),
    (
        "crates/lent/specs/Refusals.antt",
        "state_refused = 10",
        "bad_state = 10",
        "crates/lent/src/refusal.rt, Refusal: STATE_REFUSED is not among",
    ),
    (
        "crates/vm/specs/RuntimeErr.antt",
        "stop_number EmptyRegister = 32",
        "stop_number EmptyRegister = 37",
        "include/sif.h, stops: EMPTY_REGISTER is 32",
    ),
    (
        "crates/vm/specs/RuntimeErr.antt",
        "details (RegNoContents r) = r ∷ []",
        "details (RegNoContents r) = []",
        "rust/src/answer.rs, the details of Stop: REG_NO_CONTENTS is 1",
    ),
    (
        "crates/lent/src/refusal.rt",
        "StateRefused = 10,",
        "StateRefused = 11,",
        "crates/lent/src/refusal.rt, Refusal: STATE_REFUSED is 11",
    ),
    (
        "crates/lent/src/refusal.rt",
        "    NumberNotFinite = 39,\n",
        "",
        "crates/lent/src/refusal.rt, Refusal: NUMBER_NOT_FINITE, 39, is not there",
    ),
    (
        "crates/vm/src/lib.rt",
        "TY_MISMATCH: u64 = 27;",
        "TY_MISMATCH: u64 = 28;",
        "crates/vm/src/lib.rt: TY_MISMATCH is 28",
    ),
    ("include/sif.h", "SIF_NO_REGISTER = 6,", "SIF_NO_REGISTER = 7,", "include/sif.h, refusals: NO_REGISTER is 7"),
    ("include/sif.h", "SIF_KEY_ABSENT = 33,", "", "include/sif.h, stops: KEY_ABSENT, 33, is not there"),
    ("include/sif.h", "SIF_STACK_FULL = 35,", "SIF_FULL = 35,", "include/sif.h: FULL is not listed"),
    (
        "rust/src/answer.rs",
        "NumberNotFinite = 39,",
        "NumberNotFinite = 38,",
        "rust/src/answer.rs, Refusal: NUMBER_NOT_FINITE is 38",
    ),
    (
        "rust/src/answer.rs",
        "    NoRegister,\n    /// 7",
        "    /// 7",
        "rust/src/answer.rs, Refusal: NO_REGISTER, 6, is not there",
    ),
    ("rust/src/answer.rs", "Stop::NoIndex => 38,", "Stop::NoIndex => 37,", "rust/src/answer.rs, Stop::number: NO_INDEX is 37"),
    (
        "rust/src/answer.rs",
        "33 => Some(Stop::KeyAbsent),",
        "37 => Some(Stop::KeyAbsent),",
        "rust/src/answer.rs, Stop::decode: KEY_ABSENT is 37",
    ),
    (
        "rust/src/answer.rs",
        "    RegNoContents(u8),",
        "    RegNoContents,",
        "rust/src/answer.rs, the details of Stop: REG_NO_CONTENTS is 0",
    ),
    ("docs/FORMATS.md", "| 34 | `NESTED` |", "| 37 | `NESTED` |", "docs/FORMATS.md, Stops: NESTED is 37"),
    ("docs/FORMATS.md", "| 9 | `BUFFER_TOO_SHORT` |", "| | |", "docs/FORMATS.md, Refusals: BUFFER_TOO_SHORT, 9, is not there"),
    (
        "docs/FORMATS.md",
        "| text, index, length |",
        "| text, index |",
        "docs/FORMATS.md, the details of Stops: INDEX_OUT_OF_BOUNDS is 2",
    ),
    ("oracle/src/byte_rows.rs", "(\"NoIndex\", 38)", "(\"NoIndex\", 37)", "oracle/src/byte_rows.rs: NO_INDEX is 37"),
    ("oracle/src/byte_rows.rs", "    (\"StackFull\", 35),\n", "", "oracle/src/byte_rows.rs: STACK_FULL, 35, is not there"),
    (
        "oracle/src/driver.rs",
        "InvalidJump => Stop::bare(25)",
        "InvalidJump => Stop::bare(26)",
        "oracle/src/driver.rs: INVALID_JUMP is 26",
    ),
    (
        "oracle/src/driver.rs",
        "Stop::new(28, &[text(name)])",
        "Stop::new(28, &[])",
        "oracle/src/driver.rs, details: NOT_AN_ARRAY is 0",
    ),
    ("oracle/src/refuse.rs", "FILE_TEXTS: u8 = 3;", "FILE_TEXTS: u8 = 4;", "oracle/src/refuse.rs: FILE_TEXTS is 4"),
    ("crates/tables/specs/ProgramBytes.antt", "program_size = 40960", "program_size = 40961", "PROGRAM_SIZE: 40960 in the code"),
    (
        "crates/tables/specs/ProgramBytes.antt",
        "let s = be_value (part b 34946 2) in",
        "let s = be_value (part b 34944 2) in",
        "PROGRAM_START: 34946 in the code",
    ),
    ("crates/sifv/src/lib.rt", "VALUE_KEYS: usize = 232;", "VALUE_KEYS: usize = 231;", "VALUE_KEYS: 231 in the code"),
    ("crates/stored/src/lib.rt", "pub const STATE_MARK: usize = 47328;\n", "", "the code: STATE_MARK is not there"),
    (
        "crates/tables/src/lib.rt",
        "pub const LABELS: usize = 1024;",
        "pub const LABELS: usize = 1024;\npub const PAGE: usize = 4096;",
        "the code: PAGE is not listed",
    ),
    (
        "crates/tables/src/lib.rt",
        "pub const LABELS: usize = 1024;",
        "pub const LABELS: usize = 1024;\npub const TEXTS: usize = 64;",
        "crates/tables/src/lib.rt: TEXTS is a constant of another file",
    ),
    ("include/sif.h", "#define SIF_STATE_SIZE 65536", "#define SIF_STATE_SIZE 65535", "STATE_SIZE: 65536 in the code"),
    ("include/sif.h", "#define SIF_TEXTS 64\n", "", "include/sif.h: TEXTS is not there"),
    (
        "include/sif.h",
        "#define SIF_TEXTS 64\n",
        "#define SIF_TEXTS 64\n#define SIF_PAGES 4\n",
        "include/sif.h: PAGES is not listed",
    ),
    (
        "rust/src/engine.rs",
        "const COUNT_AT: usize = 47_336;",
        "const COUNT_AT: usize = 47_337;",
        "STATE_COUNT: 47336 in the code",
    ),
    ("rust/src/engine.rs", "    const MARK_AT: usize = 47_328;\n", "", "rust/src/engine.rs: STATE_MARK is there 0 times"),
    (
        "rust/src/engine.rs",
        "const MARK_AT: usize = 47_328;",
        "const MARK_AT: usize = 47_328;\n    const REST_AT: usize = 47_348;",
        "rust/src/engine.rs: REST_AT is not listed",
    ),
    ("rust/src/program.rs", "const LENGTH: usize = 7;", "const LENGTH: usize = 6;", "RECORD_LENGTH: 7 in the code"),
    ("rust/src/bytes.rs", "//! Big-endian", "const SLOT: usize = 256;\n//! Big-endian", "rust/src/bytes.rs: SLOT is not listed"),
    ("docs/FORMATS.md", "| 47,344 | 2 | position", "| 47,345 | 2 | position", "STATE_POSITION: 47344 in the code"),
    (
        "docs/FORMATS.md",
        "| 47,347 | 1 | depth of the call stack",
        "| 47,347 | 1 | depth of the stack",
        "docs/FORMATS.md: STATE_CALLS_DEPTH is there 0 times",
    ),
    ("docs/FORMATS.md", "| 34,948 | 6,012 |", "| 34,948 | 6,011 |", "docs/FORMATS.md: a table ends at 40959"),
    ("docs/FORMATS.md", "| 248 | 8 | zero |\n", "", "docs/FORMATS.md: a table ends at 248"),
    ("docs/FORMATS.md", "| 47,348 | 12 | zero |\n", "", "docs/FORMATS.md: a row that should begin at 47348"),
    ("oracle/src/program_bytes.rs", "POOL: usize = 16_384;", "POOL: usize = 16_385;", "PROGRAM_POOL: 16384 in the code"),
    (
        "oracle/src/state_bytes.rs",
        "pub const USED: usize = 47_360;\n",
        "",
        "oracle/src/state_bytes.rs: STATE_USED is there 0 times",
    ),
    (
        "oracle/src/reader.rs",
        "pub const LOOPS: usize = 8;",
        "pub const LOOPS: usize = 8;\npub const PAGES: usize = 8;",
        "oracle/src/reader.rs: PAGES is not listed",
    ),
    ("crates/ast/src/lib.rt", "TEXT_BYTES: u8 = 40;", "TEXT_BYTES: u8 = 41;", "FILE_LONGEST: the limits"),
    ("crates/execute/src/lib.rt", "    stored::STATE_NAMES + x", "    24576 + x", "crates/execute/src/lib.rt: the literal 24576"),
    (
        "numbers/literals.txt",
        "crates/records/src/lib.rt 256 ",
        "crates/records/src/lib.rt 256 17 ",
        "numbers/literals.txt: crates/records/src/lib.rt has no literal 17",
    ),
];

/// How many were found; those that were not.
pub fn all(texts: &Texts, check: impl Fn(&Texts) -> Faults) -> (usize, Faults) {
    let mut faults = Faults::new();
    for (path, old, new, start) in WRONG {
        let mut edited = texts.clone();
        let fits = edited.get_mut(path).is_some_and(|text| {
            let once = text.matches(old).count() == 1;
            *text = text.replace(old, new);
            once
        });
        if !fits {
            faults.push(format!("{path}: not there once: {old:?}"));
        } else if !check(&edited).iter().any(|fault| fault.starts_with(start)) {
            faults.push(format!("not refused for {start}: {path}, {new:?}"));
        }
    }
    (WRONG.len(), faults)
}
