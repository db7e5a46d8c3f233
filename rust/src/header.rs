//! Holds the crate's constants and the declarations of its C functions to `include/sif.h`.

use std::collections::BTreeMap;
use std::fs;
use std::path::Path;

use crate::answer::{Refusal, Report, Stop};
use crate::engine::{Machine, Program};
use crate::value::{Name, Value};

/// The header without its comments.
fn header() -> String {
    let path = Path::new(env!("CARGO_MANIFEST_DIR")).join("../include/sif.h");
    let text = fs::read_to_string(path).unwrap();
    let parts = text.split("/*").enumerate();
    let code = parts.map(|(i, part)| if i == 0 { part } else { part.split_once("*/").unwrap().1 });
    code.collect()
}

/// Each `#define NAME NUMBER` and each `NAME = NUMBER` of an enum.
fn constants_of_header() -> BTreeMap<String, u64> {
    let mut constants = BTreeMap::new();
    for line in header().lines().map(str::trim) {
        let words: Vec<&str> = line.trim_end_matches(',').split_whitespace().collect();
        let (name, number) = match words[..] {
            ["#define", name, number] => (name, number),
            [name, "=", number] => (name, number),
            _ => continue,
        };
        assert_eq!(constants.insert(name.to_string(), number.parse().unwrap()), None, "{name}");
    }
    constants
}

/// The same from the crate.
fn constants_of_crate() -> BTreeMap<String, u64> {
    let size = |size: usize| size as u64;
    let mut constants = vec![
        ("VERSION", Program::VERSION),
        ("STATE_NAMES", size(Machine::NAMES_AT)),
        ("PROGRAM_SIZE", size(Program::SIZE)),
        ("STATE_SIZE", size(Machine::SIZE)),
        ("REPORT_SIZE", size(Report::SIZE)),
        ("VALUE_SIZE", size(Value::SIZE)),
        ("TEXTS", Name::COUNT.into()),
        ("FILE_LONGEST", size(Program::FILE_LONGEST)),
        ("OK", 0),
        ("DONE", Report::DONE.into()),
        ("STOPPED", Report::STOPPED.into()),
        ("SPENT", Report::SPENT.into()),
        ("REPORT_ANSWER", size(Report::ANSWER_AT)),
        ("REPORT_STOP", size(Report::STOP_AT)),
        ("REPORT_LINE", size(Report::LINE_AT)),
        ("REPORT_DETAILS", size(Report::DETAILS_AT)),
        ("REPORT_STEPS", size(Report::STEPS_AT)),
        ("VALUE_KIND", size(Value::KIND_AT)),
        ("VALUE_LENGTH", size(Value::LENGTH_AT)),
        ("VALUE_NUMBER", size(Value::NUMBER_AT)),
        ("VALUE_ITEM_KINDS", size(Value::ITEM_KINDS_AT)),
        ("VALUE_ITEMS", size(Value::ITEMS_AT)),
        ("VALUE_KEYS", size(Value::KEYS_AT)),
        ("UNSET", Value::UNSET.into()),
        ("NUM", Value::NUM.into()),
        ("STR", Value::STR.into()),
        ("BL", Value::BL.into()),
        ("NULL", Value::NULL.into()),
        ("ARR", Value::ARR.into()),
        ("TAB", Value::TAB.into()),
    ];
    let refusals = [
        ("FILE_CUT", Refusal::FileCut),
        ("FILE_COUNTS", Refusal::FileCounts),
        ("FILE_TEXTS", Refusal::FileTexts),
        ("FILE_STRUCTURE", Refusal::FileStructure),
        ("FILE_NUMBERS", Refusal::FileNumbers),
        ("NO_REGISTER", Refusal::NoRegister),
        ("SCRIPT_TOO_LARGE", Refusal::ScriptTooLarge),
        ("PROGRAM_REFUSED", Refusal::ProgramRefused),
        ("BUFFER_TOO_SHORT", Refusal::BufferTooShort),
        ("STATE_REFUSED", Refusal::StateRefused),
        ("NUMBER_NOT_FINITE", Refusal::NumberNotFinite),
    ];
    constants.extend(refusals.map(|(name, refusal)| (name, refusal.number().into())));
    constants.extend(stops().map(|(name, stop)| (name, stop.number().into())));
    constants.into_iter().map(|(name, number)| (format!("SIF_{name}"), number)).collect()
}

/// Each stop, with details that a report could have.
fn stops() -> [(&'static str, Stop); 18] {
    let name = Name::new(7).unwrap();
    let index = 18_446_744_073_709_549_568;
    [
        ("INVALID_NAME", Stop::InvalidName(name)),
        ("INVALID_INCR", Stop::InvalidIncr),
        ("INVALID_INCR_TY", Stop::InvalidIncrTy),
        ("INVALID_DECR", Stop::InvalidDecr),
        ("INVALID_DECR_TY", Stop::InvalidDecrTy),
        ("INVALID_JUMP", Stop::InvalidJump),
        ("REG_NO_CONTENTS", Stop::RegNoContents(95)),
        ("TY_MISMATCH", Stop::TyMismatch),
        ("NOT_AN_ARRAY", Stop::NotAnArray(name)),
        ("INVALID_FN_SYM", Stop::InvalidFnSym(name)),
        ("EMPTY_CALL_STACK", Stop::EmptyCallStack),
        ("INDEX_OUT_OF_BOUNDS", Stop::IndexOutOfBounds { name, index, length: 24 }),
        ("EMPTY_REGISTER", Stop::EmptyRegister),
        ("KEY_ABSENT", Stop::KeyAbsent),
        ("NESTED", Stop::Nested),
        ("STACK_FULL", Stop::StackFull),
        ("TABLE_FULL", Stop::TableFull),
        ("NO_INDEX", Stop::NoIndex),
    ]
}

#[test]
fn constants() {
    assert_eq!(constants_of_crate(), constants_of_header());
}

/// A report's bytes give each stop back with its details and its line.
#[test]
fn reports() {
    use crate::answer::Answer;
    for (_, stop) in stops() {
        let mut bytes = [0; Report::SIZE];
        bytes[Report::ANSWER_AT] = Report::STOPPED;
        bytes[Report::STOP_AT] = stop.number();
        bytes[Report::LINE_AT..][..8].copy_from_slice(&(-1i64).to_be_bytes());
        for (i, detail) in stop.details().into_iter().enumerate() {
            bytes[Report::DETAILS_AT + 8 * i..][..8].copy_from_slice(&detail.to_be_bytes());
        }
        bytes[Report::STEPS_AT..].copy_from_slice(&300u64.to_be_bytes());
        let answer = Answer::Stopped { stop, line: -1 };
        assert_eq!(Report::decode(&bytes), Some(Report { answer, steps: 300 }));
    }
    for (answer, stop) in [(3, 0), (255, 0), (1, 0), (1, 19), (1, 37), (1, 39), (1, 255)] {
        let mut bytes = [0; Report::SIZE];
        bytes[Report::ANSWER_AT] = answer;
        bytes[Report::STOP_AT] = stop;
        assert_eq!(Report::decode(&bytes), None, "{answer} {stop}");
    }
}

#[test]
fn refusals() {
    for refusal in Refusal::ALL {
        assert_eq!(Refusal::from_number(refusal.number().into()), Some(refusal));
    }
    for number in [0, 11, 37, 38, 40, 295, u64::MAX] {
        assert_eq!(Refusal::from_number(number), None, "{number}");
    }
    assert_eq!(Refusal::check(0, Refusal::FileCut), Ok(()));
    assert_eq!(Refusal::check(10, Refusal::FileCut), Err(Refusal::StateRefused));
    assert_eq!(Refusal::check(39, Refusal::FileCut), Err(Refusal::NumberNotFinite));
    assert_eq!(Refusal::check(38, Refusal::FileCut), Err(Refusal::FileCut));
}

/// The declarations that `ffi.rs` writes down in Rust: `const uint8_t *` is `*const u8` there,
/// `uint64_t` is `u64`.
#[test]
fn declarations() {
    let text = header().split_whitespace().collect::<Vec<_>>().join(" ");
    let declared: Vec<&str> =
        text.split("uint64_t sif_").skip(1).map(|rest| rest.split(';').next().unwrap()).collect();
    let of_rust = include_str!("ffi.rs");
    for declaration in &declared {
        let (name, parameters) = declaration.trim_end_matches(')').split_once('(').unwrap();
        let parameters: String = parameters
            .split(", ")
            .map(|parameter| format!("            {},\n", in_rust(parameter)))
            .collect();
        let expected = format!("        pub fn sif_{name}(\n{parameters}        ) -> u64;\n");
        assert!(of_rust.contains(&expected), "{expected}");
    }
    assert_eq!(declared.len(), 4);
    assert_eq!(of_rust.matches("        pub fn sif_").count(), 4);
}

fn in_rust(parameter: &str) -> String {
    let (of_c, name) = parameter.rsplit_once([' ', '*']).unwrap();
    let of_rust = match of_c.trim() {
        "const uint8_t" => "*const u8",
        "uint8_t" => "*mut u8",
        "uint64_t" => "u64",
        other => panic!("{other}"),
    };
    format!("{name}: {of_rust}")
}
