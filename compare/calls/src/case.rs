//! The call that is being made, so that it can be printed in hex where it disagrees or faults.

use std::cell::RefCell;
use std::fmt::Write;

/// What is given to a call: the buffers as they were before it, which outlive it.
#[derive(Default)]
struct Case {
    call: &'static str,
    origin: String,
    number: Option<u64>,
    lent: Vec<(&'static str, *const u8, usize)>,
}

thread_local! {
    static CASE: RefCell<Case> = RefCell::default();
}

/// Notes the call that comes next and copies of its buffers; they have to stay until `judged`.
pub fn note(call: &'static str, number: Option<u64>, lent: &[(&'static str, &[u8])]) {
    CASE.with_borrow_mut(|case| {
        case.call = call;
        case.number = number;
        case.lent.clear();
        case.lent.extend(lent.iter().map(|(what, bytes)| (*what, bytes.as_ptr(), bytes.len())));
    });
}

/// Notes where the next calls come from.
pub fn at(origin: &str) {
    CASE.with_borrow_mut(|case| {
        case.origin.clear();
        case.origin.push_str(origin);
    });
}

/// Where the last calls came from.
pub fn last() -> String {
    CASE.with_borrow(|case| case.origin.clone())
}

/// Adds the noted call to what is said of a disagreement.
pub fn judged(result: Result<(), String>) -> Result<(), String> {
    let result = result.map_err(|why| format!("{why}\n{}", text()));
    CASE.with_borrow_mut(|case| case.lent.clear());
    result
}

/// Rows of 32 bytes in hex behind their offsets; rows of zeros are left out.
fn hex(bytes: &[u8], out: &mut String) {
    for (row, part) in bytes.chunks(32).enumerate() {
        if part.iter().any(|byte| *byte != 0) {
            let digits: String = part.iter().map(|byte| format!("{byte:02x}")).collect();
            let _ = writeln!(out, "  {:5} {digits}", 32 * row);
        }
    }
}

fn text() -> String {
    CASE.with_borrow(|case| {
        let mut out = format!("call {} ({})", case.call, case.origin);
        if let Some(number) = case.number {
            let _ = write!(out, " with {number}");
        }
        out.push('\n');
        for (what, at, len) in &case.lent {
            let bytes = unsafe { std::slice::from_raw_parts(*at, *len) };
            let _ = writeln!(out, " {what}, {len} bytes, rows of zeros left out:");
            hex(bytes, &mut out);
        }
        out
    })
}

extern "C" {
    fn signal(number: i32, handler: extern "C" fn(i32)) -> usize;
    fn _exit(status: i32) -> !;
}

extern "C" fn on_fault(number: i32) {
    eprintln!(
        "calls: signal {number}, as where a byte outside the lent buffers is touched\n{}",
        text()
    );
    unsafe { _exit(1) }
}

/// Prints the noted call where the engine faults.
pub fn watch_faults() {
    for number in [4, 7, 8, 11] {
        unsafe { signal(number, on_fault) };
    }
}
