//! The refusals by name; 6 and 7, raised from inside the original's lowering as typed panics.

use std::panic::{catch_unwind, panic_any, AssertUnwindSafe};
use std::sync::atomic::{AtomicBool, Ordering};

/// The refusals (docs/FORMATS.md, "Refusals").
pub const FILE_CUT: u8 = 1;
pub const FILE_COUNTS: u8 = 2;
pub const FILE_TEXTS: u8 = 3;
pub const FILE_STRUCTURE: u8 = 4;
pub const FILE_NUMBERS: u8 = 5;
pub const NO_REGISTER: u8 = 6;
pub const SCRIPT_TOO_LARGE: u8 = 7;
pub const PROGRAM_REFUSED: u8 = 8;
pub const BUFFER_TOO_SHORT: u8 = 9;
pub const STATE_REFUSED: u8 = 10;
pub const NUMBER_NOT_FINITE: u8 = 39;

pub const REGISTERS: usize = 96;
pub const INSTRUCTIONS: usize = 1024;

/// The payload of such a panic: the number of the refusal.
pub struct Refuse(pub u8);

pub fn register_free(next: usize) {
    if next >= REGISTERS {
        panic_any(Refuse(SCRIPT_TOO_LARGE));
    }
}

pub fn instruction_free(taken: usize) {
    if taken >= INSTRUCTIONS {
        panic_any(Refuse(SCRIPT_TOO_LARGE));
    }
}

pub fn register_before(next: usize) -> usize {
    if next == 0 {
        panic_any(Refuse(NO_REGISTER));
    }
    next - 1
}

/// Set while the original is run where it has to panic.
static EXPECTED: AtomicBool = AtomicBool::new(false);

/// Keeps refusals and expected panics silent; any other panic is reported as usual.
pub fn quiet_refusals() {
    let usual = std::panic::take_hook();
    std::panic::set_hook(Box::new(move |info| {
        let refusal = info.payload().downcast_ref::<Refuse>().is_some();
        if !refusal && !EXPECTED.load(Ordering::Relaxed) {
            usual(info);
        }
    }));
}

/// Whether the work panics.
pub fn panics(work: impl FnOnce()) -> bool {
    EXPECTED.store(true, Ordering::Relaxed);
    let result = catch_unwind(AssertUnwindSafe(work));
    EXPECTED.store(false, Ordering::Relaxed);
    result.is_err()
}
