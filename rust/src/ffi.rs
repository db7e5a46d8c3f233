//! The four C functions of `include/sif.h` as functions on slices. All `unsafe` of the crate is here.
//!
//! The header asks for pointers that may be read and written, right lengths, and buffers that do not
//! overlap: Rust's slices are all three. It asks for no alignment, and a function that is lent too
//! short a buffer answers 9.

// A line for each parameter: `header.rs` compares them with the header.
#[rustfmt::skip]
mod c {
    extern "C" {
        pub fn sif_lower(
            file: *const u8,
            file_len: u64,
            program: *mut u8,
            program_len: u64,
        ) -> u64;
        pub fn sif_start(
            program: *const u8,
            program_len: u64,
            state: *mut u8,
            state_len: u64,
        ) -> u64;
        pub fn sif_run(
            program: *const u8,
            program_len: u64,
            state: *mut u8,
            state_len: u64,
            steps: u64,
            report: *mut u8,
            report_len: u64,
        ) -> u64;
        pub fn sif_read_name(
            state: *const u8,
            state_len: u64,
            text: u64,
            out: *mut u8,
            out_len: u64,
        ) -> u64;
    }
}

/// `sif_lower`: a tree file into a program buffer.
pub fn lower(file: &[u8], program: &mut [u8]) -> u64 {
    // SAFETY: both slices are valid for their lengths, and a `&mut` overlaps nothing.
    unsafe {
        c::sif_lower(file.as_ptr(), file.len() as u64, program.as_mut_ptr(), program.len() as u64)
    }
}

/// `sif_start`: a fresh state for a program.
pub fn start(program: &[u8], state: &mut [u8]) -> u64 {
    // SAFETY: as in `lower`.
    unsafe {
        c::sif_start(program.as_ptr(), program.len() as u64, state.as_mut_ptr(), state.len() as u64)
    }
}

/// `sif_run`: up to so many steps, and a report.
pub fn run(program: &[u8], state: &mut [u8], steps: u64, report: &mut [u8]) -> u64 {
    // SAFETY: as in `lower`; the two `&mut` do not overlap each other.
    unsafe {
        c::sif_run(
            program.as_ptr(),
            program.len() as u64,
            state.as_mut_ptr(),
            state.len() as u64,
            steps,
            report.as_mut_ptr(),
            report.len() as u64,
        )
    }
}

/// `sif_read_name`: the value of the name that is such a text.
pub fn read_name(state: &[u8], text: u64, out: &mut [u8]) -> u64 {
    // SAFETY: as in `lower`.
    unsafe {
        c::sif_read_name(
            state.as_ptr(),
            state.len() as u64,
            text,
            out.as_mut_ptr(),
            out.len() as u64,
        )
    }
}
