//! The engine's four calls, by its C interface (include/sif.h).

extern "C" {
    fn sif_lower(file: *const u8, file_len: usize, program: *mut u8, program_len: usize) -> u64;
    fn sif_start(program: *const u8, program_len: usize, state: *mut u8, state_len: usize) -> u64;
    fn sif_run(
        program: *const u8,
        program_len: usize,
        state: *mut u8,
        state_len: usize,
        steps: u64,
        report: *mut u8,
        report_len: usize,
    ) -> u64;
    fn sif_read_name(
        state: *const u8,
        state_len: usize,
        text: u64,
        out: *mut u8,
        out_len: usize,
    ) -> u64;
}

pub fn lower(file: &[u8], program: &mut [u8]) -> u64 {
    unsafe { sif_lower(file.as_ptr(), file.len(), program.as_mut_ptr(), program.len()) }
}

pub fn start(program: &[u8], state: &mut [u8]) -> u64 {
    unsafe { sif_start(program.as_ptr(), program.len(), state.as_mut_ptr(), state.len()) }
}

pub fn run(program: &[u8], state: &mut [u8], steps: u64, report: &mut [u8]) -> u64 {
    unsafe {
        sif_run(
            program.as_ptr(),
            program.len(),
            state.as_mut_ptr(),
            state.len(),
            steps,
            report.as_mut_ptr(),
            report.len(),
        )
    }
}

pub fn read_name(state: &[u8], text: u64, out: &mut [u8]) -> u64 {
    unsafe { sif_read_name(state.as_ptr(), state.len(), text, out.as_mut_ptr(), out.len()) }
}
