//! The run call by hand in C (hand.c).

extern "C" {
    fn hand_run_switch(
        program: *const u8,
        program_len: usize,
        state: *mut u8,
        state_len: usize,
        steps: u64,
        report: *mut u8,
        report_len: usize,
    ) -> u64;
    fn hand_run_threaded(
        program: *const u8,
        program_len: usize,
        state: *mut u8,
        state_len: usize,
        steps: u64,
        report: *mut u8,
        report_len: usize,
    ) -> u64;
}

pub fn switch(program: &[u8], state: &mut [u8], steps: u64, report: &mut [u8]) -> u64 {
    let (p, s, r) = (program.as_ptr(), state.as_mut_ptr(), report.as_mut_ptr());
    unsafe { hand_run_switch(p, program.len(), s, state.len(), steps, r, report.len()) }
}

pub fn threaded(program: &[u8], state: &mut [u8], steps: u64, report: &mut [u8]) -> u64 {
    let (p, s, r) = (program.as_ptr(), state.as_mut_ptr(), report.as_mut_ptr());
    unsafe { hand_run_threaded(p, program.len(), s, state.len(), steps, r, report.len()) }
}
