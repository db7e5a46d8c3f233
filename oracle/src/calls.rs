//! The four calls on bytes, answered by the original: what each answers and what every lent buffer
//! holds afterwards (docs/FORMATS.md, "Calls"; document 01, "Numbers given for the input").

use crate::driver::{End, Machine};
use crate::lower::lower_file;
use crate::program_bytes::{self, Code};
use crate::refuse::{BUFFER_TOO_SHORT, PROGRAM_REFUSED, STATE_REFUSED};
use crate::state_bytes::{self, Held};

pub const REPORT: usize = 48;
pub const VALUE: usize = 256;

fn over(buffer: &mut [u8], new: &[u8]) {
    buffer[..new.len()].copy_from_slice(new);
}

/// The number of a file and the program's bytes: zeros where it is refused.
pub fn lowered(file: &[u8]) -> (u64, Vec<u8>) {
    match lower_file(file) {
        Ok((_, lowered)) => (0, Code::of_lowered(lowered).bytes()),
        Err(number) => (u64::from(number), vec![0; program_bytes::SIZE]),
    }
}

pub fn lower(file: &[u8], program: &mut [u8]) -> u64 {
    if program.len() < program_bytes::SIZE {
        return BUFFER_TOO_SHORT.into();
    }
    let (number, bytes) = lowered(file);
    over(program, &bytes);
    number
}

pub fn start(program: &[u8], state: &mut [u8]) -> u64 {
    if program.len() < program_bytes::SIZE || state.len() < state_bytes::SIZE {
        return BUFFER_TOO_SHORT.into();
    }
    let Ok(code) = Code::read(program) else {
        return PROGRAM_REFUSED.into();
    };
    over(state, &state_bytes::bytes(&mut code.machine()));
    0
}

pub fn run(program: &[u8], state: &mut [u8], steps: u64, report: &mut [u8]) -> u64 {
    if program.len() < program_bytes::SIZE
        || state.len() < state_bytes::SIZE
        || report.len() < REPORT
    {
        return BUFFER_TOO_SHORT.into();
    }
    let Ok(code) = Code::read(program) else {
        return PROGRAM_REFUSED.into();
    };
    let held = match Held::read(state, code.instrs.len()) {
        Ok(held) if held.count.checked_add(steps).is_some() => held,
        _ => return STATE_REFUSED.into(),
    };
    let mut machine = held.machine(&code);
    let before = machine.count;
    let end = machine.run(steps);
    over(report, &report_bytes(&end, machine.count - before));
    over(state, &state_bytes::bytes(&mut machine));
    0
}

pub fn read_name(state: &[u8], text: u64, out: &mut [u8]) -> u64 {
    if state.len() < state_bytes::SIZE || out.len() < VALUE {
        return BUFFER_TOO_SHORT.into();
    }
    if text > 63 {
        return PROGRAM_REFUSED.into();
    }
    if Held::read(state, 1024).is_err() {
        return STATE_REFUSED.into();
    }
    let at = state_bytes::NAMES + state_bytes::SLOT * text as usize;
    over(out, &state[at..at + state_bytes::SLOT]);
    0
}

/// A value's 256 bytes as the original holds it: the name's slot of a machine.
pub fn value_of(machine: &Machine, name: &str) -> Vec<u8> {
    let mut slot = vec![0; VALUE];
    if let Some(value) = machine.vm.heap.get(name) {
        state_bytes::write_slot(value, &mut slot);
    }
    slot
}

/// The report of a run.
pub fn report_bytes(end: &End, steps: u64) -> [u8; REPORT] {
    let mut out = [0; REPORT];
    match end {
        End::Done => {}
        End::Spent => out[0] = 2,
        End::Stopped { stop, line } => {
            out[0] = 1;
            out[1] = stop.number;
            out[8..16].copy_from_slice(&line.to_be_bytes());
            for (index, detail) in stop.details.iter().enumerate() {
                out[16 + 8 * index..][..8].copy_from_slice(&detail.to_be_bytes());
            }
        }
    }
    out[40..].copy_from_slice(&steps.to_be_bytes());
    out
}
