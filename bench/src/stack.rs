//! The deepest stack of each call: the bytes below the caller are marked, and the lowest that changed
//! is found after the call.

use oracle::tree::{block, file_of, program};
use oracle::{calls, gen_limits, program_bytes, state_bytes};

use crate::engine;
use crate::measure::Group;
use crate::pages;

/// Marked below the caller.
const DEPTH: usize = 512 * 1024;
/// Left to the marking itself.
const NEAR: usize = 1024;
const MARK: u8 = 0xa5;

/// Bytes of stack below this function's frame that a call wrote, rounded up to what lies near.
#[inline(never)]
fn used(call: &mut dyn FnMut()) -> usize {
    let local = 0u8;
    let here = std::hint::black_box(&local) as *const u8 as usize;
    let (low, high) = (here - DEPTH, here - NEAR);
    unsafe {
        (low..high).for_each(|at| (at as *mut u8).write_volatile(MARK));
        call();
        let lowest = (low..high).find(|at| (*at as *const u8).read_volatile() != MARK);
        here - lowest.unwrap_or(high)
    }
}

/// The deepest stack of the four calls over some files.
fn deepest(files: &[Vec<u8>]) -> [usize; 4] {
    let mut most = [0; 4];
    let (mut program, mut state) = (vec![0; program_bytes::SIZE], vec![0; state_bytes::SIZE]);
    let (mut report, mut value) = ([0; calls::REPORT], [0; calls::VALUE]);
    for file in files {
        let mut number = 0;
        let depths = [
            used(&mut || number = engine::lower(file, &mut program)),
            used(&mut || _ = engine::start(&program, &mut state)),
            used(&mut || _ = engine::run(&program, &mut state, 2000, &mut report)),
            used(&mut || _ = engine::read_name(&state, 1, &mut value)),
        ];
        let ran = if number == 0 { 4 } else { 1 };
        (0..ran).for_each(|call| most[call] = depths[call].max(most[call]));
    }
    most
}

/// Blocks in blocks, so many deep with the program.
fn deep(depth: usize) -> Vec<u8> {
    file_of(&program(vec![(2..depth).fold(block(vec![]), |inner, _| block(vec![inner]))]))
}

/// Over the pages, over all files at the limits, and over trees of growing depth, on a thread of its
/// own.
pub fn all(folder: &str) -> Result<Vec<Group>, String> {
    let mut of_pages = Vec::new();
    for (page, ..) in pages::PAGES {
        of_pages.push(pages::file(folder, page)?);
    }
    let depths = [2, 4, 8, 16, 24, 32];
    let work = move || {
        let mut each = vec![deepest(&of_pages), deepest(&gen_limits::all())];
        each.extend(depths.map(|depth| deepest(&[deep(depth)])));
        each
    };
    let thread = std::thread::Builder::new().stack_size(4 * DEPTH).spawn(work);
    let each = thread.map_err(|e| e.to_string())?.join().map_err(|_| "the stack's thread")?;
    let row = |most: &[usize; 4]| {
        ["lower", "start", "run", "read_name"]
            .into_iter()
            .zip(most.map(|bytes| bytes as f64))
            .collect()
    };
    let mut most = Group::new("The deepest stack (at least 1,024 is said of each)", "bytes");
    most.row("the pages", 0.0, row(&each[0]));
    most.row("all files at the limits", 0.0, row(&each[1]));
    let mut growth = Group::new("The stack by the tree's depth (blocks in blocks)", "bytes");
    for (depth, most) in depths.iter().zip(&each[2..]) {
        growth.row(&format!("depth {depth}"), *depth as f64, row(most));
    }
    Ok(vec![most, growth])
}
