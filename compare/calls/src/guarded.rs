//! Lent buffers between two pages that may be neither read nor written.

use std::ffi::c_void;

const PAGE: usize = 4096;
/// What stands between a buffer and the guard that it does not touch.
const SLACK: u8 = 0xd7;
const SLACK_PAGE: [u8; PAGE] = [SLACK; PAGE];

const NONE: i32 = 0;
const READ_WRITE: i32 = 3;
const PRIVATE_ANONYMOUS: i32 = 0x22;

extern "C" {
    fn mmap(at: *mut c_void, len: usize, prot: i32, flags: i32, fd: i32, off: i64) -> *mut c_void;
    fn mprotect(at: *mut c_void, len: usize, prot: i32) -> i32;
}

/// Whole pages between two guards; a buffer is lent at their start or at their end.
struct Pages {
    base: *mut u8,
    room: usize,
}

impl Pages {
    fn new(room: usize) -> Pages {
        let room = room.next_multiple_of(PAGE);
        let whole = room + 2 * PAGE;
        unsafe {
            let map = mmap(std::ptr::null_mut(), whole, READ_WRITE, PRIVATE_ANONYMOUS, -1, 0);
            assert!(map as isize != -1, "no memory");
            let base = map.cast::<u8>().add(PAGE);
            base.write_bytes(SLACK, room);
            assert_eq!(mprotect(map, PAGE, NONE), 0);
            assert_eq!(mprotect(base.add(room).cast(), PAGE, NONE), 0);
            Pages { base, room }
        }
    }

    fn bytes(&mut self) -> &mut [u8] {
        unsafe { std::slice::from_raw_parts_mut(self.base, self.room) }
    }
}

/// A lent buffer of a call: of its exact size or shorter, touching both guards or one; or longer.
pub struct Lent {
    exact: Pages,
    longer: Pages,
    size: usize,
    from: usize,
    to: usize,
}

impl Lent {
    /// For a buffer whose size is such, and longer ones of up to so many bytes more.
    pub fn new(size: usize, more: usize) -> Lent {
        let (exact, longer) = (Pages::new(size), Pages::new(size + more));
        Lent { exact, longer, size, from: 0, to: 0 }
    }

    fn pages(&mut self, len: usize) -> &mut Pages {
        if len <= self.size {
            &mut self.exact
        } else {
            &mut self.longer
        }
    }

    /// Lends so many bytes, at the start or at the end of their pages, all of them written.
    pub fn lend(&mut self, contents: &[u8], at_end: bool) {
        let len = contents.len();
        let from = if at_end { self.pages(len).room - len } else { 0 };
        if len != self.to - self.from || from != self.from {
            self.bytes().fill(SLACK);
            (self.from, self.to) = (from, from + len);
        }
        self.bytes().copy_from_slice(contents);
    }

    pub fn bytes(&mut self) -> &mut [u8] {
        let (from, to) = (self.from, self.to);
        &mut self.pages(to - from).bytes()[from..to]
    }

    /// Whether the buffer holds what is expected and the bytes around it are as before.
    pub fn holds(&mut self, what: &str, expected: &[u8]) -> Result<(), String> {
        let ours = self.bytes();
        if let Some(at) = (ours != expected).then(|| difference(ours, expected)) {
            return Err(format!("{what} differs at byte {at}: {}, not {}", ours[at], expected[at]));
        }
        let (from, to) = (self.from, self.to);
        let all = self.pages(to - from).bytes();
        if !is_slack(&all[..from]) || !is_slack(&all[to..]) {
            return Err(format!("bytes around {what} were written"));
        }
        Ok(())
    }
}

fn is_slack(bytes: &[u8]) -> bool {
    bytes.chunks(PAGE).all(|part| part == &SLACK_PAGE[..part.len()])
}

fn difference(ours: &[u8], expected: &[u8]) -> usize {
    ours.iter().zip(expected).position(|(a, b)| a != b).expect("buffers of one length")
}
