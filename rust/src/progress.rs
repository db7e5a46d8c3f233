//! A line on standard error that tells how far long work is, where that is a terminal.

use std::io::{stderr, stdout, IsTerminal, Write};
use std::time::{Duration, Instant};

/// Short work tells nothing.
const FIRST_AFTER: Duration = Duration::from_millis(500);
const NEXT_AFTER: Duration = Duration::from_millis(200);

/// The line; it is cleared when this is dropped.
pub struct Progress {
    is_terminal: bool,
    next: Instant,
    shown: bool,
}

impl Progress {
    pub fn new() -> Progress {
        let is_terminal = stderr().is_terminal();
        Progress { is_terminal, next: Instant::now() + FIRST_AFTER, shown: false }
    }

    /// The same for work whose output comes meanwhile: no line where both go to a terminal.
    pub fn beside_output() -> Progress {
        let mut progress = Progress::new();
        progress.is_terminal &= !stdout().is_terminal();
        progress
    }

    /// Tells so many of a whole, for example `page: 500000 of 1000000 steps`.
    pub fn tell(&mut self, what: &str, done: u64, whole: u64, unit: &str) {
        if self.is_due(Instant::now()) {
            write(&format!("\r\x1b[K{what}: {done} of {whole} {unit}"));
        }
    }

    /// Whether the line is shown anew; then the next one is due a while later.
    fn is_due(&mut self, now: Instant) -> bool {
        let due = self.is_terminal && now >= self.next;
        if due {
            self.next = now + NEXT_AFTER;
            self.shown = true;
        }
        due
    }

    /// Clears the line.
    pub fn clear(&mut self) {
        if self.shown {
            self.shown = false;
            write("\r\x1b[K");
        }
    }
}

impl Drop for Progress {
    fn drop(&mut self) {
        self.clear();
    }
}

/// A line that cannot be shown is left out.
fn write(text: &str) {
    let mut err = stderr();
    let _ = err.write_all(text.as_bytes());
    let _ = err.flush();
}

#[cfg(test)]
mod tests {
    use super::{Instant, Progress, FIRST_AFTER, NEXT_AFTER};

    #[test]
    fn long_work_on_a_terminal() {
        let start = Instant::now();
        let mut progress = Progress { is_terminal: true, next: start + FIRST_AFTER, shown: false };
        assert!(!progress.is_due(start));
        assert!(progress.is_due(start + FIRST_AFTER));
        assert!(!progress.is_due(start + FIRST_AFTER));
        assert!(progress.is_due(start + FIRST_AFTER + NEXT_AFTER));
        progress.shown = false;
    }

    #[test]
    fn no_terminal() {
        let start = Instant::now();
        let mut progress = Progress { is_terminal: false, next: start, shown: false };
        assert!(!progress.is_due(start + FIRST_AFTER));
    }
}
