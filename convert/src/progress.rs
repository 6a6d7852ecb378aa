//! How far a conversion is, on a terminal alone.

use std::fs;
use std::io::Write;
use std::time::{Duration, Instant};

/// Nothing is said of what takes less than this.
const QUIET: Duration = Duration::from_secs(1);
const STEP: Duration = Duration::from_millis(250);

pub struct Progress {
    terminal: bool,
    start: Instant,
    last: Instant,
    shown: bool,
    count: usize,
}

/// Whether what is printed as an error goes to a terminal.
fn is_terminal() -> bool {
    match fs::read_link("/proc/self/fd/2") {
        Ok(path) => {
            path.starts_with("/dev/pts")
                || path.starts_with("/dev/tty")
                || path.starts_with("/dev/console")
        }
        Err(_) => false,
    }
}

impl Progress {
    pub fn new(count: usize) -> Progress {
        let now = Instant::now();
        Progress {
            terminal: is_terminal(),
            start: now,
            last: now,
            shown: false,
            count,
        }
    }

    /// Says that so many elements are done.
    pub fn step(&mut self, done: usize) {
        if !self.terminal || self.last.elapsed() < STEP || self.start.elapsed() < QUIET {
            return;
        }
        self.last = Instant::now();
        self.shown = true;
        let passed = self.start.elapsed().as_secs_f64();
        let left = passed / done.max(1) as f64 * (self.count - done) as f64;
        let percent = done * 100 / self.count.max(1);
        eprint!(
            "\r{percent:3} %  {done} of {} elements, {left:.0} s left   ",
            self.count
        );
        let _ = std::io::stderr().flush();
    }

    pub fn end(&self) {
        if self.shown {
            eprint!("\r{:60}\r", "");
        }
    }
}
