//! A line on standard error, about once a second, that tells how far a run is.

use std::io::{self, IsTerminal, Write};
use std::time::{Duration, Instant};

const BETWEEN: Duration = Duration::from_secs(1);

pub struct Progress {
    shown: bool,
    /// On a terminal the line is written over; elsewhere each is a line of its own.
    terminal: bool,
    began: Instant,
    last: Instant,
}

impl Progress {
    /// Shown on a terminal, or where it is asked for.
    pub fn new(asked: bool) -> Self {
        let terminal = io::stderr().is_terminal();
        let now = Instant::now();
        Progress { shown: terminal || asked, terminal, began: now, last: now }
    }

    pub fn tell(&mut self, done: u64, all: u64, what: &str) {
        if !self.shown || self.last.elapsed() < BETWEEN {
            return;
        }
        self.last = Instant::now();
        let (start, end) = if self.terminal { ("\r", "") } else { ("", "\n") };
        let seconds = self.began.elapsed().as_secs();
        self.write(&format!("{start}{done} of {all} {what}, {seconds} s{end}"));
    }

    /// Ends the line that was written over.
    pub fn end(&self) {
        if self.terminal && self.last > self.began {
            self.write("\n");
        }
    }

    /// Where standard error cannot be written, the run goes on without it.
    fn write(&self, text: &str) {
        let _ = io::stderr().write_all(text.as_bytes());
    }
}
