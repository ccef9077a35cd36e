//! How far a long command is: one line on a terminal, written over again and again, and gone at the end.

use std::io::{self, IsTerminal, Write};
use std::time::{Duration, Instant};

pub struct Progress<W: Write = io::Stderr> {
    /// None where nobody looks on.
    terminal: Option<W>,
    every: Duration,
    last: Instant,
    /// The characters that stand in the line.
    width: usize,
}

impl Progress {
    /// On standard error if that is a terminal, so that no log has it.
    pub fn on_terminal() -> Progress {
        Progress::on(io::stderr().is_terminal().then(io::stderr), Duration::from_millis(500))
    }
}

impl<W: Write> Progress<W> {
    pub fn on(terminal: Option<W>, every: Duration) -> Progress<W> {
        Progress { terminal, every, last: Instant::now(), width: 0 }
    }

    /// `done` of `all` are made. Nothing hangs on whether this can be written.
    pub fn show(&mut self, what: &str, done: u64, all: u64) {
        let Some(terminal) = &mut self.terminal else { return };
        if self.last.elapsed() < self.every {
            return;
        }
        let line = format!("\r{:<width$}", format!("{what} {done} of {all}"), width = self.width);
        let _ = terminal.write_all(line.as_bytes());
        self.last = Instant::now();
        self.width = line.len() - 1;
    }
}

impl<W: Write> Drop for Progress<W> {
    fn drop(&mut self) {
        if let Some(terminal) = self.terminal.as_mut().filter(|_| self.width > 0) {
            let _ = terminal.write_all(format!("\r{:width$}\r", "", width = self.width).as_bytes());
        }
    }
}
