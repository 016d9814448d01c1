//! How far a long list of files has come, on standard error.

use std::io::{self, IsTerminal, Write};
use std::time::{Duration, Instant};

/// A line that is written again at most once a second, and first after a second.
pub struct Progress<W: Write> {
    to: Option<W>,
    last: Instant,
    written: bool,
}

/// For the judging of a list of files. Silent for one file, where standard error is no terminal, and where the answers themselves go to a
/// terminal.
pub fn for_files(count: usize) -> Progress<io::Stderr> {
    let wanted = count > 1 && io::stderr().is_terminal() && !io::stdout().is_terminal();
    Progress::new(wanted.then(io::stderr), Instant::now())
}

impl<W: Write> Progress<W> {
    fn new(to: Option<W>, start: Instant) -> Progress<W> {
        Progress { to, last: start, written: false }
    }

    /// So many of all files are done.
    pub fn step(&mut self, done: usize, all: usize, now: Instant) {
        if let Some(to) = &mut self.to {
            if now.duration_since(self.last) >= Duration::from_secs(1) {
                let _ = write!(to, "\rdmtool: {done} of {all} files judged").and_then(|()| to.flush());
                self.last = now;
                self.written = true;
            }
        }
    }

    /// Ends the line, if there is one, so that what follows stands on its own.
    pub fn end(&mut self) {
        if let (Some(to), true) = (&mut self.to, self.written) {
            let _ = writeln!(to).and_then(|()| to.flush());
            self.written = false;
        }
    }
}

#[cfg(test)]
mod tests {
    use super::*;

    #[test]
    fn a_line_a_second_and_none_in_the_first() {
        let start = Instant::now();
        let mut progress = Progress::new(Some(Vec::new()), start);
        for tenths in 0..35 {
            progress.step(tenths, 35, start + Duration::from_millis(100) * tenths as u32);
        }
        progress.end();
        progress.end();
        let text = String::from_utf8(progress.to.unwrap()).unwrap();
        let lines = [10, 20, 30].map(|n| format!("\rdmtool: {n} of 35 files judged"));
        assert_eq!(text, lines.concat() + "\n");
    }

    #[test]
    fn quick_work_says_nothing() {
        let start = Instant::now();
        let mut progress = Progress::new(Some(Vec::new()), start);
        progress.step(1, 2, start + Duration::from_millis(999));
        progress.end();
        assert!(progress.to.unwrap().is_empty());
    }
}
