//! Why a subcommand did not do what was asked, what it says, and the exit status.

use std::io::{self, Write};

/// Exit status: the answer is good, or what was asked is done.
pub const FINE: u8 = 0;
/// Exit status: a file is refused, or an edit.
pub const REFUSED: u8 = 1;
/// Exit status: wrong words on the command line, or a file that could not be read or written.
pub const FAILED: u8 = 2;

/// A subcommand's exit status, or why it stopped.
pub type Done = Result<u8, Failure>;

/// Why a subcommand stopped.
#[derive(Debug)]
pub enum Failure {
    /// The words on the command line.
    Usage(String),
    /// A file, or the output.
    File(String),
    /// The library refused what was asked.
    Refused(String),
    /// Whoever reads the output closed it.
    Closed,
}

impl Failure {
    /// What to say on standard error.
    pub fn text(&self) -> Option<String> {
        match self {
            Failure::Usage(text) => Some(format!("{text}; 'dmtool --help' and 'dmtool SUBCOMMAND --help' say how to use it")),
            Failure::File(text) | Failure::Refused(text) => Some(text.clone()),
            Failure::Closed => None,
        }
    }

    /// The exit status.
    pub fn status(&self) -> u8 {
        match self {
            Failure::Refused(_) => REFUSED,
            _ => FAILED,
        }
    }
}

/// The failure of a write to standard output.
pub fn output_failed(error: io::Error) -> Failure {
    match error.kind() {
        io::ErrorKind::BrokenPipe => Failure::Closed,
        _ => Failure::File(format!("standard output could not be written: {error}; make room there or send it elsewhere")),
    }
}

/// Says something on standard error; where that is closed, nobody listens.
pub fn complain(text: &str) {
    let _ = writeln!(io::stderr(), "dmtool: {text}");
}
