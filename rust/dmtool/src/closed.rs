//! Whether standard input or output was closed when the tool was started.
//!
//! The language opens `/dev/null` in place of a closed one before the tool runs: what is written there is lost without an error, and what is
//! read there is an empty file. A `/dev/null` that somebody asked for is open from the start.

use crate::failure::Failure;
use crate::system;

/// Standard input, and standard output, by their numbers.
#[derive(Clone, Copy)]
pub enum Standard {
    Input = 0,
    Output = 1,
}

/// Fails where it was closed.
pub fn refuse(standard: Standard) -> Result<(), Failure> {
    let name = if matches!(standard, Standard::Input) { "input" } else { "output" };
    match system::was_closed(standard as usize) {
        true => Err(Failure::File(format!("standard {name} is closed; nothing was done"))),
        false => Ok(()),
    }
}
