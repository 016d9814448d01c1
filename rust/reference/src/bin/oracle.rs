//! Answers the batch protocol's commands, one to a line, by the reference implementation.

use reference::protocol::reply;
use std::io::{self, BufRead, BufWriter, Write};

fn main() -> io::Result<()> {
    let mut out = BufWriter::new(io::stdout().lock());
    for line in io::stdin().lock().lines() {
        writeln!(out, "{}", reply(&line?))?;
        out.flush()?;
    }
    Ok(())
}
