//! `judge FILE...`: one line a file.

use crate::arguments::Arguments;
use crate::failure::{complain, output_failed, Done, Failure, FAILED, FINE, REFUSED};
use crate::files::{self, as_read, as_refused};
use crate::progress;
use std::ffi::OsStr;
use std::io::Write;
use std::time::Instant;
use zvaigulta::{explain, Form, Mended, Reading, Reason, Refusal};

/// Judges every file of the list, whatever became of those before it. The exit status is the worst of theirs.
pub fn run(arguments: &Arguments, out: &mut impl Write) -> Done {
    if arguments.words.is_empty() {
        let name = if arguments.action.is_some() { "directory --check" } else { "judge" };
        return Err(Failure::Usage(format!("{name} needs a FILE, or - for standard input")));
    }
    let all = arguments.words.len();
    let mut progress = progress::for_files(all);
    let mut buffer = Vec::new();
    let mut worst = FINE;
    for (done, path) in arguments.words.iter().enumerate() {
        progress.step(done, all, Instant::now());
        let status = one(arguments, path, &mut buffer, out).or_else(|failure| match failure {
            Failure::File(text) => {
                progress.end();
                complain(&text);
                Ok(FAILED)
            }
            other => Err(other),
        })?;
        out.flush().map_err(output_failed)?;
        worst = worst.max(status);
    }
    progress.end();
    Ok(worst)
}

/// Judges one file and prints its line.
fn one(arguments: &Arguments, path: &OsStr, buffer: &mut Vec<u8>, out: &mut impl Write) -> Done {
    files::read_into(path, buffer)?;
    let reading = arguments.reading_of(buffer);
    if reading.directory {
        files::whole(path, buffer)?;
    }
    let (line, status) = match reading.judge(buffer) {
        Ok(counts) => (as_read(reading, buffer, counts), FINE),
        Err(refusal) => {
            let line = as_refused(reading, buffer, explain::line_as(reading, buffer, refusal));
            let plain = arguments.form == Some(Form::Plain);
            let hint = if plain { String::new() } else { hint(path, reading, buffer, refusal) };
            (line + &hint, REFUSED)
        }
    };
    writeln!(out, "{}: {line}", files::name(path)).map_err(output_failed)?;
    Ok(status)
}

/// That nothing but the line ends may be wrong, where the refusal does not say so itself.
fn hint(path: &OsStr, reading: Reading, bytes: &[u8], refusal: Refusal) -> String {
    if refusal.reason == Reason::LineEnd || Mended::of(bytes).is_none() {
        return String::new();
    }
    format!("; its line ends are wrong, {} says how", files::explain_command(path, reading, bytes))
}
