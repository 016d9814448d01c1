//! `normal FILE`: the normal form.

use crate::arguments::Arguments;
use crate::asked::{file_of, Asked};
use crate::explain;
use crate::failure::{Done, FINE};
use crate::files;
use crate::replace::Job;
use std::ffi::OsStr;
use std::io::Write;
use zvaigulta::{FileKind, Sheet};

/// Writes the normal form to standard output, or to the file behind `-o`, with line ends and a directory where the file has them.
pub fn run(arguments: &Arguments, out: &mut impl Write) -> Done {
    let [path] = arguments.exactly("normal FILE [-o OTHER [--force]] [--no-lock] [--lines | --plain]")?;
    let job = Job::open(arguments, path, arguments.output.as_deref().unwrap_or(OsStr::new("-")))?;
    let asked = Asked::of(arguments, path, &job.bytes);
    let plain = asked.sheet()?;
    let mut second = vec![b' '; plain.len()];
    let refused = |refusal| explain::file(&asked, refusal);
    FileKind::of(&plain).normal(&plain, plain.len(), &mut second).map_err(refused)?;
    let reading = asked.reading;
    let result = file_of(reading.form, asked.edition(), Sheet::from(second)).map_err(refused)?;
    job.deliver(&result, out)?;
    files::say_reading(path, reading);
    Ok(FINE)
}
