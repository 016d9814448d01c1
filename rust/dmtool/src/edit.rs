//! `insert FILE PLACE BLOCKFILE` and `remove FILE PLACE`.

use crate::arguments::{record_number, Arguments};
use crate::asked::{file_of, Asked};
use crate::explain;
use crate::failure::{Done, Failure, FINE};
use crate::replace::Job;
use crate::{files, system};
use std::borrow::Cow;
use std::ffi::OsStr;
use std::io::Write;
use zvaigulta::text::number_of;
use zvaigulta::{Counts, Edition, Form, Reading, Reason, Sheet, RECORD_BYTES};

/// A place for an insertion: a record number, or none for `end`.
fn place(word: &OsStr) -> Result<Option<usize>, Failure> {
    match word {
        end if end == "end" => Ok(None),
        number => record_number(number, "PLACE").map(Some),
    }
}

/// Where the result goes: `-o OTHER`, else the file itself.
pub fn target<'a>(arguments: &'a Arguments, path: &'a OsStr) -> Result<&'a OsStr, Failure> {
    match (&arguments.output, path == "-") {
        (Some(other), _) => Ok(other),
        (None, false) => Ok(path),
        (None, true) => Err(Failure::Usage("an edit of standard input needs -o OTHER for its result".to_string())),
    }
}

/// A sheet with room for more behind it. What was read stays as it was, to be compared with the file before it is replaced.
fn copied(read: &[u8], more: usize) -> Sheet {
    let mut copy = system::buffer(read.len() + more);
    copy.extend_from_slice(read);
    Sheet::from(copy)
}

/// Inserts the block before the record at the place. The block is read first, so that nobody waits for the sheet while the
/// block comes through a pipe.
pub fn insert(arguments: &Arguments, out: &mut impl Write) -> Done {
    let usage = "insert FILE PLACE BLOCKFILE [-o OTHER [--force]] [--no-lock] [--lines | --plain]";
    let [path, at, block_path] = arguments.exactly(usage)?;
    let (to, at) = (target(arguments, path)?, place(at)?);
    if path == "-" && block_path == "-" {
        return Err(Failure::Usage("only one of FILE and BLOCKFILE can be standard input".to_string()));
    }
    let read = files::read(block_path)?;
    let form = Form::of(&read);
    // A block with a wrong line end goes in as it is: no item, and so refused after all that the sheet itself is refused for.
    let block = form.plain(&read).unwrap_or(Cow::Borrowed(&read));
    let job = Job::open(arguments, path, to)?;
    let asked = Asked::of(arguments, path, &job.bytes);
    let plain = asked.sheet()?;
    let place = at.unwrap_or(plain.len() / RECORD_BYTES + 1);
    let mut sheet = copied(&plain, block.len());
    let counts = sheet.insert(place, &block).map_err(|r| match form.plain(&read) {
        Err(wrong) if r.reason == Reason::Block => {
            explain::block(&asked, &Asked { path: block_path, reading: form.into(), bytes: &read }, wrong, r)
        }
        _ => explain::insertion(&asked, &plain, place, &block, r),
    })?;
    let result = Edited { reading: asked.reading, edition: asked.edition(), sheet, counts };
    let done = format!("inserted {} at record {place}", records_of(block.len()));
    finish(job, to, result, &done, out)
}

/// Removes the item at the place.
pub fn remove(arguments: &Arguments, out: &mut impl Write) -> Done {
    let [path, at] = arguments.exactly("remove FILE PLACE [-o OTHER [--force]] [--no-lock] [--lines | --plain]")?;
    let (to, place) = (target(arguments, path)?, record_number(at, "PLACE")?);
    let job = Job::open(arguments, path, to)?;
    let asked = Asked::of(arguments, path, &job.bytes);
    let plain = asked.sheet()?;
    let mut sheet = copied(&plain, 0);
    let counts = sheet.remove(place).map_err(|r| explain::removal(&asked, &plain, place, r))?;
    let removed = plain.len() - sheet.as_bytes().len();
    let result = Edited { reading: asked.reading, edition: asked.edition(), sheet, counts };
    finish(job, to, result, &format!("removed {} at record {place}", records_of(removed)), out)
}

/// How many records so many bytes are, in words.
pub fn records_of(bytes: usize) -> String {
    number_of((bytes / RECORD_BYTES) as u64, "record")
}

/// An edited sheet, what it holds, how its file is to be read, and the edition of its directory, if it has one.
struct Edited {
    reading: Reading,
    edition: Option<Edition>,
    sheet: Sheet,
    counts: Counts,
}

/// Puts the sheet where it goes, with a directory made anew in its edition where it had one, and says what was done.
fn finish(job: Job, to: &OsStr, result: Edited, done: &str, out: &mut impl Write) -> Done {
    let (silent, path) = (job.is_to_output(), job.path());
    let Edited { reading, edition, sheet, counts } = result;
    let file = file_of(reading.form, edition, sheet).map_err(|refusal| Failure::Refused(refusal.to_string()))?;
    job.deliver(&file, out)?;
    if silent {
        files::say_reading(path, reading);
        return Ok(FINE);
    }
    let name = files::name(to);
    let now = format!("{done}, now {} records {} items", counts.records, counts.items);
    let line = files::as_made(reading, &file, now);
    let said = writeln!(out, "{name}: {line}").and_then(|()| out.flush());
    said.map_err(|e| Failure::File(format!("{name}: {done}; only this could not be printed: {e}")))?;
    Ok(FINE)
}
