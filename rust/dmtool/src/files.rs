//! Files as they are named, read and judged.

use crate::closed::{self, Standard};
use crate::failure::{complain, Failure};
use crate::system;
use std::ffi::OsStr;
use std::fmt::Display;
use std::fs::{self, File};
use std::io::{self, ErrorKind, Read};
use zvaigulta::text::{number_of, shown};
use zvaigulta::{Edition, Form, Reading, LINE_END, LINE_RECORD_BYTES, MOST_DIRECTORY_RECORDS, MOST_RECORDS, RECORD_BYTES};

/// One record more than a file may have, those of a directory included, each with two line ends, as `convert --mend` takes them. A longer file answers
/// as this much of it does: it is refused by its length.
const LONGEST: u64 = ((MOST_RECORDS + MOST_DIRECTORY_RECORDS + 1) * (LINE_RECORD_BYTES + LINE_END.len())) as u64;

// What is read of a longer file ends inside a record in either form, so that none of its records is taken for a directory's end.
const _: () = assert!(!LONGEST.is_multiple_of(RECORD_BYTES as u64) && !LONGEST.is_multiple_of(LINE_RECORD_BYTES as u64));

/// Whether bytes are all of the file that they were read from, for sure.
pub fn is_whole(bytes: &[u8]) -> bool {
    (bytes.len() as u64) < LONGEST
}

/// That bytes are all of their file, where a directory at its end is asked for: behind what is read of a longer file stands more than is known.
pub fn whole(path: &OsStr, bytes: &[u8]) -> Result<(), Failure> {
    match is_whole(bytes) {
        true => Ok(()),
        false => Err(unchanged(path, &longer())),
    }
}

/// That a file is longer than what was read of it.
pub fn longer() -> String {
    let most = MOST_RECORDS + MOST_DIRECTORY_RECORDS;
    format!("it is longer than the largest sheet with its directory, {most} records, and is read no further")
}

/// Reads as much as a file may have into a buffer.
fn take_all(from: impl Read, into: &mut Vec<u8>) -> io::Result<usize> {
    into.clear();
    from.take(LONGEST).read_to_end(into)
}

/// The same from a file, with room for all of it from the start.
pub fn take_file(file: &File, into: &mut Vec<u8>) -> io::Result<usize> {
    let room = file.metadata()?.len().min(LONGEST) as usize + 1;
    if into.capacity() < room {
        *into = system::buffer(room);
    }
    take_all(file, into)
}

/// Where a link leads, if a path is a link that leads to no file.
pub fn leads_nowhere(path: &OsStr) -> Option<String> {
    let nothing = fs::metadata(path).is_err_and(|e| e.kind() == ErrorKind::NotFound);
    let to = fs::read_link(path).ok().filter(|_| nothing)?;
    Some(format!("it is a link to {}, where no file is", name(to.as_os_str())))
}

/// The failure of a read: why, and what to do.
pub fn unread(path: &OsStr, error: &io::Error) -> Failure {
    let why = match (error.kind(), leads_nowhere(path)) {
        (ErrorKind::NotFound, Some(link)) => format!("{link}; check the link"),
        (ErrorKind::NotFound, None) => "there is no such file; check the name and the folder".to_string(),
        (ErrorKind::PermissionDenied, _) => "it may not be read; ask its owner for the right to".to_string(),
        (ErrorKind::IsADirectory, _) => "it is a folder; name the files in it".to_string(),
        _ => format!("it cannot be read: {error}; try again or copy it to another place"),
    };
    Failure::File(format!("{}: {why}", name(path)))
}

/// A failure that left every file as it was: why, and what to do.
pub fn unchanged(path: &OsStr, why: &str) -> Failure {
    Failure::File(format!("{}: {why}. Nothing was changed", name(path)))
}

/// The failure to put a new file at a path.
pub fn unwritten(path: &OsStr, error: &io::Error) -> Failure {
    let why = match error.kind() {
        ErrorKind::PermissionDenied => "no new file may be made in its folder; ask for the right to, or name another place by -o",
        ErrorKind::ReadOnlyFilesystem => "its disk is mounted read-only; name a place on another disk by -o",
        ErrorKind::StorageFull | ErrorKind::QuotaExceeded => "the disk is full; make room, or name another place by -o",
        ErrorKind::NotFound => "its folder does not exist; make it first, or name another place by -o",
        ErrorKind::NotADirectory => "a part of its path is no folder; check the path",
        // In the tool's own words.
        _ if error.raw_os_error().is_none() => &error.to_string(),
        _ => &format!("it could not be written: {error}; try again, or name another place by -o"),
    };
    unchanged(path, why)
}

/// Reads a file, or standard input for `-`, into a buffer.
pub fn read_into(path: &OsStr, into: &mut Vec<u8>) -> Result<(), Failure> {
    if path == "-" {
        closed::refuse(Standard::Input)?;
    }
    let done = if path == "-" { take_all(io::stdin().lock(), into) } else { File::open(path).and_then(|f| take_file(&f, into)) };
    done.map(|_| ()).map_err(|e| unread(path, &e))
}

/// Reads a file, or standard input for `-`.
pub fn read(path: &OsStr) -> Result<Vec<u8>, Failure> {
    let mut bytes = Vec::new();
    read_into(path, &mut bytes)?;
    Ok(bytes)
}

/// A file's name for messages.
pub fn name(path: &OsStr) -> String {
    if path == "-" {
        return "standard input".to_string();
    }
    shown(path.to_string_lossy().chars())
}

/// A line about an accepted file, which says so where it is read with line ends or with a directory: how many layers that lists, and its edition if that is
/// not the first.
pub fn as_read(reading: Reading, bytes: &[u8], line: impl Display) -> String {
    noted(reading, &directory_of(reading.layers(bytes), reading.edition(bytes)), line)
}

/// The same about a refused file, of which no number of layers is sure.
pub fn as_refused(reading: Reading, bytes: &[u8], line: impl Display) -> String {
    noted(reading, &directory_of(None, reading.edition(bytes)), line)
}

/// The same about a result, whose directory is made anew.
pub fn as_made(reading: Reading, bytes: &[u8], line: impl Display) -> String {
    let directory = directory_of(reading.layers(bytes), reading.edition(bytes));
    noted(reading, &format!("{directory} made anew"), line)
}

/// A directory in words: `directory of 2 layers, edition 2`.
pub fn directory_of(layers: Option<usize>, edition: Option<Edition>) -> String {
    let layers = layers.map_or(String::new(), |layers| format!(" of {}", number_of(layers as u64, "layer")));
    let edition = edition.filter(|edition| *edition != Edition::First).map_or(String::new(), |edition| format!(", {edition}"));
    format!("directory{layers}{edition}")
}

fn noted(reading: Reading, directory: &str, line: impl Display) -> String {
    match (reading.form, reading.directory) {
        (Form::Plain, false) => line.to_string(),
        (Form::Plain, true) => format!("{line} ({directory})"),
        (form, false) => format!("{line} ({form})"),
        (form, true) => format!("{line} ({form}, {directory})"),
    }
}

/// The command that explains a file as it was read: with the options for that, where it is not what is recognised.
pub fn explain_command(path: &OsStr, reading: Reading, bytes: &[u8]) -> String {
    let form = match reading.form {
        form if form == Form::of(bytes) => "",
        Form::Lines => " --lines",
        Form::Plain => " --plain",
    };
    let directory = match reading.directory {
        directory if directory == Reading::in_form(reading.form, bytes).directory => "",
        true => " --directory",
        false => " --no-directory",
    };
    quoted(&format!("dmtool explain{form}{directory} {}", word(path)))
}

/// A note of the library with the file's name in the commands that mend it. Standard input has none that a command could mend.
pub fn with_name(note: &str, path: &OsStr) -> String {
    let (mut named, mut rest) = (String::new(), note);
    while let Some((before, command, behind)) = command_in(rest).filter(|_| path != "-") {
        named.push_str(before);
        named.push_str(&quoted(&command.replacen(" FILE ", &format!(" {} ", word(path)), 1)));
        rest = behind;
    }
    named + rest
}

/// The first command in a text, between what stands before it and behind it.
fn command_in(text: &str) -> Option<(&str, &str, &str)> {
    let (before, rest) = text.split_at(text.find("'dmtool ")?);
    let (command, behind) = rest.strip_prefix('\'')?.split_once('\'')?;
    Some((before, command, behind))
}

/// A command in quotation marks that it does not hold itself.
fn quoted(command: &str) -> String {
    let around = match (command.contains('\''), command.contains('"')) {
        (false, _) => "'",
        (true, false) => "\"",
        (true, true) => "",
    };
    format!("{around}{command}{around}")
}

/// A file's name as a word of a command that is copied to a shell: as it is where it means itself there, else in single quotes. One that would be an
/// option is named by its folder.
fn word(path: &OsStr) -> String {
    let means_itself = |c: char| c.is_alphanumeric() || "_-./,:+@%".contains(c);
    let folder = if path.as_encoded_bytes().starts_with(b"-") && path != "-" { "./" } else { "" };
    match path.to_str() {
        Some(text) if !text.is_empty() && text.chars().all(means_itself) => format!("{folder}{text}"),
        Some(text) if !text.chars().any(char::is_control) => format!("'{folder}{}'", text.replace('\'', "'\\''")),
        _ => format!("$'{folder}{}'", path.as_encoded_bytes().iter().map(in_octal).collect::<String>()),
    }
}

/// A byte of a name that cannot be printed as it is, as shells read it between `$'` and `'`.
fn in_octal(byte: &u8) -> String {
    match byte {
        b'\'' | b'\\' => format!("\\{}", char::from(*byte)),
        b' '..=b'~' => char::from(*byte).to_string(),
        other => format!("\\{other:03o}"),
    }
}

/// Says that a file was read with line ends or a directory, and that its result has them, where the answer has no room for it.
pub fn say_reading(path: &OsStr, reading: Reading) {
    let has = match (reading.form, reading.directory) {
        (Form::Plain, false) => return,
        (Form::Lines, false) => "it has line ends, and so has the result",
        (Form::Plain, true) => "it has a directory, and the result has it made anew",
        (Form::Lines, true) => "it has line ends and a directory, and so has the result, the directory made anew",
    };
    complain(&format!("{}: {has}", name(path)));
}
