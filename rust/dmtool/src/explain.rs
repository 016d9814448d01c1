//! `explain FILE`: a refusal in words, with the records and the columns at fault. Number and record are the judge's; the rest
//! explains them. Also what a refused edit says.

use crate::arguments::Arguments;
use crate::asked::Asked;
use crate::failure::{output_failed, Done, Failure, FINE, REFUSED};
use crate::files::{self, as_read, as_refused};
use std::io::{self, Write};
use zvaigulta::explain::{explain_as, line_as, Explanation, Fault};
use zvaigulta::layout::Column;
use zvaigulta::outline::Record;
use zvaigulta::text::quoted;
use zvaigulta::{sheet_before_directory, FileKind, Reason, Refusal, LINE_RECORD_BYTES, RECORD_BYTES};

/// Prints the judgement of a file and, where it is refused, what is wrong.
pub fn run(arguments: &Arguments, out: &mut impl Write) -> Done {
    let [path] = arguments.exactly("explain FILE")?;
    let bytes = files::read(path)?;
    let (name, asked) = (files::name(path), Asked::of(arguments, path, &bytes));
    match asked.reading.judge(&bytes) {
        Ok(counts) => {
            writeln!(out, "{name}: {}", as_read(asked.reading, &bytes, counts)).map_err(output_failed)?;
            Ok(FINE)
        }
        Err(refusal) => {
            let line = line_as(asked.reading, &bytes, refusal);
            writeln!(out, "{name}: {}", as_refused(asked.reading, &bytes, &line)).map_err(output_failed)?;
            print(&asked, refusal, &line, out).map_err(output_failed)?;
            Ok(REFUSED)
        }
    }
}

/// What there is to say first that `line` has not said, then the refused record whole, then of each other record with a fault its
/// marked columns.
fn print(asked: &Asked, refusal: Refusal, line: &str, out: &mut impl Write) -> io::Result<()> {
    let Explanation { faults, notes, .. } = explain_as(asked.reading, asked.bytes, refusal);
    let whole = files::is_whole(asked.bytes);
    if !whole {
        writeln!(out, "{}: what is said here is of that part", files::longer())?;
    }
    // No command takes a directory off a file that was not read to its end.
    let names_none = |note: &str| whole || !note.contains("'dmtool directory ");
    let unsaid = notes.iter().filter(|note| !line.contains(note.as_str()) && names_none(note));
    unsaid.map(|note| files::with_name(note, asked.path)).try_for_each(|note| writeln!(out, "{note}"))?;
    let (records, mut others) = (asked.reading.form.records(asked.bytes), Vec::new());
    for record in asked.reading.outline(&records) {
        let whole = Some(record.number) == refusal.record;
        let own: Vec<&Fault> = faults.iter().filter(|fault| fault.record == record.number).collect();
        if whole {
            print_record(&record, &own, true, out)?;
        } else if !own.is_empty() {
            others.push((record, own));
        }
    }
    others.iter().try_for_each(|(record, own)| print_record(record, own, false, out))
}

/// A record's columns, a line each, or only those at fault, which are marked and say why.
fn print_record(named: &Record, faults: &[&Fault], whole: bool, out: &mut impl Write) -> io::Result<()> {
    writeln!(out, "record {}: {}", named.number, named.title())?;
    let widest = print_columns(named, faults, whole, out)?;
    let bytes = format!("bytes {}-{LINE_RECORD_BYTES}", RECORD_BYTES + 1);
    let mut ends = faults.iter().filter(|fault| fault.column == "line end");
    ends.try_for_each(|end| writeln!(out, "> {bytes:<11}  {:<widest$}  {}", end.column, end.words))
}

/// The same without what stands behind the record. Answers the length of the longest name.
fn print_columns(named: &Record, faults: &[&Fault], whole: bool, out: &mut impl Write) -> io::Result<usize> {
    let Some(layout) = named.layout else {
        let fault = faults.iter().find(|fault| fault.column == "type");
        let (mark, words) = fault.map_or((" ", ""), |fault| (">", fault.words.as_str()));
        writeln!(out, "{mark} bytes 1-{}  {}  {words}", named.bytes.len(), quoted(named.bytes))?;
        return Ok(0);
    };
    let fault = |column: &Column| faults.iter().find(|fault| fault.column == column.name);
    let shown = layout.columns.iter().enumerate().filter(|(_, column)| !column.name.is_empty());
    let shown: Vec<(usize, &Column)> = shown.filter(|(_, column)| whole || fault(column).is_some()).collect();
    let widest = shown.iter().map(|(_, column)| column.name.len()).max().unwrap_or(0);
    for (nth, column) in shown {
        let bytes = match column.width {
            1 => format!("byte {}", column.start + 1),
            width => format!("bytes {}-{}", column.start + 1, column.start + width),
        };
        let (mark, words) = match fault(column) {
            Some(fault) => (">", format!("  {}", fault.words)),
            None if nth >= named.judged => (" ", "  not judged".to_string()),
            None => (" ", String::new()),
        };
        writeln!(out, "{mark} {bytes:<11}  {:<widest$}  {}{words}", column.name, quoted(column.bytes(named.bytes)))?;
    }
    Ok(widest)
}

/// A refused insertion as the failure of its subcommand; the sheet and the block without line ends.
pub fn insertion(asked: &Asked, sheet: &[u8], place: usize, block: &[u8], refusal: Refusal) -> Failure {
    let words = zvaigulta::explain::insertion(sheet, place, block, refusal);
    refused(asked, refusal, words.into_iter().chain(in_directory(asked, sheet, place)).collect())
}

/// The same where the block has line ends, and they are wrong.
pub fn block(asked: &Asked, block: &Asked, wrong: Refusal, refusal: Refusal) -> Failure {
    let notes = explain_as(block.reading, block.bytes, wrong).notes;
    refused(asked, refusal, notes.iter().map(|note| format!("in the block: {}", files::with_name(note, block.path))).collect())
}

/// A refused removal as the failure of its subcommand.
pub fn removal(asked: &Asked, sheet: &[u8], place: usize, refusal: Refusal) -> Failure {
    let words = zvaigulta::explain::removal(sheet, place, refusal);
    refused(asked, refusal, words.into_iter().chain(in_directory(asked, sheet, place)).collect())
}

/// A refused way up as the failure of its subcommand.
pub fn way_up(asked: &Asked, sheet: &[u8], record: usize, refusal: Refusal) -> Failure {
    let words = zvaigulta::explain::way_up(sheet, record, refusal);
    refused(asked, refusal, words.into_iter().chain(in_directory(asked, sheet, record)).collect())
}

/// That a record which is none of the sheet's is one of its directory.
fn in_directory(asked: &Asked, sheet: &[u8], record: usize) -> Option<String> {
    let records = asked.bytes.len() / asked.reading.form.record_bytes();
    let its = asked.reading.directory && (sheet.len() / RECORD_BYTES + 1..=records).contains(&record);
    its.then(|| format!("record {record} belongs to the directory, which is no part of the sheet"))
}

/// A refused file as the failure of a subcommand.
pub fn file(asked: &Asked, refusal: Refusal) -> Failure {
    refused(asked, refusal, Vec::new())
}

/// What is said where the sheet is refused, by the pointer of the directory.
const SHEET_REFUSED: &str =
    "judged up to the pointer of the directory, the sheet is refused: 'dmtool explain' says what to mend first";

/// The same of a file with a directory: what there is to say of that, unless it is the sheet before it that is refused.
pub fn directory(asked: &Asked, refusal: Refusal) -> Failure {
    if !asked.reading.directory {
        return file(asked, refusal);
    }
    let its = is_directory(refusal) || sheet_before_directory(&asked.reading.form.records(asked.bytes)).is_some();
    let words = match its {
        true => {
            let notes = explain_as(asked.reading, asked.bytes, refusal).notes;
            notes.iter().map(|note| files::with_name(note, asked.path)).collect()
        }
        false => vec![SHEET_REFUSED.to_string()],
    };
    refused(asked, refusal, words)
}

/// Whether it is the directory that is refused, or its edition.
fn is_directory(refusal: Refusal) -> bool {
    matches!(refusal.reason, Reason::Directory | Reason::Edition)
}

/// A refused append as the failure of its subcommand.
pub fn appending(asked: &Asked, refusal: Refusal) -> Failure {
    let words = match FileKind::of(asked.bytes) {
        FileKind::Index => vec!["this is an index: it has no layers, and so no directory".to_string()],
        FileKind::Sheet => Vec::new(),
    };
    refused(asked, refusal, words)
}

/// A refused jump as the failure of its subcommand; the file without line ends.
pub fn jump(asked: &Asked, plain: &[u8], refusal: Refusal) -> Failure {
    let words = zvaigulta::explain::jump(plain, refusal);
    refused(asked, refusal, words.iter().map(|note| files::with_name(note, asked.path)).collect())
}

/// The refusal, then what to do, a line each. An index that should be a sheet is told to be one, and there is nothing to explain.
fn refused(asked: &Asked, refusal: Refusal, mut words: Vec<String>) -> Failure {
    let of_file = refusal.number() <= 10 || refusal.reason == Reason::LineEnd || is_directory(refusal);
    if of_file && (words.is_empty() || FileKind::of(asked.bytes) == FileKind::Sheet) {
        words.push(format!("{} says what is wrong", files::explain_command(asked.path, asked.reading, asked.bytes)));
    }
    let noted = if of_file { as_refused } else { as_read };
    let line = noted(asked.reading, asked.bytes, line_as(asked.reading, asked.bytes, refusal));
    words.insert(0, format!("{}: {line}", files::name(asked.path)));
    Failure::Refused(words.join("\n"))
}
