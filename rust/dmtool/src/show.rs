//! `show FILE [FROM [TO]]`: records with their names.

use crate::arguments::{record_number, Arguments};
use crate::failure::{output_failed, Done, Failure, FINE};
use crate::files::{self, as_read, as_refused};
use std::io::Write;
use zvaigulta::layout::{Column, Content};
use zvaigulta::outline::Record;
use zvaigulta::text::{quoted, quoted_short};
use zvaigulta::{explain, RECORD_BYTES};

/// Prints the file's judgement, then a line for each record from FROM to TO.
pub fn run(arguments: &Arguments, out: &mut impl Write) -> Done {
    let (path, bounds) = match arguments.words.split_first() {
        Some((path, bounds)) if bounds.len() <= 2 => (path, bounds),
        _ => return Err(Failure::Usage("the words must be: show FILE [FROM [TO]]".to_string())),
    };
    let from = bounds.first().map_or(Ok(1), |word| record_number(word, "FROM"))?;
    let to = bounds.get(1).map_or(Ok(usize::MAX), |word| record_number(word, "TO"))?;
    if from == 0 || to < from {
        return Err(Failure::Usage("FROM must be 1 or more, and TO no less than FROM".to_string()));
    }
    let bytes = files::read(path)?;
    let reading = arguments.reading_of(&bytes);
    let plain = reading.form.records(&bytes);
    let records = plain.len().div_ceil(RECORD_BYTES);
    if from > records.max(1) {
        return Err(Failure::File(format!("{}: it has {records} records; give a FROM up to that", files::name(path))));
    }
    let judged = match reading.judge(&bytes) {
        Ok(counts) => as_read(reading, &bytes, counts),
        Err(refusal) => as_refused(reading, &bytes, explain::line_as(reading, &bytes, refusal)),
    };
    writeln!(out, "{}: {judged}", files::name(path)).map_err(output_failed)?;
    let shown = reading.outline(&plain).skip(from - 1).take_while(|named| named.number <= to);
    for named in shown {
        writeln!(out, "{}", line(&named)).map_err(output_failed)?;
    }
    Ok(FINE)
}

/// A record on one line: its number, what it is, and its columns by name.
fn line(named: &Record) -> String {
    let mut columns = Vec::new();
    let Some(layout) = named.layout else {
        return format!("{}: {}: {}", named.number, named.title(), quoted(named.bytes));
    };
    for column in named.judged_columns() {
        if let Some(value) = value(column, named.bytes) {
            let name = if column.name.is_empty() { "blank" } else { column.name };
            columns.push(format!("{name}={value}"));
        }
    }
    let start = layout.columns.get(named.judged).map_or(RECORD_BYTES, |column| column.start);
    let rest = named.bytes.get(start..).unwrap_or(&[]);
    if rest.iter().any(|byte| *byte != b' ') {
        columns.push(format!("not judged={}", quoted_short(rest)));
    }
    format!("{}: {}: {}", named.number, named.title(), columns.join(", "))
}

/// A column's value: an integer as a number, text in quotation marks, a malformed integer in quotation marks behind a `?`. Empty text, and blanks
/// as they should be, are left out.
fn value(column: &Column, record: &[u8]) -> Option<String> {
    let bytes = column.bytes(record);
    match column.content {
        Content::Text | Content::Blank | Content::IntegerOrSpaces if column.is_spaces(record) => None,
        Content::Text | Content::Blank => Some(quoted_short(bytes)),
        _ => Some(column.value(record).map_or_else(|| format!("?{}", quoted(bytes)), |n| n.to_string())),
    }
}
