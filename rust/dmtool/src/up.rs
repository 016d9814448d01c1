//! `up FILE RECORD`: the way from a record up to its layer.

use crate::arguments::{record_number, Arguments};
use crate::asked::Asked;
use crate::explain;
use crate::failure::{output_failed, Done, FINE};
use crate::files;
use std::io::Write;
use zvaigulta::way_up;

/// Prints the header above, the number of headers passed, and their record numbers.
pub fn run(arguments: &Arguments, out: &mut impl Write) -> Done {
    let [path, record] = arguments.exactly("up FILE RECORD")?;
    let record = record_number(record, "RECORD")?;
    let bytes = files::read(path)?;
    let asked = Asked::of(arguments, path, &bytes);
    let sheet = asked.sheet()?;
    let above = |record| way_up(&sheet, sheet.len(), record).map_err(|r| explain::way_up(&asked, &sheet, record, r));
    let way = above(record)?;
    let mut passed = Vec::new();
    let mut next = way.header;
    // Each header stands before the record below it, so this ends; a level is at most 9, so eight headers are passed at most.
    while let Some(header) = next {
        passed.push(header.to_string());
        next = above(header)?.header;
    }
    let name = files::name(path);
    let line = match way.header {
        None => "a layer header, no header above".to_string(),
        Some(header) => format!("header above {header}, headers passed {} ({})", way.passed, passed.join(", ")),
    };
    writeln!(out, "{name}: record {record}: {}", files::as_read(asked.reading, &bytes, line)).map_err(output_failed)?;
    Ok(FINE)
}
