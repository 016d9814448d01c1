//! 6 where a rule joins several columns (unit and level, f count, b count, note direction), and 9: fractions against wholes.

use super::{fault, Fault};
use crate::layout::*;
use crate::outline::{natural, record, Record};
use crate::{join, Reason, Unit};

/// 6 where every column is inside its own range.
pub fn rule(bytes: &[u8], named: &Record) -> Vec<Fault> {
    match named.layout.map_or("", |layout| layout.name) {
        "sheet b" => unit(bytes, named),
        "sheet d" => f_records(named),
        "index a" => b_records(named),
        "note data" => note_direction(named),
        _ => Vec::new(),
    }
}

/// The unit of record b against the level of record a.
fn unit(bytes: &[u8], named: &Record) -> Vec<Fault> {
    let level = natural(&SHEET_A, "level", bytes);
    let (due, levels) = match level {
        500 | 1000 => (1, "500 or 1000"),
        2500 | 5000 => (10, "2500 or 5000"),
        _ => (999, "10000"),
    };
    let unit = natural(&SHEET_B, "unit", named.bytes);
    let goes = match unit {
        1 => "unit 1 goes with 500 or 1000",
        10 => "unit 10 goes with 2500 or 5000",
        999 => "unit 999 goes with 10000",
        _ => "units are 1, 10 and 999",
    };
    vec![
        fault(named.number, "unit", format!("is {unit}, must be {due} for level {levels}")),
        fault(1, "level", format!("is {level}; {goes}")),
    ]
}

/// The f records of record d: none, or one for each three courses.
fn f_records(named: &Record) -> Vec<Fault> {
    let number = |name| natural(&SHEET_D, name, named.bytes);
    let (courses, states) = (number("courses"), number("f records"));
    let words = match courses.div_ceil(3) {
        0 => format!("is {states}, must be 0 for 0 courses"),
        needed => format!("is {states}, must be 0 or, for {courses} courses, {needed}"),
    };
    vec![
        fault(named.number, "courses", format!("is {courses}; an f record holds three courses")),
        fault(named.number, "f records", words),
    ]
}

/// The b records of an index: one for each ten sheets.
fn b_records(named: &Record) -> Vec<Fault> {
    let number = |name| natural(&INDEX_A, name, named.bytes);
    let (sheets, states) = (number("sheets"), number("b records"));
    let needed = sheets.div_ceil(10);
    let most = "does not fit two digits, an index lists 990 sheets at most";
    let words = match needed {
        100.. => format!("is {states}, and {sheets} sheets need {needed}: {needed} {most}"),
        _ => format!("is {states}, must be {needed} for {sheets} sheets"),
    };
    vec![fault(named.number, "sheets", format!("is {sheets}; a b record lists ten")), fault(named.number, "b records", words)]
}

/// A note's direction, in degrees, against its writing direction.
fn note_direction(named: &Record) -> Vec<Fault> {
    let writing = natural(&DATA_NOTE, "writing direction", named.bytes);
    let direction = DATA_NOTE.value("direction", named.bytes).unwrap_or(0);
    let (range, way, other) = match writing {
        0 => ("-45 to 45", "0, across", "-135 to -45 goes with 1, down"),
        _ => ("-135 to -45", "1, down", "-45 to 45 goes with 0, across"),
    };
    vec![
        fault(named.number, "writing direction", format!("is {writing}; a direction of {other}")),
        fault(named.number, "direction", format!("is {direction}, must be {range} where the writing direction is {way}")),
    ]
}

/// 9: the fractions that do not go with their wholes in record 2, by the proved joining; both columns are named.
pub fn fractions(bytes: &[u8], named: &Record) -> Vec<Fault> {
    let b = record(bytes, 2);
    let unit = natural(&SHEET_B, "unit", b);
    let (most, counted) = if unit == 1 { (999, "millimetres") } else { (99, "centimetres") };
    let wrong = |column: &Column| {
        let (whole, fraction) = (SHEET_B.value(column.name, b)?, column.value(named.bytes)?);
        join(Unit::from(unit), whole, fraction).err().filter(|refusal| refusal.reason == Reason::Fraction)?;
        let large = format!("too large: at most {most} {counted} for unit {unit}");
        let opposite = format!("of opposite sign to its whole {whole} in record 2");
        let words = match (fraction.unsigned_abs() > most, whole.signum() * fraction.signum() < 0) {
            (true, true) => format!("is {fraction}, {large}; and {opposite}"),
            (true, false) => format!("is {fraction}, {large}"),
            _ => format!("is {fraction}, {opposite}"),
        };
        Some([fault(named.number, column.name, words), fault(2, column.name, format!("is {whole}, the whole of it"))])
    };
    SHEET_E.columns.iter().filter_map(wrong).flatten().collect()
}
