//! The words of the refusals and the columns of the layouts that the C interface answers are those of the Rust crate: every
//! number, every column of every layout, and nothing beside them.

mod c;

use zvaigulta::layout::{Allowed, Column, Content, ALL};
use zvaigulta::Reason;

/// The numbers that are refusals: 1 to 19, and 27.
fn refusals() -> impl Iterator<Item = u64> {
    (1..=19).chain([27])
}

/// The line that words.c prints of a refusal.
fn refusal_line(number: u64) -> String {
    if !refusals().any(|refusal| refusal == number) {
        return format!("refusal {number} 16 0 0 1 [] exact 16 tight 16 1");
    }
    let words = Reason::from_number(number).to_string();
    format!("refusal {number} 0 0 {} 1 [{words}] exact 0 tight 15 1", words.len())
}

/// The greatest number of so many digits.
fn nines(digits: usize) -> i64 {
    10i64.pow(u32::try_from(digits).expect("a width")) - 1
}

/// Letter, least and greatest number of a column.
fn content(column: &Column) -> (char, i64, i64) {
    let width = column.width.min(18);
    let any = (-nines(width - 1), nines(width));
    match column.content {
        Content::Text => ('A', 0, 0),
        Content::Blank => ('X', 0, 0),
        Content::IntegerOrSpaces => ('S', any.0, any.1),
        Content::Integer(Allowed::AnySign) => ('I', any.0, any.1),
        Content::Integer(Allowed::AtLeast(least)) => ('I', least, nines(column.width)),
        Content::Integer(Allowed::Between(least, greatest)) => ('I', least, greatest),
        Content::Integer(Allowed::OneOf(list)) => ('L', *list.iter().min().expect("a list"), *list.iter().max().expect("a list")),
    }
}

/// The line that words.c prints of a column.
fn column_line(layout: usize, number: usize) -> String {
    let entry = layout.checked_sub(1).and_then(|l| ALL.get(l));
    let column = entry.and_then(|l| number.checked_sub(1).and_then(|n| l.columns.get(n)));
    let Some(column) = column else {
        return format!("column {layout} {number} 16 0 0 0 0 0 0 16 0 0 1 [] tight 16 1");
    };
    let (letter, least, greatest) = content(column);
    let tight = if column.name.is_empty() { 0 } else { 15 };
    format!(
        "column {layout} {number} 0 0 {} {} {} {least} {greatest} 0 0 {} 1 [{}] tight {tight} 1",
        column.start,
        column.width,
        u32::from(letter),
        column.name.len(),
        column.name
    )
}

fn number(line: &str, word: usize) -> u64 {
    line.split(' ').nth(word).and_then(|w| w.parse().ok()).unwrap_or_else(|| panic!("{line}"))
}

#[test]
fn every_refusal_and_every_column_is_that_of_the_rust_crate() {
    let printed = c::compiled_and_run("words", &[]);
    let (mut said, mut columns) = (0, 0);
    for line in printed.lines() {
        if line.starts_with("refusal") {
            assert_eq!(line, refusal_line(number(line, 1)));
            said += usize::from(number(line, 2) == 0);
        } else {
            let place = |word| usize::try_from(number(line, word)).expect("64 bits");
            assert_eq!(line, column_line(place(1), place(2)));
            columns += usize::from(number(line, 3) == 0);
        }
    }
    assert_eq!(
        (said, columns),
        (refusals().count(), ALL.iter().map(|l| l.columns.len()).sum::<usize>()),
        "all of them were printed"
    );
}

/// The value of a number that the header defines.
fn defined(name: &str) -> usize {
    let header = c::header();
    let line = header.lines().find_map(|line| line.strip_prefix(&format!("#define {name} "))).expect(name);
    line.parse().expect(name)
}

#[test]
fn the_rooms_that_the_header_names_just_hold_every_text() {
    let words = refusals().map(|n| Reason::from_number(n).to_string().len()).max();
    let names = ALL.iter().flat_map(|l| l.columns).map(|column| column.name.len()).max();
    assert_eq!((Some(defined("ZV_TEXT_BYTES")), Some(defined("ZV_NAME_BYTES"))), (words, names));
    assert_eq!((defined("ZV_RECORD_BYTES"), defined("ZV_MOST_RECORDS")), (zvaigulta::RECORD_BYTES, zvaigulta::MOST_RECORDS));
    assert_eq!(defined("ZV_LINE_RECORD_BYTES"), zvaigulta::LINE_RECORD_BYTES);
}
