//! Small sheets, written out, that the tests of both editions share.

use reference::sheets::{EXAMPLE_ITEM, EXAMPLE_LAYER, EXAMPLE_PART};
use reference::{Refusal, RECORD};

/// The sheet part of document 01's example, for so many elements and records behind it.
pub fn part(elements: usize, records: usize) -> String {
    let mut part = EXAMPLE_PART.map(str::to_string);
    part[1].replace_range(31..44, &format!("{elements:>6}{records:>7}"));
    part.concat()
}

/// The example of document 01: nine records, a layer at record 6 and one item.
pub fn example() -> String {
    [part(1, 4).as_str(), EXAMPLE_LAYER, &EXAMPLE_ITEM.concat()].concat()
}

/// A layer without groups and items.
pub fn empty_layer() -> String {
    let mut layer = EXAMPLE_LAYER.to_string();
    layer.replace_range(18..68, &"    0".repeat(10));
    layer
}

/// A sheet of so many empty layers, from record 6 on.
pub fn layers(count: usize) -> String {
    part(0, count) + &empty_layer().repeat(count)
}

/// Some letters, and spaces behind them to the end of the record.
pub fn record(text: &str) -> String {
    format!("{text:<84}")
}

/// A sheet, and behind it records of some letters each.
pub fn with(sheet: &str, texts: &[&str]) -> String {
    sheet.to_string() + &texts.iter().map(|text| record(text)).collect::<String>()
}

pub fn refused<T>(answer: Result<T, Refusal>) -> Option<(u8, usize)> {
    answer.err().map(|refusal| (refusal.number, refusal.record))
}

/// What a call that appends puts behind a sheet; it leaves the sheet and the bytes behind the directory.
pub fn put_behind(sheet: &str, append: impl FnOnce(&mut [u8], usize) -> Result<usize, Refusal>) -> String {
    let mut buffer = [sheet.as_bytes(), &[b'.'; 6 * RECORD]].concat();
    let used = append(&mut buffer, sheet.len()).expect("an accepted sheet, and room");
    assert!(buffer.starts_with(sheet.as_bytes()) && buffer[used..].iter().all(|b| *b == b'.'));
    String::from_utf8(buffer[sheet.len()..used].to_vec()).expect("text")
}
