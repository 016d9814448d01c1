//! What stands near a record: data that reads as a header or item, the next header or item, padding.

use crate::layout::{HEADER, INDEX_A, SHEET_A};
use crate::outline::{natural, record, Record, Sort, Stated, COUNTS};
use crate::RECORD_BYTES;

/// The sort of a record that reads as a header or item, its type included.
pub fn reads_as(record: &[u8]) -> Option<Sort> {
    Sort::of(record).filter(|sort| fits(*sort, record))
}

/// Whether a record reads as a header or item but for its type: every column is well formed and inside its own range, and the
/// level is one that there is.
pub fn fits(sort: Sort, record: &[u8]) -> bool {
    let level = sort.layout().value("level", record);
    record.len() == RECORD_BYTES && sort.layout().fits(record) && level.is_some_and(|level| (1..=9).contains(&level))
}

/// The sort of a record that reads as a header or item with a wrong type. As the type does not tell, its counts must go
/// together too: numbers of seven digits side by side fit many columns.
pub fn fits_but_for_type(record: &[u8]) -> Option<Sort> {
    let sorts = [Sort::Header, Sort::Element(1), Sort::Grid, Sort::Net];
    sorts.into_iter().find(|sort| fits(*sort, record) && together(*sort, record))
}

/// Whether the counts of a header or item go together.
pub fn together(sort: Sort, record: &[u8]) -> bool {
    match sort {
        Sort::Header => {
            natural(&HEADER, "total", record) == COUNTS.iter().map(|name| natural(&HEADER, name, record)).sum::<u64>()
        }
        item => Stated::of(item, record).records == Stated::of(item, record).needed,
    }
}

/// The first record behind a number that reads as a header or item.
pub fn next(bytes: &[u8], number: usize) -> Option<(usize, Sort)> {
    let mut behind = bytes.chunks(RECORD_BYTES).enumerate().skip(number);
    behind.find_map(|(place, record)| Some((place + 1, reads_as(record)?)))
}

/// The first of the data records that an item states that reads as a header or item itself.
pub fn hidden(bytes: &[u8], item: &Record) -> Option<(usize, Sort)> {
    let last = (item.number as u64).saturating_add(Stated::of(item.sort()?, item.bytes).records);
    let mut data = bytes.chunks(RECORD_BYTES).enumerate().skip(item.number).take_while(|(place, _)| (*place as u64) < last);
    data.find_map(|(place, record)| Some((place + 1, reads_as(record)?)))
}

/// How many records follow an item before the next one that reads as a header or item, or before the end.
pub fn following(bytes: &[u8], item: &Record) -> usize {
    let records = bytes.len() / RECORD_BYTES;
    next(bytes, item.number).map_or(records, |(number, _)| number - 1).saturating_sub(item.number)
}

/// That a record is the first of another file: files put one behind the other.
pub fn file_start(bytes: &[u8], number: usize) -> Option<String> {
    let first = record(bytes, number);
    let (what, layout) = match first.get(..2)? {
        b"M " => ("a sheet", &SHEET_A),
        b"I " => ("an index", &INDEX_A),
        _ => return None,
    };
    if number > 1 && first == record(bytes, number - 1) {
        return Some(format!("record {number} is the same as record {} before it: take it out", number - 1));
    }
    layout.fits(first).then(|| format!("record {number} starts {what} of its own: divide the file before it"))
}

/// Whether every record from a number on is filled with one byte alone.
pub fn filled(bytes: &[u8], number: usize, byte: u8) -> bool {
    let rest = bytes.get((number - 1) * RECORD_BYTES..).unwrap_or(&[]);
    !rest.is_empty() && rest.iter().all(|other| *other == byte)
}

/// The first record behind one and up to another that is the same as the record before it.
pub fn repeated(bytes: &[u8], from: usize, to: usize) -> Option<usize> {
    (from + 1..=to).find(|number| record(bytes, *number) == record(bytes, number - 1))
}
