//! 2: what a file that starts neither "M " nor "I " seems to be.

use super::{block, fault, form, Explanation};
use crate::layout::{INDEX_A, SHEET_A, SHEET_B};
use crate::outline::{record, Record, Sort};
use crate::text::{number_of, quoted};
use crate::{FileKind, RECORD_BYTES};

/// The type at fault, and what the file seems to be.
pub fn explain(bytes: &[u8], named: &Record, told: &mut Explanation) {
    let start = quoted(bytes.get(..2).unwrap_or(bytes));
    told.faults.push(fault(named.number, "type", format!("is {start}; a sheet starts with \"M \", an index with \"I \"")));
    let seems = known(bytes).or_else(|| behind(bytes)).or_else(|| type_alone(bytes));
    told.notes.push(seems.unwrap_or_else(|| "this is neither a sheet nor an index".to_string()));
}

/// A sheet or index that was judged as the other, a block, a sheet without its sheet part.
fn known(bytes: &[u8]) -> Option<String> {
    match (FileKind::of(bytes), Sort::of(bytes)) {
        (FileKind::Index, _) => Some("this is an index, and was judged as a sheet".to_string()),
        (_, Some(Sort::Header)) => {
            Some("the file starts with a header: the records of the sheet part before it are missing".to_string())
        }
        (_, Some(_)) => block::block(bytes),
        (_, None) => bytes.starts_with(b"M ").then(|| "this is a sheet, and was judged as an index".to_string()),
    }
}

/// Record 1 behind some bytes that do not belong there.
fn behind(bytes: &[u8]) -> Option<String> {
    let starts = |n: usize| {
        let record = bytes.get(n..n + RECORD_BYTES)?;
        let sheet = record.starts_with(b"M ") && SHEET_A.fits(record);
        (sheet || record.starts_with(b"I ") && INDEX_A.fits(record)).then_some(n)
    };
    if starts(RECORD_BYTES).is_some() {
        return Some("record 2 is where record 1 should be: what stands before it does not belong there".to_string());
    }
    let n = (1..RECORD_BYTES).find_map(starts)?;
    let before = quoted(bytes.get(..n.min(8)).unwrap_or(&[]));
    let without = form::without(bytes.get(n..)?);
    Some(format!("before the first record: {}, {before}: take that out; {without}", number_of(n as u64, "byte")))
}

/// Record 1 that is right but for its type.
fn type_alone(bytes: &[u8]) -> Option<String> {
    let record = record(bytes, 1);
    let words = |what: &str, kind: &str| {
        format!("the other columns of record 1 read as {what}'s: only the type seems wrong; it should be {kind}")
    };
    match (SHEET_A.fits(record), INDEX_A.fits(record), SHEET_B.fits(record)) {
        (true, _, _) => Some(words("a sheet", "\"M \"")),
        (_, true, _) => Some(words("an index", "\"I \"")),
        (_, _, true) => Some("record 1 reads as sheet b: sheet a before it is lost".to_string()),
        _ => None,
    }
}
