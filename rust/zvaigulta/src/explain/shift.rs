//! Bytes lost or too many somewhere in a file: behind them the records read in order again, a few bytes later or earlier.

use super::counts::Records;
use super::near;
use crate::layout::INDEX_C;
use crate::outline::{Outline, Record, Stated, What};
use crate::text::{number_of, quoted};
use crate::{FileKind, Form, RECORD_BYTES};

/// How many records must read in order, where so many are left.
const IN_ORDER: usize = 6;

/// How many bytes may be lost or too many, where the file's length does not tell.
const MOST_BYTES: isize = 4;

/// Where the records read in order again, and how many bytes later (or earlier, below 0) than they should. Whole records that are
/// lost or too many as well do not show in it.
#[derive(Clone, Copy)]
struct Shift {
    record: usize,
    by: isize,
}

/// Control characters side by side.
struct Fill<'a> {
    place: usize,
    bytes: &'a [u8],
}

/// What is seen of a shift at the refused record or shortly before it; and how many records and bytes the file states.
pub fn notes(bytes: &[u8], refused: usize, form: Form) -> Option<Vec<String>> {
    let shift = find(bytes, refused)?;
    let same = |count: isize| (count - shift.by) % RECORD_BYTES as isize == 0;
    let fill = fill(bytes, refused, shift.record).filter(|fill| same(fill.bytes.len() as isize));
    let records = Records::before(bytes, refused);
    let by_counts = || records.as_ref().map(|records| records.bytes_too_many(bytes.len())).filter(|count| same(*count));
    let count = fill.as_ref().map(|fill| fill.bytes.len() as isize).or_else(by_counts);
    let look = fill.map_or(String::new(), |fill| fill.words());
    // A fill is seen; of counts it must be said that they tell more than the shift.
    let by = if look.is_empty() && count.is_some_and(|count| count != shift.by) { "by the counts " } else { "" };
    let (shift, cause) = (shift.towards(count), shift.cause(count));
    let again = format!("from record {} on the file reads in order {}", shift.record, shift.way());
    let seen = format!("the bytes seem to shift at record {refused} or shortly before it: {again}, so {by}{cause}{look}");
    Some([seen].into_iter().chain(records.map(|records| records.words_in_bytes(bytes.len(), form))).collect())
}

impl Shift {
    /// The same shift, told as bytes too many where the count is above 0, as lost bytes where it is below.
    fn towards(self, count: Option<isize>) -> Shift {
        match count.map_or(0, isize::signum) - self.by.signum() {
            2 => Shift { record: self.record.saturating_sub(1).max(1), by: self.by + RECORD_BYTES as isize },
            -2 => Shift { record: self.record + 1, by: self.by - RECORD_BYTES as isize },
            _ => self,
        }
    }

    /// How far, and in which way.
    fn way(&self) -> String {
        let way = if self.by > 0 { "later" } else { "earlier" };
        format!("{} {way}", number_of(self.by.unsigned_abs() as u64, "byte"))
    }

    /// The bytes lost or too many, in all if that is known.
    fn cause(&self, count: Option<isize>) -> String {
        let other = amount(self.by - self.by.signum() * RECORD_BYTES as isize);
        match count {
            Some(count) => format!("{} there{}", amount(count), in_records(count)),
            None => format!("{} there, or {other}, and perhaps whole records as well", amount(self.by)),
        }
    }
}

/// Bytes that are too many, or lost where the count is below 0.
fn amount(count: isize) -> String {
    let is = if count.abs() == 1 { "is" } else { "are" };
    let what = if count > 0 { "too many" } else { "lost" };
    format!("{} {is} {what}", number_of(count.unsigned_abs() as u64, "byte"))
}

/// The same number of bytes in whole records and some bytes more.
fn in_records(count: isize) -> String {
    match (count.unsigned_abs() / RECORD_BYTES, count.unsigned_abs() % RECORD_BYTES) {
        (0, _) => String::new(),
        (records, more) => format!(" ({} and {})", number_of(records as u64, "record"), number_of(more as u64, "byte")),
    }
}

/// The first control characters side by side among the records at which the bytes shift.
fn fill(bytes: &[u8], refused: usize, until: usize) -> Option<Fill<'_>> {
    let from = refused.saturating_sub(2) * RECORD_BYTES;
    let region = bytes.get(from..(until * RECORD_BYTES).min(bytes.len()))?;
    let place = from + region.iter().position(|byte| *byte < b' ')?;
    let rest = bytes.get(place..)?;
    let count = rest.iter().take_while(|byte| **byte < b' ').count();
    Some(Fill { place, bytes: rest.get(..count)? })
}

impl Fill<'_> {
    /// Where it stands and what it is.
    fn words(&self) -> String {
        let first = self.bytes.first().copied().unwrap_or(0);
        let alike = self.bytes.iter().take_while(|byte| **byte == first).count();
        let what = match first {
            b'\r' | b'\n' => "a line end".to_string(),
            0 => number_of(alike as u64, "NUL byte"),
            other => format!("the byte {}", quoted(&[other])),
        };
        format!("; look at byte {} of record {}: {what}", self.place % RECORD_BYTES + 1, self.place / RECORD_BYTES + 1)
    }
}

/// By how many bytes the records may have shifted, the likeliest first: none, what the length is off by, as many as there are
/// control characters side by side (the fill of a tape block), a few.
fn candidates(bytes: &[u8], refused: usize) -> Vec<isize> {
    let fill = fill(bytes, refused, refused + 1).map_or(0, |fill| (fill.bytes.len() % RECORD_BYTES) as isize);
    let odd = (bytes.len() % RECORD_BYTES) as isize;
    let by_length = if odd * 2 > RECORD_BYTES as isize { odd - RECORD_BYTES as isize } else { odd };
    // In an index the columns are too few to tell a shift without the length.
    let few = (1..=MOST_BYTES).flat_map(|n| [n, -n]).filter(|_| FileKind::of(bytes) == FileKind::Sheet);
    [0, by_length, fill].into_iter().chain(few).collect()
}

/// The first record from the refused one on that reads in order at some shift; none where that is no shift at all.
fn find(bytes: &[u8], refused: usize) -> Option<Shift> {
    let candidates = candidates(bytes, refused);
    let places = refused.saturating_sub(1)..bytes.len() / RECORD_BYTES + 1;
    let mut tries = places.flat_map(|place| candidates.iter().map(move |by| (place, *by)));
    let found = tries.find(|(place, by)| in_order(bytes, (place * RECORD_BYTES).checked_add_signed(*by)));
    let found = found.map(|(place, by)| Shift { record: place + 1, by });
    // Data alone is little to go by: there only what the length is off by is tried.
    let by_length = candidates.get(..2).unwrap_or(&candidates);
    found.or_else(|| in_data(bytes, refused, by_length)).filter(|shift| shift.by != 0)
}

/// Whether records in order stand from a byte on: headers and items with their data; in an index c records.
fn in_order(bytes: &[u8], start: Option<usize>) -> bool {
    let rest = start.and_then(|start| bytes.get(start..)).unwrap_or(&[]);
    let first = rest.get(..RECORD_BYTES).unwrap_or(&[]);
    match FileKind::of(bytes) {
        FileKind::Index => !first.is_empty() && rest.chunks_exact(RECORD_BYTES).take(IN_ORDER).all(|c| INDEX_C.fits(c)),
        FileKind::Sheet => {
            let whole = |record: &Record| record.bytes.len() == RECORD_BYTES;
            near::reads_as(first).is_some() && Outline::of(rest).take(IN_ORDER).filter(whole).all(|record| sound(&record))
        }
    }
}

/// Whether a record is known for what it is and none of its columns is malformed.
fn sound(record: &Record) -> bool {
    record.what != What::Unknown && !record.judged_columns().iter().any(|column| column.is_malformed(record.bytes))
}

/// The same where no header or item follows: the data records behind the refused one, which is data too.
fn in_data(bytes: &[u8], refused: usize, candidates: &[isize]) -> Option<Shift> {
    let item = match Outline::of(bytes).nth(refused.checked_sub(1)?)?.what {
        What::Data { item } => Outline::of(bytes).nth(item - 1)?,
        _ => return None,
    };
    let stated = Stated::of(item.sort()?, item.bytes);
    let columns = stated.layout?.columns;
    let reads = |number: usize, by: isize| {
        let start = ((number - 1) * RECORD_BYTES).checked_add_signed(by)?;
        let judged = columns.get(..stated.judged((number - item.number - 1) as u64))?;
        let moved = bytes.get(start..start + RECORD_BYTES)?;
        judged.iter().all(|column| !column.is_malformed(moved)).then_some(())
    };
    let last = (item.number as u64 + stated.records).min((refused + IN_ORDER) as u64) as usize;
    let mut in_order = candidates.iter().filter(|by| (refused + 1..=last).all(|number| reads(number, **by).is_some()));
    let by = *in_order.next().filter(|_| refused < last)?;
    Some(Shift { record: refused + 1, by })
}
