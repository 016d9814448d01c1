//! 10: what the sheet, its headers or an index state, against what the file holds.

use super::body::Body;
use super::{fault, index, lost, Explanation, Fault};
use crate::layout::{Layout, HEADER, SHEET_B};
use crate::outline::{natural, part, record, Record, Sort, COUNTS};
use crate::text::number_of;
use crate::{FileKind, Form, RECORD_BYTES};

/// The most columns that are listed.
const MOST_LISTED: usize = 60;

/// How many records a file states, and how many are there.
pub struct Records {
    kind: FileKind,
    /// Those of the sheet part; of an index all.
    part: u64,
    /// Those behind the sheet part.
    behind: u64,
    there: u64,
}

impl Records {
    /// Of a file; of a sheet only where its record count can be read.
    pub fn of(bytes: &[u8]) -> Option<Records> {
        let kind = FileKind::of(bytes);
        let behind = match kind {
            FileKind::Sheet => SHEET_B.value("record count", record(bytes, 2))?,
            FileKind::Index => 0,
        };
        let (part, there) = (part(bytes).len() as u64, (bytes.len() / RECORD_BYTES) as u64);
        u64::try_from(behind).ok().map(|behind| Records { kind, part, behind, there })
    }

    fn stated(&self) -> u64 {
        self.part + self.behind
    }

    /// How many are missing; 0 where there are enough.
    pub fn missing(&self) -> u64 {
        self.stated().saturating_sub(self.there)
    }

    /// How many are too many; 0 where there are not.
    pub fn too_many(&self) -> u64 {
        self.there.saturating_sub(self.stated())
    }

    /// The same of a file in which bytes are lost or too many at a record: only where no record that states them stands behind.
    pub fn before(bytes: &[u8], number: usize) -> Option<Records> {
        let last = match FileKind::of(bytes) {
            FileKind::Sheet => part(bytes).len(),
            FileKind::Index => 1,
        };
        Records::of(bytes).filter(|_| number > last)
    }

    /// How many bytes a file of a length has too many; below 0 how many too few.
    pub fn bytes_too_many(&self, length: usize) -> isize {
        length as isize - self.stated() as isize * RECORD_BYTES as isize
    }

    /// In words, with the bytes of a file of a length; in a form of it, where the length is that of its records.
    pub fn words_in_bytes(&self, length: usize, form: Form) -> String {
        let ends = length / RECORD_BYTES * (form.record_bytes() - RECORD_BYTES);
        format!("{}, {} bytes; the file has {}", self.states(), self.stated() * form.record_bytes() as u64, length + ends)
    }

    /// What is stated, in words.
    fn states(&self) -> String {
        let parts = format!("{} of the sheet part and {} behind it", self.part, self.behind);
        match self.kind {
            FileKind::Sheet => format!("the sheet states {} ({parts})", number_of(self.stated(), "record")),
            FileKind::Index => format!("the index states {}", number_of(self.stated(), "record")),
        }
    }

    /// In words.
    pub fn words(&self) -> String {
        let states = self.states();
        let differ = match (self.missing(), self.too_many()) {
            (0, 0) => return format!("{states}, and as many are there"),
            (0, 1) => "1 is too many".to_string(),
            (0, n) => format!("{n} are too many"),
            (1, _) => "1 is missing".to_string(),
            (n, _) => format!("{n} are missing"),
        };
        let there = if self.there == 1 { "1 is there".to_string() } else { format!("{} are there", self.there) };
        format!("{states}, {there}: {differ}")
    }
}

/// Every count that differs, and what that may mean.
pub fn differing(bytes: &[u8], told: &mut Explanation) {
    told.notes.extend(Records::of(bytes).map(|records| records.words()));
    match FileKind::of(bytes) {
        FileKind::Sheet => sheet(bytes, told),
        FileKind::Index => {
            told.faults.extend(index::stated(bytes));
            told.notes.push(index::left_over(bytes));
        }
    }
}

/// The counts of a sheet and of all its headers.
fn sheet(bytes: &[u8], told: &mut Explanation) {
    let body = Body::of(bytes);
    let mut faults = sheet_counts(bytes, &body);
    let headers = body.entries.iter().zip(&body.held).filter(|(entry, _)| entry.sort() == Some(Sort::Header));
    faults.extend(headers.flat_map(|(header, held)| header_counts(header, held)));
    let elsewhere = faults.iter().all(|differs| differs.fault.record != 2) && as_many_in_all(&body);
    lost::explain(bytes, &body, elsewhere, told);
    let more = Records::of(bytes).is_some_and(|records| records.too_many() > 0);
    if faults.iter().any(|differs| differs.short) && !more {
        told.notes.push(if elsewhere { ELSEWHERE } else { LOST }.to_string());
    }
    if faults.len() > MOST_LISTED {
        told.notes.push(format!("{MOST_LISTED} columns are listed here, and {} more differ", faults.len() - MOST_LISTED));
    }
    told.faults.extend(faults.into_iter().take(MOST_LISTED).map(|differs| differs.fault));
}

const LOST: &str = "a count that is short by one often means a lost record: find it in the original before you change the count";

const ELSEWHERE: &str = "no record and no item is missing by the sheet's counts: \
                         an item may stand under another header, or its type or level be wrong; \
                         find it in the original before you change a count";

/// Whether all headers together state as many as they hold.
fn as_many_in_all(body: &Body) -> bool {
    let headers = || body.entries.iter().filter(|entry| entry.sort() == Some(Sort::Header));
    let stated = headers().flat_map(|header| COUNTS.iter().map(|column| natural(&HEADER, column, header.bytes))).sum::<u64>();
    stated == body.held.iter().flatten().sum::<usize>() as u64
}

/// A column that differs, and whether the file holds less than it states.
struct Differs {
    fault: Fault,
    short: bool,
}

/// A count that is stated otherwise than it is found.
fn stated(layout: &Layout, column: &'static str, named: &Record, found: usize) -> Option<Differs> {
    let states = natural(layout, column, named.bytes);
    let most = 10u64.pow(layout.column(column).map_or(0, |column| column.width as u32)) - 1;
    let words = match found as u64 {
        found if found > most => format!("states {states}, the file holds {found}; at most {most} can be stated here"),
        found => format!("states {states}, the file holds {found}"),
    };
    (states != found as u64).then(|| Differs { fault: fault(named.number, column, words), short: (found as u64) < states })
}

/// The two counts of record b.
fn sheet_counts(bytes: &[u8], body: &Body) -> Vec<Differs> {
    let Some(b) = crate::outline::Outline::of(bytes).nth(1) else { return Vec::new() };
    let records = (bytes.len() / RECORD_BYTES).saturating_sub(part(bytes).len());
    let both = [stated(&SHEET_B, "element count", &b, body.items()), stated(&SHEET_B, "record count", &b, records)];
    both.into_iter().flatten().collect()
}

/// A header's counts: what stands one level below it, by kind, and the sum of these.
fn header_counts(header: &Record, held: &[usize; COUNTS.len()]) -> Vec<Differs> {
    let total = natural(&HEADER, "total", header.bytes);
    let sum: u64 = COUNTS.iter().map(|column| natural(&HEADER, column, header.bytes)).sum();
    let all = held.iter().sum::<usize>() as u64;
    let words = match (total == sum, sum == all) {
        (true, true) => None,
        (true, false) => Some(format!("states {total}, the file holds {all}")),
        (false, true) => Some(format!("states {total}, the counts behind it add up to {sum}")),
        (false, false) => Some(format!("states {total}, the counts behind it add up to {sum}, the file holds {all}")),
    };
    let total = words.map(|words| Differs { fault: fault(header.number, "total", words), short: all < total.min(sum) });
    let kinds = COUNTS.iter().zip(held).filter_map(|(column, found)| stated(&HEADER, column, header, *found));
    total.into_iter().chain(kinds).collect()
}
