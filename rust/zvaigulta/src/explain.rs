//! What is wrong with a refused file, block or edit, and what to look at next. The library has judged; here its answer is put
//! into words.
//!
//! ```
//! use zvaigulta::{explain::explain, judge_sheet, EXAMPLE};
//!
//! // The second data record of the line at record 7 is gone.
//! let sheet = &EXAMPLE[..8 * 84];
//! let explained = explain(sheet, judge_sheet(sheet, sheet.len()).unwrap_err());
//! let fault = &explained.faults[0];
//! assert_eq!((fault.record, fault.column), (7, "records"));
//! assert_eq!(fault.words, "states 2 data records, and has 1");
//! assert_eq!(
//!     explained.notes[0],
//!     "the sheet states 9 records (5 of the sheet part and 4 behind it), 8 are there: 1 is missing"
//! );
//! ```

mod block;
mod body;
mod counts;
mod data;
mod directory;
mod due;
mod edits;
mod first;
mod form;
mod index;
mod joined;
mod length;
mod lines;
mod lost;
mod near;
mod other;
mod own;
mod shift;

pub use block::block;
pub(crate) use block::is_block;
pub use edits::{insertion, jump, removal, way_up};

use crate::layout::{INDEX_A, SHEET_A, SHEET_B, SHEET_D};
use crate::outline::{Outline, Record, Sort};
use crate::text::with_article;
use crate::{Form, Reading, Reason, Refusal};
use std::collections::HashSet;

/// A column at fault, and why. Where columns of two records do not go together, each of them is one.
#[derive(Clone, Debug, PartialEq, Eq)]
#[non_exhaustive]
pub struct Fault {
    /// The record's number, from 1.
    pub record: usize,
    /// The column's name, one of the record's layout; `type` in a record whose layout is unknown; `line end` for what stands behind a record.
    pub column: &'static str,
    /// What is wrong with it, or what it has to do with a column that is wrong.
    pub words: String,
}

/// Shorthand for a fault.
fn fault(record: usize, column: &'static str, words: String) -> Fault {
    Fault { record, column, words }
}

/// What ends each note after which a changed count would make a file accepted that has lost data.
const CAUTION: &str = "find it in the original before you change the count";

/// The columns at fault, and what else there is to say.
#[derive(Clone, Debug, Default, PartialEq, Eq)]
#[non_exhaustive]
pub struct Explanation {
    /// The columns at fault; no column twice.
    pub faults: Vec<Fault>,
    /// What else there is to say, a line each; what to look at first stands first.
    pub notes: Vec<String>,
}

impl Explanation {
    /// More columns at fault, those that are known already left out.
    fn add_faults(&mut self, more: Vec<Fault>) {
        let known: HashSet<(usize, &str)> = self.faults.iter().map(|fault| (fault.record, fault.column)).collect();
        self.faults.extend(more.into_iter().filter(|fault| !known.contains(&(fault.record, fault.column))));
    }
}

/// Explains a refusal of a plain file by the judge. It reads the file a few times at most.
pub fn explain(bytes: &[u8], refusal: Refusal) -> Explanation {
    explain_in(Form::Plain, bytes, refusal)
}

/// Explains a refusal of a file in a form. Bytes of the file are counted with the line ends; the column of a wrong line end (18) is called
/// `line end`.
///
/// ```
/// use zvaigulta::{explain::explain_in, judge_sheet_lines, Form, EXAMPLE};
///
/// let mut file = Form::Lines.file(EXAMPLE)?.into_owned();
/// file[3 * 86 + 84..][..2].copy_from_slice(b"\n\r");
/// let explained = explain_in(Form::Lines, &file, judge_sheet_lines(&file, file.len()).unwrap_err());
/// assert_eq!((explained.faults[0].record, explained.faults[0].column), (4, "line end"));
/// assert_eq!(explained.notes[0], "record 4 ends in line feed and carriage return (LF CR), the wrong way round");
/// # Ok::<(), zvaigulta::Refusal>(())
/// ```
pub fn explain_in(form: Form, bytes: &[u8], refusal: Refusal) -> Explanation {
    match (form, refusal.reason) {
        (Form::Lines, Reason::Length | Reason::LineEnd) => lines::explain(bytes, refusal),
        _ => of_records(&form.records(bytes), form, refusal),
    }
}

/// Explains a refusal of a file as it was read: also of one with a directory of layers behind its sheet (19, 27).
///
/// ```
/// use zvaigulta::{explain::explain_as, write_column, Reading, Sheet, EXAMPLE};
///
/// let mut file = Sheet::from(EXAMPLE.to_vec()).with_directory()?;
/// // The directory lists record 7 as the header of its one layer.
/// write_column(&mut file[9 * 84 + 2..9 * 84 + 9], 7)?;
/// let reading = Reading::of(&file);
/// let explained = explain_as(reading, &file, reading.judge(&file).unwrap_err());
/// let fault = &explained.faults[0];
/// assert_eq!((fault.record, fault.column), (10, "header 1"));
/// assert_eq!(fault.words, "is 7, must be 6: the header of layer 1, class 2100; record 7 is a line E2, level 2");
/// # Ok::<(), zvaigulta::Refusal>(())
/// ```
pub fn explain_as(reading: Reading, bytes: &[u8], refusal: Refusal) -> Explanation {
    let Reading { form, directory } = reading;
    let whole = !bytes.is_empty() && bytes.len().is_multiple_of(form.record_bytes());
    match refusal.reason {
        _ if !directory || !whole => explain_in(form, bytes, refusal),
        Reason::LineEnd => lines::explain(bytes, refusal),
        _ => directory::explain(&form.records(bytes), form, refusal),
    }
}

/// Explains a refusal of the records of a file in a form, read without a directory.
fn of_records(bytes: &[u8], form: Form, refusal: Refusal) -> Explanation {
    let directory = |refused: usize| directory::noticed(bytes, Some(refused)).filter(|_| refusal.reason == Reason::RecordType);
    of_those(bytes, form, refusal, directory)
}

/// The same of the records before a directory.
fn of_sheet(bytes: &[u8], form: Form, refusal: Refusal) -> Explanation {
    of_those(bytes, form, refusal, |_| None)
}

fn of_those(bytes: &[u8], form: Form, refusal: Refusal, directory: impl Fn(usize) -> Option<String>) -> Explanation {
    let mut told = Explanation::default();
    let named = refusal.record.and_then(|record| Outline::of(bytes).nth(record.checked_sub(1)?));
    let Some(named) = named else {
        length::explain(bytes, &mut told);
        return told;
    };
    at_record(bytes, &named, refusal.reason, form, &mut told);
    // Another form of file, or a directory, is the one reason; what else is seen follows from it.
    if let Some(reason) = form::of(bytes, Some(named.number)).or_else(|| directory(named.number)) {
        one_reason(&mut told, named.number, vec![reason]);
    }
    told
}

/// A refusal of a plain file in one line, as it displays itself, but for two: of the four reasons of 1 the one that holds; and for 2, of a
/// file that is a block, that it is one.
///
/// ```
/// use zvaigulta::{explain, judge_sheet, EXAMPLE};
///
/// let refusal = judge_sheet(EXAMPLE, 100).unwrap_err();
/// assert_eq!(explain::line(&EXAMPLE[..100], refusal), "refused 1: the length, 100 bytes, is not a multiple of 84");
/// let refusal = judge_sheet(EXAMPLE, 8 * 84).unwrap_err();
/// assert_eq!(explain::line(&EXAMPLE[..8 * 84], refusal), refusal.to_string());
/// ```
pub fn line(bytes: &[u8], refusal: Refusal) -> String {
    line_in(Form::Plain, bytes, refusal)
}

/// The same of a file in a form.
pub fn line_in(form: Form, bytes: &[u8], refusal: Refusal) -> String {
    match refusal.reason {
        Reason::Length => format!("refused {}: {}", refusal.number(), length::reason(bytes.len(), form)),
        Reason::FileType => block(&form.records(bytes)).map_or_else(
            || refusal.to_string(),
            |block| format!("refused {} at record {}: {block}", refusal.number(), refusal.record.unwrap_or(1)),
        ),
        _ => refusal.to_string(),
    }
}

/// The same of a file as it was read: with a directory of layers, 1 may also be the sheet's before it, and of the two reasons of 19 it is the one that
/// holds.
///
/// ```
/// use zvaigulta::{explain, judge_directory, Form, Reading, EXAMPLE};
///
/// let reading = Reading { form: Form::Plain, directory: true };
/// let refusal = judge_directory(EXAMPLE, 100).unwrap_err();
/// assert_eq!(explain::line_as(reading, &EXAMPLE[..100], refusal), "refused 1: the length, 100 bytes, is not a multiple of 84");
/// let refusal = judge_directory(EXAMPLE, EXAMPLE.len()).unwrap_err();
/// assert_eq!(explain::line_as(reading, EXAMPLE, refusal), "refused 19 at record 9: the directory of layers is missing");
/// ```
pub fn line_as(reading: Reading, bytes: &[u8], refusal: Refusal) -> String {
    match refusal.reason {
        Reason::Directory => {
            let at = refusal.record.map_or(String::new(), |record| format!(" at record {record}"));
            format!("refused {}{at}: {}", refusal.number(), directory::reason(&reading.form.records(bytes)))
        }
        Reason::Length if reading.directory => {
            format!("refused {}: {}", refusal.number(), directory::length(reading.form, bytes))
        }
        _ => line_in(reading.form, bytes, refusal),
    }
}

/// One reason for all that is seen: no other is said, and no other record than the refused one blamed.
fn one_reason(told: &mut Explanation, refused: usize, reason: Vec<String>) {
    told.notes = reason;
    told.faults.retain(|fault| fault.record == refused);
}

/// Explains a refusal that names a record.
fn at_record(bytes: &[u8], named: &Record, reason: Reason, form: Form, told: &mut Explanation) {
    match reason {
        Reason::FileType => first::explain(bytes, named, told),
        Reason::MissingRecord => due::missing(bytes, named, told),
        Reason::RecordType => due::record_type(bytes, named, told),
        Reason::Malformed => due::malformed(bytes, named, told),
        Reason::OutsideRange => outside(bytes, named, told),
        Reason::Level => level(bytes, named, told),
        Reason::DataRule => data::rule(bytes, named, told),
        Reason::Fraction => told.faults.extend(joined::fractions(bytes, named)),
        Reason::Count => counts::differing(bytes, told),
        _ => {}
    }
    if !matches!(reason, Reason::RecordType | Reason::Malformed | Reason::OutsideRange | Reason::Level | Reason::DataRule) {
        return;
    }
    other::sort(bytes, named, told);
    match (shift::notes(bytes, named.number, form), hole(bytes, named, told)) {
        (Some(notes), _) => one_reason(told, named.number, notes),
        (None, Some(hole)) if hole.nul => one_reason(told, named.number, vec![hole.words(form)]),
        (None, hole) => {
            told.notes.splice(..0, hole.map(|hole| hole.words(form)));
            let differ = records_differ(bytes, named).filter(|words| !told.notes.contains(words));
            told.notes.extend(differ);
        }
    }
}

/// Bytes that seem lost at a column at fault. Where they are more than one record, the note that tells of that one is left out.
fn hole(bytes: &[u8], named: &Record, told: &mut Explanation) -> Option<form::Hole> {
    let blank = form::blank(named);
    let is_blank = |note: &String| Some(note) == blank.as_ref();
    let told_already = told.notes.iter().any(is_blank);
    let hole = form::Hole::at(bytes, named, &told.faults).filter(|hole| !(told_already && hole.is_record()))?;
    told.notes.retain(|note| !is_blank(note));
    Some(hole)
}

/// How many records the file states and has, where that differs and the refused record does not decide it.
fn records_differ(bytes: &[u8], named: &Record) -> Option<String> {
    let decides = [&INDEX_A, &SHEET_A, &SHEET_B, &SHEET_D].iter().any(|layout| named.layout == Some(layout));
    let records = counts::Records::of(bytes).filter(|records| !decides && records.missing() + records.too_many() > 0);
    records.map(|records| records.words())
}

/// 6: columns outside their own range, else the rule that joins several columns.
fn outside(bytes: &[u8], named: &Record, told: &mut Explanation) {
    let own = own::outside(named);
    told.faults = if own.is_empty() { joined::rule(bytes, named) } else { own };
}

/// 7: the levels that a record may have where it stands, and the header or item that says so.
fn level(bytes: &[u8], named: &Record, told: &mut Explanation) {
    let (sort, least, most) = match named.sort() {
        Some(Sort::Header) => ("a header", 1, 8),
        _ => ("an item", 2, 9),
    };
    let level = named.level.unwrap_or(0);
    if level < least || most < level {
        told.faults.push(fault(named.number, "level", format!("is {level}, the level of {sort} is {least} to {most}")));
        return;
    }
    let before = Outline::of(bytes).take(named.number - 1).filter(|record| record.sort().is_some()).last();
    let open = before.map_or(0, |before| before.level.unwrap_or(0) - i64::from(before.sort() != Some(Sort::Header)));
    let by = before.map_or("no layer header stands before it".to_string(), |before| {
        format!("record {} before it is {}", before.number, with_article(&before.title()))
    });
    told.faults.push(fault(named.number, "level", format!("is {level}, may be at most {} here: {by}", open + 1)));
    if let Some(before) = before {
        told.faults.push(fault(
            before.number,
            "level",
            format!("is {}: behind it a level may be at most {}", before.level.unwrap_or(0), open + 1),
        ));
    }
    told.notes.push(format!("the level is wrong, or a header of level {} is missing before record {}", level - 1, named.number));
}

#[cfg(test)]
mod tests {
    use super::*;
    use crate::{Counts, FileKind, RECORD_BYTES};
    use reference::random::Random;
    use reference::sheets;
    use std::collections::BTreeMap;

    fn judge(bytes: &[u8]) -> Result<Counts, Refusal> {
        FileKind::of(bytes).judge(bytes, bytes.len())
    }

    /// A damaged twin of a sheet or an index: damaged as the other tests do it, or with bytes lost, added or changed at the
    /// end.
    fn damaged(r: &mut Random, n: usize) -> Vec<u8> {
        let file = if n.is_multiple_of(4) { sheets::index(r) } else { sheets::sheet(r, n % 5) };
        let mut file = if r.once_in(8) { file } else { sheets::damaged(r, &file) };
        let at = r.below(file.len() + 1);
        match r.below(24) {
            0 => drop(file.drain(at..(at + 1 + r.below(3)).min(file.len()))),
            1 => drop(file.splice(at..at, (0..1 + r.below(3)).map(|_| *r.pick(b" 0\n\0\x1aH")).collect::<Vec<u8>>())),
            2 => file.extend(std::iter::repeat_n(*r.pick(b" \0\x1a\n"), 1 + r.below(100))),
            3 => file.truncate(at),
            _ => {}
        }
        file
    }

    /// Every refusal of a damaged file is explained: a column of the refused record is marked, or, where there is none, a
    /// note says why; every column named stands in its record's own layout, and is named once.
    #[test]
    fn every_refusal_is_explained() {
        let mut r = Random(12);
        let mut seen = BTreeMap::new();
        for n in 0..30_000 {
            let file = damaged(&mut r, n);
            let Err(refusal) = judge(&file) else { continue };
            *seen.entry(refusal.number()).or_insert(0) += 1;
            let explained = explain(&file, refusal);
            assert!(refusal.record.is_some() || !explained.notes.is_empty(), "case {n}: {refusal}");
            let marked = |record| explained.faults.iter().any(|fault| fault.record == record);
            assert!(refusal.record.is_none_or(marked), "case {n}: {refusal}: {explained:?}");
            assert!(explained.notes.iter().all(|note| !note.is_empty() && !note.contains("record 0")), "case {n}: {explained:?}");
            for fault in &explained.faults {
                let same = explained.faults.iter().filter(|other| (other.record, other.column) == (fault.record, fault.column));
                assert_eq!(same.count(), 1, "case {n}: {refusal}: {explained:?}");
                let named = Outline::of(&file).nth(fault.record - 1).expect("a record of the file");
                let known = named.layout.map_or(fault.column == "type", |layout| layout.column(fault.column).is_some());
                assert!(known, "case {n}: {refusal}: {explained:?}");
            }
        }
        assert!((1..=10).all(|n| seen.get(&n).is_some_and(|count| *count > 20)), "{seen:?}");
    }

    /// Any bytes with any refusal, whether the judge gave it or not, are answered without a panic.
    #[test]
    fn any_bytes_and_any_refusal_are_answered() {
        let mut r = Random(40);
        for n in 0..20_000 {
            let mut file = damaged(&mut r, n);
            for _ in 0..r.below(200) {
                let at = r.below(file.len() + 1);
                let byte = if r.once_in(2) { *r.pick(b" -09HEGTMIZY12\r\n\0") } else { r.below(256) as u8 };
                if let Some(old) = file.get_mut(at) {
                    *old = byte;
                }
            }
            let record = Some(r.below(file.len() / RECORD_BYTES + 3)).filter(|record| *record > 0 || n % 2 == 0);
            let number = if r.once_in(10) { 27 } else { r.below(20) as u64 };
            let refusal = Refusal { reason: Reason::from_number(number), record };
            let block = damaged(&mut r, n + 1);
            let at = r.below(block.len() / RECORD_BYTES + 1) * RECORD_BYTES;
            let place = *r.pick(&[0, 1, 7, file.len() / RECORD_BYTES, usize::MAX]);
            for reading in
                [Form::Plain, Form::Lines].into_iter().flat_map(|form| [false, true].map(|directory| Reading { form, directory }))
            {
                explain_as(reading, &file, refusal);
                line_as(reading, &file, refusal);
            }
            insertion(&file, place, &block[at..], refusal);
            removal(&file, place, refusal);
            way_up(&file, place, refusal);
        }
    }
}
