//! 19, 27 and the other refusals of a sheet with a directory of layers, of either edition: which number is wrong, and what it should be. Also what is
//! said of a directory behind a sheet that was read without one.

mod columns;
mod notes;
mod signs;

use super::body::Body;
use super::counts::Records;
use super::{fault, length, of_sheet, Explanation, Fault};
use crate::directory::{edition_in, is_end, is_row, last_record, ragged_before, records_before, sheet};
use crate::layout::DIRECTORY_END;
use crate::outline::{directory_record, layers, record, DirectoryRecord, Layer, Outline, Record};
use crate::text::{quoted, with_article};
use crate::{
    judge_either_edition, judge_sheet, Edition, FileKind, Form, Reason, Refusal, LINE_END, LINE_RECORD_BYTES, RECORD_BYTES,
};
use std::cmp::Ordering;
use std::ops::RangeInclusive;

/// The most columns that are listed.
const MOST_LISTED: usize = 60;

/// Explains a refusal of the records of a sheet with a directory, in a form of the file.
pub fn explain(bytes: &[u8], form: Form, refusal: Refusal) -> Explanation {
    let directory = Directory::of(bytes);
    match (refusal.reason, refusal.record) {
        (Reason::Directory, Some(refused)) if judge_either_edition(bytes, bytes.len()).is_ok() => directory.unknown_to(refused),
        (Reason::Directory | Reason::Edition, Some(refused)) => directory.wrong(form, refused, Vec::new()),
        (_, Some(refused)) => directory.sheet_refused(form, refusal, refused),
        (_, None) => directory.wrong(form, directory.records, Vec::new()),
    }
}

/// Why the length of a file with a directory, or of the sheet before it, is refused.
pub fn length(form: Form, bytes: &[u8]) -> String {
    let pointer = last_record(form, bytes).and_then(|end| DIRECTORY_END.value("pointer", end));
    match bytes.len() {
        0 => "the file is empty".to_string(),
        n if !n.is_multiple_of(form.record_bytes()) => length::ragged(n, form),
        _ if pointer == Some(1) => "no sheet stands before the directory, whose pointer is 1".to_string(),
        _ => "the sheet before the directory has more than 200,000 records".to_string(),
    }
}

/// The one of the two reasons that a directory is refused for.
pub fn reason(bytes: &[u8]) -> &'static str {
    let end = last_record(Form::Plain, bytes).unwrap_or(bytes);
    let record = directory_record(end, true, edition_in(bytes));
    match is_row(end) || matches!(record, Some(DirectoryRecord::End(_))) {
        true => "the directory of layers differs here from the right one",
        false => "the directory of layers is missing",
    }
}

/// What is said of a directory in a sheet that was read without one: at the refused record, or behind 200,000 records.
pub fn noticed(bytes: &[u8], refused: Option<usize>) -> Option<String> {
    let is_its = |number| is_row(record(bytes, number)) || is_end(record(bytes, number));
    if refused.is_some_and(|refused| !is_its(refused)) {
        return None;
    }
    let directory = Directory::of(bytes);
    let first = refused.unwrap_or(directory.before + 1);
    is_its(first).then(|| directory.unread(first))
}

/// What is said of a file with a directory that is no whole records: bytes are lost or too many before the directory, or in it. Whether it is one.
pub fn ragged(bytes: &[u8], told: &mut Explanation) -> bool {
    if let Some(before) = ragged_before(bytes) {
        length::odd(before, told);
        // What the sheet states is told of the bytes before the directory, not of the file.
        let stated = Records::of(before).map(|records| records.words_in_bytes(before.len(), Form::Plain));
        told.notes.retain(|note| Some(note) != stated.as_ref());
        told.notes.extend(notes::bytes_before(bytes, before));
        return true;
    }
    let cut = cut(bytes);
    let is_cut = cut.is_some();
    told.notes.extend(cut);
    is_cut
}

/// What is said of a directory behind an accepted sheet in a file that ends inside a record.
fn cut(bytes: &[u8]) -> Option<String> {
    let rest = bytes.get(sheet(bytes)?.len()..)?;
    (is_row(rest) || is_end(rest)).then(|| Directory::of(bytes).cut_off())
}

/// The same of a file with line ends, and of one with more than 200,000 records, where all whole records have their line ends.
pub fn in_lines(bytes: &[u8]) -> Option<String> {
    let mut lines = bytes.chunks_exact(LINE_RECORD_BYTES);
    let records = lines.all(|line| line.ends_with(LINE_END)).then(|| Form::Lines.records(bytes))?;
    match lines.remainder().len() {
        0 => noticed(&records, None),
        1..RECORD_BYTES => cut(&records),
        _ => None,
    }
}

/// A directory as it stands in a file, and the sheet before it.
struct Directory<'a> {
    bytes: &'a [u8],
    /// The records of the file, and those before the directory.
    records: usize,
    before: usize,
    /// The edition in which it is read.
    edition: Edition,
    /// What the sheet holds, where it is accepted by its own counts.
    sheet: Option<Accepted<'a>>,
}

/// An accepted sheet: its layers, and all its headers and items.
struct Accepted<'a> {
    layers: Vec<Layer<'a>>,
    body: Body<'a>,
}

impl<'a> Directory<'a> {
    fn of(bytes: &'a [u8]) -> Directory<'a> {
        let (sheet, records) = (sheet(bytes), bytes.len() / RECORD_BYTES);
        let accepted = sheet.map(|sheet| Accepted { layers: layers(sheet), body: Body::of(sheet) });
        let before = records_before(bytes, sheet);
        // Of a directory that is cut off what is left of its last record may be all that tells.
        let cut = bytes.get(records * RECORD_BYTES..).filter(|cut| records == before && !cut.is_empty());
        let edition = cut.and_then(signs::edition_of).unwrap_or_else(|| edition_in(bytes));
        Directory { bytes, records, before, edition, sheet: accepted }
    }

    /// What a record is in it.
    fn record(&self, number: usize) -> Option<DirectoryRecord> {
        directory_record(record(self.bytes, number), number == self.records, self.edition)
    }

    /// The last record.
    fn end(&self) -> &'a [u8] {
        record(self.bytes, self.records)
    }

    /// A number that the last record states.
    fn stated(&self, name: &str) -> Option<i64> {
        match self.record(self.records) {
            Some(end @ DirectoryRecord::End(_)) => end.layout().value(name, self.end()),
            _ => None,
        }
    }

    /// The records of the sheet for which the directory was made, by its pointer.
    fn made_for(&self) -> Option<usize> {
        self.stated("pointer").and_then(|pointer| usize::try_from(pointer).ok()?.checked_sub(1))
    }

    /// The numbers of its records.
    fn numbers(&self) -> RangeInclusive<usize> {
        self.before + 1..=self.records
    }

    /// What it lists in each of its places for a layer, in order, as far as a number stands there: the header; in the second edition behind it total and
    /// last record.
    fn entries(&self) -> Vec<Vec<Option<i64>>> {
        self.rows().flat_map(|(edition, row)| columns::entries(edition, row)).collect()
    }

    /// Its records that list layers, each with its edition.
    fn rows(&self) -> impl Iterator<Item = (Edition, &[u8])> {
        self.numbers().filter_map(|number| match self.record(number) {
            Some(DirectoryRecord::Row(edition)) => Some((edition, record(self.bytes, number))),
            _ => None,
        })
    }

    /// The headers that it lists, in order.
    fn listed(&self) -> Vec<i64> {
        self.entries().iter().filter_map(|entry| *entry.first()?).collect()
    }

    /// How many headers more stand there that cannot be read.
    fn unreadable(&self) -> usize {
        self.rows().map(|(edition, row)| columns::unreadable(edition, row)).sum()
    }

    /// The record numbers of the sheet's layer headers.
    fn headers(&self) -> Vec<i64> {
        self.sheet.iter().flat_map(|sheet| &sheet.layers).map(|layer| layer.header.number as i64).collect()
    }

    /// That it is right, where a call refused it that reads the first edition alone.
    fn unknown_to(&self, refused: usize) -> Explanation {
        let words = format!("is {}, of {}, which the call does not read", letters(self.end()), self.edition);
        let note = format!("the directory is of {}, and right: read it by a call for either edition", self.edition);
        Explanation { notes: vec![note], faults: vec![fault(refused, "type", words)] }
    }

    /// What there is to say of the whole; the refused record's columns at fault, `own` among them, then those of other records.
    fn wrong(&self, form: Form, refused: usize, own: Vec<Fault>) -> Explanation {
        let mut told = Explanation { notes: self.notes(), faults: own };
        let (first, others): (Vec<Fault>, Vec<Fault>) = self.faults().into_iter().partition(|fault| fault.record == refused);
        told.add_faults(first);
        told.add_faults(others);
        self.add_sheet(form, &mut told);
        let more = told.faults.len().saturating_sub(MOST_LISTED);
        if more > 0 {
            told.notes.push(format!("{MOST_LISTED} columns are listed here, and {more} more differ"));
        }
        told.faults.truncate(MOST_LISTED);
        told
    }

    /// What the sheet before a directory is refused for by itself.
    fn add_sheet(&self, form: Form, told: &mut Explanation) {
        let sheet = self
            .bytes
            .get(..self.before * RECORD_BYTES)
            .filter(|sheet| self.sheet.is_none() && FileKind::of(sheet) == FileKind::Sheet);
        let Some((sheet, Err(refusal))) = sheet.map(|sheet| (sheet, judge_sheet(sheet, sheet.len()))) else { return };
        let at = refusal.record.map_or(String::new(), |record| format!(" at record {record}"));
        let alone = match self.numbers().is_empty() {
            true => "read without a directory, the file",
            false => "judged alone, the sheet before the directory",
        };
        told.notes.push(format!("{alone} is refused {}{at}", refusal.number()));
        let inner = of_sheet(sheet, form, refusal);
        told.notes.extend(inner.notes);
        told.add_faults(inner.faults);
    }

    /// The columns that are not as they should be; of another file behind this one no more than its first record.
    fn faults(&self) -> Vec<Fault> {
        if self.numbers().is_empty() {
            return self.last_alone();
        }
        let last = self.another_file().unwrap_or(self.records);
        (self.before + 1..=last).flat_map(|number| self.faults_of(number)).collect()
    }

    /// The last record of a file that has no directory.
    fn last_alone(&self) -> Vec<Fault> {
        let last = Outline::of(self.bytes).last().filter(|last| last.bytes.len() == RECORD_BYTES);
        let first_column = |last: Record| {
            let name = last.layout.and_then(|layout| layout.columns.first()).map_or("type", |column| column.name);
            let starts = letters(last.bytes);
            fault(last.number, name, format!("the record starts {starts}, the last of a directory \"ZE\" or \"YE\""))
        };
        last.map(first_column).into_iter().collect()
    }

    /// The same of one record. Where the sheet is not known, only of the last, by itself.
    fn faults_of(&self, number: usize) -> Vec<Fault> {
        let (bytes, last) = (record(self.bytes, number), number == self.records);
        let edition = self.edition;
        let Some(sheet) = &self.sheet else {
            return if last { columns::end_alone(number, bytes, edition, self.before) } else { Vec::new() };
        };
        let (nth, each) = (number - self.before - 1, edition.layers_to_a_record());
        let (own, first) = (sheet.layers.chunks(each).nth(nth).unwrap_or(&[]), nth * each + 1);
        let due = columns::Counts { edition, pointer: self.before + 1, layers: sheet.layers.len() };
        let listed = columns::Listed { edition, own, first, what: &|n| self.what(n) };
        match number.cmp(&due.end()) {
            Ordering::Less if last && !is_row(bytes) => columns::row_missing(number, bytes, &listed, &due),
            Ordering::Less => columns::row(number, bytes, last, &listed),
            Ordering::Equal if last || is_end(bytes) => columns::end(number, bytes, &due),
            _ => vec![columns::too_many(number, bytes, &due)],
        }
    }

    /// What a record of the sheet is, in words.
    fn what(&self, number: i64) -> String {
        let (number, body) = match (usize::try_from(number).ok().filter(|number| *number > 0), &self.sheet) {
            (Some(number), Some(sheet)) if number <= self.before => (number, &sheet.body),
            _ => return format!("there is no record {number} in the sheet, which ends at record {}", self.before),
        };
        match (body.at(number), body.owner(number)) {
            (Some(entry), _) => format!("record {number} is {}", with_article(&entry.title())),
            (None, Some(item)) => format!("record {number} is data of the {} at record {}", item.name(), item.number),
            (None, None) => format!("record {number} is in the sheet part"),
        }
    }

    /// 2 to 10 of the sheet before the pointer. Where the pointer does not say where the sheet ends, that is looked at first.
    fn sheet_refused(&self, form: Form, refusal: Refusal, refused: usize) -> Explanation {
        let end = self.made_for().map_or(self.bytes.len(), |records| records.saturating_mul(RECORD_BYTES));
        let told = of_sheet(self.bytes.get(..end).unwrap_or(self.bytes), form, refusal);
        if self.made_for() == Some(self.before) {
            return told;
        }
        let own = match refused > self.before {
            true => {
                let words = format!("is {}, of the directory", letters(record(self.bytes, refused)));
                vec![fault(
                    refused,
                    "type",
                    format!("{words}; by the pointer of record {} it would be the sheet's", self.records),
                )]
            }
            false => {
                told.faults.into_iter().filter(|fault| fault.record == refused).map(|fault| self.up_to_pointer(fault)).collect()
            }
        };
        self.wrong(form, refused, own)
    }

    /// A fault that is one only where the sheet ends before the pointer, and it does not.
    fn up_to_pointer(&self, fault: Fault) -> Fault {
        match self.made_for().filter(|_| self.sheet.is_some()) {
            Some(made) => Fault { words: format!("{}: judged up to record {made} alone, by the pointer", fault.words), ..fault },
            None => fault,
        }
    }
}

/// The first two bytes of a record.
fn letters(record: &[u8]) -> String {
    quoted(record.get(..2).unwrap_or(record))
}
