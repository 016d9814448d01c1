//! 3, 4 and 5: a record that is not what is due where it stands, and the column before it that may say so wrongly.

use super::counts::Records;
use super::{fault, form, index, near, other, own, Explanation, Fault, CAUTION};
use crate::layout::*;
use crate::outline::{natural, part, record, Outline, Record, Sort, Stated, What};
use crate::text::{number_of, quoted, with_article};
use crate::{FileKind, RECORD_BYTES};

/// 3: an item's data, or a record of the sheet part or the index.
pub fn missing(bytes: &[u8], named: &Record, told: &mut Explanation) {
    told.notes.extend(Records::of(bytes).map(|records| records.words()));
    match named.sort() {
        Some(sort) => missing_data(bytes, named, sort, told),
        None => missing_part(bytes, told),
    }
}

fn missing_data(bytes: &[u8], named: &Record, sort: Sort, told: &mut Explanation) {
    let there = (bytes.len() / RECORD_BYTES).saturating_sub(named.number);
    let stated = number_of(Stated::of(sort, named.bytes).records, "data record");
    told.faults.push(fault(named.number, "records", format!("states {stated}, and has {there}")));
    match near::hidden(bytes, named) {
        Some(hidden) => lost_data(named, hidden, told),
        None => told.notes.push(format!(
            "the {} at record {} states {stated} and has {there}: the end of the file is lost, or the count is wrong",
            sort.name(),
            named.number
        )),
    }
}

/// The column that states how many records of a sheet part or an index there are, and the record that is due next.
fn missing_part(bytes: &[u8], told: &mut Explanation) {
    if FileKind::of(bytes) == FileKind::Index {
        told.faults.extend(index::stated(bytes));
        told.notes.push(index::missing(bytes));
        return;
    }
    let (due, there) = (part(bytes), bytes.len() / RECORD_BYTES);
    let next = due.get(there).map_or("", |layout| layout.name);
    told.notes.push(format!("the file ends after record {there}, where {next} is due as record {}: {CAUTION}", there + 1));
    let revisions = natural(&SHEET_A, "revisions", record(bytes, 1));
    let words = format!("states {revisions}: the sheet part has {} records, the file {there}", due.len());
    told.faults.push(fault(1, "revisions", words));
    told.faults.extend(due.get(there).filter(|layout| **layout == &SHEET_F).and_then(|_| f_records(bytes, &due, there)));
}

/// The f records that the last d record before a place states.
fn f_records(bytes: &[u8], due: &[&Layout], before: usize) -> Option<Fault> {
    let d = due.get(..before.min(due.len()))?.iter().rposition(|layout| *layout == &SHEET_D)? + 1;
    let states = natural(&SHEET_D, "f records", record(bytes, d));
    Some(fault(d, "f records", format!("states {states}")))
}

/// An item among whose data a header or item stands: one of its data records may be lost.
fn lost_data(item: &Record, (number, sort): (usize, Sort), told: &mut Explanation) {
    let Some(of) = item.sort() else { return };
    let stated = number_of(Stated::of(of, item.bytes).records, "data record");
    let before = number - item.number - 1;
    told.faults.retain(|fault| (fault.record, fault.column) != (item.number, "records"));
    told.faults.push(fault(item.number, "records", format!("states {stated}, {before} before record {number}")));
    let kind = sort.kind();
    told.notes
        .push(format!("record {number} starts {kind}, but record {} states {stated}, and has {before} before it", item.number));
    let may = format!("a data record of the {} at record {} may be lost or stand elsewhere", of.name(), item.number);
    told.notes.push(format!("{may}: {CAUTION}"));
}

/// 4: what the record seems to be, and which count before it may be wrong.
pub fn record_type(bytes: &[u8], named: &Record, told: &mut Explanation) {
    let kind = quoted(named.bytes.get(..2).unwrap_or(&[]));
    told.faults.push(fault(named.number, "type", format!("is {kind}, none of \"H \", \"E1\" to \"E8\", \"G \", \"T \"")));
    let other = form::blank_end(bytes, named.number).or_else(|| near::file_start(bytes, named.number));
    if let Some(other) = other.or_else(|| form::blank(named)) {
        told.notes.push(other);
    } else if !longer_part(bytes, named, told) && !type_alone(named, told) {
        item_before(bytes, named, told);
    }
}

/// A sheet part that is longer than stated.
fn longer_part(bytes: &[u8], named: &Record, told: &mut Explanation) -> bool {
    let due = part(bytes);
    let number = named.number;
    if number != due.len() + 1 {
        return false;
    }
    let further = SHEET_D.fits(named.bytes) && SHEET_E.fits(record(bytes, number + 1));
    let (wrong, what) = if further {
        let revisions = natural(&SHEET_A, "revisions", record(bytes, 1));
        let words = format!("states {revisions}, so the sheet part ends before record {number}");
        (fault(1, "revisions", words), "d, with an e behind it")
    } else {
        let Some(f) = f_records(bytes, &due, due.len()).filter(|_| SHEET_F.fits(named.bytes)) else { return false };
        (Fault { words: format!("{}, so the sheet part ends before record {number}", f.words), ..f }, "f")
    };
    told.notes.push(format!(
        "record {number} is no header but reads as sheet {what}: the sheet part is longer than record {} states; {CAUTION} or take a record out",
        wrong.record
    ));
    told.faults.push(wrong);
    true
}

/// A record that is right but for its type.
fn type_alone(named: &Record, told: &mut Explanation) -> bool {
    let Some(sort) = near::fits_but_for_type(named.bytes) else { return false };
    told.notes.push(format!("the other columns read as {}'s: only the type seems wrong", with_article(sort.layout().name)));
    true
}

/// The header or item before the record, whose count may be wrong.
fn item_before(bytes: &[u8], named: &Record, told: &mut Explanation) {
    let before = Outline::of(bytes).take(named.number - 1).filter(|record| record.sort().is_some()).last();
    let until = near::next(bytes, named.number)
        .map_or("to the end of the file".to_string(), |(number, sort)| format!("before the {} at record {number}", sort.name()));
    let Some((item, sort)) = before.and_then(|item| Some((item, item.sort()?))) else {
        told.notes.push(format!("the sheet part ends at record {}: a layer header is due behind it", named.number - 1));
        return;
    };
    if let Some(hidden) = near::hidden(bytes, &item) {
        return lost_data(&item, hidden, told);
    }
    let stated = number_of(Stated::of(sort, item.bytes).records, "data record");
    let follow = match near::following(bytes, &item) {
        1 => "1 record stands".to_string(),
        n => format!("{n} records stand"),
    };
    told.notes.push(match sort {
        Sort::Header => format!("{follow} behind the header at record {} {until}, where an item is due", item.number),
        _ => format!("the {} at record {} states {stated}, {follow} {until}", sort.name(), item.number),
    });
    if Records::of(bytes).is_some_and(|records| records.missing() > 0) {
        told.notes.push(format!("an item's own record may be lost before record {}: find it in the original", named.number));
    }
    let again = near::repeated(bytes, item.number + 1, named.number);
    told.notes.extend(again.map(|again| format!("record {again} is the same as record {} before it", again - 1)));
    if sort != Sort::Header {
        told.faults.push(fault(item.number, "records", format!("states {stated}, {follow} {until}")));
    }
    if let Sort::Element(_) = sort {
        let count = natural(&ELEMENT, "data count", item.bytes);
        told.faults.push(fault(item.number, "data count", format!("is {count}: needs {stated}")));
    }
}

/// 5: the malformed columns, and whether another record is due here.
pub fn malformed(bytes: &[u8], named: &Record, told: &mut Explanation) {
    told.faults.extend(own::malformed(named));
    match named.what {
        What::Data { item } => {
            let Some(item) = Outline::of(bytes).nth(item - 1) else { return };
            match near::hidden(bytes, &item) {
                Some(hidden) => lost_data(&item, hidden, told),
                None => short_data(bytes, named, &item, told),
            }
        }
        What::Part => other_part(bytes, named, told),
        _ => {}
    }
}

/// Data that ends before the last point or height that is due: nothing but spaces in the judged columns from there on.
fn short_data(bytes: &[u8], named: &Record, item: &Record, told: &mut Explanation) {
    let Some(sort) = item.sort() else { return };
    let columns = named.judged_columns();
    let blank = columns.iter().rev().take_while(|column| column.is_spaces(named.bytes)).count();
    if blank == 0 || blank != told.faults.len() {
        return;
    }
    let stated = Stated::of(sort, item.bytes);
    let (nth, filled) = ((named.number - item.number) as u64, columns.len() - blank);
    let part = if stated.ends_inside(filled) { " and a part of one more" } else { "" };
    let found = stated.units(nth.saturating_sub(1), filled);
    let words = format!("{} {} are stated, the data has {found}{part}", stated.count, sort.unit());
    told.faults.extend(stating(sort).iter().map(|column| fault(item.number, column, words.clone())));
    let ends = format!("the {} at record {}: {words} up to record {}", sort.name(), item.number, named.number);
    told.notes.push(match (nth == stated.records, spaces_from(named, filled)) {
        (true, true) => format!("{ends}, and behind that spaces alone"),
        (true, false) => format!("{ends}, then spaces, and more behind them"),
        (false, _) => format!(
            "{ends}, and {} more should follow: one may stand in the wrong place",
            number_of(stated.records - nth, "record")
        ),
    });
    other::kind_that_reads(bytes, item, told);
    told.notes.push(format!("a {} may be lost: {CAUTION}", sort.unit().trim_end_matches('s')));
}

/// Whether nothing but spaces stands in a record from one of its columns on, counted from 0.
fn spaces_from(named: &Record, column: usize) -> bool {
    let start = named.judged_columns().get(column).map_or(named.bytes.len(), |column| column.start);
    named.bytes.iter().skip(start).all(|byte| *byte == b' ')
}

/// The columns that state how much data an item has.
fn stating(sort: Sort) -> &'static [&'static str] {
    match sort {
        Sort::Grid => &["rows", "columns"],
        Sort::Net => &["triangles"],
        _ => &["data kind", "data count"],
    }
}

/// A record of the sheet part or the index that reads as another one.
fn other_part(bytes: &[u8], named: &Record, told: &mut Explanation) {
    let due = named.layout.map_or("", |layout| layout.name);
    let number = named.number;
    if let Some(start) = near::file_start(bytes, number).filter(|_| number > 1) {
        told.notes.push(start);
        return;
    }
    if near::reads_as(named.bytes) == Some(Sort::Header) {
        told.notes.push(format!(
            "record {number} is a header, where {due} is due: \
             the sheet part is shorter than stated, or a record of it is lost: {CAUTION}"
        ));
        let revisions = natural(&SHEET_A, "revisions", record(bytes, 1));
        if revisions > 0 {
            told.faults.push(fault(1, "revisions", format!("states {revisions}; the first header stands at record {number}")));
        }
        let f = named.layout.filter(|layout| **layout == SHEET_F).and_then(|_| f_records(bytes, &part(bytes), number));
        told.faults.extend(f);
        return;
    }
    let others = [&SHEET_B, &SHEET_D, &SHEET_E, &SHEET_F].into_iter().filter(|_| FileKind::of(bytes) == FileKind::Sheet);
    if let Some(other) = others.filter(|layout| layout.name != due).find(|layout| layout.fits(named.bytes)) {
        told.faults.extend(f_against_courses(bytes, named, other));
        told.notes.push(format!(
            "record {number} reads as {}, where {due} is due: a record of the sheet part before it is lost or too many, \
             or a count of it wrong; {CAUTION} or take a record out",
            other.name
        ));
    }
    if told.notes.is_empty() && told.faults.len() > 2 {
        told.notes.push(format!(
            "record {number} does not read as {due}: a record may be lost or too many before it, or this one is damaged; \
             {CAUTION} or take a record out"
        ));
    }
}

/// The f records that a d record states, where an f record is due and another stands, or the other way round and the courses
/// need more than it states.
fn f_against_courses(bytes: &[u8], named: &Record, reads_as: &Layout) -> Option<Fault> {
    let f = f_records(bytes, &part(bytes), named.number - 1)?;
    let number = |name| natural(&SHEET_D, name, record(bytes, f.record));
    let (courses, needed) = (number("courses"), number("courses").div_ceil(3));
    let fewer = *reads_as == SHEET_F && number("f records") < needed;
    let words = format!("{}; may be 0 or, for {courses} courses, {needed}", f.words);
    (fewer || named.layout == Some(&SHEET_F)).then_some(Fault { words, ..f })
}
