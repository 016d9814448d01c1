//! 11 to 15 and 17: why an edit or a way up was refused, and what to ask for instead.

use super::block::{judged, Item};
use super::body::Body;
use super::explain_as;
use crate::layout::HEADER;
use crate::outline::{natural, part, Record, Sort};
use crate::text::number_of;
use crate::{FileKind, Form, Reading, Reason, Refusal, MOST_RECORDS, RECORD_BYTES};

/// The most that a header's total can state.
const MOST_TOTAL: u64 = 99_999;

/// Why an insertion of a block before the record at a place was refused, a line each.
///
/// ```
/// use zvaigulta::{explain, insert, EXAMPLE};
///
/// let mut buffer = EXAMPLE.to_vec();
/// let block = EXAMPLE[6 * 84..].to_vec();
/// buffer.resize(buffer.len() + block.len(), b' ');
/// let refusal = insert(&mut buffer, EXAMPLE.len(), 8, &block).unwrap_err();
/// let words = explain::insertion(EXAMPLE, 8, &block, refusal);
/// assert_eq!(words[0], "record 8 is data of the line E2 at record 7: give 7 for a place before it, 10 for one behind it");
/// ```
pub fn insertion(sheet: &[u8], place: usize, block: &[u8], refusal: Refusal) -> Vec<String> {
    let body = || Body::of(sheet);
    match refusal.reason {
        Reason::Place => vec![insertion_place(sheet, &body(), place)],
        Reason::Block => vec![judged(block).err().unwrap_or_else(|| refusal.reason.to_string())],
        Reason::BlockLevel => judged(block).map_or(Vec::new(), |item| vec![block_level(&body(), place, &item)]),
        Reason::Limit => judged(block).map_or(Vec::new(), |item| limits(sheet, &body(), place, block, &item)),
        Reason::Room => vec![format!("the buffer must have {} bytes, the sheet's and the block's", sheet.len() + block.len())],
        _ => vec![sheet_refused(sheet)],
    }
}

/// Why a removal of the item at a place was refused, a line each.
pub fn removal(sheet: &[u8], place: usize, refusal: Refusal) -> Vec<String> {
    match refusal.reason {
        Reason::Place => vec![removal_place(sheet, &Body::of(sheet), place)],
        _ => vec![sheet_refused(sheet)],
    }
}

/// Why the way up from a record was refused, a line each.
pub fn way_up(sheet: &[u8], number: usize, refusal: Refusal) -> Vec<String> {
    match refusal.reason {
        Reason::RecordNumber => vec![outside(sheet, number, "record").unwrap_or_else(|| refusal.reason.to_string())],
        _ => vec![sheet_refused(sheet)],
    }
}

/// Why a jump to a layer of a sheet with a directory was refused, a line each.
///
/// ```
/// use zvaigulta::{explain, jump, Sheet, EXAMPLE};
///
/// let file = Sheet::from(EXAMPLE.to_vec()).with_directory()?;
/// let words = explain::jump(&file, jump(&file, file.len(), 2).unwrap_err());
/// assert_eq!(words, ["the sheet has 1 layer: there is no other to jump to"]);
/// # Ok::<(), zvaigulta::Refusal>(())
/// ```
pub fn jump(file: &[u8], refusal: Refusal) -> Vec<String> {
    match refusal.reason {
        Reason::RecordNumber => vec![match WITH_DIRECTORY.layers(file).unwrap_or(0) {
            0 => "the sheet has no layer to jump to".to_string(),
            1 => "the sheet has 1 layer: there is no other to jump to".to_string(),
            layers => format!("the sheet has {layers} layers: give a number from 1 to {layers}"),
        }],
        _ => explain_as(WITH_DIRECTORY, file, refusal).notes,
    }
}

const WITH_DIRECTORY: Reading = Reading { form: Form::Plain, directory: true };

/// 1 to 10: the sheet itself.
fn sheet_refused(sheet: &[u8]) -> String {
    match FileKind::of(sheet) {
        FileKind::Index => "this is an index: items stand in sheets, it has none".to_string(),
        FileKind::Sheet => "the sheet itself is refused, whatever the edit: it must be mended first".to_string(),
    }
}

/// A record number before the layers or past the end; `what` is asked for.
fn outside(sheet: &[u8], number: usize, what: &str) -> Option<String> {
    let (part, records) = (part(sheet).len(), sheet.len() / RECORD_BYTES);
    match number {
        0 => Some("records number from 1, and 0 is none".to_string()),
        n if n <= part => Some(format!("record {n} is in the sheet part, which ends at record {part}")),
        n if n > records => Some(format!("the sheet has {records} records: there is no {what} {n}")),
        _ => None,
    }
}

/// 11 of an insertion: the place is no start of a header or item, nor one past the end.
fn insertion_place(sheet: &[u8], body: &Body, place: usize) -> String {
    let records = sheet.len() / RECORD_BYTES;
    let end = format!("the last place, behind the last record, is {}", records + 1);
    match (outside(sheet, place, "place"), body.owner(place)) {
        (Some(words), _) if place > records => format!("{words}; {end}"),
        (Some(words), _) => match body.entries.first() {
            Some(layer) => format!("{words}; the first place for an item is {}, behind the first layer header", layer.number + 1),
            None => format!("{words}; the sheet has no layer yet, so no place for an item"),
        },
        (None, Some(item)) => {
            let behind = body.entries.get(body.before(place)).map_or(records + 1, |next| next.number);
            format!("{}: give {} for a place before it, {behind} for one behind it", data_of(place, item), item.number)
        }
        (None, None) => end,
    }
}

/// A record as data of its item.
fn data_of(record: usize, item: &Record) -> String {
    format!("record {record} is data of the {} at record {}", item.name(), item.number)
}

/// 11 of a removal: the place is no start of an item.
fn removal_place(sheet: &[u8], body: &Body, place: usize) -> String {
    let last = body.entries.iter().rev().find(|entry| entry.sort() != Some(Sort::Header));
    let items = match last {
        Some(last) => format!("the last item starts at record {}", last.number),
        None => "it has no item to remove".to_string(),
    };
    match (outside(sheet, place, "item at record"), body.owner(place)) {
        (Some(words), _) => format!("{words}; {items}"),
        (None, Some(header)) if header.sort() == Some(Sort::Header) => {
            let held = body.held.get(body.before(place)).map_or(0, |held| held.iter().sum::<usize>());
            format!("record {place} is a {}, with {held} below it: only an item is removed, never a header", header.title())
        }
        (None, Some(item)) => format!("{}: give {} to remove that item", data_of(place, item), item.number),
        (None, None) => items,
    }
}

/// 13: the levels that are possible at a place.
fn block_level(body: &Body, place: usize, item: &Item) -> String {
    let there = body.at(place).and_then(|entry| entry.level);
    let (least, most) = (there.unwrap_or(2).max(2), body.open_level(place) + 1);
    let at = match there {
        Some(_) => format!("before record {place}"),
        None => "at the end".to_string(),
    };
    let possible = match (least, most) {
        (_, ..2) => format!("{at} no item is possible, as no layer header stands before it"),
        (least, most) if least == most => format!("{at} only level {most} is possible"),
        (least, most) => format!("{at} levels {least} to {most} are possible"),
    };
    let next = if most < 2 { "give a place behind a layer header" } else { "change the block's level, or give another place" };
    format!("the block has level {}, {possible}: {next}", item.level)
}

/// 14: the limits that would be passed.
fn limits(sheet: &[u8], body: &Body, place: usize, block: &[u8], item: &Item) -> Vec<String> {
    let (records, more) = (sheet.len() / RECORD_BYTES, block.len() / RECORD_BYTES);
    let header = body.header_for(place, item.level).and_then(|place| body.entries.get(place));
    let states = |column: &str| header.map_or(0, |header| natural(&HEADER, column, header.bytes));
    let title = header.map_or_else(String::new, |header| format!("{} at record {}", header.name(), header.number));
    let mut passed = Vec::new();
    if states("total") >= MOST_TOTAL {
        passed.push(format!("the {title} has a total of {MOST_TOTAL} already, the most that it can state"));
    }
    if matches!(item.sort, Sort::Grid | Sort::Net) && states("grid and net") >= 9 {
        passed.push(format!("the {title} has 9 grids and nets already, the most that it can state: put it under another header"));
    }
    if records + more > MOST_RECORDS {
        let blocks = number_of(more as u64, "record");
        passed.push(format!("the sheet has {records} records and the block {blocks}: together more than {MOST_RECORDS}"));
    }
    passed
}
