//! Insertion and removal, on a vector of records.

use crate::judge::{accepted, data, level_allowed, Walked};
use crate::layout::{Layouts, COUNTS};
use crate::record::{stated_counts, Item, Sort};
use crate::{refuse, Refusal, MOST_RECORDS, RECORD};

/// The item that a block is: exactly one, sound but for nesting.
fn block_item(block: &[u8]) -> Option<(Sort, usize)> {
    if block.is_empty() || !block.len().is_multiple_of(RECORD) {
        return None;
    }
    let records: Vec<&[u8]> = block.chunks(RECORD).collect();
    let sort = Sort::of(records[0])?;
    let layout = sort.layout();
    if sort == Sort::Header || layout.fault(records[0], layout.whole()).is_some() {
        return None;
    }
    let level = sort.level(records[0]);
    let item = Item::of(sort, records[0]);
    let whole = level_allowed(sort, level) && item.rule && data(&item, &records, 0).is_ok() && records.len() == 1 + item.records;
    whole.then_some((sort, level))
}

/// The last header before a place with a level one less.
fn above(walked: &Walked, place: usize, level: usize) -> Option<usize> {
    let fits = |f: &&crate::judge::Found| f.place < place && f.sort == Sort::Header && f.level + 1 == level;
    walked.found.iter().rfind(fits).map(|f| f.place)
}

/// The level of the last header before a place, or one less than the last item's; 0 before the first layer.
pub fn open_level(walked: &Walked, place: usize) -> usize {
    match walked.found.iter().rfind(|f| f.place < place) {
        None => 0,
        Some(f) if f.sort == Sort::Header => f.level,
        Some(f) => f.level - 1,
    }
}

/// The four columns after an edit: one item more or less of a kind under a header.
fn rewrite(sheet: &mut [u8], header: usize, sort: Sort, by: i64, records: i64) {
    let all = Layouts::shared();
    let h = &mut sheet[header * RECORD..(header + 1) * RECORD];
    for name in ["total", COUNTS[sort.count()]] {
        let n = all.header.value(name, h) + by;
        all.header.put(name, h, n);
    }
    let b = &mut sheet[RECORD..2 * RECORD];
    let elements = all.sheet_b.value("elements", b) + by;
    all.sheet_b.put("elements", b, elements);
    let stated = all.sheet_b.value("records", b) + records;
    all.sheet_b.put("records", b, stated);
}

/// Inserts a block before a record, numbered from 1, or at the end. Answers the new used length.
pub fn insert(buffer: &mut [u8], used: usize, place: u64, block: &[u8]) -> Result<usize, Refusal> {
    let (walked, counts) = accepted(buffer, used)?;
    let ends = place == counts.records as u64 + 1;
    let there = walked.found.iter().find(|f| f.place as u64 + 1 == place).copied();
    if !ends && there.is_none() {
        return refuse(11, 0);
    }
    let place = place as usize - 1;
    let Some((sort, level)) = block_item(block) else {
        return refuse(12, 0);
    };
    if level > open_level(&walked, place) + 1 || there.is_some_and(|f| level < f.level) {
        return refuse(13, 0);
    }
    let header = above(&walked, place, level).expect("an accepted sheet has a header above");
    let (stated, total) = stated_counts(&buffer[header * RECORD..(header + 1) * RECORD]);
    let new_records = counts.records + block.len() / RECORD;
    if total + 1 > 99_999 || (sort.count() == 9 && stated[9] + 1 > 9) || new_records > MOST_RECORDS {
        return refuse(14, 0);
    }
    if used + block.len() > buffer.len() {
        return refuse(15, 0);
    }
    let mut sheet = buffer[..used].to_vec();
    sheet.splice(place * RECORD..place * RECORD, block.iter().copied());
    rewrite(&mut sheet, header, sort, 1, (block.len() / RECORD) as i64);
    buffer[..sheet.len()].copy_from_slice(&sheet);
    Ok(sheet.len())
}

/// Removes the item that starts at a record, numbered from 1. Answers the new used length.
pub fn remove(buffer: &mut [u8], used: usize, place: u64) -> Result<usize, Refusal> {
    let (walked, _) = accepted(buffer, used)?;
    let found = walked.found.iter().find(|f| f.place as u64 + 1 == place && f.sort != Sort::Header);
    let Some(item) = found.copied() else {
        return refuse(11, 0);
    };
    let header = above(&walked, item.place, item.level).expect("an accepted sheet has a header above");
    let records = 1 + item.data;
    let mut sheet = buffer[..used].to_vec();
    sheet.drain(item.place * RECORD..(item.place + records) * RECORD);
    rewrite(&mut sheet, header, item.sort, -1, -(records as i64));
    buffer[..sheet.len()].copy_from_slice(&sheet);
    buffer[sheet.len()..used].fill(b' ');
    Ok(sheet.len())
}
