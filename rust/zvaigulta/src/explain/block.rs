//! A block: one item with its data. It is judged by the proved judge, inside a small sheet that is sound but for its counts.

use super::{explain, form};
use crate::layout::HEADER;
use crate::outline::{Sort, Stated};
use crate::text::{number_of, quoted, with_article};
use crate::{judge_sheet, write_column, Reason, Refusal, EXAMPLE, RECORD_BYTES};

/// The item that a sound block is.
pub struct Item {
    pub sort: Sort,
    pub level: i64,
    /// Its data records.
    pub data: u64,
}

/// What a file that starts with an item is, in words; none for another file.
///
/// ```
/// use zvaigulta::{explain, EXAMPLE};
///
/// let words = explain::block(&EXAMPLE[6 * 84..]).unwrap();
/// assert_eq!(words, "this is a block, a line E2 with 2 data records, level 2: use it with insert");
/// assert_eq!(explain::block(EXAMPLE), None);
/// ```
pub fn block(bytes: &[u8]) -> Option<String> {
    let sort = Sort::of(bytes).filter(|sort| *sort != Sort::Header)?;
    Some(match judged(bytes) {
        Ok(item) => format!("this is a block, {}: use it with insert", item.words()),
        Err(words) => format!("the file starts with {}; as a block it would be refused: {words}", with_article(&sort.name())),
    })
}

/// Whether bytes are a sound block.
pub fn is_block(bytes: &[u8]) -> bool {
    Sort::of(bytes).is_some_and(|sort| sort != Sort::Header) && bytes.len().is_multiple_of(RECORD_BYTES) && judged(bytes).is_ok()
}

impl Item {
    /// In words: `a line E2 with 2 data records, level 2`.
    pub fn words(&self) -> String {
        let data = number_of(self.data, "data record");
        format!("{} with {data}, level {}", with_article(&self.sort.name()), self.level)
    }
}

/// The item that a block is, or what is wrong with it.
pub fn judged(block: &[u8]) -> Result<Item, String> {
    if block.is_empty() {
        return Err("the block is empty".to_string());
    }
    if !block.len().is_multiple_of(RECORD_BYTES) {
        let more = number_of((block.len() % RECORD_BYTES) as u64, "byte");
        let plain = || format!("the block has {} and {more} more", number_of((block.len() / RECORD_BYTES) as u64, "record"));
        let of_block = |words: String| match words.strip_prefix("the file ") {
            Some(words) => format!("the block {words}"),
            None => format!("in the block {words}"),
        };
        return Err(form::of(block, None).map_or_else(plain, of_block));
    }
    let sort = item_sort(block)?;
    let level = sort.layout().value("level", block).unwrap_or(0);
    let data = Stated::of(sort, block).records;
    let (sheet, before) = sheet_with(block, level);
    match judge_sheet(&sheet, sheet.len()) {
        Err(refusal) if refusal.reason != Reason::Count && inside(refusal, before, data) => Err(wrong(&sheet, before, refusal)),
        Err(Refusal { reason: Reason::Length, .. }) => Err("the block is too long for any sheet".to_string()),
        _ => one_item(block, Item { sort, level, data }),
    }
}

/// Whether a refusal names a record of the block's first item.
fn inside(refusal: Refusal, before: usize, data: u64) -> bool {
    refusal.record.is_some_and(|record| (record as u64) <= (before as u64).saturating_add(1).saturating_add(data))
}

/// The sort of the item that a block starts with.
fn item_sort(block: &[u8]) -> Result<Sort, String> {
    let what = match Sort::of(block) {
        Some(Sort::Header) => "starts with a header".to_string(),
        Some(sort) => return Ok(sort),
        None if block.starts_with(b"M ") => "is a sheet".to_string(),
        None if block.starts_with(b"I ") => "is an index".to_string(),
        None => format!("starts with {}", quoted(block.get(..2).unwrap_or(block))),
    };
    Err(format!("the block {what}; it must be one element, grid or net with its data: E1 to E8, \"G \" or \"T \""))
}

/// The sheet part of the example, headers down to one level above the block, and the block; also how many records stand before
/// the block.
fn sheet_with(block: &[u8], level: i64) -> (Vec<u8>, usize) {
    let (part, layer) = (&EXAMPLE[..5 * RECORD_BYTES], &EXAMPLE[5 * RECORD_BYTES..6 * RECORD_BYTES]);
    let mut sheet = part.to_vec();
    for above in 1..level.clamp(2, 9) {
        let mut header = layer.to_vec();
        let column = HEADER.column("level").map_or(0..0, |column| column.start..column.start + column.width);
        // A level of 1 to 8 fits its two digits.
        let _ = write_column(&mut header[column], above);
        sheet.extend(header);
    }
    let before = sheet.len() / RECORD_BYTES;
    sheet.extend(block);
    (sheet, before)
}

/// What is wrong inside the item, by the explanation of the sheet around it.
fn wrong(sheet: &[u8], before: usize, refusal: Refusal) -> String {
    let explained = explain(sheet, refusal);
    let faults = explained.faults.into_iter().filter(|fault| fault.record > before);
    let words: Vec<String> =
        faults.map(|fault| format!("record {} of the block, {}: {}", fault.record - before, fault.column, fault.words)).collect();
    match words.is_empty() {
        true => refusal.reason.to_string(),
        false => words.join("; "),
    }
}

/// That nothing is left over behind the item.
fn one_item(block: &[u8], item: Item) -> Result<Item, String> {
    let (there, used) = ((block.len() / RECORD_BYTES) as u64, item.data.saturating_add(1));
    if there == used {
        return Ok(item);
    }
    let left = match there.saturating_sub(used) {
        1 => "1 record is".to_string(),
        n => format!("{n} records are"),
    };
    Err(format!("the block's item, {}, ends at its record {used}, and {left} left over: a block is one item", item.words()))
}
