//! The headers and items of a sheet in order, told in one pass, and for each header what stands one level below it.

use crate::outline::{Outline, Record, Sort, COUNTS};

/// The headers and items of a sheet, in the order of the file.
pub struct Body<'a> {
    /// Each with its number, level and bytes.
    pub entries: Vec<Record<'a>>,
    /// For each of them the place, in `entries`, of the header above it: the last header before it with level one less.
    pub above: Vec<Option<usize>>,
    /// For each of them how many of each kind stand one level below it; zeros for an item.
    pub held: Vec<[usize; COUNTS.len()]>,
}

impl<'a> Body<'a> {
    /// Of a whole sheet.
    pub fn of(bytes: &'a [u8]) -> Body<'a> {
        let mut body = Body { entries: Vec::new(), above: Vec::new(), held: Vec::new() };
        let mut last = [None; 10];
        for record in Outline::of(bytes) {
            if let Some(sort) = record.sort() {
                body.push(record, sort, &mut last);
            }
        }
        body
    }

    /// One more; `last` has the last header of each level.
    fn push(&mut self, record: Record<'a>, sort: Sort, last: &mut [Option<usize>; 10]) {
        let level = record.level.and_then(|level| usize::try_from(level).ok()).filter(|level| *level < last.len());
        let above = level.and_then(|level| *last.get(level.checked_sub(1)?)?);
        if let Some(held) = above.and_then(|above| self.held.get_mut(above)) {
            held[sort.count()] += 1;
        }
        if let (Sort::Header, Some(level)) = (sort, level) {
            last[level] = Some(self.entries.len());
        }
        self.entries.push(record);
        self.above.push(above);
        self.held.push([0; COUNTS.len()]);
    }

    /// The items alone.
    pub fn items(&self) -> usize {
        self.entries.iter().filter(|entry| entry.sort() != Some(Sort::Header)).count()
    }

    /// How many headers and items start before a record.
    pub fn before(&self, record: usize) -> usize {
        self.entries.partition_point(|entry| entry.number < record)
    }

    /// The open level before a record: that of the last header, or one less than the last item's; 0 before the first layer.
    pub fn open_level(&self, record: usize) -> i64 {
        let last = self.before(record).checked_sub(1).and_then(|place| self.entries.get(place));
        last.map_or(0, |last| last.level.unwrap_or(0) - i64::from(last.sort() != Some(Sort::Header)))
    }

    /// The header or item that starts at a record.
    pub fn at(&self, record: usize) -> Option<&Record<'a>> {
        self.entries.get(self.before(record)).filter(|entry| entry.number == record)
    }

    /// The header or item that a record belongs to: the last that starts at it or before.
    pub fn owner(&self, record: usize) -> Option<&Record<'a>> {
        self.before(record.saturating_add(1)).checked_sub(1).and_then(|place| self.entries.get(place))
    }

    /// The header above a block of a level that is put before a record: its place in `entries`.
    pub fn header_for(&self, record: usize, level: i64) -> Option<usize> {
        let before = self.entries.get(..self.before(record))?;
        before.iter().rposition(|entry| entry.sort() == Some(Sort::Header) && entry.level == level.checked_sub(1))
    }
}
