//! Judging a sheet or an index, in three stages.

use crate::corner::goes_with;
use crate::layout::{Layout, Layouts, CORNERS};
use crate::record::{stated_counts, Item, Sort};
use crate::{refuse, Refusal, MOST_RECORDS, RECORD};

#[derive(Clone, Copy, Debug, PartialEq, Eq)]
pub struct Counts {
    pub records: usize,
    pub items: usize,
}

/// A header or an item found by the walk; `place` counts records from 0.
#[derive(Clone, Copy, Debug)]
pub struct Found {
    pub place: usize,
    pub sort: Sort,
    pub level: usize,
    pub data: usize,
}

/// A sheet that passed stage two.
#[derive(Clone, Debug)]
pub struct Walked {
    pub part: usize,
    pub found: Vec<Found>,
}

/// Stage one.
pub fn records(buffer: &[u8], used: usize) -> Result<Vec<&[u8]>, Refusal> {
    if used == 0 || used > buffer.len() || !used.is_multiple_of(RECORD) || used / RECORD > MOST_RECORDS {
        return refuse(1, 0);
    }
    Ok(buffer[..used].chunks(RECORD).collect())
}

fn checked(layout: &Layout, record: &[u8], number: usize) -> Result<(), Refusal> {
    match layout.fault(record, layout.whole()) {
        Some(n) => refuse(n, number),
        None => Ok(()),
    }
}

/// A record of the sheet part or of an index: missing is 3 at record 1.
fn due<'a>(records: &[&'a [u8]], place: usize) -> Result<&'a [u8], Refusal> {
    records.get(place).copied().map_or_else(|| refuse(3, 1), Ok)
}

/// The sheet part: how many records it has.
pub fn sheet_part(records: &[&[u8]]) -> Result<usize, Refusal> {
    let all = Layouts::shared();
    let a = due(records, 0)?;
    if !a.starts_with(b"M ") {
        return refuse(2, 1);
    }
    checked(&all.sheet_a, a, 1)?;
    let b = due(records, 1)?;
    checked(&all.sheet_b, b, 2)?;
    let unit = match all.sheet_a.value("level", a) {
        500 | 1000 => 1,
        2500 | 5000 => 10,
        _ => 999,
    };
    if all.sheet_b.value("unit", b) != unit {
        return refuse(6, 2);
    }
    checked(&all.sheet_c, due(records, 2)?, 3)?;
    let mut place = 3;
    for _ in 0..=all.sheet_a.number("revisions", a) {
        let d = due(records, place)?;
        checked(&all.sheet_d, d, place + 1)?;
        let courses = all.sheet_d.number("courses", d);
        let f_records = all.sheet_d.number("f records", d);
        if f_records != 0 && f_records != courses.div_ceil(3) {
            return refuse(6, place + 1);
        }
        let e = due(records, place + 1)?;
        checked(&all.sheet_e, e, place + 2)?;
        for name in CORNERS {
            if !goes_with(unit as u64, all.sheet_b.value(name, b), all.sheet_e.value(name, e)) {
                return refuse(9, place + 2);
            }
        }
        place += 2;
        for _ in 0..f_records {
            checked(&all.sheet_f, due(records, place)?, place + 1)?;
            place += 1;
        }
    }
    Ok(place)
}

/// Checks an item's data records; answers the first fault.
pub fn data(item: &Item, records: &[&[u8]], place: usize) -> Result<(), Refusal> {
    for nth in 0..item.records {
        let Some(record) = records.get(place + 1 + nth) else {
            return refuse(3, place + 1);
        };
        if let Some(n) = item.data_fault(record, nth) {
            return refuse(n, place + 2 + nth);
        }
    }
    Ok(())
}

/// The levels that a header and an item may have.
pub fn level_allowed(sort: Sort, level: usize) -> bool {
    match sort {
        Sort::Header => (1..=8).contains(&level),
        _ => (2..=9).contains(&level),
    }
}

/// Stage two of a sheet.
pub fn walk(records: &[&[u8]]) -> Result<Walked, Refusal> {
    let part = sheet_part(records)?;
    let mut found: Vec<Found> = Vec::new();
    let mut place = part;
    let mut open = 0;
    while let Some(record) = records.get(place) {
        let Some(sort) = Sort::of(record) else {
            return refuse(4, place + 1);
        };
        checked(sort.layout(), record, place + 1)?;
        let level = sort.level(record);
        if !level_allowed(sort, level) || level > open + 1 {
            return refuse(7, place + 1);
        }
        let mut held = 0;
        if sort == Sort::Header {
            open = level;
        } else {
            let item = Item::of(sort, record);
            if !item.rule {
                return refuse(8, place + 1);
            }
            data(&item, records, place)?;
            held = item.records;
            open = level - 1;
        }
        found.push(Found { place, sort, level, data: held });
        place += 1 + held;
    }
    Ok(Walked { part, found })
}

/// The header above a header or item: the last one before it with level one less.
pub fn above(found: &[Found], i: usize) -> Option<usize> {
    (0..i).rev().find(|j| found[*j].sort == Sort::Header && found[*j].level + 1 == found[i].level)
}

/// What stands under each header, by kind.
fn counted(found: &[Found]) -> Vec<[usize; 10]> {
    let mut counts = vec![[0; 10]; found.len()];
    let mut last = [None; 10];
    for (i, f) in found.iter().enumerate() {
        if f.level > 1 {
            if let Some(j) = last[f.level - 1] {
                let of: &mut [usize; 10] = &mut counts[j];
                of[f.sort.count()] += 1;
            }
        }
        if f.sort == Sort::Header {
            last[f.level] = Some(i);
        }
    }
    counts
}

/// Stage three of a sheet.
fn counts_agree(records: &[&[u8]], walked: &Walked) -> Result<usize, Refusal> {
    let b = &Layouts::shared().sheet_b;
    let items = walked.found.iter().filter(|f| f.sort != Sort::Header).count();
    if b.number("elements", records[1]) != items || b.number("records", records[1]) != records.len() - walked.part {
        return refuse(10, 2);
    }
    for (f, right) in walked.found.iter().zip(counted(&walked.found)) {
        if f.sort == Sort::Header {
            let (stated, total) = stated_counts(records[f.place]);
            if stated != right || total != stated.iter().sum() {
                return refuse(10, f.place + 1);
            }
        }
    }
    Ok(items)
}

/// A sheet that is accepted, with its walk.
pub fn accepted(buffer: &[u8], used: usize) -> Result<(Walked, Counts), Refusal> {
    let records = records(buffer, used)?;
    let walked = walk(&records)?;
    let items = counts_agree(&records, &walked)?;
    Ok((walked, Counts { records: records.len(), items }))
}

/// Judges a sheet.
pub fn sheet(buffer: &[u8], used: usize) -> Result<Counts, Refusal> {
    accepted(buffer, used).map(|(_, counts)| counts)
}

/// Judges an index.
pub fn index(buffer: &[u8], used: usize) -> Result<Counts, Refusal> {
    let records = records(buffer, used)?;
    let all = Layouts::shared();
    let a = due(&records, 0)?;
    if !a.starts_with(b"I ") {
        return refuse(2, 1);
    }
    checked(&all.index_a, a, 1)?;
    let b_records = all.index_a.number("b records", a);
    if b_records != all.index_a.number("sheets", a).div_ceil(10) {
        return refuse(6, 1);
    }
    let end = 1 + b_records + all.index_a.number("c records", a);
    for place in 1..end {
        let layout = if place <= b_records { &all.index_b } else { &all.index_c };
        checked(layout, due(&records, place)?, place + 1)?;
    }
    if records.len() != end {
        return refuse(10, 1);
    }
    Ok(Counts { records: end, items: 0 })
}
