//! A judge of sheets as a careful engineer writes it in idiomatic Rust: one pass, tables of columns, no allocation a record, and the standard
//! library's own parsing. It is what the proved judge is measured against, and it has to give the same answers.

use reference::judge::Counts;
use reference::Refusal;
use std::ops::RangeInclusive;

const RECORD: usize = 84;
const MOST_RECORDS: usize = 200_000;

/// An integer column: start, width, least and greatest value.
type Column = (usize, usize, i64, i64);

const SHEET_A: &[Column] = &[(30, 5, 0, 99_999), (65, 2, 0, 99), (67, 1, 1, 1), (68, 1, 0, 9)];
const SHEET_B: &[Column] = &[
    (0, 7, -999_999, 9_999_999),
    (7, 7, -999_999, 9_999_999),
    (14, 7, -999_999, 9_999_999),
    (21, 7, -999_999, 9_999_999),
    (31, 6, 0, 999_999),
    (37, 7, 0, 9_999_999),
    (44, 3, 0, 999),
    (47, 7, -999_999, 9_999_999),
    (54, 7, -999_999, 9_999_999),
    (61, 7, -999_999, 9_999_999),
    (68, 7, -999_999, 9_999_999),
];
const SHEET_D: &[Column] = &[(8, 1, 0, 9), (9, 1, 0, 9), (70, 1, 0, 2), (71, 1, 0, 9), (72, 1, 0, 9)];
const SHEET_F: &[Column] = &[
    (8, 5, 0, 99_999),
    (13, 1, 0, 9),
    (14, 4, 0, 9_999),
    (18, 4, 0, 9_999),
    (30, 5, 0, 99_999),
    (35, 1, 0, 9),
    (36, 4, 0, 9_999),
    (40, 4, 0, 9_999),
    (52, 5, 0, 99_999),
    (57, 1, 0, 9),
    (58, 4, 0, 9_999),
    (62, 4, 0, 9_999),
];
const CORNERS: [usize; 8] = [0, 7, 14, 21, 47, 54, 61, 68];
const ELEMENT: &[Column] = &[
    (2, 4, 0, 9_999),
    (6, 2, 0, 99),
    (8, 4, 0, 9_999),
    (12, 4, 0, 9_999),
    (16, 2, 0, 99),
    (18, 2, 0, 99),
    (20, 1, 0, 6),
    (21, 2, 0, 99),
    (23, 1, 0, 2),
    (24, 2, -9, 9),
    (26, 1, 0, 9),
    (27, 4, 0, 9_999),
    (31, 4, 0, 9_999),
    (35, 7, -999_999, 9_999_999),
    (42, 7, -999_999, 9_999_999),
    (56, 2, 0, 99),
    (83, 1, 1, 9),
];
const HEADER: &[Column] = &[
    (2, 4, 0, 9_999),
    (6, 2, 0, 99),
    (8, 4, 0, 9_999),
    (12, 4, 0, 9_999),
    (16, 2, 0, 99),
    (18, 5, 0, 99_999),
    (23, 5, 0, 99_999),
    (28, 5, 0, 99_999),
    (33, 5, 0, 99_999),
    (38, 5, 0, 99_999),
    (43, 5, 0, 99_999),
    (48, 5, 0, 99_999),
    (53, 5, 0, 99_999),
    (58, 5, 0, 99_999),
    (63, 5, 0, 99_999),
    (68, 1, 0, 9),
    (81, 2, 0, 99),
];
const GRID: &[Column] = &[
    (2, 4, 0, 9_999),
    (6, 2, 0, 99),
    (8, 4, 0, 9_999),
    (12, 4, 0, 9_999),
    (16, 2, 0, 99),
    (18, 4, 1, 9_999),
    (22, 4, 1, 9_999),
    (26, 4, 0, 9_999),
    (30, 7, 1, 9_999_999),
    (37, 7, 1, 9_999_999),
    (44, 7, -999_999, 9_999_999),
    (51, 7, -999_999, 9_999_999),
    (70, 2, 0, 99),
    (72, 2, 0, 99),
    (83, 1, 1, 9),
];
const NET: &[Column] = &[
    (2, 4, 0, 9_999),
    (6, 2, 0, 99),
    (8, 4, 0, 9_999),
    (12, 4, 0, 9_999),
    (16, 2, 0, 99),
    (18, 2, 0, 99),
    (20, 6, 1, 999_999),
    (26, 6, 0, 999_999),
    (44, 2, 0, 99),
];
const NOTE: &[Column] = &[(0, 1, 0, 1), (1, 7, -999_999, 9_999_999), (8, 5, 0, 99_999), (13, 5, 0, 99_999), (18, 2, 0, 99)];

fn refuse<T>(number: u8, record: usize) -> Result<T, Refusal> {
    Err(Refusal { number, record })
}

/// The number in a column: right-justified, at most one minus, no minus before zeros only.
fn integer(bytes: &[u8]) -> Option<i64> {
    let text = std::str::from_utf8(bytes).ok()?.trim_start_matches(' ');
    let digits = text.strip_prefix('-').unwrap_or(text);
    if digits.is_empty() || !digits.bytes().all(|b| b.is_ascii_digit()) {
        return None;
    }
    let value = text.parse().ok()?;
    (value != 0 || digits.len() == text.len()).then_some(value)
}

fn number(record: &[u8], start: usize, width: usize) -> usize {
    integer(&record[start..start + width]).and_then(|n| usize::try_from(n).ok()).unwrap_or(0)
}

/// The first of 5 and 6 in these columns.
fn fault(record: &[u8], columns: &[Column]) -> Option<u8> {
    let mut inside = true;
    for &(start, width, low, high) in columns {
        let Some(value) = integer(&record[start..start + width]) else {
            return Some(5);
        };
        inside &= (low..=high).contains(&value);
    }
    (!inside).then_some(6)
}

fn element_fault(record: &[u8]) -> Option<u8> {
    let value = &record[49..56];
    match fault(record, ELEMENT) {
        Some(5) => Some(5),
        _ if !value.iter().all(|b| *b == b' ') && integer(value).is_none() => Some(5),
        other => other,
    }
}

fn checked(found: Option<u8>, number: usize) -> Result<(), Refusal> {
    found.map_or(Ok(()), |n| refuse(n, number))
}

/// What an item's data records hold, and how many there are of each.
#[derive(Clone, Copy)]
enum Holds {
    Columns { each: usize, a_record: usize, count: usize },
    Notes,
    Free,
}

struct Item {
    kind: usize,
    level: usize,
    records: usize,
    holds: Holds,
    rule: bool,
}

fn element(record: &[u8], kind: usize) -> Item {
    let data = number(record, 20, 1);
    let count = number(record, 27, 4);
    let records = number(record, 31, 4);
    let points = matches!(data, 2 | 3 | 6);
    let fits = match kind {
        1 | 2 => points && count >= 1,
        3 | 4 => points && count == 3,
        5 => (data <= 1 && count == 0) || (points && count >= 1),
        6 => points && count >= 2 && count.is_multiple_of(2),
        7 => data == 4 && count >= 1,
        _ => data == 5 && count >= 1,
    };
    let (needed, holds) = match data {
        2 => (count.div_ceil(6), Holds::Columns { each: 2, a_record: 6, count }),
        3 | 6 => (count.div_ceil(4), Holds::Columns { each: 3, a_record: 4, count }),
        4 => (count.div_ceil(64), Holds::Notes),
        5 => (count, Holds::Free),
        _ => (0, Holds::Free),
    };
    Item { kind, level: number(record, 16, 2), records, holds, rule: fits && records == needed }
}

fn grid(record: &[u8]) -> Item {
    let count = number(record, 18, 4) * number(record, 22, 4);
    let records = (number(record, 83, 1) - 1) * 10_000 + number(record, 26, 4);
    let holds = Holds::Columns { each: 1, a_record: 12, count };
    Item { kind: 9, level: number(record, 16, 2), records, holds, rule: records == count.div_ceil(12) }
}

fn net(record: &[u8]) -> Item {
    let count = 3 * number(record, 20, 6);
    let records = number(record, 26, 6);
    let holds = Holds::Columns { each: 3, a_record: 4, count };
    Item { kind: 9, level: number(record, 16, 2), records, holds, rule: records == count.div_ceil(4) }
}

fn data_fault(record: &[u8], holds: Holds, nth: usize) -> Option<u8> {
    match holds {
        Holds::Free => None,
        Holds::Columns { each, a_record, count } => {
            let used = (count - nth * a_record).min(a_record) * each;
            let formed = record.chunks_exact(7).take(used).all(|c| integer(c).is_some());
            (!formed).then_some(5)
        }
        Holds::Notes => {
            if let Some(n) = fault(record, NOTE) {
                return Some(n);
            }
            let directions: RangeInclusive<i64> = if record[0] == b'0' { -45..=45 } else { -135..=-45 };
            let inside = integer(&record[1..8]).is_some_and(|d| directions.contains(&d));
            (!inside).then_some(6)
        }
    }
}

/// An open header: its record, counted from 0, and what stands one level below it by kind.
struct Open {
    record: usize,
    tally: [usize; 10],
}

struct Judge<'a> {
    file: &'a [u8],
    open: Vec<Open>,
    items: usize,
    wrong: Option<usize>,
}

impl<'a> Judge<'a> {
    fn record(&self, place: usize) -> Option<&'a [u8]> {
        self.file.get(place * RECORD..(place + 1) * RECORD)
    }

    fn due(&self, place: usize) -> Result<&'a [u8], Refusal> {
        self.record(place).map_or_else(|| refuse(3, 1), Ok)
    }

    /// The sheet part: its length in records.
    fn part(&self) -> Result<usize, Refusal> {
        let a = self.due(0)?;
        if !a.starts_with(b"M ") {
            return refuse(2, 1);
        }
        checked(fault(a, SHEET_A), 1)?;
        let unit = match number(a, 30, 5) {
            500 | 1_000 => 1,
            2_500 | 5_000 => 10,
            10_000 => 999,
            _ => return refuse(6, 1),
        };
        let b = self.due(1)?;
        checked(fault(b, SHEET_B), 2)?;
        if number(b, 44, 3) != unit {
            return refuse(6, 2);
        }
        self.due(2)?;
        let mut place = 3;
        for _ in 0..=number(a, 65, 2) {
            place = self.revision(place, b, unit)?;
        }
        Ok(place)
    }

    /// Records d, e and f of one revision.
    fn revision(&self, place: usize, b: &[u8], unit: usize) -> Result<usize, Refusal> {
        let d = self.due(place)?;
        checked(fault(d, SHEET_D), place + 1)?;
        let f_records = number(d, 9, 1);
        let codes = [71, 72].iter().all(|at| matches!(d[*at], b'0'..=b'3' | b'9'));
        if !codes || (f_records != 0 && f_records != number(d, 8, 1).div_ceil(3)) {
            return refuse(6, place + 1);
        }
        let e = self.due(place + 1)?;
        let fractions: Option<Vec<i64>> = (0..8).map(|n| integer(&e[40 + 4 * n..44 + 4 * n])).collect();
        let Some(fractions) = fractions else {
            return refuse(5, place + 2);
        };
        let most = if unit == 1 { 999 } else { 99 };
        for (fraction, at) in fractions.into_iter().zip(CORNERS) {
            let whole = integer(&b[at..at + 7]).unwrap_or(0);
            if fraction.abs() > most || whole.signum() * fraction.signum() < 0 {
                return refuse(9, place + 2);
            }
        }
        for n in 0..f_records {
            let f = self.due(place + 2 + n)?;
            checked(fault(f, SHEET_F), place + 3 + n)?;
        }
        Ok(place + 2 + f_records)
    }

    /// Closes headers down to so many; the first with a wrong count is kept.
    fn close(&mut self, left: usize) {
        while self.open.len() > left {
            let Some(Open { record, tally }) = self.open.pop() else { return };
            let header = &self.file[record * RECORD..];
            let stated = (0..10).map(|kind| if kind < 9 { number(header, 23 + 5 * kind, 5) } else { number(header, 68, 1) });
            let agree = stated.zip(tally).all(|(stated, found)| stated == found);
            if !agree || number(header, 18, 5) != tally.iter().sum() {
                self.wrong = Some(self.wrong.map_or(record, |w| w.min(record)));
            }
        }
    }

    fn enter(&mut self, kind: usize, level: usize) {
        self.close(level - 1);
        if let Some(above) = self.open.last_mut() {
            above.tally[kind] += 1;
        }
    }

    fn header(&mut self, record: &[u8], place: usize) -> Result<usize, Refusal> {
        checked(fault(record, HEADER), place + 1)?;
        let level = number(record, 16, 2);
        if !(1..=8).contains(&level) || level > self.open.len() + 1 {
            return refuse(7, place + 1);
        }
        self.enter(0, level);
        self.open.push(Open { record: place, tally: [0; 10] });
        Ok(place + 1)
    }

    fn item(&mut self, item: &Item, place: usize) -> Result<usize, Refusal> {
        if !(2..=9).contains(&item.level) || item.level > self.open.len() + 1 {
            return refuse(7, place + 1);
        }
        if !item.rule {
            return refuse(8, place + 1);
        }
        for nth in 0..item.records {
            let Some(record) = self.record(place + 1 + nth) else {
                return refuse(3, place + 1);
            };
            checked(data_fault(record, item.holds, nth), place + 2 + nth)?;
        }
        self.enter(item.kind, item.level);
        self.items += 1;
        Ok(place + 1 + item.records)
    }

    /// The header or item at a place; answers the place behind it.
    fn entry(&mut self, record: &[u8], place: usize) -> Result<usize, Refusal> {
        let item = match (record[0], record[1]) {
            (b'H', b' ') => return self.header(record, place),
            (b'E', n @ b'1'..=b'8') => {
                checked(element_fault(record), place + 1)?;
                element(record, (n - b'0') as usize)
            }
            (b'G', b' ') => {
                checked(fault(record, GRID), place + 1)?;
                grid(record)
            }
            (b'T', b' ') => {
                checked(fault(record, NET), place + 1)?;
                net(record)
            }
            _ => return refuse(4, place + 1),
        };
        self.item(&item, place)
    }
}

/// Judges a sheet.
pub fn judge_sheet(buffer: &[u8], used: usize) -> Result<Counts, Refusal> {
    if used == 0 || !used.is_multiple_of(RECORD) || used / RECORD > MOST_RECORDS {
        return refuse(1, 0);
    }
    let Some(file) = buffer.get(..used) else {
        return refuse(1, 0);
    };
    let mut judge = Judge { file, open: Vec::with_capacity(8), items: 0, wrong: None };
    let part = judge.part()?;
    let mut place = part;
    while let Some(record) = judge.record(place) {
        place = judge.entry(record, place)?;
    }
    judge.close(0);
    let b = &file[RECORD..2 * RECORD];
    if number(b, 31, 6) != judge.items || number(b, 37, 7) != place - part {
        return refuse(10, 2);
    }
    match judge.wrong {
        Some(record) => refuse(10, record + 1),
        None => Ok(Counts { records: place, items: judge.items }),
    }
}
