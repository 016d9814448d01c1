//! Headers, items and their data records.

use crate::layout::{Layout, Layouts, COUNTS};

/// What a record is, where a header or an item is due. An item carries its place among a header's counts.
#[derive(Clone, Copy, Debug, PartialEq, Eq)]
pub enum Sort {
    Header,
    Element(u8),
    Grid,
    Net,
}

impl Sort {
    pub fn of(record: &[u8]) -> Option<Sort> {
        match &record[..2] {
            b"H " => Some(Sort::Header),
            b"G " => Some(Sort::Grid),
            b"T " => Some(Sort::Net),
            [b'E', n @ b'1'..=b'8'] => Some(Sort::Element(n - b'0')),
            _ => None,
        }
    }

    /// The place among a header's counts: groups 0, elements 1 to 8, grid and net 9.
    pub fn count(self) -> usize {
        match self {
            Sort::Header => 0,
            Sort::Element(n) => n as usize,
            Sort::Grid | Sort::Net => 9,
        }
    }

    pub fn layout(self) -> &'static Layout {
        let all = Layouts::shared();
        match self {
            Sort::Header => &all.header,
            Sort::Element(_) => &all.element,
            Sort::Grid => &all.grid,
            Sort::Net => &all.net,
        }
    }

    pub fn level(self, record: &[u8]) -> usize {
        self.layout().number("level", record)
    }
}

/// What an item's data records hold: layout, numbers a point, points a record, points in all.
#[derive(Clone, Copy, Debug, PartialEq, Eq)]
pub enum Holds {
    Points { each: usize, a_record: usize, count: usize, three: bool },
    Notes,
    Free,
}

/// An item whose header passed 4 to 6: how many data records it states, what they hold, and whether its
/// data rule holds.
#[derive(Clone, Copy, Debug)]
pub struct Item {
    pub records: usize,
    pub holds: Holds,
    pub rule: bool,
}

fn up(n: usize, d: usize) -> usize {
    n.div_ceil(d)
}

impl Item {
    pub fn of(sort: Sort, record: &[u8]) -> Item {
        let l = sort.layout();
        match sort {
            Sort::Header => unreachable!(),
            Sort::Element(n) => {
                let kind = l.number("data kind", record);
                let count = l.number("data count", record);
                let records = l.number("records", record);
                let points = [2, 3, 6].contains(&kind);
                let fits = match n {
                    1 | 2 => points && count >= 1,
                    3 | 4 => points && count == 3,
                    5 => ((kind == 0 || kind == 1) && count == 0) || (points && count >= 1),
                    6 => points && count >= 2 && count.is_multiple_of(2),
                    7 => kind == 4 && count >= 1,
                    _ => kind == 5 && count >= 1,
                };
                let (needed, holds) = match kind {
                    2 => (up(count, 6), Holds::Points { each: 2, a_record: 6, count, three: false }),
                    3 | 6 => (up(count, 4), Holds::Points { each: 3, a_record: 4, count, three: true }),
                    4 => (up(count, 64), Holds::Notes),
                    5 => (count, Holds::Free),
                    _ => (0, Holds::Free),
                };
                Item { records, holds, rule: fits && records == needed }
            }
            Sort::Grid => {
                let points = l.number("rows", record) * l.number("columns", record);
                let records = (l.number("repeat", record) - 1) * 10_000 + l.number("records", record);
                let holds = Holds::Points { each: 1, a_record: 12, count: points, three: false };
                Item { records, holds, rule: records == up(points, 12) }
            }
            Sort::Net => {
                let points = 3 * l.number("triangles", record);
                let records = l.number("records", record);
                let holds = Holds::Points { each: 3, a_record: 4, count: points, three: true };
                Item { records, holds, rule: records == up(points, 4) }
            }
        }
    }

    /// The layout of a data record and how many of its columns are judged; `nth` counts from 0.
    pub fn data_columns(&self, nth: usize) -> (&'static Layout, usize) {
        let all = Layouts::shared();
        match self.holds {
            Holds::Points { each, a_record, count, three } => {
                let used = count.saturating_sub(nth * a_record).min(a_record);
                let layout = if three {
                    &all.three
                } else if each == 2 {
                    &all.two
                } else {
                    &all.heights
                };
                (layout, used * each)
            }
            Holds::Notes => (&all.note, all.note.whole()),
            Holds::Free => (&all.attribute, 1),
        }
    }

    /// The first of 5 and 6 in a data record.
    pub fn data_fault(&self, record: &[u8], nth: usize) -> Option<u8> {
        let (layout, columns) = self.data_columns(nth);
        if let Some(n) = layout.fault(record, columns) {
            return Some(n);
        }
        if self.holds == Holds::Notes {
            let direction = layout.value("direction", record);
            let right = match layout.value("writing direction", record) {
                0 => (-45..=45).contains(&direction),
                _ => (-135..=-45).contains(&direction),
            };
            if !right {
                return Some(6);
            }
        }
        None
    }
}

/// The ten counts that a header states, and its total.
pub fn stated_counts(record: &[u8]) -> ([usize; 10], usize) {
    let l = &Layouts::shared().header;
    (COUNTS.map(|n| l.number(n, record)), l.number("total", record))
}
