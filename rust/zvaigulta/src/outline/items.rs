//! Headers and items: their sorts, and what an item states of its data. Only for showing and explaining; the library judges.

use crate::layout::*;

/// What a record is, where a header or an item is due.
#[derive(Clone, Copy, Debug, PartialEq, Eq)]
pub enum Sort {
    /// A header, of a layer or a group.
    Header,
    /// An element, E1 to E8.
    Element(u8),
    /// A grid of heights.
    Grid,
    /// A triangle net.
    Net,
}

/// The columns in which a header counts what stands below it: groups, E1 to E8, grids and nets.
pub const COUNTS: [&str; 10] =
    ["groups", "area", "line", "circle", "arc", "point", "direction", "note", "attribute", "grid and net"];

impl Sort {
    /// By the two bytes of a record's type.
    pub fn of(record: &[u8]) -> Option<Sort> {
        match record {
            [b'H', b' ', ..] => Some(Sort::Header),
            [b'E', n @ b'1'..=b'8', ..] => Some(Sort::Element(n - b'0')),
            [b'G', b' ', ..] => Some(Sort::Grid),
            [b'T', b' ', ..] => Some(Sort::Net),
            _ => None,
        }
    }

    /// The layout of its own record.
    pub fn layout(self) -> &'static Layout {
        match self {
            Sort::Header => &HEADER,
            Sort::Element(_) => &ELEMENT,
            Sort::Grid => &GRID_HEADER,
            Sort::Net => &NET_HEADER,
        }
    }

    /// Its place in `COUNTS`.
    pub fn count(self) -> usize {
        match self {
            Sort::Header => 0,
            Sort::Element(n) => usize::from(n),
            Sort::Grid | Sort::Net => 9,
        }
    }

    /// The type of its own record, without a space: `H`, `E5`, `G`, `T`.
    pub fn kind(self) -> String {
        match self {
            Sort::Header => "H".to_string(),
            Sort::Element(n) => format!("E{n}"),
            Sort::Grid => "G".to_string(),
            Sort::Net => "T".to_string(),
        }
    }

    /// What its data counts: heights of a grid, else points.
    pub(crate) fn unit(self) -> &'static str {
        match self {
            Sort::Grid => "heights",
            _ => "points",
        }
    }

    /// In words: `header`, `point E5`, `grid`, `net`.
    pub fn name(self) -> String {
        match self {
            Sort::Header => "header".to_string(),
            Sort::Element(n) => format!("{} E{n}", COUNTS.get(usize::from(n)).unwrap_or(&"element")),
            Sort::Grid => "grid".to_string(),
            Sort::Net => "net".to_string(),
        }
    }
}

/// A column's number; 0 where it is malformed or negative.
pub fn natural(layout: &Layout, name: &str, record: &[u8]) -> u64 {
    layout.value(name, record).and_then(|n| u64::try_from(n).ok()).unwrap_or(0)
}

/// What an item states of its data.
#[derive(Clone, Copy, Debug)]
pub struct Stated {
    /// The layout of its data records, if its data kind has any.
    pub layout: Option<&'static Layout>,
    /// The data records that it states.
    pub records: u64,
    /// The data records that its counts need.
    pub needed: u64,
    /// Its points, heights or other units.
    pub count: u64,
    /// Units in a data record, and columns of a unit.
    a_record: u64,
    columns: usize,
}

impl Stated {
    /// Of an item's own record.
    pub fn of(sort: Sort, record: &[u8]) -> Stated {
        let number = |name| natural(sort.layout(), name, record);
        match sort {
            Sort::Header => Stated { layout: None, records: 0, needed: 0, count: 0, a_record: 1, columns: 0 },
            Sort::Element(_) => Stated::of_element(number("data kind"), number("data count"), number("records")),
            Sort::Grid => {
                let records = number("repeat").saturating_sub(1) * 10_000 + number("records");
                Stated::points(&DATA_GRID, records, number("rows") * number("columns"), 12, 1)
            }
            Sort::Net => Stated::points(&DATA_NET, number("records"), 3 * number("triangles"), 4, 3),
        }
    }

    fn points(layout: &'static Layout, records: u64, count: u64, a_record: u64, columns: usize) -> Stated {
        Stated { layout: Some(layout), records, needed: count.div_ceil(a_record), count, a_record, columns }
    }

    /// Of an element with a data kind, a data count and a number of records.
    pub(crate) fn of_element(kind: u64, count: u64, records: u64) -> Stated {
        match kind {
            2 => Stated::points(&DATA_2D, records, count, 6, 2),
            3 | 6 => Stated::points(&DATA_3D, records, count, 4, 3),
            4 => Stated::points(&DATA_NOTE, records, count, 64, 0),
            5 => Stated::points(&DATA_ATTRIBUTE, records, count, 1, 0),
            _ => Stated { layout: None, records, needed: 0, count, a_record: 1, columns: 0 },
        }
    }

    /// The least and the greatest count that the data records that it states can hold, if they hold any.
    pub(crate) fn counts_for_records(&self) -> Option<(u64, u64)> {
        let full = self.records.checked_sub(1).filter(|_| self.layout.is_some())?;
        Some((full * self.a_record + 1, self.records * self.a_record))
    }

    /// How many of its units stand in the data records before the n-th, from 0, and in so many columns of that one.
    pub(crate) fn units(&self, nth: u64, columns: usize) -> u64 {
        nth.saturating_mul(self.a_record) + columns.checked_div(self.columns).unwrap_or(0) as u64
    }

    /// Whether so many columns of a data record end inside one of its units.
    pub(crate) fn ends_inside(&self, columns: usize) -> bool {
        columns.checked_rem(self.columns).is_some_and(|over| over > 0)
    }

    /// How many columns of the n-th data record, from 0, are judged: those of used points; of a note or an attribute all.
    pub fn judged(&self, nth: u64) -> usize {
        let all = self.layout.map_or(0, |l| l.columns.len());
        if self.columns == 0 {
            return all;
        }
        let used = self.count.saturating_sub(nth.saturating_mul(self.a_record)).min(self.a_record);
        (used as usize * self.columns).min(all)
    }
}
