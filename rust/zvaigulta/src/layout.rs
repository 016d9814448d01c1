//! The nineteen record layouts of document 01, and two of each edition of a directory: each column's name, place, width and what may stand in it.
//!
//! The library judges; this module says where its columns lie, for programs that show or explain a record.
//!
//! ```
//! use zvaigulta::layout::HEADER;
//!
//! let record = b"H 2100 0   0   0 1    1    0    0    1    0    0    0    0    0    002408         0 ";
//! let total = HEADER.column("total").unwrap();
//! assert_eq!((total.start, total.width), (18, 5));
//! assert_eq!(HEADER.value("total", record), Some(1));
//! ```

mod body;
mod build;
mod directory;
mod parts;

pub use body::*;
pub use directory::*;
pub use parts::*;

use std::fmt;

/// Which numbers an integer column may hold.
#[derive(Clone, Copy, Debug, PartialEq, Eq)]
pub enum Allowed {
    /// Any sign, any size that fits.
    AnySign,
    /// This number or more.
    AtLeast(i64),
    /// From the first number to the second.
    Between(i64, i64),
    /// One of a list.
    OneOf(&'static [i64]),
}

impl Allowed {
    /// Whether a number is allowed.
    pub fn holds(self, value: i64) -> bool {
        match self {
            Allowed::AnySign => true,
            Allowed::AtLeast(least) => least <= value,
            Allowed::Between(least, most) => least <= value && value <= most,
            Allowed::OneOf(list) => list.contains(&value),
        }
    }
}

/// In words: `0 or more`, `1 to 9`, `one of 0, 2, 3`.
impl fmt::Display for Allowed {
    fn fmt(&self, f: &mut fmt::Formatter<'_>) -> fmt::Result {
        match self {
            Allowed::AnySign => f.write_str("any sign"),
            Allowed::AtLeast(least) => write!(f, "{least} or more"),
            Allowed::Between(least, most) if least == most => write!(f, "{least}"),
            Allowed::Between(least, most) => write!(f, "{least} to {most}"),
            Allowed::OneOf(list) => {
                let words: Vec<String> = list.iter().map(i64::to_string).collect();
                write!(f, "one of {}", words.join(", "))
            }
        }
    }
}

/// What stands in a column.
#[derive(Clone, Copy, Debug, PartialEq, Eq)]
pub enum Content {
    /// Text (A), not judged.
    Text,
    /// Blank (X), not judged but in a directory.
    Blank,
    /// An integer (I).
    Integer(Allowed),
    /// An integer of any sign, or spaces: the element's value column alone.
    IntegerOrSpaces,
}

/// A column of a layout.
#[derive(Clone, Copy, Debug, PartialEq, Eq)]
pub struct Column {
    /// Its name; no layout has a name twice, but for the blanks that are not judged, which have none.
    pub name: &'static str,
    /// The byte of the record at which it starts, from 0.
    pub start: usize,
    /// Its bytes.
    pub width: usize,
    /// What stands in it.
    pub content: Content,
}

impl Column {
    /// Its bytes in a record; none where the record is too short.
    pub fn bytes<'a>(&self, record: &'a [u8]) -> &'a [u8] {
        record.get(self.start..self.start + self.width).unwrap_or(&[])
    }

    /// Its number in a record, read by the proved reader: `None` where the column is malformed or the record too short.
    pub fn value(&self, record: &[u8]) -> Option<i64> {
        crate::read_column(self.bytes(record)).ok()
    }

    /// Whether the column is malformed (refusal 5). Text and blanks never are.
    pub fn is_malformed(&self, record: &[u8]) -> bool {
        match self.content {
            Content::Text | Content::Blank => false,
            Content::Integer(_) => self.value(record).is_none(),
            Content::IntegerOrSpaces => !self.is_spaces(record) && self.value(record).is_none(),
        }
    }

    /// Whether the column holds a number outside its own range or list (refusal 6).
    pub fn is_outside(&self, record: &[u8]) -> bool {
        match (self.content, self.value(record)) {
            (Content::Integer(allowed), Some(value)) => !allowed.holds(value),
            _ => false,
        }
    }

    /// Whether spaces alone stand in the column.
    pub fn is_spaces(&self, record: &[u8]) -> bool {
        self.bytes(record).iter().all(|byte| *byte == b' ')
    }
}

/// A record layout: its columns add up to 84 bytes.
#[derive(Debug, PartialEq, Eq)]
pub struct Layout {
    /// Its name.
    pub name: &'static str,
    /// Its columns, in order, without a gap.
    pub columns: &'static [Column],
}

impl Layout {
    /// The column of a name.
    pub fn column(&self, name: &str) -> Option<&'static Column> {
        self.columns.iter().find(|column| column.name == name)
    }

    /// The number in the column of a name: `None` where there is no such column or it is malformed.
    pub fn value(&self, name: &str, record: &[u8]) -> Option<i64> {
        self.column(name)?.value(record)
    }

    /// Whether every column of a record is well formed and inside its own range or list. The type is text and has no say.
    pub fn fits(&self, record: &[u8]) -> bool {
        !self.columns.iter().any(|column| column.is_malformed(record) || column.is_outside(record))
    }
}

/// The nineteen layouts, in the order of document 01.
pub static ALL: [&Layout; 19] = [
    &INDEX_A,
    &INDEX_B,
    &INDEX_C,
    &SHEET_A,
    &SHEET_B,
    &SHEET_C,
    &SHEET_D,
    &SHEET_E,
    &SHEET_F,
    &HEADER,
    &ELEMENT,
    &GRID_HEADER,
    &NET_HEADER,
    &DATA_3D,
    &DATA_2D,
    &DATA_NOTE,
    &DATA_ATTRIBUTE,
    &DATA_GRID,
    &DATA_NET,
];
