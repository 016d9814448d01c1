//! Refusals: the number, its meaning in words, and the record.

use std::fmt;

/// Why a call refused: document 01's seventeen numbers, and of document 02 18 (order 1), 19 (order 5) and 27 (order 13).
///
/// ```
/// use zvaigulta::Reason;
///
/// assert_eq!(Reason::from_number(10), Reason::Count);
/// assert_eq!(Reason::Count.number(), 10);
/// assert_eq!(Reason::Count.to_string(), "a count differs from what the file holds");
/// // A number that this edition does not know is kept, and never a panic.
/// assert_eq!(Reason::from_number(99).number(), 99);
/// ```
#[derive(Clone, Copy, Debug, PartialEq, Eq, Hash)]
#[non_exhaustive]
pub enum Reason {
    /// 1: the used length is 0, above the buffer, not a multiple of 84 (of a file with line ends: 86), or above 200,000 records.
    Length,
    /// 2: record 1 does not start with the asked type.
    FileType,
    /// 3: a needed record is missing. The record is the item's header; in the sheet part or an index, 1.
    MissingRecord,
    /// 4: not H, E1 to E8, G or T where one is due.
    RecordType,
    /// 5: an integer column is malformed.
    Malformed,
    /// 6: an integer outside its range or list; the unit against the level; the f count; a note's direction; the b count.
    OutsideRange,
    /// 7: a level rule is broken.
    Level,
    /// 8: a data rule is broken.
    DataRule,
    /// 9: a corner's fraction is too large or of opposite sign.
    Fraction,
    /// 10: a count differs, or an index has records left over.
    Count,
    /// 11: the edit's place is no start of an item or header, nor, for an insertion, one past the end; or a removal at a header.
    Place,
    /// 12: the block is not exactly one sound item with a level from 2 to 9.
    Block,
    /// 13: the block's level does not go with the place.
    BlockLevel,
    /// 14: a header's total would pass 99,999, its grid and net count 9, or the file 200,000 records.
    Limit,
    /// 15: a buffer is too short for the result.
    Room,
    /// 16: a number does not fit the width, a width or unit is not allowed, or a corner cannot be split.
    Number,
    /// 17: the record number is outside the file, or in the sheet part; or the sheet has no layer of the number to jump to.
    RecordNumber,
    /// 18: a record of a file with line ends does not end in carriage return and line feed.
    LineEnd,
    /// 19: the directory of layers is missing, or differs from the right one. The record is the last one where that is no well-formed `ZE` with a
    /// pointer from 1 to its own number, else the first that differs. Calls that read either edition take a well-formed `YE` as well.
    Directory,
    /// 27: the last record starts `YE`, as in the second edition of a directory, but its edition column is not 2 in written form. The record is the last.
    Edition,
    /// A number that is not among 1 to 19 and 27, from a later edition of the library.
    Other(u64),
}

/// The reasons in the order of their numbers.
const REASONS: [Reason; 20] = [
    Reason::Length,
    Reason::FileType,
    Reason::MissingRecord,
    Reason::RecordType,
    Reason::Malformed,
    Reason::OutsideRange,
    Reason::Level,
    Reason::DataRule,
    Reason::Fraction,
    Reason::Count,
    Reason::Place,
    Reason::Block,
    Reason::BlockLevel,
    Reason::Limit,
    Reason::Room,
    Reason::Number,
    Reason::RecordNumber,
    Reason::LineEnd,
    Reason::Directory,
    Reason::Edition,
];

impl Reason {
    /// The reason of a number; [`Reason::Other`] for one that is not among 1 to 19 and 27.
    pub fn from_number(number: u64) -> Reason {
        REASONS.into_iter().find(|reason| reason.number() == number).unwrap_or(Reason::Other(number))
    }

    /// Its number on paper.
    pub fn number(self) -> u64 {
        self.number_and_words().0
    }

    fn number_and_words(self) -> (u64, &'static str) {
        match self {
            Reason::Length => (1, "the length is 0, above the buffer, no multiple of 84 (lines: 86) or above 200,000 records"),
            Reason::FileType => (2, "record 1 does not start with the type that was asked for"),
            Reason::MissingRecord => (3, "a record that is needed is missing"),
            Reason::RecordType => (4, "the record is not H, E1 to E8, G or T, where one of these is due"),
            Reason::Malformed => (5, "an integer column is malformed"),
            Reason::OutsideRange => (6, "an integer is outside its range, or does not go with another column"),
            Reason::Level => (7, "the level is not allowed here"),
            Reason::DataRule => (8, "the data kind, counts and records do not go together"),
            Reason::Fraction => (9, "a corner's fraction is too large or of opposite sign to its whole"),
            Reason::Count => (10, "a count differs from what the file holds"),
            Reason::Place => (11, "the place is no start of an item (for an insertion: nor of a header, nor one past the end)"),
            Reason::Block => (12, "the block is not exactly one sound item with a level from 2 to 9"),
            Reason::BlockLevel => (13, "the block's level does not go with the place"),
            Reason::Limit => (14, "a header's total, its grid and net count or the file's records would pass their limit"),
            Reason::Room => (15, "the buffer is too short for the result"),
            Reason::Number => (16, "the number does not fit, the width or unit is not allowed, or the corner cannot be split"),
            Reason::RecordNumber => (17, "the record number is outside the file or in the sheet part, or there is no such layer"),
            Reason::LineEnd => (18, "a record does not end in carriage return and line feed"),
            Reason::Directory => (19, "the directory of layers is missing, or differs here from the right one"),
            Reason::Edition => (27, "the edition column of the directory of layers is not 2 in written form"),
            Reason::Other(number) => (number, "this edition of the wrapper does not know the number"),
        }
    }
}

impl fmt::Display for Reason {
    fn fmt(&self, f: &mut fmt::Formatter<'_>) -> fmt::Result {
        f.write_str(self.number_and_words().1)
    }
}

/// A refused call: the reason, and the record that it names. Every lent buffer is then as before the call.
///
/// ```
/// use zvaigulta::{judge_sheet, read_column, EXAMPLE};
///
/// let refusal = judge_sheet(EXAMPLE, 8 * 84).unwrap_err();
/// assert_eq!((refusal.number(), refusal.record), (3, Some(7)));
/// assert_eq!(refusal.to_string(), "refused 3 at record 7: a record that is needed is missing");
///
/// let refusal = read_column(b"12  ").unwrap_err();
/// assert_eq!((refusal.number(), refusal.record), (5, None));
/// assert_eq!(refusal.to_string(), "refused 5: an integer column is malformed");
/// ```
#[derive(Clone, Copy, Debug, PartialEq, Eq, Hash)]
#[non_exhaustive]
pub struct Refusal {
    /// Why.
    pub reason: Reason,
    /// The record, numbered from 1; `None` where the refusal names none (0 on paper).
    pub record: Option<usize>,
}

impl Refusal {
    /// The reason's number on paper.
    pub fn number(&self) -> u64 {
        self.reason.number()
    }
}

impl fmt::Display for Refusal {
    fn fmt(&self, f: &mut fmt::Formatter<'_>) -> fmt::Result {
        match self.record {
            Some(record) => write!(f, "refused {} at record {record}: {}", self.number(), self.reason),
            None => write!(f, "refused {}: {}", self.number(), self.reason),
        }
    }
}

impl std::error::Error for Refusal {}

#[cfg(test)]
mod tests {
    use super::{Reason, REASONS};

    #[test]
    fn every_number_has_its_reason() {
        for (reason, number) in REASONS.iter().zip((1..=19).chain([27])) {
            assert_eq!(reason.number(), number);
            assert_eq!(Reason::from_number(number), *reason);
        }
        for number in [0, 20, 26, 28, 255, 256, u64::MAX] {
            assert_eq!(Reason::from_number(number), Reason::Other(number));
        }
    }
}
