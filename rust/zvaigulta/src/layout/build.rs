//! Columns as document 01 writes them, and their starts: the sum of the widths before each. The compiler tests that each layout ends at 84.

use super::{Allowed, Column, Content};
use crate::RECORD_BYTES;

/// A: text.
pub const fn a(name: &'static str, width: usize) -> Column {
    Column { name, start: 0, width, content: Content::Text }
}

/// X: blank.
pub const fn x(width: usize) -> Column {
    Column { name: "", start: 0, width, content: Content::Blank }
}

/// Spaces that are judged, and so have a name.
pub const fn named_blank(name: &'static str, width: usize) -> Column {
    Column { name, start: 0, width, content: Content::Blank }
}

const fn integer(name: &'static str, width: usize, allowed: Allowed) -> Column {
    Column { name, start: 0, width, content: Content::Integer(allowed) }
}

/// "Integers are at least 0 unless said."
pub const fn i(name: &'static str, width: usize) -> Column {
    integer(name, width, Allowed::AtLeast(0))
}

pub const fn at_least_1(name: &'static str, width: usize) -> Column {
    integer(name, width, Allowed::AtLeast(1))
}

pub const fn any(name: &'static str, width: usize) -> Column {
    integer(name, width, Allowed::AnySign)
}

pub const fn between(name: &'static str, width: usize, least: i64, most: i64) -> Column {
    integer(name, width, Allowed::Between(least, most))
}

pub const fn one_of(name: &'static str, width: usize, list: &'static [i64]) -> Column {
    integer(name, width, Allowed::OneOf(list))
}

/// The value column: an integer of any sign, or spaces.
pub const fn integer_or_spaces(name: &'static str, width: usize) -> Column {
    Column { name, start: 0, width, content: Content::IntegerOrSpaces }
}

/// The same columns with their starts.
pub const fn laid<const N: usize>(mut columns: [Column; N]) -> [Column; N] {
    let mut start = 0;
    let mut n = 0;
    while n < N {
        columns[n].start = start;
        start += columns[n].width;
        n += 1;
    }
    assert!(start == RECORD_BYTES);
    columns
}

/// Twelve columns of seven bytes, of any sign.
pub const fn twelve(names: [&'static str; 12]) -> [Column; 12] {
    let mut columns = [x(7); 12];
    let mut n = 0;
    while n < 12 {
        columns[n] = any(names[n], 7);
        n += 1;
    }
    laid(columns)
}
