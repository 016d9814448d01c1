//! 3 and 10 of an index: its b and c records against what is there.

use super::{fault, form, near, Fault};
use crate::layout::{INDEX_A, INDEX_C};
use crate::outline::{natural, part, record};
use crate::text::number_of;
use crate::RECORD_BYTES;

/// The two columns that state how many records there are, and how many are there.
pub fn stated(bytes: &[u8]) -> [Fault; 2] {
    let number = |column| natural(&INDEX_A, column, record(bytes, 1));
    let (b, c, sheets) = (number("b records"), number("c records"), number("sheets"));
    let behind = (bytes.len() / RECORD_BYTES).saturating_sub(1) as u64;
    let b_words = match behind < b {
        true => format!("states {b}, the file holds {behind}"),
        false => format!("states {b}, as is due for {}", number_of(sheets, "sheet")),
    };
    let c_words = format!("states {c}, the file holds {} behind the b records", behind.saturating_sub(b));
    [fault(1, "b records", b_words), fault(1, "c records", c_words)]
}

/// Where a record may be lost.
pub fn missing(bytes: &[u8]) -> String {
    let there = bytes.len() / RECORD_BYTES;
    let b = natural(&INDEX_A, "b records", record(bytes, 1)) as usize;
    let taken = (2..=there.min(b + 1)).find(|number| INDEX_C.fits(record(bytes, *number)));
    let next = part(bytes).get(there).map_or("", |layout| layout.name);
    match taken {
        Some(number) => format!("record {number} reads as index c, where index b is due: a b record may be lost before it"),
        None => format!("the file ends after record {there}, where {next} is due as record {}", there + 1),
    }
}

/// What the records are that stand behind those that are stated.
pub fn left_over(bytes: &[u8]) -> String {
    let (due, there) = (part(bytes).len(), bytes.len() / RECORD_BYTES);
    let left = if due + 1 == there { format!("record {there}") } else { format!("records {} to {there}", due + 1) };
    let look = || format!("look at {left}, behind what is stated: take out what does not belong there, or mend the counts");
    form::blank_end(bytes, due + 1).or_else(|| near::file_start(bytes, due + 1)).unwrap_or_else(look)
}
