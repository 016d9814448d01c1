//! Order 1 of document 02: files whose records end in carriage return and line feed.

use crate::judge::{self, Counts};
use crate::{put, refuse, Refusal, MOST_RECORDS, RECORD};

/// What ends each record: carriage return and line feed.
pub const END: [u8; 2] = [13, 10];

/// Bytes of a record with its line end.
pub const LINE: usize = 86;

/// The records without their ends. "1 reads multiples of 86 where this form is read; 18, a record not ending in 13, 10, directly after 1
/// with the first such record".
fn records(buffer: &[u8], used: usize) -> Result<Vec<&[u8]>, Refusal> {
    if used == 0 || used > buffer.len() || !used.is_multiple_of(LINE) || used / LINE > MOST_RECORDS {
        return refuse(1, 0);
    }
    let lines = buffer[..used].chunks(LINE);
    match lines.clone().position(|line| !line.ends_with(&END)) {
        Some(place) => refuse(18, place + 1),
        None => Ok(lines.map(|line| &line[..RECORD]).collect()),
    }
}

/// The plain twin: the same records without line ends.
fn twin(buffer: &[u8], used: usize) -> Result<Vec<u8>, Refusal> {
    records(buffer, used).map(|records| records.concat())
}

/// Judges a sheet with line ends: "otherwise answers as for the plain twin".
pub fn sheet(buffer: &[u8], used: usize) -> Result<Counts, Refusal> {
    let twin = twin(buffer, used)?;
    judge::sheet(&twin, twin.len())
}

/// Judges an index with line ends.
pub fn index(buffer: &[u8], used: usize) -> Result<Counts, Refusal> {
    let twin = twin(buffer, used)?;
    judge::index(&twin, twin.len())
}

/// Writes a plain file with line ends: "refuse by 1, 18 and 15 only, answer the result's length, and leave the target past it as it stood".
pub fn to_lines(buffer: &[u8], used: usize, target: &mut [u8]) -> Result<usize, Refusal> {
    let records = judge::records(buffer, used)?;
    put(target, &with_ends(&records.concat()))
}

/// Writes a file with line ends plain.
pub fn from_lines(buffer: &[u8], used: usize, target: &mut [u8]) -> Result<usize, Refusal> {
    put(target, &twin(buffer, used)?)
}

/// The bytes of whole records, each with its line end behind it.
pub fn with_ends(plain: &[u8]) -> Vec<u8> {
    plain.chunks(RECORD).flat_map(|record| [record, &END].concat()).collect()
}
