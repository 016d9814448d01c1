//! Document 01, and the orders of document 02 that are landed, once more, in plain Rust, for tests alone.
//!
//! It shares no code and no definitions with the proved library: the layouts are written down anew, a
//! sheet is judged over a vector of records, and an edit works on that vector. It prefers the paper's
//! wording to speed. The vectors under `crates/*/stdin` and the differential tests take their answers
//! from here.

pub mod calls;
pub mod column;
pub mod corner;
pub mod directory;
pub mod directory_calls;
pub mod edit;
pub mod judge;
pub mod layout;
pub mod line_calls;
pub mod lines;
pub mod normal;
pub mod protocol;
pub mod random;
pub mod record;
pub mod sheets;
pub mod vectors;
pub mod way_up;

/// A refusal: the paper's number and the record, 0 where it names none.
#[derive(Clone, Copy, Debug, PartialEq, Eq)]
pub struct Refusal {
    pub number: u8,
    pub record: usize,
}

/// Shorthand for a refusal.
pub fn refuse<T>(number: u8, record: usize) -> Result<T, Refusal> {
    Err(Refusal { number, record })
}

/// Bytes of a record.
pub const RECORD: usize = 84;

/// The most records that a file may have.
pub const MOST_RECORDS: usize = 200_000;

/// Writes a result to the front of a buffer and answers its length: "a buffer is too short for the result" is 15, and the rest stays.
fn put(buffer: &mut [u8], result: &[u8]) -> Result<usize, Refusal> {
    if buffer.len() < result.len() {
        return refuse(15, 0);
    }
    buffer[..result.len()].copy_from_slice(result);
    Ok(result.len())
}

/// A digest of bytes: each counts 31 times for each byte behind it, modulo a prime.
pub fn digest(bytes: &[u8]) -> u64 {
    bytes.iter().fold(0, |h, b| (h * 31 + u64::from(*b)) % 4_294_967_291)
}

/// What the program prints for its standard input, without the line end.
pub fn program(input: &[u8]) -> String {
    if input.len() > 65_520 {
        return "too long".to_string();
    }
    let answer = if input.starts_with(b"I ") { judge::index(input, input.len()) } else { judge::sheet(input, input.len()) };
    match answer {
        Ok(c) => format!("accepted {} records {} items", c.records, c.items),
        Err(r) => format!("refused {} at record {}", r.number, r.record),
    }
}
