//! Readers of a number column as they are written by hand, and by Rust's library: what the proved reader is measured against. Each has to give the same
//! answers.
//!
//! The proved reader stands behind a call of C, into which the compiler cannot look, and its answer is three words in memory, of which the wrapper makes
//! a `Result` where it is called. The others are called in the same way: one that is inlined into a loop over columns of one width is another program,
//! whose width is known, and whose loop may be unrolled.

use zvaigulta::Refusal;

const MOST_BYTES: usize = 18;

/// An answer as the proved reader gives it: 0 for no refusal.
#[repr(C)]
struct Answer {
    refusal: u64,
    record: usize,
    number: i64,
}

fn number(number: i64) -> Answer {
    Answer { refusal: 0, record: 0, number }
}

fn refused(refusal: u64) -> Answer {
    Answer { refusal, record: 0, number: 0 }
}

/// Only the wrapper makes a refusal, so it is asked for one; no column that is measured is refused.
#[cold]
#[inline(never)]
fn refusal(number: u64) -> Result<i64, Refusal> {
    let column: &[u8] = if number == 16 { b"" } else { b" " };
    zvaigulta::read_column(column)
}

#[inline]
fn result(answer: Answer) -> Result<i64, Refusal> {
    match answer.refusal {
        0 => Ok(answer.number),
        number => refusal(number),
    }
}

fn has_width(column: &[u8]) -> bool {
    !column.is_empty() && column.len() <= MOST_BYTES
}

/// By phases: the spaces, a minus, the digits. What holds of a byte is known from where it is looked at.
#[allow(improper_ctypes_definitions)] // It is called by Rust alone.
#[inline(never)]
extern "C" fn phases(column: &[u8]) -> Answer {
    if !has_width(column) {
        return refused(16);
    }
    let mut rest = column;
    while let [b' ', behind @ ..] = rest {
        rest = behind;
    }
    let (minus, digits) = match rest {
        [b'-', behind @ ..] => (true, behind),
        _ => (false, rest),
    };
    let mut size = 0;
    for byte in digits {
        let digit = byte.wrapping_sub(b'0');
        if digit > 9 {
            return refused(5);
        }
        size = 10 * size + i64::from(digit);
    }
    if digits.is_empty() || (minus && size == 0) {
        return refused(5);
    }
    number(if minus { -size } else { size })
}

/// By flags: one loop, and a match on the byte with what was seen before it.
#[allow(improper_ctypes_definitions)] // It is called by Rust alone.
#[inline(never)]
extern "C" fn flags(column: &[u8]) -> Answer {
    if !has_width(column) {
        return refused(16);
    }
    let (mut blank, mut minus, mut digit) = (true, false, false);
    let mut size = 0;
    for byte in column {
        match byte {
            b' ' if blank => {}
            b'-' if blank => (blank, minus) = (false, true),
            b'0'..=b'9' => {
                (blank, digit) = (false, true);
                size = 10 * size + i64::from(byte - b'0');
            }
            _ => return refused(5),
        }
    }
    if !digit || (minus && size == 0) {
        return refused(5);
    }
    number(if minus { -size } else { size })
}

/// By Rust's library, which takes a plus and a minus before zeros as well: these are refused.
#[allow(improper_ctypes_definitions)] // It is called by Rust alone.
#[inline(never)]
extern "C" fn library(column: &[u8]) -> Answer {
    if !has_width(column) {
        return refused(16);
    }
    let Ok(text) = std::str::from_utf8(column) else { return refused(5) };
    let text = text.trim_start_matches(' ');
    match text.parse() {
        Ok(0) if text.starts_with('-') => refused(5),
        Ok(value) if !text.starts_with('+') => number(value),
        _ => refused(5),
    }
}

/// The loop by phases.
///
/// # Errors
/// As `zvaigulta::read_column`.
#[inline]
pub fn by_phases(column: &[u8]) -> Result<i64, Refusal> {
    result(phases(column))
}

/// The loop by flags.
///
/// # Errors
/// As `zvaigulta::read_column`.
#[inline]
pub fn by_flags(column: &[u8]) -> Result<i64, Refusal> {
    result(flags(column))
}

/// Rust's library.
///
/// # Errors
/// As `zvaigulta::read_column`.
#[inline]
pub fn by_library(column: &[u8]) -> Result<i64, Refusal> {
    result(library(column))
}
