//! Integer columns: what their bytes say, and the written form.

use crate::{refuse, Refusal};

/// What an integer column says.
#[derive(Clone, Copy, Debug, PartialEq, Eq)]
pub enum Column {
    Value(i64),
    MinusZero,
    Malformed,
}

/// Leading spaces, at most one minus, one digit or more to the last byte. At most 18 bytes.
pub fn parse(bytes: &[u8]) -> Column {
    let text: Vec<u8> = bytes.iter().copied().skip_while(|b| *b == b' ').collect();
    let (minus, digits) = match text.split_first() {
        Some((b'-', rest)) => (true, rest),
        _ => (false, &text[..]),
    };
    if digits.is_empty() || !digits.iter().all(u8::is_ascii_digit) {
        return Column::Malformed;
    }
    let size: i64 = std::str::from_utf8(digits).unwrap().parse().unwrap();
    match (minus, size) {
        (true, 0) => Column::MinusZero,
        (true, n) => Column::Value(-n),
        (false, n) => Column::Value(n),
    }
}

/// A column read alone.
pub fn read(bytes: &[u8]) -> Result<i64, Refusal> {
    if bytes.is_empty() || bytes.len() > 18 {
        return refuse(16, 0);
    }
    match parse(bytes) {
        Column::Value(n) => Ok(n),
        _ => refuse(5, 0),
    }
}

/// A number written to a column of a width: shortest digits, spaces in front.
pub fn write(width: usize, value: i64) -> Result<Vec<u8>, Refusal> {
    let text = value.to_string();
    if width == 0 || width > 18 || text.len() > width {
        return refuse(16, 0);
    }
    Ok(format!("{text:>width$}").into_bytes())
}

/// So many seven-byte columns from a start lie whole in the bytes, and each is well formed.
pub fn formed(bytes: &[u8], start: u64, count: u64) -> bool {
    let end = u128::from(start) + u128::from(count) * 7;
    if end > bytes.len() as u128 {
        return false;
    }
    bytes[start as usize..end as usize].chunks(7).all(|c| matches!(parse(c), Column::Value(_)))
}
