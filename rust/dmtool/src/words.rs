//! The words of a line of the batch protocol.

use std::str::SplitAsciiWhitespace;

/// The words of a line, from the first that is not yet taken.
pub struct Words<'a>(SplitAsciiWhitespace<'a>);

/// A word for a message, cut where it is long.
fn cut(word: &str) -> String {
    match word.char_indices().nth(40) {
        Some((end, _)) => format!("{}...", &word[..end]),
        None => word.to_string(),
    }
}

impl<'a> Words<'a> {
    pub fn of(line: &'a str) -> Words<'a> {
        Words(line.split_ascii_whitespace())
    }

    /// The next word; `what` it should be.
    pub fn word(&mut self, what: &str) -> Result<&'a str, String> {
        self.0.next().ok_or_else(|| format!("{what} is missing"))
    }

    /// A decimal number that fits its type, without a plus sign.
    fn number<T: std::str::FromStr>(&mut self, what: &str) -> Result<T, String> {
        let word = self.word(what)?;
        let digits = word.strip_prefix('-').unwrap_or(word).bytes().all(|b| b.is_ascii_digit());
        let number = if digits { word.parse().ok() } else { None };
        number.ok_or_else(|| format!("{what} is no number of its size: {}", cut(word)))
    }

    /// A signed 64-bit number.
    pub fn signed(&mut self, what: &str) -> Result<i64, String> {
        self.number(what)
    }

    /// An unsigned 64-bit number.
    pub fn unsigned(&mut self, what: &str) -> Result<u64, String> {
        self.number(what)
    }

    /// A unit or a width: any 64-bit number of either sign. One below 0 is never allowed, and neither is 0, by which it is asked.
    pub fn allowed_or_not(&mut self, what: &str) -> Result<u64, String> {
        let mut signed = Words(self.0.clone());
        match signed.signed(what) {
            Ok(n) if n < 0 => {
                *self = signed;
                Ok(0)
            }
            _ => self.unsigned(what),
        }
    }

    /// A length, place or record number. One too large for this machine is as good as its largest: no buffer reaches it.
    pub fn size(&mut self, what: &str) -> Result<usize, String> {
        self.unsigned(what).map(|n| usize::try_from(n).unwrap_or(usize::MAX))
    }

    /// Bytes in lower-case hex, `-` for none.
    pub fn bytes(&mut self, what: &str) -> Result<Vec<u8>, String> {
        let word = self.word(what)?;
        if word == "-" {
            return Ok(Vec::new());
        }
        let pairs = word.as_bytes().chunks(2).map(|pair| match pair {
            [high, low] => Some(digit(*high)? * 16 + digit(*low)?),
            _ => None,
        });
        pairs.collect::<Option<_>>().ok_or_else(|| format!("{what} is not in lower-case hex: {}", cut(word)))
    }

    /// Nothing may be left.
    pub fn end(mut self) -> Result<(), String> {
        match self.0.next() {
            Some(word) => Err(format!("a word too many: {}", cut(word))),
            None => Ok(()),
        }
    }
}

fn digit(byte: u8) -> Option<u8> {
    match byte {
        b'0'..=b'9' => Some(byte - b'0'),
        b'a'..=b'f' => Some(byte - b'a' + 10),
        _ => None,
    }
}

/// Bytes as the protocol writes them.
pub fn hex(bytes: &[u8]) -> String {
    const DIGITS: &[u8; 16] = b"0123456789abcdef";
    if bytes.is_empty() {
        return "-".to_string();
    }
    let digits = |byte: &u8| [DIGITS[usize::from(byte >> 4)], DIGITS[usize::from(byte & 15)]].map(char::from);
    bytes.iter().flat_map(digits).collect()
}

#[cfg(test)]
mod tests {
    use super::*;

    #[test]
    fn numbers_to_their_ends_and_no_further() {
        let mut words =
            Words::of("9223372036854775807 -9223372036854775808 9223372036854775808 -9223372036854775809 +1 -0 007 1e3 - 0x1");
        assert_eq!(words.signed("n"), Ok(i64::MAX));
        assert_eq!(words.signed("n"), Ok(i64::MIN));
        assert!(words.signed("n").is_err() && words.signed("n").is_err() && words.signed("n").is_err());
        assert_eq!((words.signed("n"), words.signed("n")), (Ok(0), Ok(7)));
        assert!(words.signed("n").is_err() && words.signed("n").is_err() && words.signed("n").is_err());
        let mut words = Words::of("18446744073709551615 18446744073709551616 -1");
        assert_eq!(words.unsigned("n"), Ok(u64::MAX));
        assert!(words.unsigned("n").is_err() && words.unsigned("n").is_err());
        assert_eq!(words.unsigned("n"), Err("n is missing".to_string()));
        let mut words = Words::of("-1 18446744073709551615 -9223372036854775809 10");
        assert_eq!((words.allowed_or_not("n"), words.allowed_or_not("n")), (Ok(0), Ok(u64::MAX)));
        assert!(words.allowed_or_not("n").is_err());
        assert_eq!(words.allowed_or_not("n"), Ok(10));
    }

    #[test]
    fn bytes_there_and_back() {
        let all: Vec<u8> = (0..=255).collect();
        assert_eq!(Words::of(&hex(&all)).bytes("b"), Ok(all));
        assert_eq!(Words::of("-").bytes("b"), Ok(Vec::new()));
        assert_eq!(hex(&[]), "-");
        for wrong in ["0", "0g", "AB", "0x00", "--", "é0"] {
            assert!(Words::of(wrong).bytes("b").is_err(), "{wrong}");
        }
    }
}
