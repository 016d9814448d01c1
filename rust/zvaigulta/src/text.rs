//! Bytes of a file for people to read.

/// Characters with the control characters escaped, so that they stay on one line.
pub fn shown(chars: impl Iterator<Item = char>) -> String {
    chars.map(|c| if c.is_control() { c.escape_default().to_string() } else { c.to_string() }).collect()
}

/// Bytes in quotation marks: printable ASCII as it is, the others as `\x8f`. The tool knows no character set.
pub fn quoted(bytes: &[u8]) -> String {
    let mut text = String::from("\"");
    for byte in bytes {
        match byte {
            b'"' | b'\\' => text.extend(['\\', char::from(*byte)]),
            b' '..=b'~' => text.push(char::from(*byte)),
            other => text.push_str(&format!("\\x{other:02x}")),
        }
    }
    text.push('"');
    text
}

/// The same without the spaces at the end.
pub fn quoted_short(bytes: &[u8]) -> String {
    let end = bytes.iter().rposition(|b| *b != b' ').map_or(0, |n| n + 1);
    quoted(bytes.get(..end).unwrap_or(bytes))
}

/// A name with its article: `a point E5`, `an area E1`.
pub(crate) fn with_article(name: &str) -> String {
    let article = if name.starts_with(['a', 'e', 'i', 'o', 'u']) { "an" } else { "a" };
    format!("{article} {name}")
}

/// A number of things: `1 data record`, `2 data records`.
pub fn number_of(count: u64, thing: &str) -> String {
    format!("{count} {thing}{}", if count == 1 { "" } else { "s" })
}
