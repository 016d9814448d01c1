//! Files in another form than records of 84 bytes end to end: text with line ends or a byte order mark, EBCDIC, padding.

use super::lines::{mending, notes as line_notes, other_lengths};
use super::{block, near, Fault};
use crate::layout::{Layout, SHEET_A, SHEET_B};
use crate::line_ends::{before_last_end, without_fill};
use crate::outline::{part, Record, Sort};
use crate::text::{number_of, quoted};
use crate::{Counts, FileKind, Form, Reading, Refusal, MOST_RECORDS, RECORD_BYTES};
use std::ops::Range;

/// The form that is recognised, and what to do about it. `refused` is the refused record, if the refusal names one.
pub fn of(bytes: &[u8], refused: Option<usize>) -> Option<String> {
    let lines = || other_lengths(bytes).or_else(|| lines(bytes)).or_else(|| mixed_lines(bytes)).or_else(|| other_lines(bytes));
    let whole = || framed(bytes).or_else(lines).or_else(|| utf_8(bytes));
    start(bytes).or_else(|| last_end(bytes)).or_else(whole).or_else(|| tail(bytes, refused))
}

/// One line end behind plain records, and what takes it away.
pub fn last_end(bytes: &[u8]) -> Option<String> {
    let plain = before_last_end(bytes)?;
    let what = named(bytes.get(plain.len()..)?);
    let command = "take that away by 'dmtool convert FILE --to plain --mend' (or --to lines)";
    Some(format!("behind record {}: nothing but {what}; {}: {command}", plain.len() / RECORD_BYTES, without(plain)))
}

/// By the first bytes.
pub fn start(bytes: &[u8]) -> Option<String> {
    let (seen, advice) = match bytes {
        [0xef, 0xbb, 0xbf, rest @ ..] => {
            let more = lines(rest).or_else(|| tail(rest, None).filter(|_| !rest.len().is_multiple_of(RECORD_BYTES)));
            let behind = more.map_or_else(|| without(rest), |more| format!("then, {more}"));
            return Some(format!("the file starts with a byte order mark (EF BB BF): take it out; {behind}"));
        }
        [0xff, 0xfe, ..] | [0xfe, 0xff, ..] => (
            "the file starts with the byte order mark of UTF-16, two bytes for each letter",
            "save it with one byte for each letter",
        ),
        [b'M' | b'I', 0, b' ', 0, ..] | [0, b'M' | b'I', 0, b' ', ..] => {
            ("the file is in UTF-16, two bytes for each letter", "save it with one byte for each letter")
        }
        [0xd4, 0x40, ..] => ("the file is in EBCDIC: it starts with \"M \" in that code", "have it translated to ASCII"),
        [0xc9, 0x40, ..] => ("the file is in EBCDIC: it starts with \"I \" in that code", "have it translated to ASCII"),
        _ if bytes.get(257..262) == Some(b"ustar") => ("the file is a tar archive", "unpack it first"),
        [b'P', b'K', 3, 4, ..] | [0x1f, 0x8b, ..] => ("the file is packed (ZIP or GZIP)", "unpack it first"),
        _ if mostly_ebcdic(bytes) => {
            ("the file is in EBCDIC: it starts with spaces and digits of that code", "have it translated to ASCII")
        }
        _ => return None,
    };
    Some(format!("{seen}; {advice}"))
}

/// The most bytes before a record, or behind it, that are known as no part of it: lengths of records, quotation marks.
const MOST_AROUND: usize = 8;

/// A sheet with some bytes before each record, and perhaps behind it.
fn framed(bytes: &[u8]) -> Option<String> {
    let fits = |layout: &Layout, start: usize| bytes.get(start..start + RECORD_BYTES).is_some_and(|record| layout.fits(record));
    let starts = |n: &usize| bytes.get(*n..*n + 2) == Some(b"M ") && fits(&SHEET_A, *n);
    let before = (1..=MOST_AROUND).find(starts)?;
    let least = before + RECORD_BYTES;
    let whole = |stride: &usize| bytes.len().is_multiple_of(*stride) && fits(&SHEET_B, stride + before);
    let stride = (least..=least + MOST_AROUND).find(whole)?;
    let plain: Vec<u8> = bytes.chunks(stride).flat_map(|framed| framed.get(before..least).unwrap_or(&[])).copied().collect();
    let behind = match stride - least {
        0 => String::new(),
        n => format!(" and {} behind it", number_of(n as u64, "byte")),
    };
    let around = format!("{} before it{behind}", number_of(before as u64, "byte"));
    Some(format!("every record has {around}, {stride} bytes in all: take these out; {}", without(&plain)))
}

/// Whether two thirds of the first records are the spaces and digits of EBCDIC.
fn mostly_ebcdic(bytes: &[u8]) -> bool {
    let first = bytes.get(..5 * RECORD_BYTES).unwrap_or(bytes);
    let ebcdic = first.iter().filter(|byte| matches!(byte, 0x40 | 0xf0..=0xf9)).count();
    !first.is_empty() && ebcdic * 3 > first.len() * 2
}

/// Text of two bytes a letter (Shift JIS, EUC) that was converted to UTF-8, where most of those letters have three: with two
/// for each the length would be whole records.
fn utf_8(bytes: &[u8]) -> Option<String> {
    let text = std::str::from_utf8(bytes).ok().filter(|text| !text.is_ascii() && text.len() % RECORD_BYTES != 0)?;
    let before: usize = text.chars().map(|letter| if letter.is_ascii() { 1 } else { 2 }).sum();
    let seems = "the file seems to be converted to UTF-8, in which its letters have other lengths; take it as it was before";
    before.is_multiple_of(RECORD_BYTES).then(|| seems.to_string())
}

/// The line ends that text files have.
const LINE_ENDS: [(&[u8], &str); 5] = [
    (b"\r\n", "carriage return and line feed (CR LF)"),
    (b"\n\r", "line feed and carriage return (LF CR), the wrong way round"),
    (b"\r\r\n", "two carriage returns and a line feed (CR CR LF)"),
    (b"\n", "a line feed (LF)"),
    (b"\r", "a carriage return (CR)"),
];

/// Records with a line end behind each, but for the last perhaps; a fill or an end-of-file mark behind them is passed over.
fn lines(bytes: &[u8]) -> Option<String> {
    let text = without_fill(bytes);
    LINE_ENDS.iter().find_map(|(end, name)| line_ends(text, end, name))
}

/// The same for one of the line ends.
fn line_ends(text: &[u8], end: &[u8], name: &str) -> Option<String> {
    let stride = RECORD_BYTES + end.len();
    let ended = text.chunks(stride).take_while(|line| line.get(RECORD_BYTES..) == Some(end)).count();
    let rest = text.len() - (ended * stride).min(text.len());
    let which = match rest {
        _ if ended == 0 => return None,
        0 => "every record ends".to_string(),
        RECORD_BYTES => "every record but the last ends".to_string(),
        // A file that is too long is read in part; its last line is then cut off.
        1..RECORD_BYTES if text.len() > MOST_RECORDS * RECORD_BYTES => "every record ends".to_string(),
        _ if ended > 1 => {
            let next = mending(text).unwrap_or_else(|| "take these out".to_string());
            return Some(format!("records 1 to {ended} end in {name}, record {} does not; {next}", ended + 1));
        }
        _ => return None,
    };
    let plain: Vec<u8> = text.chunks(stride).flat_map(|line| line.get(..RECORD_BYTES).unwrap_or(line)).copied().collect();
    let next = match end {
        // This form is read as well.
        b"\r\n" if rest == 0 => format!("read with line ends {}", judged(&plain)),
        _ => mending(text).unwrap_or_else(|| format!("take the line ends out; {}", without(&plain))),
    };
    Some(format!("{which} in {name}, {stride} bytes in all: {next}"))
}

/// Records with line ends of several kinds, or of which some have none.
fn mixed_lines(bytes: &[u8]) -> Option<String> {
    mending(bytes).map(|_| line_notes(bytes).join("; "))
}

/// What becomes of the file without what does not belong there.
pub fn without(bytes: &[u8]) -> String {
    format!("without that {}", judged(bytes))
}

/// What the judge says of a file, or what is known of a block.
pub fn judged(bytes: &[u8]) -> String {
    let item = Sort::of(bytes).is_some_and(|sort| sort != Sort::Header);
    if item && bytes.len().is_multiple_of(RECORD_BYTES) {
        return match block::judged(bytes) {
            Ok(item) => format!("it is a sound block, {}", item.words()),
            Err(words) => format!("it would be refused as a block: {words}"),
        };
    }
    answered(Reading::in_form(Form::Plain, bytes).judge(bytes))
}

/// An answer of the judge in words.
pub fn answered(judged: Result<Counts, Refusal>) -> String {
    match judged {
        Ok(_) => "the file is accepted".to_string(),
        Err(Refusal { reason, record: Some(record), .. }) => format!("it is refused {} at record {record}", reason.number()),
        Err(refusal) => format!("it is refused {}", refusal.number()),
    }
}

/// Whether the file starts as a sheet, an index, the layers of a sheet or a block.
fn ours(bytes: &[u8]) -> bool {
    bytes.starts_with(b"M ") || bytes.starts_with(b"I ") || Sort::of(bytes).is_some()
}

/// Text in lines that are no records: wrapped at another length, or without the spaces at their ends.
pub fn other_lines(bytes: &[u8]) -> Option<String> {
    let text = bytes.strip_suffix(b"\n").filter(|text| ours(bytes) && text.contains(&b'\n'))?;
    let lines = text.split(|byte| *byte == b'\n').map(|line| line.strip_suffix(b"\r").unwrap_or(line));
    let joined: Vec<u8> = lines.clone().flatten().copied().collect();
    if FileKind::of(&joined).judge(&joined, joined.len()).is_ok() {
        let wrapped = "the file is text in lines that are no records: take the line ends out";
        return Some(format!("{wrapped}; {}", without(&joined)));
    }
    if lines.clone().any(|line| line.len() > RECORD_BYTES) {
        return None;
    }
    let (short, line) = lines.enumerate().find(|(_, line)| line.len() < RECORD_BYTES)?;
    let has = number_of(line.len() as u64, "byte");
    let advice = format!("fill each line with spaces up to {RECORD_BYTES} and judge it again");
    Some(format!("the file is text in lines, and spaces at their ends are lost: line {} has {has}; {advice}", short + 1))
}

/// Bytes at the end that are no text: a fill of NUL, an end-of-file mark, a line end.
fn tail(bytes: &[u8], refused: Option<usize>) -> Option<String> {
    let kept = bytes.iter().rposition(|byte| !matches!(byte, 0 | 0x1a | b'\r' | b'\n')).map_or(0, |last| last + 1);
    let fill = bytes.get(kept..).filter(|fill| !fill.is_empty())?;
    let (record, byte) = (kept / RECORD_BYTES + 1, kept % RECORD_BYTES + 1);
    // Free text may end so as well: the refusal must be one of these bytes', or of records that an index does not state.
    // In a file of another type nothing is known of its end.
    let blamed = refused.is_none_or(|refused| record <= refused || part(bytes).len() < record && refused == 1)
        && (kept == 0 || ours(bytes));
    let what = named(fill);
    match byte {
        _ if !blamed => None,
        _ if kept == 0 => Some(format!("the file holds nothing but {what}")),
        1 => Some(format!("behind record {}: nothing but {what}; {}", record - 1, without(bytes.get(..kept)?))),
        _ if fill.len() > 1 => Some(format!("from byte {byte} of record {record} on: nothing but {what}; that part is lost")),
        _ => None,
    }
}

/// Fill bytes in words.
pub fn named(fill: &[u8]) -> String {
    let count = fill.len() as u64;
    match fill {
        [0x1a] => "an end-of-file mark (the byte 1A)".to_string(),
        [0x1a, ..] => format!("an end-of-file mark (the byte 1A) and {}", number_of(count - 1, "fill byte")),
        [b'\r', b'\n'] | [b'\n'] | [b'\r'] | [b'\n', b'\r'] | [b'\r', b'\r', b'\n'] => "a line end".to_string(),
        fill if fill.iter().all(|byte| *byte == 0) => number_of(count, "NUL byte"),
        fill => format!("{}, {}", number_of(count, "fill byte"), quoted(fill.get(..8).unwrap_or(fill))),
    }
}

/// A record that holds one byte alone.
pub fn blank(named: &Record) -> Option<String> {
    let first = named.bytes.first()?;
    let what = match first {
        b' ' => "spaces".to_string(),
        0 => "NUL bytes".to_string(),
        other => format!("the byte {}", quoted(&[*other])),
    };
    let alone = named.bytes.iter().all(|byte| byte == first);
    alone.then(|| format!("record {} holds nothing but {what}: what stood there is lost", named.number))
}

/// Bytes of a file that seem lost: all of them NUL, or spaces.
pub struct Hole {
    place: Range<usize>,
    pub nul: bool,
}

impl Hole {
    /// The one that takes in a column at fault of a record: NUL bytes side by side, or spaces over a record's length. What
    /// reaches to the end of the file is a fill.
    pub fn at(bytes: &[u8], named: &Record, faults: &[Fault]) -> Option<Hole> {
        let start = (named.number - 1) * RECORD_BYTES;
        let column = |fault: &Fault| {
            let column = named.layout.and_then(|layout| layout.column(fault.column));
            column.map_or(0..2, |column| column.start..column.start + column.width)
        };
        let mut places = faults.iter().filter(|fault| fault.record == named.number).flat_map(column);
        places.find_map(|byte| Hole::around(bytes, start + byte)).filter(|hole| hole.place.end < bytes.len())
    }

    /// The same around one byte.
    fn around(bytes: &[u8], at: usize) -> Option<Hole> {
        let byte = *bytes.get(at).filter(|byte| matches!(byte, 0 | b' '))?;
        let from = bytes.get(..at)?.iter().rposition(|other| *other != byte).map_or(0, |last| last + 1);
        let to = at + bytes.get(at..)?.iter().take_while(|other| **other == byte).count();
        let least = if byte == 0 { 2 } else { RECORD_BYTES };
        (to - from >= least).then_some(Hole { place: from..to, nul: byte == 0 })
    }

    /// Whether it is one record, which `blank` tells; among spaces those before and behind it may belong to other records.
    pub fn is_record(&self) -> bool {
        let whole = (self.place.end / RECORD_BYTES).saturating_sub(self.place.start.div_ceil(RECORD_BYTES));
        whole == 1 && (!self.nul || self.place.len() == RECORD_BYTES)
    }

    /// Where it is, in a form of the file.
    pub fn words(&self, form: Form) -> String {
        let at = |byte: usize| format!("byte {} of record {}", byte % RECORD_BYTES + 1, byte / RECORD_BYTES + 1);
        let in_file = |byte: usize| byte / RECORD_BYTES * form.record_bytes() + byte % RECORD_BYTES + 1;
        let (from, to) = (self.place.start, self.place.end - 1);
        // Spaces may also be right there, in texts.
        let (what, lost) = if self.nul { ("NUL bytes", "is lost") } else { ("spaces", "may be lost") };
        let records = format!("from {} to {}", at(from), at(to));
        format!("bytes {} to {} of the file are {what}, {records}: what stood there {lost}", in_file(from), in_file(to))
    }
}

/// Records of spaces alone from the refused one to the end.
pub fn blank_end(bytes: &[u8], refused: usize) -> Option<String> {
    let last = bytes.len() / RECORD_BYTES;
    let which = if refused == last { format!("record {last} holds") } else { format!("records {refused} to {last} hold") };
    near::filled(bytes, refused, b' ').then(|| format!("{which} spaces alone, to the end of the file: a fill; take it out"))
}
