//! The two forms of a file: records end to end, or with a line end behind each.

use crate::line_ends::{crlf, reads_as_plain};
use crate::{from_lines, to_lines, Refusal, LINE_RECORD_BYTES, MOST_RECORDS, RECORD_BYTES};
use std::borrow::Cow;
use std::fmt;

/// What stands behind each record of a file with line ends: carriage return and line feed.
pub const LINE_END: &[u8; 2] = b"\r\n";

/// How the records of a file stand in it.
///
/// ```
/// use zvaigulta::{FileKind, Form, EXAMPLE};
///
/// assert_eq!(Form::of(EXAMPLE), Form::Plain);
/// let file = Form::Lines.file(EXAMPLE)?;
/// assert_eq!((Form::of(&file), file.len()), (Form::Lines, 9 * 86));
/// assert_eq!(FileKind::of(&file).judge_in(Form::of(&file), &file, file.len())?.items, 1);
/// // Calls that know no line ends take the plain twin.
/// assert_eq!(Form::Lines.plain(&file)?, EXAMPLE.as_slice());
/// # Ok::<(), zvaigulta::Refusal>(())
/// ```
#[derive(Clone, Copy, Debug, PartialEq, Eq, Hash)]
pub enum Form {
    /// Records of 84 bytes, end to end.
    Plain,
    /// Records of 84 bytes with carriage return and line feed behind each, 86 bytes in all.
    Lines,
}

impl Form {
    /// The form in which bytes, a file or a block, are to be read: with line ends where at least as many of their records end so as do not,
    /// counted anew behind a line of another length, or where one at least does, not the last alone behind whole plain records, and the length is a
    /// multiple of 86 and not of 84; else plain. What is accepted as a plain file, a plain sheet that is refused for its counts alone (10), both with a
    /// directory of layers or without, and a sound plain block are always plain.
    ///
    /// So a file with line ends is known for one while some of them are broken or bytes of it are lost, and judging then says where.
    ///
    /// ```
    /// use zvaigulta::{judge_sheet_lines, Form, EXAMPLE};
    ///
    /// let mut file = Form::Lines.file(EXAMPLE)?.into_owned();
    /// file[85] = b' ';
    /// assert_eq!(Form::of(&file), Form::Lines);
    /// assert_eq!(judge_sheet_lines(&file, file.len()).unwrap_err().to_string(),
    ///     "refused 18 at record 1: a record does not end in carriage return and line feed");
    /// # Ok::<(), zvaigulta::Refusal>(())
    /// ```
    pub fn of(bytes: &[u8]) -> Form {
        if (has_line_ends(bytes) || has_their_length(bytes)) && !reads_as_plain(bytes) {
            Form::Lines
        } else {
            Form::Plain
        }
    }

    /// Bytes from the start of a record to that of the next: 84, or 86.
    pub fn record_bytes(self) -> usize {
        match self {
            Form::Plain => RECORD_BYTES,
            Form::Lines => LINE_RECORD_BYTES,
        }
    }

    /// The plain twin of a file in this form, by [`from_lines`]. A file of more than 200,000 records, as a sheet with a directory of layers may have,
    /// is taken in parts.
    ///
    /// # Errors
    /// None for a plain file, which is its own twin; else 1, but for the number of records, and 18.
    pub fn plain(self, file: &[u8]) -> Result<Cow<'_, [u8]>, Refusal> {
        match self {
            Form::Plain => Ok(Cow::Borrowed(file)),
            Form::Lines => in_parts(file, LINE_RECORD_BYTES, RECORD_BYTES, from_lines).map(Cow::Owned),
        }
    }

    /// The file in this form whose plain twin is given, by [`to_lines`], in parts as [`Form::plain`].
    ///
    /// # Errors
    /// None where it stays plain; else 1, but for the number of records.
    pub fn file(self, plain: &[u8]) -> Result<Cow<'_, [u8]>, Refusal> {
        match self {
            Form::Plain => Ok(Cow::Borrowed(plain)),
            Form::Lines => in_parts(plain, RECORD_BYTES, LINE_RECORD_BYTES, to_lines).map(Cow::Owned),
        }
    }

    /// The records of a file in this form without what stands behind each, line end or not: what of a refused file can be shown.
    pub fn records(self, file: &[u8]) -> Cow<'_, [u8]> {
        match self {
            Form::Plain => Cow::Borrowed(file),
            Form::Lines => {
                let mut records = Vec::with_capacity(file.len());
                file.chunks(LINE_RECORD_BYTES).for_each(|line| records.extend(line.iter().take(RECORD_BYTES)));
                Cow::Owned(records)
            }
        }
    }
}

/// `plain` or `line ends`.
impl fmt::Display for Form {
    fn fmt(&self, f: &mut fmt::Formatter<'_>) -> fmt::Result {
        f.write_str(match self {
            Form::Plain => "plain",
            Form::Lines => "line ends",
        })
    }
}

/// [`from_lines`] or [`to_lines`].
type Writer = fn(&[u8], usize, &mut [u8]) -> Result<usize, Refusal>;

/// What a writer makes of records, which takes at most 200,000 of them at a time: of so many bytes each, of so many in the result.
fn in_parts(records: &[u8], each: usize, written: usize, write: Writer) -> Result<Vec<u8>, Refusal> {
    let mut result = vec![b' '; records.len() / each * written];
    if records.is_empty() || !records.len().is_multiple_of(each) {
        // Refused by its length before anything else is looked at.
        write(records, records.len(), &mut result)?;
    }
    let parts = records.chunks(MOST_RECORDS * each).zip(result.chunks_mut(MOST_RECORDS * written));
    for (n, (part, into)) in parts.enumerate() {
        let in_file = |refusal: Refusal| Refusal { record: refusal.record.map(|record| record + n * MOST_RECORDS), ..refusal };
        write(part, part.len(), into).map_err(in_file)?;
    }
    Ok(result)
}

/// Whether at least as many records end in a line end as do not.
fn has_line_ends(bytes: &[u8]) -> bool {
    let (mut ended, mut other) = (0usize, 0usize);
    let mut rest = bytes;
    while !rest.is_empty() {
        let line = line_length(rest);
        if line == Some(LINE_RECORD_BYTES) {
            ended += 1;
        } else {
            other += 1;
        }
        rest = rest.get(line.unwrap_or(LINE_RECORD_BYTES)..).unwrap_or(&[]);
    }
    ended > 0 && ended >= other
}

/// Whether the length is that of records with line ends and not of plain ones, and one of the records at least ends so. One line end behind the last
/// of plain records is not meant.
fn has_their_length(bytes: &[u8]) -> bool {
    let length = bytes.len();
    if !length.is_multiple_of(LINE_RECORD_BYTES) || length.is_multiple_of(RECORD_BYTES) || !bytes.contains(&b'\r') {
        return false;
    }
    let behind_plain = length % RECORD_BYTES == LINE_END.len();
    let looked_at = if behind_plain { length - LINE_RECORD_BYTES } else { length };
    bytes.chunks(LINE_RECORD_BYTES).take(looked_at / LINE_RECORD_BYTES).any(|line| line.ends_with(LINE_END))
}

/// The bytes up to a line end, and that: behind a record where it stands there, else behind the first before that place or at most one byte
/// behind it. None where there is none.
fn line_length(rest: &[u8]) -> Option<usize> {
    if rest.get(RECORD_BYTES..LINE_RECORD_BYTES) == Some(LINE_END) {
        return Some(LINE_RECORD_BYTES);
    }
    crlf(rest.get(..LINE_RECORD_BYTES + 1).unwrap_or(rest)).map(|place| place + LINE_END.len())
}
