//! The lines of a file whose records have line ends, right or not.

use crate::{directory, explain, judge_either_edition, Counts, FileKind, Form, Reading, Reason, Refusal};
use crate::{LINE_END, LINE_RECORD_BYTES, MOST_RECORDS, RECORD_BYTES};

/// How many bytes of records may lack their ends one behind the other and still be told by where the next line end stands: twenty records.
const FARTHEST: usize = 20 * LINE_RECORD_BYTES;

/// A line of a file: a record, where its length is right, and what stands behind it.
#[derive(Clone, Copy)]
pub struct Line<'a> {
    /// The byte of the file at which it starts, from 0.
    pub start: usize,
    /// Its bytes without its end.
    pub record: &'a [u8],
    /// Its end: one of the line ends that there are, two other bytes in its place, or nothing.
    pub end: &'a [u8],
}

impl Line<'_> {
    /// Whether it has the length of a record.
    pub fn is_record(&self) -> bool {
        self.record.len() == RECORD_BYTES
    }

    /// Whether it has, and behind it a line end of some kind.
    pub fn is_marked(&self) -> bool {
        self.is_record() && self.end.first().is_some_and(is_mark)
    }

    /// Whether its end is carriage return and line feed.
    pub fn is_ended(&self) -> bool {
        self.end == LINE_END
    }
}

/// The lines of a file.
pub struct Lines<'a> {
    bytes: &'a [u8],
    at: usize,
    /// Whether the line before ended in carriage return and line feed.
    ended: bool,
}

impl<'a> Lines<'a> {
    /// Of a whole file.
    pub fn of(bytes: &'a [u8]) -> Lines<'a> {
        Lines { bytes, at: 0, ended: false }
    }
}

impl<'a> Iterator for Lines<'a> {
    type Item = Line<'a>;

    fn next(&mut self) -> Option<Line<'a>> {
        let rest = self.bytes.get(self.at..).filter(|rest| !rest.is_empty())?;
        let (record, end) = lengths(rest, self.ended);
        let line = Line { start: self.at, record: rest.get(..record)?, end: rest.get(record..record + end)? };
        self.at += record + end;
        self.ended = line.is_ended();
        Some(line)
    }
}

fn is_mark(byte: &u8) -> bool {
    matches!(byte, b'\r' | b'\n')
}

/// The bytes of the first line without its end, and those of its end; `ended` says whether the line before ended in carriage return and line
/// feed.
fn lengths(rest: &[u8], ended: bool) -> (usize, usize) {
    let end = mark(rest, RECORD_BYTES);
    let goes_on = |end: usize| is_start(rest, RECORD_BYTES + end);
    match end {
        2 if is_crlf(rest, RECORD_BYTES) => (RECORD_BYTES, 2),
        _ if is_crlf(rest, RECORD_BYTES - 1) => (RECORD_BYTES - 1, 2),
        0 if rest.iter().take(RECORD_BYTES).any(is_mark) => by_next_mark(rest),
        0 if goes_on(0) => (RECORD_BYTES, 0),
        0 if is_written_over(rest, ended) => (RECORD_BYTES, 2),
        0 => by_next_mark(rest),
        2 if !goes_on(2) && goes_on(1) => (RECORD_BYTES, 1),
        1 if !goes_on(1) && goes_on(2) && is_two(rest) => (RECORD_BYTES, 2),
        _ => (RECORD_BYTES, end),
    }
}

/// Whether a carriage return or line feed behind a record and the byte after it stand for both: that is one too, or the next line ends in both.
fn is_two(rest: &[u8]) -> bool {
    rest.get(RECORD_BYTES + 1).is_some_and(is_mark) || is_crlf(rest, LINE_RECORD_BYTES + RECORD_BYTES)
}

/// Whether two other bytes stand in the place of a line end: the next one stands where it should, or the file ends behind them. Not where one
/// byte too many may stand before a line feed or carriage return alone, as other lines do not end in both.
fn is_written_over(rest: &[u8], ended: bool) -> bool {
    let next = LINE_RECORD_BYTES + RECORD_BYTES;
    let last = rest.len() == LINE_RECORD_BYTES;
    let longer = rest.get(RECORD_BYTES + 1).is_some_and(is_mark) && !is_crlf(rest, next) && !(last && ended);
    (last || mark(rest, next) > 0 && is_start(rest, LINE_RECORD_BYTES)) && !longer
}

/// The same by the next carriage return or line feed, or the end of the file, whatever stands before it. Where that is near, as many whole
/// records away, with two bytes for each end or with none, the line is the first of them.
fn by_next_mark(rest: &[u8]) -> (usize, usize) {
    let place = rest.iter().position(is_mark).unwrap_or(rest.len());
    match place {
        RECORD_BYTES..=FARTHEST if place.is_multiple_of(RECORD_BYTES) => (RECORD_BYTES, 0),
        RECORD_BYTES..=FARTHEST if place % LINE_RECORD_BYTES == RECORD_BYTES && place < rest.len() => (RECORD_BYTES, 2),
        _ => (place, mark(rest, place)),
    }
}

/// Whether a record may start at a byte, or the file end there: the next line end, or the end of the file, stands where it should.
fn is_start(rest: &[u8], start: usize) -> bool {
    rest.get(start..).is_some_and(|next| {
        let mark = next.iter().take(RECORD_BYTES + 1).position(is_mark);
        next.is_empty() || mark.unwrap_or(next.len()) == RECORD_BYTES
    })
}

/// How many bytes of a line end stand at a byte: carriage return, line feed, both in either order, or as text that was converted twice has them.
fn mark(rest: &[u8], place: usize) -> usize {
    match rest.get(place..).unwrap_or(&[]) {
        [b'\r', b'\r', b'\n', ..] => 3,
        [b'\r', b'\n', ..] | [b'\n', b'\r', ..] => 2,
        [b'\r' | b'\n', ..] => 1,
        _ => 0,
    }
}

fn is_crlf(rest: &[u8], place: usize) -> bool {
    rest.get(place..place + LINE_END.len()) == Some(LINE_END)
}

/// Where the first carriage return and line feed stand.
pub fn crlf(bytes: &[u8]) -> Option<usize> {
    // `contains` looks at many bytes at a time, and most plain files have none.
    bytes.contains(&b'\r').then(|| bytes.windows(LINE_END.len()).position(|two| two == LINE_END)).flatten()
}

/// A file without the NUL bytes and end-of-file marks at its end.
pub fn without_fill(bytes: &[u8]) -> &[u8] {
    let kept = bytes.iter().rposition(|byte| !matches!(byte, 0 | 0x1a)).map_or(0, |last| last + 1);
    bytes.get(..kept).unwrap_or(bytes)
}

/// The records of a file in which nothing but line ends was wrong.
#[derive(Clone, Debug, Default, PartialEq, Eq)]
#[non_exhaustive]
pub struct Mended {
    /// The records, end to end: the plain file.
    pub plain: Vec<u8>,
    /// At how many places something else stood than carriage return and line feed behind a record.
    pub places: usize,
}

impl Mended {
    /// Of a file whose line ends are of another kind (line feed or carriage return alone, the two the wrong way round, two carriage returns and a
    /// line feed), written over, missing or double, perhaps with NUL bytes or an end-of-file mark behind the last: its records. A line end inside
    /// a record is taken out where the file is accepted then, one behind plain records where they are accepted. None where a record has another
    /// length than 84, where most records have no line end at all, where there are more than 200,000 without a directory of layers, where all ends
    /// are right, and where the file is accepted as a plain one, or a plain sheet refused for its counts alone (10).
    ///
    /// ```
    /// use zvaigulta::{Mended, EXAMPLE};
    ///
    /// let unix: Vec<u8> = EXAMPLE.chunks(84).flat_map(|record| [record, b"\n"].concat()).collect();
    /// let mended = Mended::of(&unix).unwrap();
    /// assert_eq!((mended.plain.as_slice(), mended.places), (EXAMPLE.as_slice(), 9));
    /// assert_eq!(Mended::of(EXAMPLE), None);
    /// ```
    pub fn of(bytes: &[u8]) -> Option<Mended> {
        let text = without_fill(bytes);
        let fill = usize::from(text.len() < bytes.len());
        if let Some(plain) = before_last_end(bytes) {
            return Some(Mended { plain: plain.to_vec(), places: 1 + fill });
        }
        let marked = Lines::of(text).filter(Line::is_marked).count();
        if marked == 0 || marked * 2 < text.len() / LINE_RECORD_BYTES || reads_as_plain(bytes) {
            return None;
        }
        let mut mended = Mended { plain: Vec::with_capacity(text.len()), places: fill };
        let mut divided = false;
        for line in Lines::of(text) {
            divided |= mended.step(&line)?;
        }
        let whole = mended.plain.len().is_multiple_of(RECORD_BYTES) && is_allowed(&mended.plain) && mended.places > 0;
        (whole && (!divided || is_accepted(&mended.plain))).then_some(mended)
    }

    /// One more line; whether a record goes on behind it. None where it is too long for what is left of its record, or has a part of a line end
    /// in it.
    fn step(&mut self, line: &Line) -> Option<bool> {
        if line.record.iter().any(is_mark) {
            return None;
        }
        let begun = self.plain.len() % RECORD_BYTES;
        let length = begun + line.record.len();
        let empty = line.record.is_empty() && begun == 0;
        self.plain.extend_from_slice(line.record);
        self.places += usize::from(empty || length < RECORD_BYTES || !line.is_ended());
        (length <= RECORD_BYTES).then_some(length < RECORD_BYTES && !empty)
    }
}

/// Whether a file may have so many plain records as these are.
pub fn is_allowed(plain: &[u8]) -> bool {
    let most = match directory::is_behind(Form::Plain, plain) {
        false => MOST_RECORDS,
        true => MOST_RECORDS + directory::edition_in(plain).most_records(),
    };
    (1..=most).contains(&(plain.len() / RECORD_BYTES))
}

/// The plain records of a file that has one line end behind the last of them, perhaps a fill behind that, and is accepted without. With one record
/// alone, that is a file with line ends. Where a carriage return or line feed stands in the records as well, bytes may be lost before it.
pub fn before_last_end(bytes: &[u8]) -> Option<&[u8]> {
    let text = without_fill(bytes);
    let end = mark(text, text.len() - text.len() % RECORD_BYTES);
    let plain = text.get(..text.len() - end).filter(|plain| end > 0 && plain.len() > RECORD_BYTES)?;
    let whole = plain.len().is_multiple_of(RECORD_BYTES) && !plain.iter().any(is_mark);
    (whole && !reads_as_plain(bytes) && is_accepted(plain)).then_some(plain)
}

/// Whether bytes are accepted as a plain file, with a directory of layers or without, or are a sound plain block.
fn is_accepted(bytes: &[u8]) -> bool {
    Reading::in_form(Form::Plain, bytes).judge(bytes).is_ok() || explain::is_block(bytes)
}

/// The same, or a plain sheet in which nothing but counts is wrong: all its records are read in order before these are compared. Not so an index,
/// whose names of sheets may be any bytes.
pub fn reads_as_plain(bytes: &[u8]) -> bool {
    let kind = FileKind::of(bytes);
    let counts = |refusal: Refusal| refusal.reason == Reason::Count && kind == FileKind::Sheet;
    let read = |judged: Result<Counts, Refusal>| judged.map_or_else(counts, |_| true);
    read(kind.judge(bytes, bytes.len())) || read(judge_either_edition(bytes, bytes.len())) || explain::is_block(bytes)
}
