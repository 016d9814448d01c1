//! 1 and 18 of a file with line ends: which lines are wrong, and what mends them.

use super::counts::Records;
use super::{directory, fault, form, length, Explanation};
use crate::line_ends::{without_fill, Line, Lines, Mended};
use crate::text::{number_of, quoted};
use crate::{Form, Reason, Refusal, LINE_END, LINE_RECORD_BYTES, RECORD_BYTES};

/// The most lines that are told of each kind.
const MOST_LISTED: usize = 5;

/// What is wrong with the lines, and the end of the refused record.
pub fn explain(bytes: &[u8], refusal: Refusal) -> Explanation {
    let mut told = Explanation::default();
    if refusal.reason == Reason::LineEnd {
        told.faults.extend(refusal.record.and_then(|record| {
            let line = bytes.chunks(LINE_RECORD_BYTES).nth(record.checked_sub(1)?)?;
            let end = quoted(line.get(RECORD_BYTES..)?);
            Some(fault(record, "line end", format!("is {end}, must be carriage return and line feed ({})", quoted(LINE_END))))
        }));
    }
    told.notes = match (form::start(bytes), length::other(bytes.len(), Form::Lines)) {
        (Some(start), _) => vec![start],
        (None, Some(other)) if refusal.reason == Reason::Length && mending(bytes).is_none() => {
            vec![directory::in_lines(bytes).unwrap_or(other)]
        }
        _ => notes(bytes),
    };
    told
}

/// What is wrong with a line.
#[derive(Clone, Copy, PartialEq, Eq)]
enum Wrong {
    LineFeed,
    CarriageReturn,
    Reversed,
    Twice,
    /// Two other bytes.
    Other,
    /// No end, and another record or the end of the file behind it.
    Unended,
    /// A line without a byte.
    Empty,
    /// A line end inside the record.
    Inside,
    Short,
    Long,
    /// The file ends inside the record.
    Cut,
}

impl Wrong {
    /// All of them, in the order in which they are told.
    const ALL: [Wrong; 11] = [
        Wrong::Cut,
        Wrong::Short,
        Wrong::Long,
        Wrong::Inside,
        Wrong::Empty,
        Wrong::LineFeed,
        Wrong::CarriageReturn,
        Wrong::Reversed,
        Wrong::Twice,
        Wrong::Other,
        Wrong::Unended,
    ];

    /// Of a line that is no record with its end; `next` is the line behind it.
    fn of(line: &Line, next: Option<&Line>) -> Wrong {
        let joined = line.record.len() + next.map_or(0, |next| next.record.len());
        match line.record.len() {
            0 => Wrong::Empty,
            RECORD_BYTES => Wrong::end(line.end),
            n if n > RECORD_BYTES => Wrong::Long,
            _ if line.end.is_empty() => Wrong::Cut,
            _ if joined == RECORD_BYTES => Wrong::Inside,
            _ => Wrong::Short,
        }
    }

    /// Of the end of a line that has the length of a record.
    fn end(end: &[u8]) -> Wrong {
        match end {
            b"\n" => Wrong::LineFeed,
            b"\r" => Wrong::CarriageReturn,
            b"\n\r" => Wrong::Reversed,
            b"\r\r\n" => Wrong::Twice,
            b"" => Wrong::Unended,
            _ => Wrong::Other,
        }
    }
}

/// A line that is wrong: its record's number, and how.
struct Found<'a> {
    record: usize,
    line: Line<'a>,
    wrong: Wrong,
}

/// A line, or the records of 86 bytes that it is where it stands at their places: they have other bytes for their ends, but for the last perhaps.
/// That is likely, not sure, and so good for words alone.
fn in_place<'a>(text: &'a [u8], line: Line<'a>) -> Vec<Line<'a>> {
    let length = line.record.len() + line.end.len();
    let whole =
        length > LINE_RECORD_BYTES && length.is_multiple_of(LINE_RECORD_BYTES) && line.start.is_multiple_of(LINE_RECORD_BYTES);
    if !whole || !line.end.is_empty() && !line.is_ended() {
        return vec![line];
    }
    let chunks = text.get(line.start..line.start + length).unwrap_or(&[]).chunks_exact(LINE_RECORD_BYTES).enumerate();
    let record = |(nth, chunk): (usize, &'a [u8])| {
        let (record, end) = chunk.split_at(RECORD_BYTES);
        Line { start: line.start + nth * LINE_RECORD_BYTES, record, end }
    };
    chunks.map(record).collect()
}

/// Line ends of which a part may be taken for the end of a record that has lost a byte.
const LONG_ENDS: [&[u8]; 2] = [b"\n\r", b"\r\r\n"];

/// A line with the whole of its end, where that is one of those which other lines have.
fn with_end<'a>(text: &'a [u8], line: Line<'a>, ends: &[&[u8]]) -> Line<'a> {
    let whole = line.record.split_last().and_then(|(_, record)| {
        let start = line.start + record.len();
        let end = text.get(start..start + 1 + line.end.len()).filter(|end| ends.contains(end))?;
        Some(Line { start: line.start, record, end })
    });
    whole.unwrap_or(line)
}

/// The lines that are wrong.
fn found(text: &[u8]) -> Vec<Found<'_>> {
    let mut found = Vec::new();
    let ends: Vec<&[u8]> = LONG_ENDS.into_iter().filter(|end| Lines::of(text).any(|line| line.end == *end)).collect();
    let mut lines = Lines::of(text).flat_map(|line| in_place(text, with_end(text, line, &ends))).peekable();
    let mut record = 0;
    while let Some(line) = lines.next() {
        record += usize::from(!line.record.is_empty());
        if line.is_record() && line.is_ended() {
            continue;
        }
        let wrong = Wrong::of(&line, lines.peek());
        if wrong == Wrong::Inside {
            lines.next();
        }
        found.push(Found { record, line, wrong });
    }
    found
}

/// What is wrong with the lines, what stands behind the last, how many records are missing, and what mends the line ends.
pub fn notes(bytes: &[u8]) -> Vec<String> {
    let text = without_fill(bytes);
    if let Some(last) = form::last_end(bytes) {
        return vec![last];
    }
    if !text.iter().any(|byte| matches!(byte, b'\r' | b'\n')) {
        return vec![format!("there are no line ends in the file: read as plain, {}", form::judged(bytes))];
    }
    let found = found(text);
    let same = |wrong: &Wrong| found.iter().filter(|found| found.wrong == *wrong).collect::<Vec<&Found>>();
    let words = |wrong: &Wrong| same(wrong).first().map(|first| first.words(&same(wrong)));
    // Text that lost the spaces at its line ends has many short lines.
    let short = same(&Wrong::Short).len() * 4 > text.len() / LINE_RECORD_BYTES && same(&Wrong::Long).is_empty();
    let trimmed = form::other_lines(text).filter(|_| short);
    let mut notes = trimmed.map_or_else(|| Wrong::ALL.iter().filter_map(words).collect(), |trimmed| vec![trimmed]);
    let fill = bytes.get(text.len()..).filter(|fill| !fill.is_empty());
    notes.extend(fill.map(|fill| format!("behind the last line end: {}", form::named(fill))));
    let plain: Vec<u8> = Lines::of(text).filter(Line::is_record).flat_map(|line| line.record).copied().collect();
    let cut = found.last().is_some_and(|last| matches!(last.wrong, Wrong::Cut | Wrong::Unended));
    notes.extend(Records::of(&plain).filter(|records| cut && records.missing() > 0).map(|records| records.words()));
    notes.extend(directory::in_lines(bytes));
    notes.extend(mending(bytes));
    notes
}

/// What is wrong with the lines of a file, where most of them are records with a line end of some kind and others have another length.
pub fn other_lengths(bytes: &[u8]) -> Option<String> {
    let text = without_fill(bytes);
    let marked = Lines::of(text).filter(Line::is_marked).count();
    if marked == 0 || marked * 2 < text.len() / LINE_RECORD_BYTES || mending(bytes).is_some() {
        return None;
    }
    let other = |found: &Found| matches!(found.wrong, Wrong::Cut | Wrong::Short | Wrong::Long | Wrong::Inside);
    found(text).iter().any(other).then(|| notes(bytes).join("; "))
}

/// The command that mends the line ends, and what becomes of the file.
pub fn mending(bytes: &[u8]) -> Option<String> {
    let mended = Mended::of(bytes)?;
    let command = "mend that by 'dmtool convert FILE --to lines --mend' (or --to plain)";
    Some(format!("{command}; then {}", form::judged(&mended.plain)))
}

impl Found<'_> {
    /// In words, with the other lines that are wrong in the same way.
    fn words(&self, same: &[&Found]) -> String {
        let (record, length) = (self.record, self.line.record.len());
        let (from, end) = (self.line.start + 1, self.line.start + length + 1);
        match self.wrong {
            Wrong::LineFeed => ending(same, "in a line feed alone (LF)"),
            Wrong::CarriageReturn => ending(same, "in a carriage return alone (CR)"),
            Wrong::Reversed => ending(same, "in line feed and carriage return (LF CR), the wrong way round"),
            Wrong::Twice => ending(same, "in two carriage returns and a line feed (CR CR LF)"),
            Wrong::Unended => ending(same, "without a line end"),
            Wrong::Other => {
                let ends = ending(same, "in other bytes than carriage return and line feed");
                format!("{ends}: {} at bytes {end} and {} of the file", quoted(self.line.end), end + 1)
            }
            Wrong::Empty => {
                let place = if record == 0 { "before record 1".to_string() } else { format!("behind record {record}") };
                format!("an empty line stands {place}, at byte {from} of the file{}", others(same))
            }
            Wrong::Inside => {
                let place = format!("behind its byte {length} (byte {end} of the file)");
                format!("a line end stands inside record {record}, {place}: take it out{}", others(same))
            }
            Wrong::Cut => format!("record {record} has only {length} of its {RECORD_BYTES} bytes: the file is cut off"),
            Wrong::Short | Wrong::Long => self.other_length(same),
        }
    }

    /// That bytes are lost or too many.
    fn other_length(&self, same: &[&Found]) -> String {
        let (length, from) = (self.line.record.len(), self.line.start + 1);
        let is = if length.abs_diff(RECORD_BYTES) == 1 { "is" } else { "are" };
        let off = number_of(length.abs_diff(RECORD_BYTES) as u64, "byte");
        let what = if length < RECORD_BYTES { "lost" } else { "too many" };
        let has = format!("has {} before its line end", number_of(length as u64, "byte"));
        let seen = format!("record {}, from byte {from} of the file on, {has}: {off} {is} {what}", self.record);
        format!("{seen}; compare it with the original{}", others(same))
    }
}

/// The others that are wrong in the same way.
fn others(same: &[&Found]) -> String {
    match same {
        [] | [_] => String::new(),
        [_, others @ ..] => format!("; the same at {}", records(others)),
    }
}

/// Which records end in some way: `record 5 ends in`, `records 5, 7 and 12 more end in`.
fn ending(same: &[&Found], how: &str) -> String {
    format!("{} {} {how}", records(same), if same.len() == 1 { "ends" } else { "end" })
}

/// The numbers of some records in words.
fn records(found: &[&Found]) -> String {
    let numbers: Vec<String> = found.iter().take(MOST_LISTED).map(|found| found.record.to_string()).collect();
    match (numbers.as_slice(), found.len()) {
        ([one], _) => format!("record {one}"),
        ([first @ .., last], n) if n <= MOST_LISTED => format!("records {} and {last}", first.join(", ")),
        (_, n) => format!("records {} and {} more", numbers.join(", "), n - MOST_LISTED),
    }
}
