//! What there is to say of a directory as a whole: what it was made for, what it lists, and what mends it.

use super::{letters, signs, Directory};
use crate::directory::{is_end, is_row};
use crate::explain::{form, near};
use crate::layout::DIRECTORY_END;
use crate::outline::{record, DirectoryRecord, Outline};
use crate::text::{number_of, quoted};
use crate::{judge_either_edition, sheet_before_directory, Edition, FileKind, RECORD_BYTES};

/// The command that appends a directory of an edition; the first is appended where none is named. Where the sheet's own last record reads like the end of a
/// directory, it is to be read as text.
fn append(edition: Edition, is_text: bool) -> String {
    let second = if edition == Edition::Second { " --edition 2" } else { "" };
    let text = if is_text { " --no-directory" } else { "" };
    format!("'dmtool directory FILE --append{second}{text}'")
}

/// What is said before a command where the directory may be the only sign of a loss.
const COMPARE: &str = "may have lost a layer or other records since the directory was made: compare it with the original first";

impl Directory<'_> {
    /// What to look at first stands first.
    pub fn notes(&self) -> Vec<String> {
        if let Some(none) = self.no_directory() {
            return vec![none];
        }
        if let Some(behind) = self.put_behind() {
            return vec![behind];
        }
        let seen = match self.behind_another() {
            Some(behind) => vec![Some(behind)],
            None => vec![
                self.other_file(),
                self.taken_as_text(),
                self.unended(),
                self.several_ends(),
                self.doubled(),
                self.other_records(),
                self.other_edition(),
                self.mixed(),
                self.made_for_others(),
                self.lists(),
            ],
        };
        seen.into_iter().flatten().chain(self.next()).collect()
    }

    /// That there is no directory, or that its records are read as the sheet's.
    fn no_directory(&self) -> Option<String> {
        if FileKind::of(self.bytes) == FileKind::Index {
            return Some("this is an index: it has no layers, and so no directory".to_string());
        }
        let last = Outline::of(self.bytes).last().filter(|_| self.numbers().is_empty())?;
        let (number, name) = (last.number, last.name());
        Some(match (self.sheet.is_some(), is_end(self.end()) || self.is_taken_as_text()) {
            (true, true) => format!(
                "without a directory the file is accepted, and record {number} is {name}: if that is right, read the file with \
                 --no-directory; if it is of a directory, records of the sheet are lost before it"
            ),
            (true, false) => {
                format!("the sheet has no directory, its last record is {name}: append one by {}", append(Edition::First, false))
            }
            (false, _) => "no directory stands behind the sheet".to_string(),
        })
    }

    /// The record behind an accepted sheet, or behind its directory, with which another file begins.
    pub fn another_file(&self) -> Option<usize> {
        self.other().filter(|other| self.sheet.is_some() && near::file_start(self.bytes, *other).is_some())
    }

    fn put_behind(&self) -> Option<String> {
        let first = self.another_file()?;
        if is_end(record(self.bytes, first - 1)) {
            return Some(self.behind(first - 1));
        }
        near::file_start(self.bytes, first)
    }

    /// The same where the first of the files is not accepted: behind a record that ends a directory.
    fn other_file(&self) -> Option<String> {
        let mut ends = (1..self.records).filter(|number| self.sheet.is_none() && is_end(record(self.bytes, *number)));
        ends.find_map(|end| near::file_start(self.bytes, end + 1))
    }

    /// That a record of the directory seems to be taken as text of the sheet.
    fn taken_as_text(&self) -> Option<String> {
        let last = Outline::of(self.bytes).nth(self.before.checked_sub(1)?).filter(|_| self.is_taken_as_text())?;
        let reads = format!("record {}, {}, reads as a record of a directory", last.number, last.name());
        Some(format!("{reads}: it may stand in the place of a lost record of the sheet"))
    }

    /// That a record of the directory stands twice.
    fn doubled(&self) -> Option<String> {
        let second = self.repeated()?;
        let without = if self.is_right_without(second) { ": without it the file is accepted" } else { "" };
        Some(format!("record {second} is the same as record {} before it{without}", second - 1))
    }

    /// The first record that lists layers and is the same as the one before it.
    fn repeated(&self) -> Option<usize> {
        near::repeated(self.bytes, self.before + 1, self.records).filter(|number| is_row(record(self.bytes, *number)))
    }

    /// Whether the file is accepted without a record.
    fn is_right_without(&self, number: usize) -> bool {
        let others: Vec<u8> =
            (1..=self.records).filter(|other| *other != number).flat_map(|other| record(self.bytes, other)).copied().collect();
        judge_either_edition(&others, others.len()).is_ok()
    }

    /// That the last record is not there.
    fn unended(&self) -> Option<String> {
        let edition = Edition::of_row(self.end())?;
        let end = quoted(edition.end_letters());
        Some(format!("the directory has no end: the record {end} behind record {} is lost", self.records))
    }

    /// What the edition column of a last record `YE` says, where that is no 2.
    fn other_edition(&self) -> Option<String> {
        let column = Edition::of_end(self.end())?.end_layout().column("edition")?;
        match column.value(self.end()) {
            Some(1) => Some("by its edition column the directory is of edition 1, which ends in \"ZE\": one of the two is wrong".to_string()),
            Some(later @ 3..) => Some(format!(
                "by its edition column the directory is of edition {later}, which is not known here: a later program may have made it; ask \
                 where the file comes from before you take it off"
            )),
            None if column.is_spaces(self.end()) => {
                Some("the last record has the columns of \"ZE\", the end of edition 1, and the letters \"YE\" of edition 2".to_string())
            }
            _ => None,
        }
    }

    /// That records of both editions stand in it.
    fn mixed(&self) -> Option<String> {
        let end = Edition::of_end(self.end())?;
        let of = |number: &usize| Edition::of_row(record(self.bytes, *number)).filter(|edition| *edition != end);
        let (number, other) = self.numbers().find_map(|number| Some((number, of(&number)?)))?;
        let (row, last) = (letters(record(self.bytes, number)), letters(self.end()));
        Some(format!(
            "record {number} starts {row}, of {other}, and the last record {last}, of {end}: all must be of one edition"
        ))
    }

    /// The editions of which the right directory may be: those of its records; the other one too where its edition column does not go with the letters of
    /// its last record and no other record tells.
    fn editions(&self) -> Vec<Edition> {
        let rows = self.numbers().any(|number| Edition::of_row(record(self.bytes, number)) == Some(self.edition));
        let other = Edition::of_end(self.end()) == Some(Edition::Second) && self.stated("edition") != Some(2);
        let told = |edition: &Edition| self.pieces().any(|piece| signs::edition_of(piece) == Some(*edition));
        let of = |edition: &Edition| *edition == self.edition || told(edition) || other && !rows;
        Edition::ALL.into_iter().filter(of).collect()
    }

    /// What takes the directory off and puts the right one there.
    fn mend(&self) -> String {
        let is_text = is_end(record(self.bytes, self.before));
        let commands: Vec<String> = self.editions().into_iter().map(|edition| append(edition, is_text)).collect();
        format!(
            "take the directory off by 'dmtool directory FILE --remove' and append the right one by {}",
            commands.join(" or ")
        )
    }

    /// The records that end a directory by their letters.
    fn ends(&self) -> Vec<usize> {
        self.numbers().filter(|number| is_end(record(self.bytes, *number))).collect()
    }

    fn several_ends(&self) -> Option<String> {
        let ends = self.ends();
        let (first, last) = (ends.first()?, ends.last().filter(|_| ends.len() > 1 && self.other().is_none())?);
        let [one, other] = [first, last].map(|number| letters(record(self.bytes, *number)));
        let start = if one == other { format!("both start {one}") } else { format!("start {one} and {other}") };
        Some(format!("records {first} and {last} {start}: a directory stands behind a directory"))
    }

    /// The same where the first of them is right.
    fn behind_another(&self) -> Option<String> {
        let first = self.bytes.get(..self.ends().first()? * RECORD_BYTES)?;
        let several = self.several_ends().filter(|_| judge_either_edition(first, first.len()).is_ok())?;
        Some(format!("{several}, and the first of them is right"))
    }

    /// For how many records it was made, where others stand before it.
    fn made_for_others(&self) -> Option<String> {
        let made = self.made_for().filter(|made| *made != self.before && *made > 0)?;
        let (more, fewer) = (self.before.saturating_sub(made), made.saturating_sub(self.before));
        let differ = match fewer {
            0 if self.is_grown() => {
                format!("{more} more; each layer is listed at its place before that: a program may have put them in and left the directory as it was")
            }
            0 => format!("{more} more"),
            _ => format!("{fewer} fewer"),
        };
        let records = number_of(made as u64, "record");
        Some(format!(
            "by its pointer the directory was made for a sheet of {records}, and {} stand before it: {differ}",
            self.before
        ))
    }

    /// Whether it lists the layers of the sheet as they stood before records were put in.
    pub fn is_grown(&self) -> bool {
        let (listed, headers) = (self.listed(), self.headers());
        let more = self.made_for().map_or(0, |made| self.before as i64 - made as i64);
        let moved: Vec<i64> = headers.iter().zip(&listed).map(|(header, listed)| header - listed).chain([more]).collect();
        let apart = moved.is_sorted() && moved.first().is_some_and(|first| *first >= 0);
        self.sheet.is_some() && more > 0 && listed.len() == headers.len() && apart
    }

    /// How many layers it lists and states, where the sheet has another number of them.
    fn lists(&self) -> Option<String> {
        let (listed, unreadable, layers) = (self.listed().len(), self.unreadable(), self.sheet.as_ref()?.layers.len());
        let states = self.stated("layers").filter(|states| *states != (listed + unreadable) as i64);
        if listed + unreadable == layers && states.is_none() {
            return None;
        }
        let more = match unreadable {
            0 => String::new(),
            more => format!(" (and {more} more whose header cannot be read)"),
        };
        let stated = states.map_or(String::new(), |states| format!(" and states {states}"));
        let has = number_of(layers as u64, "layer");
        Some(format!("the directory lists {}{more}{stated}, the sheet has {has}", number_of(listed as u64, "layer")))
    }

    /// Whether a record is one of a directory by its letters.
    fn is_its(&self, number: usize) -> bool {
        is_row(record(self.bytes, number)) || is_end(record(self.bytes, number))
    }

    /// The first record behind the sheet that is none.
    fn other(&self) -> Option<usize> {
        self.numbers().find(|number| !self.is_its(*number))
    }

    fn other_records(&self) -> Option<String> {
        let other = self.other().filter(|_| self.sheet.is_some())?;
        let bytes = record(self.bytes, other);
        let starts = format!("record {other} behind the sheet starts {}", letters(bytes));
        Some(match self.record(other) {
            _ if bytes.iter().all(|byte| *byte == b' ') => {
                let next = match self.is_right_without(other) {
                    true => "without it the file is accepted",
                    false => "see in the original what stood there",
                };
                format!("record {other} behind the sheet holds nothing but spaces, as no record of a directory does: {next}")
            }
            // The last one ends a directory.
            Some(DirectoryRecord::Row(edition)) if other == self.records => {
                format!("{starts}, and its columns read as {}; see in the original what it is", edition.layout().name)
            }
            Some(read) => {
                let letters_alone = self.faults_of(other).iter().all(|fault| fault.column == "type");
                let seem = if letters_alone { ": only the letters seem wrong" } else { "" };
                let next = self.with_letters(other, read.letters());
                format!("{starts}, and its columns read as {}{seem}; {next}", read.layout().name)
            }
            None => format!("{starts}, as no record of a directory does: see in the original where it belongs"),
        })
    }

    /// What to do about a record that reads as one of a directory but for its letters. With these the directory is judged, and nothing of it is lost.
    fn with_letters(&self, number: usize, letters: &[u8]) -> String {
        let (mut file, start) = (self.bytes.to_vec(), (number - 1) * RECORD_BYTES);
        file.splice(start..start + letters.len(), letters.iter().copied());
        let due = quoted(letters);
        match judge_either_edition(&file, file.len()) {
            Ok(_) => format!("with {due} there the file is accepted"),
            Err(_) => format!("if it is one, put {due} there and explain the file again"),
        }
    }

    /// Whether it lists what the sheet does not have, or cannot tell, since it is cut off: the sheet may have lost something.
    fn is_doubtful(&self) -> bool {
        let doubled = self.repeated().is_some_and(|second| self.is_right_without(second));
        let twice = doubled || self.behind_another().is_some();
        let lists_more = self.listed().len() + self.unreadable() > self.headers().len() || self.states_more();
        self.is_cut() || self.is_taken_as_text() || !doubled && self.shows_more() || !twice && lists_more
    }

    /// What to do next. A directory that is wrong may be the only sign that the sheet lost something.
    fn next(&self) -> Option<String> {
        if self.sheet.is_none() || self.other().is_some() {
            return None;
        }
        let mend = self.mend();
        Some(match (self.is_doubtful(), self.stated("edition").is_some_and(|edition| edition > 2)) {
            (true, _) => format!("the sheet before it is accepted, but {COMPARE}; if it is whole, {mend}"),
            (false, true) => format!("the sheet before it is accepted; if no program needs that edition, {mend}"),
            (false, false) => format!("the sheet before it is accepted: {mend}"),
        })
    }

    /// What is said where the file was read without a directory, and one seems to start at a record.
    pub fn unread(&self, first: usize) -> String {
        if let Some(behind) = self.put_behind() {
            return behind;
        }
        let others = (first..=self.records).any(|number| !self.is_its(number));
        match (first..=self.records).find(|number| is_end(record(self.bytes, *number))) {
            Some(end) if end == self.records || (is_end(self.end()) && !others) => {
                let judged = form::answered(judge_either_edition(self.bytes, self.records * RECORD_BYTES));
                let are = match others {
                    true => format!("record {first} starts as a directory of layers does, and record {end} ends one"),
                    false => format!("{} a directory of layers", records(first, self.records, ["is", "are"])),
                };
                format!("{are}, and the file was read without one; read with it, {judged}")
            }
            Some(end) => self.behind(end),
            None => {
                let rows = (first..=self.records).take_while(|number| is_row(record(self.bytes, *number))).count();
                let start = records(first, first + rows.max(1) - 1, ["starts", "start"]);
                let next = self.next().or_else(|| self.other_records()).map_or(String::new(), |next| format!("; {next}"));
                let end = quoted(Edition::of_row(record(self.bytes, first)).unwrap_or_default().end_letters());
                format!("{start} as a directory of layers does, and no record {end} ends it{next}")
            }
        }
    }

    /// That a directory ends inside a record, and what becomes of the file without it. Where a right one stands there, other bytes stand behind it.
    pub fn cut_off(&self) -> String {
        let right = self.ends().into_iter().find(|end| judge_either_edition(self.bytes, end * RECORD_BYTES).is_ok());
        if let Some(behind) = self.put_behind().or_else(|| right.map(|end| self.behind(end))) {
            return behind;
        }
        let (sheet, rest) = self.bytes.split_at(self.before * RECORD_BYTES);
        let next = match sheet_before_directory(self.bytes) {
            Some(_) => self.next().unwrap_or_default(),
            None => format!("the sheet {COMPARE}; {}", form::without(sheet)),
        };
        format!(
            "behind record {}: a directory of layers of {}, cut off, or with bytes of it lost or too many; {next}",
            self.before,
            length(rest)
        )
    }

    /// What stands behind a directory that ends at a record.
    fn behind(&self, end: usize) -> String {
        let (file, rest) = self.bytes.split_at(end * RECORD_BYTES);
        let (ends, without) = (format!("behind the directory of layers, which ends at record {end}"), form::without(file));
        if rest.iter().all(|byte| matches!(byte, b' ' | 0 | 0x1a | b'\r' | b'\n')) {
            return format!("{ends}: nothing but {}; {without}", form::named(rest));
        }
        let length = length(rest);
        if let Some(next) = near::file_start(self.bytes, end + 1) {
            return format!("{ends}: {length}; {without}; {next}");
        }
        let first = match rest.chunks(RECORD_BYTES).any(|piece| is_row(piece) || is_end(piece)) {
            true => format!("records of another directory stand there, and the sheet {COMPARE}"),
            false => "see in the original where that belongs before you take it out".to_string(),
        };
        format!("{ends}: {length}; {first}; {without}")
    }
}

/// So many records and bytes; fewer bytes than a record as they are.
fn length(bytes: &[u8]) -> String {
    let (whole, left) = (bytes.len() / RECORD_BYTES, bytes.len() % RECORD_BYTES);
    let (whole, more) = (number_of(whole as u64, "record"), number_of(left as u64, "byte"));
    match (bytes.len() < RECORD_BYTES, left) {
        (true, _) => format!("{more}, {}", quoted(bytes)),
        (false, 0) => whole,
        (false, _) => format!("{whole} and {more}"),
    }
}

/// How many bytes stand before a directory at the end of a file, where they are no whole records.
pub fn bytes_before(bytes: &[u8], before: &[u8]) -> Option<String> {
    let end = bytes.get(bytes.len().checked_sub(RECORD_BYTES)?..)?;
    let made = DIRECTORY_END.value("pointer", end).and_then(|pointer| usize::try_from(pointer).ok()?.checked_sub(1))?;
    let due = format!("{}, {} bytes", number_of(made as u64, "record"), made.saturating_mul(RECORD_BYTES));
    Some(format!("by the directory at the end of the file a sheet of {due}, stands before it; there are {} bytes", before.len()))
}

/// Some records, and what they do: `record 5 is`, `records 5 to 7 are`.
fn records(from: usize, to: usize, [one, several]: [&str; 2]) -> String {
    match from == to {
        true => format!("record {from} {one}"),
        false => format!("records {from} to {to} {several}"),
    }
}
