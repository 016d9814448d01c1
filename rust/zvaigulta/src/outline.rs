//! What each record of a file is, told from the front by what the records before it state. In an accepted file this is what it
//! is; behind a refusal it is the best guess.

mod items;
mod layers;

pub use items::{natural, Sort, Stated, COUNTS};
pub use layers::{layers, Layer};

use crate::layout::*;
use crate::{directory, Edition, FileKind, RECORD_BYTES};

use What::{Data, Directory, Entry, Part, Unknown};

/// What a record is.
#[derive(Clone, Copy, Debug, PartialEq, Eq)]
#[non_exhaustive]
pub enum What {
    /// A record of the sheet part or of an index.
    Part,
    /// A header or an item.
    Entry(Sort),
    /// A data record of the item at a record.
    Data {
        /// The item's record number.
        item: usize,
    },
    /// A record of the directory of layers behind a sheet.
    Directory,
    /// None of these, where a header or an item is due, or more than an index states.
    Unknown,
}

/// A record with its number and name.
#[derive(Clone, Copy, Debug)]
#[non_exhaustive]
pub struct Record<'a> {
    /// Its number, from 1.
    pub number: usize,
    /// Its bytes: 84, or fewer at a ragged end.
    pub bytes: &'a [u8],
    /// What it is.
    pub what: What,
    /// The layout of its columns, if it is known.
    pub layout: Option<&'static Layout>,
    /// How many of the layout's columns are judged.
    pub judged: usize,
    /// The level of a header or an item, and of the item of a data record.
    pub level: Option<i64>,
}

impl Record<'_> {
    /// The columns that are judged.
    pub fn judged_columns(&self) -> &'static [Column] {
        let all = self.layout.map_or(&[][..], |layout| layout.columns);
        all.get(..self.judged).unwrap_or(all)
    }

    /// Its sort, where it is a header or an item.
    pub fn sort(&self) -> Option<Sort> {
        match self.what {
            Entry(sort) => Some(sort),
            _ => None,
        }
    }

    /// Its name: `layer header`.
    pub fn name(&self) -> String {
        match (self.what, self.layout) {
            (Entry(Sort::Header), _) if self.level == Some(1) => "layer header".to_string(),
            (Entry(Sort::Header), _) if self.level.is_some() => "group header".to_string(),
            (Entry(sort), _) => sort.name(),
            (Data { item }, Some(layout)) => format!("{} of record {item}", layout.name),
            (Data { item }, None) => format!("data of record {item}"),
            (_, Some(layout)) => layout.name.to_string(),
            _ if self.bytes.len() < RECORD_BYTES => format!("{} bytes, less than a record", self.bytes.len()),
            _ => "unknown".to_string(),
        }
    }

    /// Its name with its level: `layer header, level 1`.
    pub fn title(&self) -> String {
        match self.level {
            Some(level) => format!("{}, level {level}", self.name()),
            None => self.name(),
        }
    }
}

/// The bytes of a record by its number, from 1; none where the file has no such record.
pub(crate) fn record(bytes: &[u8], number: usize) -> &[u8] {
    number.checked_sub(1).and_then(|place| bytes.chunks(RECORD_BYTES).nth(place)).unwrap_or(&[])
}

/// The records that are due in the sheet part: a, b, c, then d, e and the f records, revisions + 1 times. A file that starts with
/// a header or an item has none.
fn sheet_part(bytes: &[u8]) -> Vec<&'static Layout> {
    if Sort::of(bytes).is_some() {
        return Vec::new();
    }
    let mut due = vec![&SHEET_A, &SHEET_B, &SHEET_C];
    for _ in 0..=natural(&SHEET_A, "revisions", record(bytes, 1)) {
        due.extend([&SHEET_D, &SHEET_E]);
        let f_records = natural(&SHEET_D, "f records", record(bytes, due.len() - 1));
        due.extend((0..f_records).map(|_| &SHEET_F));
    }
    due
}

fn index(bytes: &[u8]) -> Vec<&'static Layout> {
    let number = |name| natural(&INDEX_A, name, record(bytes, 1));
    let mut due = vec![&INDEX_A];
    due.extend((0..number("b records")).map(|_| &INDEX_B));
    due.extend((0..number("c records")).map(|_| &INDEX_C));
    due
}

/// The layouts of the records that are due in a sheet part, or in an index.
pub fn part(bytes: &[u8]) -> Vec<&'static Layout> {
    match FileKind::of(bytes) {
        FileKind::Sheet => sheet_part(bytes),
        FileKind::Index => index(bytes),
    }
}

/// The item whose data records are due, and the next of them.
#[derive(Clone, Copy)]
struct Due {
    item: usize,
    level: Option<i64>,
    stated: Stated,
    nth: u64,
}

/// The records of a file, each with its name.
pub struct Outline<'a> {
    kind: FileKind,
    part: Vec<&'static Layout>,
    records: std::iter::Enumerate<std::slice::Chunks<'a, u8>>,
    due: Option<Due>,
    /// How many records stand before the directory of layers; all of them where there is none.
    before: usize,
    /// The edition of the directory.
    edition: Edition,
}

impl<'a> Outline<'a> {
    /// Of a whole file without a directory of layers.
    pub fn of(bytes: &'a [u8]) -> Outline<'a> {
        let records = bytes.chunks(RECORD_BYTES).enumerate();
        let (kind, edition) = (FileKind::of(bytes), Edition::default());
        Outline { kind, part: part(bytes), records, due: None, before: usize::MAX, edition }
    }

    /// Of a sheet with a directory of layers behind it, of either edition.
    ///
    /// ```
    /// use zvaigulta::{outline::Outline, Sheet, EXAMPLE};
    ///
    /// let file = Sheet::from(EXAMPLE.to_vec()).with_directory()?;
    /// let names: Vec<String> = Outline::with_directory(&file).skip(8).map(|record| record.name()).collect();
    /// assert_eq!(names, ["2D data of record 7", "directory", "directory end"]);
    /// # Ok::<(), zvaigulta::Refusal>(())
    /// ```
    pub fn with_directory(bytes: &'a [u8]) -> Outline<'a> {
        let before = directory::records_before(bytes, directory::sheet(bytes));
        Outline { before, edition: directory::edition_in(bytes), ..Outline::of(bytes) }
    }

    /// The next data record of the item whose data is due.
    fn data(&mut self, number: usize, bytes: &'a [u8]) -> Option<Record<'a>> {
        let due = self.due.filter(|due| due.nth < due.stated.records)?;
        self.due = Some(Due { nth: due.nth + 1, ..due });
        let (layout, judged) = (due.stated.layout, due.stated.judged(due.nth));
        Some(Record { number, bytes, what: Data { item: due.item }, layout, judged, level: due.level })
    }

    fn entry(&mut self, number: usize, bytes: &'a [u8]) -> Option<Record<'a>> {
        let sort = Sort::of(bytes).filter(|_| self.kind == FileKind::Sheet)?;
        let layout = sort.layout();
        let level = layout.value("level", bytes);
        self.due = Some(Due { item: number, level, stated: Stated::of(sort, bytes), nth: 0 });
        Some(Record { number, bytes, what: Entry(sort), layout: Some(layout), judged: layout.columns.len(), level })
    }
}

/// What a record of a directory is: of which edition, and whether it lists layers or ends the directory.
#[derive(Clone, Copy, Debug, PartialEq, Eq)]
pub(crate) enum DirectoryRecord {
    Row(Edition),
    End(Edition),
}

impl DirectoryRecord {
    pub(crate) fn layout(self) -> &'static Layout {
        match self {
            DirectoryRecord::Row(edition) => edition.layout(),
            DirectoryRecord::End(edition) => edition.end_layout(),
        }
    }

    /// The letters with which it starts.
    pub(crate) fn letters(self) -> &'static [u8] {
        match self {
            DirectoryRecord::Row(edition) => edition.letters(),
            DirectoryRecord::End(edition) => edition.end_letters(),
        }
    }
}

/// What a record is that stands in a directory, the last of the file or not: by its letters, else by its columns, read in the edition of the others; none
/// where it has neither.
pub(crate) fn directory_record(bytes: &[u8], last: bool, edition: Edition) -> Option<DirectoryRecord> {
    match (Edition::of_end(bytes), Edition::of_row(bytes)) {
        (Some(edition), _) => Some(DirectoryRecord::End(edition)),
        (None, Some(edition)) => Some(DirectoryRecord::Row(edition)),
        _ if last && reads_as(edition.end_layout(), bytes) => Some(DirectoryRecord::End(edition)),
        _ if reads_as(edition.layout(), bytes) => Some(DirectoryRecord::Row(edition)),
        _ => None,
    }
}

/// Whether the columns of a whole record are those of a directory's layout.
fn reads_as(layout: &Layout, bytes: &[u8]) -> bool {
    bytes.len() == RECORD_BYTES && layout.fits(bytes) && layout.column("rest").is_some_and(|rest| rest.is_spaces(bytes))
}

/// A record that stands in a directory.
fn in_directory(record: Record, last: bool, edition: Edition) -> Record {
    match directory_record(record.bytes, last, edition).map(DirectoryRecord::layout) {
        Some(layout) => Record { what: Directory, layout: Some(layout), judged: layout.columns.len(), ..record },
        None => record,
    }
}

impl<'a> Iterator for Outline<'a> {
    type Item = Record<'a>;

    fn next(&mut self) -> Option<Record<'a>> {
        let (place, bytes) = self.records.next()?;
        let number = place + 1;
        let unknown = Record { number, bytes, what: Unknown, layout: None, judged: 0, level: None };
        if bytes.len() < RECORD_BYTES {
            return Some(unknown);
        }
        if place >= self.before {
            return Some(in_directory(unknown, self.records.len() == 0, self.edition));
        }
        if let Some(layout) = self.part.get(place) {
            return Some(Record { what: Part, layout: Some(layout), judged: layout.columns.len(), ..unknown });
        }
        self.data(number, bytes).or_else(|| self.entry(number, bytes)).or(Some(unknown))
    }
}

#[cfg(test)]
mod tests {
    use super::*;
    use reference::random::Random;
    use reference::{judge, normal, sheets};

    /// Headers and items with their places and levels are those of the reference's own walk.
    #[test]
    fn entries_of_accepted_sheets_as_the_reference_walks_them() {
        let mut r = Random(5);
        for n in 0..2_000 {
            let sheet = sheets::sheet(&mut r, n % 6);
            let (walked, _) = judge::accepted(&sheet, sheet.len()).unwrap();
            let named = Outline::of(&sheet).filter(|named| matches!(named.what, Entry(_)));
            let ours: Vec<_> = named.map(|named| (named.number, named.level)).collect();
            let theirs: Vec<_> = walked.found.iter().map(|f| (f.place + 1, Some(f.level as i64))).collect();
            assert_eq!(ours, theirs, "case {n}");
        }
    }

    /// The judged integers of every record are exactly those that the normal form writes anew.
    #[test]
    fn judged_columns_are_those_of_the_normal_form() {
        let mut r = Random(6);
        for n in 0..1_000 {
            let file = if n % 5 == 0 { sheets::index(&mut r) } else { sheets::sheet(&mut r, n % 6) };
            let mut expected = file.clone();
            let form = if n % 5 == 0 { normal::index } else { normal::sheet };
            form(&file, file.len(), &mut expected).unwrap();
            let mut ours = file.clone();
            for (named, out) in Outline::of(&file).zip(ours.chunks_mut(RECORD_BYTES)) {
                for column in named.judged_columns() {
                    if let (Content::Integer(_) | Content::IntegerOrSpaces, Some(value)) =
                        (column.content, column.value(named.bytes))
                    {
                        crate::write_column(&mut out[column.start..column.start + column.width], value).unwrap();
                    }
                }
            }
            assert!(ours == expected, "case {n}");
        }
    }
}
