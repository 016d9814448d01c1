//! A directory of layers behind a sheet, right or not, of either edition: where it stands, and whether a file has one. The library judges it.

use crate::layout::{Column, SHEET_B};
use crate::outline::{directory_record, part, record, Outline, What};
use crate::{judge_sheet, write_column, Edition, FileKind, Form, RECORD_BYTES};

/// So many layers are listed in one record of a directory of the first edition.
pub const LAYERS_TO_A_RECORD: usize = Edition::First.layers_to_a_record();

/// The most records of a directory of either edition: of a sheet of 200,000 records that has a sheet part and layer headers alone.
///
/// ```
/// use zvaigulta::{Edition, MOST_DIRECTORY_RECORDS};
///
/// assert_eq!((Edition::First.most_records(), Edition::Second.most_records()), (18_183, 66_666));
/// assert_eq!(MOST_DIRECTORY_RECORDS, 66_666);
/// ```
pub const MOST_DIRECTORY_RECORDS: usize = Edition::Second.most_records();

/// Whether a record is one of a directory by its letters, and not the last.
pub fn is_row(record: &[u8]) -> bool {
    Edition::of_row(record).is_some()
}

/// Whether a record is the last of a directory by its letters.
pub fn is_end(record: &[u8]) -> bool {
    Edition::of_end(record).is_some()
}

/// The edition of the directory at the end of some records: by the letters of the last, or of the one before it; the first where neither tells.
pub fn edition_in(bytes: &[u8]) -> Edition {
    let edition = |record| Edition::of_end(record).or_else(|| Edition::of_row(record));
    bytes.chunks_exact(RECORD_BYTES).rev().take(2).find_map(edition).unwrap_or_default()
}

/// Whether a column holds a number in written form.
pub fn is_written(column: &[u8]) -> bool {
    let written = crate::read_column(column).ok().and_then(|number| written(number, column.len()));
    written.is_some_and(|written| written == column)
}

/// A number in written form, where it fits the width.
pub fn written(number: i64, width: usize) -> Option<Vec<u8>> {
    let mut column = vec![b' '; width];
    write_column(&mut column, number).ok().map(|()| column)
}

/// Whether pointer and layer count of a directory's last record are in written form, and the rest spaces. In an edition column any number may stand, or
/// none: that the edition is wrong is for the judge to say.
fn is_formed(end: &[u8]) -> bool {
    let is_so = |column: &Column| match column.name {
        "rest" => column.is_spaces(end),
        "edition" => column.is_spaces(end) || column.value(end).is_some(),
        _ => is_written(column.bytes(end)),
    };
    Edition::of_end(end).is_some_and(|edition| edition.end_layout().columns.iter().skip(1).all(is_so))
}

/// The last record of a file in a form, without its line end; none where the file is no whole records.
pub fn last_record(form: Form, bytes: &[u8]) -> Option<&[u8]> {
    let stride = form.record_bytes();
    let start = bytes.len().checked_sub(stride).filter(|_| bytes.len().is_multiple_of(stride))?;
    bytes.get(start..start + RECORD_BYTES)
}

/// Whether a sheet in a form has a directory behind it: its last record starts `ZE` or `YE`. Where the columns of that record are not of a directory's
/// form, it may be text of the last item: not if it is due as data of that.
pub fn is_behind(form: Form, bytes: &[u8]) -> bool {
    let end = last_record(form, bytes).filter(|last| is_end(last) && FileKind::of(bytes) == FileKind::Sheet);
    let is_data = || Outline::of(&form.records(bytes)).last().is_some_and(|last| matches!(last.what, What::Data { .. }));
    end.is_some_and(|end| is_formed(end) || !is_data())
}

/// The records of the sheet at the start of a file, by its own record count, if it is accepted.
pub fn sheet(bytes: &[u8]) -> Option<&[u8]> {
    let behind = SHEET_B.value("record count", record(bytes, 2)).and_then(|count| usize::try_from(count).ok())?;
    let records = part(bytes).len().checked_add(behind).filter(|_| FileKind::of(bytes) == FileKind::Sheet)?;
    let sheet = bytes.get(..records.checked_mul(RECORD_BYTES)?)?;
    judge_sheet(sheet, sheet.len()).ok().map(|_| sheet)
}

/// The sheet before a directory of either edition, right or wrong, if it is sure where that starts: the records at the start of a plain file, as many as
/// they state themselves, are accepted as a sheet, and each record behind them, also one that is cut off, starts `Z `, `ZE`, `Y ` or `YE`. The whole of a
/// sheet without a directory.
///
/// ```
/// use zvaigulta::{sheet_before_directory, Edition, Sheet, EXAMPLE};
///
/// let mut file = Sheet::from(EXAMPLE.to_vec()).with_edition(Edition::Second)?;
/// file[10 * 84 + 8] = b'7';
/// assert_eq!(sheet_before_directory(&file), Some(EXAMPLE.as_slice()));
/// // Not where a record of the sheet is missing.
/// file.drain(8 * 84..9 * 84);
/// assert_eq!(sheet_before_directory(&file), None);
/// # Ok::<(), zvaigulta::Refusal>(())
/// ```
pub fn sheet_before_directory(plain: &[u8]) -> Option<&[u8]> {
    let sheet = sheet(plain)?;
    plain.get(sheet.len()..)?.chunks(RECORD_BYTES).all(|record| is_row(record) || is_end(record)).then_some(sheet)
}

/// The bytes before a directory that stands whole at the end of a plain file, by its own count of layers, where these are no whole records.
pub fn ragged_before(bytes: &[u8]) -> Option<&[u8]> {
    let (_, end) = bytes.split_at_checked(bytes.len().checked_sub(RECORD_BYTES)?).filter(|(_, end)| is_formed(end))?;
    let edition = Edition::of_end(end)?;
    let layers = edition.end_layout().value("layers", end).and_then(|layers| usize::try_from(layers).ok())?;
    let records = edition.rows(layers).checked_add(1)?;
    let (before, directory) = bytes.split_at_checked(bytes.len().checked_sub(records.checked_mul(RECORD_BYTES)?)?)?;
    let rows = directory.chunks_exact(RECORD_BYTES).take(records - 1).all(is_row);
    Some(before).filter(|before| rows && !before.len().is_multiple_of(RECORD_BYTES))
}

/// How many records stand before the directory of a file: those of its sheet, if that is accepted; else those before the last records that are a
/// directory's; all of them, where the last is none of a directory.
pub fn records_before(bytes: &[u8], sheet: Option<&[u8]>) -> usize {
    sheet.map_or_else(|| before_rows(bytes), |sheet| sheet.len() / RECORD_BYTES)
}

/// The same where no sheet is accepted.
fn before_rows(bytes: &[u8]) -> usize {
    let records = bytes.len() / RECORD_BYTES;
    if directory_record(record(bytes, records), true, edition_in(bytes)).is_none() {
        return records;
    }
    let fits = |row: &&[u8]| Edition::of_row(row).is_some_and(|edition| edition.layout().fits(row));
    let rows = bytes.chunks_exact(RECORD_BYTES).rev().skip(1).take_while(fits);
    records - 1 - rows.count()
}
