//! The calls of the library, with Rust's own types.

use crate::{raw, Reason, Refusal, Unit};
use std::fmt;

/// What an accepted file holds.
#[derive(Clone, Copy, Debug, PartialEq, Eq, Hash)]
#[non_exhaustive]
pub struct Counts {
    /// Its records.
    pub records: usize,
    /// Its items (elements, grids and nets); 0 for an index.
    pub items: usize,
}

/// As the program prints it: `accepted 9 records 1 items`.
impl fmt::Display for Counts {
    fn fmt(&self, f: &mut fmt::Formatter<'_>) -> fmt::Result {
        write!(f, "accepted {} records {} items", self.records, self.items)
    }
}

/// A corner's coordinate in its two parts, which never have opposite signs.
#[derive(Clone, Copy, Debug, PartialEq, Eq, Hash)]
pub struct Corner {
    /// Whole metres.
    pub whole: i64,
    /// The fraction: millimetres for unit 1, centimetres for units 10 and 999.
    pub fraction: i64,
}

/// The way up from a record to its layer.
#[derive(Clone, Copy, Debug, PartialEq, Eq, Hash)]
#[non_exhaustive]
pub struct WayUp {
    /// The record number of the header above; `None` for a layer header.
    pub header: Option<usize>,
    /// How many headers the way passes, the layer's included: the record's level less one.
    pub passed: usize,
}

/// A layer as a directory lists it.
#[derive(Clone, Copy, Debug, PartialEq, Eq, Hash)]
#[non_exhaustive]
pub struct LayerEntry {
    /// The record number of its header.
    pub header: usize,
    /// Its items, at any level; 0 for a directory of the first edition, which does not state them.
    pub total: usize,
    /// The number of its last record; 0 for a directory of the first edition.
    pub last: usize,
}

/// The answer of a call, whose refusal number is 0 where it was accepted.
#[inline]
fn answer<T>(refusal: u64, record: usize, value: T) -> Result<T, Refusal> {
    match refusal {
        0 => Ok(value),
        number => Err(Refusal { reason: Reason::from_number(number), record: Some(record).filter(|record| *record != 0) }),
    }
}

fn counts(raw: raw::Counts) -> Result<Counts, Refusal> {
    answer(raw.refusal, raw.at, Counts { records: raw.records, items: raw.items })
}

fn length(raw: raw::Length) -> Result<usize, Refusal> {
    answer(raw.refusal, raw.at, raw.length)
}

/// Judges a sheet: the first `used` bytes of the buffer.
///
/// # Errors
/// 1 to 10, the first that document 01's order of checks meets.
///
/// ```
/// use zvaigulta::{judge_sheet, Reason, EXAMPLE};
///
/// assert_eq!(judge_sheet(EXAMPLE, EXAMPLE.len())?.to_string(), "accepted 9 records 1 items");
/// // Without its last record the item at record 7 lacks data.
/// let refusal = judge_sheet(EXAMPLE, 8 * 84).unwrap_err();
/// assert_eq!((refusal.reason, refusal.record), (Reason::MissingRecord, Some(7)));
/// // A length that the buffer does not have is answered too.
/// assert_eq!(judge_sheet(EXAMPLE, usize::MAX).unwrap_err().reason, Reason::Length);
/// # Ok::<(), zvaigulta::Refusal>(())
/// ```
pub fn judge_sheet(buffer: &[u8], used: usize) -> Result<Counts, Refusal> {
    counts(raw::judge_sheet(buffer, used))
}

/// Judges an index: the first `used` bytes of the buffer.
///
/// # Errors
/// 1 to 6 and 10, the first that document 01's order of checks meets.
///
/// ```
/// let index = b"I  9City survey office              0 0   0002008Regulation                    10   ";
/// let counts = zvaigulta::judge_index(index, index.len())?;
/// assert_eq!((counts.records, counts.items), (1, 0));
/// # Ok::<(), zvaigulta::Refusal>(())
/// ```
pub fn judge_index(buffer: &[u8], used: usize) -> Result<Counts, Refusal> {
    counts(raw::judge_index(buffer, used))
}

/// Reads a number column; the slice is the column, 1 to 18 bytes.
///
/// # Errors
/// 16 for another width, 5 for a malformed column.
///
/// ```
/// use zvaigulta::{read_column, Reason};
///
/// assert_eq!(read_column(b"  12"), Ok(12));
/// assert_eq!(read_column(b"-007"), Ok(-7));
/// assert_eq!(read_column(b"12  ").unwrap_err().reason, Reason::Malformed);
/// assert_eq!(read_column(b"").unwrap_err().reason, Reason::Number);
/// ```
#[inline]
pub fn read_column(column: &[u8]) -> Result<i64, Refusal> {
    let raw = raw::read(column);
    answer(raw.refusal, raw.at, raw.value)
}

/// Writes a number to a column in written form: shortest digits, spaces in front, over the whole slice.
///
/// # Errors
/// 16 where the width is not 1 to 18 or the number does not fit; the column is then unchanged.
///
/// ```
/// let mut column = *b"****";
/// zvaigulta::write_column(&mut column, -12)?;
/// assert_eq!(&column, b" -12");
/// assert!(zvaigulta::write_column(&mut column, 12_345).is_err());
/// assert_eq!(&column, b" -12");
/// # Ok::<(), zvaigulta::Refusal>(())
/// ```
pub fn write_column(column: &mut [u8], value: i64) -> Result<(), Refusal> {
    length(raw::write(column, value)).map(|_| ())
}

/// Joins a corner's whole metres and fraction to millimetres. The unit says what the fraction counts: millimetres for unit 1, centimetres
/// for units 10 and 999.
///
/// # Errors
/// 16 for another unit, or a part that does not fit its column; then 9 for a fraction that is too large or of opposite sign.
///
/// ```
/// use zvaigulta::{join, Reason, Unit};
///
/// assert_eq!(join(Unit::Millimetre, -1234, -56), Ok(-1_234_056));
/// assert_eq!(join(Unit::Centimetre, -1234, -56), Ok(-1_234_560));
/// assert_eq!(join(Unit::Centimetre, 0, -5), Ok(-50));
/// assert_eq!(join(Unit::Millimetre, 12, -3).unwrap_err().reason, Reason::Fraction);
/// ```
pub fn join(unit: Unit, whole: i64, fraction: i64) -> Result<i64, Refusal> {
    let raw = raw::join(unit.code(), whole, fraction);
    answer(raw.refusal, raw.at, raw.value)
}

/// Splits millimetres into the one corner that joins to them.
///
/// # Errors
/// 16 where there is none.
///
/// ```
/// use zvaigulta::{split, Unit};
///
/// let corner = split(Unit::Centimetre, -50)?;
/// assert_eq!((corner.whole, corner.fraction), (0, -5));
/// assert_eq!(split(Unit::Centimetre, -55).unwrap_err().number(), 16);
/// # Ok::<(), zvaigulta::Refusal>(())
/// ```
pub fn split(unit: Unit, millimetres: i64) -> Result<Corner, Refusal> {
    let raw = raw::split(unit.code(), millimetres);
    answer(raw.refusal, raw.at, Corner { whole: raw.whole, fraction: raw.fraction })
}

/// Writes the normal form of a sheet, every judged integer in written form, to a second buffer; answers its length, which is `used`. Bytes of
/// the second buffer past it stay.
///
/// # Errors
/// Those of judging, 1 to 10; then 15 where the second buffer is too short.
///
/// ```
/// use zvaigulta::{normal_sheet, EXAMPLE};
///
/// let mut loose = EXAMPLE.to_vec();
/// loose[5 * 84 + 18..5 * 84 + 23].copy_from_slice(b"00001");
/// let mut second = vec![0; loose.len()];
/// assert_eq!(normal_sheet(&loose, loose.len(), &mut second)?, loose.len());
/// assert_eq!(second, EXAMPLE);
/// # Ok::<(), zvaigulta::Refusal>(())
/// ```
pub fn normal_sheet(buffer: &[u8], used: usize, second: &mut [u8]) -> Result<usize, Refusal> {
    length(raw::normal_sheet(buffer, used, second))
}

/// The same for an index.
///
/// # Errors
/// Those of judging, 1 to 6 and 10; then 15 where the second buffer is too short.
///
/// ```
/// let loose = b"I 09City survey office            000 0   0002008Regulation                    10   ";
/// let index = b"I  9City survey office              0 0   0002008Regulation                    10   ";
/// let mut second = [0; 84];
/// assert_eq!(zvaigulta::normal_index(loose, loose.len(), &mut second)?, 84);
/// assert_eq!(&second, index);
/// # Ok::<(), zvaigulta::Refusal>(())
/// ```
pub fn normal_index(buffer: &[u8], used: usize, second: &mut [u8]) -> Result<usize, Refusal> {
    length(raw::normal_index(buffer, used, second))
}

/// Inserts a block, one item with its data, before the record at a place or, one past the last record, at the end; answers the new used
/// length. The header above and the sheet's counts are rewritten; the rest moves unchanged. The buffer must have room for the block behind
/// the sheet.
///
/// # Errors
/// Those of judging, 1 to 10; then 11 to 15.
///
/// ```
/// use zvaigulta::{insert, judge_sheet, EXAMPLE};
///
/// let block = &EXAMPLE[6 * 84..];
/// let mut buffer = EXAMPLE.to_vec();
/// buffer.resize(EXAMPLE.len() + block.len(), b' ');
/// let used = insert(&mut buffer, EXAMPLE.len(), 7, block)?;
/// assert_eq!(judge_sheet(&buffer, used)?.items, 2);
/// # Ok::<(), zvaigulta::Refusal>(())
/// ```
pub fn insert(buffer: &mut [u8], used: usize, place: usize, block: &[u8]) -> Result<usize, Refusal> {
    length(raw::insert(buffer, used, place, block))
}

/// Removes the item that starts at a place; answers the new used length. The freed end is filled with spaces.
///
/// # Errors
/// Those of judging, 1 to 10; then 11.
///
/// ```
/// use zvaigulta::{judge_sheet, remove, EXAMPLE};
///
/// let mut buffer = *EXAMPLE;
/// let used = remove(&mut buffer, EXAMPLE.len(), 7)?;
/// assert_eq!(used, 6 * 84);
/// assert_eq!(judge_sheet(&buffer, used)?.items, 0);
/// // Record 6 is a header: nothing is removed.
/// assert_eq!(remove(&mut buffer, used, 6).unwrap_err().number(), 11);
/// # Ok::<(), zvaigulta::Refusal>(())
/// ```
pub fn remove(buffer: &mut [u8], used: usize, place: usize) -> Result<usize, Refusal> {
    length(raw::remove(buffer, used, place))
}

/// The header above a record, and how many headers the way to its layer passes. A data record answers as its item.
///
/// # Errors
/// Those of judging, 1 to 10; then 17.
///
/// ```
/// use zvaigulta::{way_up, EXAMPLE};
///
/// let way = way_up(EXAMPLE, EXAMPLE.len(), 9)?;
/// assert_eq!((way.header, way.passed), (Some(6), 1));
/// assert_eq!(way_up(EXAMPLE, EXAMPLE.len(), 6)?.header, None);
/// assert_eq!(way_up(EXAMPLE, EXAMPLE.len(), 5).unwrap_err().number(), 17);
/// # Ok::<(), zvaigulta::Refusal>(())
/// ```
pub fn way_up(buffer: &[u8], used: usize, number: usize) -> Result<WayUp, Refusal> {
    let raw = raw::way_up(buffer, used, number);
    let header = Some(raw.header).filter(|record| *record != 0);
    answer(raw.refusal, raw.at, WayUp { header, passed: raw.passed })
}

/// Judges a sheet with line ends, the first `used` bytes of the buffer: behind each record of 84 bytes stand carriage return and line feed, 86
/// bytes in all. Answers as [`judge_sheet`] does for its plain twin, the same records without their ends; records have the same numbers.
///
/// # Errors
/// 1, by multiples of 86; then 18 with the first record of the file that does not end so; then those of the plain twin, 2 to 10.
///
/// ```
/// use zvaigulta::{judge_sheet_lines, to_lines, Reason, EXAMPLE};
///
/// let mut sheet = vec![0; 9 * 86];
/// to_lines(EXAMPLE, EXAMPLE.len(), &mut sheet)?;
/// assert_eq!(judge_sheet_lines(&sheet, sheet.len())?.to_string(), "accepted 9 records 1 items");
/// // Without its last record the item at record 7 lacks data, as in the plain form.
/// let refusal = judge_sheet_lines(&sheet, 8 * 86).unwrap_err();
/// assert_eq!((refusal.reason, refusal.record), (Reason::MissingRecord, Some(7)));
/// // A wrong end is told before anything else.
/// sheet[8 * 86 + 85] = b' ';
/// let refusal = judge_sheet_lines(&sheet, sheet.len()).unwrap_err();
/// assert_eq!((refusal.reason, refusal.record), (Reason::LineEnd, Some(9)));
/// # Ok::<(), zvaigulta::Refusal>(())
/// ```
pub fn judge_sheet_lines(buffer: &[u8], used: usize) -> Result<Counts, Refusal> {
    counts(raw::judge_sheet_lines(buffer, used))
}

/// Judges an index with line ends: as [`judge_sheet_lines`], with the answer of [`judge_index`] for its plain twin.
///
/// # Errors
/// 1, by multiples of 86; then 18; then those of the plain twin, 2 to 6 and 10.
///
/// ```
/// let index = b"I  9City survey office              0 0   0002008Regulation                    10   \r\n";
/// let counts = zvaigulta::judge_index_lines(index, index.len())?;
/// assert_eq!((counts.records, counts.items), (1, 0));
/// # Ok::<(), zvaigulta::Refusal>(())
/// ```
pub fn judge_index_lines(buffer: &[u8], used: usize) -> Result<Counts, Refusal> {
    counts(raw::judge_index_lines(buffer, used))
}

/// Writes the records of a plain file, the first `used` bytes of the buffer, to a target with carriage return and line feed behind each;
/// answers the result's length, 86 bytes a record. Bytes of the target past it stay. Nothing else is judged: any bytes are records, a block
/// as well as a file.
///
/// # Errors
/// 1; then 15 where the target is too short. The target is then unchanged.
///
/// ```
/// use zvaigulta::{from_lines, to_lines, Reason, EXAMPLE};
///
/// let mut lines = vec![0; 800];
/// assert_eq!(to_lines(EXAMPLE, EXAMPLE.len(), &mut lines)?, 9 * 86);
/// assert_eq!(&lines[84..86], b"\r\n");
/// // Over and back gives the same bytes.
/// let mut plain = [0; 9 * 84];
/// assert_eq!(from_lines(&lines, 9 * 86, &mut plain)?, 9 * 84);
/// assert_eq!(&plain, EXAMPLE);
/// assert_eq!(to_lines(EXAMPLE, EXAMPLE.len(), &mut lines[..9 * 86 - 1]).unwrap_err().reason, Reason::Room);
/// # Ok::<(), zvaigulta::Refusal>(())
/// ```
pub fn to_lines(buffer: &[u8], used: usize, target: &mut [u8]) -> Result<usize, Refusal> {
    length(raw::to_lines(buffer, used, target))
}

/// Writes the records of a file with line ends, the first `used` bytes of the buffer, to a target without their ends; answers the result's
/// length, 84 bytes a record. Bytes of the target past it stay. Nothing else is judged.
///
/// # Errors
/// 1, by multiples of 86; then 18 with the first record that does not end in carriage return and line feed; then 15 where the target is too
/// short. The target is then unchanged.
///
/// ```
/// use zvaigulta::{from_lines, Reason};
///
/// // Line feed before carriage return is no line end.
/// let mut lines = [b' '; 2 * 86];
/// lines[84..86].copy_from_slice(b"\r\n");
/// lines[170..].copy_from_slice(b"\n\r");
/// let refusal = from_lines(&lines, lines.len(), &mut [0; 2 * 84]).unwrap_err();
/// assert_eq!((refusal.reason, refusal.record), (Reason::LineEnd, Some(2)));
/// ```
pub fn from_lines(buffer: &[u8], used: usize, target: &mut [u8]) -> Result<usize, Refusal> {
    length(raw::from_lines(buffer, used, target))
}

/// Judges a sheet with a directory of layers behind it, the first `used` bytes of the buffer. Accepted where the records before the directory are
/// an accepted sheet, and the directory lists each of its layer headers once, in order, and nothing else; answers what the sheet holds, without the
/// records of the directory.
///
/// # Errors
/// 1, by the buffer and multiples of 84 alone; then 19 with the last record, if that is no well-formed `ZE` record whose pointer lies from 1 to its
/// own number; then 1 to 10 of the sheet before the pointer; then 19 with the first record that differs from the right directory.
///
/// ```
/// use zvaigulta::{append_directory, judge_directory, judge_sheet, write_column, Reason, EXAMPLE};
///
/// let mut file = EXAMPLE.to_vec();
/// file.resize(11 * 84, 0);
/// assert_eq!(append_directory(&mut file, EXAMPLE.len())?, file.len());
/// assert_eq!(judge_directory(&file, file.len())?.to_string(), "accepted 9 records 1 items");
/// // Judged as a sheet alone, the records of the directory have no place in it.
/// let refusal = judge_sheet(&file, file.len()).unwrap_err();
/// assert_eq!((refusal.reason, refusal.record), (Reason::RecordType, Some(10)));
/// // The header of the one layer is record 6, not 7.
/// write_column(&mut file[9 * 84 + 2..9 * 84 + 9], 7)?;
/// let refusal = judge_directory(&file, file.len()).unwrap_err();
/// assert_eq!((refusal.reason, refusal.record), (Reason::Directory, Some(10)));
/// // Without its closing record a directory is none.
/// let refusal = judge_directory(&file, 10 * 84).unwrap_err();
/// assert_eq!((refusal.reason, refusal.record), (Reason::Directory, Some(10)));
/// # Ok::<(), zvaigulta::Refusal>(())
/// ```
pub fn judge_directory(buffer: &[u8], used: usize) -> Result<Counts, Refusal> {
    counts(raw::judge_directory(buffer, used))
}

/// Appends a directory of its layers to a sheet, the first `used` bytes of the buffer; answers the new used length. The directory is a record for
/// each eleven layers, or the rest of them, and one that closes it. Bytes past the new used length stay.
///
/// # Errors
/// Those of judging the sheet, 1 to 10; then 15 where the buffer has no room for the directory behind the sheet.
///
/// ```
/// use zvaigulta::{append_directory, Reason, EXAMPLE};
///
/// let mut file = EXAMPLE.to_vec();
/// file.resize(11 * 84, 0);
/// assert_eq!(append_directory(&mut file[..11 * 84 - 1], EXAMPLE.len()).unwrap_err().reason, Reason::Room);
/// let used = append_directory(&mut file, EXAMPLE.len())?;
/// assert_eq!(used, 11 * 84);
/// // The header of layer 1 is record 6; the directory starts at record 10 and lists one layer.
/// assert!(file[9 * 84..].starts_with(b"Z       6 "));
/// assert!(file[10 * 84..].starts_with(b"ZE     10      1 "));
/// // A sheet with its directory is no sheet to append one to.
/// assert_eq!(append_directory(&mut file, used).unwrap_err().reason, Reason::RecordType);
/// # Ok::<(), zvaigulta::Refusal>(())
/// ```
pub fn append_directory(buffer: &mut [u8], used: usize) -> Result<usize, Refusal> {
    length(raw::append_directory(buffer, used))
}

/// The record number of the header of a layer, numbered from 1, in a sheet with a directory, the first `used` bytes of the buffer. Once the file is
/// judged, one record of the directory is read for it.
///
/// # Errors
/// Those of [`judge_directory`], 1 to 10 and 19; then 17 where the sheet has no such layer.
///
/// ```
/// use zvaigulta::{append_directory, jump, Reason, EXAMPLE};
///
/// let mut file = EXAMPLE.to_vec();
/// file.resize(11 * 84, 0);
/// let used = append_directory(&mut file, EXAMPLE.len())?;
/// assert_eq!(jump(&file, used, 1)?, 6);
/// assert_eq!(jump(&file, used, 0).unwrap_err().reason, Reason::RecordNumber);
/// assert_eq!(jump(&file, used, 2).unwrap_err().to_string(),
///     "refused 17: the record number is outside the file or in the sheet part, or there is no such layer");
/// // Without a directory there is nothing to jump by.
/// assert_eq!(jump(EXAMPLE, EXAMPLE.len(), 1).unwrap_err().reason, Reason::Directory);
/// # Ok::<(), zvaigulta::Refusal>(())
/// ```
pub fn jump(buffer: &[u8], used: usize, layer: usize) -> Result<usize, Refusal> {
    let raw = raw::jump(buffer, used, layer);
    answer(raw.refusal, raw.at, raw.header)
}

/// Judges a sheet with a directory of layers of either edition behind it, the first `used` bytes of the buffer. One of the second edition is accepted
/// where it lists header, item total and last record of each layer of an accepted sheet, in order, and nothing else; one of the first as
/// [`judge_directory`] says. Answers what the sheet holds, without the records of the directory.
///
/// # Errors
/// 1, by the buffer and multiples of 84 alone; then 27 with the last record, if that starts `YE` and its edition column is not 2 in written form; then
/// those of [`judge_directory`], with `YE` for `ZE` in the second edition.
///
/// ```
/// use zvaigulta::{append_second_edition, judge_directory, judge_either_edition, write_column, Reason, EXAMPLE};
///
/// let mut file = EXAMPLE.to_vec();
/// file.resize(11 * 84, 0);
/// assert_eq!(append_second_edition(&mut file, EXAMPLE.len())?, file.len());
/// assert_eq!(judge_either_edition(&file, file.len())?.to_string(), "accepted 9 records 1 items");
/// // The call of the first edition does not read the second.
/// let refusal = judge_directory(&file, file.len()).unwrap_err();
/// assert_eq!((refusal.reason, refusal.record), (Reason::Directory, Some(11)));
/// // The one layer holds 1 item, not 2.
/// let mut wrong = file.clone();
/// write_column(&mut wrong[9 * 84 + 9..9 * 84 + 16], 2)?;
/// let refusal = judge_either_edition(&wrong, wrong.len()).unwrap_err();
/// assert_eq!((refusal.reason, refusal.record), (Reason::Directory, Some(10)));
/// // A record that starts YE states edition 2, in written form.
/// file[10 * 84 + 21] = b'0';
/// let refusal = judge_either_edition(&file, file.len()).unwrap_err();
/// assert_eq!((refusal.reason, refusal.record), (Reason::Edition, Some(11)));
/// # Ok::<(), zvaigulta::Refusal>(())
/// ```
pub fn judge_either_edition(buffer: &[u8], used: usize) -> Result<Counts, Refusal> {
    counts(raw::judge_either_edition(buffer, used))
}

/// Appends a directory of its layers in the second edition to a sheet, the first `used` bytes of the buffer; answers the new used length. The directory
/// is a record for each three layers, or the rest of them, and one that closes it. Bytes past the new used length stay.
///
/// # Errors
/// Those of judging the sheet, 1 to 10; then 15 where the buffer has no room for the directory behind the sheet.
///
/// ```
/// use zvaigulta::{append_second_edition, EXAMPLE};
///
/// let mut file = EXAMPLE.to_vec();
/// file.resize(11 * 84, 0);
/// assert_eq!(append_second_edition(&mut file, EXAMPLE.len())?, 11 * 84);
/// // Layer 1: its header is record 6, it holds 1 item, its last record is 9. The directory starts at record 10 and lists one layer, in edition 2.
/// assert!(file[9 * 84..].starts_with(b"Y       6      1      9 "));
/// assert!(file[10 * 84..].starts_with(b"YE     10      1      2 "));
/// # Ok::<(), zvaigulta::Refusal>(())
/// ```
pub fn append_second_edition(buffer: &mut [u8], used: usize) -> Result<usize, Refusal> {
    length(raw::append_second_edition(buffer, used))
}

/// The record number of the header of a layer, numbered from 1, in a sheet with a directory of either edition, the first `used` bytes of the buffer;
/// with it the layer's item total and its last record, where the edition states them. Once the file is judged, one record of the directory is read
/// for it.
///
/// # Errors
/// Those of [`judge_either_edition`], 1 to 10, 19 and 27; then 17 where the sheet has no such layer.
///
/// ```
/// use zvaigulta::{append_directory, append_second_edition, jump_either_edition, Reason, EXAMPLE};
///
/// let mut file = EXAMPLE.to_vec();
/// file.resize(11 * 84, 0);
/// append_second_edition(&mut file, EXAMPLE.len())?;
/// let layer = jump_either_edition(&file, file.len(), 1)?;
/// assert_eq!((layer.header, layer.total, layer.last), (6, 1, 9));
/// assert_eq!(jump_either_edition(&file, file.len(), 2).unwrap_err().reason, Reason::RecordNumber);
/// // The first edition lists the headers alone.
/// append_directory(&mut file, EXAMPLE.len())?;
/// let layer = jump_either_edition(&file, file.len(), 1)?;
/// assert_eq!((layer.header, layer.total, layer.last), (6, 0, 0));
/// # Ok::<(), zvaigulta::Refusal>(())
/// ```
pub fn jump_either_edition(buffer: &[u8], used: usize, layer: usize) -> Result<LayerEntry, Refusal> {
    let raw = raw::jump_either_edition(buffer, used, layer);
    answer(raw.refusal, raw.at, LayerEntry { header: raw.header, total: raw.total, last: raw.last })
}

/// Puts the line that the program `dm` prints on an input, with its line end, at the start of a buffer; answers the line's length. Bytes
/// behind it stay.
///
/// # Errors
/// 15 where the buffer is too short; 65 bytes are always enough.
///
/// ```
/// let mut line = [0; 65];
/// let length = zvaigulta::report(zvaigulta::EXAMPLE, &mut line)?;
/// assert_eq!(&line[..length], b"accepted 9 records 1 items\n");
///
/// let length = zvaigulta::report(&[b' '; 65_521], &mut line)?;
/// assert_eq!(&line[..length], b"too long\n");
/// # Ok::<(), zvaigulta::Refusal>(())
/// ```
pub fn report(input: &[u8], out: &mut [u8]) -> Result<usize, Refusal> {
    length(raw::report(input, out))
}
