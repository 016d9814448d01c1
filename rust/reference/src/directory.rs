//! Orders 5 and 13 of document 02: a directory of layers at the end of a sheet, in its first and its second edition.

use crate::column::{self, parse, Column};
use crate::judge::{self, Counts, Walked};
use crate::record::Sort;
use crate::{refuse, Refusal, RECORD};

/// A layer: the record number of its header, its "item total, at any depth, and last record".
#[derive(Clone, Copy, Debug, PartialEq, Eq)]
pub struct Layer {
    pub header: usize,
    pub total: usize,
    pub last: usize,
}

/// An edition of the directory.
#[derive(Debug)]
pub struct Edition {
    /// The letters of a record that lists layers.
    pub list: &'static str,
    /// The letters of the last record.
    pub end: &'static str,
    /// How many layers a record lists.
    pub layers: usize,
    /// How many of header, total and last it states of a layer.
    pub numbers: usize,
    /// What the last record states behind its pointer and its count: nothing, or the edition.
    pub edition: &'static [i64],
}

/// "records that start "Z ", each with up to eleven I7 record numbers [..], then one record "ZE"".
pub const FIRST: Edition = Edition { list: "Z ", end: "ZE", layers: 11, numbers: 1, edition: &[] };

/// "Edition 2 records start "Y " and hold three I7 numbers a layer (header, total, last), up to three layers [..]; it ends in "YE" with back
/// pointer, layer count and edition 2".
pub const SECOND: Edition = Edition { list: "Y ", end: "YE", layers: 3, numbers: 3, edition: &[2] };

/// A record: its letters, I7 columns in written form, and the rest spaces.
pub fn record(letters: &str, numbers: &[i64]) -> Vec<u8> {
    let mut bytes = letters.as_bytes().to_vec();
    numbers.iter().for_each(|n| bytes.extend(column::write(7, *n).expect("a number of seven columns")));
    bytes.resize(RECORD, b' ');
    bytes
}

/// The record numbers of the layer headers, counted from the front.
pub fn layers(walked: &Walked) -> Vec<usize> {
    let is_layer = |f: &&judge::Found| f.sort == Sort::Header && f.level == 1;
    walked.found.iter().filter(is_layer).map(|f| f.place + 1).collect()
}

/// The layers of a sheet of so many records. A layer goes as far as the record before the next layer's header, or the sheet's last, and every item
/// between belongs to it, however deep.
pub fn described(walked: &Walked, records: usize) -> Vec<Layer> {
    let headers = layers(walked);
    let ends = headers.iter().skip(1).map(|next| next - 1).chain([records]);
    let items: Vec<usize> = walked.found.iter().filter(|f| f.sort != Sort::Header).map(|f| f.place + 1).collect();
    let before = |number: usize| items.partition_point(|item| *item <= number);
    headers.iter().zip(ends).map(|(h, last)| Layer { header: *h, total: before(last) - before(*h), last }).collect()
}

impl Edition {
    /// What this edition states of a layer.
    pub fn states(&self, layer: &Layer) -> Vec<i64> {
        [layer.header, layer.total, layer.last][..self.numbers].iter().map(|n| *n as i64).collect()
    }

    /// What a jump finds by this edition: "the same headers, with total and last beside them, both 0 for edition 1".
    pub fn finds(&self, layer: &Layer) -> Layer {
        let stated = |place: usize, n: usize| if place < self.numbers { n } else { 0 };
        Layer { header: layer.header, total: stated(1, layer.total), last: stated(2, layer.last) }
    }

    /// The last record with a pointer and a count.
    pub fn closing(&self, pointer: i64, count: i64) -> Vec<u8> {
        record(self.end, &[&[pointer, count], self.edition].concat())
    }

    /// The right directory of a sheet of so many records with these layers: "the number of the first "Z " record, or of "ZE" itself for no
    /// layers" is the one behind the sheet's last.
    fn right(&self, records: usize, layers: &[Layer]) -> Vec<Vec<u8>> {
        let row = |some: &[Layer]| record(self.list, &some.iter().flat_map(|layer| self.states(layer)).collect::<Vec<_>>());
        let mut directory: Vec<Vec<u8>> = layers.chunks(self.layers).map(row).collect();
        directory.push(self.closing(records as i64 + 1, layers.len() as i64));
        directory
    }

    /// Whether the edition column of a last record holds this edition in written form; the first edition has no such column.
    fn is_stated(&self, last: &[u8]) -> bool {
        let column = &record("", self.edition)[..7 * self.edition.len()];
        last[16..].starts_with(column)
    }

    /// The pointer of a well-formed last record: one that is just what its numbers make.
    fn pointer(&self, last: &[u8]) -> Option<i64> {
        let (Column::Value(pointer), Column::Value(count)) = (parse(&last[2..9]), parse(&last[9..16])) else {
            return None;
        };
        (last == self.closing(pointer, count)).then_some(pointer)
    }

    /// Judges the records of a file from "then 19 with the last record" on; answers the counts and the layers.
    fn judge(&self, buffer: &[u8], records: &[&[u8]]) -> Result<(Counts, Vec<Layer>), Refusal> {
        let last = records.len();
        // "if that is no well-formed "ZE" whose pointer lies from 1 to its own number"
        let pointer = self.pointer(records[last - 1]).and_then(|n| usize::try_from(n).ok());
        let Some(pointer) = pointer.filter(|n| (1..=last).contains(n)) else {
            return refuse(19, last);
        };
        // "then 1 to 10 on the sheet before the pointer"
        let (walked, counts) = judge::accepted(buffer, (pointer - 1) * RECORD)?;
        let layers = described(&walked, counts.records);
        // "then 19, directory wrong, with the first record that differs from the right directory"
        match differs(&records[pointer - 1..], &self.right(counts.records, &layers)) {
            Some(place) => refuse(19, pointer + place),
            None => Ok((counts, layers.iter().map(|layer| self.finds(layer)).collect())),
        }
    }

    /// Appends the directory of this edition to an accepted sheet; answers "the new used length; bytes past that stay".
    pub fn append(&self, buffer: &mut [u8], used: usize) -> Result<usize, Refusal> {
        let (walked, counts) = judge::accepted(buffer, used)?;
        let directory = self.right(counts.records, &described(&walked, counts.records)).concat();
        match buffer[used..].get_mut(..directory.len()) {
            Some(room) => room.copy_from_slice(&directory),
            None => return refuse(15, 0),
        }
        Ok(used + directory.len())
    }
}

/// The first place at which two lists of records differ, from 0: one of them may have ended there.
fn differs(stated: &[&[u8]], right: &[Vec<u8>]) -> Option<usize> {
    let longest = stated.len().max(right.len());
    (0..longest).find(|i| stated.get(*i).copied() != right.get(*i).map(Vec::as_slice))
}

/// The calls that read a directory, by the editions that they know.
pub struct Reader(&'static [Edition]);

/// "The old calls stay and refuse" the second edition.
pub const OLD: Reader = Reader(&[FIRST]);

/// "new ones read both".
pub const NEW: Reader = Reader(&[FIRST, SECOND]);

impl Reader {
    /// Judges a sheet with its directory; answers the counts and what a jump to each layer finds.
    fn judge(&self, buffer: &[u8], used: usize) -> Result<(Counts, Vec<Layer>), Refusal> {
        // "1 tests the used length against 0, the buffer and 84 only"
        if used == 0 || used > buffer.len() || !used.is_multiple_of(RECORD) {
            return refuse(1, 0);
        }
        let records: Vec<&[u8]> = buffer[..used].chunks(RECORD).collect();
        let last = records[records.len() - 1];
        match self.0.iter().find(|edition| last.starts_with(edition.end.as_bytes())) {
            // "27 with the last record, when that starts "YE" but its edition column is not 2 in written form, tested directly after 1"
            Some(edition) if !edition.is_stated(last) => refuse(27, records.len()),
            Some(edition) => edition.judge(buffer, &records),
            // with other letters it is the last record of no edition that is known here
            None => refuse(19, records.len()),
        }
    }

    /// Judges a sheet with directory: "Accepted judging answers the sheet's records and items".
    pub fn sheet(&self, buffer: &[u8], used: usize) -> Result<Counts, Refusal> {
        self.judge(buffer, used).map(|(counts, _)| counts)
    }

    /// What is found of layer n: "then 17 for a layer outside the count, layers counted from 1".
    pub fn jump(&self, buffer: &[u8], used: usize, layer: u64) -> Result<Layer, Refusal> {
        let (_, layers) = self.judge(buffer, used)?;
        let found = usize::try_from(layer).ok().and_then(|n| layers.get(n.checked_sub(1)?).copied());
        found.map_or_else(|| refuse(17, 0), Ok)
    }
}

/// Judges a sheet with a directory of the first edition.
pub fn sheet(buffer: &[u8], used: usize) -> Result<Counts, Refusal> {
    OLD.sheet(buffer, used)
}

/// Appends the first edition.
pub fn append(buffer: &mut [u8], used: usize) -> Result<usize, Refusal> {
    FIRST.append(buffer, used)
}

/// The record number of the header of layer n, by a directory of the first edition.
pub fn jump(buffer: &[u8], used: usize, layer: u64) -> Result<usize, Refusal> {
    OLD.jump(buffer, used, layer).map(|found| found.header)
}
