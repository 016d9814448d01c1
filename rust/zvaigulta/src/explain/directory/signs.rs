//! Signs of a loss: what stands behind a sheet states more than the sheet holds. It is read as far as a number can be made out, also where the record is
//! cut off, its letters are wrong or the number is not in written form.

use super::{columns, Directory};
use crate::directory::is_row;
use crate::layout::Layout;
use crate::outline::{directory_record, record, DirectoryRecord, Layer};
use crate::{Edition, RECORD_BYTES};

/// A number in a column, as far as it can be made out.
pub fn readable(column: &[u8]) -> Option<i64> {
    std::str::from_utf8(column).ok()?.trim().parse().ok()
}

/// The edition that a record of a directory is of by its first letter, also where it is cut off behind that.
pub fn edition_of(record: &[u8]) -> Option<Edition> {
    let begun = |letters: &[u8]| letters.starts_with(record.get(..2).unwrap_or(record)) && !record.is_empty();
    Edition::ALL.into_iter().find(|edition| begun(edition.letters()) || begun(edition.end_letters()))
}

impl Directory<'_> {
    /// The records behind the sheet, the last of them also where it is cut off.
    pub fn pieces(&self) -> impl Iterator<Item = &[u8]> {
        self.bytes.get(self.before * RECORD_BYTES..).unwrap_or(&[]).chunks(RECORD_BYTES)
    }

    /// Whether the file ends inside a record, or in one that lists layers: how many there were is lost.
    pub fn is_cut(&self) -> bool {
        !self.bytes.len().is_multiple_of(RECORD_BYTES) || is_row(self.end())
    }

    /// Whether the last record of the sheet, a text of its last item, reads as one of a directory: it may stand in the place of a lost one.
    pub fn is_taken_as_text(&self) -> bool {
        let last = record(self.bytes, self.before);
        let layout = Edition::of_row(last).map(Edition::layout).or_else(|| Edition::of_end(last).map(Edition::end_layout));
        // The header of the first layer, or the pointer.
        let number = layout.and_then(|layout| readable(layout.columns.get(1)?.bytes(last)));
        self.sheet.is_some() && number.is_some()
    }

    /// Whether something behind the sheet states more than the sheet holds.
    pub fn shows_more(&self) -> bool {
        let (grown, layers) = (self.is_grown(), self.headers().len());
        let counts_more = |edition: Edition, end: &[u8]| counts_more(edition.end_layout(), end, self.before + 1, layers);
        let ends = |piece: &[u8]| Edition::of_end(piece).is_some_and(|edition| counts_more(edition, piece));
        self.pieces().any(|piece| ends(piece) || self.lists_more(piece, grown)) || counts_more(self.edition, self.end())
    }

    /// Whether a record lists a layer that the sheet does not have, or more of one than there is.
    fn lists_more(&self, piece: &[u8], grown: bool) -> bool {
        let edition = Edition::of_row(piece).or_else(|| match directory_record(piece, false, self.edition) {
            Some(DirectoryRecord::Row(edition)) => Some(edition),
            _ => None,
        });
        let entries = edition.map_or_else(Vec::new, |edition| columns::entries(edition, piece));
        entries.iter().any(|entry| self.is_more(entry, grown))
    }

    /// The same of what is listed of one layer; where records were put in, headers stand further on than they are listed.
    fn is_more(&self, entry: &[Option<i64>], grown: bool) -> bool {
        let layers = self.sheet.as_ref().map_or(&[][..], |sheet| &sheet.layers);
        let header = entry.first().copied().flatten();
        let named = header.and_then(|header| layers.binary_search_by_key(&header, |layer| layer.header.number as i64).ok());
        let past = entry.get(2).copied().flatten().is_some_and(|last| last > self.before as i64);
        let unknown = header.is_some() && named.is_none() && !grown;
        past || unknown || named.and_then(|named| layers.get(named)).is_some_and(|layer| is_above(entry, layer))
    }

    /// Whether it states more of the layer that is due in a place than the sheet has there.
    pub fn states_more(&self) -> bool {
        let layers = self.sheet.as_ref().map_or(&[][..], |sheet| &sheet.layers);
        self.entries().iter().zip(layers).any(|(entry, layer)| is_above(entry, layer))
    }
}

/// Whether pointer or layer count of a last record are above these.
fn counts_more(layout: &Layout, end: &[u8], pointer: usize, layers: usize) -> bool {
    let above = |name: &str, most: usize| {
        let number = layout.column(name).and_then(|column| readable(column.bytes(end)));
        number.is_some_and(|number| number > most as i64)
    };
    above("pointer", pointer) || above("layers", layers)
}

/// Whether what is listed of a layer, header, total and last record, is more than the layer holds.
fn is_above(entry: &[Option<i64>], layer: &Layer) -> bool {
    let [header, total, last] = entry else { return false };
    let behind = last.zip(*header).map(|(last, header)| last.saturating_sub(header));
    total.is_some_and(|total| total > layer.items as i64) || behind.is_some_and(|records| records >= layer.records as i64)
}
