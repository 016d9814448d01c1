//! A sheet that owns its bytes.

use crate::layout::SHEET_B;
use crate::outline::{Outline, Record, Sort, Stated, What};
use crate::{
    insert, judge_either_edition, judge_sheet, normal_sheet, remove, way_up, Counts, Edition, Refusal, WayUp, RECORD_BYTES,
};

/// A sheet with its bytes. Any bytes make one: [`Sheet::judge`] says whether they are accepted, and every other call judges first.
///
/// ```
/// use zvaigulta::{Sheet, EXAMPLE};
///
/// let mut sheet = Sheet::from(EXAMPLE.to_vec());
/// assert_eq!(sheet.judge()?.items, 1);
///
/// // A copy of its one item, put behind the last record; then the first of the two is taken out.
/// let item = sheet.items().next().unwrap().bytes.to_vec();
/// sheet.insert(10, &item)?;
/// assert_eq!(sheet.judge()?.items, 2);
/// sheet.remove(7)?;
/// assert_eq!(sheet.as_bytes(), EXAMPLE);
/// # Ok::<(), zvaigulta::Refusal>(())
/// ```
#[derive(Clone, Debug, Default, PartialEq, Eq, Hash)]
pub struct Sheet {
    bytes: Vec<u8>,
}

/// An item of a sheet: an element, a grid or a net.
#[derive(Clone, Copy, Debug)]
#[non_exhaustive]
pub struct Item<'a> {
    /// The number of its own record.
    pub number: usize,
    /// What it is; never a header.
    pub sort: Sort,
    /// Its level, where that can be read.
    pub level: Option<i64>,
    /// Its own record and its data records, as [`Sheet::insert`] takes them.
    pub bytes: &'a [u8],
}

impl Sheet {
    /// Its bytes.
    pub fn as_bytes(&self) -> &[u8] {
        &self.bytes
    }

    /// Its bytes, without a copy.
    pub fn into_bytes(self) -> Vec<u8> {
        self.bytes
    }

    /// Whether it is accepted, and what it holds.
    ///
    /// # Errors
    /// Those of [`judge_sheet`], 1 to 10.
    pub fn judge(&self) -> Result<Counts, Refusal> {
        judge_sheet(&self.bytes, self.bytes.len())
    }

    /// Inserts a block, one item with its data, before the record at a place or, one past the last record, at the end. Answers what the sheet holds
    /// then, which is accepted.
    ///
    /// # Errors
    /// Those of [`insert`](fn@insert), 1 to 14; the sheet is then unchanged.
    pub fn insert(&mut self, place: usize, block: &[u8]) -> Result<Counts, Refusal> {
        let used = self.bytes.len();
        self.bytes.resize(used + block.len(), b' ');
        let answer = insert(&mut self.bytes, used, place, block);
        self.bytes.truncate(answer.unwrap_or(used));
        answer.map(|_| self.stated())
    }

    /// Removes the item that starts at a place. Answers what the sheet holds then, which is accepted.
    ///
    /// # Errors
    /// Those of [`remove`](fn@remove), 1 to 11; the sheet is then unchanged.
    pub fn remove(&mut self, place: usize) -> Result<Counts, Refusal> {
        let used = self.bytes.len();
        let answer = remove(&mut self.bytes, used, place);
        self.bytes.truncate(answer.unwrap_or(used));
        answer.map(|_| self.stated())
    }

    /// The header above a record, and how many headers the way to its layer passes.
    ///
    /// # Errors
    /// Those of [`way_up`](fn@way_up), 1 to 10 and 17.
    pub fn way_up(&self, number: usize) -> Result<WayUp, Refusal> {
        way_up(&self.bytes, self.bytes.len(), number)
    }

    /// The same sheet with every judged integer in written form.
    ///
    /// # Errors
    /// Those of [`judge_sheet`], 1 to 10.
    ///
    /// ```
    /// use zvaigulta::{Sheet, EXAMPLE};
    ///
    /// let mut loose = EXAMPLE.to_vec();
    /// loose[5 * 84 + 18..5 * 84 + 23].copy_from_slice(b"00001");
    /// assert_eq!(Sheet::from(loose).normal()?.as_bytes(), EXAMPLE);
    /// # Ok::<(), zvaigulta::Refusal>(())
    /// ```
    pub fn normal(&self) -> Result<Sheet, Refusal> {
        let mut second = vec![b' '; self.bytes.len()];
        normal_sheet(&self.bytes, self.bytes.len(), &mut second)?;
        Ok(Sheet { bytes: second })
    }

    /// The sheet of a file with a directory of layers of either edition, which is taken off.
    ///
    /// # Errors
    /// Those of [`judge_either_edition`], 1 to 10, 19 and 27.
    ///
    /// ```
    /// use zvaigulta::{Sheet, EXAMPLE};
    ///
    /// let file = Sheet::from(EXAMPLE.to_vec()).with_directory()?;
    /// // Edits work on the sheet without its directory, which is appended anew.
    /// let mut sheet = Sheet::without_directory(file)?;
    /// assert_eq!(sheet.as_bytes(), EXAMPLE);
    /// sheet.remove(7)?;
    /// assert_eq!(sheet.with_directory()?.len(), 8 * 84);
    /// # Ok::<(), zvaigulta::Refusal>(())
    /// ```
    pub fn without_directory(mut file: Vec<u8>) -> Result<Sheet, Refusal> {
        let counts = judge_either_edition(&file, file.len())?;
        file.truncate(counts.records * RECORD_BYTES);
        Ok(Sheet { bytes: file })
    }

    /// The file of this sheet with the directory of its layers in the first edition behind it.
    ///
    /// # Errors
    /// Those of [`judge_sheet`], 1 to 10.
    ///
    /// ```
    /// use zvaigulta::{judge_directory, jump, Sheet, EXAMPLE};
    ///
    /// let file = Sheet::from(EXAMPLE.to_vec()).with_directory()?;
    /// assert_eq!(judge_directory(&file, file.len())?.records, 9);
    /// assert_eq!(jump(&file, file.len(), 1)?, 6);
    /// # Ok::<(), zvaigulta::Refusal>(())
    /// ```
    pub fn with_directory(&self) -> Result<Vec<u8>, Refusal> {
        self.with_edition(Edition::First)
    }

    /// The same with a directory of an edition.
    ///
    /// # Errors
    /// Those of [`judge_sheet`], 1 to 10.
    ///
    /// ```
    /// use zvaigulta::{jump_either_edition, Edition, Sheet, EXAMPLE};
    ///
    /// let file = Sheet::from(EXAMPLE.to_vec()).with_edition(Edition::Second)?;
    /// let layer = jump_either_edition(&file, file.len(), 1)?;
    /// assert_eq!((layer.header, layer.total, layer.last), (6, 1, 9));
    /// assert_eq!(Sheet::without_directory(file)?.as_bytes(), EXAMPLE);
    /// # Ok::<(), zvaigulta::Refusal>(())
    /// ```
    pub fn with_edition(&self, edition: Edition) -> Result<Vec<u8>, Refusal> {
        let used = self.bytes.len();
        // A sheet has at most as many layers as records; one record more closes the directory.
        let most = edition.rows(used / RECORD_BYTES) + 1;
        let mut file = self.bytes.clone();
        file.resize(used + most * RECORD_BYTES, b' ');
        let length = edition.append(&mut file, used)?;
        file.truncate(length);
        Ok(file)
    }

    /// Its records, each with what it is. Of a sheet that is refused the names are the best guess.
    ///
    /// ```
    /// use zvaigulta::{Sheet, EXAMPLE};
    ///
    /// let sheet = Sheet::from(EXAMPLE.to_vec());
    /// let titles: Vec<String> = sheet.records().map(|record| record.title()).collect();
    /// assert_eq!((titles[0].as_str(), titles[5].as_str()), ("sheet a", "layer header, level 1"));
    /// ```
    pub fn records(&self) -> Outline<'_> {
        Outline::of(&self.bytes)
    }

    /// Its items, at any level, in the order of the file.
    ///
    /// ```
    /// use zvaigulta::{Sheet, EXAMPLE};
    ///
    /// let sheet = Sheet::from(EXAMPLE.to_vec());
    /// let items: Vec<(usize, String)> = sheet.items().map(|item| (item.number, item.sort.name())).collect();
    /// assert_eq!(items, [(7, "line E2".to_string())]);
    /// ```
    pub fn items(&self) -> impl Iterator<Item = Item<'_>> {
        self.records().filter_map(|record| self.item(&record))
    }

    fn item(&self, record: &Record<'_>) -> Option<Item<'_>> {
        let What::Entry(sort) = record.what else { return None };
        if sort == Sort::Header {
            return None;
        }
        let rest = self.bytes.get((record.number - 1) * RECORD_BYTES..)?;
        let records = usize::try_from(Stated::of(sort, record.bytes).records).ok()?.saturating_add(1);
        let bytes = &rest[..rest.len().min(records.saturating_mul(RECORD_BYTES))];
        Some(Item { number: record.number, sort, level: record.level, bytes })
    }

    /// What an accepted sheet holds: record b states its items.
    fn stated(&self) -> Counts {
        let b = self.bytes.get(RECORD_BYTES..).unwrap_or(&[]);
        let items = SHEET_B.value("element count", b).and_then(|n| usize::try_from(n).ok()).unwrap_or(0);
        Counts { records: self.bytes.len() / RECORD_BYTES, items }
    }
}

impl From<Vec<u8>> for Sheet {
    fn from(bytes: Vec<u8>) -> Sheet {
        Sheet { bytes }
    }
}

impl AsRef<[u8]> for Sheet {
    fn as_ref(&self) -> &[u8] {
        &self.bytes
    }
}

#[cfg(test)]
mod tests {
    use super::*;
    use reference::random::Random;
    use reference::{edit, judge, sheets};

    /// An edit at some place of a sheet, by it and by the reference: the same answer and the same bytes. Whether it was accepted, and then what it answers is
    /// what judging counts.
    fn one_edit(r: &mut Random, sheet: &mut Sheet, block: &[u8]) -> bool {
        let mut theirs = sheet.as_bytes().to_vec();
        let used = theirs.len();
        let starts: Vec<usize> = sheet.items().map(|item| item.number).collect();
        let any = r.below(used / RECORD_BYTES + 3);
        let place = if starts.is_empty() || r.once_in(3) { any } else { *r.pick(&starts) };
        let (answer, expected) = if block.is_empty() {
            (sheet.remove(place), edit::remove(&mut theirs, used, place as u64))
        } else {
            theirs.resize(used + block.len(), b' ');
            (sheet.insert(place, block), edit::insert(&mut theirs, used, place as u64, block))
        };
        theirs.truncate(*expected.as_ref().unwrap_or(&used));
        assert_eq!(sheet.as_bytes(), theirs, "place {place}");
        assert_eq!(answer.err().map(|e| e.number()), expected.err().map(|e| u64::from(e.number)), "place {place}");
        assert!(answer.is_err() || sheet.judge() == answer, "place {place}");
        answer.is_ok()
    }

    /// Lists of edits at any place, accepted and refused.
    #[test]
    fn edits_as_the_reference_makes_them() {
        let mut r = Random(31);
        let mut done = 0;
        for case in 0..300 {
            let mut sheet = Sheet::from(sheets::sheet(&mut r, case % 5));
            // An empty block stands for a removal.
            let blocks: Vec<Vec<u8>> = sheet.items().flat_map(|item| [item.bytes.to_vec(), Vec::new()]).collect();
            let edits = if blocks.is_empty() { 0 } else { 12 };
            for _ in 0..edits {
                let block = r.pick(&blocks);
                done += usize::from(one_edit(&mut r, &mut sheet, block));
            }
            let (walked, _) = judge::accepted(sheet.as_bytes(), sheet.as_bytes().len()).expect("still accepted");
            let headers = sheet.records().filter(|record| record.what == What::Entry(Sort::Header)).count();
            assert_eq!(sheet.items().count() + headers, walked.found.len());
        }
        assert!(done > 500, "{done}");
    }

    /// Any bytes are a sheet that answers.
    #[test]
    fn any_bytes() {
        let mut r = Random(32);
        for length in 0..400 {
            let bytes: Vec<u8> = (0..length).map(|_| r.word() as u8).collect();
            let mut sheet = Sheet::from(bytes.clone());
            assert!(sheet.judge().is_err() && sheet.normal().is_err() && sheet.way_up(1).is_err());
            assert!(Edition::ALL.into_iter().all(|edition| sheet.with_edition(edition).is_err()));
            assert!(Sheet::without_directory(bytes.clone()).is_err());
            assert!(sheet.insert(1, b"E2").is_err() && sheet.remove(usize::MAX).is_err());
            let _ = (sheet.items().count(), sheet.records().count());
            assert_eq!(sheet.into_bytes(), bytes);
        }
    }
}
