//! Random insertions and removals, for the stored lists of edits and for the tests against the library.

use crate::judge::{accepted, Walked};
use crate::random::Random;
use crate::record::Sort;
use crate::{edit, sheets, Refusal, RECORD};

/// An edit: a place and, for an insertion, its block.
#[derive(Clone, Debug)]
pub enum Edit {
    Insert(u64, Vec<u8>),
    Remove(u64),
}

impl Edit {
    /// Runs the call; answers the new used length.
    pub fn run(&self, buffer: &mut [u8], used: usize) -> Result<usize, Refusal> {
        match self {
            Edit::Insert(place, block) => edit::insert(buffer, used, *place, block),
            Edit::Remove(place) => edit::remove(buffer, used, *place),
        }
    }
}

/// An edit of a sheet in a buffer: often one that is accepted.
pub fn draw(r: &mut Random, buffer: &[u8], used: usize) -> Edit {
    let walked = accepted(buffer, used).map_or(Walked { part: 0, found: Vec::new() }, |(walked, _)| walked);
    let items = walked.found.iter().filter(|f| f.sort != Sort::Header);
    let mut places: Vec<u64> = items.map(|f| f.place as u64 + 1).collect();
    if r.once_in(if places.is_empty() { 12 } else { 3 }) {
        return Edit::Remove(place(r, &places, used));
    }
    places = walked.found.iter().map(|f| f.place as u64 + 1).collect();
    places.push((used / RECORD) as u64 + 1);
    let place = place(r, &places, used);
    let level = level(r, &walked, place);
    Edit::Insert(place, block(r, level))
}

/// A place: most often one of these, else any.
fn place(r: &mut Random, places: &[u64], used: usize) -> u64 {
    if !places.is_empty() && !r.once_in(5) {
        return *r.pick(places);
    }
    let records = (used / RECORD) as u64;
    let some = r.word() % (records + 2);
    *r.pick(&[0, 1, records, records + 1, records + 2, u64::MAX, some])
}

/// A block's level: most often one that its place allows.
fn level(r: &mut Random, walked: &Walked, place: u64) -> usize {
    let at = usize::try_from(place).map_or(usize::MAX, |p| p.saturating_sub(1));
    let there = walked.found.iter().find(|f| f.place == at);
    let low = there.map_or(2, |f| f.level.max(2));
    let high = edit::open_level(walked, at) + 1;
    if low > high || r.once_in(5) {
        return 1 + r.below(10);
    }
    r.between(low as i64, high as i64) as usize
}

/// A block: most often one sound item, else damaged, ragged, two items or empty.
fn block(r: &mut Random, level: usize) -> Vec<u8> {
    let kind = if r.once_in(3) { 9 } else { 1 + r.below(8) };
    let sound = sheets::item(r, kind, level).concat();
    match r.below(16) {
        0 => sheets::damaged(r, &sound),
        1 => sound[..sound.len() - r.below(RECORD)].to_vec(),
        2 => [sound.clone(), sound].concat(),
        3 => Vec::new(),
        _ => sound,
    }
}

/// A sheet with headers down to a level, the last of which holds as many grids and nets as it can state.
pub fn full_header(r: &mut Random, level: usize) -> Vec<u8> {
    let mut body: Vec<Vec<u8>> = (1..level).map(|above| sheets::header_of(above, &[(0, 1)])).collect();
    body.push(sheets::header_of(level, &[(9, 9)]));
    (0..9).for_each(|_| body.extend(sheets::item(r, 9, level + 1)));
    sheets::sheet_of(r, body, 9)
}
