//! Where a record may be lost, or stand twice, in a sheet whose counts differ.

use super::body::Body;
use super::counts::Records;
use super::{fault, near, Explanation, Fault};
use crate::layout::{HEADER, SHEET_B};
use crate::outline::{natural, record, Record, Sort, Stated};
use crate::text::{number_of, with_article};
use crate::RECORD_BYTES;
use std::collections::BTreeMap;

/// The most places that are named for one reason.
const MOST_PLACES: usize = 3;

/// What is seen of lost and repeated records. `elsewhere`: none is lost by the counts, but items stand under other headers than
/// these state.
pub fn explain(bytes: &[u8], body: &Body, elsewhere: bool, told: &mut Explanation) {
    let records = Records::of(bytes);
    let missing = records.as_ref().is_some_and(|records| records.missing() > 0);
    let taken: Vec<(&Record, (usize, Sort))> =
        body.entries.iter().filter_map(|item| Some((item, near::hidden(bytes, item)?))).take(MOST_PLACES).collect();
    if !taken.is_empty() {
        taken.into_iter().for_each(|(item, hidden)| taken_as_data(item, hidden, told));
    } else if records.is_some_and(|records| records.too_many() > 0) {
        told.notes.extend(repeated(bytes, body));
    } else {
        told.notes.extend(items_there(bytes, body).filter(|_| missing));
        let layers = layers(body);
        told.notes.extend(headers(body, &layers, missing).into_iter().filter(|_| !elsewhere));
        told.notes.extend(layers.iter().filter_map(Layer::other_item).filter(|_| elsewhere).take(MOST_PLACES));
        told.notes.extend(layers.iter().filter_map(Layer::wrong_level).take(MOST_PLACES));
        told.faults.extend(layers.iter().filter_map(Layer::wrong_level_fault).take(MOST_PLACES));
    }
}

/// A header or item that is taken as data of an item before it.
fn taken_as_data(item: &Record, (number, sort): (usize, Sort), told: &mut Explanation) {
    let Some(of) = item.sort() else { return };
    let records = number_of(Stated::of(of, item.bytes).records, "data record");
    let reads = format!("record {number} reads as {}", with_article(&sort.name()));
    let taken = format!("is taken as data of the {} at record {}, which states {records}", of.name(), item.number);
    told.notes.push(format!("{reads}, but {taken}: one is lost, or too many"));
    told.faults.push(fault(item.number, "records", format!("states {records}, but {reads}")));
}

/// That all items are there.
fn items_there(bytes: &[u8], body: &Body) -> Option<String> {
    let items = body.items();
    let stated = SHEET_B.value("element count", record(bytes, 2)).and_then(|count| usize::try_from(count).ok());
    let all = format!("all {items} items that the sheet states are there: what is missing is a header or a data record");
    Some(all).filter(|_| stated == Some(items))
}

/// Items and headers that are the same as those directly before them.
fn repeated(bytes: &[u8], body: &Body) -> Vec<String> {
    let last = bytes.len() / RECORD_BYTES;
    let ends = body.entries.iter().skip(1).map(|next| next.number - 1).chain([last]);
    let spans: Vec<(usize, usize)> = body.entries.iter().map(|entry| entry.number).zip(ends).collect();
    let span = |(from, to): (usize, usize)| bytes.get((from - 1) * RECORD_BYTES..to * RECORD_BYTES);
    let same = spans.windows(2).filter(|pair| matches!(pair, [one, two] if span(*one) == span(*two)));
    let words = |pair: &[(usize, usize)]| match pair {
        [(from, _), (again, to)] if again == to => format!("record {again} is the same as record {from} before it"),
        [(from, one), (again, to)] => format!("records {again} to {to} are the same as records {from} to {one} before them"),
        _ => String::new(),
    };
    same.take(MOST_PLACES).map(words).collect()
}

/// Where a header may be missing: by the totals, where records are missing; by the class codes of a layer, where records are
/// missing or its total differs.
fn headers(body: &Body, layers: &[Layer], missing: bool) -> Vec<String> {
    let mut seen: BTreeMap<usize, Vec<String>> = BTreeMap::new();
    let totals = by_total(body).into_iter().filter(|_| missing);
    let classes = layers.iter().filter(|layer| missing || layer.differs).filter_map(Layer::words);
    for (record, words) in totals.chain(classes) {
        seen.entry(record).or_default().push(words);
    }
    let note =
        |(record, why): (usize, Vec<String>)| format!("a header may be missing before record {record}: {}", why.join(", and "));
    seen.into_iter().map(note).take(MOST_PLACES).collect()
}

/// The first record below each header that is more than it states, and why it is named.
fn by_total(body: &Body) -> Vec<(usize, String)> {
    let mut seen = vec![0; body.entries.len()];
    let mut found = Vec::new();
    for (entry, above) in body.entries.iter().zip(&body.above) {
        let Some((place, header)) = above.and_then(|place| Some((place, body.entries.get(place)?))) else { continue };
        let total = natural(&HEADER, "total", header.bytes);
        if seen[place] == total {
            let held: usize = body.held[place].iter().sum();
            found.push((entry.number, format!("record {} states {total} below it and holds {held}", header.number)));
        }
        seen[place] += 1;
    }
    found
}

/// A layer's class codes.
struct Layer {
    header: usize,
    class: u64,
    /// Whether the header's total is not what it holds.
    differs: bool,
    /// From which record on the class codes begin otherwise than the header's, how, and the level if it is a header.
    other: Option<(usize, u64, Option<i64>)>,
    /// Whether they change once more.
    mixed: bool,
}

impl Layer {
    /// One more header or item of the layer; a header with its level.
    fn step(&mut self, record: usize, class: u64, header: Option<i64>) {
        let hundreds = class / 100;
        match self.other {
            None if hundreds == self.class / 100 => {}
            None => self.other = Some((record, hundreds, header)),
            Some((_, other, _)) => self.mixed |= hundreds != other,
        }
    }

    /// The item from which on another layer's items seem to stand here, and why.
    fn words(&self) -> Option<(usize, String)> {
        let (record, hundreds, _) = self.other.filter(|(_, _, header)| !self.mixed && header.is_none())?;
        let own = format!("record {} has {}", self.header, self.class);
        Some((record, format!("the class codes from there on are {hundreds:02}xx, {own}")))
    }

    /// The same where no header is missing.
    fn other_item(&self) -> Option<String> {
        let (record, why) = self.words().filter(|_| self.differs)?;
        Some(format!("record {record} may belong under another header: {why}"))
    }

    /// A header of another class than its layer's, where the layer's total differs: a layer header with a wrong level.
    fn other_header(&self) -> Option<(usize, u64, i64)> {
        let (record, hundreds, level) = self.other.filter(|_| self.differs && !self.mixed)?;
        Some((record, hundreds, level?))
    }

    fn wrong_level(&self) -> Option<String> {
        let (record, hundreds, level) = self.other_header()?;
        let under = format!("stands under the layer header at record {} of class {}", self.header, self.class);
        Some(format!(
            "record {record} is a header of class {hundreds:02}xx and {under}: its level {level} may be wrong, a layer's is 1"
        ))
    }

    fn wrong_level_fault(&self) -> Option<Fault> {
        let (record, hundreds, level) = self.other_header()?;
        let above = format!("the layer above is of class {}, this header of {hundreds:02}xx", self.class);
        Some(fault(record, "level", format!("is {level}; {above}")))
    }
}

/// The layers with their class codes.
fn layers(body: &Body) -> Vec<Layer> {
    let mut layers: Vec<Layer> = Vec::new();
    for (entry, held) in body.entries.iter().zip(&body.held) {
        let class = entry.layout.map_or(0, |layout| natural(layout, "class", entry.bytes));
        match layers.last_mut() {
            Some(layer) if entry.level != Some(1) => {
                layer.step(entry.number, class, entry.level.filter(|_| entry.sort() == Some(Sort::Header)));
            }
            _ if entry.sort() == Some(Sort::Header) => {
                let differs = natural(&HEADER, "total", entry.bytes) != held.iter().sum::<usize>() as u64;
                layers.push(Layer { header: entry.number, class, differs, other: None, mixed: false });
            }
            _ => {}
        }
    }
    layers
}
