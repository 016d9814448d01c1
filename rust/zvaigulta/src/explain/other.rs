//! What a header or item reads as if one column, its data kind or its type, were another: all other columns and what follows go
//! together then.

use super::body::Body;
use super::{data, fault, near, Explanation};
use crate::layout::{ELEMENT, HEADER};
use crate::outline::{natural, record, Record, Sort, Stated, COUNTS};
use crate::text::{number_of, with_article};

/// That another data kind of an element goes with its counts: the data kind may be wrong. Those that what follows reads as are
/// named alone, if there are any.
pub fn kind(bytes: &[u8], item: &Record, told: &mut Explanation) {
    let kinds = kinds(item);
    if !kind_that_reads(bytes, item, told) && !kinds.is_empty() {
        name_kinds(item, &kinds, "", told);
    }
}

/// The same, of the data kinds alone that what follows reads as; whether there are any.
pub fn kind_that_reads(bytes: &[u8], item: &Record, told: &mut Explanation) -> bool {
    let mut kinds = kinds(item);
    kinds.retain(|(_, stated)| follows(bytes, item, stated));
    if !kinds.is_empty() {
        name_kinds(item, &kinds, ", and what follows reads so", told);
    }
    !kinds.is_empty()
}

/// The other data kinds of an element that go with its type and counts, and what it states with each.
fn kinds(item: &Record) -> Vec<(u64, Stated)> {
    let Some(Sort::Element(n)) = item.sort() else { return Vec::new() };
    let number = |name| natural(&ELEMENT, name, item.bytes);
    let others = (0..=6).filter(|kind| *kind != number("data kind"));
    let all = others.map(|kind| (kind, Stated::of_element(kind, number("data count"), number("records"))));
    all.filter(|(kind, stated)| data::is_right(n, *kind, stated)).collect()
}

fn name_kinds(item: &Record, kinds: &[(u64, Stated)], so: &str, told: &mut Explanation) {
    let number = |name| natural(&ELEMENT, name, item.bytes);
    let list = kinds.iter().map(|(kind, _)| kind.to_string()).collect::<Vec<String>>().join(" or ");
    let records = number_of(number("records"), "data record");
    let goes = format!("{list} goes with a data count of {} and {records}", number("data count"));
    if !told.faults.iter().any(|fault| (fault.record, fault.column) == (item.number, "data kind")) {
        told.faults.push(fault(item.number, "data kind", format!("is {}; {goes}", number("data kind"))));
    }
    told.notes.push(format!("the data kind of record {} may be wrong: {goes}{so}", item.number));
}

/// Whether what follows an item is just the data that is stated: so many records, and all judged columns in order.
fn follows(bytes: &[u8], item: &Record, stated: &Stated) -> bool {
    let columns = stated.layout.map_or(&[][..], |layout| layout.columns);
    let in_order = |nth: u64| {
        let data = record(bytes, item.number + 1 + nth as usize);
        columns.iter().take(stated.judged(nth)).all(|column| !column.is_malformed(data) && !column.is_outside(data))
    };
    near::following(bytes, item) as u64 == stated.records && (0..stated.records).all(in_order)
}

/// All sorts of headers and items.
const SORTS: [Sort; 11] = [
    Sort::Header,
    Sort::Element(1),
    Sort::Element(2),
    Sort::Element(3),
    Sort::Element(4),
    Sort::Element(5),
    Sort::Element(6),
    Sort::Element(7),
    Sort::Element(8),
    Sort::Grid,
    Sort::Net,
];

/// That a record which is refused as a header or item of its type reads as one of another type. Those of which the header above
/// it states more than it holds are named alone, if there are any.
pub fn sort(bytes: &[u8], named: &Record, told: &mut Explanation) {
    let Some(own) = named.sort() else { return };
    let reading: Vec<Sort> = SORTS.into_iter().filter(|sort| reads_with(bytes, named, *sort)).collect();
    if reading.is_empty() || reading.contains(&own) {
        return;
    }
    let body = Body::of(bytes);
    let short: Vec<Sort> = reading.iter().copied().filter(|sort| is_short(&body, named, *sort)).collect();
    // Columns in order by another layout are no accident; those of another element are, unless a header misses one.
    let sure = !short.is_empty() || reading.iter().all(|sort| sort.layout() != own.layout());
    let sorts = if short.is_empty() { reading } else { short };
    let list = sorts.iter().map(|sort| with_article(&sort.name())).collect::<Vec<String>>().join(" or ");
    told.faults.push(fault(named.number, "type", format!("is {}; the other columns read as {list}", own.kind())));
    let reads = format!("the other columns of record {} and what follows it read as {list}", named.number);
    match sure {
        true => told.notes.insert(0, format!("{reads}: only the type seems wrong")),
        false => told.notes.push(format!("{reads}: the type may be wrong")),
    }
}

/// Whether a record with another type would be in order by itself, and what follows it too.
fn reads_with(bytes: &[u8], named: &Record, sort: Sort) -> bool {
    let stated = Stated::of(sort, named.bytes);
    let right = match sort {
        Sort::Element(n) => data::is_right(n, natural(&ELEMENT, "data kind", named.bytes), &stated),
        _ => near::together(sort, named.bytes),
    };
    let levels = if sort == Sort::Header { 1..=8 } else { 2..=9 };
    let level = sort.layout().value("level", named.bytes);
    right && level.is_some_and(|level| levels.contains(&level)) && near::fits(sort, named.bytes) && follows(bytes, named, &stated)
}

/// Whether the header above a record states more of a sort than it holds.
fn is_short(body: &Body, named: &Record, sort: Sort) -> bool {
    let level = sort.layout().value("level", named.bytes).unwrap_or(0);
    let Some(place) = body.header_for(named.number, level) else { return false };
    let stated = natural(&HEADER, COUNTS[sort.count()], body.entries[place].bytes);
    (body.held[place][sort.count()] as u64) < stated
}
