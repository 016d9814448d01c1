//! 8: the data kind, counts and records of an item that do not go together, and how many data records follow.

use super::counts::Records;
use super::{fault, near, other, Explanation, Fault, CAUTION};
use crate::outline::{natural, Record, Sort, Stated};
use crate::text::number_of;

/// The most data records that a grid can state: repeat 9 and 9,999.
const MOST_GRID_RECORDS: u64 = 89_999;

/// The columns of the data rule, and what follows the item.
pub fn rule(bytes: &[u8], named: &Record, told: &mut Explanation) {
    let Some(sort) = named.sort() else { return };
    let stated = Stated::of(sort, named.bytes);
    let number = |name| natural(sort.layout(), name, named.bytes);
    told.faults.extend(match sort {
        Sort::Header => Vec::new(),
        Sort::Element(n) => element(named, n, number("data kind"), &stated),
        Sort::Grid => grid(named, &stated),
        Sort::Net => {
            let (triangles, needed) = (number("triangles"), stated.needed);
            vec![
                fault(named.number, "triangles", format!("is {triangles}: needs {}", number_of(needed, "data record"))),
                fault(named.number, "records", format!("is {}, must be {needed} for {triangles} triangles", stated.records)),
            ]
        }
    });
    let missing = Records::of(bytes).filter(|records| records.missing() > 0);
    let follows = following(bytes, named);
    told.notes.extend(missing.as_ref().map(|records| records.words()));
    other::kind(bytes, named, told);
    told.notes.push(match missing {
        Some(_) => format!("{follows}; look for a lost data record of it before you change a count"),
        None => format!("{follows}{}", doubt(near::following(bytes, named) as u64, sort, &stated)),
    });
}

/// How many records follow.
fn following(bytes: &[u8], named: &Record) -> String {
    let follows = match near::following(bytes, named) {
        0 => "no record follows it".to_string(),
        1 => "1 record follows it".to_string(),
        n => format!("{n} records follow it"),
    };
    let until = match near::next(bytes, named.number) {
        Some((number, sort)) => format!("before the {} at record {number}", sort.name()),
        None => "to the end of the file".to_string(),
    };
    format!("{follows} {until}")
}

/// Which of the columns the number of records that follow makes doubtful.
fn doubt(follow: u64, sort: Sort, stated: &Stated) -> String {
    match (follow == stated.records, follow == stated.needed) {
        (true, false) => {
            let counts = counts_for(sort, stated);
            format!("; that is what records states, so look at the other columns first{counts}; {CAUTION}")
        }
        (false, true) => "; that is what the other columns need, so look at records first".to_string(),
        _ => format!("; {CAUTION}"),
    }
}

/// The data counts of an element that go with the records that it states.
fn counts_for(sort: Sort, stated: &Stated) -> String {
    match (sort, stated.counts_for_records()) {
        (Sort::Element(_), Some((least, most))) if least == most => format!(": a data count of {least} goes with {least}"),
        (Sort::Element(_), Some((least, most))) => format!(": a data count of {least} to {most} goes with {}", stated.records),
        _ => String::new(),
    }
}

fn grid(named: &Record, stated: &Stated) -> Vec<Fault> {
    let number = |name| natural(Sort::Grid.layout(), name, named.bytes);
    let (rows, columns, repeat) = (number("rows"), number("columns"), number("repeat"));
    let needed = stated.needed;
    let records = match needed {
        0..=MOST_GRID_RECORDS => format!("with repeat {repeat} it states {}, must be {needed}", stated.records),
        _ => format!("{needed} cannot be stated, {MOST_GRID_RECORDS} is the most: divide the grid"),
    };
    let due = match needed {
        0..=MOST_GRID_RECORDS => format!("each one above 1 stands for 10,000 records; {} is due here", needed / 10_000 + 1),
        _ => "each one above 1 stands for 10,000 records".to_string(),
    };
    let points = format!("{rows} rows of {columns} columns need {}", number_of(needed, "data record"));
    vec![
        fault(named.number, "rows", points),
        fault(named.number, "columns", "see rows".to_string()),
        fault(named.number, "records", records),
        fault(named.number, "repeat", due),
    ]
}

/// The data kinds that an element may have, whether its data count is right, and what it must be.
fn allowed(n: u8, kind: u64, count: u64) -> (&'static [u64], bool, &'static str) {
    match n {
        1 | 2 => (&[2, 3, 6], count >= 1, "1 or more"),
        3 | 4 => (&[2, 3, 6], count == 3, "3"),
        5 if kind < 2 => (&[0, 1], count == 0, "0"),
        5 => (&[0, 1, 2, 3, 6], count >= 1, "1 or more"),
        6 => (&[2, 3, 6], count >= 2 && count.is_multiple_of(2), "even, 2 or more"),
        7 => (&[4], count >= 1, "1 or more"),
        _ => (&[5], count >= 1, "1 or more"),
    }
}

/// Whether an element of a type may have a data kind, with the data count and the records that it states.
pub fn is_right(n: u8, kind: u64, stated: &Stated) -> bool {
    let (kinds, count_right, _) = allowed(n, kind, stated.count);
    kinds.contains(&kind) && count_right && stated.records == stated.needed
}

fn element(named: &Record, n: u8, kind: u64, stated: &Stated) -> Vec<Fault> {
    let (count, needed) = (stated.count, stated.needed);
    let (kinds, count_right, counts) = allowed(n, kind, count);
    let of_kind = if n == 5 { format!(" of data kind {kind}") } else { String::new() };
    let count_words = match (count_right, stated.records == needed) {
        (false, _) => Some(format!("is {count}, must be {counts} for E{n}{of_kind}")),
        (true, false) => Some(format!("is {count}: needs {} of data kind {kind}", number_of(needed, "data record"))),
        (true, true) => None,
    };
    let records_words = format!("is {}, must be {needed} for data kind {kind} and count {count}", stated.records);
    let all = [
        ("data kind", kind_words(n, kind, kinds, count_right)),
        ("data count", count_words),
        ("records", Some(records_words).filter(|_| stated.records != needed)),
    ];
    all.into_iter().filter_map(|(column, words)| Some(fault(named.number, column, words?))).collect()
}

/// Why a data kind is wrong, or wrong beside the data count: a point's kind and count go together.
fn kind_words(n: u8, kind: u64, kinds: &[u64], count_right: bool) -> Option<String> {
    let list: Vec<String> = kinds.iter().map(u64::to_string).collect();
    match (kinds.contains(&kind), n, count_right) {
        (false, _, _) => Some(format!("is {kind}, must be {} for E{n}", list.join(" or "))),
        (true, 5, false) if kind < 2 => Some(format!("is {kind}: the data count must be 0")),
        (true, 5, false) => Some(format!("is {kind}: the data count must be 1 or more; kinds 0 and 1 have none")),
        _ => None,
    }
}
