//! The drawn calls of orders 5 and 13 meet every case that their sentences tell apart, each with its answer: the old calls on the first edition, the
//! new ones on the second. What a case is, is seen from its bytes.

mod support;

use reference::column::{parse, write, Column};
use reference::directory::{layers, Edition, Layer, Reader, FIRST, NEW, OLD, SECOND};
use reference::directory_calls::{appending, judging, jumping};
use reference::judge::{accepted, Counts, Walked};
use reference::line_calls::Lent;
use reference::random::Random;
use reference::record::Sort;
use reference::{Refusal, RECORD};
use support::Seen;

/// The layers that fill the records of an edition, or leave room, or just do not fit.
fn counts_of_layers(e: &Edition) -> [usize; 7] {
    [0, 1, e.layers - 1, e.layers, e.layers + 1, 2 * e.layers, 2 * e.layers + 1]
}

/// The calls that came with an edition.
fn reader(e: &Edition) -> Reader {
    if e.edition.is_empty() {
        OLD
    } else {
        NEW
    }
}

/// Where the rest of a last record starts.
fn rest_of(e: &Edition) -> usize {
    16 + 7 * e.edition.len()
}

/// Where the rest of a record starts that lists as many layers as it can.
fn full(e: &Edition) -> usize {
    2 + 7 * e.layers * e.numbers
}

/// An answer's number and record: 0 and 0 for accepted.
fn answered<T>(answer: &Result<T, Refusal>) -> (u8, usize) {
    answer.as_ref().map_or_else(|e| (e.number, e.record), |_| (0, 0))
}

/// The file's records, where the used length is one.
fn records(lent: &Lent) -> Option<Vec<&[u8]>> {
    let file = lent.buffer.get(..lent.used).filter(|file| !file.is_empty() && file.len().is_multiple_of(RECORD))?;
    Some(file.chunks(RECORD).collect())
}

/// A column: the number that it has in written form, or what else it is.
fn column(bytes: &[u8]) -> Result<i64, &'static str> {
    match parse(bytes) {
        Column::Value(n) if write(bytes.len(), n).is_ok_and(|written| written == bytes) => Ok(n),
        Column::Value(_) => Err("with zeros in front"),
        Column::MinusZero => Err("minus zero"),
        Column::Malformed if bytes.iter().all(|b| *b == b' ') => Err("blank"),
        Column::Malformed => Err("malformed"),
    }
}

const NOT_WRITTEN: [&str; 4] = ["with zeros in front", "minus zero", "blank", "malformed"];

fn blank(bytes: &[u8]) -> bool {
    bytes.iter().all(|b| *b == b' ')
}

/// What a used length is beside the buffer and the width of a record.
fn lengths(seen: &mut Seen, lent: &Lent, number: u8) {
    let (used, length) = (lent.used, lent.buffer.len());
    let whole = used.is_multiple_of(RECORD);
    seen.see("1: length 0", used == 0 && number == 1);
    seen.see("1: above the buffer", whole && used > length && number == 1);
    seen.see("1: above the buffer by less than a record", whole && used > length && used - length < RECORD && number == 1);
    seen.see("1: above the buffer, at an end of the numbers", whole && used > usize::MAX / 2 && number == 1);
    seen.see("1: no multiple of 84", !whole && used <= length && number == 1);
}

/// What the file would answer with a well-formed last record of the same numbers, where they can be read.
fn mended(e: &Edition, records: &[&[u8]]) -> (u8, usize) {
    let last = records[records.len() - 1];
    let number = |bytes: &[u8]| if let Column::Value(n) = parse(bytes) { n } else { 0 };
    let end = e.closing(number(&last[2..9]), number(&last[9..16]));
    let file = [&records[..records.len() - 1].concat(), &end[..]].concat();
    answered(&reader(e).sheet(&file, file.len()))
}

/// One thing alone is wrong with the last record; often with another fault before it, which is not answered.
fn alone(seen: &mut Seen, name: &str, is: bool, before: (u8, usize), own: usize) {
    seen.see(format!("19, {name}"), is);
    seen.see(format!("19, {name}: not what the sheet would answer"), is && (1..=10).contains(&before.0));
    seen.see(format!("19, {name}: not what a row would answer"), is && before.0 == 19 && before.1 < own);
}

/// What is wrong with the last record, where one thing alone is; answers its pointer, where nothing is.
fn last_record(seen: &mut Seen, e: &Edition, records: &[&[u8]], answer: (u8, usize)) -> Option<usize> {
    let (own, last) = (records.len(), records[records.len() - 1]);
    let edition = last[16..rest_of(e)] == e.closing(0, 0)[16..rest_of(e)];
    let (letters, rest) = (last.starts_with(e.end.as_bytes()), edition && blank(&last[rest_of(e)..]));
    let (pointer, count) = (column(&last[2..9]), column(&last[9..16]));
    let inside = pointer.is_ok_and(|n| (1..=own as i64).contains(&n));
    let whole = letters && rest && inside && count.is_ok();
    let refused = answer == (19, own);
    let before = if refused && !whole { mended(e, records) } else { (0, 0) };
    alone(seen, "letters of the last record", !letters && rest && inside && count.is_ok() && refused, before, own);
    alone(seen, "a used rest of the last record", letters && !rest && inside && count.is_ok() && refused, before, own);
    let zeros = letters && rest && pointer == Err("with zeros in front") && count.is_ok() && refused;
    alone(seen, "a pointer with zeros in front", zeros, before, own);
    for form in NOT_WRITTEN {
        seen.see(format!("19, the pointer: {form}"), letters && rest && pointer == Err(form) && count.is_ok() && refused);
        let count = letters && rest && inside && count == Err(form) && refused;
        alone(seen, &format!("a count {form}"), count, before, own);
    }
    let outside = letters && rest && count.is_ok() && refused;
    seen.see("19, the pointer: 0", outside && pointer == Ok(0));
    seen.see("19, the pointer: negative", outside && pointer.is_ok_and(|n| n < 0));
    seen.see("19, the pointer: one past itself", outside && pointer == Ok(own as i64 + 1));
    seen.see("19, the pointer: far past itself", outside && pointer.is_ok_and(|n| n > own as i64 + 1));
    whole.then(|| pointer.expect("a pointer") as usize)
}

/// Where the pointer of a well-formed last record leads, and what the sheet before it answers.
fn pointers(seen: &mut Seen, e: &Edition, records: &[&[u8]], pointer: usize, answer: (u8, usize)) {
    let there = records[pointer - 1];
    let starts = |letters: &[u8]| there.starts_with(letters);
    let (list, letter) = (e.list.as_bytes(), &e.list.as_bytes()[..1]);
    let answered = |letters: &str| answer.0 == 4 && records[answer.1 - 1].starts_with(letters.as_bytes());
    let own = pointer == records.len();
    let sheet = pointer > 1 && records[0].starts_with(b"M ");
    seen.see("1: the pointer is 1", pointer == 1 && answer == (1, 0));
    seen.see("accepted: the pointer is its own", own && answer.0 == 0);
    seen.see("19: the pointer is its own, and there are layers", own && answer == (19, pointer));
    seen.see("4: the pointer is its own, behind a directory", own && answered(e.list));
    seen.see("4: the pointer is behind a last record", answered(e.end));
    seen.see("3: the pointer is in the sheet part", sheet && !starts(letter) && pointer < 6 && answer == (3, 1));
    seen.see("3: the pointer is in an item", !starts(letter) && answer.0 == 3 && answer.1 > 1);
    seen.see("3: the data of an attribute are a directory", starts(list) && answer.0 == 3 && answer.1 > 1);
    seen.see("10: the pointer is at a header", starts(b"H ") && answer == (10, 2));
    seen.see("10: the pointer is at an item", starts(b"E") && answer == (10, 2));
    let negative = column(&records[records.len() - 1][9..16]).is_ok_and(|n| n < 0);
    seen.see("1 to 10 of the sheet, the count negative", negative && (1..=10).contains(&answer.0));
    seen.see("19 of a row, the count negative", negative && answer.0 == 19 && answer.1 < records.len());
    (2..=10).for_each(|n| seen.see(format!("{n} of the sheet, the directory behind it"), starts(letter) && answer.0 == n));
}

/// The numbers that a row lists, in written form, one behind the other, with nothing behind them.
fn listed(e: &Edition, row: &[u8]) -> Option<Vec<i64>> {
    let used = row[2..full(e)].chunks(7).take_while(|c| !blank(c)).count();
    let numbers: Vec<i64> = row[2..2 + 7 * used].chunks(7).map_while(|c| column(c).ok()).collect();
    (numbers.len() == used && row.starts_with(e.list.as_bytes()) && blank(&row[2 + 7 * used..])).then_some(numbers)
}

/// What differs in a row that lists numbers in written form.
fn numbers(seen: &mut Seen, e: &Edition, stated: &[i64], right: &[i64]) {
    let wrong = stated.iter().zip(right).filter(|(a, b)| a != b).count();
    let (same, more) = (stated.len() == right.len(), stated.starts_with(right));
    seen.see("19, a row: one number wrong", same && wrong == 1);
    let alone = |by: i64, nth: usize| {
        let mut differences = stated.iter().zip(right).enumerate().filter(|(_, (a, b))| a != b);
        same && wrong == 1 && differences.all(|(i, (a, b))| i % e.numbers == nth && a - b == by)
    };
    for (nth, name) in ["header", "total", "last"][..e.numbers].iter().enumerate() {
        seen.see(format!("19, a row: one {name} is one less"), alone(-1, nth));
        seen.see(format!("19, a row: one {name} is one more"), alone(1, nth));
    }
    let layers: Vec<&[i64]> = stated.chunks(e.numbers).collect();
    seen.see("19, a row: a negative number", stated.iter().any(|n| *n < 0));
    seen.see("19, a row: several numbers wrong", same && wrong > 1);
    seen.see("19, a row: a layer too many", more && stated.len() == right.len() + e.numbers);
    seen.see("19, a row: a layer too few", right.starts_with(stated) && stated.len() + e.numbers == right.len());
    seen.see("19, a row: the first layer left out", stated.len() + e.numbers == right.len() && right.ends_with(stated));
    seen.see("19, a row: a layer twice", layers.windows(2).any(|pair| pair[0] == pair[1]));
    seen.see("19, a row: without numbers", stated.is_empty());
    if e.numbers > 1 {
        seen.see("19, a row: half a layer", !stated.len().is_multiple_of(e.numbers));
    }
}

/// What differs in a row that is none: its letters, a gap, the rest, or columns that are not in written form.
fn spoiled(seen: &mut Seen, e: &Edition, row: &[u8], right: &[u8]) {
    let numbers = listed(e, right).expect("a right row");
    let end = 2 + 7 * numbers.len();
    let used: Vec<bool> = row[2..full(e)].chunks(7).map(|c| !blank(c)).collect();
    let values: Vec<_> = row[2..end].chunks(7).map(column).collect();
    let (letters, head) = (row[..2] == right[..2], row[..end] == right[..end]);
    seen.see("19, a row: letters", !letters && row[2..] == right[2..]);
    seen.see("19, a row: a gap at the front", letters && !used[0] && used[1]);
    seen.see("19, a row: a gap", letters && used[0] && used.windows(2).any(|pair| !pair[0] && pair[1]));
    seen.see("19, a row: the rest is used", head && end < full(e) && !blank(&row[end..]));
    seen.see("19, a full row: the rest is used", head && end == full(e) && !blank(&row[end..]));
    let reads = |c: &[u8], n: &i64| parse(c) == Column::Value(*n);
    let alike = letters && row[end..] == right[end..] && row[2..end].chunks(7).zip(&numbers).all(|(c, n)| reads(c, n));
    seen.see("19, a row: zeros in front", alike);
    for form in ["minus zero", "malformed"] {
        seen.see(format!("19, a row: a column {form}"), letters && values.contains(&Err(form)));
    }
}

/// What stands at the first record that differs from the right directory, where that is 19's.
fn differing(seen: &mut Seen, e: &Edition, stated: &[&[u8]], right: &[&[u8]], place: usize) {
    let (row, rows) = (stated[place], right.len() - 1);
    let count = column(&stated[stated.len() - 1][9..16]);
    seen.see("19: a record behind the right directory", place == right.len());
    seen.see("19: a second last record behind the first", place == right.len() && row == right[rows]);
    seen.see("19: a row behind the last one", place == rows && listed(e, row).is_some());
    let holds_all = |n: Vec<i64>| n.len() == e.layers * e.numbers;
    seen.see("19: a full row behind the last one", place == rows && listed(e, row).is_some_and(holds_all));
    seen.see("19: no layers, and a row", rows == 0 && place == 0 && row.starts_with(e.list.as_bytes()));
    seen.see("19: the last record where a row is due", place < rows && place + 1 == stated.len());
    let first_is_end = row.starts_with(e.end.as_bytes()) && stated.len() > 1;
    seen.see("19: the last record at the front", place == 0 && rows > 0 && first_is_end);
    seen.see("19: the count is negative", place == rows && place + 1 == stated.len() && count.is_ok_and(|n| n < 0));
    let other = |by: std::ops::Range<i64>| count.is_ok_and(|n| by.contains(&(n - layers_of(right))));
    seen.see("19: the count is one too many", place == rows && place + 1 == stated.len() && other(1..2));
    seen.see("19: the count is one too few", place == rows && place + 1 == stated.len() && rows > 0 && other(-1..0));
    if place >= rows || place + 1 == stated.len() {
        return;
    }
    seen.see("19: the first of several rows", rows > 1 && place == 0);
    seen.see("19: a middle row", place > 0 && place + 1 < rows);
    seen.see("19: the last of several rows", rows > 1 && place + 1 == rows);
    seen.see("19: a row twice", place > 0 && row == right[place - 1]);
    seen.see("19: rows exchanged", right[place + 1..rows].contains(&row) && stated[place + 1..].contains(&right[place]));
    seen.see("19: a row left out", place + 1 < rows && row == right[place + 1] && stated.len() + 1 == right.len());
    match listed(e, row) {
        Some(stated) => numbers(seen, e, &stated, &listed(e, right[place]).expect("a right row")),
        None => spoiled(seen, e, row, right[place]),
    }
}

/// The layers that a right directory lists.
fn layers_of(right: &[&[u8]]) -> i64 {
    column(&right[right.len() - 1][9..16]).expect("a count")
}

/// What an accepted sheet holds.
fn held(seen: &mut Seen, e: &Edition, lent: &Lent, counts: Counts) {
    let used = counts.records * RECORD;
    let (walked, _) = accepted(&lent.buffer, used).expect("an accepted sheet");
    let count = layers(&walked).len();
    counts_of_layers(e).iter().for_each(|n| seen.see(format!("accepted: {n} layers"), count == *n));
    seen.see("accepted: groups", walked.found.iter().any(|f| f.sort == Sort::Header && f.level > 1));
    seen.see("accepted: items in several layers", count > 1 && counts.items > 1);
    let attributes = walked.found.iter().filter(|f| f.sort == Sort::Element(8));
    let data: Vec<&[u8]> =
        attributes.flat_map(|f| lent.buffer[(f.place + 1) * RECORD..][..f.data * RECORD].chunks(RECORD)).collect();
    for letters in ["H ", e.list, e.end] {
        seen.see(format!("accepted: a data record starts {letters}"), data.iter().any(|d| d.starts_with(letters.as_bytes())));
    }
}

/// The file against the right directory of the sheet before the pointer.
fn directories(seen: &mut Seen, e: &Edition, lent: &Lent, records: &[&[u8]], pointer: usize, answer: (u8, usize)) {
    let mut right = lent.buffer[..(pointer - 1) * RECORD].to_vec();
    right.resize(lent.used + 12 * RECORD, b'.');
    let Ok(end) = e.append(&mut right, (pointer - 1) * RECORD) else {
        assert!(answer.0 <= 10 && answer.0 > 0);
        return;
    };
    let right: Vec<&[u8]> = right[(pointer - 1) * RECORD..end].chunks(RECORD).collect();
    if answer.0 == 0 {
        assert_eq!(records[pointer - 1..], right);
        return;
    }
    assert!(answer.0 == 19 && answer.1 >= pointer, "{answer:?}");
    let place = answer.1 - pointer;
    assert!(records[pointer - 1..answer.1 - 1] == right[..place]);
    differing(seen, e, &records[pointer - 1..], &right, place);
}

/// A last record of the second edition whose edition column is not 2 in written form: 27, whatever else is wrong.
fn editions(seen: &mut Seen, records: &[&[u8]], answer: (u8, usize)) {
    let (own, last) = (records.len(), records[records.len() - 1]);
    assert_eq!(answer, (27, own));
    let edition = column(&last[16..23]);
    for other in [0, 1, 3, -2] {
        seen.see(format!("27: edition {other}"), edition == Ok(other));
    }
    seen.see("27: edition above 9", edition.is_ok_and(|n| n > 9));
    NOT_WRITTEN.iter().for_each(|form| seen.see(format!("27: the edition {form}"), edition == Err(form)));
    for form in ["     02", "0000002", "2      ", "     +2"] {
        seen.see(format!("27: the edition is written {form}"), last[16..23] == *form.as_bytes());
    }
    seen.see("27: the columns of the first edition", blank(&last[16..]) && column(&last[2..9]).is_ok());
    let pointer = column(&last[2..9]);
    seen.see("27, not 19: the pointer is not written", pointer.is_err());
    seen.see("27, not 19: the pointer is outside", pointer.is_ok_and(|n| n < 1 || n > own as i64));
    seen.see("27, not 19: the count is not written", column(&last[9..16]).is_err());
    seen.see("27, not 19: the rest is used", !blank(&last[23..]));
    let before = mended(&SECOND, records);
    seen.see("27, and else accepted", before == (0, 0));
    seen.see("27, not 19 of a row", before.0 == 19 && before.1 < own);
    seen.see("27, not what the sheet would answer", (1..=10).contains(&before.0));
}

/// A file that ends in the first edition, where the second is drawn: both behind one sheet, or the letters alone.
fn of_the_first(seen: &mut Seen, records: &[&[u8]], answer: (u8, usize)) {
    let (own, last) = (records.len(), records[records.len() - 1]);
    seen.see("the first edition's end with an edition column", last[16..23] == *b"      2" && answer == (19, own));
    let at = (answer.1 > 0).then(|| records[answer.1 - 1]);
    let row = |letters: &[u8]| at.is_some_and(|record| record.starts_with(letters));
    seen.see("the first edition's end behind rows of the second", answer.0 == 19 && answer.1 < own && row(b"Y "));
    seen.see("the first edition behind the second", answer.0 == 4 && row(b"Y"));
}

/// A file of the second edition with records of the first in it.
fn over_the_first(seen: &mut Seen, records: &[&[u8]], answer: (u8, usize)) {
    let at = (answer.1 > 0).then(|| records[answer.1 - 1]);
    let row = |letters: &[u8]| at.is_some_and(|record| record.starts_with(letters));
    seen.see("the second edition's end behind rows of the first", answer.0 == 19 && row(b"Z "));
    seen.see("the second edition behind the first", answer.0 == 4 && row(b"Z"));
    seen.see("the first edition's end where the second's is due", answer.0 == 19 && row(b"ZE"));
}

/// What a file of the second edition adds to the first's cases; answers whether nothing else is to be told apart.
fn both_editions(seen: &mut Seen, records: &[&[u8]], answer: (u8, usize)) -> bool {
    let last = records[records.len() - 1];
    if last.starts_with(b"ZE") {
        of_the_first(seen, records, answer);
        return true;
    }
    if last.starts_with(b"YE") && last[16..23] != *b"      2" {
        editions(seen, records, answer);
        return true;
    }
    over_the_first(seen, records, answer);
    false
}

/// What the layers of an accepted sheet hold, by their totals and last records.
fn depths(seen: &mut Seen, walked: &Walked, layers: &[Layer]) {
    for layer in layers {
        let inside: Vec<_> = walked.found.iter().filter(|f| f.place + 1 > layer.header && f.place < layer.last).collect();
        let items = || inside.iter().filter(|f| f.sort != Sort::Header);
        seen.see("accepted: an empty layer", inside.is_empty() && layer.last == layer.header && layer.total == 0);
        seen.see("accepted: groups without items", !inside.is_empty() && layer.total == 0);
        seen.see("accepted: items in groups alone", layer.total > 0 && items().all(|f| f.level > 2));
        seen.see("accepted: items in groups and beside them", items().any(|f| f.level > 2) && items().any(|f| f.level == 2));
        seen.see("accepted: an item at level 9", items().any(|f| f.level == 9));
        let last = inside.last();
        seen.see("accepted: the last record is a group", last.is_some_and(|f| f.sort == Sort::Header));
        seen.see("accepted: the last record is data", last.is_some_and(|f| f.data > 0));
        seen.see(
            "accepted: the last record is an item without data",
            last.is_some_and(|f| f.sort != Sort::Header && f.data == 0),
        );
    }
}

/// All that is told apart of a file that is judged with directory.
fn judged(seen: &mut Seen, e: &Edition, lent: &Lent) {
    let judged = reader(e).sheet(&lent.buffer, lent.used);
    let answer = answered(&judged);
    lengths(seen, lent, answer.0);
    let records = records(lent).unwrap_or_default();
    if records.is_empty() || (e.numbers > 1 && both_editions(seen, &records, answer)) {
        return;
    }
    if let Some(pointer) = last_record(seen, e, &records, answer) {
        pointers(seen, e, &records, pointer, answer);
        directories(seen, e, lent, &records, pointer, answer);
    }
    if let Ok(counts) = judged {
        seen.see("accepted: bytes behind the file", lent.used < lent.buffer.len());
        seen.see("accepted: the whole buffer", lent.used == lent.buffer.len());
        held(seen, e, lent, counts);
    }
}

fn judging_meets(e: &'static Edition, seed: u64, calls: usize) {
    let (mut r, mut seen) = (Random(seed), Seen::default());
    (0..calls).for_each(|_| judged(&mut seen, e, &judging(&mut r, e)));
    seen.all(3);
}

#[test]
fn judging_meets_every_case() {
    judging_meets(&FIRST, 51, 16_000);
}

#[test]
fn judging_the_second_edition_meets_every_case() {
    judging_meets(&SECOND, 131, 24_000);
}

fn appending_meets(e: &'static Edition, seed: u64) {
    let (mut r, mut seen) = (Random(seed), Seen::default());
    for _ in 0..8_000 {
        let lent = appending(&mut r, e);
        let mut after = lent.buffer.clone();
        let appended = e.append(&mut after, lent.used);
        let answer = answered(&appended);
        lengths(&mut seen, &lent, answer.0);
        (2..=10).for_each(|n| seen.see(format!("refused with {n}"), answer.0 == n));
        let letter = &e.list.as_bytes()[..1];
        let directory = answer.0 == 4 && records(&lent).is_some_and(|all| all[answer.1 - 1].starts_with(letter));
        seen.see("4: the sheet has a directory", directory);
        let short = lent.buffer.len() < lent.used.saturating_add(RECORD);
        seen.see("2 to 10, not 15", (2..=10).contains(&answer.0) && short);
        if let Some(counts) = accepted(&lent.buffer, lent.used).ok().map(|(_, counts)| counts) {
            rooms(&mut seen, e, &lent, appended);
            held(&mut seen, e, &lent, counts);
        }
        assert!(answer.0 == 0 || after == lent.buffer);
    }
    seen.all(3);
}

#[test]
fn appending_meets_every_case() {
    appending_meets(&FIRST, 52);
}

#[test]
fn appending_the_second_edition_meets_every_case() {
    appending_meets(&SECOND, 132);
}

/// What room there is behind an accepted sheet.
fn rooms(seen: &mut Seen, e: &Edition, lent: &Lent, appended: Result<usize, Refusal>) {
    let (walked, _) = accepted(&lent.buffer, lent.used).expect("an accepted sheet");
    let needed = (layers(&walked).len().div_ceil(e.layers) + 1) * RECORD;
    let room = lent.buffer.len() - lent.used;
    let number = answered(&appended).0;
    assert!(number == 0 || number == 15);
    seen.see("15: short by one", room + 1 == needed && number == 15);
    seen.see("15: short by a record", room + RECORD == needed && room > 0 && number == 15);
    seen.see("15: no room", room == 0 && number == 15);
    seen.see("accepted: exact", room == needed && number == 0);
    seen.see("accepted: one longer", room == needed + 1 && number == 0);
    seen.see("accepted: a record longer", room == needed + RECORD && number == 0);
}

/// The layers of a sheet of so many records, counted from the front one record after the other.
fn from_the_front(walked: &Walked, records: usize) -> Vec<Layer> {
    let mut all: Vec<Layer> = Vec::new();
    for f in &walked.found {
        match all.last_mut() {
            Some(layer) if f.level > 1 => {
                layer.total += usize::from(f.sort != Sort::Header);
                layer.last = f.place + 1 + f.data;
            }
            _ => all.push(Layer { header: f.place + 1, total: 0, last: f.place + 1 }),
        }
    }
    assert!(all.last().is_none_or(|layer| layer.last == records));
    all
}

fn jumping_meets(e: &'static Edition, seed: u64, refusals: &[u8]) {
    let (mut r, mut seen) = (Random(seed), Seen::default());
    for _ in 0..8_000 {
        let call = jumping(&mut r, e);
        let Lent { buffer, used } = &call.from;
        let jumped = reader(e).jump(buffer, *used, call.layer);
        let answer = answered(&jumped);
        refusals.iter().for_each(|n| seen.see(format!("refused with {n}"), answer.0 == *n));
        refusals[10..].iter().for_each(|n| seen.see(format!("{n} before 17"), answer.0 == *n && call.layer == 0));
        if let Ok(counts) = reader(e).sheet(buffer, *used) {
            let (walked, _) = accepted(buffer, counts.records * RECORD).expect("an accepted sheet");
            let layers = from_the_front(&walked, counts.records);
            depths(&mut seen, &walked, &layers);
            let of_first = buffer[..*used].chunks(RECORD).next_back().is_some_and(|last| last.starts_with(b"ZE"));
            let found = |layer: Layer| if of_first { Layer { total: 0, last: 0, ..layer } } else { layer };
            outcomes(&mut seen, e, &layers.into_iter().map(found).collect::<Vec<_>>(), call.layer, jumped);
        }
    }
    seen.all(3);
}

#[test]
fn jumping_meets_every_case() {
    jumping_meets(&FIRST, 53, &[1, 2, 3, 4, 5, 6, 7, 8, 9, 10, 19]);
}

#[test]
fn jumping_by_the_second_edition_meets_every_case() {
    jumping_meets(&SECOND, 133, &[1, 2, 3, 4, 5, 6, 7, 8, 9, 10, 19, 27]);
}

/// A jump in a file that is accepted.
fn outcomes(seen: &mut Seen, e: &Edition, layers: &[Layer], layer: u64, jumped: Result<Layer, Refusal>) {
    let (count, outside) = (layers.len() as u64, answered(&jumped) == (17, 0));
    seen.see("17: layer 0", layer == 0 && outside);
    seen.see("17: one past the last", layer == count + 1 && outside);
    seen.see("17: no layers", count == 0 && layer == 1 && outside);
    seen.see("17: 2 to the 64 less 1", layer == u64::MAX && outside);
    seen.see("17: 2 to the 32 and 1", layer == (1 << 32) + 1 && outside);
    seen.see("the first layer", layer == 1 && jumped.is_ok());
    seen.see("the last layer", layer == count && count > 1 && jumped.is_ok());
    seen.see("the last layer of a row", layer.is_multiple_of(e.layers as u64) && jumped.is_ok());
    seen.see("the first layer of a second row", layer == e.layers as u64 + 1 && jumped.is_ok());
    let behind = |found: Layer| found.header as u64 > layers[0].header as u64 + layer - 1;
    seen.see("a layer behind others with groups or items", jumped.is_ok_and(behind));
    assert_eq!(jumped.ok(), layers.get(layer.wrapping_sub(1) as usize).copied());
}

/// The old calls on files of the second edition: 19 at the last record, where that starts "YE", whatever its edition column says.
#[test]
fn the_old_calls_on_the_second_edition() {
    let (mut r, mut seen) = (Random(134), Seen::default());
    for _ in 0..8_000 {
        let lent = judging(&mut r, &SECOND);
        let (old, new) = (OLD.sheet(&lent.buffer, lent.used), NEW.sheet(&lent.buffer, lent.used));
        let Some(records) = records(&lent) else {
            assert_eq!(answered(&old), (1, 0));
            continue;
        };
        let ends = records[records.len() - 1].starts_with(b"YE");
        assert!(if ends { answered(&old) == (19, records.len()) } else { old == new });
        seen.see("accepted by the new call", ends && new.is_ok());
        (1..=10).chain([19, 27]).for_each(|n| seen.see(format!("{n} by the new call"), ends && answered(&new).0 == n));
        seen.see("the first edition, 4", answered(&old).0 == 4 && !ends);
        seen.see("the first edition, 19 of a row", answered(&old).0 == 19 && answered(&old).1 < records.len());
    }
    seen.all(3);
}
