//! Lists of edits for the program `edit_vectors`.
//!
//! A line has 24 bytes: a word in seven, a number in ten digits, a space, a length in five digits and a line end; so many bytes follow
//! it. `start` gives the used length, and the buffer follows; `insert` the place, and the block follows; `remove` the place; `up` a
//! record number; `end` ends the list. Each call gets the buffer and used length that the last one returned or left.
//!
//! An edit answers `ok USED` or `no NUMBER RECORD`, and behind it the digest of the whole buffer; the way up `ok HEADER PASSED`, 0 and
//! 0 for a layer header, or `no NUMBER RECORD`; the list's end the digest.

use crate::calls::{self, Edit};
use crate::layout::Layouts;
use crate::random::Random;
use crate::sheets::{self, EXAMPLE_ITEM, EXAMPLE_LAYER, EXAMPLE_PART};
use crate::{digest, judge, way_up, Refusal, RECORD};

/// The greatest number that a line states.
const MOST: u64 = 9_999_999_999;

/// The longest buffer, and the longest block, that the program has room for.
const ROOM: usize = 65_536;

enum Call {
    Edit(Edit),
    Up(u64),
}

struct List {
    used: usize,
    buffer: Vec<u8>,
    calls: Vec<Call>,
}

fn put(out: &mut Vec<u8>, word: &str, number: u64, bytes: &[u8]) {
    out.extend(format!("{word:<7}{number:010} {:05}\n", bytes.len()).into_bytes());
    out.extend(bytes);
}

fn refused(refusal: Refusal) -> String {
    format!("no {} {}", refusal.number, refusal.record)
}

impl Call {
    fn put(&self, out: &mut Vec<u8>) {
        match self {
            Call::Edit(Edit::Insert(place, block)) => put(out, "insert", *place, block),
            Call::Edit(Edit::Remove(place)) => put(out, "remove", *place, b""),
            Call::Up(number) => put(out, "up", *number, b""),
        }
    }

    /// Runs the call on the buffer and used length, and answers its line.
    fn run(&self, buffer: &mut [u8], used: &mut usize) -> String {
        match self {
            Call::Up(number) => {
                let answer = way_up::up(buffer, *used, *number);
                answer.map_or_else(refused, |(header, passed)| format!("ok {} {passed}", header.unwrap_or(0)))
            }
            Call::Edit(edit) => {
                let answer = edit.run(buffer, *used);
                *used = answer.unwrap_or(*used);
                format!("{} {}", answer.map_or_else(refused, |after| format!("ok {after}")), digest(buffer))
            }
        }
    }
}

impl List {
    fn put(&self, out: &mut Vec<u8>) {
        put(out, "start", self.used as u64, &self.buffer);
        self.calls.iter().for_each(|c| c.put(out));
        put(out, "end", 0, b"");
    }

    fn answer(&self) -> String {
        let mut buffer = self.buffer.clone();
        let mut used = self.used;
        let lines: String = self.calls.iter().map(|call| call.run(&mut buffer, &mut used) + "\n").collect();
        format!("{lines}end {}\n", digest(&buffer))
    }
}

/// An E5 without data records: one record.
fn point(level: usize) -> Vec<u8> {
    let mut record = EXAMPLE_ITEM[0].as_bytes().to_vec();
    record[..2].copy_from_slice(b"E5");
    for (name, n) in [("level", level), ("data kind", 0), ("data count", 0), ("records", 0)] {
        Layouts::shared().element.put(name, &mut record, n as i64);
    }
    record
}

fn insert(place: u64, block: &[u8]) -> Call {
    Call::Edit(Edit::Insert(place, block.to_vec()))
}

fn remove(place: u64) -> Call {
    Call::Edit(Edit::Remove(place))
}

/// A tail in which every byte differs from its neighbours, so that a moved one shows.
fn tail(length: usize) -> impl Iterator<Item = u8> {
    (0..length).map(|i| b'!' + (i % 89) as u8)
}

/// The sheet, a tail behind it, and calls.
fn list(sheet: &[u8], tail: impl Iterator<Item = u8>, calls: Vec<Call>) -> List {
    List { used: sheet.len(), buffer: sheet.iter().copied().chain(tail).collect(), calls }
}

/// The example of document 01 with room for its item once more: insertions that a removal undoes, and a removal that an insertion
/// undoes. Every column is in written form and the tail is spaces, so each pair leaves the first digest.
fn undone() -> List {
    let item = EXAMPLE_ITEM.concat().into_bytes();
    let sheet = [&EXAMPLE_PART.concat(), EXAMPLE_LAYER, &EXAMPLE_ITEM.concat()].concat();
    let calls = vec![
        insert(0, &item),
        insert(7, &point(2)),
        remove(7),
        insert(10, &item),
        insert(10, &point(2)),
        remove(10),
        remove(7),
        Call::Up(6),
        Call::Up(7),
        insert(7, &item),
        Call::Up(9),
    ];
    list(sheet.as_bytes(), std::iter::repeat_n(b' ', item.len()), calls)
}

/// A layer with a group, and an empty layer: what each place and level answers.
fn borders() -> List {
    let body = vec![sheets::layer(&[(0, 1)]), sheets::header_of(2, &[(5, 1)]), point(3), sheets::layer(&[])];
    let sheet = sheets::sheet_of(&mut Random(2), body, 1);
    let end = (sheet.len() / RECORD + 1) as u64;
    let first = end - 4;
    let outside = [0, 1, first - 1, end + 1, MOST];
    let two = [point(2), point(2)].concat();
    let no_items = [Vec::new(), point(2)[1..].to_vec(), point(1), point(10), two, sheets::layer(&[]), EXAMPLE_ITEM[0].into()];
    let mut calls: Vec<Call> = outside.iter().flat_map(|n| [insert(*n, b""), remove(*n), Call::Up(*n)]).collect();
    calls.extend([first, first + 1, first + 3, end].map(remove));
    calls.extend(no_items.iter().map(|block| insert(first, block)));
    calls.extend((first..=end).rev().flat_map(|n| [2, 3, 4].map(|level| insert(n, &point(level)))));
    calls.extend((first..=end + 5).map(Call::Up));
    calls.extend((first..=end + 5).rev().map(remove));
    list(&sheet, tail(20 * RECORD), calls)
}

/// Groups down to level 8: a block before each, then one of each level at the end, from the deepest up.
fn deepest(r: &mut Random) -> List {
    let mut body = Vec::new();
    sheets::chain(r, 8, &mut body);
    let sheet = sheets::sheet_of(r, body, 1);
    let (walked, counts) = judge::accepted(&sheet, sheet.len()).expect("an accepted sheet");
    let (part, end) = (walked.part as u64, counts.records as u64 + 1);
    let mut calls: Vec<Call> = (2..=9).rev().map(|level| insert(part + level, &point(level as usize))).collect();
    calls.extend((2..=9).rev().map(|level| insert(end + 17 - level, &point(level as usize))));
    calls.extend((1..=26).map(|n| Call::Up(part + n)));
    calls.extend((1..=26).map(|n| remove(part + n)));
    list(&sheet, tail(20 * RECORD), calls)
}

/// Nine grids and nets, which is all that their header can state, and no tail: 14 comes before 15, and goes when one is removed.
fn nine_grids(r: &mut Random, level: usize) -> List {
    let sheet = calls::full_header(r, level);
    let (walked, counts) = judge::accepted(&sheet, sheet.len()).expect("an accepted sheet");
    let (first, end) = (walked.found[level], counts.records as u64 + 1);
    let grid = &sheet[first.place * RECORD..][..(1 + first.data) * RECORD];
    let at = first.place as u64 + 1;
    let calls = vec![
        insert(at, grid),
        insert(end, &point(level + 1)),
        remove(at),
        insert(end - (grid.len() / RECORD) as u64, grid),
        insert(at, grid),
        remove(at),
        insert(at, &point(level + 1)),
        insert(at, &sheets::item(r, 9, level + 1).concat()),
        Call::Up(at),
    ];
    list(&sheet, tail(0), calls)
}

/// A large grid goes out and comes in again, with another item before it.
fn large_grid(r: &mut Random) -> List {
    let grid = sheets::large_grid(40, 60);
    let sheet = sheets::sheet_of(r, [vec![sheets::layer(&[(9, 1)])], grid.clone()].concat(), 1);
    let at = (sheet.len() / RECORD - grid.len() + 1) as u64;
    let grid = grid.concat();
    let calls = vec![
        insert(at, &point(2)),
        remove(at + 2),
        remove(at + 1),
        insert(at, &grid),
        Call::Up(at + 199),
        insert(at, &grid),
        remove(at),
        remove(at),
        insert(at, &grid),
    ];
    list(&sheet, tail(RECORD + 7), calls)
}

/// A random call on a sheet in a buffer, with a number that a line can state.
fn call(r: &mut Random, buffer: &[u8], used: usize) -> Call {
    if r.once_in(6) {
        let number = r.below(used / RECORD + 3) as u64;
        return Call::Up(if r.once_in(10) { MOST } else { number });
    }
    match calls::draw(r, buffer, used) {
        Edit::Insert(place, block) => insert(place.min(MOST), &block),
        Edit::Remove(place) => remove(place.min(MOST)),
    }
}

/// A sheet in a buffer with a tail, and so many random calls, each drawn for what the last one left.
fn drawn(r: &mut Random, sheet: &[u8], length: usize, calls: usize) -> List {
    let mut made = list(sheet, tail(length), Vec::new());
    let mut buffer = made.buffer.clone();
    let mut used = made.used;
    for _ in 0..calls {
        let next = call(r, &buffer, used);
        next.run(&mut buffer, &mut used);
        made.calls.push(next);
    }
    made
}

/// A sheet with some headers and items.
fn larger(r: &mut Random, size: usize) -> Vec<u8> {
    loop {
        let sheet = sheets::sheet(r, size);
        if judge::accepted(&sheet, sheet.len()).is_ok_and(|(walked, _)| walked.found.len() >= 2 + size) {
            return sheet;
        }
    }
}

/// A sheet that is refused with this number.
fn refused_with(r: &mut Random, number: u8) -> Vec<u8> {
    loop {
        let sheet = sheets::sheet(r, 2);
        let sheet = sheets::damaged(r, &sheet);
        if sheet.len() < 30 * RECORD && judge::sheet(&sheet, sheet.len()).is_err_and(|e| e.number == number) {
            return sheet;
        }
    }
}

/// Sheets of all shapes with short and long tails, refused ones, and used lengths that are none.
fn random(r: &mut Random) -> Vec<List> {
    let mut lists = Vec::new();
    for n in 0..18 {
        let sheet = larger(r, 1 + n % 6);
        let length = r.below(if n % 3 == 0 { 6 } else { 90 }) * RECORD + r.below(3);
        let calls = 40 + r.below(21);
        lists.push(drawn(r, &sheet, length, calls));
    }
    for level in [1, 2] {
        let sheet = calls::full_header(r, level);
        lists.push(drawn(r, &sheet, 20 * RECORD, 50));
    }
    let layer = sheets::sheet_of(r, vec![sheets::layer(&[])], 0);
    lists.push(drawn(r, &layer, 300 * RECORD, 150));
    let each = || vec![insert(7, &point(2)), remove(7), Call::Up(7)];
    for number in 2..=10 {
        lists.push(list(&refused_with(r, number), tail(RECORD), each()));
    }
    let sheet = sheets::sheet(r, 2);
    for used in [0, 1, sheet.len() - 1, sheet.len() + 1, sheet.len() + 3 * RECORD, MOST as usize] {
        lists.push(List { used, ..list(&sheet, tail(2 * RECORD), each()) });
    }
    lists
}

fn lists(seed: u64) -> Vec<List> {
    let mut r = Random(seed);
    let empty = sheets::sheet_of(&mut r, Vec::new(), 0);
    let mut lists = vec![undone(), borders(), deepest(&mut r), nine_grids(&mut r, 1), nine_grids(&mut r, 8), large_grid(&mut r)];
    lists.push(drawn(&mut r, &empty, 5 * RECORD, 8));
    lists.extend(random(&mut r));
    assert!(lists.iter().all(|l| l.buffer.len() <= ROOM), "a buffer is too long for the program");
    lists
}

fn read(mut bytes: &[u8]) -> Vec<List> {
    let mut lists: Vec<List> = Vec::new();
    while bytes.len() >= 24 {
        let (head, rest) = bytes.split_at(24);
        let head = std::str::from_utf8(head).expect("a line");
        let number: u64 = head[7..17].parse().expect("a number");
        let (block, rest) = rest.split_at(head[18..23].parse().expect("a length"));
        bytes = rest;
        let call = match head[..7].trim_end() {
            "start" => {
                lists.push(List { used: number as usize, buffer: block.to_vec(), calls: Vec::new() });
                continue;
            }
            "end" => continue,
            "insert" => insert(number, block),
            "remove" => remove(number),
            _ => Call::Up(number),
        };
        lists.last_mut().expect("a list").calls.push(call);
    }
    lists
}

/// The fixed lists, and random ones from a seed.
pub fn make(seed: u64) -> Vec<u8> {
    let mut out = Vec::new();
    lists(seed).iter().for_each(|list| list.put(&mut out));
    out
}

/// What the program has to print for such lists.
pub fn answer(lists: &[u8]) -> Vec<u8> {
    read(lists).iter().flat_map(|list| list.answer().into_bytes()).collect()
}
