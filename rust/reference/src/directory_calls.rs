//! Random calls of orders 5 and 13: sheets with right and wrong directories of an edition, for the stored calls and for the tests against the library.
//! What an edition alone needs is drawn for it alone, so that a seed gives the first edition the same calls as before there was a second.

use crate::directory::{described, record, Edition, FIRST, SECOND};
use crate::judge::{accepted, Walked};
use crate::layout::{Layouts, CORNERS};
use crate::line_calls::{marked, Lent};
use crate::protocol::hex;
use crate::random::Random;
use crate::record::Sort;
use crate::{sheets, RECORD};

/// A call that jumps to a layer.
#[derive(Clone, Debug)]
pub struct Jumping {
    pub from: Lent,
    pub layer: u64,
}

/// A sheet with its walk, what an edition lists of each of its layers, and a directory of that edition, record by record.
struct Listed {
    edition: &'static Edition,
    sheet: Vec<u8>,
    walked: Walked,
    layers: Vec<Vec<i64>>,
    directory: Vec<Vec<u8>>,
}

/// A directory that lists these layers, each with its numbers.
fn listing(edition: &Edition, layers: &[Vec<i64>], pointer: usize, count: usize) -> Vec<Vec<u8>> {
    let mut records: Vec<Vec<u8>> = layers.chunks(edition.layers).map(|some| record(edition.list, &some.concat())).collect();
    records.push(edition.closing(pointer as i64, count as i64));
    records
}

impl Listed {
    /// An accepted sheet with its right directory.
    fn of(edition: &'static Edition, sheet: Vec<u8>) -> Listed {
        let (walked, counts) = accepted(&sheet, sheet.len()).expect("an accepted sheet");
        let layers: Vec<Vec<i64>> = described(&walked, counts.records).iter().map(|layer| edition.states(layer)).collect();
        let directory = listing(edition, &layers, counts.records + 1, layers.len());
        Listed { edition, sheet, walked, layers, directory }
    }

    /// The layers that are listed, under a pointer to some record.
    fn pointing(&self, pointer: usize) -> Vec<Vec<u8>> {
        listing(self.edition, &self.layers, pointer, self.layers.len())
    }

    /// The number of the first record behind the sheet.
    fn pointer(&self) -> usize {
        self.sheet.len() / RECORD + 1
    }

    fn file(&self) -> Vec<u8> {
        [&self.sheet[..], &self.directory.concat()].concat()
    }
}

/// A free data record: it looks like a layer header, like a last record, or like one of these.
fn alike(r: &mut Random, edition: &Edition, directory: &[Vec<u8>]) -> Vec<u8> {
    let (pointer, count) = (r.between(-1, 60), r.between(-1, 30));
    match r.below(4) {
        0 => sheets::layer(&[]),
        1 => edition.closing(pointer, count),
        _ => r.pick(directory).clone(),
    }
}

/// Puts other bytes into the data records of attributes, which are free: such as look like headers or like the sheet's own directory.
fn put_alikes(r: &mut Random, l: &mut Listed) {
    let attributes = l.walked.found.iter().filter(|f| f.sort == Sort::Element(8));
    for place in attributes.flat_map(|f| f.place + 1..=f.place + f.data) {
        l.sheet[place * RECORD..][..RECORD].copy_from_slice(&alike(r, l.edition, &l.directory));
    }
}

/// A sheet whose last item is an attribute, and its data records are the directory of the layers before them.
fn disguised(r: &mut Random, edition: &'static Edition) -> Vec<u8> {
    let layers = 1 + r.below(22);
    let data = layers.div_ceil(edition.layers) + 1;
    let mut item = sheets::item(r, 8, 2).swap_remove(0);
    ["data count", "records"].iter().for_each(|name| Layouts::shared().element.put(name, &mut item, data as i64));
    let mut body = vec![sheets::layer(&[]); layers - 1];
    body.extend([sheets::layer(&[(8, 1)]), item]);
    body.extend(vec![vec![b' '; RECORD]; data]);
    let mut sheet = sheets::sheet_of(r, body, 1);
    let start = sheet.len() - data * RECORD;
    let directory = Listed::of(edition, sheet.clone()).pointing(start / RECORD + 1);
    sheet[start..].copy_from_slice(&directory.concat());
    sheet
}

/// An accepted sheet: often with as many layers as fill records of the directory, or one more or less.
fn some_sheet(r: &mut Random, edition: &'static Edition) -> Listed {
    if r.once_in(24) {
        return Listed::of(edition, disguised(r, edition));
    }
    let (some, full) = (r.below(30), edition.layers);
    let layers = *r.pick(&[0, 1, 1, 2, 3, 4, full - 1, full, full + 1, 2 * full, 2 * full + 1, some]);
    let size = if layers > 4 { r.below(2) } else { r.below(4) };
    let mut l = Listed::of(edition, sheets::sheet_with_layers(r, layers, size));
    put_alikes(r, &mut l);
    l
}

/// A column with a number is made one that is not in written form, or another byte comes in.
fn unwritten(r: &mut Random, column: &mut [u8]) {
    let spaces = column.iter().take_while(|b| **b == b' ').count();
    let (at, byte) = (r.below(7), r.word() as u8);
    match r.below(8) {
        0..=2 if spaces > 0 => {
            let zeros = 1 + r.below(spaces);
            column[spaces - zeros..spaces].fill(b'0');
        }
        3 if spaces > 0 => column[spaces - 1] = b'+',
        4 => column.rotate_left(1),
        5 => column.copy_from_slice(b"     -0"),
        6 => column.fill(b' '),
        _ => column[at] = byte,
    }
}

/// Which of a layer's numbers: the first edition has the header alone.
fn which(r: &mut Random, edition: &Edition) -> usize {
    if edition.numbers == 1 {
        0
    } else {
        r.below(edition.numbers)
    }
}

/// The directory lists other numbers, in written form and with no gap.
fn wrong_numbers(r: &mut Random, l: &mut Listed) {
    let mut layers = l.layers.clone();
    let (last, any) = (layers.len().saturating_sub(1), r.between(-1, l.pointer() as i64 + 1));
    let (at, nth) = (r.below(last + 1), which(r, l.edition));
    match r.below(10) {
        _ if layers.is_empty() => layers.push(vec![any; l.edition.numbers]),
        0 => layers[at][nth] = any,
        1 | 2 => layers[at][nth] += r.pick(&[-1, 1]),
        3 => drop(layers.remove(at)),
        4 => drop(layers.pop()),
        5 => layers.insert(at, layers[at].clone()),
        6 => layers.push(vec![any; l.edition.numbers]),
        7 => layers.push(layers[last].iter().map(|n| n + 1).collect()),
        8 => layers.swap(at, last),
        _ => layers.iter_mut().for_each(|layer| layer[nth] -= 1),
    }
    let count = *r.pick(&[layers.len(), l.layers.len()]);
    l.directory = listing(l.edition, &layers, l.pointer(), count);
}

/// The letter that an edition's records start with, the same in small, and the other edition's.
fn letters(edition: &Edition) -> [u8; 3] {
    let own = edition.end.as_bytes()[0];
    let other = if own == b'Z' { b'Y' } else { b'Z' };
    [own, own.to_ascii_lowercase(), other]
}

/// A record that lists layers is spoiled.
fn wrong_bytes(r: &mut Random, edition: &Edition, row: &mut Vec<u8>) {
    let used = (row.iter().rposition(|b| *b != b' ').unwrap_or(8) + 1 - 2).div_ceil(7);
    let column = 2 + 7 * r.below(used);
    let behind = 2 + 7 * used;
    let (at, byte) = (r.below(RECORD), r.word() as u8);
    let [own, small, other] = letters(edition);
    let starts = [[own, b'E'], [small, b' '], [own, own], [b' ', own], *b"H ", [other, b' '], [own, b'0']];
    match r.below(8) {
        0 => row[..2].copy_from_slice(&r.pick(&starts)[..]),
        1..=3 => unwritten(r, &mut row[column..column + 7]),
        4 if edition.numbers > 1 && r.once_in(2) => row[column..].fill(b' '),
        4 => row[column..column + 7].fill(b' '),
        5 => {
            row.splice(column..column, [b' '; 7]);
            row.truncate(RECORD);
        }
        6 => row[behind + at % (RECORD - behind)] = *r.pick(&[b'x', b'0', 0, byte]),
        _ => row[at] = byte,
    }
}

/// A record that lists layers is spoiled, exchanged, doubled or missing, or there is one too many.
fn wrong_rows(r: &mut Random, l: &mut Listed) {
    let rows = l.directory.len() - 1;
    let any = r.between(1, l.pointer() as i64);
    let full = vec![any; l.edition.layers * l.edition.numbers];
    let surplus = [&full[..0], &full[..1], &full].map(|numbers| record(l.edition.list, numbers));
    let (at, other) = (r.below(rows.max(1)), r.below(rows.max(1)));
    match r.below(12) {
        _ if rows == 0 => l.directory.insert(0, r.pick(&surplus).clone()),
        0 => l.directory.swap(at, other),
        1 => l.directory.swap(0, rows - 1),
        2 => l.directory.insert(at, l.directory[at].clone()),
        3 => drop(l.directory.remove(at)),
        4 => l.directory.insert(rows, r.pick(&surplus).clone()),
        5 => l.directory.insert(rows, l.directory[0].clone()),
        _ => wrong_bytes(r, l.edition, &mut l.directory[at]),
    }
}

/// The last record points elsewhere or states another count.
fn other_end(r: &mut Random, l: &Listed) -> Vec<u8> {
    let (pointer, count) = (l.pointer() as i64, l.layers.len() as i64);
    let own = pointer - 1 + l.directory.len() as i64;
    let (any, before) = (r.between(1, own), r.between(1, pointer));
    let headers: Vec<i64> = l.layers.iter().map(|layer| layer[0]).chain([own]).collect();
    let header = *r.pick(&headers);
    let inside = *r.pick(&[1, 1, 2, 3, own, own, own - 1, any, before, before, header]);
    let outside = *r.pick(&[0, 0, -1, -pointer, own + 1, own + 1, own + 2, 9_999_999, -999_999]);
    let other = *r.pick(&[-1, -count, 0, count - 1, count + 1, count + 11, 9_999_999, -999_999]);
    let [pointer, count] =
        *r.pick(&[[inside, count], [inside, count], [outside, count], [pointer, other], [inside, other], [outside, other]]);
    l.edition.closing(pointer, count)
}

/// The edition column states another edition, or is in another form.
fn wrong_edition(r: &mut Random, column: &mut [u8]) {
    let any = r.between(-30, 30);
    let other = *r.pick(&[0, 1, 1, 3, 3, -2, 12, 20, 22, 9_999_999, -999_999, any]);
    let forms = [b"     02", b"0000002", b"2      ", b"     2 ", b"     -2", b"     +2", b"       ", b"2     2"];
    match r.below(5) {
        0 | 1 => column.copy_from_slice(&record("", &[other])[..7]),
        2 | 3 => column.copy_from_slice(*r.pick(&forms)),
        _ => unwritten(r, column),
    }
}

/// The last record is spoiled; with an edition column, often that, and now and then another part too.
fn wrong_end(r: &mut Random, l: &mut Listed) {
    if !l.edition.edition.is_empty() && r.once_in(3) {
        let end = l.directory.last_mut().expect("a last record");
        wrong_edition(r, &mut end[16..23]);
        if r.once_in(2) {
            return;
        }
    }
    let mut stated = other_end(r, l);
    let end = l.directory.last_mut().expect("a last record");
    let (at, byte) = (r.below(RECORD), r.word() as u8);
    let rest = 16 + 7 * l.edition.edition.len();
    stated[16..rest].copy_from_slice(&end[16..rest]);
    let [own, small, other] = letters(l.edition);
    let starts = [[own, b'F'], [own, b' '], [small, b'E'], [other, b'E'], *b" E", [b'E', own], [own, b'e']];
    match r.below(12) {
        0 => end[..2].copy_from_slice(&r.pick(&starts)[..]),
        1 | 2 => unwritten(r, &mut end[2..9]),
        3 | 4 => unwritten(r, &mut end[9..16]),
        5 => end[rest + at % (RECORD - rest)] = *r.pick(&[b'x', b'0', 0, byte]),
        6 => end[at] = byte,
        _ => *end = stated,
    }
}

/// A second last record, or a directory behind the directory.
fn stacked(r: &mut Random, l: &mut Listed) {
    let own = l.pointer() - 1 + l.directory.len();
    let end = l.directory[l.directory.len() - 1].clone();
    let count = *r.pick(&[0, l.layers.len()]);
    match r.below(5) {
        0 => l.directory.push(end),
        1 => l.directory.push(l.edition.closing(own as i64 + 1, count as i64)),
        2 => l.directory.extend(l.pointing(own + 1)),
        3 => l.directory.extend_from_within(..),
        _ => l.directory.insert(0, end),
    }
}

/// Both editions behind one sheet: the records of one with the last of the other, or one behind the other, right or wrong about where it starts.
fn mixed(r: &mut Random, l: &mut Listed) {
    let mut pair = [l.directory.clone(), Listed::of(&FIRST, l.sheet.clone()).directory];
    if r.once_in(2) {
        pair.swap(0, 1);
    }
    let [mut first, second] = pair;
    let (rows, own) = (first.len() - 1, l.pointer() + first.len());
    let end = second[second.len() - 1].clone();
    match r.below(6) {
        0 | 1 => first[rows] = end,
        2 => first.push(end),
        3 => first.insert(rows, end),
        4 => first.extend(second),
        _ => {
            first.extend(second);
            let last = first.last_mut().expect("a last record");
            last[2..9].copy_from_slice(&record("", &[own as i64])[..7]);
        }
    }
    l.directory = first;
}

/// The sheet breaks a data rule (8) or has a fraction that is too large (9), which a random damage seldom makes.
fn against_a_rule(r: &mut Random, l: &mut Listed) {
    let items: Vec<usize> = l.walked.found.iter().filter(|f| f.sort != Sort::Header).map(|f| f.place).collect();
    let all = Layouts::shared();
    if items.is_empty() || r.once_in(2) {
        all.sheet_e.put(CORNERS[r.below(CORNERS.len())], &mut l.sheet[4 * RECORD..5 * RECORD], 9_999);
    } else {
        let item = &mut l.sheet[r.pick(&items) * RECORD..][..RECORD];
        let layout = Sort::of(item).expect("an item").layout();
        layout.put("records", item, layout.value("records", item) + 1);
    }
}

/// A damaged sheet, whose directory points to what stands behind it or, now and then, behind what it was.
fn wrong_sheet(r: &mut Random, edition: &'static Edition) -> Listed {
    let size = r.below(5);
    let mut l = Listed::of(edition, sheets::sheet(r, size));
    if r.once_in(5) {
        against_a_rule(r, &mut l);
    } else {
        l.sheet = sheets::damaged(r, &l.sheet);
    }
    if !r.once_in(8) {
        l.directory = l.pointing(l.pointer());
    }
    l
}

/// Records of any bytes, behind them sometimes a last record that may be well formed.
fn any_records(r: &mut Random, edition: &Edition) -> Vec<u8> {
    let records = 1 + r.below(12);
    let mut bytes: Vec<u8> = (0..records * RECORD).map(|_| r.word() as u8).collect();
    if r.once_in(2) {
        let pointer = r.between(-1, records as i64 + 2);
        bytes.extend(edition.closing(pointer, 0));
    }
    bytes
}

/// A file to be judged with directory: a right one, a wrong one, a damaged one, a plain sheet, or any bytes.
fn some_file(r: &mut Random, mut l: Listed) -> Vec<u8> {
    let both = !l.edition.edition.is_empty() && r.once_in(10);
    match r.below(40) {
        _ if both => mixed(r, &mut l),
        0..=4 => wrong_numbers(r, &mut l),
        5..=12 => wrong_rows(r, &mut l),
        13..=21 => wrong_end(r, &mut l),
        22..=24 => stacked(r, &mut l),
        25..=29 => l = wrong_sheet(r, l.edition),
        30 | 31 => return sheets::damaged(r, &l.file()),
        32 => return any_records(r, l.edition),
        33 => return l.sheet,
        34 => return disguised(r, l.edition),
        _ => {}
    }
    // with two faults it shows which one is answered
    if !both && r.once_in(5) {
        wrong_end(r, &mut l);
    }
    l.file()
}

/// A file in a buffer with so many bytes behind it, and a used length that is sometimes another.
fn lent(r: &mut Random, file: Vec<u8>, room: usize) -> Lent {
    let used = file.len();
    let buffer = [file, marked(room)].concat();
    let fewer = r.below(used / RECORD) * RECORD;
    let next = buffer.len().next_multiple_of(RECORD);
    let near = [used - 1, used + 1, used + RECORD, next, next + RECORD, buffer.len(), fewer, fewer, fewer + 1];
    let far = [0, 0, 1, (1 << 32) + used, 1 << 63, usize::MAX, usize::MAX / RECORD * RECORD];
    let used = match r.below(24) {
        0 => *r.pick(&near),
        1 => *r.pick(&far),
        _ => used,
    };
    Lent { buffer, used }
}

/// Bytes behind a file that is only read: most often none.
fn some_room(r: &mut Random) -> usize {
    if r.once_in(3) {
        r.below(3 * RECORD)
    } else {
        0
    }
}

/// A call that judges a sheet with a directory of this edition.
pub fn judging(r: &mut Random, edition: &'static Edition) -> Lent {
    let l = some_sheet(r, edition);
    let file = some_file(r, l);
    let room = some_room(r);
    lent(r, file, room)
}

/// A call that appends a directory of this edition: with the room that it takes, with less or with more.
pub fn appending(r: &mut Random, edition: &'static Edition) -> Lent {
    let l = some_sheet(r, edition);
    let needed = l.directory.len() * RECORD;
    let file = match r.below(20) {
        0..=4 => wrong_sheet(r, edition).sheet,
        5 => l.file(),
        6 => any_records(r, edition),
        _ => l.sheet,
    };
    let some = r.below(needed);
    let short = [needed - 1, needed - 1, needed - RECORD, some, 0];
    let enough = [needed, needed, needed + 1, needed + RECORD, needed + some];
    let room = if r.once_in(4) { *r.pick(&short) } else { *r.pick(&enough) };
    lent(r, file, room)
}

/// A call that jumps to a layer by a directory of this edition, most often in a file that is accepted.
pub fn jumping(r: &mut Random, edition: &'static Edition) -> Jumping {
    let l = some_sheet(r, edition);
    let count = l.layers.len() as u64;
    let some = r.word() % (count + 1);
    let inside = [1, 1, count, count, some, some];
    let outside = [0, count + 1, count + 1, count + 11, (1 << 32) + 1, 1 << 63, u64::MAX, u64::MAX - 1];
    let layer = if r.once_in(3) { *r.pick(&outside) } else { *r.pick(&inside) };
    let file = if r.once_in(3) { some_file(r, l) } else { l.file() };
    let room = some_room(r);
    Jumping { from: lent(r, file, room), layer }
}

/// An edition for a call that reads both: more often the second.
pub fn some_edition(r: &mut Random) -> &'static Edition {
    if r.once_in(4) {
        &FIRST
    } else {
        &SECOND
    }
}

/// A drawn call as a command of the batch protocol; a mark behind its word tells whether it is an old call or a new one.
fn command(r: &mut Random, edition: &'static Edition, mark: &str) -> String {
    let of = |word: &str, lent: &Lent| format!("{word}{mark} {} {}", lent.used, hex(&lent.buffer));
    match r.below(3) {
        0 => of("directory", &judging(r, edition)),
        1 => of("append", &appending(r, edition)),
        _ => {
            let call = jumping(r, edition);
            format!("{} {}", of("jump", &call.from), call.layer)
        }
    }
}

/// So many commands of order 5 from a seed, one to a line.
pub fn commands(seed: u64, count: usize) -> Vec<u8> {
    let mut r = Random(seed);
    (0..count).flat_map(|_| (command(&mut r, &FIRST, "") + "\n").into_bytes()).collect()
}

/// So many commands of order 13 from a seed, one to a line: the new calls on both editions, and the old ones on the second.
pub fn commands_of_both(seed: u64, count: usize) -> Vec<u8> {
    let mut r = Random(seed);
    let mut line = || {
        let old = r.once_in(6);
        let edition = if old { &SECOND } else { some_edition(&mut r) };
        command(&mut r, edition, if old { "" } else { "2" }) + "\n"
    };
    (0..count).flat_map(|_| line().into_bytes()).collect()
}
