//! Random calls of order 1: files with line ends and plain ones, whole, damaged and of any bytes, for the stored calls and for the tests
//! against the library.

use crate::lines::{with_ends, END, LINE};
use crate::protocol::hex;
use crate::random::Random;
use crate::{sheets, MOST_RECORDS, RECORD};

/// The least length that is a multiple of both widths: 43 plain records, or 42 with line ends.
const BOTH: usize = 3_612;

/// A buffer, and the used length of the file in it, which may be any number.
#[derive(Clone, Debug)]
pub struct Lent {
    pub buffer: Vec<u8>,
    pub used: usize,
}

/// A file that is lent to a writer, and the target.
#[derive(Clone, Debug)]
pub struct Writing {
    pub from: Lent,
    pub target: Vec<u8>,
}

/// Bytes of which each differs from its neighbours, so that a moved one shows.
pub fn marked(length: usize) -> Vec<u8> {
    (0..length).map(|i| b'!' + (i % 89) as u8).collect()
}

/// Two bytes that are no line end: exchanged, doubled, one of them right, or any.
fn no_end(r: &mut Random) -> [u8; 2] {
    let (a, b) = (r.word() as u8, r.word() as u8);
    let bytes = *r.pick(&[[10, 13], [13, 13], [10, 10], [b' ', b' '], [13, b], [a, 10], [13, 138], [141, 10], [a, b]]);
    if bytes == END {
        [10, 13]
    } else {
        bytes
    }
}

/// Breaks the end of the first, the last, the middle or any record.
fn break_end(r: &mut Random, file: &mut [u8]) {
    let lines = file.len() / LINE;
    let any = r.below(lines);
    let nth = *r.pick(&[0, lines - 1, lines / 2, any]);
    file[nth * LINE + RECORD..(nth + 1) * LINE].copy_from_slice(&no_end(r));
}

/// A line end at any place: most often inside a record.
fn end_inside(r: &mut Random, file: &mut [u8]) {
    let at = r.below(file.len() - 1);
    file[at..at + 2].copy_from_slice(&END);
}

/// A byte is lost or comes twice, and the length stays: the last byte comes twice or is lost.
fn shift(r: &mut Random, file: &mut Vec<u8>) {
    let (at, last) = (r.below(file.len()), file[file.len() - 1]);
    if r.once_in(2) {
        file.remove(at);
        file.push(last);
    } else {
        file.insert(at, file[at]);
        file.pop();
    }
}

/// Damages that only a file with line ends has: most often none.
fn damaged_lines(r: &mut Random, mut file: Vec<u8>) -> Vec<u8> {
    match r.below(16) {
        0 | 1 => break_end(r, &mut file),
        2 => (0..2).for_each(|_| break_end(r, &mut file)),
        3 => end_inside(r, &mut file),
        4 => shift(r, &mut file),
        _ => {}
    }
    file
}

/// A plain sheet or index, with up to two damages.
fn some_file(r: &mut Random, sheet: bool) -> Vec<u8> {
    let size = r.below(5);
    let mut file = if sheet { sheets::sheet(r, size) } else { sheets::index(r) };
    for _ in 0..r.below(3) {
        let twin = sheets::damaged(r, &file);
        file = if twin.is_empty() { file } else { twin };
    }
    file
}

/// An accepted sheet or index of 42 records: with line ends it is as long as a plain file.
fn of_both_lengths(r: &mut Random, sheet: bool) -> Vec<u8> {
    let file = if sheet { sheets::sheet_of_points(BOTH / LINE) } else { sheets::index_of(r, 10, BOTH / LINE - 2) };
    with_ends(&file)
}

/// Any bytes, so many records of a width; now and then as many as make a multiple of both.
fn any_bytes(r: &mut Random, width: usize) -> Vec<u8> {
    let most = if r.once_in(8) { 90 } else { 12 };
    let length = if r.once_in(12) { *r.pick(&[BOTH, 2 * BOTH]) } else { (1 + r.below(most)) * width };
    match r.below(3) {
        0 => (0..length).map(|_| r.word() as u8).collect(),
        1 => (0..length).map(|_| *r.pick(&[13, 10, b' ', b'0'])).collect(),
        _ => (0..length).map(|i| (i % 251) as u8).collect(),
    }
}

/// A file of records of a width, in a buffer that is sometimes longer, with a used length that is sometimes another.
fn lent(r: &mut Random, mut buffer: Vec<u8>, width: usize) -> Lent {
    let used = buffer.len();
    let behind = if r.once_in(3) { r.below(3 * width) } else { 0 };
    buffer.extend(marked(behind));
    let fewer = r.below(used / width + 1) * width;
    let as_other = used / width * (LINE + RECORD - width);
    let near = [used + 1, used - 1, used + width, used + RECORD, used + LINE, as_other, fewer + 1];
    let far = [0, 0, 1, width, (MOST_RECORDS + 1) * width, (1 << 32) + used, 1 << 63, usize::MAX, usize::MAX / width * width];
    let used = match r.below(24) {
        0 => *r.pick(&near),
        1 => *r.pick(&far),
        2 => fewer,
        _ => used,
    };
    Lent { buffer, used }
}

/// A file to be judged with line ends. Now and then it is plain, as long as a plain one, or any bytes.
pub fn judging(r: &mut Random, sheet: bool) -> Lent {
    let file = match r.below(40) {
        0 => some_file(r, sheet),
        1 => sheets::sheet_of_points(BOTH / RECORD),
        2 => of_both_lengths(r, sheet),
        3 => any_bytes(r, LINE),
        _ => {
            let plain = some_file(r, sheet);
            damaged_lines(r, with_ends(&plain))
        }
    };
    lent(r, file, LINE)
}

/// Records of any bytes, or of a sheet or an index; they may hold line ends.
fn records(r: &mut Random) -> Vec<u8> {
    let sheet = r.once_in(2);
    match r.below(12) {
        0..=3 => some_file(r, sheet),
        4 => of_both_lengths(r, sheet),
        _ => any_bytes(r, RECORD),
    }
}

/// A target for a result of as many bytes as the file's whole records of a width make in the other.
fn with_target(r: &mut Random, from: Lent, width: usize) -> Writing {
    let file = from.used.min(from.buffer.len());
    let result = file / width * (LINE + RECORD - width);
    let some = r.below(result + 1);
    let less = |by: usize| result.saturating_sub(by);
    let short = [less(1), less(1), less(2), less(RECORD), less(LINE), some, 0];
    let enough = [result, result, result, result + 1, result + 2, result + RECORD, result + LINE, result.max(file)];
    let length = if r.once_in(4) { *r.pick(&short) } else { *r.pick(&enough) };
    Writing { from, target: marked(length) }
}

/// A call that writes a plain file with line ends.
pub fn to_lines(r: &mut Random) -> Writing {
    let file = records(r);
    let from = lent(r, file, RECORD);
    with_target(r, from, RECORD)
}

/// A call that writes a file with line ends plain.
pub fn from_lines(r: &mut Random) -> Writing {
    let file = match r.below(20) {
        0 => any_bytes(r, LINE),
        1 => records(r),
        _ => {
            let plain = records(r);
            damaged_lines(r, with_ends(&plain))
        }
    };
    let from = lent(r, file, LINE);
    with_target(r, from, LINE)
}

/// A drawn call as a command of the batch protocol.
fn command(r: &mut Random) -> String {
    let judge = |kind: &str, lent: Lent| format!("judge86 {kind} {} {}", lent.used, hex(&lent.buffer));
    let write = |word: &str, call: Writing| format!("{word} {} {} {}", call.from.used, hex(&call.from.buffer), hex(&call.target));
    match r.below(4) {
        0 => judge("sheet", judging(r, true)),
        1 => judge("index", judging(r, false)),
        2 => write("to86", to_lines(r)),
        _ => write("from86", from_lines(r)),
    }
}

/// So many commands from a seed, one to a line.
pub fn commands(seed: u64, count: usize) -> Vec<u8> {
    let mut r = Random(seed);
    (0..count).flat_map(|_| (command(&mut r) + "\n").into_bytes()).collect()
}
