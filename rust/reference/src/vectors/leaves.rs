//! Commands of the batch protocol on columns and corners, for the program `leaf_vectors`, one to a line.

use crate::protocol::{hex, reply};
use crate::random::Random;

/// A number whose size is as likely small as large, either sign.
fn value(r: &mut Random) -> i64 {
    let n = (r.word() >> r.below(64)) as i64;
    if r.once_in(2) {
        n.wrapping_neg()
    } else {
        n
    }
}

/// A number at or near a border of a column or of the type.
fn border(r: &mut Random) -> i64 {
    let power = 10i64.pow(r.below(19) as u32);
    let at = *r.pick(&[0, power, -power, i64::MIN, i64::MAX]);
    at.saturating_add(r.between(-2, 2))
}

fn any(r: &mut Random) -> i64 {
    if r.once_in(3) {
        border(r)
    } else {
        value(r)
    }
}

/// A column: mostly well formed, with a byte or two changed half the time.
fn column(r: &mut Random) -> Vec<u8> {
    let width = if r.once_in(12) { *r.pick(&[0, 19, 20, 84, 200]) } else { 1 + r.below(18) };
    let digits = 1 + r.below(width.max(1));
    let mut bytes: Vec<u8> = (0..digits.min(width)).map(|_| b'0' + r.below(10) as u8).collect();
    if r.once_in(4) {
        bytes.iter_mut().for_each(|b| *b = b'0');
    }
    if r.once_in(3) && bytes.len() < width {
        bytes.insert(0, b'-');
    }
    while bytes.len() < width {
        bytes.insert(0, b' ');
    }
    for _ in 0..r.below(3).min(bytes.len()) {
        let i = r.below(bytes.len());
        bytes[i] = if r.once_in(3) { r.below(256) as u8 } else { *r.pick(b" -+0:/.9") };
    }
    bytes
}

fn unit(r: &mut Random) -> u64 {
    if r.once_in(8) {
        *r.pick(&[0, 2, 9, 11, 99, 100, 998, 1000, u64::MAX])
    } else {
        *r.pick(&[1, 10, 999])
    }
}

/// Data columns of seven bytes, one of them damaged half the time, and a run of them to ask for.
fn run(r: &mut Random) -> String {
    let columns = 1 + r.below(14);
    let mut bytes: Vec<u8> = Vec::new();
    for _ in 0..columns {
        let most = 10i64.pow(1 + r.below(6) as u32);
        bytes.extend(format!("{:>7}", r.between(-most + 1, most - 1)).into_bytes());
    }
    if r.once_in(2) {
        let i = r.below(bytes.len());
        bytes[i] = if r.once_in(3) { r.below(256) as u8 } else { *r.pick(b" -+0:/.9") };
    }
    let first = r.below(columns);
    let start = if r.once_in(12) { *r.pick(&[u64::MAX, u64::MAX / 7, 98, 99]) } else { 7 * first as u64 };
    let fits = (columns - first) as u64;
    let count = if r.once_in(8) { *r.pick(&[0, fits + 1, u64::MAX, u64::MAX / 7 + 1]) } else { fits };
    format!("formed {start} {count} {}", hex(&bytes))
}

fn leaf(r: &mut Random) -> String {
    match r.below(5) {
        4 => run(r),
        0 => format!("read {}", hex(&column(r))),
        1 => {
            let width = if r.once_in(10) { *r.pick(&[0, 19, 20, 84, 1000]) } else { 1 + r.below(18) };
            format!("write {width} {}", any(r))
        }
        2 => {
            let whole = if r.once_in(4) { any(r) } else { r.between(-1_100_000, 11_000_000) };
            let fraction = if r.once_in(4) { any(r) } else { r.between(-1_100, 1_100) * i64::from(!r.once_in(6)) };
            let whole = if r.once_in(6) { 0 } else { whole };
            format!("join {} {whole} {fraction}", unit(r))
        }
        _ => {
            let near = r.between(-1_001_000_000, 10_001_000_000);
            let millimetres = if r.once_in(3) {
                any(r)
            } else if r.once_in(2) {
                near / 10 * 10
            } else {
                near
            };
            format!("split {} {millimetres}", unit(r))
        }
    }
}

/// Cases that stand in document 01, and both ends of the numbers.
#[rustfmt::skip]
const FIXED: &[&str] = &[
    "join 10 -1234 -56", "join 1 -1234 -56", "join 10 0 -5", "join 1 12 -3", "join 10 12 -3", "join 999 -12 3",
    "join 1 9999999 999", "join 1 -999999 -999", "join 1 10000000 0", "join 1 -1000000 0", "join 1 0 1000",
    "join 1 0 -1000", "join 10 0 100", "join 10 0 -100", "join 999 0 99", "join 0 0 0", "join 2 12 -3",
    "join 1 9223372036854775807 9223372036854775807", "join 1 -9223372036854775808 -9223372036854775808",
    "split 1 0", "split 1 -1", "split 1 1", "split 1 -999", "split 1 -1000", "split 10 -50", "split 10 -55",
    "split 999 990", "split 1 9999999999", "split 1 10000000000", "split 1 -999999999", "split 1 -1000000000",
    "split 10 9999999990", "split 7 0", "split 1 9223372036854775807", "split 1 -9223372036854775808",
    "read 20203132", "read 30303132", "read 31322020", "read 2d30", "read 20202020", "read -", "read 2b31",
    "read 312032", "read 2d", "read 2d2d31", "read 2d31", "read 00", "read ff", "read 0a",
    "read 393939393939393939393939393939393939", "read 2d3939393939393939393939393939393939",
    "read 31393939393939393939393939393939393939", "write 1 0", "write 1 -1", "write 2 -1", "write 4 12",
    "write 18 999999999999999999", "write 18 1000000000000000000", "write 18 -99999999999999999",
    "write 18 -100000000000000000", "write 0 0", "write 19 0", "write 18 9223372036854775807",
    "write 18 -9223372036854775808", "write 5 99999", "write 5 100000",
];

/// The fixed commands, and so many random ones from a seed.
pub fn make(seed: u64, count: usize) -> Vec<u8> {
    let mut r = Random(seed);
    let fixed = FIXED.iter().map(|line| line.to_string());
    let lines: Vec<String> = fixed.chain((0..count).map(|_| leaf(&mut r))).collect();
    text(&lines)
}

/// What the program has to print for such commands.
pub fn answer(commands: &[u8]) -> Vec<u8> {
    let lines: Vec<String> = String::from_utf8_lossy(commands).lines().map(reply).collect();
    text(&lines)
}

fn text(lines: &[String]) -> Vec<u8> {
    lines.iter().flat_map(|line| format!("{line}\n").into_bytes()).collect()
}
