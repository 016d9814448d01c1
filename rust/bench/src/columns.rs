//! Number columns: the proved reader beside two loops over the bytes as they are written by hand, and beside Rust's library.

use crate::{least, no_such, MORE_ROUNDS};
use bench::readers::{by_flags, by_library, by_phases};
use reference::column;
use reference::random::Random;
use std::hint::black_box;
use zvaigulta::{read_column, Refusal};

const WIDTHS: [usize; 5] = [2, 4, 5, 7, 18];

/// So many that a branch predictor does not learn all of them by heart, and few enough to stay in a near cache.
const COLUMNS: usize = 4_000;

/// Each reads some thousands of columns once, so there is time for more of them than in other sections.
const ROUNDS: usize = 10 * MORE_ROUNDS;

/// Turns of a round: the first brings the columns nearer for the others.
const TURNS: usize = 3;

/// Draws a number for a column of a width.
type Draw = fn(&mut Random, usize) -> i64;

const KINDS: [(&str, Draw); 5] = [
    ("zeros", |_, _| 0),
    ("small", |r, _| r.between(0, 99)),
    ("mixed", mixed),
    ("full", of_digits),
    ("minus", |r, width| -of_digits(r, width - 1)),
];

/// A number of so many digits, the first of them not 0.
fn of_digits(r: &mut Random, digits: usize) -> i64 {
    let least = 10i64.pow(digits as u32 - 1);
    r.between(least, 10 * least - 1)
}

/// A number of any length up to the width; one in four that have room for a minus has one.
fn mixed(r: &mut Random, width: usize) -> i64 {
    let digits = 1 + r.below(width);
    let number = of_digits(r, digits);
    if digits < width && r.once_in(4) {
        return -number;
    }
    number
}

/// Columns of a width end to end, in written form.
fn columns(width: usize, draw: Draw) -> Vec<u8> {
    let mut r = Random(width as u64);
    (0..COLUMNS).flat_map(|_| column::write(width, draw(&mut r, width)).expect("a number that fits")).collect()
}

/// The sum of the columns' numbers modulo 2^64, so that every answer is looked at; none of the columns that are made here is refused.
fn sum(read: impl Fn(&[u8]) -> Result<i64, Refusal>, width: usize, columns: &[u8]) -> i64 {
    columns.chunks_exact(width).fold(0, |sum: i64, column| sum.wrapping_add(read(column).expect("a number")))
}

/// The same by each reader, the proved one first.
type Sum = fn(usize, &[u8]) -> i64;

const SUMS: [(&str, Sum); 4] = [
    ("column", |width, columns| sum(read_column, width, columns)),
    ("phases", |width, columns| sum(by_phases, width, columns)),
    ("flags", |width, columns| sum(by_flags, width, columns)),
    ("library", |width, columns| sum(by_library, width, columns)),
];

/// Columns of a width and a kind, and the best seconds of each reader.
struct Measured {
    width: usize,
    name: &'static str,
    columns: Vec<u8>,
    best: [f64; SUMS.len()],
}

impl Measured {
    fn new(width: usize, (name, draw): (&'static str, Draw)) -> Measured {
        let columns = columns(width, draw);
        let sums = SUMS.map(|(_, sum)| sum(width, &columns));
        assert!(sums.iter().all(|sum| *sum == sums[0]));
        Measured { width, name, columns, best: [f64::MAX; SUMS.len()] }
    }

    /// Every reader once. The width is one that the compiler does not know.
    fn turn(&mut self) {
        let Measured { width, columns, best, .. } = self;
        for ((_, sum), best) in SUMS.iter().zip(best) {
            *best = best.min(least(1, || sum(black_box(*width), black_box(columns))));
        }
    }

    fn round(&mut self) {
        (0..TURNS).for_each(|_| self.turn());
    }

    fn print(&self) {
        let [proved, phases, flags, library] = self.best.map(|seconds| seconds * 1e9 / COLUMNS as f64);
        println!(
            "{:>5} {:<6} {proved:>8.2} {phases:>8.2} {flags:>8.2} {library:>8.2} {:>10.2} {:>10.2} {:>10.2}",
            self.width,
            self.name,
            phases / proved,
            flags / proved,
            library / proved,
        );
    }
}

/// All rows.
pub fn rows() {
    let mut all: Vec<Measured> = WIDTHS.iter().flat_map(|width| KINDS.map(|kind| Measured::new(*width, kind))).collect();
    (0..ROUNDS).for_each(|_| all.iter_mut().for_each(Measured::round));
    println!("\nColumns: ns a column, of the proved reader, a loop by phases, a loop with flags and Rust's library; and the proved reader's speed,");
    println!("times as fast as each of the others. Where the linker puts a loop moves a row: `bench/placed` takes the best of four placements.\n");
    println!(
        "{:>5} {:<6} {:>8} {:>8} {:>8} {:>8} {:>10} {:>10} {:>10}",
        "width", "kind", "proved", "phases", "flags", "library", "x phases", "x flags", "x library"
    );
    all.iter().for_each(Measured::print);
}

/// A reader and a kind of columns: `column-zeros`, `phases-mixed`.
fn named(what: &str) -> Option<(Sum, Draw)> {
    let (reader, kind) = what.split_once('-')?;
    let (_, sum) = SUMS.iter().find(|(name, _)| *name == reader)?;
    let (_, draw) = KINDS.iter().find(|(name, _)| *name == kind)?;
    Some((*sum, *draw))
}

pub fn has(what: &str) -> bool {
    named(what).is_some()
}

/// One reader on every column of a kind and a width, once.
pub fn once(what: &str, width: usize) {
    match named(what) {
        Some((sum, draw)) if WIDTHS.contains(&width) => println!("{}", sum(width, &columns(width, draw))),
        _ => no_such(&format!("{what} {width}")),
    }
}
