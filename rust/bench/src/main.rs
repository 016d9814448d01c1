//! The benchmark: the proved judge beside an idiomatic one, the reference and a plain copy; its cost a record as files grow; edits beside a
//! judging and a move; files with line ends beside plain ones and a copy (`bench lines`: these alone); sheets with a directory of layers beside
//! those without (`bench directories`); the reader of a number column beside others (`bench columns`). Every figure is the best of several rounds with
//! all of them in turn, so that ratios compare. `bench once WHAT RECORDS` makes one call, for a tool that counts instructions; `bench once
//! READER-KIND WIDTH` reads 4,000 columns.

mod columns;
mod directories;
mod lines;

use bench::{files, idiomatic};
use reference::random::Random;
use reference::{judge, sheets, RECORD};
use std::hint::black_box;
use std::time::Instant;
use zvaigulta::{insert, judge_index, judge_sheet, normal_index, normal_sheet, remove, way_up};

const ROUNDS: usize = 9;

/// More rounds than the other rows have: the bars are ratios of times that are close to each other, and other work on the machine comes and goes.
const MORE_ROUNDS: usize = 2 * ROUNDS;

/// How often a call on so many bytes is repeated in a round: the first time its bytes come from further away than the second time.
fn turns(bytes: usize) -> usize {
    2_000_000 / bytes + 3
}

/// Makes a sheet of so many records from a seed.
type Make = fn(usize, u64) -> Vec<u8>;

/// Seconds of one call, the least of `turns`.
fn least<T>(turns: usize, mut call: impl FnMut() -> T) -> f64 {
    (0..turns).fold(f64::MAX, |best, _| {
        let start = Instant::now();
        black_box(call());
        best.min(start.elapsed().as_secs_f64())
    })
}

/// The best seconds for one file.
struct Judged {
    name: &'static str,
    file: Vec<u8>,
    proved: f64,
    idiomatic: f64,
    reference: f64,
    copied: f64,
}

impl Judged {
    fn new(name: &'static str, file: Vec<u8>) -> Judged {
        judge_sheet(&file, file.len()).expect("an accepted sheet");
        Judged { name, file, proved: f64::MAX, idiomatic: f64::MAX, reference: f64::MAX, copied: f64::MAX }
    }

    fn records(&self) -> f64 {
        (self.file.len() / RECORD) as f64
    }

    fn round(&mut self, copy: &mut [u8]) {
        let file = &self.file;
        let used = file.len();
        let turns = 2_000_000 / used + 1;
        self.proved = self.proved.min(least(2 * turns, || judge_sheet(black_box(file), used)));
        self.copied = self.copied.min(least(2 * turns, || {
            copy[..used].copy_from_slice(black_box(file));
            black_box(&mut *copy);
        }));
        self.idiomatic = self.idiomatic.min(least(turns, || idiomatic::judge_sheet(black_box(file), used)));
        self.reference = self.reference.min(least(1, || judge::sheet(black_box(file), used)));
    }

    fn print(&self) {
        let speed = |seconds: f64| self.file.len() as f64 / seconds / 1e9;
        println!(
            "{:<16} {:>8} {:>11.1} {:>8.2} {:>10.2} {:>12.1} {:>12.1} {:>10.2}",
            self.name,
            self.records(),
            self.proved * 1e9 / self.records(),
            speed(self.proved),
            speed(self.copied),
            self.idiomatic / self.proved,
            self.reference / self.proved,
            self.copied / self.proved,
        );
    }
}

fn judging(copy: &mut [u8]) {
    let mut all = [
        Judged::new("technician's grid", files::technicians_grid()),
        Judged::new("mixed", files::mixed(199_000, 11)),
        Judged::new("small elements", files::elements(199_000, 11)),
    ];
    for _ in 0..ROUNDS {
        all.iter_mut().for_each(|j| j.round(copy));
    }
    println!("Judging. Times as fast: the proved judge against the idiomatic one, the reference and a copy.\n");
    println!(
        "{:<16} {:>8} {:>11} {:>8} {:>10} {:>12} {:>12} {:>10}",
        "sheet", "records", "ns a record", "GB/s", "copy GB/s", "x idiomatic", "x reference", "x copy"
    );
    all.iter().for_each(Judged::print);
}

/// The cost of a record as sheets grow. Of each size there are as many different sheets as make 200,000 records, judged one after another, so that
/// neither the caches nor the branch predictor know a small sheet better than a large one.
fn growth() {
    println!("\nGrowth: ns a record, in sheets of so many records.\n");
    println!("{:<16} {:>10} {:>10} {:>10} {:>16}", "sheet", "2,000", "20,000", "200,000", "most over least");
    let makers: [(&str, Make); 3] = [("grids", files::grids), ("mixed", files::mixed), ("small elements", files::elements)];
    for (name, make) in makers {
        let sizes = [2_000, 20_000, 199_000];
        let sheets = sizes.map(|n| (0..199_000 / n).map(|seed| make(n, seed as u64)).collect::<Vec<_>>());
        let mut best = [f64::MAX; 3];
        for _ in 0..2 * ROUNDS {
            for (sheets, best) in sheets.iter().zip(&mut best) {
                let seconds = least(1, || sheets.iter().filter(|file| judge_sheet(black_box(file), file.len()).is_ok()).count());
                let records = sheets.iter().map(|file| file.len() / RECORD).sum::<usize>();
                *best = best.min(seconds * 1e9 / records as f64);
            }
        }
        let most = best.iter().copied().fold(0.0, f64::max);
        let fewest = best.iter().copied().fold(f64::MAX, f64::min);
        println!("{name:<16} {:>10.1} {:>10.1} {:>10.1} {:>16.3}", best[0], best[1], best[2], most / fewest);
    }
}

/// The first and the last record, from 1, that starts with a letter of an element.
fn ends(file: &[u8]) -> (usize, usize) {
    let is_element = |n: &usize| matches!(file[n * RECORD..n * RECORD + 2], [b'E', b'1'..=b'8']);
    let records = file.len() / RECORD;
    let first = (5..records).find(is_element).expect("an element");
    let starts = judge::accepted(file, file.len()).expect("an accepted sheet").0.found;
    (first + 1, starts.last().expect("an item").place + 1)
}

/// One place of one sheet: insertion and removal there, a judging, and the move alone.
fn edit(name: &str, file: &[u8], place: usize, block: &[u8]) {
    let used = file.len();
    let mut buffer = file.to_vec();
    buffer.resize(used + block.len(), b' ');
    let at = (place - 1) * RECORD;
    let [mut put, mut taken, mut judged, mut moved] = [f64::MAX; 4];
    for _ in 0..5 * ROUNDS {
        put = put.min(least(1, || insert(&mut buffer, used, place, block).expect("room")));
        taken = taken.min(least(1, || remove(&mut buffer, used + block.len(), place).expect("an item")));
        judged = judged.min(least(1, || judge_sheet(black_box(&buffer), used)));
        let mut spare = black_box(buffer.clone());
        moved = moved.min(least(1, || spare.copy_within(at..used, at + block.len())));
        black_box(&spare);
    }
    let one = judged + moved;
    println!(
        "{name:<16} {place:>8} {:>10.2} {:>10.2} {:>10.2} {:>10.2} {:>8.2} {:>8.2}",
        put * 1e3,
        taken * 1e3,
        judged * 1e3,
        moved * 1e3,
        put / one,
        taken / one
    );
}

fn edits() {
    println!("\nEdits: milliseconds, and times a judging plus a move.\n");
    println!(
        "{:<16} {:>8} {:>10} {:>10} {:>10} {:>10} {:>8} {:>8}",
        "sheet", "place", "insert", "remove", "judging", "move", "insert", "remove"
    );
    let block = sheets::item(&mut Random(5), 2, 2).concat();
    for (name, file) in [("mixed", files::mixed(199_000, 11)), ("small elements", files::elements(199_000, 11))] {
        let (first, last) = ends(&file);
        edit(name, &file, first, &block);
        edit(name, &file, last, &block);
    }
}

/// One call on an index of so many c records.
fn once_index(what: &str, c_records: usize) {
    let file = files::index(c_records, 11);
    let used = file.len();
    match what {
        "normal-index" => println!("{:?}", normal_index(&file, used, &mut vec![0; used])),
        _ => println!("{:?}", judge_index(&file, used)),
    }
}

/// The place of an edit, or the record of a way up: the end of a sheet of layers, or its last record; the first item of another sheet, or its last.
fn place_of(what: &str, file: &[u8]) -> usize {
    let records = file.len() / RECORD;
    match what {
        "insert-layers" => records + 1,
        "way-up-layers" => records,
        _ if what.ends_with("last") => ends(file).1,
        _ => ends(file).0,
    }
}

/// One call on a sheet of so many records: `grids`, `mixed`, `elements`, `hundred`, `points`, `tens`, `ones`, `attributes` and `layers` judge it; `insert` and
/// `remove` edit one of small elements at its first item, `insert-last` and `remove-last` at its last, `insert-layers` one of empty layers at its end.
fn once(what: &str, records: usize) {
    let make: Make = match what {
        "grids" => files::grids,
        "mixed" => files::mixed,
        "hundred" => files::hundred,
        "points" => files::points,
        "tens" => files::tens,
        "ones" => files::ones,
        "attributes" => files::attributes,
        "layers" | "insert-layers" | "way-up-layers" => files::empty_layers,
        _ => files::elements,
    };
    let mut file = make(records, 11);
    let used = file.len();
    match what {
        "grids" | "mixed" | "elements" | "hundred" | "points" | "tens" | "ones" | "attributes" | "layers" => {
            return println!("{:?}", judge_sheet(&file, used))
        }
        "normal" => return println!("{:?}", normal_sheet(&file, used, &mut vec![0; used])),
        _ => {}
    }
    let place = place_of(what, &file);
    file.resize(used + 100 * RECORD, b' ');
    match what {
        "insert" | "insert-last" | "insert-layers" => {
            println!("{:?}", insert(&mut file, used, place, &sheets::item(&mut Random(5), 2, 2).concat()))
        }
        "remove" | "remove-last" => println!("{:?}", remove(&mut file, used, place)),
        "way-up" | "way-up-last" | "way-up-layers" => println!("{:?}", way_up(&file, used, place)),
        other => no_such(other),
    }
}

/// A call that is none of those that can be asked for.
fn no_such(what: &str) -> ! {
    eprintln!("no such call: {what}");
    std::process::exit(2)
}

fn main() {
    let words: Vec<String> = std::env::args().skip(1).collect();
    match words.iter().map(String::as_str).collect::<Vec<_>>()[..] {
        [] => {
            let mut copy = vec![0; 200_000 * RECORD];
            judging(&mut copy);
            growth();
            edits();
            lines::rows();
            directories::rows();
            columns::rows();
        }
        ["lines"] => lines::rows(),
        ["directories"] => directories::rows(),
        ["columns"] => columns::rows(),
        ["once", what, width] if columns::has(what) => columns::once(what, width.parse().expect("a width")),
        ["once", what @ ("index" | "normal-index"), records] => once_index(what, records.parse().expect("a number of c records")),
        ["once", what, records] if directories::has(what) => {
            directories::once(what, records.parse().expect("a number of records"))
        }
        ["once", what, records] if what.contains("lines") => lines::once(what, records.parse().expect("a number of records")),
        ["once", what, records] => once(what, records.parse().expect("a number of records")),
        _ => {
            eprintln!(
                "usage: bench [lines|directories|columns] | bench once READER-KIND WIDTH, where READER is column|phases|flags|library, \
                 KIND is zeros|small|mixed|full|minus and WIDTH is 2|4|5|7|18 | bench once WHAT RECORDS, where WHAT is \
                 SHEET|insert|insert-last|insert-layers|remove|remove-last|normal|way-up|way-up-last|way-up-layers|index|normal-index|\
                 judge-lines-grids|judge-lines-mixed|judge-lines-elements|judge-lines-index|to-lines|from-lines|directory-SHEET|\
                 append-SHEET|jump|second-SHEET|append2-SHEET|jump2, and SHEET is \
                 grids|mixed|elements|hundred|points|tens|ones|attributes|layers"
            );
            std::process::exit(2);
        }
    }
}
