//! Files with line ends: judging beside the plain twin, and the writers beside a copy of the records.

use crate::{least, no_such, turns, Make, MORE_ROUNDS};
use bench::files;
use reference::lines::with_ends;
use reference::RECORD;
use std::hint::black_box;
use zvaigulta::{
    from_lines, judge_index, judge_index_lines, judge_sheet, judge_sheet_lines, to_lines, Counts, Refusal, MOST_RECORDS,
};

type Judge = fn(&[u8], usize) -> Result<Counts, Refusal>;

/// The judges of a kind of file: of the plain form, and of that with line ends.
const SHEET: (Judge, Judge) = (judge_sheet, judge_sheet_lines);
const INDEX: (Judge, Judge) = (judge_index, judge_index_lines);

/// A file in both forms, and the best seconds of judging each.
struct Twins {
    name: &'static str,
    judges: (Judge, Judge),
    plain: Vec<u8>,
    lines: Vec<u8>,
    best: (f64, f64),
}

impl Twins {
    fn new(name: &'static str, judges: (Judge, Judge), plain: Vec<u8>) -> Twins {
        let lines = with_ends(&plain);
        let expected = (judges.0)(&plain, plain.len()).expect("an accepted file");
        assert_eq!((judges.1)(&lines, lines.len()), Ok(expected));
        Twins { name, judges, plain, lines, best: (f64::MAX, f64::MAX) }
    }

    fn round(&mut self) {
        let (plain, lines, turns) = (&self.plain, &self.lines, turns(self.plain.len()));
        self.best.0 = self.best.0.min(least(turns, || (self.judges.0)(black_box(plain), plain.len())));
        self.best.1 = self.best.1.min(least(turns, || (self.judges.1)(black_box(lines), lines.len())));
    }

    fn print(&self) {
        let records = (self.plain.len() / RECORD) as f64;
        let (plain, lines) = (self.best.0 * 1e9 / records, self.best.1 * 1e9 / records);
        println!("{:<16} {records:>8} {plain:>12.1} {lines:>12.1} {:>14.3}", self.name, lines / plain);
    }
}

fn judging() {
    let makers: [(&str, Make); 3] = [("grids", files::grids), ("mixed", files::mixed), ("small elements", files::elements)];
    let mut all: Vec<Twins> = Vec::new();
    for records in [20_000, 60_000, 199_000] {
        all.extend(makers.iter().map(|(name, make)| Twins::new(name, SHEET, make(records, 11))));
    }
    // An index states its c records in four digits.
    all.extend([2_000, 9_999].map(|c_records| Twins::new("index", INDEX, files::index(c_records, 11))));
    (0..MORE_ROUNDS).for_each(|_| all.iter_mut().for_each(Twins::round));
    println!("\nLine ends, judging: ns a record, and with line ends over plain.\n");
    println!("{:<16} {:>8} {:>12} {:>12} {:>14}", "file", "records", "plain", "line ends", "lines / plain");
    all.iter().for_each(Twins::print);
}

/// Records in both forms, a target for either, and the best seconds of a copy of the plain form, of writing line ends and of taking them off.
struct Written {
    plain: Vec<u8>,
    lines: Vec<u8>,
    target: Vec<u8>,
    best: [f64; 3],
}

impl Written {
    fn new(records: usize) -> Written {
        let plain: Vec<u8> = (0..records * RECORD).map(|i| b' ' + (i % 89) as u8).collect();
        let lines = with_ends(&plain);
        let target = vec![b'.'; lines.len()];
        Written { plain, lines, target, best: [f64::MAX; 3] }
    }

    fn round(&mut self) {
        let Written { plain, lines, target, best } = self;
        let turns = turns(plain.len());
        let copied = least(turns, || {
            target[..plain.len()].copy_from_slice(black_box(plain));
            black_box(&mut *target);
        });
        let to = least(turns, || to_lines(black_box(plain), plain.len(), black_box(&mut *target)).expect("room"));
        let from = least(turns, || from_lines(black_box(lines), lines.len(), black_box(&mut *target)).expect("line ends"));
        *best = [best[0].min(copied), best[1].min(to), best[2].min(from)];
    }

    fn print(&self) {
        let records = (self.plain.len() / RECORD) as f64;
        let [copied, to, from] = self.best.map(|seconds| seconds * 1e9 / records);
        println!("{records:>8} {copied:>10.2} {to:>10.2} {from:>10.2} {:>12.2} {:>12.2}", copied / to, copied / from);
    }
}

fn writing() {
    let mut all = [500, 2_000, 20_000, 60_000, MOST_RECORDS].map(Written::new);
    (0..MORE_ROUNDS).for_each(|_| all.iter_mut().for_each(Written::round));
    println!("\nLine ends, writing: ns a record, and times as fast as a copy of the records' 84 bytes.\n");
    println!("{:>8} {:>10} {:>10} {:>10} {:>12} {:>12}", "records", "copy", "to lines", "from lines", "to / copy", "from / copy");
    all.iter().for_each(Written::print);
}

/// All rows.
pub fn rows() {
    judging();
    writing();
}

/// One call: `judge-lines-grids`, `judge-lines-mixed`, `judge-lines-elements` and, of so many c records, `judge-lines-index` judge with line ends;
/// `to-lines` and `from-lines` write so many records.
pub fn once(what: &str, records: usize) {
    let judged = |judge: Judge, plain: Vec<u8>| {
        let lines = with_ends(&plain);
        println!("{:?}", judge(&lines, lines.len()));
    };
    match what {
        "judge-lines-grids" => judged(judge_sheet_lines, files::grids(records, 11)),
        "judge-lines-mixed" => judged(judge_sheet_lines, files::mixed(records, 11)),
        "judge-lines-elements" => judged(judge_sheet_lines, files::elements(records, 11)),
        "judge-lines-index" => judged(judge_index_lines, files::index(records, 11)),
        "to-lines" => {
            let mut all = Written::new(records);
            println!("{:?}", to_lines(&all.plain, all.plain.len(), &mut all.target));
        }
        "from-lines" => {
            let mut all = Written::new(records);
            println!("{:?}", from_lines(&all.lines, all.lines.len(), &mut all.target));
        }
        other => no_such(other),
    }
}
