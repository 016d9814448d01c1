//! A directory of layers, of either edition: judging with it and appending it beside judging the sheet alone, and the jump beside judging with it.

use crate::{least, no_such, turns, Make, MORE_ROUNDS};
use bench::files;
use reference::RECORD;
use std::hint::black_box;
use zvaigulta::{append_directory, append_second_edition, judge_directory, judge_either_edition, judge_sheet, jump};
use zvaigulta::{jump_either_edition, Counts, Refusal, MOST_RECORDS};

const SHEETS: [(&str, Make); 9] = [
    ("grids", files::grids),
    ("mixed", files::mixed),
    ("elements", files::elements),
    ("hundred", files::hundred),
    ("points", files::points),
    ("tens", files::tens),
    ("ones", files::ones),
    ("attributes", files::attributes),
    ("layers", files::empty_layers),
];

/// The calls of one edition of the directory. `jump` answers the header's record number.
struct Edition {
    number: u8,
    judge: fn(&[u8], usize) -> Result<Counts, Refusal>,
    append: fn(&mut [u8], usize) -> Result<usize, Refusal>,
    jump: fn(&[u8], usize, usize) -> Result<usize, Refusal>,
}

static FIRST: Edition = Edition { number: 1, judge: judge_directory, append: append_directory, jump };

static SECOND: Edition = Edition {
    number: 2,
    judge: judge_either_edition,
    append: append_second_edition,
    jump: |file, used, layer| jump_either_edition(file, used, layer).map(|found| found.header),
};

/// Bytes enough for any directory: at least three layers stand in a record.
const ROOM: usize = (MOST_RECORDS / 3 + 2) * RECORD;

/// A sheet with its directory behind it.
struct Listed {
    edition: &'static Edition,
    file: Vec<u8>,
    /// Bytes of the sheet alone.
    sheet: usize,
    layers: usize,
}

impl Listed {
    fn new(edition: &'static Edition, mut file: Vec<u8>) -> Listed {
        let sheet = file.len();
        file.resize(sheet + ROOM, b' ');
        let used = (edition.append)(&mut file, sheet).expect("an accepted sheet, and room");
        file.truncate(used);
        let closing = std::str::from_utf8(&file[used - RECORD..]).expect("digits and spaces");
        let layers = closing[9..16].trim().parse().expect("a number of layers");
        Listed { edition, file, sheet, layers }
    }

    fn used(&self) -> usize {
        self.file.len()
    }

    /// Records of the directory over those of the sheet.
    fn share(&self) -> f64 {
        (self.used() - self.sheet) as f64 / self.sheet as f64
    }
}

/// One sheet, and the best seconds of each call on it.
struct Measured {
    name: &'static str,
    listed: Listed,
    /// A target for a copy of the directory.
    copy: Vec<u8>,
    plain: f64,
    directory: f64,
    copied: f64,
    appended: f64,
    jumped: f64,
}

impl Measured {
    fn new(name: &'static str, edition: &'static Edition, sheet: Vec<u8>) -> Measured {
        let listed = Listed::new(edition, sheet);
        assert_eq!((edition.judge)(&listed.file, listed.used()), judge_sheet(&listed.file, listed.sheet));
        let copy = vec![0; listed.used() - listed.sheet];
        let [plain, directory, copied, appended, jumped] = [f64::MAX; 5];
        Measured { name, listed, copy, plain, directory, copied, appended, jumped }
    }

    /// Every call once, so that each finds the caches and the branch predictor as the others do. An append writes the same directory where it stands.
    fn turn(&mut self) {
        let Measured { listed: Listed { edition, file, sheet, layers }, copy, .. } = self;
        let (sheet, used) = (*sheet, file.len());
        self.plain = self.plain.min(least(1, || judge_sheet(black_box(file), sheet).expect("accepted")));
        self.directory = self.directory.min(least(1, || (edition.judge)(black_box(file), used).expect("accepted")));
        self.jumped = self.jumped.min(least(1, || (edition.jump)(black_box(file), used, *layers).expect("a layer")));
        self.appended = self.appended.min(least(1, || (edition.append)(black_box(&mut *file), sheet).expect("room")));
        self.copied = self.copied.min(least(1, || {
            copy.copy_from_slice(black_box(&file[sheet..]));
            black_box(&mut *copy);
        }));
    }

    fn round(&mut self) {
        (0..turns(self.listed.sheet)).for_each(|_| self.turn());
    }

    fn print(&self) {
        let share = self.listed.share();
        println!(
            "{:<10} {} {:>8} {:>8} {:>8.4} {:>10.1} {:>10.3} {:>10.3} {:>10.3} {:>10.3} {:>10.3}",
            self.name,
            self.listed.edition.number,
            self.listed.sheet / RECORD,
            self.listed.layers,
            share,
            self.plain * 1e9 / (self.listed.sheet / RECORD) as f64,
            self.directory / self.plain,
            self.directory / (self.plain * (1.0 + share)),
            self.directory / (self.plain + self.copied),
            self.appended / self.plain,
            self.jumped / self.directory,
        );
    }
}

/// All rows.
pub fn rows() {
    let sizes = [2_000, 20_000, 199_000];
    let of = |edition, n| SHEETS.map(|(name, make)| Measured::new(name, edition, make(n, 11)));
    let mut all: Vec<Measured> =
        [&FIRST, &SECOND].iter().flat_map(|edition| sizes.iter().flat_map(move |n| of(*edition, *n))).collect();
    (0..MORE_ROUNDS).for_each(|_| all.iter_mut().for_each(Measured::round));
    println!("\nA directory of layers, of edition e. Judging with it over plain judging; over that plus the directory's own bytes, judged at the same cost a byte");
    println!("or copied; appending it over plain judging; the jump to the last layer over judging with the directory.\n");
    println!(
        "{:<10} e {:>8} {:>8} {:>8} {:>10} {:>10} {:>10} {:>10} {:>10} {:>10}",
        "sheet", "records", "layers", "of it", "plain ns", "/ plain", "+ judged", "+ copied", "append", "jump"
    );
    all.iter().for_each(Measured::print);
}

/// A call that `once` makes.
pub fn has(what: &str) -> bool {
    let (call, _) = what.split_once('-').unwrap_or((what, ""));
    matches!(call, "directory" | "append" | "jump" | "second" | "append2" | "jump2")
}

/// One call on a sheet of so many records: `directory-SHEET` judges it with its directory, `append-SHEET` appends that; `jump` goes to the last of so
/// many empty layers. `second-`, `append2-` and `jump2` are the same of the second edition.
pub fn once(what: &str, records: usize) {
    let (call, name) = what.split_once('-').unwrap_or((what, "layers"));
    let Some((_, make)) = SHEETS.iter().find(|(sheet, _)| *sheet == name) else { no_such(what) };
    let mut file = make(records, 11);
    let sheet = file.len();
    let edition = if matches!(call, "second" | "append2" | "jump2") { &SECOND } else { &FIRST };
    if call.starts_with("append") {
        file.resize(sheet + ROOM, b' ');
        println!("{:?}", (edition.append)(&mut file, sheet));
        return;
    }
    let listed = Listed::new(edition, file);
    if call.starts_with("jump") {
        println!("{:?}", (edition.jump)(&listed.file, listed.used(), listed.layers));
        return;
    }
    println!("{:?}", (edition.judge)(&listed.file, listed.used()));
}
