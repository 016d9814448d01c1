//! Files, whole and damaged, for the program `file_vectors`.
//!
//! A case is a line of 24 bytes, `sheet ` or `index `, the used length in ten digits, a space, the buffer's
//! length in six digits and a line end; then the buffer's bytes. The answer is the judgement, `ok RECORDS ITEMS`
//! or `no NUMBER RECORD`, and behind it, where the file is accepted, the digest of its normal form.

use crate::random::Random;
use crate::{digest, judge, normal, sheets, Refusal, RECORD};
use std::collections::BTreeMap;

struct Case {
    sheet: bool,
    used: usize,
    buffer: Vec<u8>,
}

impl Case {
    fn whole(sheet: bool, file: Vec<u8>) -> Case {
        Case { sheet, used: file.len(), buffer: file }
    }

    fn judged(&self) -> Result<judge::Counts, Refusal> {
        if self.sheet {
            judge::sheet(&self.buffer, self.used)
        } else {
            judge::index(&self.buffer, self.used)
        }
    }

    fn put(&self, out: &mut Vec<u8>) {
        let kind = if self.sheet { "sheet" } else { "index" };
        out.extend(format!("{kind} {:010} {:06}\n", self.used, self.buffer.len()).into_bytes());
        out.extend(&self.buffer);
    }

    fn answer(&self) -> String {
        match self.judged() {
            Ok(c) => format!("ok {} {} {}", c.records, c.items, self.digest()),
            Err(r) => format!("no {} {}", r.number, r.record),
        }
    }

    /// The normal form in a buffer of the file's length, and its digest.
    fn digest(&self) -> u64 {
        let mut second = vec![b'.'; self.buffer.len()];
        let done = if self.sheet {
            normal::sheet(&self.buffer, self.used, &mut second)
        } else {
            normal::index(&self.buffer, self.used, &mut second)
        };
        done.expect("an accepted file has a normal form");
        digest(&second)
    }
}

/// Files that stand in document 01, or at a border.
fn fixed() -> Vec<Case> {
    let five = sheets::EXAMPLE_PART.concat();
    let layer = sheets::EXAMPLE_LAYER;
    let seven = sheets::EXAMPLE_ITEM.concat();
    let six = "E22101 0   0   1 2 02210 00   6   1      0      0        0       2408              1";
    let one_short = "E22101 0   0   1 2 02210 00   7   1      0      0        0       2408              1";
    let grid = "G 2101 0   0   0 2100010809999    500    500      0      02408         0 0         9";
    let sheet = |rest: String| Case::whole(true, (five.clone() + &rest).into_bytes());
    let changed = |from: &str, to: &str| Case::whole(true, (five.replace(from, to) + layer + &seven).into_bytes());
    let example = five.clone() + layer + &seven;
    let with = |used: usize, tail: usize| {
        let mut buffer = example.clone().into_bytes();
        buffer.extend(vec![b'x'; tail]);
        Case { sheet: true, used, buffer }
    };
    let index = |record: &str| Case::whole(false, record.as_bytes().to_vec());
    vec![
        sheet(layer.to_string() + &seven),
        sheet(layer.replace(" 1    1 ", " 1    2 ") + &seven),
        Case::whole(true, (five.replace("      4  1 ", "      3  1 ") + layer + six + &seven[RECORD..2 * RECORD]).into_bytes()),
        sheet(layer.to_string() + one_short + &seven[RECORD..2 * RECORD]),
        sheet(layer.to_string() + grid),
        changed("      4  1 ", "      4 10 "),
        changed("  500Town", " 2500Town"),
        changed("    -56  50", "     56  50"),
        changed("    -56  50", "    -56 -50"),
        index("I  9City survey office            99199   0002008Regulation                    10   "),
        index("I  9City survey office              0 0   0002008Regulation                    10   "),
        with(0, 0),
        with(755, 0),
        with(757, 100),
        with(756, 84),
        with(840, 0),
        with(840, 84),
        with(9_999_999_996, 84),
        sheet(String::new()),
    ]
}

/// Random files and damaged twins: so many of each answer number, at records as different as may be.
fn random(seed: u64) -> Vec<Case> {
    let mut r = Random(seed);
    let mut seen: BTreeMap<(bool, u8), Vec<usize>> = BTreeMap::new();
    let mut cases = Vec::new();
    for n in 0..60_000 {
        let sheet = !r.once_in(4);
        let file = if sheet { sheets::sheet(&mut r, n % 4) } else { sheets::index(&mut r) };
        let file = if r.once_in(5) { file } else { sheets::damaged(&mut r, &file) };
        let case = Case::whole(sheet, file);
        if case.buffer.len() > 30 * RECORD {
            continue;
        }
        let (number, record) = case.judged().map_or_else(|e| (e.number, e.record), |c| (0, c.records));
        let records = seen.entry((sheet, number)).or_default();
        let most = if number == 0 { 16 } else { 10 };
        if records.len() < most && records.iter().filter(|x| **x == record).count() < 3 {
            records.push(record);
            cases.push(case);
        }
    }
    cases
}

fn read(mut bytes: &[u8]) -> Vec<Case> {
    let mut cases = Vec::new();
    while bytes.len() >= 24 {
        let (head, rest) = bytes.split_at(24);
        let head = std::str::from_utf8(head).expect("a case's line");
        let length = head[17..23].parse().expect("a length");
        let (buffer, rest) = rest.split_at(length);
        let used = head[6..16].parse().expect("a used length");
        cases.push(Case { sheet: head.starts_with("sheet"), used, buffer: buffer.to_vec() });
        bytes = rest;
    }
    cases
}

/// The fixed cases, and random ones from a seed.
pub fn make(seed: u64) -> Vec<u8> {
    let mut out = Vec::new();
    fixed().iter().chain(&random(seed)).for_each(|case| case.put(&mut out));
    out
}

/// What the program has to print for such cases.
pub fn answer(cases: &[u8]) -> Vec<u8> {
    read(cases).iter().flat_map(|case| format!("{}\n", case.answer()).into_bytes()).collect()
}
