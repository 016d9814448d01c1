//! Calls on sheets with a directory, for the program `directory_vectors`.
//!
//! A case is a line of 39 bytes: its word in ten bytes, the used length and the layer in ten digits each with a space behind them, the buffer's
//! length in six digits, and a line end; then the buffer's bytes. `directory`, `append` and `jump` are the calls of order 5; those of order 13 are
//! `either`, which judges either edition, `second`, which appends the second, and `layer`, which jumps in either. Their first letters differ.
//!
//! A judgement answers `ok RECORDS ITEMS` or `no NUMBER RECORD`; an append `ok USED` or `no NUMBER RECORD`, and behind it the digest of the whole
//! buffer; a jump `ok RECORD`, in either edition `ok RECORD TOTAL LAST`, or `no NUMBER RECORD`.

use super::second_edition;
use crate::directory::{record, Edition, FIRST, NEW, OLD, SECOND};
use crate::directory_calls::{appending, judging, jumping, some_edition, Jumping};
use crate::layout::Layouts;
use crate::line_calls::{marked, Lent};
use crate::random::Random;
use crate::sheets::{self, EXAMPLE_ITEM, EXAMPLE_LAYER, EXAMPLE_PART};
use crate::{digest, Refusal, RECORD};
use std::collections::BTreeMap;

/// The greatest used length, and the greatest layer, that a line states.
const MOST: usize = 9_999_999_999;

/// The longest random buffer.
const ROOM: usize = 13 * RECORD;

#[derive(Clone, Copy, PartialEq, Eq, PartialOrd, Ord)]
pub(super) enum Call {
    Directory,
    Append,
    Jump,
    Either,
    Second,
    Layer,
}

impl Call {
    fn word(self) -> &'static str {
        match self {
            Call::Directory => "directory",
            Call::Append => "append",
            Call::Jump => "jump",
            Call::Either => "either",
            Call::Second => "second",
            Call::Layer => "layer",
        }
    }
}

const OLD_CALLS: [Call; 3] = [Call::Directory, Call::Append, Call::Jump];

const NEW_CALLS: [Call; 3] = [Call::Either, Call::Second, Call::Layer];

#[derive(Clone)]
pub(super) struct Case {
    pub call: Call,
    pub lent: Lent,
    /// The layer of a jump; 0 for the other calls.
    pub layer: u64,
}

impl Case {
    fn put(&self, out: &mut Vec<u8>) {
        let Lent { buffer, used } = &self.lent;
        out.extend(format!("{:<10}{used:010} {:010} {:06}\n", self.call.word(), self.layer, buffer.len()).into_bytes());
        out.extend(buffer);
    }

    /// The numbers of an accepted call, and the buffer afterwards.
    fn run(&self) -> (Result<Vec<usize>, Refusal>, Vec<u8>) {
        let (mut buffer, used) = (self.lent.buffer.clone(), self.lent.used);
        let answer = match self.call {
            Call::Directory => OLD.sheet(&buffer, used).map(|c| vec![c.records, c.items]),
            Call::Append => FIRST.append(&mut buffer, used).map(|after| vec![after]),
            Call::Jump => OLD.jump(&buffer, used, self.layer).map(|layer| vec![layer.header]),
            Call::Either => NEW.sheet(&buffer, used).map(|c| vec![c.records, c.items]),
            Call::Second => SECOND.append(&mut buffer, used).map(|after| vec![after]),
            Call::Layer => NEW.jump(&buffer, used, self.layer).map(|layer| vec![layer.header, layer.total, layer.last]),
        };
        (answer, buffer)
    }

    fn answer(&self) -> String {
        let (answer, buffer) = self.run();
        let (word, numbers) = match answer {
            Ok(numbers) => ("ok", numbers),
            Err(r) => ("no", vec![r.number.into(), r.record]),
        };
        let said: String = numbers.iter().map(|n| format!(" {n}")).collect();
        match self.call {
            Call::Append | Call::Second => format!("{word}{said} {}", digest(&buffer)),
            _ => format!("{word}{said}"),
        }
    }
}

/// The example of document 01: nine records, a layer at record 6.
pub(super) fn example() -> Vec<u8> {
    [&EXAMPLE_PART.concat(), EXAMPLE_LAYER, &EXAMPLE_ITEM.concat()].concat().into_bytes()
}

/// The sheet part of the example, and so many layers without groups and items from record 6 on.
pub(super) fn empty_layers(count: usize) -> Vec<u8> {
    let mut sheet = [EXAMPLE_PART.concat().into_bytes(), sheets::layer(&[]).repeat(count)].concat();
    for (name, n) in [("elements", 0), ("records", count)] {
        Layouts::shared().sheet_b.put(name, &mut sheet[RECORD..2 * RECORD], n as i64);
    }
    sheet
}

/// A sheet and records behind it, each some letters and then spaces.
pub(super) fn with(sheet: &[u8], records: &[&str]) -> Vec<u8> {
    let behind: String = records.iter().map(|text| format!("{text:<84}")).collect();
    [sheet, behind.as_bytes()].concat()
}

/// The sheet with its right directory of an edition.
pub(super) fn listed_in(edition: &Edition, sheet: &[u8]) -> Vec<u8> {
    let mut buffer = [sheet, &vec![b'.'; sheet.len() + RECORD]].concat();
    let used = edition.append(&mut buffer, sheet.len()).expect("an accepted sheet");
    buffer.truncate(used);
    buffer
}

/// The sheet with its right directory of the first edition.
fn listed(sheet: &[u8]) -> Vec<u8> {
    listed_in(&FIRST, sheet)
}

/// A judgement of a whole buffer.
pub(super) fn whole(buffer: Vec<u8>) -> Case {
    Case { call: Call::Directory, lent: Lent { used: buffer.len(), buffer }, layer: 0 }
}

pub(super) fn jump(buffer: Vec<u8>, layer: usize) -> Case {
    Case { call: Call::Jump, layer: layer as u64, ..whole(buffer) }
}

/// A sheet with so many bytes behind it.
pub(super) fn append(sheet: Vec<u8>, room: usize) -> Case {
    let lent = Lent { used: sheet.len(), buffer: [sheet, marked(room)].concat() };
    Case { call: Call::Append, lent, layer: 0 }
}

/// The example of document 01: appended with room to spare, judged, and jumped into.
fn documented() -> Vec<Case> {
    let file = listed(&example());
    vec![append(example(), 3 * RECORD), whole(file.clone()), jump(file.clone(), 1), jump(file, 2)]
}

/// Layers that fill the directory's records, one more and one less: appended with just the room, judged, and a jump to each border.
fn counts() -> Vec<Case> {
    let of = |count: usize| {
        let sheet = empty_layers(count);
        let file = listed(&sheet);
        let room = file.len() - sheet.len();
        let jumps = if count == 12 { vec![0, 1, 11, 12, 13] } else { vec![count] };
        let mut cases = vec![append(sheet, room), whole(file.clone())];
        cases.extend(jumps.into_iter().map(|layer| jump(file.clone(), layer)));
        cases
    };
    [0, 1, 10, 11, 12, 22, 23].into_iter().flat_map(of).collect()
}

/// The last record of one layer's directory, a file of eight records, spoiled in each of its parts, and one that states another count.
fn ends() -> Vec<Case> {
    let letters = ["Ze      7      1", "Z       7      1", "YE      7      1"];
    let pointers = ["ZE     7x      1", "ZE     7       1", "ZE             1", "ZE     +7      1", "ZE     -0      1"];
    let columns =
        ["ZE    007      1", "ZE0000007      1", "ZE      7     01", "ZE      7       ", "ZE      7     -0", "ZE      7     1 "];
    let rests = ["ZE      7      1 x", "ZE      7      1      1"];
    let outside = ["ZE      0      1", "ZE     -1      1", "ZE      9      1", "ZE9999999      1", "ZE-999999      1"];
    let counts = ["ZE      7     -1", "ZE      7      0", "ZE      7      2", "ZE      7-999999", "ZE      79999999"];
    let texts = letters.iter().chain(&pointers).chain(&columns).chain(&rests).chain(&outside).chain(&counts);
    let last_byte = format!("{:<83}x", "ZE      7      1");
    texts.chain([&last_byte.as_str()]).map(|text| whole(with(&empty_layers(1), &["Z       6", text]))).collect()
}

/// Two faults in a file of eight records, in the sheet, in the record that lists its layer or in the last one: which is answered.
fn two_faults() -> Vec<Case> {
    let (right, row) = (empty_layers(1), "Z       7");
    let mut wrong = right.clone();
    wrong[..2].copy_from_slice(b"m ");
    let ends =
        ["ZE      7     01", "ZE    007      1", "ZE      7      1x", "ZE      7     -1", "Ze      7      1", "ZE      9      1"];
    let files = ends.iter().flat_map(|end| [with(&right, &[row, end]), with(&wrong, &["Z       6", end])]);
    let both = with(&wrong, &[row, "ZE      7      1"]);
    files.map(whole).chain([whole(both.clone()), jump(both, 0), jump(with(&right, &[row, "ZE      7      1"]), 0)]).collect()
}

/// Every pointer into the example: the sheet part, the layer, the item, the directory and the last record itself.
fn pointers() -> Vec<Case> {
    let end = |pointer: usize| format!("ZE{pointer:>7}      1");
    let judged = (1..=11).map(|pointer| whole(with(&example(), &["Z       6", &end(pointer)])));
    let own = whole(with(&example(), &["ZE     10      1"]));
    let alone = ["ZE      1      0", "ZE      2      0", "ZE      0      0"].map(|end| whole(with(b"", &[end])));
    judged.chain([own]).chain(alone).collect()
}

/// One layer's directory with another first record, or other records behind the sheet.
fn rows() -> Vec<Case> {
    let numbers = [
        "Z       5",
        "Z       7",
        "Z      06",
        "Z      6",
        "Z      -6",
        "Z      +6",
        "Z ",
        "Z       6      7",
        "Z       6      6",
    ];
    let others = ["Z              6", "Z       6x", "z       6", "ZE      6", "Y       6", "H       6"];
    let mut cases: Vec<Case> =
        numbers.iter().chain(&others).map(|row| whole(with(&empty_layers(1), &[row, "ZE      7      1"]))).collect();
    cases.push(whole(with(&empty_layers(1), &[&format!("{:<83}x", "Z       6"), "ZE      7      1"])));
    let end = "ZE      7      1";
    let lists: [&[&str]; 7] = [
        &["Z       6", "Z       6", end],
        &["Z       6", end, end],
        &["Z       6", end, "ZE      9      0"],
        &["Z       6", end, "Z       6", "ZE      9      1"],
        &["Z       6", end, "Z       6", end],
        &[end, "Z       6", end],
        &["Z       6", "Z ", end],
    ];
    cases.extend(lists.iter().map(|records| whole(with(&empty_layers(1), records))));
    cases.extend(
        [&["Z ", "ZE      6      0"][..], &["ZE      6      0", "ZE      6      0"]]
            .map(|list| whole(with(&empty_layers(0), list))),
    );
    cases
}

/// Twelve layers, two records that list them: exchanged, doubled, missing, with a gap, one too many; and a full one with bytes behind.
fn two_rows() -> Vec<Case> {
    let full = "Z       6      7      8      9     10     11     12     13     14     15     16";
    let (less, gap) = (&full[..72], full.replace("      8", "       "));
    let behind = format!("{full}    x");
    let (short, end) = ("Z      17", "ZE     18     12");
    let lists: [&[&str]; 9] = [
        &[short, full, end],
        &[full, full, short, end],
        &[full, end],
        &[short, end],
        &[less, "Z      16     17", end],
        &[&gap, short, end],
        &[full, short, full, end],
        &[&behind, short, end],
        &[full, "Z      17     18", "ZE     18     13"],
    ];
    lists.iter().map(|records| whole(with(&empty_layers(12), records))).collect()
}

/// Used lengths of one layer's file of eight records, in a buffer with a record behind it.
fn lengths() -> Vec<Case> {
    let buffer = [listed(&empty_layers(1)), vec![b'x'; RECORD]].concat();
    let used = [0, 1, 84, 503, 504, 588, 671, 672, 673, 755, 756, 757, 840, MOST, MOST / RECORD * RECORD];
    let others = [Call::Append, Call::Jump].into_iter().cycle();
    let calls = |(used, other): (usize, Call)| {
        let lent = Lent { buffer: buffer.clone(), used };
        [Case { call: other, lent: lent.clone(), layer: 0 }, Case { call: Call::Directory, lent, layer: 0 }]
    };
    used.into_iter().zip(others).flat_map(calls).collect()
}

/// Rooms around what one layer's directory takes, a sheet that has one, and layers at the ends of what a line states.
fn rooms() -> Vec<Case> {
    let near = [0, 1, 83, 84, 85, 167, 168, 169, 252].map(|room| append(empty_layers(1), room));
    let again = append(listed(&example()), 3 * RECORD);
    let layers = [0, 1, 2, 6, 1 << 32, (1 << 32) + 1, MOST].map(|layer| jump(listed(&empty_layers(1)), layer));
    near.into_iter().chain([again]).chain(layers).collect()
}

/// An attribute whose data records look like a header and like the sheet's directory: appended, judged, jumped to, and judged without directory.
fn alikes() -> Vec<Case> {
    let mut item = EXAMPLE_ITEM[0].replacen("E2", "E8", 1).into_bytes();
    for (name, n) in [("data kind", 5), ("data count", 3), ("records", 3)] {
        Layouts::shared().element.put(name, &mut item, n);
    }
    let mut sheet = [empty_layers(2), item, sheets::layer(&[])].concat();
    sheet[6 * RECORD..7 * RECORD].copy_from_slice(&sheets::layer(&[(8, 1)]));
    sheet.extend([record("Z ", &[6, 7]), record("ZE", &[10, 2])].concat());
    for (name, n) in [("elements", 1), ("records", 6)] {
        Layouts::shared().sheet_b.put(name, &mut sheet[RECORD..2 * RECORD], n);
    }
    let file = listed(&sheet);
    vec![append(sheet.clone(), 3 * RECORD), whole(file.clone()), jump(file.clone(), 2), jump(file, 3), whole(sheet)]
}

/// Cases whose bytes are stated here, beside the example of document 01.
fn fixed() -> Vec<Case> {
    [documented(), counts(), ends(), two_faults(), pointers(), rows(), two_rows(), lengths(), rooms(), alikes()]
        .into_iter()
        .flatten()
        .collect()
}

/// A call on a file of an edition.
fn drawn(r: &mut Random, call: Call, edition: &'static Edition) -> Case {
    match call {
        Call::Directory | Call::Either => Case { call, lent: judging(r, edition), layer: 0 },
        Call::Append | Call::Second => Case { call, lent: appending(r, edition), layer: 0 },
        Call::Jump => {
            let Jumping { from, layer } = jumping(r, edition);
            Case { call, lent: from, layer }
        }
        // files as they are judged, most of which are refused, so that each refusal comes soon
        Call::Layer => Case { call, lent: judging(r, edition), layer: r.word() % 6 },
    }
}

/// The answer numbers that were drawn for each call, with their records.
#[derive(Default)]
struct Drawn(BTreeMap<(Call, u8), Vec<usize>>);

impl Drawn {
    /// Whether a case is one to store: so many of each answer number, at records as different as may be, and numbers that its line can state.
    fn takes(&mut self, case: &Case, most: impl Fn(usize) -> usize) -> bool {
        if case.lent.buffer.len() > ROOM || case.lent.used > MOST || case.layer > MOST as u64 {
            return false;
        }
        let (number, record) = case.run().0.map_or_else(|e| (e.number, e.record), |numbers| (0, numbers[0]));
        let records = self.0.entry((case.call, number)).or_default();
        let takes = records.len() < most(record) && records.iter().filter(|x| **x == record).count() < 2;
        if takes {
            records.push(record);
        }
        takes
    }
}

/// Random calls of order 5.
fn random(seed: u64) -> Vec<Case> {
    let (mut r, mut drawn_so_far) = (Random(seed), Drawn::default());
    let cases = (0..36_000).map(|n| drawn(&mut r, OLD_CALLS[n % 3], &FIRST));
    cases.filter(|case| drawn_so_far.takes(case, |record| if record == 0 { 2 } else { 3 })).collect()
}

/// Random calls of order 13, on either edition: two of each of the 39 answer numbers that the three calls have.
fn random_of_both(seed: u64) -> Vec<Case> {
    let (mut r, mut drawn_so_far) = (Random(seed), Drawn::default());
    let next = |n: usize| {
        let edition = some_edition(&mut r);
        drawn(&mut r, NEW_CALLS[n % 3], edition)
    };
    (0..).map(next).filter(|case| drawn_so_far.takes(case, |_| 2)).take(2 * 39).collect()
}

fn read(mut bytes: &[u8]) -> Vec<Case> {
    let mut cases = Vec::new();
    while bytes.len() >= 39 {
        let (head, rest) = bytes.split_at(39);
        let head = std::str::from_utf8(head).expect("a case's line");
        let (buffer, rest) = rest.split_at(head[32..38].parse().expect("a length"));
        let used = head[10..20].parse().expect("a used length");
        let call = OLD_CALLS.into_iter().chain(NEW_CALLS).find(|call| call.word() == head[..10].trim_end()).expect("a call");
        let layer = head[21..31].parse().expect("a layer");
        cases.push(Case { call, lent: Lent { buffer: buffer.to_vec(), used }, layer });
        bytes = rest;
    }
    cases
}

/// The fixed cases, and random ones from a seed; those of order 5 first.
pub fn make(seed: u64) -> Vec<u8> {
    let mut out = Vec::new();
    let cases = [fixed(), random(seed), second_edition::fixed(), random_of_both(seed)].concat();
    cases.iter().for_each(|case| case.put(&mut out));
    out
}

/// What the program has to print for such cases.
pub fn answer(cases: &[u8]) -> Vec<u8> {
    read(cases).iter().flat_map(|case| format!("{}\n", case.answer()).into_bytes()).collect()
}
