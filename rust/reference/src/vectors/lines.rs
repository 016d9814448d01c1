//! Calls on files with line ends, for the program `line_vectors`.
//!
//! A case is a line of 31 bytes: `sheet ` or `index ` to judge with line ends, `to    ` or `from  ` to write them or to take them off; the used
//! length in ten digits, the buffer's length and the target's in six digits each, a space before either, and a line end; then the buffer's bytes.
//! The target is filled with points.
//!
//! A judgement answers `ok RECORDS ITEMS` or `no NUMBER RECORD`; a writer `ok LENGTH` or `no NUMBER RECORD`, and behind it the digest of the whole
//! target.

use crate::line_calls::{self, Lent};
use crate::lines::{self, with_ends, LINE};
use crate::random::Random;
use crate::{digest, sheets, Refusal, RECORD};
use std::collections::BTreeMap;

/// The greatest used length that a line states.
const MOST: usize = 9_999_999_999;

/// The longest random buffer.
const ROOM: usize = 18 * LINE;

#[derive(Clone, Copy, PartialEq, Eq, PartialOrd, Ord)]
enum Call {
    Sheet,
    Index,
    To,
    From,
}

impl Call {
    fn word(self) -> &'static str {
        match self {
            Call::Sheet => "sheet",
            Call::Index => "index",
            Call::To => "to",
            Call::From => "from",
        }
    }

    fn writes(self) -> bool {
        matches!(self, Call::To | Call::From)
    }
}

const CALLS: [Call; 4] = [Call::Sheet, Call::Index, Call::To, Call::From];

struct Case {
    call: Call,
    lent: Lent,
    /// The target's length; 0 for a judgement.
    room: usize,
}

impl Case {
    fn put(&self, out: &mut Vec<u8>) {
        let Lent { buffer, used } = &self.lent;
        out.extend(format!("{:<6}{used:010} {:06} {:06}\n", self.call.word(), buffer.len(), self.room).into_bytes());
        out.extend(buffer);
    }

    /// The two numbers of an accepted judgement, or the length that a writer answers and 0; and the target.
    fn run(&self) -> (Result<(usize, usize), Refusal>, Vec<u8>) {
        let Lent { buffer, used } = &self.lent;
        let mut target = vec![b'.'; self.room];
        let answer = match self.call {
            Call::Sheet => lines::sheet(buffer, *used).map(|c| (c.records, c.items)),
            Call::Index => lines::index(buffer, *used).map(|c| (c.records, c.items)),
            Call::To => lines::to_lines(buffer, *used, &mut target).map(|length| (length, 0)),
            Call::From => lines::from_lines(buffer, *used, &mut target).map(|length| (length, 0)),
        };
        (answer, target)
    }

    fn answer(&self) -> String {
        let (answer, target) = self.run();
        match (answer, self.call.writes()) {
            (Ok((records, items)), false) => format!("ok {records} {items}"),
            (Err(r), false) => format!("no {} {}", r.number, r.record),
            (Ok((length, _)), true) => format!("ok {length} {}", digest(&target)),
            (Err(r), true) => format!("no {} {} {}", r.number, r.record, digest(&target)),
        }
    }
}

/// The example of document 01.
fn example() -> Vec<u8> {
    [&sheets::EXAMPLE_PART.concat(), sheets::EXAMPLE_LAYER, &sheets::EXAMPLE_ITEM.concat()].concat().into_bytes()
}

/// A call on a whole file, with just the room that its result takes.
fn whole(call: Call, buffer: &[u8]) -> Case {
    let room = match call {
        Call::To => buffer.len() / RECORD * LINE,
        Call::From => buffer.len() / LINE * RECORD,
        _ => 0,
    };
    Case { call, lent: Lent { buffer: buffer.to_vec(), used: buffer.len() }, room }
}

/// The example with the ends of these records, from 1, made into these bytes.
fn ended(call: Call, records: &[usize], end: [u8; 2]) -> Case {
    let mut file = with_ends(&example());
    records.iter().for_each(|n| file[n * LINE - 2..n * LINE].copy_from_slice(&end));
    whole(call, &file)
}

/// Ends that are none: each at one record by one call, the exchanged one by each call, at the first, a middle and the last record and at two.
fn broken() -> Vec<Case> {
    let ends = [[13, 13], [10, 10], [13, b' '], [b' ', 10], [141, 138], [13, 11], [12, 10]];
    let each = ends.iter().zip(1..).flat_map(|(end, n)| [Call::Sheet, Call::From].map(|call| ended(call, &[n], *end)));
    let exchanged = |call: Call| [&[1][..], &[5], &[9], &[4, 8]].map(|records| ended(call, records, [10, 13]));
    each.chain([Call::Sheet, Call::Index, Call::From].into_iter().flat_map(exchanged)).collect()
}

/// Used lengths of the example, in a buffer with a record behind it and, for a writer, more room than the result takes.
fn lengths() -> Vec<Case> {
    let plain = [example(), vec![b'x'; RECORD]].concat();
    let lines = with_ends(&plain);
    let lent = |buffer: &[u8], used: usize| Lent { buffer: buffer.to_vec(), used };
    let calls = |used: usize| {
        let judged = Case { call: Call::Sheet, lent: lent(&lines, used), room: 0 };
        let to = Case { call: Call::To, lent: lent(&plain, used), room: 900 };
        let from = Case { call: Call::From, lent: lent(&lines, used), room: 900 };
        [judged, to, from]
    };
    let used = [0, 1, 84, 85, 86, 756, 774, 840, 860, 861, 924, 946, MOST, MOST / LINE * LINE, MOST / RECORD * RECORD];
    used.into_iter().flat_map(calls).collect()
}

/// Targets around the length of the result, and none.
fn rooms() -> Vec<Case> {
    let files = [(Call::To, example()), (Call::From, with_ends(&example()))];
    let near = |(call, file): &(Call, Vec<u8>)| {
        let exact = whole(*call, file).room;
        [0, exact - LINE, exact - RECORD, exact - 2, exact - 1, exact, exact + 1, exact + RECORD, exact + LINE]
            .map(|room| Case { room, ..whole(*call, file) })
    };
    files.iter().flat_map(near).collect()
}

/// Files that stand in document 01, or at a border.
fn fixed() -> Vec<Case> {
    let (plain, lines) = (example(), with_ends(&example()));
    let mut cases: Vec<Case> = CALLS.iter().flat_map(|call| [whole(*call, &plain), whole(*call, &lines)]).collect();
    cases.extend(broken());
    cases.extend(lengths());
    cases.extend(rooms());
    let both = [with_ends(&sheets::sheet_of_points(42)), sheets::sheet_of_points(43)];
    cases.extend(both.iter().flat_map(|file| [Call::Sheet, Call::To, Call::From].map(|call| whole(call, file))));
    cases
}

fn drawn(r: &mut Random, call: Call) -> Case {
    match call {
        Call::Sheet | Call::Index => Case { call, lent: line_calls::judging(r, call == Call::Sheet), room: 0 },
        Call::To | Call::From => {
            let writing = if call == Call::To { line_calls::to_lines(r) } else { line_calls::from_lines(r) };
            Case { call, lent: writing.from, room: writing.target.len() }
        }
    }
}

/// Random calls: so many of each answer number, at records as different as may be.
fn random(seed: u64) -> Vec<Case> {
    let mut r = Random(seed);
    let mut seen: BTreeMap<(Call, u8), Vec<usize>> = BTreeMap::new();
    let mut cases = Vec::new();
    for n in 0..80_000 {
        let case = drawn(&mut r, CALLS[n % 4]);
        if case.lent.buffer.len() > ROOM || case.lent.used > MOST {
            continue;
        }
        let (number, record) = case.run().0.map_or_else(|e| (e.number, e.record), |(first, _)| (0, first));
        let records = seen.entry((case.call, number)).or_default();
        let (most, alike) = if record == 0 { (5, 5) } else { (6, 2) };
        if records.len() < most && records.iter().filter(|x| **x == record).count() < alike {
            records.push(record);
            cases.push(case);
        }
    }
    cases
}

fn read(mut bytes: &[u8]) -> Vec<Case> {
    let mut cases = Vec::new();
    while bytes.len() >= 31 {
        let (head, rest) = bytes.split_at(31);
        let head = std::str::from_utf8(head).expect("a case's line");
        let (buffer, rest) = rest.split_at(head[17..23].parse().expect("a length"));
        let used = head[6..16].parse().expect("a used length");
        let call = CALLS.into_iter().find(|call| call.word() == head[..6].trim_end()).expect("a call");
        cases.push(Case { call, lent: Lent { buffer: buffer.to_vec(), used }, room: head[24..30].parse().expect("a length") });
        bytes = rest;
    }
    cases
}

/// The fixed cases, and random ones from a seed.
pub fn make(seed: u64) -> Vec<u8> {
    let mut out = Vec::new();
    fixed().iter().chain(&random(seed)).for_each(|case| case.put(&mut out));
    out
}

/// What the program has to print for such cases.
pub fn answer(cases: &[u8]) -> Vec<u8> {
    read(cases).iter().flat_map(|case| format!("{}\n", case.answer()).into_bytes()).collect()
}
