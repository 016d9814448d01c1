//! The drawn calls of order 1 meet every case that its sentences tell apart, each with its answer.

mod support;

use reference::line_calls::{from_lines, judging, to_lines, Lent, Writing};
use reference::lines::{self, END, LINE};
use reference::random::Random;
use reference::{judge, Refusal, RECORD};
use support::Seen;

/// The records, from 1, that do not end in a line end, with what they end in.
fn broken(lent: &Lent) -> Vec<(usize, [u8; 2])> {
    let Some(file) = lent.buffer.get(..lent.used) else {
        return Vec::new();
    };
    let ends = file.chunks_exact(LINE).map(|line| [line[RECORD], line[RECORD + 1]]);
    (1..).zip(ends).filter(|(_, end)| *end != END).collect()
}

/// What a used length is beside the buffer and the widths, for a call that reads records of a width.
fn lengths<T>(seen: &mut Seen, lent: &Lent, width: usize, answer: &Result<T, Refusal>) {
    let (used, length) = (lent.used, lent.buffer.len());
    let number = answer.as_ref().map_or_else(|e| e.number, |_| 0);
    let whole = used.is_multiple_of(width);
    let other = used.is_multiple_of(LINE + RECORD - width);
    seen.see("1: length 0", used == 0 && number == 1);
    seen.see("1: above the buffer", whole && used > length && number == 1);
    seen.see("1: above the buffer by less than a record", whole && used > length && used - length < width && number == 1);
    seen.see("1: above the buffer, at an end of the numbers", whole && used > usize::MAX / 2 && number == 1);
    seen.see("1: of the other width alone", !whole && other && used > 0 && used <= length && number == 1);
    seen.see("1: of neither width", !whole && !other && used <= length && number == 1);
    seen.see("accepted, of both widths", whole && other && number == 0);
    seen.see("accepted, below the buffer's length", used < length && number == 0);
    seen.see("accepted, the whole buffer", used == length && number == 0);
}

/// Where 18 stands, and in what those records end.
fn ends<T>(seen: &mut Seen, lent: &Lent, answer: &Result<T, Refusal>) {
    let broken = broken(lent);
    let records = lent.used / LINE;
    let at = answer.as_ref().err().filter(|e| e.number == 18).map_or(0, |e| e.record);
    assert!(at == 0 || broken[0].0 == at);
    seen.see("18: the first record of several", records > 2 && at == 1);
    seen.see("18: a middle record", at > 1 && at < records);
    seen.see("18: the last record of several", records > 2 && at == records);
    seen.see("18: two records", at > 0 && broken.len() == 2);
    seen.see("18: every record", records > 2 && at > 0 && broken.len() == records);
    for end in [[10, 13], [13, 13], [10, 10], [b' ', b' ']] {
        seen.see(format!("18: {end:?}"), at > 0 && broken[0].1 == end);
    }
    seen.see("18: the first byte is right", at > 0 && broken[0].1[0] == END[0]);
    seen.see("18: the second byte is right", at > 0 && broken[0].1[1] == END[1]);
    let inside = |line: &[u8]| line[..RECORD].windows(2).any(|pair| pair == END);
    let holds = lent.buffer.get(..lent.used).is_some_and(|file| file.chunks_exact(LINE).any(inside));
    seen.see("accepted with an end inside a record", holds && answer.is_ok());
    seen.see("18 with an end inside a record", holds && at > 0);
}

/// Whether the plain twin is refused at a record before this one.
fn twin_refused_before(lent: &Lent, sheet: bool, record: usize) -> bool {
    let twin: Vec<u8> = lent.buffer[..lent.used].chunks(LINE).flat_map(|line| line[..RECORD].to_vec()).collect();
    let judged = if sheet { judge::sheet(&twin, twin.len()) } else { judge::index(&twin, twin.len()) };
    judged.is_err_and(|e| e.record < record)
}

fn judgings(sheet: bool, numbers: &[u8]) {
    let (mut r, mut seen) = (Random(31), Seen::default());
    for _ in 0..30_000 {
        let lent = judging(&mut r, sheet);
        let answer = if sheet { lines::sheet(&lent.buffer, lent.used) } else { lines::index(&lent.buffer, lent.used) };
        lengths(&mut seen, &lent, LINE, &answer);
        ends(&mut seen, &lent, &answer);
        let refusal = answer.err();
        numbers.iter().for_each(|n| seen.see(format!("refused with {n}"), refusal.is_some_and(|e| e.number == *n)));
        let late = refusal.filter(|e| e.number == 18 && e.record > 1);
        seen.see("18 behind a fault of the twin", late.is_some_and(|e| twin_refused_before(&lent, sheet, e.record)));
    }
    seen.all(5);
}

#[test]
fn sheets_meet_every_case() {
    judgings(true, &[1, 2, 3, 4, 5, 6, 7, 8, 9, 10, 18]);
}

#[test]
fn indexes_meet_every_case() {
    judgings(false, &[1, 2, 3, 5, 6, 10, 18]);
}

/// What the target is beside the result, for a writer that reads records of a width.
fn targets(seen: &mut Seen, call: &Writing, width: usize, answer: Result<usize, Refusal>) {
    let result = call.from.used / width * (LINE + RECORD - width);
    let (room, file) = (call.target.len(), call.from.used);
    let number = answer.map_or_else(|e| e.number, |_| 0);
    seen.see("15: short by one", room + 1 == result && number == 15);
    seen.see("15: short by two", room + 2 == result && number == 15);
    seen.see("15: empty", room == 0 && number == 15);
    seen.see("15: short by a record", room + RECORD == result && number == 15);
    seen.see("accepted: exact", room == result && number == 0);
    seen.see("accepted: one longer", room == result + 1 && number == 0);
    seen.see("accepted: a record longer", room == result + RECORD && number == 0);
    seen.see("accepted: longer than result and file", room > result.max(file) && number == 0);
    seen.see("1 before 15", number == 1 && file > 0 && file <= call.from.buffer.len() && room < file / width);
}

#[test]
fn writing_with_line_ends_meets_every_case() {
    let (mut r, mut seen) = (Random(32), Seen::default());
    for _ in 0..30_000 {
        let call = to_lines(&mut r);
        let answer = lines::to_lines(&call.from.buffer, call.from.used, &mut call.target.clone());
        lengths(&mut seen, &call.from, RECORD, &answer);
        targets(&mut seen, &call, RECORD, answer);
        let whole = answer.is_ok_and(|n| n > 0 && judge::sheet(&call.from.buffer, call.from.used).is_ok());
        seen.see("accepted: a sheet that is accepted", whole);
        seen.see("accepted: no sheet", answer.is_ok() && !whole);
    }
    seen.all(5);
}

#[test]
fn writing_plain_meets_every_case() {
    let (mut r, mut seen) = (Random(33), Seen::default());
    for _ in 0..30_000 {
        let call = from_lines(&mut r);
        let answer = lines::from_lines(&call.from.buffer, call.from.used, &mut call.target.clone());
        lengths(&mut seen, &call.from, LINE, &answer);
        ends(&mut seen, &call.from, &answer);
        targets(&mut seen, &call, LINE, answer);
        let (room, result) = (call.target.len(), call.from.used / LINE * RECORD);
        seen.see("accepted: shorter than the file", answer.is_ok() && room < call.from.used);
        seen.see("18 before 15", answer.is_err_and(|e| e.number == 18) && room < result);
    }
    seen.all(5);
}
