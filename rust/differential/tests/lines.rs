//! What random files with line ends do not reach: faults deep in large files, the technician's grid, 200,000 records, the ends of the numbers, and
//! which of two refusals comes first there.

use reference::lines::{self, with_ends, LINE};
use reference::random::Random;
use reference::{sheets, RECORD};
use zvaigulta::{from_lines, judge_index_lines, judge_sheet, judge_sheet_lines, to_lines, Refusal};

const MOST: usize = 200_000;

fn refused<T>(answer: Result<T, Refusal>) -> Option<(u64, usize)> {
    answer.err().map(|refusal| (refusal.number(), refusal.record.unwrap_or(0)))
}

/// All three calls that read line ends refuse a file so, the writer with this target, which stays.
fn all_refuse(buffer: &[u8], used: usize, room: usize, expected: (u64, usize)) {
    let mut target = vec![b'.'; room];
    assert_eq!(refused(judge_sheet_lines(buffer, used)), Some(expected));
    assert_eq!(refused(judge_index_lines(buffer, used)), Some(expected));
    assert_eq!(refused(from_lines(buffer, used, &mut target)), Some(expected));
    assert!(target.iter().all(|b| *b == b'.'));
}

/// One layer of so many items of all kinds of elements.
fn large_sheet(r: &mut Random, items: usize) -> Vec<u8> {
    let kinds: Vec<usize> = (0..items).map(|_| 1 + r.below(8)).collect();
    let counts: Vec<(usize, usize)> = (1..=8).map(|kind| (kind, kinds.iter().filter(|k| **k == kind).count())).collect();
    let mut body = vec![sheets::layer(&counts)];
    kinds.iter().for_each(|kind| body.extend(sheets::item(r, *kind, 2)));
    sheets::sheet_of(r, body, items)
}

/// With line ends it is the answer for the plain twin, by the library itself and by the reference, at whatever record the fault is.
#[test]
fn faults_deep_in_large_files() {
    let mut r = Random(86);
    let sheet = large_sheet(&mut r, 1_200);
    let mut deepest = 0;
    for n in 0..400 {
        let plain = if n == 0 { sheet.clone() } else { sheets::damaged(&mut r, &sheet) };
        let file = with_ends(&plain);
        let answer = judge_sheet_lines(&file, file.len());
        assert_eq!(answer, judge_sheet(&plain, plain.len()), "case {n}");
        assert_eq!(refused(answer), lines::sheet(&file, file.len()).err().map(|e| (e.number.into(), e.record)), "case {n}");
        deepest = deepest.max(answer.err().and_then(|e| e.record).unwrap_or(0));
    }
    assert!(2 * deepest > sheet.len() / RECORD, "{deepest}");
}

/// 70,000 data records: of each that is lost the grid's header tells, and of an end that is broken its own record.
#[test]
fn the_technicians_grid() {
    let mut body = vec![sheets::layer(&[(9, 1)])];
    body.extend(sheets::large_grid(1_000, 840));
    let mut file = with_ends(&sheets::sheet_of(&mut Random(3), body, 1));
    let (used, records) = (file.len(), file.len() / LINE);
    assert_eq!(judge_sheet_lines(&file, used).map(|c| (c.records, c.items)), Ok((records, 1)));
    for lost in [1, 65_536] {
        assert_eq!(refused(judge_sheet_lines(&file, used - lost * LINE)), Some((3, records - 70_000)));
    }
    for nth in [records, 65_537, 65_536, 257, 256] {
        file[nth * LINE - 2] = b' ';
        assert_eq!(refused(judge_sheet_lines(&file, used)), Some((18, nth)));
    }
}

#[test]
fn two_hundred_thousand_records_are_judged_and_one_more_is_1() {
    let mut file = with_ends(&sheets::sheet_of_points(MOST));
    let used = file.len();
    assert_eq!(used, MOST * LINE);
    assert_eq!(judge_sheet_lines(&file, used).map(|c| (c.records, c.items)), Ok((MOST, MOST - 11)));
    let line = file[used - LINE..].to_vec();
    file.extend(&line);
    all_refuse(&file, used + LINE, 0, (1, 0));
    // a broken end behind the used length is not seen; inside it, not before 1
    file[used + RECORD] = b' ';
    assert!(judge_sheet_lines(&file, used).is_ok());
    all_refuse(&file, used + LINE, 0, (1, 0));
    // the last record, and before it one in the middle; a target without room comes behind
    for nth in [MOST, MOST / 2, 2, 1] {
        file[nth * LINE - 1] = 13;
        all_refuse(&file, used, 0, (18, nth));
        all_refuse(&file, used, MOST * RECORD, (18, nth));
    }
}

#[test]
fn two_hundred_thousand_records_over_and_back() {
    let plain: Vec<u8> = (0..(MOST + 1) * RECORD).map(|i| (i % 253) as u8).collect();
    let used = MOST * RECORD;
    let mut lines = vec![b'.'; MOST * LINE + 3];
    assert_eq!(refused(to_lines(&plain, used + RECORD, &mut lines)), Some((1, 0)));
    assert_eq!(refused(to_lines(&plain, used, &mut lines[..MOST * LINE - 1])), Some((15, 0)));
    assert!(lines.iter().all(|b| *b == b'.'));
    assert_eq!(to_lines(&plain, used, &mut lines), Ok(MOST * LINE));
    assert!(lines == [&with_ends(&plain[..used])[..], b"..."].concat());
    let mut back = vec![b'.'; used + 3];
    assert_eq!(refused(from_lines(&lines, MOST * LINE, &mut back[..used - 1])), Some((15, 0)));
    assert!(back.iter().all(|b| *b == b'.'));
    assert_eq!(from_lines(&lines, MOST * LINE, &mut back), Ok(used));
    assert!(back == [&plain[..used], b"..."].concat());
}

/// Used lengths at the ends of 64 bits, and those that would be right if they were cut to 32.
#[test]
fn sixty_four_bit_ends() {
    let plain = sheets::sheet_of_points(42);
    let lines = with_ends(&plain);
    let cut = |used: usize| (1 << 32) + used;
    for used in [usize::MAX, usize::MAX - 85, usize::MAX / LINE * LINE, 1 << 63, cut(lines.len()), lines.len() + LINE, 0] {
        all_refuse(&lines, used, lines.len(), (1, 0));
    }
    let mut target = vec![b'.'; lines.len()];
    for used in [usize::MAX, usize::MAX - 83, usize::MAX / RECORD * RECORD, 1 << 63, cut(plain.len()), plain.len() + RECORD, 0] {
        assert_eq!(refused(to_lines(&plain, used, &mut target)), Some((1, 0)));
    }
    assert!(target.iter().all(|b| *b == b'.'));
    all_refuse(&[], 0, 0, (1, 0));
    assert_eq!(refused(to_lines(&[], 0, &mut [])), Some((1, 0)));
}

/// 42 records with line ends are as long as 43 without: each call reads its own form.
#[test]
fn a_length_of_both_forms() {
    let lines = with_ends(&sheets::sheet_of_points(42));
    let plain = sheets::sheet_of_points(43);
    assert_eq!((lines.len(), plain.len()), (3_612, 3_612));
    assert_eq!(judge_sheet_lines(&lines, 3_612).map(|c| c.records), Ok(42));
    assert_eq!(zvaigulta::judge_sheet(&plain, 3_612).map(|c| c.records), Ok(43));
    all_refuse(&plain, 3_612, 0, (18, 1));
    let mut target = vec![b'.'; 43 * LINE];
    assert_eq!(to_lines(&lines, 3_612, &mut target), Ok(43 * LINE));
    assert!(target == with_ends(&lines));
}
