//! Order 1 by its own sentences, on small files, each answer stated here by hand; and the commands of the batch protocol.

use reference::lines::{from_lines, index, sheet, to_lines, with_ends};
use reference::protocol::{hex, reply};
use reference::sheets::{EXAMPLE_ITEM, EXAMPLE_LAYER, EXAMPLE_PART};
use reference::Refusal;

/// The example of document 01: nine records, one item.
fn example() -> Vec<u8> {
    [&EXAMPLE_PART.concat(), EXAMPLE_LAYER, &EXAMPLE_ITEM.concat()].concat().into_bytes()
}

fn refused<T>(answer: Result<T, Refusal>) -> Option<(u8, usize)> {
    answer.err().map(|refusal| (refusal.number, refusal.record))
}

#[test]
fn the_judge_answers_as_for_the_plain_twin() {
    let file = with_ends(&example());
    assert_eq!(file.len(), 9 * 86);
    assert_eq!((file[84], file[85], file[772], file[773]), (13, 10, 13, 10));
    assert_eq!(sheet(&file, file.len()).map(|c| (c.records, c.items)), Ok((9, 1)));
    // the item's last data record is missing: 3 at its header, record 7; without any of its records, 10 at record 2
    assert_eq!(refused(sheet(&file, 8 * 86)), Some((3, 7)));
    assert_eq!(refused(sheet(&file, 6 * 86)), Some((10, 2)));
    assert_eq!(refused(index(&file, file.len())), Some((2, 1)));
}

#[test]
fn eighteen_directly_after_one_with_the_first_such_record() {
    let mut file = with_ends(&example());
    let used = file.len();
    // of an index it would be 2 at record 1
    file[9 * 86 - 1] = 13;
    assert_eq!([sheet(&file, used), index(&file, used)].map(refused), [Some((18, 9)); 2]);
    file[3 * 86 - 2..3 * 86].copy_from_slice(&[10, 13]);
    assert_eq!([sheet(&file, used), index(&file, used)].map(refused), [Some((18, 3)); 2]);
    assert_eq!(refused(from_lines(&file, used, &mut [])), Some((18, 3)));
    // what stands behind the used length is not looked at
    assert_eq!(refused(from_lines(&file, 2 * 86, &mut [0; 168])), None);
    assert_eq!(refused(sheet(&file, used - 1)), Some((1, 0)));
}

#[test]
fn one_reads_multiples_of_86_where_this_form_is_read() {
    let bytes = vec![b'x'; 200_001 * 86];
    for used in [0, 1, 84, 85, 87, 168, 170, 200_001 * 86, 200_002 * 86, usize::MAX, usize::MAX / 86 * 86] {
        assert_eq!(refused(sheet(&bytes, used)), Some((1, 0)), "{used}");
        assert_eq!(refused(from_lines(&bytes, used, &mut [])), Some((1, 0)), "{used}");
    }
    for used in [0, 1, 83, 85, 86, 172, 200_001 * 84, 200_002 * 86, usize::MAX, usize::MAX / 84 * 84] {
        assert_eq!(refused(to_lines(&bytes, used, &mut [])), Some((1, 0)), "{used}");
    }
    // 3,612 bytes are 42 records with line ends, or 43 without
    assert_eq!(refused(sheet(&bytes, 3_612)), Some((18, 1)));
    assert_eq!(refused(to_lines(&bytes, 3_612, &mut [])), Some((15, 0)));
    assert_eq!(refused(to_lines(&bytes, 200_000 * 84, &mut [])), Some((15, 0)));
    assert_eq!(refused(from_lines(&bytes, 200_000 * 86, &mut [])), Some((18, 1)));
}

#[test]
fn the_writers_leave_the_target_past_the_result() {
    let plain: Vec<u8> = (0..168).collect();
    let lines = [&plain[..84], &[13, 10], &plain[84..], &[13, 10]].concat();
    let mut target = vec![b'.'; 175];
    assert_eq!(to_lines(&plain, 168, &mut target), Ok(172));
    assert_eq!(target, [&lines[..], b"..."].concat());
    let mut target = vec![b'.'; 172];
    assert_eq!(from_lines(&lines, 172, &mut target), Ok(168));
    assert_eq!(target, [&plain[..], b"...."].concat());
}

#[test]
fn a_short_target_is_15_last_and_stays() {
    let plain = [7; 168];
    let mut target = vec![b'.'; 171];
    assert_eq!(refused(to_lines(&plain, 168, &mut target)), Some((15, 0)));
    assert_eq!(refused(from_lines(&with_ends(&plain), 172, &mut target[..167])), Some((15, 0)));
    assert_eq!(target, [b'.'; 171]);
}

#[test]
fn the_commands_of_the_batch_protocol() {
    let (plain, lines) = (hex(&example()), hex(&with_ends(&example())));
    assert_eq!(reply(&format!("judge86 sheet 774 {lines}")), "ok 9 1");
    assert_eq!(reply(&format!("judge86 index 774 {lines}")), "no 2 1");
    assert_eq!(reply(&format!("judge86 sheet 756 {plain}")), "no 1 0");
    assert_eq!(reply(&format!("judge86 sheet 86 {plain}")), "no 18 1");
    assert_eq!(reply("judge86 sheet 18446744073709551615 -"), "no 1 0");
    let (room, rest) = ("2e".repeat(780), "2e".repeat(6));
    assert_eq!(reply(&format!("to86 756 {plain} {room}")), format!("ok 774 {lines}{rest}"));
    assert_eq!(reply(&format!("from86 774 {lines} {}", "2e".repeat(756))), format!("ok 756 {plain}"));
    assert_eq!(reply(&format!("from86 774 {lines} -")), "no 15 0");
    assert_eq!(reply("to86 0 - -"), "no 1 0");
    assert_eq!(reply("from86 0 -"), "error a word is missing");
    assert_eq!(reply("judge86 map 0 -"), "error neither sheet nor index: map");
}
