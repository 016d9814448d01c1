//! Order 5 by its own sentences, on small files, each answer stated here by hand; and the commands of the batch protocol.

mod small;

use reference::directory::{append, jump, sheet};
use reference::judge;
use reference::protocol::{hex, reply};
use reference::sheets::{EXAMPLE_ITEM, EXAMPLE_LAYER};
use reference::RECORD;
use small::{empty_layer, example, layers, part, put_behind, record, refused, with};

fn judged(file: &str) -> Result<(usize, usize), (u8, usize)> {
    sheet(file.as_bytes(), file.len()).map(|c| (c.records, c.items)).map_err(|r| (r.number, r.record))
}

/// What appending puts behind a sheet.
fn appended(sheet: &str) -> String {
    put_behind(sheet, append)
}

#[test]
fn the_directory_that_is_appended() {
    assert_eq!(appended(&example()), record("Z       6") + &record("ZE     10      1"));
    assert_eq!(appended(&layers(0)), record("ZE      6      0"));
    let ten = "Z       6      7      8      9     10     11     12     13     14     15";
    assert_eq!(appended(&layers(10)), record(ten) + &record("ZE     16     10"));
    let eleven = ten.to_string() + "     16";
    assert_eq!(eleven.len(), 79);
    assert_eq!(appended(&layers(11)), record(&eleven) + &record("ZE     17     11"));
    assert_eq!(appended(&layers(12)), record(&eleven) + &record("Z      17") + &record("ZE     18     12"));
    let second = "Z      17     18     19     20     21     22     23     24     25     26     27";
    assert_eq!(appended(&layers(22)), record(&eleven) + &record(second) + &record("ZE     28     22"));
    let third = record("Z      28") + &record("ZE     29     23");
    assert_eq!(appended(&layers(23)), record(&eleven) + &record(second) + &third);
}

#[test]
fn ours_passes_and_answers_the_sheets_records_and_items() {
    assert_eq!(judged(&(example() + &appended(&example()))), Ok((9, 1)));
    for count in [0, 1, 10, 11, 12, 22, 23] {
        let file = layers(count) + &appended(&layers(count));
        assert_eq!(judged(&file), Ok((5 + count, 0)), "{count}");
        // plain judging: 4 at the first record of the directory; with the used length of the sheet it is accepted
        assert_eq!(refused(judge::sheet(file.as_bytes(), file.len())), Some((4, 6 + count)));
        assert!(judge::sheet(file.as_bytes(), (5 + count) * RECORD).is_ok());
    }
}

#[test]
fn one_tests_the_used_length_against_0_the_buffer_and_84_only() {
    let file = (example() + &appended(&example())).into_bytes();
    assert_eq!(file.len(), 11 * RECORD);
    for used in [0, 1, 83, 85, 923, 925, 12 * RECORD, usize::MAX, usize::MAX / RECORD * RECORD] {
        assert_eq!(refused(sheet(&file, used)), Some((1, 0)), "{used}");
        assert_eq!(refused(jump(&file, used, 0)), Some((1, 0)), "{used}");
    }
    let many = vec![b'x'; 200_002 * RECORD];
    assert_eq!(refused(sheet(&many, 200_002 * RECORD)), Some((19, 200_002)));
    assert_eq!(refused(judge::sheet(&many, 200_002 * RECORD)), Some((1, 0)));
}

#[test]
fn nineteen_with_the_last_record() {
    let last = |text: &str| judged(&(example() + &record("Z       6") + &record(text)));
    assert_eq!(last("ZE     10      1"), Ok((9, 1)));
    let letters = ["ze     10      1", "Z      10      1", "YE     10      1", " ZE    10      1"];
    let pointers =
        ["ZE0000010      1", "ZE    010      1", "ZE    +10      1", "ZE   10        1", "ZE             1", "ZE     1x      1"];
    let counts =
        ["ZE     10     01", "ZE     10       ", "ZE     10     +1", "ZE     10     -0", "ZE     10      x", "ZE     10 1      "];
    let rests = ["ZE     10      1x", "ZE     10      1      2", "ZE     10      1\0", &format!("ZE     10      1{:67}x", "")];
    let outside =
        ["ZE      0      1", "ZE     -1      1", "ZE     -0      1", "ZE     12      1", "ZE9999999      1", "ZE-999999      1"];
    for text in letters.iter().chain(&pointers).chain(&counts).chain(&rests).chain(&outside) {
        assert_eq!(last(text), Err((19, 11)), "{text}");
    }
    // before everything in the sheet, and with the last record whatever stands before it
    assert_eq!(judged(&record("ZE      2      0")), Err((19, 1)));
    assert_eq!(judged(&record("x")), Err((19, 1)));
}

#[test]
fn the_sheet_before_the_pointer() {
    let end = |pointer: usize| judged(&(example() + &record("Z       6") + &record(&format!("ZE{pointer:>7}      1"))));
    // pointer 1 leaves an empty sheet; the sheet part has five records, the layer one, the item three
    assert_eq!(end(1), Err((1, 0)));
    for pointer in 2..=5 {
        assert_eq!(end(pointer), Err((3, 1)), "{pointer}");
    }
    assert_eq!(end(6), Err((10, 2)));
    assert_eq!(end(7), Err((10, 2)));
    assert_eq!(end(8), Err((3, 7)));
    assert_eq!(end(9), Err((3, 7)));
    assert_eq!(end(10), Ok((9, 1)));
    // the first record of the directory is no record of a sheet
    assert_eq!(end(11), Err((4, 10)));
    assert_eq!(judged(&record("ZE      1      0")), Err((1, 0)));
    assert_eq!(judged(&(record("I ") + &record("ZE      2      0"))), Err((2, 1)));
    // a count that is negative, or a directory that is wrong, comes behind the sheet's own
    assert_eq!(judged(&(example().replace("M 09", "m 09") + &record("Z       7") + &record("ZE     10     -1"))), Err((2, 1)));
}

#[test]
fn nineteen_with_the_first_record_that_differs() {
    let after = |sheet: &str, texts: &[&str]| judged(&with(sheet, texts));
    let one = |text: &str| after(&example(), &[text, "ZE     10      1"]);
    assert_eq!(one("Z       6"), Ok((9, 1)));
    let numbers = [
        "Z       5",
        "Z       7",
        "Z      06",
        "Z      6 ",
        "Z             6",
        "Z ",
        "Z      +6",
        "Z      -6",
        "Z       6      6",
    ];
    let others =
        ["Z       6      7", "Z       6             7", "Z       6x", "z       6", "ZE      6", "ZX      6", "Y       6"];
    for text in numbers.iter().chain(&others) {
        assert_eq!(one(text), Err((19, 10)), "{text}");
    }
    assert_eq!(one(&format!("Z       6{:74}x", "")), Err((19, 10)));
    // counts: negative, too few, too many
    for end in ["ZE     10     -1", "ZE     10      0", "ZE     10      2", "ZE     10-999999", "ZE     109999999"] {
        assert_eq!(after(&example(), &["Z       6", end]), Err((19, 11)), "{end}");
        assert_eq!(after(&example(), &["Z       7", end]), Err((19, 10)), "{end}");
    }
    // a record missing, doubled, too many
    assert_eq!(after(&example(), &["ZE     10      1"]), Err((19, 10)));
    assert_eq!(after(&example(), &["Z       6", "Z       6", "ZE     10      1"]), Err((19, 11)));
    assert_eq!(after(&example(), &["Z       6", "ZE     10      1", "ZE     10      1"]), Err((19, 12)));
    assert_eq!(after(&layers(0), &["ZE      6      0"]), Ok((5, 0)));
    assert_eq!(after(&layers(0), &["Z ", "ZE      6      0"]), Err((19, 6)));
    assert_eq!(after(&layers(0), &["ZE      6      0", "ZE      6      0"]), Err((19, 7)));
    // a directory on a directory: the first is no part of a sheet
    assert_eq!(after(&layers(0), &["ZE      6      0", "ZE      7      0"]), Err((4, 6)));
    assert_eq!(after(&example(), &["Z       6", "ZE     10      1", "Z       6", "ZE     12      1"]), Err((4, 10)));
}

#[test]
fn only_the_last_record_holds_fewer_than_eleven() {
    let eleven = "Z       6      7      8      9     10     11     12     13     14     15     16";
    let file = |texts: &[&str]| judged(&with(&layers(12), texts));
    assert_eq!(file(&[eleven, "Z      17", "ZE     18     12"]), Ok((17, 0)));
    assert_eq!(file(&["Z      17", eleven, "ZE     18     12"]), Err((19, 18)));
    assert_eq!(file(&[&eleven[..72], "Z      16     17", "ZE     18     12"]), Err((19, 18)));
    assert_eq!(file(&[eleven, "ZE     18     12"]), Err((19, 19)));
    assert_eq!(file(&[eleven, "ZE     18     11"]), Err((19, 19)));
    assert_eq!(file(&[eleven, "Z      17", "Z ", "ZE     18     12"]), Err((19, 20)));
    assert_eq!(file(&[eleven, eleven, "Z      17", "ZE     18     12"]), Err((19, 19)));
    assert_eq!(file(&[eleven, "Z      17     18", "ZE     18     13"]), Err((19, 19)));
}

#[test]
fn appending_refuses_by_the_sheets_own_then_15() {
    let sheet = example();
    let with_room = |room: usize| [sheet.as_bytes(), &vec![b'.'; room]].concat();
    for (room, answer) in
        [(0, Err(15)), (1, Err(15)), (84, Err(15)), (167, Err(15)), (168, Ok(924)), (169, Ok(924)), (252, Ok(924))]
    {
        let mut buffer = with_room(room);
        assert_eq!(append(&mut buffer, 756).map_err(|r| r.number), answer, "{room}");
        assert!(answer.is_ok() || buffer == with_room(room));
    }
    let mut buffer = with_room(84);
    for (used, answer) in [(0, (1, 0)), (841, (1, 0)), (924, (1, 0)), (840, (4, 10)), (672, (3, 7)), (504, (10, 2))] {
        assert_eq!(refused(append(&mut buffer, used)), Some(answer), "{used}");
    }
    assert!(buffer == with_room(84));
    // what has a directory is no sheet
    let mut twice = [with_room(0), (appended(&sheet) + &record("") + &record("")).into_bytes()].concat();
    assert_eq!(refused(append(&mut twice, 924)), Some((4, 10)));
}

#[test]
fn jumping_gives_what_counting_from_the_front_gives() {
    let sheet = part(1, 6) + &empty_layer() + EXAMPLE_LAYER + &EXAMPLE_ITEM.concat() + &empty_layer();
    let file = (sheet.clone() + &appended(&sheet)).into_bytes();
    let to = |layer: u64| jump(&file, file.len(), layer);
    assert_eq!([to(1), to(2), to(3)], [Ok(6), Ok(7), Ok(11)]);
    for outside in [0, 4, 12, u64::MAX, 1 << 32] {
        assert_eq!(refused(to(outside)), Some((17, 0)), "{outside}");
    }
    let none = (layers(0) + &appended(&layers(0))).into_bytes();
    assert_eq!(refused(jump(&none, none.len(), 1)), Some((17, 0)));
    // 17 comes last
    assert_eq!(refused(jump(sheet.as_bytes(), sheet.len(), 0)), Some((19, 11)));
}

/// 199,995 layers behind a sheet part of five records: 18,182 records list them, and the file has more than 200,000.
#[test]
fn two_hundred_thousand_records_of_layers() {
    let sheet = layers(199_995);
    let used = 200_000 * RECORD;
    let mut file = [sheet.as_bytes(), &[b' '; 18_183 * RECORD]].concat();
    assert_eq!(append(&mut file, used), Ok(218_183 * RECORD));
    assert!(file.ends_with(record("ZE 200001 199995").as_bytes()));
    let last_row = record("Z  199997 199998 199999 200000");
    assert_eq!(&file[218_181 * RECORD..218_182 * RECORD], last_row.as_bytes());
    assert_eq!(judged(std::str::from_utf8(&file).expect("text")), Ok((200_000, 0)));
    assert_eq!(jump(&file, file.len(), 199_995), Ok(200_000));
    assert_eq!(refused(judge::sheet(&file, file.len())), Some((1, 0)));
    // one layer more: the sheet before the pointer is too long
    let longer = layers(199_996) + &record("Z  200001") + &record("ZE 200002 199996");
    assert_eq!(judged(&longer), Err((1, 0)));
    assert_eq!(refused(append(&mut longer.into_bytes(), 200_001 * RECORD)), Some((1, 0)));
}

#[test]
fn the_commands_of_the_batch_protocol() {
    let directory = appended(&example());
    let (sheet, file) = (hex(example().as_bytes()), hex((example() + &directory).as_bytes()));
    assert_eq!(reply(&format!("directory 924 {file}")), "ok 9 1");
    assert_eq!(reply(&format!("directory 756 {sheet}")), "no 19 9");
    assert_eq!(reply("directory 18446744073709551615 -"), "no 1 0");
    assert_eq!(reply(&format!("append 756 {sheet}")), "no 15 0");
    assert_eq!(reply(&format!("append 756 {sheet}{}", "2e".repeat(170))), format!("ok 924 {file}2e2e"));
    assert_eq!(reply(&format!("append 924 {file}")), "no 4 10");
    assert_eq!(reply(&format!("jump 924 {file} 1")), "ok 6");
    assert_eq!(reply(&format!("jump 924 {file} 18446744073709551615")), "no 17 0");
    assert_eq!(reply("jump 0 - 0"), "no 1 0");
    assert_eq!(reply(&format!("jump 924 {file}")), "error a word is missing");
    assert_eq!(reply(&format!("jump 924 {file} -1")), "error not a number: -1");
    assert_eq!(reply("directory 0"), "error a word is missing");
}
