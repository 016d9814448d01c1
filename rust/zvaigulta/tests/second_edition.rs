//! The second edition of a directory: each way in which it can be wrong, what is answered, said and marked; and what the calls of the first edition answer.

mod town;

use town::damage::{is_explained, Damage};
use town::{ended, filed, filed_in, layered, sheet, shifted, twice, with, without};
use zvaigulta::explain::{explain_as, line_as};
use zvaigulta::*;

/// The small sheet, 28 records with two layers, and its directory of edition 2: records 29 and 30.
fn file() -> Vec<u8> {
    filed_in(Edition::Second, &sheet())
}

/// Its records with those of another directory behind them.
fn behind(sheet: Vec<u8>, directory: &[&str]) -> Vec<u8> {
    let records = directory.iter().map(|text| format!("{text:84}").into_bytes());
    [sheet, records.collect::<Vec<_>>().concat()].concat()
}

const MEND: &str = "the sheet before it is accepted: take the directory off by 'dmtool directory FILE --remove' \
                    and append the right one by 'dmtool directory FILE --append --edition 2'";
const MEND_EITHER: &str =
    "and append the right one by 'dmtool directory FILE --append' or 'dmtool directory FILE --append --edition 2'";
const DOUBT: &str = "the sheet before it is accepted, but may have lost a layer or other records since the directory was made: \
                     compare it with the original first; if it is whole, take the directory off by";
const NO_COMMAND: &str = "not: dmtool directory FILE";

/// The edition column, and the two editions together.
const EDITIONS: &[Damage] = &[
    (
        "edition 0",
        || with(file(), 30, 16, "      0"),
        (27, 30),
        &["is 0, must be 2: a record \"YE\" ends a directory of edition 2", "is not 2 in written form", MEND],
        &[(30, "edition")],
    ),
    (
        "edition 1",
        || with(file(), 30, 16, "      1"),
        (27, 30),
        &["is 1, must be 2", "of edition 1, which ends in \"ZE\": one of the two is wrong", MEND],
        &[(30, "edition")],
    ),
    (
        "edition 3",
        || with(file(), 30, 16, "      3"),
        (27, 30),
        &[
            "is 3, must be 2",
            "of edition 3, which is not known here: a later program may have made it",
            "the sheet before it is accepted; if no program needs that edition, take the directory off",
        ],
        &[(30, "edition")],
    ),
    (
        "edition 02",
        || with(file(), 30, 16, "     02"),
        (27, 30),
        &["is 2, but with leading zeros: must be \"      2\"", MEND],
        &[(30, "edition")],
    ),
    (
        "no edition",
        || with(file(), 30, 16, "       "),
        (27, 30),
        &["is empty, must be 2", "the last record has the columns of \"ZE\", the end of edition 1, and the letters \"YE\"", MEND],
        &[(30, "edition")],
    ),
    (
        "the edition stands left",
        || with(file(), 30, 16, "2      "),
        (27, 30),
        &["malformed: a space behind the number, must be 2", MEND],
        &[(30, "edition")],
    ),
    ("edition -2", || with(file(), 30, 16, "     -2"), (27, 30), &["is -2, must be 2", MEND], &[(30, "edition")]),
    ("edition two", || with(file(), 30, 16, "    two"), (27, 30), &["malformed", "must be 2", MEND], &[(30, "edition")]),
    (
        "the edition is told before the pointer",
        || with(with(file(), 30, 16, "      1"), 30, 2, "     99"),
        (27, 30),
        &["is 1, must be 2", "is 99, must be 29", DOUBT],
        &[(30, "edition"), (30, "pointer")],
    ),
    (
        "the edition is told before the sheet",
        || with(with(file(), 30, 16, "      1"), 2, 31, "     7"),
        (27, 30),
        &["is 1, must be 2", "judged alone, the sheet before the directory is refused 10 at record 2", NO_COMMAND],
        &[(30, "edition"), (2, "element count")],
    ),
    (
        "YE with the columns of edition 1, behind records of edition 1",
        || with(filed(&sheet()), 30, 0, "YE"),
        (27, 30),
        &[
            "is empty, must be 2",
            "record 29 starts \"Z \", of edition 1, and the last record \"YE\", of edition 2: all must be of one edition",
            MEND_EITHER,
        ],
        &[(30, "edition"), (29, "type")],
    ),
    (
        "YE with the columns of edition 1, of no layers",
        || behind(layered(0), &["YE      7      0"]),
        (27, 7),
        &["is empty, must be 2", MEND_EITHER],
        &[(7, "edition")],
    ),
    (
        "YE behind records of edition 1",
        || behind(without(filed(&sheet()), 30, 30), &["YE     29      2      2"]),
        (19, 29),
        &["is \"Z \", must be \"Y \"", "record 29 starts \"Z \", of edition 1, and the last record \"YE\"", MEND_EITHER],
        &[(29, "type")],
    ),
    (
        "ZE behind records of edition 2",
        || behind(without(file(), 30, 30), &["ZE     29      2"]),
        (19, 29),
        &["is \"Y \", must be \"Z \"", "record 29 starts \"Y \", of edition 2, and the last record \"ZE\"", MEND_EITHER],
        &[(29, "type")],
    ),
    (
        "ZE with the columns of edition 2",
        || with(file(), 30, 0, "ZE"),
        (19, 30),
        &["byte 23 is used, must be a space", "of edition 2, and the last record \"ZE\", of edition 1", MEND_EITHER],
        &[(30, "rest"), (29, "type")],
    ),
];

/// The other numbers of the last record.
const ENDS: &[Damage] = &[
    (
        "the pointer has leading zeros",
        || with(file(), 30, 2, "0000029"),
        (19, 30),
        &["is 29, but with leading zeros: must be \"     29\"", MEND],
        &[(30, "pointer")],
    ),
    (
        "the pointer is 1",
        || with(file(), 30, 2, "      1"),
        (1, 0),
        &["no sheet stands before the directory, whose pointer is 1", "is 1, must be 29", MEND],
        &[(30, "pointer")],
    ),
    ("the pointer is 0", || with(file(), 30, 2, "      0"), (19, 30), &["is 0, must be 29", MEND], &[(30, "pointer")]),
    (
        "the pointer is past itself",
        || with(file(), 30, 2, "     31"),
        (19, 30),
        &["is 31, must be 29", "made for a sheet of 30 records, and 28 stand before it: 2 fewer", DOUBT],
        &[(30, "pointer")],
    ),
    (
        "the pointer is the record itself",
        || with(file(), 30, 2, "     30"),
        (4, 29),
        &["is 30, must be 29", "is \"Y \", of the directory; by the pointer of record 30 it would be the sheet's", DOUBT],
        &[(29, "type"), (30, "pointer")],
    ),
    (
        "a layer less is stated",
        || with(file(), 30, 9, "      1"),
        (19, 30),
        &["is 1, must be 2: the sheet has 2 layers", MEND],
        &[(30, "layers")],
    ),
    (
        "a layer more is stated",
        || with(file(), 30, 9, "      3"),
        (19, 30),
        &["is 3, must be 2: the sheet has 2 layers", DOUBT],
        &[(30, "layers")],
    ),
    ("a used rest", || with(file(), 30, 83, "."), (19, 30), &["byte 84 is used, must be a space", MEND], &[(30, "rest")]),
];

/// The records that list layers.
const ROWS: &[Damage] = &[
    (
        "another header",
        || with(file(), 29, 2, "      8"),
        (19, 29),
        &["is 8, must be 7: the header of layer 1, class 2100; record 8 is a line E2, level 2", DOUBT],
        &[(29, "header 1")],
    ),
    (
        "a total that counts the items of the layer alone, without its group",
        || with(file(), 29, 9, "      2"),
        (19, 29),
        &["is 2, must be 4: the items, at any level, of layer 1, class 2100", MEND],
        &[(29, "total 1")],
    ),
    (
        "a total that is larger than the layer",
        || with(file(), 29, 30, "      5"),
        (19, 29),
        &["is 5, must be 4: the items, at any level, of layer 2, class 2200", DOUBT],
        &[(29, "total 2")],
    ),
    (
        "the records in place of the items",
        || with(file(), 29, 9, "     12"),
        (19, 29),
        &["is 12, must be 4", DOUBT],
        &[(29, "total 1")],
    ),
    ("no total", || with(file(), 29, 9, "       "), (19, 29), &["is empty, must be 4", MEND], &[(29, "total 1")]),
    (
        "a total with leading zeros",
        || with(file(), 29, 9, "0000004"),
        (19, 29),
        &["is 4, but with leading zeros: must be \"      4\"", MEND],
        &[(29, "total 1")],
    ),
    (
        "a last record before the last",
        || with(file(), 29, 16, "     17"),
        (19, 29),
        &["is 17, must be 18: the last record of layer 1, class 2100; record 17 is data of the attribute E8 at record 16", MEND],
        &[(29, "last 1")],
    ),
    (
        "the next header in place of the last record",
        || with(file(), 29, 16, "     19"),
        (19, 29),
        &["is 19, must be 18", "record 19 is a layer header, level 1", DOUBT],
        &[(29, "last 1")],
    ),
    (
        "a last record of the directory",
        || with(file(), 29, 37, "     29"),
        (19, 29),
        &["is 29, must be 28", "there is no record 29 in the sheet, which ends at record 28", DOUBT],
        &[(29, "last 2")],
    ),
    (
        "the layers in another order",
        || with(file(), 29, 2, "     19      4     28      7      4     18"),
        (19, 29),
        &["is 19, must be 7", "is 7, must be 19", DOUBT],
        &[(29, "header 1"), (29, "last 1"), (29, "header 2"), (29, "last 2")],
    ),
    (
        "headers alone, as in edition 1",
        || with(file(), 29, 2, "      7     19                            "),
        (19, 29),
        &["is 19, must be 4: the items", "is empty, must be 18", "is empty, must be 19", DOUBT],
        &[(29, "total 1"), (29, "last 1"), (29, "header 2"), (29, "total 2"), (29, "last 2")],
    ),
    (
        "a number too many",
        || with(file(), 29, 44, "     28"),
        (19, 29),
        &["is 28, must be spaces: the sheet has 2 layers"],
        &[(29, "header 3")],
    ),
    ("a used rest", || with(file(), 29, 65, "x"), (19, 29), &["byte 66 is used, must be a space", MEND], &[(29, "rest")]),
    (
        "a fourth layer in the record of three",
        || with(filed_in(Edition::Second, &layered(4)), 11, 65, "     10"),
        (19, 11),
        &["byte 71 is used, must be a space", MEND],
        &[(11, "rest")],
    ),
    (
        "the second record of two is lost",
        || without(filed_in(Edition::Second, &layered(4)), 12, 12),
        (19, 12),
        &["is \"YE\", where a record \"Y \" with the numbers of layer 4 is due: it is missing", MEND],
        &[(12, "type")],
    ),
    (
        "a record stands twice",
        || twice(filed_in(Edition::Second, &layered(7)), 15, 15),
        (19, 16),
        &["record 16 is the same as record 15 before it: without it the file is accepted", MEND],
        &[(16, "header 1")],
    ),
    (
        "a record too many",
        || twice(filed_in(Edition::Second, &layered(6)), 14, 14),
        (19, 15),
        &["is \"Y \", where \"YE\" is due: a directory of 6 layers has 2 records \"Y \"", MEND],
        &[(15, "type")],
    ),
    (
        "a second end",
        || twice(file(), 30, 30),
        (19, 31),
        &["records 30 and 31 both start \"YE\": a directory stands behind a directory, and the first of them is right", MEND],
        &[(31, "type")],
    ),
    (
        "an end of each edition",
        || behind(file(), &["ZE     29      2"]),
        (19, 29),
        &["records 30 and 31 start \"YE\" and \"ZE\": a directory stands behind a directory"],
        &[(29, "type")],
    ),
    (
        "other letters at the end",
        || with(file(), 30, 1, "F"),
        (19, 30),
        &["is \"YF\", must be \"YE\"", "only the letters seem wrong; with \"YE\" there the file is accepted", NO_COMMAND],
        &[(30, "type")],
    ),
];

/// The sheet with an item more, by a program that left the directory as it was.
fn edited() -> Vec<u8> {
    let (mut sheet, item) = (sheet(), sheet()[7 * RECORD_BYTES..10 * RECORD_BYTES].to_vec());
    let used = sheet.len();
    sheet.resize(used + item.len(), b' ');
    insert(&mut sheet, used, 8, &item).expect("an insertion");
    [&sheet[..], &file()[28 * RECORD_BYTES..]].concat()
}

/// The sheet with all counts made to fit after the point at record 22 was written over by more data of the item before it.
fn item_written_over() -> Vec<u8> {
    let data = with(with(sheet(), 20, 27, "   5   2"), 21, 42, "     70     80     90    100    110    120");
    let data = with(data, 22, 0, &format!("{:84}", "     10     20     30"));
    with(with(with(data, 19, 18, "    3"), 19, 48, "    0"), 2, 31, "     7")
}

/// The sheet was changed, and the directory was not.
const SHEETS: &[Damage] = &[
    (
        "an item more",
        edited,
        (10, 2),
        &[
            "made for a sheet of 28 records, and 31 stand before it: 3 more; each layer is listed at its place before that",
            "is 4, must be 5: the items, at any level, of layer 1, class 2100",
            "is 18, must be 21: the last record of layer 1",
            "is 19, must be 22: the header of layer 2",
            MEND,
        ],
        &[(2, "record count"), (32, "total 1"), (32, "last 1"), (32, "header 2"), (32, "last 2"), (33, "pointer")],
    ),
    (
        "an item less, in as many records: nothing but the total shows it",
        || [&item_written_over()[..], &file()[28 * RECORD_BYTES..]].concat(),
        (19, 29),
        &["is 4, must be 3: the items, at any level, of layer 2, class 2200", DOUBT],
        &[(29, "total 2")],
    ),
    (
        "the second layer is lost, all counts made to fit",
        || with(without(file(), 19, 28), 2, 31, "     4     12"),
        (19, 20),
        &["made for a sheet of 28 records, and 18 stand before it: 10 fewer", "lists 2 layers, the sheet has 1 layer", DOUBT],
        &[(20, "pointer"), (19, "header 2"), (19, "total 2"), (19, "last 2")],
    ),
    (
        "a count of the sheet",
        || with(file(), 2, 31, "     9"),
        (10, 2),
        &["states 9, the file holds 8", NO_COMMAND],
        &[(2, "element count")],
    ),
    (
        "another sheet and its directory behind it",
        || file().repeat(2),
        (19, 31),
        &[
            "which ends at record 30: 30 records; without that the file is accepted",
            "record 31 starts a sheet of its own",
            NO_COMMAND,
        ],
        &[(31, "type")],
    ),
    (
        "a directory of the other edition behind it",
        || [file(), filed(&sheet())[28 * RECORD_BYTES..].to_vec()].concat(),
        (19, 29),
        &["records 30 and 32 start \"YE\" and \"ZE\": a directory stands behind a directory, and the first of them is right"],
        &[(29, "type")],
    ),
];

/// Read without a directory.
const UNREAD: &[Damage] = &[
    (
        "a directory",
        file,
        (4, 29),
        &["records 29 to 30 are a directory of layers, and the file was read without one; read with it, the file is accepted"],
        &[(29, "type")],
    ),
    (
        "one without its end",
        || without(file(), 30, 30),
        (4, 29),
        &["record 29 starts as a directory of layers does, and no record \"YE\" ends it", DOUBT],
        &[(29, "type")],
    ),
    (
        "one whose end has other letters",
        || with(file(), 30, 0, "YX"),
        (4, 29),
        &[
            "no record \"YE\" ends it; record 30 behind the sheet starts \"YX\", and its columns read as directory end, edition 2",
            "only the letters seem wrong; with \"YE\" there the file is accepted",
        ],
        &[(29, "type")],
    ),
    (
        "one that is cut off",
        || file()[..29 * RECORD_BYTES + 40].to_vec(),
        (1, 0),
        &["behind record 28: a directory of layers of 1 record and 40 bytes, cut off", DOUBT],
        &[],
    ),
    (
        "a byte of the sheet is lost",
        || shifted(file(), 12, 76, 1, b""),
        (1, 0),
        &["by the directory at the end of the file a sheet of 28 records, 2352 bytes, stands before it; there are 2351 bytes"],
        &[],
    ),
];

const WITH: Reading = Reading { form: Form::Plain, directory: true };

#[test]
fn every_damage_is_explained() {
    for damage in [EDITIONS, ENDS, ROWS, SHEETS].concat() {
        let plain = damage.1();
        is_explained(WITH, &damage);
        // With line ends in the same words.
        let (lines, file) = (Reading { form: Form::Lines, ..WITH }, ended(&plain, b"\r\n"));
        let refusal = lines.judge(&file).expect_err(damage.0);
        assert_eq!(explain_as(lines, &file, refusal), explain_as(WITH, &plain, refusal), "{}", damage.0);
        assert_eq!(line_as(lines, &file, refusal), line_as(WITH, &plain, refusal), "{}", damage.0);
        // What ends in a record of a directory is recognised.
        let ends = [b"ZE", b"YE"].iter().any(|letters| plain[plain.len() - RECORD_BYTES..].starts_with(*letters));
        assert_eq!(Reading::of(&plain).directory, ends, "{}", damage.0);
    }
    UNREAD.iter().for_each(|damage| is_explained(Form::Plain.into(), damage));
}

/// The calls of the first edition refuse the second with 19 at the last record, whatever else is wrong; the new ones read both.
#[test]
fn calls_of_the_first_edition() {
    for (name, file, ..) in [EDITIONS, ENDS, ROWS, SHEETS].concat() {
        let file = file();
        let last = (file.len() / RECORD_BYTES, file[file.len() - RECORD_BYTES..].starts_with(b"YE"));
        let (old, jumped) = (judge_directory(&file, file.len()).unwrap_err(), jump(&file, file.len(), 1).unwrap_err());
        assert_eq!(old, jumped, "{name}");
        assert!(!last.1 || (old.number(), old.record) == (19, Some(last.0)), "{name}: {old}");
        assert_ne!(old.number(), 27, "{name}");
        assert_eq!(Sheet::without_directory(file.clone()), Err(WITH.judge(&file).unwrap_err()), "{name}");
        assert_eq!(jump_either_edition(&file, file.len(), 1).unwrap_err(), WITH.judge(&file).unwrap_err(), "{name}");
    }
    let right = file();
    let refusal = judge_directory(&right, right.len()).unwrap_err();
    let explained = explain_as(WITH, &right, refusal);
    assert_eq!(explained.notes, ["the directory is of edition 2, and right: read it by a call for either edition"]);
    assert_eq!((explained.faults[0].record, explained.faults[0].column), (30, "type"));
    assert_eq!(judge_either_edition(&right, right.len()), judge_either_edition(&filed(&sheet()), right.len()));
    // Where an item was written over, edition 1 shows nothing.
    let first = [&item_written_over()[..], &filed(&sheet())[28 * RECORD_BYTES..]].concat();
    assert!(judge_either_edition(&first, first.len()).is_ok());
}

/// Around the records of three layers each: appended, judged, jumped by; the same headers as by the first edition.
#[test]
fn sheets_of_some_layers() {
    for count in [0, 1, 2, 3, 4, 5, 6, 7, 9, 10, 11, 12, 33, 34] {
        let sheet = layered(count);
        let [first, second] = Edition::ALL.map(|edition| filed_in(edition, &sheet));
        assert_eq!(second.len() / RECORD_BYTES, sheet.len() / RECORD_BYTES + count.div_ceil(3) + 1);
        assert_eq!(judge_either_edition(&second, second.len()), judge_sheet(&sheet, sheet.len()));
        for layer in 1..=count {
            let found = jump_either_edition(&second, second.len(), layer).expect("a layer");
            assert_eq!((found.header, found.total, found.last), (6 + layer, 0, 6 + layer));
            let found = jump_either_edition(&first, first.len(), layer).expect("a layer");
            assert_eq!((found.header, found.total, found.last), (6 + layer, 0, 0));
        }
        for layer in [0, count + 1, usize::MAX] {
            let refusal = jump_either_edition(&second, second.len(), layer).unwrap_err();
            assert_eq!((refusal.reason, refusal.record), (Reason::RecordNumber, None));
        }
        for file in [first, second] {
            assert_eq!(Sheet::without_directory(file).map(Sheet::into_bytes), Ok(sheet.clone()));
        }
    }
}

#[test]
fn room_for_the_directory() {
    for count in [0, 3, 4] {
        let (sheet, file) = (layered(count), filed_in(Edition::Second, &layered(count)));
        for room in sheet.len()..file.len() {
            let mut buffer = vec![b'.'; room];
            buffer[..sheet.len()].copy_from_slice(&sheet);
            let before = buffer.clone();
            let refusal = append_second_edition(&mut buffer, sheet.len()).unwrap_err();
            assert_eq!((refusal.reason, refusal.record, buffer), (Reason::Room, None, before), "{room}");
        }
        let mut buffer = vec![b'.'; file.len() + 100];
        buffer[..sheet.len()].copy_from_slice(&sheet);
        assert_eq!(append_second_edition(&mut buffer, sheet.len()), Ok(file.len()));
        assert!(buffer.starts_with(&file) && buffer[file.len()..] == [b'.'; 100]);
    }
}

/// Every byte of a directory, changed: 27 in the edition column, else 19 at its record, but for the pointer and the letters of the last record.
#[test]
fn no_byte_of_a_directory_is_free() {
    let right = file();
    for place in 28 * RECORD_BYTES..right.len() {
        for byte in [b' ', b'0', b'1', b'2', b'9', b'-', b'Y', 0, 0xff] {
            let mut file = right.clone();
            file[place] = byte;
            if file == right {
                continue;
            }
            let refusal = judge_either_edition(&file, file.len()).unwrap_err();
            let (number, column) = (place / RECORD_BYTES + 1, place % RECORD_BYTES);
            let due = if number == 30 && (16..23).contains(&column) { Reason::Edition } else { Reason::Directory };
            if number != 30 || !(2..9).contains(&column) {
                assert_eq!((refusal.reason, refusal.record), (due, Some(number)), "byte {place}: {byte}");
            }
        }
    }
}

/// Text that starts as the end of the second edition is text where it is due as data, unless it is of its form.
#[test]
fn text_that_starts_like_an_end() {
    let text = |text: &str| with(with(without(sheet(), 19, 28), 18, 0, text), 2, 31, "     4     12");
    for (words, directory) in [
        ("YEAR OF SURVEY   ", false),
        ("YE     19      1      2   ", true),
        ("YE     19      1   ", true),
        ("YE     19      1      3   ", true),
        ("YE     19      1     no   ", false),
    ] {
        let file = text(words);
        assert!(judge_sheet(&file, file.len()).is_ok(), "{words}");
        assert_eq!(Reading::of(&file).directory, directory, "{words}");
    }
}
