//! A directory of layers: appended, judged, taken off, and used for jumps; and each way in which it can be wrong.

use reference::random::Random;
use reference::sheets;
use zvaigulta::outline::{Sort, What};
use zvaigulta::*;

/// An accepted sheet of so many layers without items.
fn layers(count: usize) -> Vec<u8> {
    sheets::sheet_of(&mut Random(5), vec![sheets::layer(&[]); count], 0)
}

/// The same with its directory.
fn with_directory(count: usize) -> Vec<u8> {
    Sheet::from(layers(count)).with_directory().expect("an accepted sheet")
}

/// A record of a directory: its letters, and the text behind them.
fn record(letters: &str, text: &str) -> Vec<u8> {
    format!("{letters}{text:<82}").into_bytes()
}

/// A record that closes a directory.
fn closing(pointer: usize, count: usize) -> Vec<u8> {
    record("ZE", &format!("{pointer:>7}{count:>7}"))
}

/// A file with another text in a record, which numbers from 1, from a byte on that is counted from 0.
fn with(mut file: Vec<u8>, number: usize, start: usize, text: &str) -> Vec<u8> {
    let at = (number - 1) * RECORD_BYTES + start;
    file[at..at + text.len()].copy_from_slice(text.as_bytes());
    file
}

/// The record numbers of the layer headers, counted from the front.
fn headers(sheet: &[u8]) -> Vec<usize> {
    let sheet = Sheet::from(sheet.to_vec());
    let layer = |r: &outline::Record<'_>| r.what == What::Entry(Sort::Header) && r.level == Some(1);
    let numbers = sheet.records().filter(layer).map(|r| r.number).collect();
    numbers
}

/// That a file is a sheet with its right directory, by every call; the file is not changed.
fn is_right(file: &[u8], sheet: &[u8]) {
    let (used, records) = (file.len(), sheet.len() / RECORD_BYTES);
    let headers = headers(sheet);
    assert_eq!(used / RECORD_BYTES, records + headers.len().div_ceil(11) + 1);
    assert_eq!(judge_directory(file, used), judge_sheet(sheet, sheet.len()));
    for (layer, header) in (1..).zip(&headers) {
        assert_eq!(jump(file, used, layer), Ok(*header), "layer {layer}");
    }
    for layer in [0, headers.len() + 1, usize::MAX] {
        let refusal = jump(file, used, layer).unwrap_err();
        assert_eq!((refusal.reason, refusal.record), (Reason::RecordNumber, None), "layer {layer}");
    }
    // Judged as a sheet alone, its first record behind the sheet is no header and no item; so no directory is appended to it.
    let mut again = file.to_vec();
    again.resize(used + 4 * RECORD_BYTES, 0);
    for refusal in [judge_sheet(file, used).unwrap_err(), append_directory(&mut again, used).unwrap_err()] {
        assert_eq!((refusal.reason, refusal.record), (Reason::RecordType, Some(records + 1)));
    }
    assert!(again.starts_with(file) && again[used..].iter().all(|byte| *byte == 0));
    assert_eq!(Sheet::without_directory(file.to_vec()).map(Sheet::into_bytes), Ok(sheet.to_vec()));
}

#[test]
fn sheets_of_some_layers() {
    for count in [0, 1, 2, 10, 11, 12, 21, 22, 23, 33, 34] {
        is_right(&with_directory(count), &layers(count));
    }
}

#[test]
fn sheets_with_items_and_after_edits() {
    let mut r = Random(51);
    let mut edited = 0;
    for case in 0..200 {
        let mut sheet = Sheet::from(sheets::sheet(&mut r, case % 4));
        is_right(&sheet.with_directory().expect("accepted"), sheet.as_bytes());
        let first = sheet.items().next().map(|item| item.number);
        if let Some(place) = first {
            sheet.remove(place).expect("an item");
            is_right(&sheet.with_directory().expect("accepted"), sheet.as_bytes());
            edited += 1;
        }
    }
    assert!(edited > 50, "{edited}");
}

#[test]
fn room_for_the_directory() {
    for count in [0, 11, 12] {
        let (sheet, file) = (layers(count), with_directory(count));
        for room in sheet.len()..file.len() {
            let mut buffer = vec![b'.'; room];
            buffer[..sheet.len()].copy_from_slice(&sheet);
            let before = buffer.clone();
            let refusal = append_directory(&mut buffer, sheet.len()).unwrap_err();
            assert_eq!((refusal.reason, refusal.record, buffer), (Reason::Room, None, before), "{room}");
        }
        let mut buffer = vec![b'.'; file.len() + 100];
        buffer[..sheet.len()].copy_from_slice(&sheet);
        assert_eq!(append_directory(&mut buffer, sheet.len()), Ok(file.len()));
        assert!(buffer.starts_with(&file) && buffer[file.len()..] == [b'.'; 100]);
    }
}

/// Twelve layers at records 6 to 17, listed in records 18 and 19; record 20 closes the directory.
fn twelve() -> Vec<u8> {
    let file = with_directory(12);
    let listed: String = (6..=16).map(|header| format!("{header:>7}")).collect();
    assert_eq!(file[17 * 84..], [record("Z ", &listed), record("Z ", "     17"), closing(18, 12)].concat());
    file
}

/// Without the record of a number.
fn without(mut file: Vec<u8>, number: usize) -> Vec<u8> {
    file.drain((number - 1) * RECORD_BYTES..number * RECORD_BYTES);
    file
}

#[test]
fn wrong_directories() {
    let behind = |more: &[Vec<u8>]| [twelve(), more.concat()].concat();
    let cases = [
        ("no directory", layers(12), (19, Some(17))),
        ("a gap", with(twelve(), 18, 9, "       "), (19, Some(18))),
        ("a number too many", with(twelve(), 19, 9, "     18"), (19, Some(19))),
        ("leading zeros", with(twelve(), 19, 2, "0000017"), (19, Some(19))),
        ("a number moved to the left", with(twelve(), 19, 2, "17     "), (19, Some(19))),
        ("a used rest behind eleven numbers", with(twelve(), 18, 83, "x"), (19, Some(18))),
        ("another letter", with(twelve(), 19, 1, "Y"), (19, Some(19))),
        ("two numbers exchanged", with(twelve(), 18, 2, "      7      6"), (19, Some(18))),
        ("a record lost", without(twelve(), 19), (19, Some(19))),
        ("the first record lost", without(twelve(), 18), (19, Some(18))),
        ("the closing record lost", without(twelve(), 20), (19, Some(19))),
        ("a second closing record", behind(&[closing(18, 12)]), (19, Some(21))),
        ("a directory on a directory", behind(&[record("Z ", "      6"), closing(21, 1)]), (4, Some(18))),
        ("a pointer of 1", with(twelve(), 20, 2, "      1"), (1, None)),
        ("a pointer of 0", with(twelve(), 20, 2, "      0"), (19, Some(20))),
        ("a pointer of itself", with(twelve(), 20, 2, "     20"), (4, Some(18))),
        ("a pointer past itself", with(twelve(), 20, 2, "     21"), (19, Some(20))),
        ("a pointer with leading zeros", with(twelve(), 20, 2, "0000018"), (19, Some(20))),
        ("a pointer into the sheet", with(twelve(), 20, 2, "     17"), (10, Some(2))),
        ("a count too small", with(twelve(), 20, 9, "     11"), (19, Some(20))),
        ("a count below 0", with(twelve(), 20, 9, "    -12"), (19, Some(20))),
        ("a used rest of the closing record", with(twelve(), 20, 83, "."), (19, Some(20))),
        ("a count of the sheet", with(twelve(), 2, 42, "6"), (10, Some(2))),
    ];
    for (what, file, (number, record)) in cases {
        let answers = [judge_directory(&file, file.len()).unwrap_err(), jump(&file, file.len(), 1).unwrap_err()];
        for refusal in answers {
            assert_eq!((refusal.number(), refusal.record), (number, record), "{what}");
        }
        assert_eq!(Sheet::without_directory(file.clone()).unwrap_err(), answers[0], "{what}");
    }
}

/// Every byte of a directory, changed: 19 at its record, but for the pointer, which may lead elsewhere.
#[test]
fn no_byte_of_a_directory_is_free() {
    let right = twelve();
    for place in 17 * RECORD_BYTES..right.len() {
        for byte in [b' ', b'0', b'1', b'9', b'-', b'Z', 0, 0xff] {
            let mut file = right.clone();
            file[place] = byte;
            if file == right {
                continue;
            }
            let refusal = judge_directory(&file, file.len()).unwrap_err();
            let (number, column) = (place / RECORD_BYTES + 1, place % RECORD_BYTES);
            if number != 20 || !(2..9).contains(&column) {
                assert_eq!((refusal.reason, refusal.record), (Reason::Directory, Some(number)), "byte {place}: {byte}");
            }
        }
    }
}

#[test]
fn used_lengths_of_no_file_with_a_directory() {
    let file = twelve();
    for used in [0, 1, 83, 85, file.len() - 1, file.len() + 1, file.len() + 84, usize::MAX - 83, usize::MAX] {
        let refusal = judge_directory(&file, used).unwrap_err();
        assert_eq!((refusal.reason, refusal.record), (Reason::Length, None), "{used}");
        assert_eq!(jump(&file, used, 1).unwrap_err(), refusal);
    }
}

/// As many layers as a sheet may have records: the file with its directory is longer than a sheet may be.
#[test]
fn two_hundred_thousand_records() {
    let part = layers(0).len() / RECORD_BYTES;
    let most = MOST_RECORDS - part;
    let file = with_directory(most);
    assert!(file.len() / RECORD_BYTES > MOST_RECORDS);
    assert_eq!(judge_directory(&file, file.len()).map(|counts| counts.records), Ok(MOST_RECORDS));
    assert_eq!(jump(&file, file.len(), most), Ok(MOST_RECORDS));
    assert_eq!(jump(&file, file.len(), most + 1).unwrap_err().reason, Reason::RecordNumber);
    let refusal = judge_sheet(&file, file.len()).unwrap_err();
    assert_eq!((refusal.reason, refusal.record), (Reason::Length, None));
    // One record more before the pointer.
    let sheet = [layers(most + 1), closing(MOST_RECORDS + 2, 0)].concat();
    let refusal = judge_directory(&sheet, sheet.len()).unwrap_err();
    assert_eq!((refusal.reason, refusal.record), (Reason::Length, None));
}
