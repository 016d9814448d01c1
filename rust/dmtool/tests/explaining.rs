//! What `explain`, `judge` and refused edits print.

mod support;

use reference::RECORD;
use support::{block, ended, good, Folder};

const INDEX: &[u8] = b"I  9City survey office              0 0   0002008Regulation                    10   ";

/// The example with its only layer header lost, and so on.
fn without(record: usize) -> Vec<u8> {
    let mut sheet = good();
    sheet.drain((record - 1) * RECORD..record * RECORD);
    sheet
}

/// What there is to say first, then the refused record whole, then the marked columns of the other records.
#[test]
fn explain_prints_notes_the_refused_record_and_the_others_in_short() {
    let f = Folder::new("explain_order");
    let mut sheet = good();
    sheet.extend(&good()[6 * RECORD..7 * RECORD]);
    sheet.drain(8 * RECORD..9 * RECORD);
    let data = good()[7 * RECORD..].to_vec();
    sheet.extend(data);
    f.put("lost.dm", &sheet);
    let ran = f.run(&["explain", "lost.dm"]);
    let text = ran.text();
    let lines: Vec<&str> = text.lines().collect();
    assert_eq!((ran.status, ran.err.as_str()), (Some(1), ""));
    assert_eq!(lines[0], "lost.dm: refused 5 at record 9: an integer column is malformed");
    let notes = [
        "record 9 starts E2, but record 7 states 2 data records, and has 1 before it",
        "a data record of the line E2 at record 7 may be lost or stand elsewhere: \
         find it in the original before you change the count",
        "the sheet states 9 records (5 of the sheet part and 4 behind it), 11 are there: 2 are too many",
    ];
    assert_eq!(lines[1..4], notes);
    assert_eq!(lines[4], "record 9: 2D data of record 7, level 2");
    assert!(lines[5].starts_with("> bytes 1-7    X 1  \"E22101 \"  malformed: "), "{text}");
    assert_eq!(lines[5 + 12], "record 7: line E2, level 2");
    assert_eq!(lines[5 + 13..], ["> bytes 32-35  records  \"   2\"  states 2 data records, 1 before record 9"]);
}

/// Of the four reasons of 1 the one that holds, on the line that `judge`, `explain` and `show` print.
#[test]
fn one_reason_for_a_length() {
    let f = Folder::new("one_reason");
    let unix = ended(&good(), b"\n");
    f.put("unix.dm", &unix);
    let line = "unix.dm: refused 1: the length, 765 bytes, is not a multiple of 84";
    let hint = "; its line ends are wrong, 'dmtool explain unix.dm' says how";
    assert_eq!(f.run(&["judge", "unix.dm"]).text(), format!("{line}{hint}\n"));
    f.put("odd.dm", &good()[1..]);
    assert_eq!(f.run(&["judge", "odd.dm"]).text(), "odd.dm: refused 1: the length, 755 bytes, is not a multiple of 84\n");
    assert!(f.run(&["show", "unix.dm", "1", "1"]).text().starts_with(&format!("{line}\n")));
    let note = "every record ends in a line feed (LF), 85 bytes in all: mend that by 'dmtool convert unix.dm --to lines \
                --mend' (or --to plain); then the file is accepted";
    assert_eq!(f.run(&["explain", "unix.dm"]).seen(), (Some(1), format!("{line}\n{note}\n"), true));
    assert!(f.run(&["insert", "unix.dm", "7", "unix.dm"]).err.starts_with(&format!("dmtool: {line}\n")));
    let normal = f.run(&["normal", "unix.dm"]);
    assert_eq!(normal.err, format!("dmtool: {line}\n'dmtool explain unix.dm' says what is wrong\n"));
    assert_eq!((normal.status, normal.text()), (Some(1), String::new()));
    assert!(f.run_on(&unix, &["normal", "-"]).err.ends_with("'dmtool explain -' says what is wrong\n"));
}

#[test]
fn a_block_is_recognised() {
    let f = Folder::new("block");
    f.put("block.dm", &block());
    let words = "this is a block, a line E2 with 2 data records, level 2: use it with insert";
    assert_eq!(f.run(&["judge", "block.dm"]).text(), format!("block.dm: refused 2 at record 1: {words}\n"));
    let text = f.run(&["explain", "block.dm"]).text();
    assert!(text.starts_with(&format!("block.dm: refused 2 at record 1: {words}\n")), "{text}");
    assert_eq!(text.matches(words).count(), 1, "{text}");
    assert!(text.contains("\nrecord 1: line E2, level 2\n> bytes 1-2    type "), "{text}");
    assert!(f.run(&["show", "block.dm", "2"]).text().contains("\n2: 2D data of record 1, level 2: X 1=0, "));
}

/// The words on the command line, the refusal, and what to do.
const REFUSED: [(&[&str], &str, &str); 10] = [
    (&["insert", "good.dm", "8", "block.dm"], "refused 11: ", "record 8 is data of the line E2 at record 7: give 7 "),
    (&["insert", "good.dm", "11", "block.dm"], "refused 11: ", "the sheet has 9 records: there is no place 11; the last place"),
    (&["insert", "good.dm", "7", "good.dm"], "refused 12: ", "the block is a sheet; it must be one element"),
    (&["insert", "good.dm", "6", "block.dm"], "refused 13: ", "the block has level 2, before record 6 no item is possible"),
    (&["insert", "index.dm", "2", "block.dm"], "refused 2 at record 1: ", "this is an index: items stand in sheets, it has none"),
    (&["insert", "bad.dm", "7", "block.dm"], "refused 7 at record 6: ", "the sheet itself is refused"),
    (
        &["remove", "good.dm", "6"],
        "refused 11: ",
        "record 6 is a layer header, level 1, with 1 below it: only an item is removed",
    ),
    (&["remove", "index.dm", "1"], "refused 2 at record 1: ", "this is an index"),
    (&["up", "good.dm", "5"], "refused 17: ", "record 5 is in the sheet part, which ends at record 5"),
    (&["up", "index.dm", "1"], "refused 2 at record 1: ", "this is an index"),
];

/// Refused edits and ways up: the refusal, and what to do, on standard error; no file is changed.
#[test]
fn a_refused_edit_says_what_to_do() {
    let f = Folder::new("refused_edits");
    f.put("good.dm", &good()).put("bad.dm", &without(6)).put("index.dm", INDEX).put("block.dm", &block());
    for (words, refused, said) in REFUSED {
        let before = f.get(words[1]);
        let ran = f.run(words);
        assert_eq!((ran.status, ran.text()), (Some(1), String::new()), "{words:?}");
        assert!(ran.err.starts_with(&format!("dmtool: {}: {refused}", words[1])), "{words:?}: {}", ran.err);
        assert!(ran.err.contains(&format!("\n{said}")) && !ran.err.contains("record 0"), "{words:?}: {}", ran.err);
        assert_eq!(
            ran.err.contains("'dmtool explain bad.dm' says what is wrong"),
            words[1] == "bad.dm",
            "{words:?}: {}",
            ran.err
        );
        assert!(f.get(words[1]) == before, "{words:?}");
    }
}
