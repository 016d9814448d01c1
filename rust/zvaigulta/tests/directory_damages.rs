//! A sheet with a directory of layers, the directory or the sheet damaged in many ways: what the judge answers, what the explanation says, the columns that it
//! marks; and that what it says is true.

mod town;

use reference::random::Random;
use reference::sheets;
use std::collections::BTreeMap;
use town::damage::{is_explained, Damage};
use town::{ended, filed, filed_in, index, layered, sheet, shifted, twice, with, without};
use zvaigulta::explain::{explain_as, line_as, Explanation};
use zvaigulta::outline::layers;
use zvaigulta::{append_directory, insert, judge_either_edition, judge_sheet, jump_either_edition};
use zvaigulta::{Edition, Form, Reading, Reason, RECORD_BYTES};

/// The small sheet, 28 records with two layers, and its directory: records 29 and 30.
fn file() -> Vec<u8> {
    filed(&sheet())
}

/// A file with records of another put in before one of its own.
fn with_records(mut file: Vec<u8>, before: usize, records: &[u8]) -> Vec<u8> {
    file.splice((before - 1) * RECORD_BYTES..(before - 1) * RECORD_BYTES, records.iter().copied());
    file
}

/// The records of a file from one to another.
fn records(file: Vec<u8>, from: usize, to: usize) -> Vec<u8> {
    file[(from - 1) * RECORD_BYTES..to * RECORD_BYTES].to_vec()
}

/// The sheet without its second layer, all its counts made to fit, before the directory of the whole sheet.
fn lost_layer() -> Vec<u8> {
    with(without(file(), 19, 28), 2, 31, "     4     12")
}

/// The sheet with an item more, by a program that left the directory as it was.
fn edited() -> Vec<u8> {
    let (mut sheet, item) = (sheet(), records(sheet(), 8, 10));
    let used = sheet.len();
    sheet.resize(used + item.len(), b' ');
    insert(&mut sheet, used, 8, &item).expect("an insertion");
    [sheet, records(file(), 29, 30)].concat()
}

/// A sheet whose last item is an attribute of two texts, with its directory, and both texts lost: the directory stands in their place.
fn taken_as_text() -> Vec<u8> {
    let last = [records(sheet(), 1, 18), records(sheet(), 16, 18)].concat();
    let counts = with(last, 2, 31, "     5     15");
    let sheet = with(with(counts, 13, 18, "    3"), 13, 63, "    2");
    without(filed(&sheet), 20, 21)
}

const MEND: &str = "the sheet before it is accepted: take the directory off by 'dmtool directory FILE --remove' \
                    and append the right one by 'dmtool directory FILE --append'";
const DOUBT: &str = "the sheet before it is accepted, but may have lost a layer or other records since the directory was made: \
                     compare it with the original first; if it is whole, take the directory off by";
const NO_COMMAND: &str = "not: dmtool directory FILE";

/// The last record.
const ENDS: &[Damage] = &[
    (
        "the pointer has leading zeros",
        || with(file(), 30, 2, "0000029"),
        (19, 30),
        &["is 29, but with leading zeros: must be \"     29\"", MEND],
        &[(30, "pointer")],
    ),
    (
        "the pointer stands left",
        || with(file(), 30, 2, "29     "),
        (19, 30),
        &["malformed: a space behind the number, must be 29: the sheet ends at record 28", MEND],
        &[(30, "pointer")],
    ),
    (
        "the pointer is no number",
        || with(file(), 30, 2, "     2x"),
        (19, 30),
        &["malformed: \"x\" is no digit, must be 29", MEND],
        &[(30, "pointer")],
    ),
    ("the pointer is empty", || with(file(), 30, 2, "       "), (19, 30), &["is empty, must be 29", MEND], &[(30, "pointer")]),
    ("the pointer is below 0", || with(file(), 30, 2, "    -29"), (19, 30), &["is -29, must be 29", MEND], &[(30, "pointer")]),
    (
        "the pointer is a minus zero",
        || with(file(), 30, 2, "     -0"),
        (19, 30),
        &["malformed: a minus before zeros only, must be 29", MEND],
        &[(30, "pointer")],
    ),
    ("the pointer has a plus", || with(file(), 30, 2, "    +29"), (19, 30), &["a plus sign", MEND], &[(30, "pointer")]),
    ("the pointer is 0", || with(file(), 30, 2, "      0"), (19, 30), &["is 0, must be 29", MEND], &[(30, "pointer")]),
    (
        "the pointer is 1",
        || with(file(), 30, 2, "      1"),
        (1, 0),
        &["no sheet stands before the directory, whose pointer is 1", "is 1, must be 29: the sheet ends at record 28", MEND],
        &[(30, "pointer")],
    ),
    (
        "the pointer is past itself",
        || with(file(), 30, 2, "     31"),
        (19, 30),
        &["is 31, must be 29", "made for a sheet of 30 records, and 28 stand before it: 2 fewer", DOUBT],
        &[(30, "pointer")],
    ),
    (
        "the pointer is the largest number",
        || with(file(), 30, 2, "9999999"),
        (19, 30),
        &["is 9999999, must be 29", DOUBT],
        &[(30, "pointer")],
    ),
    (
        "the pointer is the record itself",
        || with(file(), 30, 2, "     30"),
        (4, 29),
        &["is 30, must be 29", "is \"Z \", of the directory; by the pointer of record 30 it would be the sheet's", DOUBT],
        &[(29, "type"), (30, "pointer")],
    ),
    (
        "the pointer is one too small",
        || with(file(), 30, 2, "     28"),
        (3, 26),
        &[
            "is 28, must be 29",
            "made for a sheet of 27 records, and 28 stand before it: 1 more",
            "states 2 data records, and has 1: judged up to record 27 alone, by the pointer",
            MEND,
        ],
        &[(26, "records"), (30, "pointer")],
    ),
    (
        "the pointer is in the sheet part",
        || with(file(), 30, 2, "      3"),
        (3, 1),
        &["is 3, must be 29", "judged up to record 2 alone, by the pointer"],
        &[(1, "revisions"), (30, "pointer")],
    ),
    (
        "the count is one too large",
        || with(file(), 30, 9, "      3"),
        (19, 30),
        &["is 3, must be 2: the sheet has 2 layers", "lists 2 layers and states 3, the sheet has 2 layers", DOUBT],
        &[(30, "layers")],
    ),
    (
        "the count is one too small",
        || with(file(), 30, 9, "      1"),
        (19, 30),
        &["is 1, must be 2: the sheet has 2 layers", MEND],
        &[(30, "layers")],
    ),
    ("the count is 0", || with(file(), 30, 9, "      0"), (19, 30), &["is 0, must be 2", MEND], &[(30, "layers")]),
    ("the count is below 0", || with(file(), 30, 9, "     -2"), (19, 30), &["is -2, must be 2", MEND], &[(30, "layers")]),
    (
        "the count has leading zeros",
        || with(file(), 30, 9, "0000002"),
        (19, 30),
        &["is 2, but with leading zeros: must be \"      2\"", MEND],
        &[(30, "layers")],
    ),
    ("the count is empty", || with(file(), 30, 9, "       "), (19, 30), &["is empty, must be 2", MEND], &[(30, "layers")]),
    (
        "both columns are wrong",
        || with(file(), 30, 2, "     3002     "),
        (19, 30),
        &["is 30, must be 29", "malformed: a space behind the number, must be 2"],
        &[(30, "pointer"), (30, "layers")],
    ),
    ("the rest is used", || with(file(), 30, 16, "1"), (19, 30), &["byte 17 is used, must be a space", MEND], &[(30, "rest")]),
    ("the last byte is used", || with(file(), 30, 83, "\0"), (19, 30), &["byte 84 is used", MEND], &[(30, "rest")]),
    (
        "a second end behind the end",
        || twice(file(), 30, 30),
        (19, 31),
        &[
            "records 30 and 31 both start \"ZE\": a directory stands behind a directory, and the first of them is right",
            "is \"ZE\", and too many: a directory of 2 layers ends at record 30",
            MEND,
        ],
        &[(31, "type")],
    ),
    (
        "two files with their directories",
        || file().repeat(2),
        (19, 31),
        &[
            "behind the directory of layers, which ends at record 30: 30 records; without that the file is accepted; \
             record 31 starts a sheet of its own: divide the file before it",
            "not: a directory stands behind a directory",
            NO_COMMAND,
        ],
        &[(31, "type")],
    ),
    (
        "a sheet, and another with its directory",
        || [sheet(), file()].concat(),
        (19, 29),
        &["record 29 starts a sheet of its own: divide the file before it", NO_COMMAND],
        &[(29, "type")],
    ),
    (
        "the same, the first record of the second mistyped",
        || [file(), with(file(), 1, 33, "x")].concat(),
        (19, 31),
        &[
            "record 31 behind the sheet starts \"M \", as no record of a directory does",
            "not: a directory stands behind a directory",
        ],
        &[(31, "type")],
    ),
    (
        "the same, the first of them damaged",
        || [with(file(), 9, 4, "x"), file()].concat(),
        (5, 9),
        &["record 31 starts a sheet of its own: divide the file before it"],
        &[(9, "X 1")],
    ),
    (
        "a blank record before the end",
        || with_records(file(), 30, &[b' '; RECORD_BYTES]),
        (19, 30),
        &[
            "record 30 behind the sheet holds nothing but spaces, as no record of a directory does: without it the file is accepted",
            "not: only the letters seem wrong",
            NO_COMMAND,
        ],
        &[(30, "type")],
    ),
    (
        "a blank record in place of the one before the end",
        || with(file(), 29, 0, &" ".repeat(RECORD_BYTES)),
        (19, 29),
        &["record 29 behind the sheet holds nothing but spaces", "see in the original what stood there", NO_COMMAND],
        &[(29, "type")],
    ),
    (
        "a directory behind a directory, and points at itself",
        || with([file(), records(file(), 29, 30)].concat(), 32, 2, "     31"),
        (4, 29),
        &["records 30 and 32 both start \"ZE\"", "and the first of them is right", "it would be the sheet's", DOUBT],
        &[(29, "type"), (31, "type"), (32, "type")],
    ),
    (
        "a directory behind a directory, and points at the first",
        || [file(), records(file(), 29, 30)].concat(),
        (19, 31),
        &["records 30 and 32 both start \"ZE\"", "and the first of them is right", MEND],
        &[(31, "type"), (32, "type")],
    ),
];

/// The records before the last.
const ROWS: &[Damage] = &[
    (
        "another record is listed",
        || with(file(), 29, 9, "     20"),
        (19, 29),
        &["is 20, must be 19: the header of layer 2, class 2200; record 20 is a line E2, level 2", DOUBT],
        &[(29, "header 2")],
    ),
    (
        "data is listed",
        || with(file(), 29, 2, "      9"),
        (19, 29),
        &["record 9 is data of the line E2 at record 8"],
        &[(29, "header 1")],
    ),
    (
        "the sheet part is listed",
        || with(file(), 29, 2, "      2"),
        (19, 29),
        &["record 2 is in the sheet part"],
        &[(29, "header 1")],
    ),
    (
        "a group is listed",
        || with(file(), 29, 9, "     13"),
        (19, 29),
        &["is 13, must be 19", "record 13 is a group header, level 2"],
        &[(29, "header 2")],
    ),
    (
        "a record past the sheet is listed",
        || with(file(), 29, 9, "     29"),
        (19, 29),
        &["there is no record 29 in the sheet, which ends at record 28", DOUBT],
        &[(29, "header 2")],
    ),
    (
        "a number below 0",
        || with(file(), 29, 2, "     -7"),
        (19, 29),
        &["is -7, must be 7", "there is no record -7"],
        &[(29, "header 1")],
    ),
    (
        "the two the wrong way round",
        || with(file(), 29, 2, "     19      7"),
        (19, 29),
        &["is 19, must be 7", "is 7, must be 19", MEND],
        &[(29, "header 1"), (29, "header 2")],
    ),
    (
        "a layer is listed twice",
        || with(file(), 29, 9, "      7"),
        (19, 29),
        &["is 7, must be 19: the header of layer 2", MEND],
        &[(29, "header 2")],
    ),
    (
        "a gap",
        || with(file(), 29, 9, "            19"),
        (19, 29),
        &["is empty, must be 19: the header of layer 2", "is 19, must be spaces: the sheet has 2 layers", MEND],
        &[(29, "header 2"), (29, "header 3")],
    ),
    (
        "a gap before them",
        || with(file(), 29, 2, "             7     19"),
        (19, 29),
        &["is empty, must be 7: the header of layer 1", MEND],
        &[(29, "header 1"), (29, "header 2"), (29, "header 3")],
    ),
    (
        "a number too few",
        || with(file(), 29, 9, "       "),
        (19, 29),
        &["is empty, must be 19", "lists 1 layer and states 2, the sheet has 2 layers", MEND],
        &[(29, "header 2")],
    ),
    (
        "a number too many",
        || with(file(), 29, 16, "     23"),
        (19, 29),
        &["is 23, must be spaces: the sheet has 2 layers", "lists 3 layers and states 2, the sheet has 2 layers", DOUBT],
        &[(29, "header 3")],
    ),
    (
        "text behind the numbers",
        || with(file(), 29, 72, "old"),
        (19, 29),
        &["is used, must be spaces", MEND],
        &[(29, "header 11")],
    ),
    (
        "leading zeros",
        || with(file(), 29, 2, "0000007"),
        (19, 29),
        &["is 7, but with leading zeros: must be \"      7\"", MEND],
        &[(29, "header 1")],
    ),
    (
        "a number stands left",
        || with(file(), 29, 9, "19     "),
        (19, 29),
        &["a space behind the number, must be 19", MEND],
        &[(29, "header 2")],
    ),
    (
        "a letter for a digit",
        || with(file(), 29, 9, "     l9"),
        (19, 29),
        &["\"l\" is no digit, must be 19", MEND],
        &[(29, "header 2")],
    ),
    ("the rest is used", || with(file(), 29, 79, "x"), (19, 29), &["byte 80 is used, must be a space", MEND], &[(29, "rest")]),
    (
        "small letters",
        || with(file(), 29, 0, "z "),
        (19, 29),
        &[
            "is \"z \", must be \"Z \"",
            "its columns read as directory: only the letters seem wrong; with \"Z \" there the file is accepted",
            NO_COMMAND,
        ],
        &[(29, "type")],
    ),
    (
        "small letters, and another header",
        || with(file(), 29, 0, "z       8"),
        (19, 29),
        &["its columns read as directory; if it is one, put \"Z \" there and explain the file again", NO_COMMAND],
        &[(29, "type"), (29, "header 1")],
    ),
    (
        "a header that cannot be read",
        || with(file(), 29, 2, "     7x"),
        (19, 29),
        &["\"x\" is no digit, must be 7", "not: the directory lists", MEND],
        &[(29, "header 1")],
    ),
    (
        "a header that cannot be read, behind those that are due",
        || with(file(), 29, 16, "     7x"),
        (19, 29),
        &["the directory lists 2 layers (and 1 more whose header cannot be read) and states 2, the sheet has 2 layers", DOUBT],
        &[(29, "header 3")],
    ),
    (
        "an end in place of the one before it",
        || with(file(), 29, 0, "ZE"),
        (19, 29),
        &["is \"ZE\", must be \"Z \"", "records 29 and 30 both start \"ZE\""],
        &[(29, "type")],
    ),
    (
        "a record too many",
        || twice(file(), 29, 29),
        (19, 30),
        &[
            "is \"Z \", where \"ZE\" is due: a directory of 2 layers has 1 record \"Z \"",
            "lists 4 layers and states 2",
            "record 30 is the same as record 29 before it: without it the file is accepted",
            MEND,
        ],
        &[(30, "type"), (31, "type")],
    ),
    (
        "an empty record too many",
        || with_records(file(), 30, &with(vec![b' '; RECORD_BYTES], 1, 0, "Z ")),
        (19, 30),
        &["is \"Z \", where \"ZE\" is due", MEND],
        &[(30, "type")],
    ),
    (
        "the record is missing",
        || without(file(), 29, 29),
        (19, 29),
        &["is \"ZE\", where a record \"Z \" with the headers of layers 1 to 2 is due: it is missing", MEND],
        &[(29, "type")],
    ),
    (
        "a record of the sheet behind it",
        || with_records(file(), 29, &records(sheet(), 22, 22)),
        (19, 29),
        &["record 29 behind the sheet starts \"E5\", as no record of a directory does: see in the original", NO_COMMAND],
        &[(29, "type"), (30, "type"), (31, "type")],
    ),
    (
        "of 11 layers, a record too many",
        || twice(filed(&layered(11)), 18, 18),
        (19, 19),
        &[
            "is \"Z \", where \"ZE\" is due: a directory of 11 layers has 1 record \"Z \"",
            "record 19 is the same as record 18 before it: without it the file is accepted",
            MEND,
        ],
        &[(19, "type")],
    ),
    (
        "of 12 layers, the second record is missing",
        || without(filed(&layered(12)), 20, 20),
        (19, 20),
        &["where a record \"Z \" with the headers of layer 12 is due: it is missing", "lists 11 layers and states 12", MEND],
        &[(20, "type")],
    ),
    (
        "of 12 layers, the first record is missing",
        || without(filed(&layered(12)), 19, 19),
        (19, 19),
        &["is 18, must be 7: the header of layer 1", "is empty, must be 17: the header of layer 11", MEND],
        &[(19, "header 1"), (19, "header 11"), (20, "type")],
    ),
    (
        "of 22 layers, a gap in the first record",
        || with(filed(&layered(22)), 29, 72, "       "),
        (19, 29),
        &["is empty, must be 17: the header of layer 11", MEND],
        &[(29, "header 11")],
    ),
    (
        "of 23 layers, one too few in the last record",
        || with(filed(&layered(23)), 32, 2, "       "),
        (19, 32),
        &["is empty, must be 29: the header of layer 23", MEND],
        &[(32, "header 1")],
    ),
    (
        "of no layers, one is listed",
        || with_records(filed(&layered(0)), 7, &with(vec![b' '; RECORD_BYTES], 1, 0, "Z       6")),
        (19, 7),
        &["is \"Z \", where \"ZE\" is due: a directory of 0 layers has 0 records \"Z \"", "lists 1 layer and states 0", DOUBT],
        &[(7, "type")],
    ),
    (
        "of no layers, one is stated",
        || with(filed(&layered(0)), 7, 9, "      1"),
        (19, 7),
        &["is 1, must be 0: the sheet has 0 layers", DOUBT],
        &[(7, "layers")],
    ),
];

/// The sheet before it.
const SHEETS: &[Damage] = &[
    (
        "a count of the sheet is wrong",
        || with(file(), 7, 18, "    4"),
        (10, 7),
        &["states 4, the counts behind it add up to 3", "and as many are there", NO_COMMAND],
        &[(7, "total")],
    ),
    (
        "a column of the sheet is malformed",
        || with(file(), 22, 40, "  x"),
        (5, 22),
        &["malformed: \"x\" is no digit", NO_COMMAND],
        &[(22, "X")],
    ),
    (
        "a data record is lost",
        || without(file(), 10, 10),
        (5, 10),
        &[
            "made for a sheet of 28 records, and 27 stand before it: 1 fewer",
            "judged alone, the sheet before the directory is refused 5 at record 10",
            "a data record of the line E2 at record 8 may be lost",
            NO_COMMAND,
        ],
        &[(10, "X 1"), (29, "pointer"), (8, "records")],
    ),
    (
        "a point is lost, and so the pointer is past the sheet",
        || without(file(), 22, 22),
        (4, 28),
        &["28 records, and 27 stand before it: 1 fewer", "is refused 10 at record 2", "1 is missing", NO_COMMAND],
        &[(28, "type"), (29, "pointer"), (2, "record count")],
    ),
    (
        "the second layer is lost",
        || without(file(), 19, 28),
        (19, 20),
        &["28 records, and 18 stand before it: 10 fewer", "is refused 10 at record 2", "10 are missing", NO_COMMAND],
        &[(20, "pointer"), (2, "record count")],
    ),
    (
        "the second layer is lost, and all counts made to fit",
        lost_layer,
        (19, 20),
        &["28 records, and 18 stand before it: 10 fewer", "lists 2 layers, the sheet has 1 layer", "is 29, must be 19", DOUBT],
        &[(20, "pointer"), (20, "layers"), (19, "header 2")],
    ),
    (
        "edited by another program",
        edited,
        (10, 2),
        &[
            "28 records, and 31 stand before it: 3 more; each layer is listed at its place before that",
            "is 29, must be 32: the sheet ends at record 31",
            "is 19, must be 22: the header of layer 2, class 2200",
            MEND,
        ],
        &[(2, "record count"), (33, "pointer"), (32, "header 2")],
    ),
    (
        "a sheet behind a sheet",
        || [sheet(), file()].concat(),
        (19, 29),
        &["record 29 starts a sheet of its own: divide the file before it", NO_COMMAND],
        &[(29, "type")],
    ),
    (
        "the texts before it are lost, and it is read as they were",
        taken_as_text,
        (19, 21),
        &[
            "without a directory the file is accepted, and record 21 is attribute data of record 19",
            "read the file with --no-directory; if it is of a directory, records of the sheet are lost before it",
            NO_COMMAND,
        ],
        &[(21, "free")],
    ),
];

/// Files that are not recognised, judged with a directory.
const FORCED: &[Damage] = &[
    (
        "no directory",
        sheet,
        (19, 28),
        &["the sheet has no directory, its last record is net data of record 26: append one by 'dmtool directory FILE --append'"],
        &[(28, "X 1")],
    ),
    ("no directory, and no layer", || layered(0), (19, 6), &["its last record is sheet f: append one by"], &[(6, "course 1")]),
    (
        "no directory, and the sheet is refused",
        || with(sheet(), 7, 18, "    4"),
        (19, 28),
        &["no directory stands behind the sheet", "read without a directory, the file is refused 10 at record 7", NO_COMMAND],
        &[(28, "X 1"), (7, "total")],
    ),
    ("an index", index, (19, 5), &["this is an index: it has no layers, and so no directory", NO_COMMAND], &[(5, "class used")]),
    (
        "the last record is lost",
        || without(file(), 30, 30),
        (19, 29),
        &["the directory has no end: the record \"ZE\" behind record 29 is lost", "is missing behind it", DOUBT],
        &[(29, "type")],
    ),
    (
        "other letters",
        || with(file(), 30, 0, "ZF"),
        (19, 30),
        &[
            "is \"ZF\", must be \"ZE\"",
            "its columns read as directory end: only the letters seem wrong; with \"ZE\" there the file is accepted",
            NO_COMMAND,
        ],
        &[(30, "type")],
    ),
    (
        "other letters, and a layer more is stated",
        || with(file(), 30, 0, "ZF     29      3"),
        (19, 30),
        &["its columns read as directory end; if it is one, put \"ZE\" there and explain the file again", NO_COMMAND],
        &[(30, "type"), (30, "layers")],
    ),
    (
        "other letters, and the numbers of no end",
        || with(file(), 30, 0, "ZF     29      2      2      2"),
        (19, 30),
        &["its columns read as directory; see in the original what it is", "not: put \"Z \" there", NO_COMMAND],
        &[(30, "type")],
    ),
    ("half a record", || file()[..2500].to_vec(), (1, 0), &["the length, 2500 bytes, is not a multiple of 84"], &[]),
    ("nothing", Vec::new, (1, 0), &["the file is empty"], &[]),
];

/// Files with a directory, or a part of one, judged without.
const UNREAD: &[Damage] = &[
    (
        "a directory",
        file,
        (4, 29),
        &["records 29 to 30 are a directory of layers, and the file was read without one; read with it, the file is accepted"],
        &[(29, "type")],
    ),
    (
        "a directory of no layers",
        || filed(&layered(0)),
        (4, 7),
        &["record 7 is a directory of layers, and the file was read without one; read with it, the file is accepted"],
        &[(7, "type")],
    ),
    (
        "a wrong one",
        || with(file(), 29, 2, "      8"),
        (4, 29),
        &["read with it, it is refused 19 at record 29"],
        &[(29, "type")],
    ),
    (
        "one without its end",
        || without(file(), 30, 30),
        (4, 29),
        &["record 29 starts as a directory of layers does, and no record \"ZE\" ends it", DOUBT],
        &[(29, "type")],
    ),
    (
        "one whose end has other letters",
        || with(file(), 30, 0, "ZF"),
        (4, 29),
        &[
            "no record \"ZE\" ends it; record 30 behind the sheet starts \"ZF\", and its columns read as directory end",
            "only the letters seem wrong; with \"ZE\" there the file is accepted",
            NO_COMMAND,
        ],
        &[(29, "type")],
    ),
    (
        "one whose end is blank",
        || with(file(), 30, 0, &" ".repeat(RECORD_BYTES)),
        (4, 29),
        &["no record \"ZE\" ends it; record 30 behind the sheet holds nothing but spaces", "see in the original what stood there"],
        &[(29, "type")],
    ),
    (
        "spaces behind it",
        || [file(), vec![b' '; 2 * RECORD_BYTES]].concat(),
        (4, 29),
        &["behind the directory of layers, which ends at record 30: nothing but", "without that the file is accepted"],
        &[(29, "type")],
    ),
    (
        "another sheet behind it",
        || [file(), sheet()].concat(),
        (4, 29),
        &["behind the directory of layers, which ends at record 30: 28 records; without that the file is accepted; \
             record 31 starts a sheet of its own: divide the file before it"],
        &[(29, "type")],
    ),
    (
        "a record of it inside the sheet",
        || with_records(file(), 14, &records(file(), 29, 29)),
        (4, 14),
        &["record 14 starts as a directory of layers does, and record 31 ends one", "not: records 14 to 31 are a directory"],
        &[(14, "type")],
    ),
    (
        "another sheet and its directory behind it",
        || file().repeat(2),
        (4, 29),
        &[
            "behind the directory of layers, which ends at record 30: 30 records; without that the file is accepted; \
             record 31 starts a sheet of its own: divide the file before it",
            "not: are a directory of layers",
        ],
        &[(29, "type")],
    ),
    (
        "the same, cut off",
        || file().repeat(2)[..40 * RECORD_BYTES + 3].to_vec(),
        (1, 0),
        &[
            "behind the directory of layers, which ends at record 30: 10 records and 3 bytes; without that the file is accepted; \
             record 31 starts a sheet of its own: divide the file before it",
            "not: cut off",
        ],
        &[],
    ),
    (
        "an item behind it",
        || [file(), records(sheet(), 22, 22)].concat(),
        (4, 29),
        &["which ends at record 30: 1 record; see in the original where that belongs before you take it out; without that the file is accepted"],
        &[(29, "type")],
    ),
    (
        "words behind it",
        || [file(), b"hello".to_vec()].concat(),
        (1, 0),
        &["which ends at record 30: 5 bytes, \"hello\"; see in the original where that belongs before you take it out; without that"],
        &[],
    ),
    (
        "an end-of-file mark behind it",
        || [file(), vec![0x1a]].concat(),
        (1, 0),
        &["behind record 30: nothing but an end-of-file mark (the byte 1A); without that the file is accepted"],
        &[],
    ),
    (
        "a byte of the sheet is lost",
        || shifted(file(), 12, 76, 1, b""),
        (1, 0),
        &[
            "from record 13 on the file reads in order 1 byte earlier, so 1 byte is lost there",
            "by the directory at the end of the file a sheet of 28 records, 2352 bytes, stands before it; there are 2351 bytes",
            "not: the file has 2351",
        ],
        &[],
    ),
    (
        "a byte of the sheet too many",
        || shifted(file(), 12, 76, 0, b" "),
        (1, 0),
        &["so 1 byte is too many there", "2352 bytes, stands before it; there are 2353 bytes"],
        &[],
    ),
    (
        "the end of the directory is cut off",
        || file()[..29 * RECORD_BYTES + 40].to_vec(),
        (1, 0),
        &[
            "behind record 28: a directory of layers of 1 record and 40 bytes, cut off, or with bytes of it lost or too many",
            DOUBT,
        ],
        &[],
    ),
    (
        "a byte of the directory is lost",
        || shifted(file(), 29, 30, 1, b""),
        (1, 0),
        &["a directory of layers of 1 record and 83 bytes, cut off, or", "without that the file is accepted", NO_COMMAND],
        &[],
    ),
    (
        "line feeds behind each record",
        || ended(&file(), b"\n"),
        (1, 0),
        &["mend that by 'dmtool convert FILE --to lines --mend' (or --to plain); then the file is accepted"],
        &[],
    ),
];

const WITH: Reading = Reading { form: Form::Plain, directory: true };

#[test]
fn every_damage_of_a_directory_is_explained() {
    let recognised = [ENDS, ROWS, SHEETS].concat();
    assert!(recognised.len() >= 60, "{}", recognised.len());
    for damage in &recognised {
        assert_eq!(Reading::of(&damage.1()), WITH, "{}", damage.0);
        is_explained(WITH, damage);
    }
    FORCED.iter().for_each(|damage| is_explained(WITH, damage));
    UNREAD.iter().for_each(|damage| is_explained(Form::Plain.into(), damage));
}

/// With line ends the same files are refused and explained in the same words.
#[test]
fn the_same_words_with_line_ends() {
    for (name, file, ..) in [ENDS, ROWS, SHEETS].concat() {
        let plain = file();
        let file = ended(&plain, b"\r\n");
        let lines = Reading { form: Form::Lines, ..WITH };
        assert_eq!(Reading::of(&file), lines, "{name}");
        let refusal = lines.judge(&file).expect_err(name);
        assert_eq!(Err(refusal), WITH.judge(&plain), "{name}");
        let (with, without) = (explain_as(lines, &file, refusal), explain_as(WITH, &plain, refusal));
        assert_eq!((with.faults, with.notes), (without.faults, without.notes), "{name}");
        assert_eq!(line_as(lines, &file, refusal), line_as(WITH, &plain, refusal), "{name}");
    }
}

/// A sheet of the reference's, with its directory of either edition.
fn any_file(r: &mut Random, n: usize) -> Vec<u8> {
    let sheet = match n % 8 {
        0 => layered(r.below(40)),
        size => sheets::sheet(r, size % 5),
    };
    filed_in(Edition::ALL[n / 8 % 2], &sheet)
}

/// The edition of a directory by the letters of its last record, or of the one before.
fn edition_of(file: &[u8]) -> Edition {
    let known = file.chunks(RECORD_BYTES).rev().take(2).find(|record| b"ZY".contains(&record[0]) && b" E".contains(&record[1]));
    known.filter(|record| record[0] == b'Y').map_or(Edition::First, |_| Edition::Second)
}

/// A file in which the directory is damaged: bytes of it changed, numbers, records lost, doubled or put elsewhere; once in six the sheet too.
fn damaged(r: &mut Random, file: &[u8]) -> Vec<u8> {
    let (mut file, records) = (file.to_vec(), file.len() / RECORD_BYTES);
    let sheet = judge_either_edition(&file, file.len()).expect("accepted").records;
    let from = if r.once_in(6) { 1 } else { sheet + 1 };
    let number = from + r.below(records - from + 1);
    let (at, width) = ((number - 1) * RECORD_BYTES, RECORD_BYTES);
    match r.below(8) {
        0 => drop(file.drain(at..at + width)),
        1 => file = twice(file, number, number),
        2 => file = [&file[..], &file[sheet * RECORD_BYTES..]].concat(),
        3 => file.truncate(at.max(width)),
        4..6 => {
            let column = at + 2 + 7 * r.below(if number == records { 3 } else { 11 });
            let text = match r.below(6) {
                0 => "       ".to_string(),
                1 => format!("{:07}", r.below(records + 2)),
                2 => format!("{:<7}", r.below(records + 2)),
                3 => format!("{:7}", -(r.below(records) as i64)),
                _ => format!("{:7}", r.below(records + 2)),
            };
            file[column..column + 7].copy_from_slice(text.as_bytes());
        }
        _ => {
            for _ in 0..1 + r.below(3) {
                let byte = at + r.below(width);
                file[byte] = if r.once_in(3) { r.below(256) as u8 } else { *r.pick(b" -09ZEHM1xY2") };
            }
        }
    }
    file
}

/// The columns of a record that differ from those of another, if both have one layout of a directory.
fn differing(number: usize, found: &[u8], right: &[u8]) -> Option<Vec<(usize, &'static str)>> {
    let layout = match (found.get(..2)?, right.get(..2)?) {
        (b"Z ", b"Z ") => &zvaigulta::layout::DIRECTORY,
        (b"ZE", b"ZE") => &zvaigulta::layout::DIRECTORY_END,
        (b"Y ", b"Y ") => &zvaigulta::layout::SECOND_DIRECTORY,
        (b"YE", b"YE") => &zvaigulta::layout::SECOND_DIRECTORY_END,
        _ => return None,
    };
    let columns = layout.columns.iter().filter(|column| column.bytes(found) != column.bytes(right));
    Some(columns.map(|column| (number, column.name)).collect())
}

/// The sheet at the start of a file: the one number of records that are accepted as a sheet.
fn accepted_sheet(file: &[u8]) -> Option<&[u8]> {
    let ends = (1..=file.len() / RECORD_BYTES).map(|records| &file[..records * RECORD_BYTES]);
    ends.rev().find(|sheet| judge_sheet(sheet, sheet.len()).is_ok())
}

/// The marked columns of each record that stands where one of its kind is due are those that differ from the right directory: all of them, and no others.
fn marks_what_differs(name: &str, file: &[u8], sheet: &[u8], explained: &Explanation) -> usize {
    let (right, before) = (filed_in(edition_of(file), sheet), sheet.len() / RECORD_BYTES);
    let pairs = file.chunks(RECORD_BYTES).zip(right.chunks(RECORD_BYTES)).enumerate().skip(before);
    let mut compared = 0;
    for (place, (found, right)) in pairs {
        let Some(mut differ) = differing(place + 1, found, right) else { continue };
        let own = explained.faults.iter().filter(|fault| fault.record == place + 1 && fault.column != "type");
        let mut marked: Vec<(usize, &str)> = own.map(|fault| (fault.record, fault.column)).collect();
        marked.sort_unstable();
        differ.sort_unstable();
        assert_eq!(marked, differ, "{name}: {explained:#?}");
        compared += differ.len();
    }
    compared
}

/// A command that mends a file is named only where a sheet before the directory is accepted, and nothing but a directory's records stand behind it.
fn is_safe(name: &str, file: &[u8], explained: &Explanation) -> bool {
    let named = |command: &str| explained.notes.iter().any(|note| note.contains(command));
    if !named("--remove") && !named("--append") {
        return false;
    }
    let sheet = accepted_sheet(file).unwrap_or_else(|| panic!("{name}: {explained:#?}"));
    let behind = &file[sheet.len()..];
    assert!(
        behind.chunks(RECORD_BYTES).all(|record| [b"Z ", b"ZE", b"Y ", b"YE"].iter().any(|l| record.starts_with(*l))),
        "{name}"
    );
    assert_eq!(named("--remove"), !behind.is_empty(), "{name}: {explained:#?}");
    true
}

/// Thousands of damaged files: every refusal marks a column of its record, each column once and in its record's own layout; what is marked is what
/// differs, and commands are named where they are safe.
#[test]
fn every_refusal_is_explained() {
    let mut r = Random(19);
    let mut seen: BTreeMap<u64, usize> = BTreeMap::new();
    let (mut compared, mut safe) = (0, 0);
    for n in 0..16_000 {
        let file = any_file(&mut r, n);
        let (file, name) = (damaged(&mut r, &file), format!("case {n}"));
        let Err(refusal) = WITH.judge(&file) else { continue };
        *seen.entry(refusal.number()).or_default() += 1;
        let explained = explain_as(WITH, &file, refusal);
        assert!(
            refusal.record.is_none_or(|record| explained.faults.iter().any(|f| f.record == record)),
            "{name}: {explained:#?}"
        );
        let directory = matches!(refusal.reason, Reason::Directory | Reason::Edition);
        assert!(!directory || !explained.notes.is_empty(), "{name}: {explained:#?}");
        for fault in &explained.faults {
            let same = explained.faults.iter().filter(|other| (other.record, other.column) == (fault.record, fault.column));
            let named = WITH.outline(&file).nth(fault.record - 1).expect("a record of the file");
            let known = named.layout.map_or(fault.column == "type", |layout| layout.column(fault.column).is_some());
            assert!(known && same.count() == 1 && !fault.words.is_empty(), "{name}: {refusal}: {explained:#?}");
        }
        if let Some(sheet) =
            accepted_sheet(&file).filter(|sheet| directory && sheet.len() < file.len() && explained.faults.len() < 60)
        {
            compared += marks_what_differs(&name, &file, sheet, &explained);
        }
        safe += usize::from(is_safe(&name, &file, &explained));
    }
    assert!([1, 3, 4, 5, 10, 19, 27].iter().all(|number| seen.get(number).is_some_and(|count| *count > 10)), "{seen:?}");
    assert!(compared > 2_000 && safe > 2_000, "{compared} columns, {safe} files to mend");
}

/// The layers that are shown are those to which a jump goes.
#[test]
fn layers_are_those_of_the_directory() {
    let mut r = Random(5);
    for n in 0..1_000 {
        let file = any_file(&mut r, n);
        let counts = judge_either_edition(&file, file.len()).expect("accepted");
        let layers = layers(&file[..counts.records * RECORD_BYTES]);
        let found = (1..=layers.len() + 1).map(|layer| jump_either_edition(&file, file.len(), layer).ok());
        let found: Vec<_> = found.map(|layer| layer.map(|layer| (layer.header, layer.total, layer.last))).collect();
        let second = edition_of(&file) == Edition::Second;
        let stated = |number: usize| if second { number } else { 0 };
        let shown = layers.iter().map(|layer| Some((layer.header.number, stated(layer.items), stated(layer.last()))));
        assert_eq!(shown.chain([None]).collect::<Vec<_>>(), found, "case {n}");
        assert_eq!(layers.iter().map(|layer| layer.items).sum::<usize>(), counts.items, "case {n}");
        let last = layers.last().map_or(0, |layer| layer.header.number + layer.records - 1);
        assert!(layers.is_empty() || last == counts.records, "case {n}");
        assert_eq!((Reading::of(&file), Reading::of(&file).layers(&file)), (WITH, Some(layers.len())), "case {n}");
    }
}

/// A text at the end of a sheet that starts as a directory's end is text where it is due as data, unless it is of a directory's form.
#[test]
fn text_that_starts_like_an_end() {
    let text = |text: &str| with(without(sheet(), 19, 28), 18, 0, text);
    let counts = |file: Vec<u8>| with(file, 2, 31, "     4     12");
    let zebra = counts(text("ZEBRA CROSSING   "));
    assert!(judge_sheet(&zebra, zebra.len()).is_ok() && !Reading::of(&zebra).directory);
    assert!(Reading::of(&filed(&zebra)).judge(&filed(&zebra)).is_ok());
    assert!(!Reading::of(&ended(&zebra, b"\r\n")).directory);
    // Whatever the sheet is refused for.
    for (refused, number) in [(text("ZEBRA CROSSING   "), 10), (with(zebra, 7, 2, "    "), 5)] {
        assert_eq!(judge_sheet(&refused, refused.len()).unwrap_err().number(), number);
        assert!(!Reading::of(&refused).directory);
    }
    // Of the form of a directory's end it is not passed over: records before it may be lost.
    assert_eq!(Reading::of(&counts(text("ZE     19      1   "))), WITH);
    // Where no data is due it is no text.
    assert_eq!(Reading::of(&with(file(), 30, 2, "BRA CROSSING   ")), WITH);
    assert!(!Reading::of(&index()).directory && !Reading::of(b"").directory && !Reading::of(&file()[..2500]).directory);
}

/// A directory of 199,994 layers, and a number wrong in each of its records.
#[test]
fn the_largest_directory_is_explained() {
    let sheet = layered(199_994);
    let mut file = filed(&sheet);
    assert_eq!((sheet.len() / RECORD_BYTES, file.len() / RECORD_BYTES), (200_000, 200_000 + 18_183));
    assert_eq!(WITH.judge(&file).map(|counts| counts.records), Ok(200_000));
    let lines = ended(&file, b"\r\n");
    assert_eq!(Reading::of(&lines).judge(&lines).map(|counts| counts.records), Ok(200_000));
    let plain = judge_sheet(&file, file.len()).expect_err("too long for a sheet");
    let explained = explain_as(Form::Plain.into(), &file, plain);
    assert_eq!(
        explained.notes,
        ["records 200001 to 218183 are a directory of layers, and the file was read without one; read with it, the file is accepted"]
    );
    for row in file[200_000 * RECORD_BYTES..].chunks_mut(RECORD_BYTES) {
        row[8] = b'x';
    }
    let refusal = WITH.judge(&file).expect_err("damaged");
    assert_eq!((refusal.number(), refusal.record), (19, Some(218_183)));
    let explained = explain_as(WITH, &file, refusal);
    assert_eq!((explained.faults.len(), explained.faults[0].record), (60, 218_183));
    assert!(explained.notes.contains(&"60 columns are listed here, and 18123 more differ".to_string()), "{:?}", explained.notes);
    let mut appended = sheet.clone();
    appended.resize(218_183 * RECORD_BYTES, 0);
    assert_eq!(append_directory(&mut appended, sheet.len()), Ok(218_183 * RECORD_BYTES));
}
