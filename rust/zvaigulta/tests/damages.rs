//! A sheet and an index damaged in many ways: what the judge answers, what the explanation says, and the columns that it marks.

mod town;

use reference::random::Random;
use reference::sheets;
use town::damage::{is_explained, Damage};
use town::{ended, index, sheet, shifted, twice, with, without};
use zvaigulta::explain::{explain, explain_in, Explanation};
use zvaigulta::layout::{HEADER, SHEET_B};
use zvaigulta::{write_column, FileKind, Form, Mended, Reason, LINE_RECORD_BYTES, RECORD_BYTES};

/// Records of the body that are lost.
const LOST: &[Damage] = &[
    (
        "the second layer header is lost",
        || without(sheet(), 19, 19),
        (10, 2),
        &[
            "the sheet states 28 records (6 of the sheet part and 22 behind it),",
            "27 are there: 1 is missing",
            "all 8 items that the sheet states are there",
            "a header may be missing before record 19: record 7 states 3 below it and holds 7",
            "the class codes from there on are 22xx, record 7 has 2100",
            "find it in the original before you change the count",
            "states 22, the file holds 21",
        ],
        &[(2, "record count"), (7, "total"), (7, "line"), (7, "point"), (7, "grid and net")],
    ),
    (
        "the same, and the sheet's record count made to fit",
        || with(without(sheet(), 19, 19), 2, 37, "     21"),
        (10, 7),
        &["a header may be missing before record 19", "states 3, the file holds 7"],
        &[(7, "total"), (7, "line"), (7, "point"), (7, "grid and net")],
    ),
    (
        "the same, and the first layer's counts made to fit",
        || with(without(sheet(), 19, 19), 7, 18, "    7    1    0    2    0    0    1    0    1    02"),
        (10, 2),
        &["1 is missing", "a header may be missing before record 19: the class codes from there on are 22xx"],
        &[(2, "record count")],
    ),
    (
        "the group header is lost",
        || without(sheet(), 13, 13),
        (7, 13),
        &[
            "is 3, may be at most 2 here: record 11 before it is a note E7, level 2",
            "a header of level 2 is missing before record 13",
            "1 is missing",
        ],
        &[(13, "level"), (11, "level")],
    ),
    (
        "the first layer header is lost",
        || without(sheet(), 7, 7),
        (7, 7),
        &["may be at most 1 here: no layer header stands before it", "1 is missing"],
        &[(7, "level")],
    ),
    (
        "a data record of a line is lost",
        || without(sheet(), 10, 10),
        (5, 10),
        &[
            "record 10 starts E7, but record 8 states 2 data records, and has 1 before it",
            "a data record of the line E2 at record 8 may be lost",
        ],
        &[(8, "records"), (10, "X 1"), (10, "Y 1")],
    ),
    (
        "the data record of a note is lost",
        || without(sheet(), 12, 12),
        (5, 12),
        &["record 12 starts H, but record 11 states 1 data record, and has 0 before it"],
        &[(11, "records"), (12, "writing direction")],
    ),
    (
        "a data record of an attribute is lost",
        || without(sheet(), 18, 18),
        (10, 2),
        &[
            "record 18 reads as a header,",
            "but is taken as data of the attribute E8 at record 16, which states 2 data records",
            "1 is missing",
        ],
        &[(2, "record count"), (7, "total")],
    ),
    (
        "a data record of a grid is lost",
        || without(sheet(), 25, 25),
        (5, 25),
        &["record 25 starts T, but record 23 states 2 data records, and has 1 before it"],
        &[(23, "records"), (25, "height 1")],
    ),
    (
        "a point without data is lost",
        || without(sheet(), 22, 22),
        (10, 2),
        &["1 is missing", "a count that is short by one often means a lost record", "states 8, the file holds 7"],
        &[(2, "element count"), (2, "record count"), (19, "total"), (19, "point")],
    ),
    (
        "the same, beside free text that starts like an item",
        || without(with(sheet(), 17, 0, "E5 was the old code"), 22, 22),
        (10, 2),
        &["1 is missing", "not: record 17"],
        &[(2, "element count"), (2, "record count"), (19, "total"), (19, "point")],
    ),
    (
        "a line with its data is lost",
        || without(sheet(), 8, 10),
        (10, 2),
        &["3 are missing", "often means a lost record"],
        &[(2, "element count"), (2, "record count"), (7, "total"), (7, "line")],
    ),
    (
        "an item's own record is lost behind a header",
        || without(sheet(), 8, 8),
        (4, 8),
        &[
            "2 records stand behind the header at record 7 before the note E7 at record 10, where an item is due",
            "an item's own record may be lost before record 8",
            "1 is missing",
        ],
        &[(8, "type")],
    ),
    (
        "an item's own record is lost behind an item",
        || without(sheet(), 16, 16),
        (4, 16),
        &[
            "the point E5 at record 14 states 1 data record, 3 records stand before the header at record 18",
            "an item's own record may be lost before record 16",
        ],
        &[(16, "type"), (14, "records")],
    ),
    (
        "a data record is lost, and records made to fit",
        || with(without(sheet(), 10, 10), 8, 31, "   1"),
        (8, 8),
        &["1 is missing", "look for a lost data record of it before you change a count", "not: look at the other columns first"],
        &[(8, "data count"), (8, "records")],
    ),
    (
        "a data record is lost, and both counts made to fit",
        || with(without(sheet(), 10, 10), 8, 27, "   6   1"),
        (10, 2),
        &["1 is missing", "all 8 items that the sheet states are there: what is missing is a header or a data record"],
        &[(2, "record count")],
    ),
    (
        "the last record is lost",
        || without(sheet(), 28, 28),
        (3, 26),
        &["27 are there: 1 is missing", "states 2 data records, and has 1"],
        &[(26, "records")],
    ),
    (
        "the file ends behind an item's own record",
        || without(sheet(), 9, 28),
        (3, 8),
        &["8 are there: 20 are missing", "states 2 data records, and has 0"],
        &[(8, "records")],
    ),
    (
        "the file ends behind an item",
        || without(sheet(), 23, 28),
        (10, 2),
        &["22 are there: 6 are missing", "states 8, the file holds 6"],
        &[(2, "element count"), (2, "record count"), (19, "total"), (19, "grid and net")],
    ),
];

/// Records that stand twice.
const REPEATED: &[Damage] = &[
    (
        "a data record twice, all of it digits",
        || twice(with(sheet(), 25, 0, &format!("123456712345671102345{}", "1234567".repeat(9))), 25, 25),
        (4, 26),
        &["the grid at record 23 states 2 data records", "record 26 is the same as record 25", "not: only the type seems wrong"],
        &[(26, "type"), (23, "records")],
    ),
    (
        "a data record twice",
        || twice(sheet(), 9, 9),
        (4, 11),
        &[
            "the line E2 at record 8 states 2 data records,",
            "3 records stand before the note E7 at record 12",
            "record 10 is the same as record 9 before it",
            "29 are there: 1 is too many",
        ],
        &[(11, "type"), (8, "records"), (8, "data count")],
    ),
    (
        "a point twice",
        || twice(sheet(), 22, 22),
        (10, 2),
        &["record 23 is the same as record 22 before it", "1 is too many"],
        &[(2, "element count"), (2, "record count"), (19, "total"), (19, "point")],
    ),
    (
        "a line with its data twice",
        || twice(sheet(), 8, 10),
        (10, 2),
        &["records 11 to 13 are the same as records 8 to 10 before them", "3 are too many"],
        &[(2, "element count"), (2, "record count"), (7, "total"), (7, "line")],
    ),
    (
        "ten grids and nets under a header",
        || (0..8).fold(sheet(), |file, _| twice(file, 26, 28)),
        (10, 2),
        &["states 2, the file holds 10; at most 9 can be stated here", "records 29 to 31 are the same as records 26 to 28"],
        &[(2, "element count"), (19, "grid and net"), (19, "total")],
    ),
    (
        "a layer header twice",
        || twice(sheet(), 19, 19),
        (10, 2),
        &["record 20 is the same as record 19 before it"],
        &[(2, "record count"), (19, "total")],
    ),
    (
        "the last data record twice",
        || twice(sheet(), 28, 28),
        (4, 29),
        &[
            "the net at record 26 states 2 data records, 3 records stand to the end of the file",
            "record 29 is the same as record 28 before it",
        ],
        &[(29, "type"), (26, "records")],
    ),
];

/// The sheet part: lost, repeated and wrong records.
const PARTS: &[Damage] = &[
    (
        "record a is lost",
        || without(sheet(), 1, 1),
        (2, 1),
        &["record 1 reads as sheet b: sheet a before it is lost"],
        &[(1, "type")],
    ),
    (
        "record b is lost",
        || without(sheet(), 2, 2),
        (5, 2),
        &["record 2 does not read as sheet b"],
        &[(2, "lower left X"), (2, "unit")],
    ),
    (
        "record a twice",
        || twice(sheet(), 1, 1),
        (5, 2),
        &["record 2 is the same as record 1 before it: take it out"],
        &[(2, "lower left X")],
    ),
    (
        "record c is lost",
        || without(sheet(), 3, 3),
        (5, 4),
        &["record 4 reads as sheet e, where sheet d is due"],
        &[(4, "courses")],
    ),
    (
        "record d is lost",
        || without(sheet(), 4, 4),
        (5, 4),
        &["record 4 reads as sheet e, where sheet d is due"],
        &[(4, "courses")],
    ),
    (
        "record e is lost",
        || without(sheet(), 5, 5),
        (5, 5),
        &["record 5 reads as sheet f, where sheet e is due", "1 is missing"],
        &[(5, "lower left Y")],
    ),
    (
        "record f is lost",
        || without(sheet(), 6, 6),
        (5, 6),
        &[
            "record 6 is a header, where sheet f is due: the sheet part is shorter than stated, or a record of it is lost:",
            "find it in the original before you change the count",
        ],
        &[(6, "scale 1"), (4, "f records")],
    ),
    (
        "record e twice",
        || twice(sheet(), 5, 5),
        (5, 6),
        &[
            "record 6 reads as sheet e, where sheet f is due",
            "1 is too many",
            "find it in the original before you change the count or take a record out",
        ],
        &[(6, "scale 1"), (4, "f records")],
    ),
    (
        "record f twice",
        || twice(sheet(), 6, 6),
        (4, 7),
        &[
            "record 7 is no header but reads as sheet f: the sheet part is longer than record 4 states;",
            "find it in the original before you change the count or take a record out",
        ],
        &[(7, "type"), (4, "f records")],
    ),
    (
        "f records that are there and not stated",
        || with(with(twice(sheet(), 4, 6), 1, 65, " 1"), 4, 9, "0"),
        (5, 6),
        &[
            "record 6 reads as sheet f, where sheet d is due",
            "states 0; may be 0 or, for 2 courses, 1",
            "find it in the original before you change the count or take a record out",
        ],
        &[(6, "courses"), (4, "f records")],
    ),
    (
        "one revision more than stated",
        || twice(sheet(), 4, 6),
        (4, 7),
        &["record 7 is no header but reads as sheet d, with an e behind it:", "the sheet part is longer than record 1 states"],
        &[(7, "type"), (1, "revisions")],
    ),
    (
        "one revision less than stated",
        || with(sheet(), 1, 65, " 1"),
        (5, 7),
        &[
            "record 7 is a header, where sheet d is due: the sheet part is shorter than stated, or a record of it is lost:",
            "find it in the original before you change the count",
            "states 1; the first header stands at record 7",
        ],
        &[(7, "courses"), (1, "revisions")],
    ),
    (
        "the file ends in the sheet part",
        || without(sheet(), 5, 28),
        (3, 1),
        &[
            "the file ends after record 4, where sheet e is due as record 5: find it in the original before you change the count",
            "4 are there: 24 are missing",
        ],
        &[(1, "revisions")],
    ),
    (
        "the file ends before its f record",
        || without(sheet(), 6, 28),
        (3, 1),
        &["where sheet f is due as record 6"],
        &[(1, "revisions"), (4, "f records")],
    ),
    (
        "the type of record a",
        || with(sheet(), 1, 0, "m "),
        (2, 1),
        &["the other columns of record 1 read as a sheet's:", "only the type seems wrong; it should be \"M \""],
        &[(1, "type")],
    ),
    (
        "the level of record a",
        || with(sheet(), 1, 30, "  501"),
        (6, 1),
        &["is 501, must be one of 500, 1000, 2500, 5000, 10000"],
        &[(1, "level")],
    ),
    (
        "the unit against the level",
        || with(sheet(), 2, 44, " 10"),
        (6, 2),
        &["is 10, must be 1 for level 500 or 1000", "is 500; unit 10 goes with 2500 or 5000"],
        &[(2, "unit"), (1, "level")],
    ),
    ("the version", || with(sheet(), 1, 67, "2"), (6, 1), &["is 2, must be 1"], &[(1, "version")]),
    (
        "f records against courses",
        || with(sheet(), 4, 9, "2"),
        (6, 4),
        &["is 2, must be 0 or, for 2 courses, 1", "is 2; an f record holds three courses"],
        &[(4, "courses"), (4, "f records")],
    ),
    (
        "a fraction too large",
        || with(sheet(), 5, 44, "1000"),
        (9, 5),
        &["is 1000, too large: at most 999 millimetres for unit 1"],
        &[(5, "lower left Y"), (2, "lower left Y")],
    ),
    (
        "a fraction of opposite sign",
        || with(sheet(), 5, 44, " -50"),
        (9, 5),
        &["is -50, of opposite sign to its whole 5678 in record 2"],
        &[(5, "lower left Y"), (2, "lower left Y")],
    ),
    (
        "a fraction too large in centimetres",
        || with(with(with(sheet(), 1, 30, " 2500"), 2, 44, " 10"), 5, 44, " 100"),
        (9, 5),
        &["is 100, too large: at most 99 centimetres for unit 10"],
        &[(5, "lower left Y")],
    ),
];

/// The sheet with six points of the line at record 8, a full record of them.
fn full_line() -> Vec<u8> {
    with(with(without(sheet(), 10, 10), 8, 27, "   6   1"), 2, 37, "     21")
}

/// Columns of headers, items and data.
const COLUMNS: &[Damage] = &[
    ("a letter O for a zero", || with(sheet(), 9, 13, "O"), (5, 9), &["malformed: \"O\" is no digit"], &[(9, "Y 1")]),
    ("a plus sign", || with(sheet(), 9, 10, "  +5"), (5, 9), &["malformed: a plus sign"], &[(9, "Y 1")]),
    ("a minus before zeros", || with(sheet(), 9, 10, "  -0"), (5, 9), &["malformed: a minus before zeros only"], &[(9, "Y 1")]),
    (
        "a space behind a number",
        || with(sheet(), 9, 10, "  5 "),
        (5, 9),
        &["malformed: a space behind the number"],
        &[(9, "Y 1")],
    ),
    (
        "a space inside a number",
        || with(sheet(), 9, 10, " 5 5"),
        (5, 9),
        &["malformed: a space inside the number"],
        &[(9, "Y 1")],
    ),
    ("a class left out", || with(sheet(), 8, 2, "    "), (5, 8), &["malformed: all spaces"], &[(8, "class")]),
    (
        "a level of an item too deep",
        || with(sheet(), 14, 16, " 5"),
        (7, 14),
        &[
            "is 5, may be at most 3 here: record 13 before it is a group header, level 2",
            "a header of level 4 is missing before record 14",
            "not: the type",
        ],
        &[(14, "level"), (13, "level")],
    ),
    (
        "a level of a header too deep",
        || with(sheet(), 13, 16, " 3"),
        (7, 13),
        &["is 3, may be at most 2 here: record 11 before it is a note E7, level 2"],
        &[(13, "level"), (11, "level")],
    ),
    (
        "a level that no header has",
        || with(sheet(), 7, 16, " 9"),
        (7, 7),
        &["is 9, the level of a header is 1 to 8"],
        &[(7, "level")],
    ),
    (
        "a level that no item has",
        || with(sheet(), 22, 16, " 1"),
        (7, 22),
        &["is 1, the level of an item is 2 to 9"],
        &[(22, "level")],
    ),
    (
        "a type that is none",
        || with(sheet(), 14, 0, "F5"),
        (4, 14),
        &["is \"F5\", none of", "the other columns read as an element's: only the type seems wrong"],
        &[(14, "type")],
    ),
    ("the type of a header", || with(sheet(), 19, 0, "HX"), (4, 19), &["the other columns read as a header's"], &[(19, "type")]),
    (
        "a header with the type of a line",
        || with(sheet(), 19, 0, "E2"),
        (5, 19),
        &["the other columns of record 19 and what follows it read as a header: only the type seems wrong"],
        &[(19, "type")],
    ),
    (
        "a line with the type of a header",
        || with(sheet(), 8, 0, "H "),
        (5, 8),
        &["the other columns of record 8 and what follows it read as a line E2: only the type seems wrong"],
        &[(8, "type")],
    ),
    (
        "a line with the type of a note",
        || with(sheet(), 8, 0, "E7"),
        (8, 8),
        &["is E7; the other columns read as a line E2", "read as a line E2: only the type seems wrong"],
        &[(8, "type"), (8, "data kind")],
    ),
    (
        "a grid with the type of a net",
        || with(sheet(), 23, 0, "T "),
        (5, 23),
        &["read as a grid: only the type seems wrong"],
        &[(23, "type")],
    ),
    (
        "a data kind with which another type goes too",
        || with(sheet(), 14, 20, "5"),
        (8, 14),
        &[
            "the data kind of record 14 may be wrong: 2 goes with a data count of 1 and 1 data record, and what follows reads so",
            "read as an attribute E8: the type may be wrong",
            "not: only the type",
        ],
        &[(14, "data kind"), (14, "type")],
    ),
    (
        "a data count too large",
        || with(sheet(), 8, 27, "  13"),
        (8, 8),
        &[
            "is 13: needs 3 data records",
            "is 2, must be 3 for data kind 2 and count 13",
            "2 records follow it before the note E7 at record 11;",
            "that is what records states, so look at the other columns first: a data count of 7 to 12 goes with 2;",
            "goes with 2; find it in the original before you change the count",
            "not: the data kind of record 8",
        ],
        &[(8, "data count"), (8, "records")],
    ),
    (
        "records too large",
        || with(sheet(), 8, 31, "   3"),
        (8, 8),
        &[
            "is 3, must be 2",
            "2 records follow it before the note E7 at record 11;",
            "that is what the other columns need, so look at records first",
        ],
        &[(8, "data count"), (8, "records")],
    ),
    (
        "a data count that leaves a data record over",
        || with(sheet(), 8, 27, "   6   1"),
        (4, 10),
        &["the line E2 at record 8 states 1 data record,", "2 records stand before the note E7 at record 11"],
        &[(10, "type"), (8, "data count"), (8, "records")],
    ),
    (
        "a data count with data that ends before it",
        || with(sheet(), 8, 27, "   9"),
        (5, 10),
        &[
            "the line E2 at record 8: 9 points are stated, the data has 7 up to record 10, and behind that spaces alone",
            "a point may be lost: find it in the original before you change the count",
            "not: the data kind of record 8 may be wrong",
        ],
        &[(10, "X 2"), (8, "data count")],
    ),
    (
        "a data kind against the count",
        || with(sheet(), 22, 20, "2"),
        (8, 22),
        &["is 2: the data count must be 1 or more", "is 0, must be 1 or more for E5 of data kind 2"],
        &[(22, "data kind"), (22, "data count")],
    ),
    (
        "a count against the data kind",
        || with(sheet(), 22, 27, "   3"),
        (8, 22),
        &["is 0: the data count must be 0", "is 3, must be 0 for E5 of data kind 0"],
        &[(22, "data kind"), (22, "data count")],
    ),
    (
        "a data kind that a line has not",
        || with(sheet(), 8, 20, "4"),
        (8, 8),
        &["is 4, must be 2 or 3 or 6 for E2", "not: the type"],
        &[(8, "data kind")],
    ),
    (
        "a data kind that needs more records",
        || with(full_line(), 8, 20, "3"),
        (8, 8),
        &[
            "the data kind of record 8 may be wrong: 2 goes with a data count of 6 and 1 data record, and what follows reads so",
            "a data count of 1 to 4 goes with 1; find it in the original before you change the count",
        ],
        &[(8, "data kind"), (8, "data count"), (8, "records")],
    ),
    (
        "the same, and a number of the data malformed",
        || with(with(full_line(), 8, 20, "3"), 9, 6, "O"),
        (8, 8),
        &["2 goes with a data count of 6 and 1 data record", "not: and what follows reads so", "find it in the original"],
        &[(8, "data kind"), (8, "data count"), (8, "records")],
    ),
    (
        "a data kind of a point without data",
        || with(sheet(), 14, 20, "0"),
        (8, 14),
        &[
            "the data kind of record 14 may be wrong: 2 goes with a data count of 1 and 1 data record",
            "find it in the original before you change the count",
        ],
        &[(14, "data kind"), (14, "data count"), (14, "records")],
    ),
    ("a data kind out of its list", || with(sheet(), 8, 20, "7"), (6, 8), &["is 7, must be 0 to 6"], &[(8, "data kind")]),
    (
        "rows of a grid",
        || with(sheet(), 23, 18, "   4"),
        (8, 23),
        &["4 rows of 7 columns need 3 data records", "2 records follow it before the net at record 26"],
        &[(23, "rows"), (23, "columns"), (23, "records"), (23, "repeat")],
    ),
    (
        "rows of a grid within its records",
        || with(sheet(), 23, 18, "   3"),
        (5, 25),
        &[
            "the grid at record 23: 21 heights are stated, the data has 14",
            "a height may be lost: find it in the original before you change the count",
        ],
        &[(25, "height 3"), (23, "rows"), (23, "columns")],
    ),
    (
        "a grid of 1,000 by 1,080",
        || with(sheet(), 23, 18, "10001080"),
        (8, 23),
        &["90000 cannot be stated, 89999 is the most: divide the grid"],
        &[(23, "records"), (23, "repeat")],
    ),
    (
        "triangles of a net",
        || with(sheet(), 26, 20, "     3"),
        (8, 26),
        &["is 3: needs 3 data records", "is 2, must be 3 for 3 triangles"],
        &[(26, "triangles"), (26, "records")],
    ),
    (
        "a direction of a note",
        || with(sheet(), 12, 1, "    -90"),
        (6, 12),
        &["is -90, must be -45 to 45 where the writing direction is 0, across"],
        &[(12, "direction"), (12, "writing direction")],
    ),
    (
        "a writing direction of a note",
        || with(sheet(), 12, 0, "1"),
        (6, 12),
        &["is 30, must be -135 to -45 where the writing direction is 1, down"],
        &[(12, "direction"), (12, "writing direction")],
    ),
    ("a shift out of its range", || with(sheet(), 8, 24, "10"), (6, 8), &["is 10, must be -9 to 9"], &[(8, "shift")]),
    (
        "an attribute that takes the next header for its data",
        || with(sheet(), 16, 27, "   3   3"),
        (10, 7),
        &[
            "record 19 reads as a header, but is taken as data of the attribute E8 at record 16, which states 3 data records",
            "not: a header may be missing",
        ],
        &[(7, "total"), (16, "records")],
    ),
    (
        "a layer header with the level of a group",
        || with(sheet(), 19, 16, " 2"),
        (10, 7),
        &[
            "record 19 is a header of class 22xx and stands under the layer header at record 7 of class 2100",
            "its level 2 may be wrong, a layer's is 1",
            "not: a header may be missing",
        ],
        &[(7, "total"), (19, "total"), (19, "level")],
    ),
    (
        "a point under another header",
        || without([&sheet()[..7 * 84], &sheet()[21 * 84..22 * 84], &sheet()[7 * 84..]].concat(), 23, 23),
        (10, 7),
        &[
            "no record and no item is missing by the sheet's counts: an item may stand under another header",
            "find it in the original before you change a count",
        ],
        &[(7, "total"), (7, "point"), (20, "total"), (20, "point")],
    ),
    (
        "an item at the end of the layer before its own",
        || without([&sheet()[..18 * 84], &sheet()[21 * 84..22 * 84], &sheet()[18 * 84..]].concat(), 23, 23),
        (10, 7),
        &[
            "record 19 may belong under another header: the class codes from there on are 22xx, record 7 has 2100",
            "no record and no item is missing by the sheet's counts",
            "find it in the original before you change a count",
            "not: a header may be missing",
        ],
        &[(7, "total"), (7, "point"), (20, "total"), (20, "point")],
    ),
    (
        "an item with the level of the layer above its group",
        || with(sheet(), 16, 16, " 2"),
        (10, 7),
        &["its type or level be wrong; find it in the original before you change a count"],
        &[(7, "total"), (7, "attribute"), (13, "total"), (13, "attribute")],
    ),
    (
        "a line with the type of an area",
        || with(sheet(), 8, 0, "E1"),
        (10, 7),
        &[
            "no record and no item is missing by the sheet's counts",
            "its type or level be wrong; find it in the original before you change a count",
        ],
        &[(7, "area"), (7, "line")],
    ),
    (
        "data records of two items that changed places",
        || with(with(sheet(), 9, 0, &text(15)), 15, 0, &text(9)),
        (5, 9),
        &[
            "7 points are stated, the data has 1 up to record 9, and 1 record more should follow",
            "one may stand in the wrong place",
        ],
        &[(9, "X 2"), (8, "data count")],
    ),
    (
        "a data kind of other points",
        || with(sheet(), 8, 20, "3"),
        (5, 10),
        &[
            "7 points are stated, the data has 4 and a part of one more up to record 10, and behind that spaces alone",
            "the data kind of record 8 may be wrong: 2 goes with a data count of 7 and 2 data records, and what follows reads so",
            "a point may be lost: find it in the original before you change the count",
        ],
        &[(10, "Z 1"), (8, "data kind"), (8, "data count")],
    ),
    (
        "points of a line that are spaces, and one behind them",
        || with(with(sheet(), 8, 27, "   8"), 10, 28, "   7000      0"),
        (5, 10),
        &[
            "8 points are stated, the data has 7 up to record 10, then spaces, and more behind them",
            "a point may be lost: find it in the original before you change the count",
            "not: spaces alone",
        ],
        &[(10, "X 2"), (8, "data count")],
    ),
    (
        "a record of spaces in the middle",
        || with(sheet(), 14, 0, &" ".repeat(84)),
        (4, 14),
        &["record 14 holds nothing but spaces: what stood there is lost"],
        &[(14, "type")],
    ),
    (
        "a record of NUL bytes in the middle",
        || with(sheet(), 14, 0, &"\0".repeat(84)),
        (4, 14),
        &["record 14 holds nothing but NUL bytes: what stood there is lost"],
        &[(14, "type")],
    ),
    (
        "NUL bytes from inside a record to inside another",
        || with(sheet(), 9, 38, &"\0".repeat(200)),
        (5, 9),
        &[
            "bytes 711 to 910 of the file are NUL bytes,",
            "from byte 39 of record 9 to byte 70 of record 11: what stood there is lost",
            "not: the line E2 at record 8",
        ],
        &[(9, "Y 3"), (9, "X 4")],
    ),
    (
        "NUL bytes from inside a text to the next header",
        || with(sheet(), 18, 40, &"\0".repeat(50)),
        (4, 19),
        &["of the file are NUL bytes, from byte 41 of record 18 to byte 6 of record 19: what stood there is lost", "not: states"],
        &[(19, "type")],
    ),
    (
        "spaces from inside a record to inside another",
        || with(sheet(), 9, 38, &" ".repeat(200)),
        (5, 9),
        &["of the file are spaces, from byte 36 of record 9 to byte 83 of record 11: what stood there may be lost"],
        &[(9, "X 4")],
    ),
    (
        "two records of spaces in the middle",
        || with(sheet(), 14, 0, &" ".repeat(168)),
        (4, 14),
        &[
            "of the file are spaces, from byte 84 of record 13 to byte 84 of record 15: what stood there may be lost",
            "not: holds nothing",
        ],
        &[(14, "type")],
    ),
    (
        "a total",
        || with(sheet(), 7, 18, "    4"),
        (10, 7),
        &["states 4, the counts behind it add up to 3", "and as many are there"],
        &[(7, "total")],
    ),
    (
        "a count of lines",
        || with(sheet(), 19, 33, "    2"),
        (10, 19),
        &["states 2, the file holds 1", "and as many are there"],
        &[(19, "total"), (19, "line")],
    ),
    ("an element count", || with(sheet(), 2, 31, "     9"), (10, 2), &["states 9, the file holds 8"], &[(2, "element count")]),
    (
        "a record count",
        || with(sheet(), 2, 37, "     23"),
        (10, 2),
        &["states 23, the file holds 22", "28 are there: 1 is missing"],
        &[(2, "record count")],
    ),
];

const TAKE_AWAY: &str = "take that away by 'dmtool convert FILE --to plain --mend' (or --to lines)";

/// Files in another form.
const FORMS: &[Damage] = &[
    (
        "a CR LF behind each record",
        || ended(&sheet(), b"\r\n"),
        (1, 0),
        &["every record ends in carriage return and line feed (CR LF), 86 bytes in all: read with line ends the file is accepted"],
        &[],
    ),
    (
        "a LF behind each record",
        || ended(&sheet(), b"\n"),
        (1, 0),
        &[
            "every record ends in a line feed (LF), 85 bytes in all: mend that by 'dmtool convert FILE --to lines --mend'",
            "(or --to plain); then the file is accepted",
        ],
        &[],
    ),
    (
        "a CR behind each record",
        || ended(&sheet(), b"\r"),
        (1, 0),
        &["every record ends in a carriage return (CR), 85 bytes in all: mend that by 'dmtool convert FILE", "then the file is accepted"],
        &[],
    ),
    (
        "LF CR behind each record",
        || ended(&sheet(), b"\n\r"),
        (1, 0),
        &["every record ends in line feed and carriage return (LF CR), the wrong way round, 86 bytes in all: mend that by", "then the file is accepted"],
        &[],
    ),
    (
        "CR CR LF behind each record, and a length of whole records",
        || ended(&sheet(), b"\r\r\n"),
        (5, 2),
        &["every record ends in two carriage returns and a line feed (CR CR LF), 87 bytes in all: mend that", "then the file is accepted"],
        &[(2, "lower left X")],
    ),
    (
        "LF and CR LF by turns",
        || sheet().chunks(168).flat_map(|two| [&two[..84], b"\n", &two[84..], b"\r\n"].concat()).collect(),
        (1, 0),
        &["records 1, 3, 5, 7, 9 and 9 more end in a line feed alone (LF); mend that by", "then the file is accepted"],
        &[],
    ),
    (
        "a LF behind each record, and a length of whole records",
        || ended(&sheet().repeat(3), b"\n"),
        (5, 2),
        &["every record ends in a line feed (LF), 85 bytes in all: mend that by 'dmtool convert FILE", "then it is refused 4 at record 29"],
        &[(2, "lower left X")],
    ),
    (
        "a LF behind each record, and a byte too many in record 8",
        || off(b"\n", 8, 0, b"1"),
        (1, 0),
        &[
            "record 8, from byte 596 of the file on, has 85 bytes before its line end: 1 byte is too many; compare it with the original; ",
            "records 1, 2, 3, 4, 5 and 22 more end in a line feed alone (LF)",
            "not: take",
            "not: --mend",
        ],
        &[],
    ),
    (
        "a LF behind each record, and two bytes of record 8 lost",
        || off(b"\n", 8, 2, b""),
        (1, 0),
        &["record 8, from byte 596 of the file on, has 82 bytes before its line end: 2 bytes are lost; compare it", "not: take", "not: --mend"],
        &[],
    ),
    (
        "a LF behind each record, and a byte of record 1 lost",
        || off(b"\n", 1, 1, b""),
        (1, 0),
        &["record 1, from byte 1 of the file on, has 83 bytes before its line end: 1 byte is lost", "not: spaces", "not: --mend"],
        &[],
    ),
    (
        "a LF behind each record, and a byte of the last lost",
        || off(b"\n", 28, 1, b""),
        (1, 0),
        &["record 28, from byte 2296 of the file on, has 83 bytes before its line end: 1 byte is lost", "not: take", "not: --mend"],
        &[],
    ),
    (
        "a LF behind each record, and the file is cut off inside record 21",
        || ended(&sheet(), b"\n")[..85 * 20 + 30].to_vec(),
        (1, 0),
        &["record 21 has only 30 of its 84 bytes: the file is cut off", "20 are there: 8 are missing", "not: take", "not: --mend"],
        &[],
    ),
    (
        "a CR behind each record, and a byte of record 8 lost",
        || off(b"\r", 8, 1, b""),
        (1, 0),
        &["record 8, from byte 596 of the file on, has 83 bytes", "22 more end in a carriage return alone (CR)", "not: take", "not: --mend"],
        &[],
    ),
    (
        "a CR behind each record, and a byte too many in record 2",
        || off(b"\r", 2, 0, b" "),
        (1, 0),
        &["record 2, from byte 86 of the file on, has 85 bytes before its line end: 1 byte is too many", "not: take", "not: --mend"],
        &[],
    ),
    (
        "LF CR behind each record, and a byte of record 8 lost",
        || off(b"\n\r", 8, 1, b""),
        (1, 0),
        &["record 8, from byte 603 of the file on, has 83 bytes before its line end: 1 byte is lost", "not: take", "not: --mend"],
        &[],
    ),
    (
        "CR CR LF behind each record, and two bytes of record 8 lost",
        || off(b"\r\r\n", 8, 2, b""),
        (1, 0),
        &["record 8, from byte 610 of the file on, has 82 bytes before its line end: 2 bytes are lost", "not: take", "not: --mend"],
        &[],
    ),
    (
        "a LF behind each record, and a count that differs",
        || ended(&with(sheet(), 7, 18, "    4"), b"\n"),
        (1, 0),
        &["then it is refused 10 at record 7"],
        &[],
    ),
    (
        "CR LF, and an end-of-file mark",
        || [ended(&sheet(), b"\r\n"), vec![0x1a]].concat(),
        (1, 0),
        &["every record ends in carriage return and line feed (CR LF), 86 bytes in all"],
        &[],
    ),
    (
        "CR LF, and a count that differs",
        || ended(&with(sheet(), 7, 18, "    4"), b"\r\n"),
        (1, 0),
        &["read with line ends it is refused 10 at record 7"],
        &[],
    ),
    (
        "CR LF behind the first records alone",
        || [ended(&sheet()[..840], b"\r\n"), sheet()[840..].to_vec()].concat(),
        (1, 0),
        &["records 1 to 10 end in carriage return and line feed (CR LF), record 11 does not; take these out"],
        &[],
    ),
    (
        "no line end behind the last",
        || shifted(ended(&sheet(), b"\r\n"), 29, 54, 2, b""),
        (1, 0),
        &["every record but the last ends in carriage return and line feed"],
        &[],
    ),
    (
        "CR LF, and a length of whole records",
        || ended(&sheet()[..].repeat(3)[..84 * 42], b"\r\n"),
        (5, 2),
        &["every record ends in carriage return and line feed"],
        &[(2, "lower left X")],
    ),
    (
        "lines without the spaces at their ends",
        || lines_without_spaces(),
        (1, 0),
        &["the file is text in lines, and spaces at their ends are lost: line 1 has 69 bytes"],
        &[],
    ),
    (
        "lines wrapped at 80 bytes",
        || sheet().chunks(80).flat_map(|line| [line, b"\r\n"].concat()).collect(),
        (1, 0),
        &["the file is text in lines that are no records: take the line ends out; without that the file is accepted"],
        &[],
    ),
    (
        "a byte order mark",
        || [&b"\xef\xbb\xbf"[..], &sheet()].concat(),
        (1, 0),
        &["the file starts with a byte order mark (EF BB BF): take it out; without that the file is accepted"],
        &[],
    ),
    (
        "a byte order mark, and a LF behind each record",
        || [&b"\xef\xbb\xbf"[..], &ended(&sheet(), b"\n")].concat(),
        (1, 0),
        &[
            "the file starts with a byte order mark (EF BB BF): take it out; then, every record ends in a line feed (LF),",
            "(or --to plain); then the file is accepted",
            "not: refused",
        ],
        &[],
    ),
    (
        "a byte order mark, and an end-of-file mark",
        || [&b"\xef\xbb\xbf"[..], &sheet(), &[0x1a]].concat(),
        (1, 0),
        &["take it out; then, behind record 28: nothing but an end-of-file mark", "without that the file is accepted"],
        &[],
    ),
    ("UTF-16 with a mark", || [&b"\xff\xfe"[..], &wide()].concat(), (1, 0), &["the byte order mark of UTF-16"], &[]),
    ("UTF-16 without a mark", || wide(), (2, 1), &["the file is in UTF-16"], &[(1, "type")]),
    ("EBCDIC", || ebcdic(), (2, 1), &["the file is in EBCDIC: it starts with \"M \" in that code"], &[(1, "type")]),
    (
        "EBCDIC behind the length of a tape record",
        || [vec![0, 88, 0, 0], ebcdic()].concat(),
        (1, 0),
        &["the file is in EBCDIC: it starts with spaces and digits of that code"],
        &[],
    ),
    (
        "letters converted to UTF-8",
        || shifted(sheet(), 1, 10, 4, "北町".as_bytes()),
        (1, 0),
        &["the file seems to be converted to UTF-8, in which its letters have other lengths"],
        &[],
    ),
    ("EBCDIC with a byte more", || [ebcdic(), vec![0x40]].concat(), (1, 0), &["the file is in EBCDIC"], &[]),
    (
        "an end-of-file mark",
        || [sheet(), vec![0x1a]].concat(),
        (1, 0),
        &["behind record 28: nothing but an end-of-file mark (the byte 1A);", "without that the file is accepted"],
        &[],
    ),
    (
        "a fill of NUL bytes",
        || [sheet(), vec![0; 40]].concat(),
        (1, 0),
        &["behind record 28: nothing but 40 NUL bytes; without that the file is accepted"],
        &[],
    ),
    (
        "a fill of NUL bytes, whole records",
        || [sheet(), vec![0; 168]].concat(),
        (4, 29),
        &["behind record 28: nothing but 168 NUL bytes; without that the file is accepted"],
        &[(29, "type")],
    ),
    (
        "a fill of spaces, whole records",
        || [sheet(), vec![b' '; 168]].concat(),
        (4, 29),
        &["records 29 to 30 hold spaces alone, to the end of the file"],
        &[(29, "type")],
    ),
    (
        "NUL bytes for the end of the file",
        || [&sheet()[..2000], &[0; 352]].concat(),
        (5, 24),
        &["from byte 69 of record 24 on: nothing but 352 NUL bytes; that part is lost"],
        &[(24, "height 10")],
    ),
    (
        "a line end behind the last record",
        || [sheet(), b"\n".to_vec()].concat(),
        (1, 0),
        &["behind record 28: nothing but a line end; without that the file is accepted", TAKE_AWAY],
        &[],
    ),
    (
        "CR LF behind the last record",
        || [sheet(), b"\r\n".to_vec()].concat(),
        (1, 0),
        &["behind record 28: nothing but a line end; without that the file is accepted", TAKE_AWAY],
        &[],
    ),
    (
        "CR behind the last record of an index",
        || [index(), b"\r".to_vec()].concat(),
        (1, 0),
        &["behind record 5: nothing but a line end; without that the file is accepted", TAKE_AWAY],
        &[],
    ),
    (
        "CR LF behind the last record of a block",
        || [&sheet()[84 * 7..84 * 10], b"\r\n"].concat(),
        (1, 0),
        &["behind record 3: nothing but a line end; without that it is a sound block", TAKE_AWAY],
        &[],
    ),
    (
        "a line end behind the last record, and a count that differs",
        || [with(sheet(), 7, 18, "    4"), b"\n".to_vec()].concat(),
        (1, 0),
        &["behind record 28: nothing but a line end; without that it is refused 10 at record 7", "not: --mend"],
        &[],
    ),
    (
        "text behind the last record",
        || [sheet(), b"end".to_vec()].concat(),
        (1, 0),
        &["records 1 to 28 are accepted, but not what stands behind: 3 bytes, \"end\"", "belongs to record 28"],
        &[],
    ),
    (
        "the last record is cut",
        || sheet()[..2352 - 40].to_vec(),
        (1, 0),
        &["record 28 has only 44 of its 84 bytes: the file is cut off", "27 are there: 1 is missing"],
        &[],
    ),
    ("the file is empty", || Vec::new(), (1, 0), &["copy the file again"], &[]),
    ("the file is one word", || b"M ".to_vec(), (1, 0), &["the file is shorter than one record"], &[]),
    (
        "a packed file",
        || [&b"PK\x03\x04"[..], &sheet()].concat(),
        (1, 0),
        &["the file is packed (ZIP or GZIP); unpack it first"],
        &[],
    ),
    (
        "the length of the record before each",
        || sheet().chunks(84).flat_map(|record| [&b"\0\x58\0\0"[..], record].concat()).collect(),
        (1, 0),
        &["every record has 4 bytes before it, 88 bytes in all: take these out; without that the file is accepted"],
        &[],
    ),
    (
        "the length of the record before and behind each",
        || sheet().chunks(84).flat_map(|record| [&b"T\0\0\0"[..], record, b"T\0\0\0"].concat()).collect(),
        (1, 0),
        &["every record has 4 bytes before it and 4 bytes behind it, 92 bytes in all", "without that the file is accepted"],
        &[],
    ),
    (
        "quotation marks around each record, and a line end",
        || sheet().chunks(84).flat_map(|record| [&b"\""[..], record, b"\"\r\n"].concat()).collect(),
        (1, 0),
        &["every record has 1 byte before it and 3 bytes behind it, 88 bytes in all", "without that the file is accepted"],
        &[],
    ),
    (
        "a tar archive",
        || [&[b'n'; 257][..], b"ustar", &[0; 250], &sheet(), &[0; 1088]].concat(),
        (1, 0),
        &["the file is a tar archive; unpack it first", "not: NUL bytes"],
        &[],
    ),
    (
        "a file of another type with NUL bytes at its end",
        || [&b"T\x03data"[..], &[b'x'; 100], &[0; 3]].concat(),
        (1, 0),
        &["this is neither a sheet nor an index", "not: that part is lost"],
        &[(1, "type")],
    ),
    (
        "two sheets one behind the other",
        || [sheet(), sheet()].concat(),
        (4, 29),
        &["record 29 starts a sheet of its own: divide the file before it"],
        &[(29, "type")],
    ),
    (
        "a sheet behind an index",
        || [index(), sheet()].concat(),
        (10, 1),
        &["record 6 starts a sheet of its own: divide the file before it", "the index states 5 records, 33 are there"],
        &[(1, "c records")],
    ),
    ("a text", || b"Dear colleague, ".repeat(21), (2, 1), &["this is neither a sheet nor an index"], &[(1, "type")]),
    (
        "a byte before the first record",
        || [b"\n".to_vec(), sheet()].concat(),
        (1, 0),
        &["before the first record: 1 byte, \"\\x0a\": take that out; without that the file is accepted"],
        &[(1, "type")],
    ),
    (
        "a block",
        || sheet()[7 * 84..10 * 84].to_vec(),
        (2, 1),
        &["this is a block, a line E2 with 2 data records, level 2: use it with insert"],
        &[(1, "type")],
    ),
    (
        "a block with a line end behind each record",
        || ended(&sheet()[7 * 84..10 * 84], b"\n"),
        (1, 0),
        &["then it is a sound block, a line E2 with 2 data records, level 2", "not: refused"],
        &[],
    ),
    (
        "a block without its last record",
        || sheet()[7 * 84..9 * 84].to_vec(),
        (2, 1),
        &[
            "the file starts with a line E2; as a block it would be refused:",
            "record 1 of the block, records: states 2 data records",
        ],
        &[(1, "type")],
    ),
    (
        "the layers alone",
        || sheet()[6 * 84..].to_vec(),
        (2, 1),
        &["the file starts with a header: the records of the sheet part before it are missing"],
        &[(1, "type")],
    ),
];

/// Bytes lost or too many.
const SHIFTS: &[Damage] = &[
    (
        "a byte too many in data",
        || shifted(sheet(), 15, 20, 0, b"x"),
        (1, 0),
        &[
            "the bytes seem to shift at record 16 or shortly before it:",
            "from record 16 on the file reads in order 1 byte later, so 1 byte is too many there",
        ],
        &[(16, "type")],
    ),
    (
        "a fill of NUL bytes behind each ten records",
        || sheet().chunks(840).flat_map(|block| [block, &[0; 184][..(block.len() / 840) * 184]].concat()).collect(),
        (1, 0),
        &[
            "the bytes seem to shift at record 11 or shortly before it: from record 13 on the file reads in order 16 bytes later",
            "so 184 bytes are too many there (2 records and 16 bytes)",
            "look at byte 1 of record 11: 184 NUL bytes",
        ],
        &[(11, "type")],
    ),
    (
        "a byte lost in data",
        || shifted(sheet(), 9, 20, 1, b""),
        (1, 0),
        &[
            "the bytes seem to shift at record 9 or shortly before it:",
            "from record 11 on the file reads in order 1 byte earlier, so 1 byte is lost there",
        ],
        &[(9, "X 2")],
    ),
    (
        "two bytes lost in a header",
        || shifted(sheet(), 19, 20, 2, b""),
        (1, 0),
        &["the bytes seem to shift at record 19", "2 bytes earlier, so 2 bytes are lost there"],
        &[(19, "total")],
    ),
    (
        "a line end in the middle",
        || shifted(sheet(), 16, 0, 0, b"\n"),
        (1, 0),
        &["from record 16 on the file reads in order 1 byte later", "look at byte 1 of record 16: a line end"],
        &[(16, "type")],
    ),
    (
        "a byte lost in free text",
        || shifted(sheet(), 17, 40, 1, b""),
        (1, 0),
        &["the bytes seem to shift at record 19 or shortly before it", "1 byte is lost there"],
        &[(19, "type")],
    ),
    (
        "a byte lost in record b",
        || shifted(sheet(), 2, 20, 1, b""),
        (1, 0),
        &[
            "the bytes seem to shift at record 2 or shortly before it: from record 7 on",
            "1 byte is lost there, or 83 bytes are too many, and perhaps whole records as well",
            "not: the sheet states",
        ],
        &[(2, "upper right X")],
    ),
    (
        "a byte lost where no item follows",
        || shifted(sheet(), 27, 20, 1, b""),
        (1, 0),
        &["the bytes seem to shift at record 27 or shortly before it: from record 28 on"],
        &[(27, "Z 1")],
    ),
    (
        "a byte too many in the last record",
        || shifted(sheet(), 28, 20, 0, b"7"),
        (1, 0),
        &["28 records of 84 bytes and 1 byte more;", "record 28 is the first that breaks (an integer column is malformed)"],
        &[(28, "X 2")],
    ),
    (
        "200 bytes lost",
        || shifted(sheet(), 9, 20, 200, b""),
        (1, 0),
        &[
            "reads in order 32 bytes earlier, so by the counts 200 bytes are lost there (2 records and 32 bytes)",
            "the sheet states 28 records (6 of the sheet part and 22 behind it), 2352 bytes; the file has 2152",
            "not: too many",
        ],
        &[(9, "X 2")],
    ),
    (
        "220 bytes lost: the records read in order 52 bytes earlier, or 32 later",
        || shifted(sheet(), 9, 20, 220, b""),
        (1, 0),
        &["reads in order 52 bytes earlier, so by the counts 220 bytes are lost there (2 records and 52 bytes)", "not: too many"],
        &[(9, "X 2")],
    ),
    (
        "200 bytes twice",
        || [&sheet()[..1400], &sheet()[1200..]].concat(),
        (1, 0),
        &[
            "reads in order 32 bytes later, so by the counts 200 bytes are too many there (2 records and 32 bytes)",
            "2352 bytes; the file has 2552",
            "not: lost",
        ],
        &[],
    ),
    (
        "80 NUL bytes in the middle",
        || shifted(sheet(), 14, 0, 0, &[0; 80]),
        (1, 0),
        &["80 bytes later, so 80 bytes are too many there; look at byte 1 of record 14: 80 NUL bytes"],
        &[(14, "type")],
    ),
    (
        "a byte lost, and one too many later",
        || shifted(shifted(sheet(), 9, 20, 1, b""), 23, 2, 0, b"0"),
        (5, 9),
        &[
            "the bytes seem to shift at record 9 or shortly before it:",
            "from record 11 on the file reads in order 1 byte earlier",
            "1 byte is lost there, or 83 bytes are too many, and perhaps whole records as well",
            "2352 bytes; the file has 2352",
        ],
        &[(9, "X 2")],
    ),
];

/// The index.
const INDEXES: &[Damage] = &[
    (
        "a b record is lost",
        || without(index(), 3, 3),
        (3, 1),
        &["4 are there: 1 is missing", "record 3 reads as index c, where index b is due: a b record may be lost before it"],
        &[(1, "b records"), (1, "c records")],
    ),
    (
        "a c record is lost",
        || without(index(), 5, 5),
        (3, 1),
        &["the index states 5 records, 4 are there: 1 is missing"],
        &[(1, "b records"), (1, "c records")],
    ),
    (
        "a b record twice",
        || twice(index(), 3, 3),
        (5, 4),
        &["record 4 does not read as index c", "1 is too many"],
        &[(4, "class used")],
    ),
    (
        "a c record twice",
        || twice(index(), 4, 4),
        (10, 1),
        &["the index states 5 records, 6 are there: 1 is too many", "look at record 6"],
        &[(1, "b records"), (1, "c records")],
    ),
    (
        "a fill of NUL bytes behind the index",
        || [index(), vec![0; 84]].concat(),
        (10, 1),
        &["behind record 5: nothing but 84 NUL bytes; without that the file is accepted"],
        &[(1, "c records")],
    ),
    (
        "a fill of spaces behind the index",
        || [index(), vec![b' '; 84]].concat(),
        (10, 1),
        &["record 6 holds spaces alone"],
        &[(1, "c records")],
    ),
    (
        "sheets against b records",
        || with(index(), 1, 34, " 35"),
        (6, 1),
        &["is 2, must be 4 for 35 sheets"],
        &[(1, "sheets"), (1, "b records")],
    ),
    (
        "991 sheets",
        || with(index(), 1, 34, "99199"),
        (6, 1),
        &["991 sheets need 100: 100 does not fit two digits, an index lists 990 sheets at most"],
        &[(1, "sheets"), (1, "b records")],
    ),
    ("a system out of its range", || with(index(), 1, 2, "20"), (6, 1), &["is 20, must be 1 to 19"], &[(1, "system")]),
    ("a dimension out of its list", || with(index(), 4, 18, "1"), (6, 4), &["is 1, must be one of 0, 2, 3"], &[(4, "dimension")]),
    ("a flag that is no digit", || with(index(), 4, 9, "y"), (5, 4), &["malformed: \"y\" is no digit"], &[(4, "line used")]),
    (
        "the type of the index",
        || with(index(), 1, 0, "J "),
        (2, 1),
        &["the other columns of record 1 read as an index's"],
        &[(1, "type")],
    ),
    (
        "a CR LF behind each record of the index",
        || ended(&index(), b"\r\n"),
        (1, 0),
        &["every record ends in carriage return and line feed"],
        &[],
    ),
    (
        "a byte lost in the index",
        || shifted(index(), 4, 40, 1, b""),
        (1, 0),
        &["the bytes seem to shift at record 5 or shortly before it", "1 byte is lost there"],
        &[],
    ),
];

/// A record of the sheet.
fn text(record: usize) -> String {
    String::from_utf8(sheet()[(record - 1) * RECORD_BYTES..record * RECORD_BYTES].to_vec()).expect("plain text")
}

/// The sheet with line ends.
fn lines() -> Vec<u8> {
    ended(&sheet(), b"\r\n")
}

/// A file with line ends, and other bytes in the place of some, from a byte of a line on that is counted from 0.
fn lines_with(mut file: Vec<u8>, record: usize, start: usize, out: usize, new: &[u8]) -> Vec<u8> {
    let at = (record - 1) * LINE_RECORD_BYTES + start;
    file.splice(at..at + out, new.iter().copied());
    file
}

/// The sheet with an end behind each record, and other bytes in the place of some of a record, from its byte 41 on.
fn off(end: &[u8], record: usize, out: usize, new: &[u8]) -> Vec<u8> {
    let mut file = ended(&sheet(), end);
    let at = (record - 1) * (RECORD_BYTES + end.len()) + 40;
    file.splice(at..at + out, new.iter().copied());
    file
}

const MEND: &str = "mend that by 'dmtool convert FILE --to lines --mend' (or --to plain); then the file is accepted";

/// Files with line ends, read as such.
const LINES: &[Damage] = &[
    (
        "the end of record 5 is spaces",
        || lines_with(lines(), 5, 84, 2, b"  "),
        (18, 5),
        &["record 5 ends in other bytes than carriage return and line feed: \"  \" at bytes 429 and 430 of the file", MEND],
        &[(5, "line end")],
    ),
    ("the end of the first", || lines_with(lines(), 1, 84, 2, b"\0\0"), (18, 1), &["record 1 ends in other bytes", MEND], &[(1, "line end")]),
    ("the end of the last", || lines_with(lines(), 28, 84, 2, b"xx"), (18, 28), &["record 28 ends in other bytes", MEND], &[(28, "line end")]),
    (
        "LF CR behind record 5",
        || lines_with(lines(), 5, 84, 2, b"\n\r"),
        (18, 5),
        &["record 5 ends in line feed and carriage return (LF CR), the wrong way round", "must be carriage return and line feed", MEND],
        &[(5, "line end")],
    ),
    (
        "CR CR behind record 5, and LF LF behind record 6",
        || lines_with(lines_with(lines(), 5, 84, 2, b"\r\r"), 6, 84, 2, b"\n\n"),
        (18, 5),
        &["records 5 and 6 end in other bytes than carriage return and line feed: \"\\x0d\\x0d\" at bytes 429 and 430", MEND],
        &[(5, "line end")],
    ),
    (
        "several ends broken, in a row and apart",
        || [3, 4, 5, 6, 9, 20, 27].iter().fold(lines(), |file, record| lines_with(file, *record, 84, 2, b"--")),
        (18, 3),
        &["records 3, 4, 5, 6, 9 and 2 more end in other bytes than", MEND],
        &[(3, "line end")],
    ),
    (
        "every end broken but that of record 20",
        || (1..=28).filter(|record| *record != 20).fold(lines(), |file, record| lines_with(file, record, 84, 2, b"  ")),
        (18, 1),
        &["records 1, 2, 3, 4, 5 and 22 more end in other bytes than carriage return and line feed", "not: lost"],
        &[(1, "line end")],
    ),
    (
        "every end broken but the last",
        || (1..28).fold(lines(), |file, record| lines_with(file, record, 84, 2, b"  ")),
        (18, 1),
        &["records 1, 2, 3, 4, 5 and 22 more end in other bytes than carriage return and line feed", "not: lost"],
        &[(1, "line end")],
    ),
    (
        "LF alone behind record 5",
        || lines_with(lines(), 5, 84, 2, b"\n"),
        (1, 0),
        &["record 5 ends in a line feed alone (LF)", MEND],
        &[],
    ),
    ("CR alone behind record 5", || lines_with(lines(), 5, 84, 2, b"\r"), (1, 0), &["record 5 ends in a carriage return alone (CR)", MEND], &[]),
    ("CR CR LF behind record 5", || lines_with(lines(), 5, 84, 0, b"\r"), (1, 0), &["record 5 ends in two carriage returns and a line feed", MEND], &[]),
    ("no end behind record 5", || lines_with(lines(), 5, 84, 2, b""), (1, 0), &["record 5 ends without a line end", MEND], &[]),
    ("no end behind the last", || lines_with(lines(), 28, 84, 2, b""), (1, 0), &["record 28 ends without a line end", MEND], &[]),
    (
        "no end behind the last, and a length of whole plain records",
        || lines_with(ended(&sheet().repeat(2)[..84 * 43], b"\r\n"), 43, 84, 2, b""),
        (1, 0),
        &["record 43 ends without a line end", "(or --to plain); then it is refused 4 at record 29"],
        &[],
    ),
    ("the last LF is lost", || lines_with(lines(), 28, 85, 1, b""), (1, 0), &["record 28 ends in a carriage return alone (CR)", MEND], &[]),
    ("the last CR is lost", || lines_with(lines(), 28, 84, 1, b""), (1, 0), &["record 28 ends in a line feed alone (LF)", MEND], &[]),
    (
        "no ends behind the last eight",
        || [ended(&sheet()[..84 * 20], b"\r\n"), sheet()[84 * 20..].to_vec()].concat(),
        (1, 0),
        &["records 21, 22, 23, 24, 25 and 3 more end without a line end", MEND],
        &[],
    ),
    (
        "an empty line behind each record",
        || ended(&sheet(), b"\r\n\r\n"),
        (1, 0),
        &["an empty line stands behind record 1, at byte 87 of the file; the same at records 2, 3, 4, 5, 6 and 22 more", MEND],
        &[],
    ),
    ("an end-of-file mark", || [lines(), vec![0x1a]].concat(), (1, 0), &["behind the last line end: an end-of-file mark (the byte 1A)", MEND], &[]),
    ("a fill of NUL bytes", || [lines(), vec![0; 50]].concat(), (1, 0), &["behind the last line end: 50 NUL bytes", MEND], &[]),
    (
        "a line end inside record 8",
        || lines_with(lines(), 8, 40, 0, b"\r\n"),
        (1, 0),
        &["a line end stands inside record 8, behind its byte 40 (byte 643 of the file): take it out", MEND],
        &[],
    ),
    (
        "a line feed inside record 8",
        || lines_with(lines(), 8, 40, 0, b"\n"),
        (1, 0),
        &["a line end stands inside record 8, behind its byte 40 (byte 643 of the file)", MEND],
        &[],
    ),
    (
        "a byte of record 8 is lost",
        || lines_with(lines(), 8, 40, 1, b""),
        (1, 0),
        &[
            "record 8, from byte 603 of the file on, has 83 bytes before its line end: 1 byte is lost; compare it with the original",
            "not: --mend",
        ],
        &[],
    ),
    (
        "40 bytes of record 8 are lost",
        || lines_with(lines(), 8, 20, 40, b""),
        (1, 0),
        &["has 44 bytes before its line end: 40 bytes are lost", "not: --mend"],
        &[],
    ),
    (
        "a byte too many in record 8",
        || lines_with(lines(), 8, 40, 0, b" "),
        (1, 0),
        &["has 85 bytes before its line end: 1 byte is too many", "not: --mend"],
        &[],
    ),
    (
        "a byte lost in record 8, and one too many in record 13",
        || lines_with(lines_with(lines(), 13, 40, 0, b" "), 8, 40, 1, b""),
        (18, 8),
        &["record 8, from byte 603 of the file on, has 83 bytes", "record 13, from byte 1032 of the file on, has 85 bytes", "not: --mend"],
        &[(8, "line end")],
    ),
    (
        "the file is cut off inside record 21",
        || lines()[..86 * 20 + 30].to_vec(),
        (1, 0),
        &["record 21 has only 30 of its 84 bytes: the file is cut off", "28 records", "20 are there: 8 are missing", "not: --mend"],
        &[],
    ),
    (
        "the file is cut off before the end of record 20",
        || lines()[..86 * 20 - 2].to_vec(),
        (1, 0),
        &["record 20 ends without a line end", "20 are there: 8 are missing", "then it is refused 3 at record 20"],
        &[],
    ),
    (
        "the file is cut off behind record 20",
        || lines()[..86 * 20].to_vec(),
        (3, 20),
        &["20 are there: 8 are missing", "the end of the file is lost"],
        &[(20, "records")],
    ),
    (
        "a byte order mark",
        || [&b"\xef\xbb\xbf"[..], &lines()].concat(),
        (1, 0),
        &["the file starts with a byte order mark (EF BB BF): take it out; then, every record ends in", "read with line ends the file is accepted"],
        &[],
    ),
    (
        "the spaces at the ends of the last lines are lost",
        || [ended(&sheet()[..84 * 15], b"\r\n"), lines_without_spaces_from(15)].concat(),
        (1, 0),
        &["the file is text in lines, and spaces at their ends are lost: line 17 has 11 bytes"],
        &[],
    ),
    (
        "a count differs",
        || ended(&with(sheet(), 7, 18, "    4"), b"\r\n"),
        (10, 7),
        &["states 4, the counts behind it add up to 3", "and as many are there", "not: line end"],
        &[(7, "total")],
    ),
    (
        "a length of whole plain records, and another sheet begins",
        || ended(&sheet().repeat(3)[..84 * 42], b"\r\n"),
        (4, 29),
        &["record 29 starts a sheet of its own", "not: line end"],
        &[(29, "type")],
    ),
    (
        "the same with an end broken",
        || lines_with(ended(&sheet().repeat(3)[..84 * 42], b"\r\n"), 4, 84, 2, b"  "),
        (18, 4),
        &["record 4 ends in other bytes", "then it is refused 4 at record 29"],
        &[(4, "line end")],
    ),
    (
        "NUL bytes in record 9",
        || ended(&with(sheet(), 9, 20, "\0\0\0\0\0\0\0\0\0\0\0\0\0\0\0\0\0\0\0\0"), b"\r\n"),
        (5, 9),
        &["bytes 709 to 728 of the file are NUL bytes, from byte 21 of record 9 to byte 40 of record 9"],
        &[(9, "Y 2")],
    ),
    (
        "a block",
        || ended(&sheet()[84 * 7..84 * 10], b"\r\n"),
        (2, 1),
        &["this is a block, a line E2 with 2 data records, level 2: use it with insert"],
        &[(1, "type")],
    ),
    (
        "an index with an end broken",
        || lines_with(ended(&index(), b"\r\n"), 3, 84, 2, b"  "),
        (18, 3),
        &["record 3 ends in other bytes than carriage return and line feed: \"  \" at bytes 257 and 258 of the file", MEND],
        &[(3, "line end")],
    ),
    ("an index with too many records", || ended(&twice(index(), 5, 5), b"\r\n"), (10, 1), &["6 are there: 1 is too many"], &[(1, "c records")]),
];

/// The sheet in lines without the spaces at their ends, from a record on that is counted from 0.
fn lines_without_spaces_from(record: usize) -> Vec<u8> {
    let text = String::from_utf8(sheet()).expect("plain text");
    let records = (record..text.len() / 84).map(|n| text[n * 84..(n + 1) * 84].trim_end().to_string() + "\r\n");
    records.collect::<String>().into_bytes()
}

/// The sheet in lines without the spaces at their ends.
fn lines_without_spaces() -> Vec<u8> {
    let text = String::from_utf8(sheet()).expect("plain text");
    let records = (0..text.len() / 84).map(|n| text[n * 84..(n + 1) * 84].trim_end().to_string() + "\n");
    records.collect::<String>().into_bytes()
}

/// The sheet in UTF-16, the low byte first.
fn wide() -> Vec<u8> {
    sheet().iter().flat_map(|byte| [*byte, 0]).collect()
}

/// The sheet in EBCDIC, as far as its letters matter here: capitals, digits, spaces and minus.
fn ebcdic() -> Vec<u8> {
    let code = |byte: u8| match byte {
        b' ' => 0x40,
        b'-' => 0x60,
        b'0'..=b'9' => byte - b'0' + 0xf0,
        b'A'..=b'I' => byte - b'A' + 0xc1,
        b'J'..=b'R' => byte - b'J' + 0xd1,
        b'S'..=b'Z' => byte - b'S' + 0xe2,
        other => other,
    };
    sheet().into_iter().map(code).collect()
}

#[test]
fn every_damage_is_explained() {
    let all = [LOST, REPEATED, PARTS, COLUMNS, FORMS, SHIFTS, INDEXES].concat();
    assert!(all.len() >= 130, "{} damages", all.len());
    all.iter().for_each(|damage| is_explained(Form::Plain.into(), damage));
}

/// Damaged files with line ends are read as such. Those that can be mended are accepted then, or refused as the words say.
#[test]
fn every_damage_of_line_ends_is_explained() {
    assert!(LINES.len() >= 35, "{} damages", LINES.len());
    for damage in LINES {
        let (name, file, _, words, _) = damage;
        assert_eq!(Form::of(&file()), Form::Lines, "{name}");
        is_explained(Form::Lines.into(), damage);
        let mended = Mended::of(&file()).filter(|_| words.contains(&MEND));
        assert!(mended.is_none_or(|mended| mended.plain == sheet() || mended.plain == index()), "{name}");
    }
}

/// Damages of the other tables are not taken for damages of line ends, but where line ends stand.
#[test]
fn other_damages_are_read_as_plain() {
    for (name, file, ..) in [LOST, REPEATED, PARTS, COLUMNS, SHIFTS, INDEXES].concat() {
        let file = file();
        assert!(Form::of(&file) == Form::Plain || file.windows(2).filter(|two| two == b"\r\n").count() >= 5, "{name}");
    }
}

/// Where all records but one or two are as they should be, what is damaged in the same way with line ends is refused and explained as it is without.
#[test]
fn the_same_words_with_line_ends() {
    for (name, file, (number, _), ..) in [LOST, REPEATED, PARTS, COLUMNS].concat() {
        let plain = file();
        let kind = FileKind::of(&plain);
        if number == 1 || plain.iter().any(|byte| matches!(byte, b'\r' | b'\n')) {
            continue;
        }
        let file = ended(&plain, b"\r\n");
        let refusal = kind.judge_in(Form::Lines, &file, file.len()).expect_err(name);
        assert_eq!(Err(refusal), kind.judge(&plain, plain.len()), "{name}");
        let (with, without) = (explain_in(Form::Lines, &file, refusal), explain(&plain, refusal));
        let in_bytes = |note: &&String| !note.contains("bytes");
        assert_eq!(with.faults, without.faults, "{name}");
        assert!(with.notes.iter().filter(in_bytes).eq(without.notes.iter().filter(in_bytes)), "{name}: {with:#?}");
    }
}

#[test]
fn the_undamaged_files_are_accepted() {
    for file in [sheet(), full_line(), index()] {
        FileKind::of(&file).judge(&file, file.len()).expect("accepted");
    }
}

/// A sheet with every count that an explanation lists changed to what it says the file holds; none where one cannot be stated.
fn with_listed_counts(file: &[u8], explained: &Explanation) -> Option<Vec<u8>> {
    let mut mended = file.to_vec();
    for fault in &explained.faults {
        let layout = if fault.record == 2 { &SHEET_B } else { &HEADER };
        let column = layout.column(fault.column)?;
        let held = fault.words.rsplit(' ').next().and_then(|number| number.parse().ok())?;
        let start = (fault.record - 1) * RECORD_BYTES + column.start;
        write_column(&mut mended[start..start + column.width], held).ok()?;
    }
    Some(mended)
}

/// For 10 every count that differs is listed, and rightly: with all of them changed as listed the sheet is accepted.
#[test]
fn the_counts_listed_are_all_that_differ() {
    let mut r = Random(8);
    let mut tried = 0;
    for n in 0..20_000 {
        let file = sheets::sheet(&mut r, n % 5);
        let file = sheets::damaged(&mut r, &file);
        let Err(refusal) = zvaigulta::judge_sheet(&file, file.len()) else { continue };
        if refusal.reason != Reason::Count {
            continue;
        }
        let explained = explain(&file, refusal);
        if let Some(mended) = with_listed_counts(&file, &explained) {
            assert!(zvaigulta::judge_sheet(&mended, mended.len()).is_ok(), "case {n}: {explained:#?}");
            tried += 1;
        }
    }
    assert!(tried > 1_000, "{tried}");
}

/// A sheet of 200,000 records, refused at its end in each way: an explanation reads it a few times, not once for each record.
#[test]
fn a_large_sheet_is_explained() {
    let large = sheets::sheet_of_points(200_000);
    let last = 200_000;
    let cases: [(Vec<u8>, u64); 9] = [
        (with(large.clone(), last, 0, "X5"), 4),
        (with(large.clone(), last, 2, "    "), 5),
        (with(large.clone(), last, 20, "9"), 6),
        (with(large.clone(), last, 16, " 9"), 7),
        (with(large.clone(), last, 27, "   1"), 8),
        (with(large.clone(), last, 20, "2210 00   1   1"), 3),
        (with(large.clone(), last, 0, "E8"), 8),
        (large[..last * RECORD_BYTES - 1].to_vec(), 1),
        (without(large.clone(), 100_000, 100_000), 10),
    ];
    for (file, number) in cases {
        let refusal = zvaigulta::judge_sheet(&file, file.len()).expect_err("damaged");
        assert_eq!(refusal.number(), number, "{refusal}");
        let explained = explain(&file, refusal);
        assert!(number == 1 || explained.faults.iter().any(|fault| Some(fault.record) == refusal.record), "{explained:?}");
        assert!(number != 1 || explained.notes[0].contains("record 200000 has only 83 of its 84 bytes"), "{explained:?}");
    }
}

/// Hundreds of counts that differ are listed in part, and the others counted.
#[test]
fn a_list_of_counts_has_an_end() {
    let header = sheets::layer(&[(5, 1)]);
    let file = sheets::sheet_of(&mut Random(3), vec![header; 300], 0);
    let refusal = zvaigulta::judge_sheet(&file, file.len()).expect_err("no layer holds its point");
    let explained = explain(&file, refusal);
    assert_eq!(explained.faults.len(), 60);
    assert!(explained.notes.contains(&"60 columns are listed here, and 540 more differ".to_string()), "{:?}", explained.notes);
}
