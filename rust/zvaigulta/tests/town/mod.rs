//! A small sheet and a small index that are accepted, for tests that damage or edit them.
#![allow(dead_code)]

pub mod damage;

use zvaigulta::{Edition, RECORD_BYTES};

/// A sheet: two layers, the first with a group; every kind of data, a grid and a net.
const SHEET: [&str; 28] = [
    "M 09LD1234North town            500Town plan                      010               ",
    "  -1234   5678   -934   5978        8     22  1   -934   5678  -1234   5978         ",
    "09LD123309LD1235                                                                    ",
    "2408240721Plotter                       Approval 1                    100           ",
    "Survey office                            -56  50   0   0   0  50 -56   0            ",
    "C1  2406 40001   1  12C2  2406 40001  13  24            00   0   0                  ",
    "H 2100 0   0   0 1    3    1    0    1    0    0    0    0    1    002408         0 ",
    "E22101 0   0   1 2 02210 00   7   2      0      0        0       2408              1",
    "      0      0   1000      0   2000   -500   3000      0   4000      0   5000      0",
    "   6000      0                                                                      ",
    "E72102 0   0   2 2 04211 00   5   1    100    200        0       2408              1",
    "0     30   20    2 1River                                                           ",
    "H 2110 0   0   0 2    2    0    0    0    0    0    1    0    0    102408         0 ",
    "E52111 0   0   3 3 02210 00   1   1      0      0        0       2408              1",
    "    500    600                                                                      ",
    "E82112 0   0   4 3 05210 00   2   2      0      0        0       2408              1",
    "owner: city                                                                         ",
    "built: 1998                                                                         ",
    "H 2200 0   0   0 1    4    0    0    1    0    0    1    0    0    022408         0 ",
    "E22201 0   0   5 2 03210 00   2   1      0      0        0       2408              1",
    "     10     20     30     40     50     60                                          ",
    "E52202 0   0   6 2 00210 00   0   0    700    800        0       2408              1",
    "G 2203 0   0   7 2   2   7   2    500    500      0      02408         0 0         1",
    "    101    102    103    104    105    106    107    108    109    110    111    112",
    "    113    114                                                                      ",
    "T 2204 0   0   8 2 0     2     22408         0                                      ",
    "      0      0      1     10      0      2      0     10      3      0      0      1",
    "     10      0      2     10     10      4                                          ",
];

/// An index of twelve sheets and two classes.
const INDEX: [&str; 5] = [
    "I  9City survey office             12 2   2002008Regulation                    10   ",
    "09LD123409LD123509LD123609LD123709LD123809LD123909LD124009LD124109LD124209LD1243    ",
    "09LD124409LD1245                                                                    ",
    "2101210101000000002Road edge                                                        ",
    "2201220101000000002Bridge                                                           ",
];

/// The records of the sheet.
pub fn sheet() -> Vec<u8> {
    SHEET.concat().into_bytes()
}

/// The records of the index.
pub fn index() -> Vec<u8> {
    INDEX.concat().into_bytes()
}

/// A file with other bytes in a record, from a byte on that is counted from 0.
pub fn with(mut file: Vec<u8>, record: usize, start: usize, text: &str) -> Vec<u8> {
    let at = (record - 1) * RECORD_BYTES + start;
    file[at..at + text.len()].copy_from_slice(text.as_bytes());
    file
}

/// A file without some of its records.
pub fn without(mut file: Vec<u8>, from: usize, to: usize) -> Vec<u8> {
    file.drain((from - 1) * RECORD_BYTES..to * RECORD_BYTES);
    file
}

/// A file with some of its records twice.
pub fn twice(mut file: Vec<u8>, from: usize, to: usize) -> Vec<u8> {
    let again = file[(from - 1) * RECORD_BYTES..to * RECORD_BYTES].to_vec();
    file.splice(to * RECORD_BYTES..to * RECORD_BYTES, again);
    file
}

/// A file with bytes put in, or taken out, at a byte of a record that is counted from 0.
pub fn shifted(mut file: Vec<u8>, record: usize, start: usize, out: usize, new: &[u8]) -> Vec<u8> {
    let at = (record - 1) * RECORD_BYTES + start;
    file.splice(at..at + out, new.iter().copied());
    file
}

/// A file with something behind each of its records.
pub fn ended(file: &[u8], end: &[u8]) -> Vec<u8> {
    file.chunks(RECORD_BYTES).flat_map(|record| [record, end].concat()).collect()
}

/// A sheet with the directory of its layers, of the first edition.
pub fn filed(sheet: &[u8]) -> Vec<u8> {
    filed_in(Edition::First, sheet)
}

/// A sheet with the directory of its layers, of an edition.
pub fn filed_in(edition: Edition, sheet: &[u8]) -> Vec<u8> {
    zvaigulta::Sheet::from(sheet.to_vec()).with_edition(edition).expect("an accepted sheet")
}

/// A sheet of so many layers, all empty.
pub fn layered(layers: usize) -> Vec<u8> {
    let header = "H 2100 0   0   0 1    0    0    0    0    0    0    0    0    0    002408         0 ";
    let part = SHEET[..6].concat() + &header.repeat(layers);
    with(part.into_bytes(), 2, 31, &format!("     0{layers:7}"))
}
