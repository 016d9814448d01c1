//! Every byte of a small file replaced by every other byte, every pair of bytes for a line end, every pointer and every edition of a directory.

use crate::directories::{Calls, NEW_CALLS, OLD_CALLS};
use crate::{files, lines, Answers};
use reference::lines::{with_ends, LINE};
use reference::random::Random;
use reference::{sheets, RECORD};

/// Judges a file, whole, by both.
type Judge = fn(bool, &[u8], usize, &mut Answers) -> Result<(), String>;

fn every_byte(judge: Judge, sheet: bool, file: &[u8]) -> Result<Answers, String> {
    let mut answers = Answers::default();
    let mut twin = file.to_vec();
    for at in 0..file.len() {
        for byte in 0..=255 {
            twin[at] = byte;
            judge(sheet, &twin, twin.len(), &mut answers)?;
        }
        twin[at] = file[at];
    }
    Ok(answers)
}

/// The first of these files that has at most so many records and at least half as many.
fn small(most: usize, mut draw: impl FnMut() -> Vec<u8>) -> Vec<u8> {
    loop {
        let file = draw();
        let records = file.len() / RECORD;
        if most / 2 <= records && records <= most {
            return file;
        }
    }
}

/// Some sheet of 10 to 20 records.
pub fn every_byte_of_a_sheet(seed: u64) -> Result<Answers, String> {
    let mut r = Random(seed);
    every_byte(files::judge, true, &small(20, || sheets::sheet(&mut r, 2)))
}

/// Some index of 4 to 8 records.
pub fn every_byte_of_an_index(seed: u64) -> Result<Answers, String> {
    let mut r = Random(seed);
    every_byte(files::judge, false, &small(8, || sheets::index(&mut r)))
}

/// Some sheet of 8 to 16 records, with line ends.
pub fn every_byte_of_lines(seed: u64) -> Result<Answers, String> {
    let mut r = Random(seed);
    every_byte(lines::judge, true, &with_ends(&small(16, || sheets::sheet(&mut r, 2))))
}

/// Some index of 4 to 8 records with line ends: every pair of bytes at the end of its first, its third and its last record.
pub fn every_line_end(seed: u64) -> Result<Answers, String> {
    let mut r = Random(seed);
    let file = with_ends(&small(8, || sheets::index(&mut r)));
    let mut answers = Answers::default();
    for nth in [0, 2, file.len() / LINE - 1] {
        let mut twin = file.clone();
        for pair in 0..=u16::MAX {
            twin[nth * LINE + RECORD..][..2].copy_from_slice(&pair.to_be_bytes());
            lines::judge(false, &twin, twin.len(), &mut answers)?;
            lines::without_ends(&twin, &mut answers)?;
        }
    }
    Ok(answers)
}

/// The sheet with a directory of the calls' edition behind it.
fn with_directory(calls: &Calls, sheet: &[u8]) -> Vec<u8> {
    let mut file = sheet.to_vec();
    file.resize(2 * sheet.len() + RECORD, b' ');
    let used = calls.edition.append(&mut file, sheet.len()).expect("an accepted sheet");
    file.truncate(used);
    file
}

/// Every byte of the records of a sheet's directory.
fn every_byte_behind(calls: &Calls, sheet: &[u8]) -> Result<Answers, String> {
    let mut file = with_directory(calls, sheet);
    let mut answers = Answers::default();
    for (at, byte) in (sheet.len()..file.len()).flat_map(|at| (0..=255).map(move |byte| (at, byte))) {
        let before = std::mem::replace(&mut file[at], byte);
        calls.judged(&file, file.len(), &mut answers)?;
        file[at] = before;
    }
    Ok(answers)
}

/// Every pointer from below 0 to past the file, with the right count and those around it.
fn every_pointer_by(calls: &Calls, sheet: &[u8]) -> Result<Answers, String> {
    let file = with_directory(calls, sheet);
    let last = file.len() - RECORD;
    let mut answers = Answers::default();
    let pointers = -2..=(file.len() / RECORD + 3) as i64;
    for (pointer, count) in pointers.flat_map(|pointer| (-2..=5).map(move |count| (pointer, count))) {
        let twin = [&file[..last], &calls.edition.closing(pointer, count)].concat();
        calls.judged(&twin, twin.len(), &mut answers)?;
    }
    Ok(answers)
}

/// A sheet of twelve empty layers: every byte of the three records of its directory.
pub fn every_byte_of_a_directory(seed: u64) -> Result<Answers, String> {
    every_byte_behind(&OLD_CALLS, &sheets::sheet_of(&mut Random(seed), vec![sheets::layer(&[]); 12], 0))
}

/// Some sheet of 10 to 20 records with its directory: every pointer.
pub fn every_pointer(seed: u64) -> Result<Answers, String> {
    let mut r = Random(seed);
    every_pointer_by(&OLD_CALLS, &small(20, || sheets::sheet(&mut r, 2)))
}

/// Some sheet of four layers, with items and groups: every byte of the three records of its directory, by the new call.
pub fn every_byte_of_the_second_edition(seed: u64) -> Result<Answers, String> {
    let mut r = Random(seed);
    every_byte_behind(&NEW_CALLS, &small(30, || sheets::sheet_with_layers(&mut r, 4, 2)))
}

/// Some sheet of 10 to 20 records with its directory of the second edition: every pointer.
pub fn every_pointer_of_the_second_edition(seed: u64) -> Result<Answers, String> {
    let mut r = Random(seed);
    every_pointer_by(&NEW_CALLS, &small(20, || sheets::sheet(&mut r, 2)))
}

/// Some sheet of 10 to 20 records with its directory of the second edition: every pair of bytes at the end of the edition column.
pub fn every_edition(seed: u64) -> Result<Answers, String> {
    let mut r = Random(seed);
    let mut file = with_directory(&NEW_CALLS, &small(20, || sheets::sheet(&mut r, 2)));
    let column = file.len() - RECORD + 21;
    let mut answers = Answers::default();
    for pair in 0..=u16::MAX {
        file[column..column + 2].copy_from_slice(&pair.to_be_bytes());
        NEW_CALLS.judged(&file, file.len(), &mut answers)?;
    }
    Ok(answers)
}
