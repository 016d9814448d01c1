//! Every short column over the bytes that matter, and longer ones of every shape with every byte in every place.

use crate::Answers;
use reference::column;
use reference::protocol::hex;
use reference::random::Random;

/// A space, the signs, the least, another and the greatest digit, and the bytes behind and before the digits.
const ALPHABET: [u8; 8] = *b" -+019:/";

/// Reads a column by both.
fn read(column: &[u8], answers: &mut Answers) -> Result<(), String> {
    answers.same(|| format!("read {}", hex(column)), zvaigulta::read_column(column), column::read(column))
}

/// Every column of the alphabet with a width.
fn every_column(width: u32, answers: &mut Answers) -> Result<(), String> {
    (0..8usize.pow(width)).try_for_each(|nth| {
        let column: Vec<u8> = (0..width).map(|i| ALPHABET[nth >> (3 * i) & 7]).collect();
        read(&column, answers)
    })
}

/// Every column of 0 to 6 bytes of the alphabet.
pub fn every_short_column() -> Result<Answers, String> {
    let mut answers = Answers::default();
    (0..=6).try_for_each(|width| every_column(width, &mut answers))?;
    Ok(answers)
}

/// The shapes of a width: spaces, a minus or none, then one digit or more; each with zeros, with nines and with some digits.
fn shapes(r: &mut Random, width: usize) -> Vec<Vec<u8>> {
    let mut all = Vec::new();
    for (sign, digits) in (1..=width).map(|digits| ("", digits)).chain((1..width).map(|digits| ("-", digits))) {
        let some: String = (0..digits).map(|_| char::from(b'0' + r.below(10) as u8)).collect();
        let texts = ["0".repeat(digits), "9".repeat(digits), some];
        all.extend(texts.map(|text| format!("{:>width$}", format!("{sign}{text}")).into_bytes()));
    }
    all
}

fn every_byte(mut column: Vec<u8>, answers: &mut Answers) -> Result<(), String> {
    for (at, byte) in (0..column.len()).flat_map(|at| (0..=255).map(move |byte| (at, byte))) {
        let before = std::mem::replace(&mut column[at], byte);
        read(&column, answers)?;
        column[at] = before;
    }
    Ok(())
}

/// Every byte of every shape, of 7 to 19 bytes: the last width is none.
pub fn every_byte_of_a_column(seed: u64) -> Result<Answers, String> {
    let mut r = Random(seed);
    let mut answers = Answers::default();
    for width in 7..=19 {
        shapes(&mut r, width).into_iter().try_for_each(|column| every_byte(column, &mut answers))?;
    }
    Ok(answers)
}
