//! Columns and corners.

use crate::Answers;
use reference::protocol::hex;
use reference::random::Random;
use reference::{column, corner};

/// A column of at most 25 bytes: most often spaces, a sign and digits.
fn some_column(r: &mut Random) -> Vec<u8> {
    let width = if r.once_in(8) { r.below(26) } else { 1 + r.below(18) };
    let mut bytes: Vec<u8> = (0..width).map(|_| b'0' + r.below(10) as u8).collect();
    let spaces = r.below(width + 1);
    bytes[..spaces].fill(b' ');
    if spaces > 0 && r.once_in(3) {
        bytes[spaces - 1] = b'-';
    }
    if r.once_in(4) {
        bytes[spaces..].fill(b'0');
    }
    if width > 0 && r.once_in(4) {
        let at = r.below(width);
        bytes[at] = if r.once_in(2) { r.word() as u8 } else { *r.pick(b" -+09/:") };
    }
    bytes
}

/// A number: small, near a power of ten, near an end, or any.
fn some_number(r: &mut Random) -> i64 {
    let near = r.between(-2, 2);
    match r.below(5) {
        0 => r.between(-1_100, 1_100),
        1 => 10i64.pow(r.below(19) as u32) + near,
        2 => -(10i64.pow(r.below(19) as u32)) + near,
        3 => *r.pick(&[i64::MIN, i64::MIN + 1, i64::MAX, i64::MAX - 1, 0, -1]),
        _ => r.word() as i64 >> r.below(64),
    }
}

fn some_unit(r: &mut Random) -> u64 {
    if r.once_in(8) {
        return *r.pick(&[0, 2, 9, 11, 998, 1_000, u64::MAX]);
    }
    *r.pick(&[1, 10, 999])
}

pub fn reading(r: &mut Random, cases: usize, answers: &mut Answers) -> Result<(), String> {
    for _ in 0..cases {
        let bytes = some_column(r);
        answers.same(|| format!("read {}", hex(&bytes)), zvaigulta::read_column(&bytes), column::read(&bytes))?;
    }
    Ok(())
}

/// The whole column is compared: a refused call leaves it as it was.
pub fn writing(r: &mut Random, cases: usize, answers: &mut Answers) -> Result<(), String> {
    for _ in 0..cases {
        let (width, value) = (r.below(21), some_number(r));
        let before = vec![b'~'; width];
        let mut ours = before.clone();
        let answer = zvaigulta::write_column(&mut ours, value);
        let expected = column::write(width, value);
        let left = expected.clone().unwrap_or(before);
        answers.same(|| format!("write {width} {value}"), answer.map(|()| ours.clone()), expected)?;
        if ours != left {
            return Err(format!("the column is {ours:?}: write {width} {value}"));
        }
    }
    Ok(())
}

pub fn joining(r: &mut Random, cases: usize, answers: &mut Answers) -> Result<(), String> {
    for _ in 0..cases {
        let unit = some_unit(r);
        let whole = if r.once_in(2) { r.between(-1_000_000, 10_000_000) } else { some_number(r) };
        let fraction = if r.once_in(2) { r.between(-101, 101) } else { some_number(r) };
        answers.same(
            || format!("join {unit} {whole} {fraction}"),
            zvaigulta::join(unit.into(), whole, fraction),
            corner::join(unit, whole, fraction),
        )?;
    }
    Ok(())
}

pub fn splitting(r: &mut Random, cases: usize, answers: &mut Answers) -> Result<(), String> {
    for _ in 0..cases {
        let unit = some_unit(r);
        let millimetres = if r.once_in(2) { 10 * r.between(-100_000_000, 1_000_000_000) } else { some_number(r) };
        let ours = zvaigulta::split(unit.into(), millimetres).map(|c| (c.whole, c.fraction));
        answers.same(|| format!("split {unit} {millimetres}"), ours, corner::split(unit, millimetres))?;
    }
    Ok(())
}
