//! The readers that the proved one is measured against give the reference's answers: they are right programs.

use bench::readers::{by_flags, by_library, by_phases};
use reference::column;
use reference::random::Random;
use zvaigulta::Refusal;

type Reader = fn(&[u8]) -> Result<i64, Refusal>;

const READERS: [(&str, Reader); 3] = [("phases", by_phases), ("flags", by_flags), ("library", by_library)];

/// Holds each reader to the reference on a column; answers the reference's refusal number, 0 for none.
fn right(column: &[u8]) -> u64 {
    let expected = column::read(column).map_err(|refusal| (u64::from(refusal.number), refusal.record));
    for (name, read) in READERS {
        let answer = read(column).map_err(|refusal| (refusal.number(), refusal.record.unwrap_or(0)));
        assert_eq!(answer, expected, "{name}: {:?}", column.escape_ascii().to_string());
    }
    expected.map_or_else(|(number, _)| number, |_| 0)
}

/// Five bytes and fewer, of a space, both signs, digits and the neighbours of the digits.
#[test]
fn short_columns_in_every_form() {
    for width in 0..=5 {
        for nth in 0..8usize.pow(width as u32) {
            right(&(0..width).map(|i| b" -+019/:"[nth >> (3 * i) & 7]).collect::<Vec<_>>());
        }
    }
}

/// Spaces, a minus or none, digits or zeros to the last byte; one in three with a byte that is any, or one that stands elsewhere in a column.
fn some_column(r: &mut Random) -> Vec<u8> {
    let width = r.below(21);
    let digits = r.below(width + 1);
    let sign = if digits < width { *r.pick(&["", "-"]) } else { "" };
    let most = *r.pick(&[1, 10]);
    let text: String = (0..digits).map(|_| char::from(b'0' + r.below(most) as u8)).collect();
    let mut column = format!("{:>width$}", format!("{sign}{text}")).into_bytes();
    if width > 0 && r.once_in(3) {
        let (at, any) = (r.below(width), r.word() as u8);
        column[at] = *r.pick(&[any, b' ', b'-', b'+', b'0']);
    }
    column
}

#[test]
fn columns_of_every_width() {
    let mut r = Random(3);
    let mut answers = [0; 17];
    (0..300_000).for_each(|_| answers[right(&some_column(&mut r)) as usize] += 1);
    assert!([0, 5, 16].iter().all(|number| answers[*number] > 10_000), "{answers:?}");
}

/// Bytes that are no text, and text of more bytes than letters.
#[test]
fn every_byte_and_wide_letters() {
    (0..=255).for_each(|byte| assert_eq!(right(&[byte]) == 0, byte.is_ascii_digit()));
    for text in ["１２", "\u{3000}1", "−1", "٣", "\u{a0}7", "1é"] {
        assert_eq!(right(text.as_bytes()), 5);
    }
}
