//! Number columns, tried out: every short one of the bytes that matter, and every byte in every place of longer ones.

use differential::{every_byte_of_a_column, every_short_column};

/// Columns of a width from 1 over the alphabet that hold a number: so many digits out of three behind spaces; or behind a minus, where zeros alone are
/// none.
fn with_a_number(width: u32) -> usize {
    let plain: usize = (1..=width).map(|digits| 3usize.pow(digits)).sum();
    let below: usize = (1..width).map(|digits| 3usize.pow(digits) - 1).sum();
    plain + below
}

/// How many of them hold a number is counted here without the reference, so both cannot be wrong in the same way.
#[test]
fn no_difference_in_every_short_column() {
    let answers = every_short_column().unwrap();
    let numbers: usize = (1..=6).map(with_a_number).sum();
    let columns: usize = (1..=6).map(|width| 8usize.pow(width)).sum();
    assert_eq!(answers.0.into_iter().collect::<Vec<_>>(), [(0, numbers), (5, columns - numbers), (16, 1)]);
}

/// A width has a shape for each number of digits, and with a minus one less; three columns of each; 256 bytes in each of its places. Of 19 bytes all
/// are refused for their width, whatever they hold.
#[test]
fn no_difference_in_every_byte_of_longer_columns() {
    let answers = every_byte_of_a_column(4).unwrap();
    let columns = |width: usize| 3 * (2 * width - 1) * width * 256;
    assert_eq!(answers.0.values().sum::<usize>(), (7..=19).map(columns).sum());
    assert_eq!(answers.0.get(&16), Some(&columns(19)), "{:?}", answers.0);
    assert!(answers.have(&[0, 5]) && answers.0.len() == 3, "{:?}", answers.0);
}
