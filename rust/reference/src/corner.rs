//! Corners: whole metres and a fraction, and their millimetres.

use crate::{refuse, Refusal};

/// The fraction's largest size and its millimetres, by the unit.
fn scale(unit: u64) -> Option<(i64, i64)> {
    match unit {
        1 => Some((999, 1)),
        10 | 999 => Some((99, 10)),
        _ => None,
    }
}

/// A fraction that goes with its whole: neither too large nor of opposite sign.
pub fn goes_with(unit: u64, whole: i64, fraction: i64) -> bool {
    let (most, _) = scale(unit).unwrap();
    -most <= fraction && fraction <= most && whole.signum() * fraction.signum() >= 0
}

/// Whole and fraction joined to millimetres.
pub fn join(unit: u64, whole: i64, fraction: i64) -> Result<i64, Refusal> {
    let Some((_, each)) = scale(unit) else {
        return refuse(16, 0);
    };
    if !(-999_999..=9_999_999).contains(&whole) || !(-999..=9_999).contains(&fraction) {
        return refuse(16, 0);
    }
    if !goes_with(unit, whole, fraction) {
        return refuse(9, 0);
    }
    Ok(whole * 1000 + fraction * each)
}

/// The one pair that joins to the millimetres. Looked for among the few pairs near the number.
pub fn split(unit: u64, millimetres: i64) -> Result<(i64, i64), Refusal> {
    let Some((most, each)) = scale(unit) else {
        return refuse(16, 0);
    };
    for whole in [millimetres / 1000 - 1, millimetres / 1000, millimetres / 1000 + 1] {
        let Some(rest) = whole.checked_mul(1000).and_then(|w| millimetres.checked_sub(w)) else {
            continue;
        };
        if rest % each == 0 && (rest / each).abs() <= most && join(unit, whole, rest / each) == Ok(millimetres) {
            return Ok((whole, rest / each));
        }
    }
    refuse(16, 0)
}
