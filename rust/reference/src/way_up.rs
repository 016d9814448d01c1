//! The way up from a record to its layer.

use crate::judge::{above, accepted};
use crate::{refuse, Refusal};

/// The record number of the header above, if there is one, and how many headers were passed.
pub fn up(buffer: &[u8], used: usize, record: u64) -> Result<(Option<usize>, usize), Refusal> {
    let (walked, counts) = accepted(buffer, used)?;
    if record <= walked.part as u64 || record > counts.records as u64 {
        return refuse(17, 0);
    }
    let place = record as usize - 1;
    let own = walked.found.iter().rposition(|f| f.place <= place).unwrap();
    let mut passed = 0;
    let mut at = own;
    while let Some(j) = above(&walked.found, at) {
        passed += 1;
        at = j;
    }
    Ok((above(&walked.found, own).map(|j| walked.found[j].place + 1), passed))
}
