//! The idiomatic judge that the benchmark measures against gives the reference's answers.

use bench::idiomatic;
use reference::random::Random;
use reference::{judge, sheets, RECORD};

#[test]
fn the_idiomatic_judge_answers_as_the_reference() {
    let mut r = Random(99);
    for n in 0..30_000 {
        let mut file = sheets::sheet(&mut r, n % 5);
        for _ in 0..r.below(3) {
            if !file.is_empty() {
                file = sheets::damaged(&mut r, &file);
            }
        }
        let used = if r.once_in(40) { *r.pick(&[0, 1, file.len() + 1, 200_001 * RECORD]) } else { file.len() };
        assert_eq!(idiomatic::judge_sheet(&file, used), judge::sheet(&file, used), "case {n}");
    }
}
