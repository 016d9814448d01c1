//! The stored lists of edits: every answer among them, accepted ones common, and removals that undo insertions.

use std::collections::BTreeMap;

fn stored(name: &str) -> Vec<u8> {
    let folder = concat!(env!("CARGO_MANIFEST_DIR"), "/../../crates/edit_vectors/");
    std::fs::read(folder.to_string() + name).expect("a stored file")
}

fn answers() -> Vec<String> {
    String::from_utf8(stored("stdout")).expect("text").lines().map(str::to_string).collect()
}

/// The lines of calls, in order: the word and whether it is followed by bytes stand in the input, the answers in the output.
fn words() -> Vec<String> {
    let stdin = stored("stdin");
    let mut rest = &stdin[..];
    let mut words = Vec::new();
    while rest.len() >= 24 {
        let head = String::from_utf8(rest[..24].to_vec()).expect("a line");
        let length: usize = head[18..23].parse().expect("a length");
        rest = &rest[24 + length..];
        if !head.starts_with("start") {
            words.push(head[..7].trim_end().to_string());
        }
    }
    words
}

#[test]
fn every_answer_is_among_them() {
    let mut seen: BTreeMap<(String, u8), usize> = BTreeMap::new();
    let (words, answers) = (words(), answers());
    assert_eq!(words.len(), answers.len());
    for (word, answer) in words.into_iter().zip(&answers) {
        let number =
            answer.strip_prefix("no ").and_then(|rest| rest.split(' ').next()).map_or(0, |n| n.parse().expect("a number"));
        *seen.entry((word, number)).or_default() += 1;
    }
    let times = |word: &str, number: u8| seen.get(&(word.to_string(), number)).copied().unwrap_or(0);
    assert!((0..=15).all(|n| times("insert", n) > 0), "{seen:?}");
    assert!((0..=11).all(|n| times("remove", n) > 0), "{seen:?}");
    assert!((0..=10).chain([17]).all(|n| times("up", n) > 0), "{seen:?}");
    let edits: usize = seen.iter().filter(|((word, _), _)| word == "insert" || word == "remove").map(|(_, n)| n).sum();
    assert!(3 * (times("insert", 0) + times("remove", 0)) >= edits, "{seen:?}");
    assert!(times("insert", 0) >= 200 && times("remove", 0) >= 200, "{seen:?}");
}

/// The first list: each pair of an edit and the one that undoes it leaves the first digest.
#[test]
fn undone_edits_leave_the_first_digest() {
    let answers = answers();
    let digest = answers[0].strip_prefix("no 11 0 ").expect("a refusal that changes nothing");
    for undone in [2, 5, 9] {
        assert_eq!(answers[undone], format!("ok 756 {digest}"));
    }
    assert_eq!(answers[11], format!("end {digest}"));
}
