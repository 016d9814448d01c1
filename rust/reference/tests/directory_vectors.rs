//! The stored calls on sheets with a directory: every answer of each call is among them.

use std::collections::BTreeMap;

fn stored(name: &str) -> Vec<u8> {
    let folder = concat!(env!("CARGO_MANIFEST_DIR"), "/../../crates/directory_vectors/");
    std::fs::read(folder.to_string() + name).expect("a stored file")
}

/// The words of the calls, in order.
fn words() -> Vec<String> {
    let stdin = stored("stdin");
    let mut rest = &stdin[..];
    let mut words = Vec::new();
    while rest.len() >= 39 {
        let head = String::from_utf8(rest[..39].to_vec()).expect("a line");
        let length: usize = head[32..38].parse().expect("a length");
        rest = &rest[39 + length..];
        words.push(head[..10].trim_end().to_string());
    }
    assert!(rest.is_empty());
    words
}

#[test]
fn every_answer_is_among_them() {
    let answers = String::from_utf8(stored("stdout")).expect("text");
    let words = words();
    assert_eq!(words.len(), answers.lines().count());
    let mut seen: BTreeMap<(&str, u8), usize> = BTreeMap::new();
    for (word, answer) in words.iter().zip(answers.lines()) {
        let number = answer.strip_prefix("no ").and_then(|rest| rest.split(' ').next());
        *seen.entry((word, number.map_or(0, |n| n.parse().expect("a number")))).or_default() += 1;
    }
    let due = |word: &'static str, last: &[u8]| (0..=10).chain(last.to_vec()).map(move |n| (word, n)).collect::<Vec<_>>();
    let old = [due("append", &[15]), due("directory", &[19]), due("jump", &[17, 19])].concat();
    let new = [due("second", &[15]), due("either", &[19, 27]), due("layer", &[17, 19, 27])].concat();
    let mut due: Vec<(&str, u8)> = [old, new].concat();
    due.sort();
    assert!(due.iter().all(|answer| seen.get(answer).is_some_and(|times| *times >= 2)), "{seen:?}");
    assert_eq!(seen.into_keys().collect::<Vec<_>>(), due, "no other answer");
}
