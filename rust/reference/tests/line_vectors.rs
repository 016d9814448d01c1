//! The stored calls on files with line ends: every answer of each call is among them.

use std::collections::BTreeMap;

fn stored(name: &str) -> Vec<u8> {
    let folder = concat!(env!("CARGO_MANIFEST_DIR"), "/../../crates/line_vectors/");
    std::fs::read(folder.to_string() + name).expect("a stored file")
}

/// The words of the calls, in order.
fn words() -> Vec<String> {
    let stdin = stored("stdin");
    let mut rest = &stdin[..];
    let mut words = Vec::new();
    while rest.len() >= 31 {
        let head = String::from_utf8(rest[..31].to_vec()).expect("a line");
        let length: usize = head[17..23].parse().expect("a length");
        rest = &rest[31 + length..];
        words.push(head[..6].trim_end().to_string());
    }
    assert!(rest.is_empty());
    words
}

#[test]
fn every_answer_is_among_them() {
    let answers = String::from_utf8(stored("stdout")).expect("text");
    let words = words();
    assert_eq!(words.len(), answers.lines().count());
    let mut seen: BTreeMap<(&str, u8), usize> = BTreeMap::new();
    for (word, answer) in words.iter().zip(answers.lines()) {
        let number = answer.strip_prefix("no ").and_then(|rest| rest.split(' ').next());
        *seen.entry((word, number.map_or(0, |n| n.parse().expect("a number")))).or_default() += 1;
    }
    let all = |word: &str, numbers: &[u8]| numbers.iter().all(|n| seen.get(&(word, *n)).is_some_and(|times| *times >= 2));
    assert!(all("sheet", &[0, 1, 2, 3, 4, 5, 6, 7, 8, 9, 10, 18]), "{seen:?}");
    assert!(all("index", &[0, 1, 2, 3, 5, 6, 10, 18]), "{seen:?}");
    assert!(all("to", &[0, 1, 15]), "{seen:?}");
    assert!(all("from", &[0, 1, 15, 18]), "{seen:?}");
    let numbers = seen.keys().filter(|(word, number)| matches!(*word, "to" | "from") && ![0, 1, 15, 18].contains(number));
    assert_eq!(numbers.count(), 0, "{seen:?}");
}
