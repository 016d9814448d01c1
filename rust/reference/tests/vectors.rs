//! The stored vectors are what the reference makes from their seeds and answers, to the byte. docs/ARCHITECTURE.md, "The reference", has the
//! commands that make them anew.

use reference::vectors::{directories, edits, files, leaves, lines};

fn stored(name: &str) -> Vec<u8> {
    let path = concat!(env!("CARGO_MANIFEST_DIR"), "/../../crates/").to_string() + name;
    std::fs::read(&path).unwrap_or_else(|e| panic!("crates/{name}: {e}"))
}

/// Says the first line in which a stored file differs from what the reference has, with the bytes around the place.
fn same(name: &str, expected: &[u8]) {
    let stored = stored(name);
    if stored == expected {
        return;
    }
    let differs = stored.iter().zip(expected).position(|(a, b)| a != b);
    let at = differs.unwrap_or(stored.len().min(expected.len()));
    let line = 1 + stored[..at].iter().filter(|b| **b == b'\n').count();
    let start = stored[..at].iter().rposition(|b| *b == b'\n').map_or(0, |end| end + 1);
    let near =
        |bytes: &[u8]| String::from_utf8_lossy(&bytes[start.max(at.saturating_sub(40))..bytes.len().min(at + 40)]).into_owned();
    panic!(
        "crates/{name} is not the reference's, first in line {line}, byte {}:\n  stored    {:?}\n  reference {:?}",
        at - start + 1,
        near(&stored),
        near(expected)
    );
}

#[test]
fn leaf_vectors() {
    same("leaf_vectors/stdin", &leaves::make(1, 900));
    same("leaf_vectors/stdout", &leaves::answer(&stored("leaf_vectors/stdin")));
}

#[test]
fn file_vectors() {
    same("file_vectors/stdin", &files::make(5));
    same("file_vectors/stdout", &files::answer(&stored("file_vectors/stdin")));
}

#[test]
fn edit_vectors() {
    same("edit_vectors/stdin", &edits::make(6));
    same("edit_vectors/stdout", &edits::answer(&stored("edit_vectors/stdin")));
}

#[test]
fn line_vectors() {
    same("line_vectors/stdin", &lines::make(9));
    same("line_vectors/stdout", &lines::answer(&stored("line_vectors/stdin")));
}

#[test]
fn directory_vectors() {
    same("directory_vectors/stdin", &directories::make(16));
    same("directory_vectors/stdout", &directories::answer(&stored("directory_vectors/stdin")));
}
