//! The programs of `examples/` run, and print what their readers expect.

use std::path::Path;
use std::process::Command;

/// What an example prints. Cargo builds the examples beside the tests.
fn printed(name: &str, words: &[&str]) -> String {
    let tests = std::env::current_exe().expect("this test");
    let built = tests.parent().and_then(Path::parent).expect("the folder of the build").join("examples").join(name);
    let done = Command::new(&built).args(words).output();
    let done = done.unwrap_or_else(|e| panic!("{} could not be run ({e}): cargo build --examples makes it", built.display()));
    assert!(done.status.success(), "{name}: {}", String::from_utf8_lossy(&done.stderr));
    String::from_utf8(done.stdout).expect("text")
}

#[test]
fn judging_a_file() {
    let sheet = concat!(env!("CARGO_MANIFEST_DIR"), "/../../crates/dm/stdin");
    assert_eq!(printed("judge", &[sheet]), "accepted 9 records 1 items\n");
    let text = printed("judge", &[concat!(env!("CARGO_MANIFEST_DIR"), "/Cargo.toml")]);
    assert!(text.starts_with("refused 1: ") && text.lines().count() > 1, "{text}");
}

#[test]
fn editing_a_sheet() {
    let lines = [
        "accepted 9 records 1 items; the first is a line E2 at record 7",
        "with a copy at the end: accepted 12 records 2 items",
        "the header above it is record 6",
        "without it: accepted 9 records 1 items",
    ];
    assert_eq!(printed("edit", &[]), lines.join("\n") + "\n");
}

#[test]
fn a_directory_of_layers() {
    let lines = ["accepted 9 records 1 items; 11 records with its directory", "layer 1: records 6 to 9, class 2100, items: 1"];
    assert_eq!(printed("layers", &[]), lines.join("\n") + "\n");
}

#[test]
fn reading_corners() {
    let lines =
        ["lower left X: -1234056 mm", "lower left Y: 5678050 mm", "upper right X: -934000 mm", "upper right Y: 5978000 mm"];
    assert_eq!(printed("corners", &[]), lines.join("\n") + "\n");
}
