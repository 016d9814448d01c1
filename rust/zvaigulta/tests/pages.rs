//! The pages for readers say what the library does: the columns in docs/FORMAT.md, the refusals in docs/REFUSALS.md, the theorem and the programs in README.md; and no line
//! of theirs is longer than 150 characters.

use std::fs;
use std::path::{Path, PathBuf};
use std::process::Command;
use zvaigulta::layout::{Column, Content, Layout, ALL, DIRECTORY, DIRECTORY_END, SECOND_DIRECTORY, SECOND_DIRECTORY_END};
use zvaigulta::Reason;

fn root() -> PathBuf {
    Path::new(env!("CARGO_MANIFEST_DIR")).join("../..")
}

fn page(name: &str) -> String {
    fs::read_to_string(root().join(name)).unwrap_or_else(|e| panic!("{name}: {e}"))
}

/// What stands in a column, in words.
fn content(column: &Column) -> String {
    match column.content {
        Content::Text => "text".to_string(),
        Content::Blank => "blank".to_string(),
        Content::Integer(allowed) => format!("integer, {allowed}"),
        Content::IntegerOrSpaces => "integer of any sign, or spaces".to_string(),
    }
}

/// A layout as docs/FORMAT.md shows it: a line a column.
fn table(layout: &Layout) -> String {
    let line = |column: &Column| {
        let (first, last) = (column.start + 1, column.start + column.width);
        let bytes = if first == last { first.to_string() } else { format!("{first}-{last}") };
        format!("    {bytes:<7}{:<20}{}\n", column.name, content(column))
    };
    layout.columns.iter().map(line).collect()
}

#[test]
fn every_column_of_every_layout() {
    let format = page("docs/FORMAT.md");
    for layout in ALL.into_iter().chain([&DIRECTORY, &DIRECTORY_END, &SECOND_DIRECTORY, &SECOND_DIRECTORY_END]) {
        assert!(format.contains(&table(layout)), "docs/FORMAT.md: {} must be\n{}", layout.name, table(layout));
    }
}

#[test]
fn every_refusal_with_its_words() {
    let (refusals, readme) = (page("docs/REFUSALS.md"), page("README.md"));
    for number in (1..=19).chain([27]) {
        let reason = Reason::from_number(number);
        assert!(refusals.contains(&format!("## {number}. ")) && refusals.contains(&reason.to_string()), "{number}: {reason}");
    }
    for number in (20..=26).chain([28]) {
        assert!(!refusals.contains(&format!("## {number}. ")) || Reason::from_number(number) != Reason::Other(number));
    }
    assert!(readme.contains("docs/REFUSALS.md") && readme.contains("docs/FORMAT.md"));
}

/// The theorem that README.md prints is the one that the check proves, line for line. A line that is too long for the page goes on in the next, set
/// in by four spaces.
#[test]
fn the_theorem_as_it_is_proved() {
    let readme = page("README.md");
    let sources = page("crates/format/specs/Run.antt") + &page("crates/format/proofs/Claims.antt");
    let theorem = readme.split("```antt\n").nth(1).and_then(|rest| rest.split("```").next()).expect("the theorem");
    assert!(theorem.contains("runs : ") && theorem.contains("record Runs "));
    let theorem = theorem.replace("\n    ", " ");
    for line in theorem.lines().filter(|line| !line.trim().is_empty() && line.trim() != "..") {
        assert!(sources.lines().any(|source| source == line), "no such line: {line}");
    }
}

/// A program that README.md prints in a language.
fn program(language: &str) -> String {
    let start = format!("```{language}\n");
    page("README.md").split(&start).nth(1).and_then(|rest| rest.split("```").next()).expect(language).to_string()
}

/// The program for C, compiled and run; the one for Rust is an example that the tests run.
#[test]
fn the_programs_for_c_and_rust() {
    let example = page("rust/zvaigulta/examples/judge.rs");
    assert!(example.ends_with(&program("rust")), "README.md and examples/judge.rs differ");
    let (source, built) = ["readme.c", "readme"].map(|name| Path::new(env!("CARGO_TARGET_TMPDIR")).join(name)).into();
    fs::write(&source, program("c")).expect("a file");
    let strict = ["-std=c99", "-Wall", "-Wextra", "-Werror", "-pedantic", "-Iinclude"];
    let mut gcc = Command::new("gcc");
    gcc.current_dir(root()).args(strict).arg(&source).arg("crates/c_interface/out/libc_interface.a").arg("-o").arg(&built);
    assert!(gcc.status().expect("this test needs gcc: install gcc").success());
    let sheet = fs::File::open(root().join("crates/dm/stdin")).expect("a sheet");
    let done = Command::new(&built).stdin(sheet).output().expect("it runs");
    assert_eq!((done.status.code(), String::from_utf8_lossy(&done.stdout).as_ref()), (Some(0), "accepted: 9 records, 1 items\n"));
}

#[test]
fn no_line_is_too_long() {
    for name in [
        "README.md",
        "docs/FORMAT.md",
        "docs/REFUSALS.md",
        "docs/TOOL.md",
        "docs/DECISIONS.md",
        "docs/ARCHITECTURE.md",
        "docs/PERFORMANCE.md",
        "docs/PROMISES.md",
    ] {
        for (place, line) in page(name).lines().enumerate() {
            assert!(line.chars().count() <= 150, "{name}:{}: {} characters", place + 1, line.chars().count());
        }
    }
}
