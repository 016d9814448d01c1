//! The examples of docs/TOOL.md, run as they stand there: each prints what the page says.

mod support;

use std::fs;
use std::path::Path;
use std::process::Command;
use support::{block, damaged, ended, filed, filed_second, good, run, with, Folder};

/// The examples: a command behind `$`, and the lines below it.
fn examples(page: &str) -> Vec<(&str, Vec<&str>)> {
    let mut found: Vec<(&str, Vec<&str>)> = Vec::new();
    let mut open = false;
    for line in page.lines() {
        match (line.strip_prefix("    $ "), line.strip_prefix("    "), found.last_mut()) {
            (Some(command), _, _) => found.push((command, Vec::new())),
            (_, Some(text), Some((_, lines))) if open => lines.push(text),
            _ => {}
        }
        open = line.starts_with("    ") && (open || line.starts_with("    $ "));
    }
    found
}

/// Whether lines are as expected, where `...` stands for any lines and, inside a line, for any text.
fn fits(lines: &[&str], expected: &[&str]) -> bool {
    match (lines, expected) {
        ([], []) => true,
        (_, [any, rest @ ..]) if any.trim() == "..." => (0..=lines.len()).any(|skipped| fits(&lines[skipped..], rest)),
        ([line, lines @ ..], [text, rest @ ..]) => line_fits(line, text) && fits(lines, rest),
        _ => false,
    }
}

fn line_fits(line: &str, expected: &str) -> bool {
    let mut parts = expected.split("...");
    let Some(mut left) = parts.next().and_then(|start| line.strip_prefix(start)) else { return false };
    let parts: Vec<&str> = parts.collect();
    for part in &parts {
        let Some(at) = left.find(part) else { return false };
        left = &left[at + part.len()..];
    }
    left.is_empty() || parts.last() == Some(&"")
}

/// A sheet of two layers, each with a line.
fn plan() -> Vec<u8> {
    let layer = with(good()[5 * 84..].to_vec(), 1, 2, "2200");
    with([good(), layer].concat(), 2, 31, "     2      8")
}

/// The files that the page speaks of: a sheet, an item, a sheet with a wrong count, one that lost its last item, one with an end-of-file mark; with
/// line ends, with a wrong one among them, with line feeds alone; a sheet of two layers, one with a wrong directory, one with a directory of a later
/// edition, and one that was edited before its directory.
fn files() -> Folder {
    let f = Folder::new("pages");
    f.put("town.dm", &good()).put("house.dm", &block()).put("river.dm", &damaged());
    assert_eq!(f.run(&["insert", "town.dm", "7", "house.dm", "-o", "two.dm"]).status, Some(0));
    let two = f.get("two.dm");
    let lines = ended(&good(), b"\r\n");
    let mut broken = lines.clone();
    broken[3 * 86 + 84..][..2].copy_from_slice(b"\n\r");
    f.put("short.dm", &two[..9 * 84]).put("tape.dm", &[&good()[..], b"\x1a"].concat());
    f.put("plan.dm", &plan()).put("wrong.dm", &with(with(filed(&plan()), 14, 9, "     11"), 15, 9, "      3"));
    f.put("edition.dm", &with(filed_second(&plan()), 15, 16, "      3"));
    assert_eq!(f.run(&["insert", "plan.dm", "7", "house.dm", "-o", "more.dm"]).status, Some(0));
    f.put("stale.dm", &[f.get("more.dm"), filed(&plan())[13 * 84..].to_vec()].concat());
    f.put("field.dm", &lines).put("broken.dm", &broken).put("unix.dm", &ended(&good(), b"\n"));
    f
}

#[test]
fn every_example_prints_what_the_page_says() {
    let page = fs::read_to_string(Path::new(env!("CARGO_MANIFEST_DIR")).join("../../docs/TOOL.md")).expect("docs/TOOL.md");
    let (f, tool) = (files(), Path::new(env!("CARGO_BIN_EXE_dmtool")));
    let folders = [tool.parent().expect("its folder").display().to_string(), std::env::var("PATH").expect("a PATH")];
    let all = examples(&page);
    for (command, expected) in &all {
        let script = format!("{{ {command}; }} 2>&1");
        let ran = run(Command::new("sh").args(["-c", &script]).env("PATH", folders.join(":")).current_dir(&f.0), b"");
        let text = ran.text();
        let lines: Vec<&str> = text.lines().collect();
        assert!(fits(&lines, expected), "{command}:\n{text}\nthe page says\n{}", expected.join("\n"));
    }
    assert!(all.len() >= 10, "{}", all.len());
}

#[test]
fn what_fits_and_what_does_not() {
    assert!(fits(&["a", "b", "c"], &["a", "...", "c"]) && fits(&["a=1, b=2, c"], &["a=1, ..., c"]) && fits(&["a b"], &["a ..."]));
    assert!(!fits(&["a", "b"], &["a"]) && !fits(&["a"], &["a", "b"]) && !fits(&["ab"], &["a"]) && !fits(&["b"], &["...", "c"]));
}
