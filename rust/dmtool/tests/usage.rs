//! Help, wrong words, closed and full outputs.

mod support;

use std::io::Read;
use std::process::{Command, Stdio};
use support::{good, large, run, Folder};

const SUBCOMMANDS: [&str; 11] =
    ["judge", "explain", "show", "insert", "remove", "up", "normal", "convert", "directory", "jump", "batch"];

#[test]
fn help_for_the_tool_and_each_subcommand() {
    let f = Folder::new("help");
    let overview = f.run(&["--help"]);
    assert_eq!((overview.status, overview.err.as_str()), (Some(0), ""));
    for name in SUBCOMMANDS {
        assert!(overview.text().contains(&format!("\n  {name}")), "{name}");
        let (text, status, quiet) = (f.run(&[name, "--help"]).text(), f.run(&[name, "-h"]).status, f.run(&["help", name]).err);
        assert!(text.starts_with(&format!("Usage: dmtool {name}")) && text.contains("Exit status: 0"), "{text}");
        assert_eq!((status, quiet.as_str()), (Some(0), ""));
        assert_eq!(f.run(&["help", name]).text(), text);
    }
    let options = |name: &str, options: &[&str]| {
        let text = f.run(&[name, "--help"]).text();
        assert!(options.iter().all(|option| text.contains(&format!("\n  {option} "))), "{text}");
    };
    let writing = ["insert", "remove", "normal", "convert", "directory"];
    writing.iter().for_each(|name| options(name, &["-o OTHER", "--force", "--no-lock"]));
    SUBCOMMANDS.iter().filter(|name| **name != "batch").for_each(|name| options(name, &["--lines", "--plain"]));
    let reading = ["judge", "explain", "show", "insert", "remove", "up", "normal"];
    reading.iter().for_each(|name| options(name, &["--directory", "--no-directory"]));
    options("convert", &["--mend"]);
    options("directory", &["--append", "--remove", "--check"]);
    assert_eq!(f.run(&["--version"]).text(), format!("dmtool {}\n", env!("CARGO_PKG_VERSION")));
}

#[test]
fn wrong_words_say_what_to_do() {
    let f = Folder::new("wrong_words");
    f.put("good.dm", &good());
    let wrong: [&[&str]; 22] = [
        &[],
        &["rename"],
        &["judge"],
        &["judge", "--fast", "good.dm"],
        &["judge", "-o", "x", "good.dm"],
        &["explain"],
        &["explain", "good.dm", "good.dm"],
        &["show"],
        &["show", "good.dm", "1", "2", "3"],
        &["insert", "good.dm", "7"],
        &["insert", "-", "7", "-", "-o", "x"],
        &["remove", "good.dm", "-o"],
        &["remove", "-", "7"],
        &["remove", "good.dm", "7", "--force"],
        &["normal", "good.dm", "--force"],
        &["normal", "good.dm", "-o", "x", "-o", "y"],
        &["remove", "good.dm", "7", "--nolock"],
        &["judge", "good.dm", "--no-lock"],
        &["show", "good.dm", "--force"],
        &["insert", "good.dm", "seven", "missing.dm"],
        &["up", "good.dm", "18446744073709551616"],
        &["batch", "good.dm"],
    ];
    for words in wrong {
        let ran = f.run(words);
        assert_eq!((ran.status, ran.text()), (Some(2), String::new()), "{words:?}");
        assert!(
            ran.err.starts_with("dmtool: ") && ran.err.contains("--help") && ran.err.lines().count() == 1,
            "{words:?}: {}",
            ran.err
        );
    }
    assert_eq!(f.names(), ["good.dm"]);
}

#[test]
fn a_file_whose_name_looks_like_an_option() {
    let f = Folder::new("dashes");
    f.put("-o", &good()).put("two\nlines", &good());
    assert_eq!(f.run(&["judge", "--", "-o"]).text(), "-o: accepted 9 records 1 items\n");
    assert_eq!(f.run(&["judge", "two\nlines"]).text(), "two\\nlines: accepted 9 records 1 items\n");
}

/// A reader that closes the pipe after a few bytes: no panic, nothing on standard error.
#[test]
fn a_closed_pipe_is_quiet() {
    let f = Folder::new("closed_pipe");
    f.put("large.dm", large());
    for words in [&["show", "large.dm"][..], &["normal", "large.dm"]] {
        let mut command = Command::new(env!("CARGO_BIN_EXE_dmtool"));
        command.args(words).current_dir(&f.0).stdout(Stdio::piped()).stderr(Stdio::piped());
        let mut child = command.spawn().unwrap();
        let mut some = [0; 10];
        child.stdout.take().unwrap().read_exact(&mut some).unwrap();
        let done = child.wait_with_output().unwrap();
        assert_eq!((done.status.code(), String::from_utf8(done.stderr).unwrap()), (Some(2), String::new()), "{words:?}");
    }
}

/// Closed from the start: there is no answer, so the status is 2, and an edit is not made. What is asked to go to `/dev/null` is no such case.
#[test]
fn closed_from_the_start() {
    let f = Folder::new("closed");
    f.put("good.dm", &good());
    let on = |words: &str| {
        let line = format!("exec \"$0\" {words}");
        run(Command::new("sh").args(["-c", &line, env!("CARGO_BIN_EXE_dmtool")]).current_dir(&f.0), b"")
    };
    for words in ["judge good.dm >&-", "remove good.dm 7 >&-", "--help >&-", "judge - <&-", "batch <&-", "normal good.dm >&-"] {
        let ran = on(words);
        assert_eq!((ran.status, ran.text(), f.get("good.dm")), (Some(2), String::new(), good()), "{words}");
        assert!(
            ran.err.starts_with("dmtool: standard ") && ran.err.contains(" is closed; nothing was done"),
            "{words}: {}",
            ran.err
        );
    }
    for words in ["judge good.dm >/dev/null", "judge good.dm 1<>/dev/null", "batch </dev/null", "batch 0<>/dev/null"] {
        assert_eq!(on(words).status, Some(0), "{words}");
    }
}

#[test]
fn a_full_disk_is_an_error_in_words() {
    let f = Folder::new("full_disk");
    f.put("good.dm", &good());
    for words in [&["judge", "good.dm"][..], &["--help"], &["show", "good.dm"], &["normal", "good.dm"], &["up", "good.dm", "9"]] {
        let mut command = Command::new("sh");
        command.args(["-c", "exec \"$0\" \"$@\" > /dev/full", env!("CARGO_BIN_EXE_dmtool")]).args(words).current_dir(&f.0);
        let ran = run(&mut command, b"");
        assert_eq!(ran.status, Some(2), "{words:?}");
        assert!(ran.err.starts_with("dmtool: standard output could not be written"), "{words:?}: {}", ran.err);
    }
}
