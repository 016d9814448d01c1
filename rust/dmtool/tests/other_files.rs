//! `-o OTHER`: a new file, never over another one unless forced; links, second names, devices and pipes.

mod support;

use std::fs::{self, File};
use std::io::{BufRead, BufReader};
use std::os::unix::fs::{symlink, PermissionsExt};
use std::process::{Command, Stdio};
use std::thread;
use support::fault::Faults;
use support::{block, damaged, good, run, Folder};

/// The example without its item.
fn removed() -> Vec<u8> {
    let mut sheet = good();
    let used = zvaigulta::remove(&mut sheet, good().len(), 7).expect("a removal");
    sheet.truncate(used);
    sheet
}

#[test]
fn another_file_is_not_replaced_unless_forced() {
    let f = Folder::new("other_exists");
    f.put("sheet.dm", &good()).put("other.dm", &damaged()).put("block.dm", &block());
    symlink("other.dm", f.0.join("link.dm")).unwrap();
    for (words, other) in [
        (&["remove", "sheet.dm", "7", "-o", "other.dm"][..], "other.dm"),
        (&["remove", "sheet.dm", "7", "-o", "link.dm", "--no-lock"], "link.dm"),
        (&["normal", "sheet.dm", "-o", "other.dm"], "other.dm"),
        (&["normal", "-", "-o", "sheet.dm"], "sheet.dm"),
        (&["insert", "sheet.dm", "7", "block.dm", "-o", "block.dm"], "block.dm"),
    ] {
        let ran = f.run_on(&good(), words);
        assert_eq!((ran.status, ran.text()), (Some(2), String::new()), "{words:?}");
        let line = format!(
            "its result was not written to {other}, which exists already; name a new file by -o, or add --force to replace"
        );
        assert!(ran.err.contains(&line) && (ran.err.contains("sheet.dm: ") || ran.err.contains("input: ")), "{}", ran.err);
        assert!(f.get("sheet.dm") == good() && f.get("other.dm") == damaged() && f.get("block.dm") == block(), "{words:?}");
    }
    fs::set_permissions(f.0.join("other.dm"), fs::Permissions::from_mode(0o640)).unwrap();
    assert_eq!(f.run(&["remove", "sheet.dm", "7", "-o", "link.dm", "--force"]).status, Some(0));
    assert!(f.get("sheet.dm") == good() && f.get("other.dm") == removed());
    assert_eq!(fs::metadata(f.0.join("other.dm")).unwrap().permissions().mode() & 0o7777, 0o640);
    assert_eq!(f.names(), ["block.dm", "link.dm", "other.dm", "sheet.dm"]);
}

#[test]
fn the_sheet_itself_by_any_spelling_is_edited_in_place() {
    let f = Folder::new("spellings");
    symlink("sheet.dm", f.0.join("link.dm")).unwrap();
    let whole = f.0.join("sheet.dm");
    for other in ["sheet.dm", "./sheet.dm", "link.dm", whole.to_str().unwrap()] {
        f.put("sheet.dm", &good());
        let ran = f.run(&["remove", "sheet.dm", "7", "-o", other]);
        let line = format!("{other}: removed 3 records at record 7, now 6 records 0 items\n");
        assert_eq!((ran.seen(), f.get("sheet.dm")), ((Some(0), line, true), removed()));
    }
    assert_eq!(f.names(), ["link.dm", "sheet.dm"]);
}

/// OTHER is made by somebody else while the result is brought to the disk: theirs stays, by each way of giving a new file its
/// name.
#[test]
fn a_file_that_appears_meanwhile_is_not_replaced() {
    let (f, faults) = (Folder::new("appears"), Faults::new("appears"));
    f.put("sheet.dm", &good()).put("theirs", b"theirs");
    for way in ["", "linkat 95,", "tmpfile 95,", "tmpfile 95,renameat2 22,"] {
        let fault = format!("{way}fsync run");
        for force in [&[][..], &["--force"]] {
            let words = [&["normal", "sheet.dm", "-o", "other.dm"], force].concat();
            let ran = faults.run(&f, &fault, "cp theirs other.dm", &words);
            assert_eq!((ran.status, f.get("other.dm")), (Some(2), b"theirs".to_vec()), "{fault}");
            assert!(ran.err.contains("other.dm, which exists already"), "{}", ran.err);
            assert_eq!(f.names(), ["other.dm", "sheet.dm", "theirs"], "{fault}");
            fs::remove_file(f.0.join("other.dm")).unwrap();
        }
        let ran = faults.run(&f, &fault, "true", &["normal", "sheet.dm", "-o", "other.dm"]);
        assert_eq!((ran.status, f.get("other.dm")), (Some(0), good()), "{fault}: {}", ran.err);
        assert_eq!(f.names(), ["other.dm", "sheet.dm", "theirs"], "{fault}");
        fs::remove_file(f.0.join("other.dm")).unwrap();
    }
}

/// Eight results for one new file: one gets there, and the file is that one's.
#[test]
fn of_several_results_at_once_one_gets_the_name() {
    let f = Folder::new("one_name");
    let sheets: Vec<Vec<u8>> = (0..8u8)
        .map(|n| {
            let mut sheet = good();
            sheet[20] = b'0' + n;
            sheet
        })
        .collect();
    for (n, sheet) in sheets.iter().enumerate() {
        f.put(&format!("{n}.dm"), sheet);
    }
    for _ in 0..10 {
        let won: Vec<usize> = thread::scope(|scope| {
            let f = &f;
            let run = |n: usize| scope.spawn(move || f.run(&["normal", &format!("{n}.dm"), "-o", "other.dm"]).status);
            let runs: Vec<_> = (0..8).map(run).collect();
            let all: Vec<_> = runs.into_iter().map(|run| run.join().expect("a run")).collect();
            assert!(all.iter().all(|status| [Some(0), Some(2)].contains(status)), "{all:?}");
            (0..8).filter(|n| all[*n] == Some(0)).collect()
        });
        assert_eq!(won.len(), 1);
        assert!(f.get("other.dm") == sheets[won[0]]);
        fs::remove_file(f.0.join("other.dm")).unwrap();
    }
}

/// `--force` waits for who edits OTHER.
#[test]
fn a_forced_file_is_locked_too() {
    let f = Folder::new("force_locked");
    f.put("sheet.dm", &good()).put("other.dm", &damaged());
    let held = File::open(f.0.join("other.dm")).unwrap();
    held.lock().unwrap();
    let mut tool = f.tool(&["normal", "sheet.dm", "-o", "other.dm", "--force"]).stderr(Stdio::piped()).spawn().unwrap();
    let mut line = String::new();
    BufReader::new(tool.stderr.take().unwrap()).read_line(&mut line).unwrap();
    assert!(line.contains("other.dm: waiting for process"), "{line}");
    assert!(f.get("other.dm") == damaged());
    drop(held);
    assert_eq!((tool.wait().unwrap().code(), f.get("other.dm")), (Some(0), good()));
}

#[test]
fn a_link_that_leads_nowhere_stays_and_is_named() {
    let f = Folder::new("nowhere");
    f.put("sheet.dm", &good());
    symlink("gone/away.dm", f.0.join("link.dm")).unwrap();
    for words in [
        &["judge", "link.dm"][..],
        &["remove", "link.dm", "7"],
        &["normal", "link.dm", "-o", "link.dm"],
        &["remove", "sheet.dm", "7", "-o", "link.dm"],
        &["remove", "sheet.dm", "7", "-o", "link.dm", "--force"],
    ] {
        let ran = f.run(words);
        assert_eq!((ran.status, ran.text()), (Some(2), String::new()), "{words:?}");
        assert!(ran.err.starts_with("dmtool: link.dm: it is a link to gone/away.dm, where no file is; "), "{}", ran.err);
    }
    assert_eq!((f.names(), f.get("sheet.dm")), (vec!["link.dm".to_string(), "sheet.dm".to_string()], good()));
    assert_eq!(fs::read_link(f.0.join("link.dm")).unwrap().to_str(), Some("gone/away.dm"));
}

#[test]
fn a_file_with_several_names_is_not_split() {
    let f = Folder::new("names");
    f.put("sheet.dm", &good()).put("town.dm", &damaged());
    fs::hard_link(f.0.join("sheet.dm"), f.0.join("second.dm")).unwrap();
    for words in [
        &["remove", "sheet.dm", "7"][..],
        &["remove", "second.dm", "7", "--no-lock"],
        &["remove", "sheet.dm", "7", "-o", "second.dm"],
        &["normal", "sheet.dm", "-o", "sheet.dm"],
        &["normal", "town.dm", "-o", "sheet.dm", "--force"],
    ] {
        f.put("town.dm", &good());
        let ran = f.run(words);
        assert_eq!((ran.status, ran.text()), (Some(2), String::new()), "{words:?}");
        assert!(
            ran.err.contains("it has 2 names (hard links)") && ran.err.contains("copy it first, or name a new file by -o"),
            "{}",
            ran.err
        );
        assert!(f.get("sheet.dm") == good() && f.get("second.dm") == good());
    }
    assert_eq!(f.run(&["remove", "sheet.dm", "7", "-o", "third.dm"]).status, Some(0));
    fs::remove_file(f.0.join("second.dm")).unwrap();
    assert_eq!(f.run(&["remove", "sheet.dm", "7"]).status, Some(0));
}

/// A pipe, or standard output by a link as `/dev/stdout` is one, is written and stays what it is; the answer of an edit does
/// not stand among the bytes. The link is the test's own: a faulty tool that is run by a privileged user would replace the
/// system's.
#[test]
fn pipes_and_standard_output() {
    let f = Folder::new("pipes");
    f.put("sheet.dm", &good());
    symlink("/proc/self/fd/1", f.0.join("stdout")).unwrap();
    let to_link = ["remove", "sheet.dm", "7", "-o", "stdout"];
    assert_eq!(f.run(&to_link).seen(), (Some(0), String::from_utf8(removed()).unwrap(), true));
    let script = "exec \"$0\" remove sheet.dm 7 -o stdout > to.dm";
    let ran = run(Command::new("sh").args(["-c", script, env!("CARGO_BIN_EXE_dmtool")]).current_dir(&f.0), b"");
    assert_eq!((ran.status, f.get("to.dm")), (Some(0), removed()), "{}", ran.err);
    assert_eq!(fs::read_link(f.0.join("stdout")).unwrap().to_str(), Some("/proc/self/fd/1"));
    let made = Command::new("mkfifo").arg(f.0.join("pipe")).status().expect("this test needs mkfifo");
    assert!(made.success());
    let reader = thread::spawn({
        let pipe = f.0.join("pipe");
        move || fs::read(pipe).unwrap()
    });
    assert_eq!(f.run(&["remove", "sheet.dm", "7", "-o", "pipe"]).status, Some(0));
    assert!(reader.join().unwrap() == removed());
    let ran = f.run(&["remove", "pipe", "7"]);
    assert_eq!(ran.status, Some(2));
    assert!(ran.err.contains("cannot be replaced") && ran.err.contains("-o"), "{}", ran.err);
    assert!(f.get("sheet.dm") == good());
}

/// A file that is called - is not standard output.
#[test]
fn a_file_called_as_standard_output() {
    let f = Folder::new("dash");
    f.put("-", &good()).put("sheet.dm", &good());
    assert!(f.run(&["normal", "./-"]).out == good());
    assert!(f.run(&["remove", "./-", "7", "-o", "-"]).out == removed());
    assert!(f.run(&["remove", "sheet.dm", "7", "-o", "-"]).out == removed() && f.get("-") == good());
    assert_eq!(f.run(&["remove", "./-", "7"]).status, Some(0));
    assert_eq!((f.names(), f.get("-")), (vec!["-".to_string(), "sheet.dm".to_string()], removed()));
}

/// The name of the file beside is longer than the file's own; a name may have 255 bytes.
#[test]
fn the_longest_names() {
    let (f, faults) = (Folder::new("longest"), Faults::new("longest"));
    let [name, other] = ["a", "b"].map(|end| "x".repeat(254) + end);
    f.put(&name, &good());
    for fault in ["", "tmpfile 95,", "tmpfile 95,renameat2 22,"] {
        assert_eq!(faults.run(&f, fault, "", &["normal", &name, "-o", &name]).status, Some(0), "{fault}");
        assert_eq!(faults.run(&f, fault, "", &["normal", &name, "-o", &other]).status, Some(0), "{fault}");
        assert_eq!(f.names(), [name.as_str(), other.as_str()]);
        fs::remove_file(f.0.join(&other)).unwrap();
    }
}
