//! Several editors of one sheet at once: no accepted edit is lost, and who waits knows for whom.

mod support;

use std::fs::{self, File};
use std::io::{BufRead, BufReader, Read};
use std::os::unix::fs::symlink;
use std::process::Stdio;
use std::thread;
use support::fault::Faults;
use support::{block, good, Folder};

/// The items of an accepted sheet.
fn items(f: &Folder, name: &str) -> i64 {
    let judged = f.run(&["judge", name]);
    let text = judged.text();
    assert_eq!(judged.status, Some(0), "{text}");
    text.split(' ').nth(4).and_then(|n| n.parse().ok()).expect("a number of items")
}

/// One editor: so many edits by turns, insertions and removals. Answers the accepted insertions less the accepted removals.
fn edits(f: &Folder, first: usize, count: usize) -> i64 {
    let mut gained = 0;
    for n in first..first + count {
        // Every third edit is a removal; the sheet is named by its own name and by a link.
        let sheet = ["sheet.dm", "link.dm"][n % 2];
        let (ran, gain) = match n % 3 {
            0 => (f.run(&["remove", sheet, "7"]), -1),
            1 => (f.run(&["insert", sheet, "7", "block.dm"]), 1),
            _ => (f.run(&["insert", sheet, "end", "block.dm"]), 1),
        };
        match ran.status {
            Some(0) => gained += gain,
            // A removal that finds no item there.
            Some(1) => assert!(gain < 0 && ran.err.contains("refused 11"), "{}", ran.err),
            other => panic!("{other:?}: {}", ran.err),
        }
    }
    gained
}

#[test]
fn no_accepted_edit_is_lost() {
    for (editors, count) in [(2, 60), (8, 15)] {
        let f = Folder::new(&format!("editors_{editors}"));
        f.put("sheet.dm", &good()).put("block.dm", &block());
        symlink("sheet.dm", f.0.join("link.dm")).unwrap();
        let gained: i64 = thread::scope(|scope| {
            let runs: Vec<_> = (0..editors)
                .map(|n| {
                    scope.spawn({
                        let f = &f;
                        move || edits(f, n, count)
                    })
                })
                .collect();
            runs.into_iter().map(|run| run.join().expect("an editor")).sum()
        });
        assert_eq!(items(&f, "sheet.dm"), 1 + gained, "{editors} editors");
        assert!(gained > 0);
        assert_eq!(f.names(), ["block.dm", "link.dm", "sheet.dm"]);
    }
}

/// The test process holds the lock: an editor waits, names this process after a while, and is done once the lock is free.
#[test]
fn a_waiting_editor_names_whom_it_waits_for() {
    let f = Folder::new("waiting");
    f.put("sheet.dm", &good());
    for words in [&["remove", "sheet.dm", "7"][..], &["normal", "sheet.dm", "-o", "sheet.dm"]] {
        let held = File::open(f.0.join("sheet.dm")).unwrap();
        held.lock().unwrap();
        let before = f.get("sheet.dm");
        let mut tool = f.tool(words).stdout(Stdio::piped()).stderr(Stdio::piped()).spawn().unwrap();
        let mut err = BufReader::new(tool.stderr.take().unwrap());
        let mut line = String::new();
        err.read_line(&mut line).unwrap();
        let me = format!("dmtool: sheet.dm: waiting for process {} (", std::process::id());
        // Long command lines are cut.
        let program: String = std::env::args().next().unwrap().chars().take(60).collect();
        assert!(line.starts_with(&(me + &program)), "{line}");
        assert_eq!((tool.try_wait().unwrap(), f.get("sheet.dm")), (None, before));
        drop(held);
        assert_eq!(tool.wait().unwrap().code(), Some(0));
        let mut rest = String::new();
        err.read_to_string(&mut rest).unwrap();
        assert_eq!(rest, "");
    }
    assert_eq!(f.get("sheet.dm").len(), 6 * 84);
}

/// A sheet that was replaced while an editor waited for its lock is opened anew: the edit is done on what stands there now.
#[test]
fn a_sheet_replaced_while_waiting_is_opened_anew() {
    let f = Folder::new("replaced_while_waiting");
    f.put("sheet.dm", &good()).put("block.dm", &block());
    assert_eq!(f.run(&["insert", "sheet.dm", "7", "block.dm", "-o", "next.dm"]).status, Some(0));
    let held = File::open(f.0.join("sheet.dm")).unwrap();
    held.lock().unwrap();
    let mut tool =
        f.tool(&["insert", "sheet.dm", "7", "block.dm"]).stdout(Stdio::piped()).stderr(Stdio::piped()).spawn().unwrap();
    let mut line = String::new();
    BufReader::new(tool.stderr.take().unwrap()).read_line(&mut line).unwrap();
    assert!(line.contains("waiting for"), "{line}");
    fs::rename(f.0.join("next.dm"), f.0.join("sheet.dm")).unwrap();
    drop(held);
    assert_eq!(tool.wait().unwrap().code(), Some(0));
    assert_eq!(items(&f, "sheet.dm"), 3);
}

/// A file that is only read needs no lock, nor does a result that goes elsewhere.
#[test]
fn a_locked_sheet_can_be_read() {
    let f = Folder::new("locked_read");
    f.put("sheet.dm", &good());
    let held = File::open(f.0.join("sheet.dm")).unwrap();
    held.lock().unwrap();
    for words in [
        &["judge", "sheet.dm"][..],
        &["normal", "sheet.dm"],
        &["remove", "sheet.dm", "7", "-o", "other.dm"],
        &["remove", "sheet.dm", "7", "-o", "-"],
        &["remove", "sheet.dm", "7", "--no-lock"],
    ] {
        assert_eq!(f.run(words).status, Some(0), "{words:?}");
    }
}

#[test]
fn a_lock_that_cannot_be_had_stops_the_edit_unless_told_otherwise() {
    let (f, faults) = (Folder::new("no_lock"), Faults::new("no_lock"));
    f.put("sheet.dm", &good());
    // no locks available, no such call, not supported
    for error in [37, 38, 95] {
        let fault = format!("flock {error}");
        for words in [&["remove", "sheet.dm", "7"][..], &["normal", "sheet.dm", "-o", "sheet.dm"]] {
            let ran = faults.run(&f, &fault, "", words);
            assert_eq!((ran.status, ran.text(), f.get("sheet.dm")), (Some(2), String::new(), good()));
            assert!(ran.err.starts_with("dmtool: sheet.dm: it cannot be locked here ("), "{}", ran.err);
            assert!(ran.err.contains("--no-lock") && ran.err.contains("Nothing was changed"), "{}", ran.err);
        }
    }
    assert_eq!(faults.run(&f, "flock 37", "", &["remove", "sheet.dm", "7", "--no-lock"]).status, Some(0));
    assert_eq!(f.get("sheet.dm").len(), 6 * 84);
    assert_eq!(f.names(), ["sheet.dm"]);
}

#[test]
fn interrupted_calls_are_made_again() {
    let (f, faults) = (Folder::new("interrupted"), Faults::new("interrupted"));
    for fault in ["flock 4", "fsync 4", "edit 4", "tmpfile 4"] {
        f.put("sheet.dm", &good());
        let ran = faults.run(&f, fault, "", &["remove", "sheet.dm", "7"]);
        assert_eq!((ran.status, f.get("sheet.dm").len()), (Some(0), 6 * 84), "{fault}: {}", ran.err);
    }
}

/// Somebody who asks for no lock writes the sheet after it was read, while the result is brought to the disk: what they wrote
/// stays.
#[test]
fn another_writer_is_noticed() {
    let (f, faults) = (Folder::new("another_writer"), Faults::new("another_writer"));
    let mut theirs = good();
    theirs[6 * 84 + 2..6 * 84 + 6].copy_from_slice(b"2102");
    f.put("theirs.dm", &theirs);
    for (how, left) in [
        // shorter; as long and of the same time; another file of that name; longer
        ("head -c 84 theirs.dm > sheet.dm", &theirs[..84]),
        ("touch -r sheet.dm time; cat theirs.dm > sheet.dm; touch -r time sheet.dm; rm time", &theirs[..]),
        ("cp theirs.dm new.dm; mv new.dm sheet.dm", &theirs[..]),
        ("cat theirs.dm >> sheet.dm", &[&good()[..], &theirs[..]].concat()),
    ] {
        for words in [
            &["remove", "sheet.dm", "7"][..],
            &["normal", "sheet.dm", "-o", "sheet.dm"],
            &["remove", "sheet.dm", "7", "--no-lock"],
        ] {
            f.put("sheet.dm", &good());
            let ran = faults.run(&f, "fsync run", how, words);
            assert_eq!((ran.status, ran.text()), (Some(2), String::new()), "{how}");
            assert!(ran.err.contains("somebody else wrote it meanwhile; nothing was changed, try again"), "{}", ran.err);
            assert!(f.get("sheet.dm") == left, "{how}");
            assert_eq!(f.names(), ["sheet.dm", "theirs.dm"]);
        }
    }
}

/// An editor without the lock whose new file was cleared by one with it.
#[test]
fn a_new_file_that_is_gone_is_noticed() {
    let (f, faults) = (Folder::new("new_gone"), Faults::new("new_gone"));
    f.put("sheet.dm", &good());
    let ran = faults.run(&f, "rename run", "rm .sheet.dm.dmtool-*.tmp", &["remove", "sheet.dm", "7", "--no-lock"]);
    assert_eq!((ran.status, f.get("sheet.dm")), (Some(2), good()));
    assert!(ran.err.contains("somebody else wrote it meanwhile; nothing was changed, try again"), "{}", ran.err);
}

/// So it is with who takes the sheet away, protects it or gives it a second name meanwhile.
#[test]
fn other_changes_meanwhile_are_noticed() {
    let (f, faults) = (Folder::new("other_changes"), Faults::new("other_changes"));
    for (how, back) in
        [("mv sheet.dm gone.dm", "gone.dm"), ("chmod a-w sheet.dm", "sheet.dm"), ("ln sheet.dm second.dm", "second.dm")]
    {
        f.put("sheet.dm", &good());
        let ran = faults.run(&f, "fsync run", how, &["remove", "sheet.dm", "7"]);
        assert_eq!((ran.status, f.get(back)), (Some(2), good()), "{how}: {}", ran.err);
        assert_eq!(f.names().contains(&"sheet.dm".to_string()), !how.starts_with("mv"));
        f.names().iter().for_each(|name| fs::remove_file(f.0.join(name)).unwrap());
    }
}
