//! The tool killed in the middle of an edit: the sheet is the old one or the new one, and what is left beside it does not pile
//! up.

mod support;

use std::thread;
use std::time::Duration;
use support::fault::Faults;
use support::{block, good, Folder};

const KILLS: u64 = 120;

/// A sheet of 301 items.
fn sheet() -> Vec<u8> {
    let block = block();
    let mut sheet = good();
    for _ in 0..300 {
        let used = sheet.len();
        sheet.resize(used + block.len(), b' ');
        zvaigulta::insert(&mut sheet, used, 7, &block).expect("an insertion");
    }
    sheet
}

/// A sheet without the item at record 7.
fn without_first(sheet: &[u8]) -> Vec<u8> {
    let mut less = sheet.to_vec();
    let used = zvaigulta::remove(&mut less, sheet.len(), 7).expect("a removal");
    less.truncate(used);
    less
}

/// The names beside `sheet.dm` that an edit of it left behind.
fn left_behind(f: &Folder) -> Vec<String> {
    f.names().into_iter().filter(|name| name.starts_with(".sheet.dm.dmtool-") && name.ends_with(".tmp")).collect()
}

#[test]
fn at_any_moment() {
    let f = Folder::new("killed");
    let mut now = sheet();
    f.put("sheet.dm", &now);
    for n in 0..KILLS {
        let mut tool = f.tool(&["remove", "sheet.dm", "7"]).stdout(std::process::Stdio::null()).spawn().unwrap();
        thread::sleep(Duration::from_micros(50 * n));
        tool.kill().unwrap();
        tool.wait().unwrap();
        let (found, next) = (f.get("sheet.dm"), without_first(&now));
        assert!(found == now || found == next, "kill {n}: neither the old sheet nor the new one");
        now = found;
    }
    assert_eq!(f.run(&["remove", "sheet.dm", "7"]).status, Some(0));
    assert!(f.get("sheet.dm") == without_first(&now));
    assert_eq!(f.names(), ["sheet.dm"]);
}

/// Killed at each call of the system that matters, where files without a name are to be had, where they are not, and where they
/// cannot be given one.
#[test]
fn at_every_step() {
    let (f, faults) = (Folder::new("killed_step"), Faults::new("killed_step"));
    for (fault, left) in [
        ("flock kill", 0),
        ("tmpfile kill", 0),
        ("fsync kill", 0),
        ("linkat kill", 0),
        ("rename kill", 1),
        ("tmpfile 95,fsync kill", 1),
        ("tmpfile 95,rename kill", 1),
        ("linkat 95,rename kill", 1),
    ] {
        f.put("sheet.dm", &good());
        let ran = faults.run(&f, fault, "", &["remove", "sheet.dm", "7"]);
        assert_eq!((ran.status, ran.text()), (None, String::new()), "{fault}");
        assert!(f.get("sheet.dm") == good(), "{fault}");
        assert_eq!((left_behind(&f).len(), f.names().len()), (left, left + 1), "{fault}: {:?}", f.names());
        assert_eq!(f.run(&["normal", "sheet.dm", "-o", "sheet.dm"]).status, Some(0));
        assert_eq!(f.names(), ["sheet.dm"], "{fault}");
    }
}

/// Only who holds the lock of a sheet clears what was left of its edits, and of no other's.
#[test]
fn what_is_left_is_cleared_by_the_next_edit_of_that_sheet_alone() {
    let (f, faults) = (Folder::new("cleared"), Faults::new("cleared"));
    f.put("sheet.dm", &good()).put("other.dm", &good()).put(".sheet.dm.dmtool-notes.tmp", b"somebody's own");
    assert_eq!(faults.run(&f, "rename kill", "", &["remove", "sheet.dm", "7"]).status, None);
    let left = left_behind(&f);
    assert_eq!(left.len(), 2, "{left:?}");
    assert_eq!(f.run(&["remove", "other.dm", "7"]).status, Some(0));
    assert_eq!(f.run(&["normal", "sheet.dm", "-o", "sheet.dm", "--no-lock"]).status, Some(0));
    assert_eq!(f.run(&["remove", "sheet.dm", "7", "-o", "new.dm"]).status, Some(0));
    assert_eq!(left_behind(&f), left);
    assert_eq!(f.run(&["remove", "sheet.dm", "7"]).status, Some(0));
    assert_eq!(left_behind(&f), [".sheet.dm.dmtool-notes.tmp"]);
}

/// A new file is whole or not there; what is left where files without a name are not to be had is cleared by the next run that makes it, or by its
/// first edit, a second name of it too.
#[test]
fn a_new_file_is_whole_or_not_there() {
    let (f, faults) = (Folder::new("killed_new"), Faults::new("killed_new"));
    f.put("town.dm", &good());
    for (fault, made) in [
        ("fsync kill", false),
        ("linkat kill", false),
        ("tmpfile 95,fsync kill", false),
        ("tmpfile 95,renameat2 kill", false),
        ("tmpfile 95,renameat2 22,linkat kill", false),
        ("tmpfile 95,renameat2 22,unlink kill", true),
    ] {
        let ran = faults.run(&f, fault, "", &["normal", "town.dm", "-o", "sheet.dm"]);
        assert_eq!(ran.status, None, "{fault}");
        assert_eq!(f.names().contains(&"sheet.dm".to_string()), made, "{fault}");
        let again = f.run(&["normal", "town.dm", "-o", "sheet.dm"]);
        assert_eq!((again.status, f.get("sheet.dm")), (Some(if made { 2 } else { 0 }), good()), "{fault}");
        assert!(made || f.names() == ["sheet.dm", "town.dm"], "{fault}: {:?}", f.names());
        assert_eq!(f.run(&["remove", "sheet.dm", "7"]).status, Some(0), "{fault}");
        assert_eq!(f.names(), ["sheet.dm", "town.dm"], "{fault}");
        std::fs::remove_file(f.0.join("sheet.dm")).unwrap();
    }
}

/// What somebody alive is still writing is not cleared: the slower of two that make the same new file finds it there, and loses nothing.
#[test]
fn a_new_file_that_is_being_written_is_left_alone() {
    let (f, faults) = (Folder::new("alive"), Faults::new("alive"));
    f.put("town.dm", &good());
    let other = format!("'{}' normal town.dm -o sheet.dm && cat .sheet.dm.dmtool-*.tmp >seen", env!("CARGO_BIN_EXE_dmtool"));
    let ran = faults.run(&f, "tmpfile 95,fsync run", &other, &["normal", "town.dm", "-o", "sheet.dm"]);
    assert_eq!((ran.status, f.get("sheet.dm"), f.get("seen")), (Some(2), good(), good()), "{}", ran.err);
    assert!(ran.err.contains("which exists already"), "{}", ran.err);
    assert_eq!(f.names(), ["seen", "sheet.dm", "town.dm"]);
}
