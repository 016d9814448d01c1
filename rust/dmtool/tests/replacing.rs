//! Edits in place: whole or not at all, nothing left behind, permissions and links kept.

mod support;

use std::fs;
use std::os::unix::fs::{symlink, PermissionsExt};
use std::process::Command;
use support::{block, damaged, good, large, run, Folder};

#[test]
fn nothing_is_left_behind_and_a_refusal_changes_nothing() {
    let f = Folder::new("left_behind");
    f.put("sheet.dm", &good()).put("block.dm", &block()).put("damaged.dm", &damaged()).put("text", b"no block");
    for words in [
        &["insert", "sheet.dm", "5", "block.dm"][..],
        &["insert", "sheet.dm", "7", "text"],
        &["insert", "damaged.dm", "7", "block.dm"],
        &["remove", "sheet.dm", "6"],
        &["remove", "sheet.dm", "0"],
        &["remove", "sheet.dm", "18446744073709551615"],
        &["remove", "damaged.dm", "7", "-o", "sheet.dm", "--force"],
        &["normal", "damaged.dm", "-o", "sheet.dm", "--force"],
    ] {
        assert_eq!(f.run(words).status, Some(1), "{words:?}");
        assert!(f.get("sheet.dm") == good() && f.get("damaged.dm") == damaged(), "{words:?}");
    }
    assert_eq!(f.run(&["insert", "sheet.dm", "7", "block.dm"]).status, Some(0));
    assert_eq!(f.run(&["remove", "sheet.dm", "7"]).status, Some(0));
    assert_eq!(f.get("sheet.dm"), good());
    assert_eq!(f.names(), ["block.dm", "damaged.dm", "sheet.dm", "text"]);
}

#[test]
fn permissions_and_links_stay() {
    let f = Folder::new("permissions");
    f.put("sheet.dm", &good());
    symlink("sheet.dm", f.0.join("link.dm")).unwrap();
    for mode in [0o600, 0o640, 0o664] {
        fs::set_permissions(f.0.join("sheet.dm"), fs::Permissions::from_mode(mode)).unwrap();
        assert_eq!(f.run(&["normal", "link.dm", "-o", "link.dm"]).status, Some(0));
        assert_eq!(fs::metadata(f.0.join("sheet.dm")).unwrap().permissions().mode() & 0o777, mode);
    }
    assert!(fs::symlink_metadata(f.0.join("link.dm")).unwrap().file_type().is_symlink());
    assert_eq!(f.names(), ["link.dm", "sheet.dm"]);
}

#[test]
fn a_read_only_file_is_left_alone() {
    let f = Folder::new("read_only");
    f.put("sheet.dm", &good());
    fs::set_permissions(f.0.join("sheet.dm"), fs::Permissions::from_mode(0o444)).unwrap();
    let ran = f.run(&["remove", "sheet.dm", "7"]);
    assert_eq!((ran.status, f.get("sheet.dm")), (Some(2), good()));
    assert!(ran.err.contains("read-only") && ran.err.contains("-o"), "{}", ran.err);
}

#[test]
fn places_that_cannot_be_written() {
    let f = Folder::new("places");
    f.put("sheet.dm", &good());
    for other in ["no/such/folder.dm", ".", "sheet.dm/below"] {
        let ran = f.run(&["remove", "sheet.dm", "7", "-o", other]);
        assert_eq!((ran.status, ran.text()), (Some(2), String::new()), "{other}");
        assert!(ran.err.starts_with(&format!("dmtool: {other}: ")), "{}", ran.err);
    }
    assert_eq!(f.run(&["remove", "sheet.dm", "7", "-o", "-"]).out.len(), 6 * 84);
    assert_eq!((f.names(), f.get("sheet.dm")), (vec!["sheet.dm".to_string()], good()));
}

/// The disk is full in the middle of the write: the tool says so, the file is as before, and nothing is left behind. Where the
/// tool is killed there, the file is as before too, and the next edit clears what may be left.
#[test]
fn a_fault_in_the_middle_loses_nothing() {
    let f = Folder::new("middle");
    f.put("large.dm", large());
    for (trap, status) in [("trap '' XFSZ; ", Some(2)), ("", None)] {
        let script = format!("{trap}ulimit -c 0; ulimit -f 100; exec \"$0\" remove large.dm 200000");
        let ran = run(Command::new("sh").args(["-c", &script, env!("CARGO_BIN_EXE_dmtool")]).current_dir(&f.0), b"");
        assert_eq!((ran.status, ran.text()), (status, String::new()), "{}", ran.err);
        assert!(f.get("large.dm") == large());
        assert!(status.is_none() || f.names() == ["large.dm"]);
    }
    assert_eq!(f.run(&["remove", "large.dm", "200000"]).status, Some(0));
    assert_eq!(f.names(), ["large.dm"]);
}

#[test]
fn an_edit_that_cannot_be_announced_is_still_done() {
    let f = Folder::new("announced");
    f.put("sheet.dm", &good());
    let script = "exec \"$0\" remove sheet.dm 7 > /dev/full";
    let ran = run(Command::new("sh").args(["-c", script, env!("CARGO_BIN_EXE_dmtool")]).current_dir(&f.0), b"");
    assert_eq!((ran.status, f.get("sheet.dm").len()), (Some(2), 6 * 84));
    assert!(
        ran.err.starts_with("dmtool: sheet.dm: removed 3 records at record 7; only this could not be printed"),
        "{}",
        ran.err
    );
}
