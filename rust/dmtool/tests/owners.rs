//! Owner, group and permissions: they are kept, or nothing is changed.

mod support;

use std::ffi::CStr;
use std::fs::{self, Permissions};
use std::os::unix::fs::{chown, FileTypeExt, MetadataExt, PermissionsExt};
use std::os::unix::process::CommandExt;
use std::process::Command;
use support::fault::Faults;
use support::{attributes, good, run, Folder, Ran};

/// The number of the user `nobody`, as whom a privileged user runs what a plain user is to run.
const PLAIN: u32 = 65534;

fn privileged() -> bool {
    fs::metadata("/proc/self").expect("this test needs /proc").uid() == 0
}

/// A folder that every user may write, with the tool in it, which every user may run.
fn shared(name: &str) -> Folder {
    let f = Folder::below(&std::env::temp_dir(), &format!("dmtool_{name}"));
    // Not copied by this process: a program that any process still has open for writing does not start.
    let copied = Command::new("cp").arg(env!("CARGO_BIN_EXE_dmtool")).arg(f.0.join("tool")).status().expect("this test needs cp");
    assert!(copied.success());
    mode(&f, "tool", 0o755);
    mode(&f, "", 0o777);
    f
}

fn mode(f: &Folder, name: &str, mode: u32) {
    fs::set_permissions(f.0.join(name), Permissions::from_mode(mode)).unwrap();
}

/// Runs the tool as a plain user, also where the test's own user is not.
fn run_plain(f: &Folder, words: &[&str]) -> Ran {
    let mut tool = Command::new(f.0.join("tool"));
    tool.args(words).current_dir(&f.0);
    if privileged() {
        tool.uid(PLAIN).gid(PLAIN);
    }
    run(&mut tool, b"")
}

/// Owner, group and permissions of a file.
fn owner(f: &Folder, name: &str) -> (u32, u32, u32) {
    let found = fs::metadata(f.0.join(name)).unwrap();
    (found.uid(), found.gid(), found.mode() & 0o7777)
}

/// A plain user's edit of `sheet.dm` is refused in these words, and changes nothing.
fn refused(f: &Folder, words: &[&str], said: &str) {
    // A sheet that the test's own user may not read is looked at by the test once it may.
    let seen = || (fs::read(f.0.join("sheet.dm")).ok(), owner(f, "sheet.dm"), f.names());
    let before = seen();
    let ran = run_plain(f, words);
    assert_eq!((ran.status, ran.text()), (Some(2), String::new()), "{words:?}: {}", ran.err);
    assert!(ran.err.starts_with("dmtool: ") && ran.err.contains(said), "{words:?}: {}", ran.err);
    assert!(seen() == before, "{words:?}");
}

const EDITS: [&[&str]; 3] =
    [&["remove", "sheet.dm", "7"], &["normal", "sheet.dm", "-o", "sheet.dm"], &["remove", "sheet.dm", "7", "--no-lock"]];

/// Files of another owner can only be made by a privileged user: for a plain one this test has nothing to try.
#[test]
fn a_file_of_another_owner() {
    if !privileged() {
        return;
    }
    let f = shared("another_owner");
    f.put("sheet.dm", &good()).put("own.dm", &good());
    chown(f.0.join("own.dm"), Some(PLAIN), Some(PLAIN)).unwrap();
    for words in EDITS {
        // may be read but not written; may be written; is the user's own but of a group that is not
        for (user, said) in [(0, "user 0, group 0, mode 0666"), (PLAIN, "user 65534, group 0, mode 0666")] {
            chown(f.0.join("sheet.dm"), Some(user), Some(0)).unwrap();
            mode(&f, "sheet.dm", 0o666);
            refused(&f, words, &format!("its owner and permissions ({said}) could not be kept"));
        }
        chown(f.0.join("sheet.dm"), Some(0), Some(0)).unwrap();
        mode(&f, "sheet.dm", 0o644);
        refused(&f, words, "it may not be both read and written; ask its owner for the right to, or name another file by -o");
    }
    refused(&f, &["normal", "own.dm", "-o", "sheet.dm", "--force"], "it may not be both read and written");
    assert_eq!(run_plain(&f, &["remove", "sheet.dm", "7", "-o", "other.dm"]).status, Some(0));
    assert_eq!(owner(&f, "other.dm").0, PLAIN);
}

#[test]
fn owner_and_permissions_stay() {
    let f = shared("stay");
    f.put("sheet.dm", &good());
    let owners: &[(u32, u32)] = if privileged() { &[(0, 0), (PLAIN, PLAIN), (PLAIN, 0), (0, PLAIN)] } else { &[] };
    for permissions in [0o600, 0o640, 0o666, 0o4755, 0o2775, 0o6711] {
        for (user, group) in owners {
            chown(f.0.join("sheet.dm"), Some(*user), Some(*group)).unwrap();
            mode(&f, "sheet.dm", permissions);
            let before = owner(&f, "sheet.dm");
            assert_eq!(before, (*user, *group, permissions));
            assert_eq!(f.run(&["normal", "sheet.dm", "-o", "sheet.dm"]).status, Some(0));
            assert_eq!(owner(&f, "sheet.dm"), before);
        }
    }
    chown(f.0.join("sheet.dm"), privileged().then_some(PLAIN), privileged().then_some(PLAIN)).unwrap();
    mode(&f, "sheet.dm", 0o4640);
    let before = owner(&f, "sheet.dm");
    assert_eq!(run_plain(&f, &["remove", "sheet.dm", "7"]).status, Some(0));
    assert_eq!((owner(&f, "sheet.dm"), f.get("sheet.dm").len()), (before, 6 * 84));
}

#[test]
fn a_read_only_file_and_a_closed_folder() {
    let f = shared("closed");
    f.put("sheet.dm", &good()).put("town.dm", &good());
    chown(f.0.join("sheet.dm"), privileged().then_some(PLAIN), privileged().then_some(PLAIN)).unwrap();
    for words in EDITS {
        mode(&f, "sheet.dm", 0o444);
        refused(&f, words, "it is marked read-only; name another file by -o, or make it writable first");
        assert_eq!(f.run(words).status, Some(2), "a privileged user too");
        mode(&f, "sheet.dm", 0o200);
        refused(&f, words, "it may not be both read and written");
        mode(&f, "sheet.dm", 0o644);
        assert!(f.get("sheet.dm") == good());
        mode(&f, "", 0o555);
        refused(&f, words, "no new file may be made in its folder; ask for the right to");
        refused(&f, &["normal", "town.dm", "-o", "new.dm"], "new.dm: no new file may be made in its folder");
        mode(&f, "", 0o777);
    }
    mode(&f, "sheet.dm", 0o444);
    refused(&f, &["normal", "town.dm", "-o", "sheet.dm", "--force"], "sheet.dm: it is marked read-only");
}

/// An access list: the owner, one more user, the group, what these two may have at most, the others; each with a kind, what it
/// may, and a number.
fn access_list(user: u32) -> Vec<u8> {
    let none = u32::MAX;
    let entries: [(u16, u16, u32); 5] = [(1, 6, none), (2, 6, user), (4, 4, none), (0x10, 6, none), (0x20, 4, none)];
    let entries = entries.map(|(kind, may, who)| [&kind.to_le_bytes()[..], &may.to_le_bytes(), &who.to_le_bytes()].concat());
    [&2u32.to_le_bytes()[..], &entries.concat()].concat()
}

/// Who else may use a file, and what users noted with it, is kept; what a folder gives each new file is not added. A file
/// system that knows no attributes has none to lose.
#[test]
fn attributes_stay() {
    const LIST: &CStr = c"system.posix_acl_access";
    const FOLDERS: &CStr = c"system.posix_acl_default";
    const NOTE: &CStr = c"user.note";
    let f = Folder::new("attributes");
    let sheet = f.0.join("sheet.dm");
    for (name, value) in [(LIST, access_list(PLAIN)), (NOTE, b"checked by Sato".to_vec()), (NOTE, b"".to_vec())] {
        let _ = fs::remove_file(&sheet);
        f.put("sheet.dm", &good());
        match attributes::set(&sheet, name, &value) {
            Err(e) if e.kind() == std::io::ErrorKind::Unsupported => continue,
            done => done.unwrap(),
        }
        let before = owner(&f, "sheet.dm");
        assert_eq!(f.run(&["remove", "sheet.dm", "7"]).status, Some(0));
        assert_eq!((attributes::get(&sheet, name), owner(&f, "sheet.dm")), (Some(value), before), "{name:?}");
    }
    let _ = fs::remove_file(&sheet);
    f.put("sheet.dm", &good());
    mode(&f, "sheet.dm", 0o600);
    match attributes::set(&f.0, FOLDERS, &access_list(PLAIN)) {
        Err(e) if e.kind() == std::io::ErrorKind::Unsupported => return,
        done => done.unwrap(),
    }
    assert_eq!(f.run(&["remove", "sheet.dm", "7"]).status, Some(0));
    assert_eq!((attributes::get(&sheet, LIST), owner(&f, "sheet.dm").2), (None, 0o600));
}

/// Devices are written as they are. A plain user runs this: a faulty tool cannot replace them then.
#[test]
fn devices() {
    let f = shared("devices");
    f.put("sheet.dm", &good());
    for (device, status) in [("/dev/null", 0), ("/dev/full", 2)] {
        let ran = run_plain(&f, &["remove", "sheet.dm", "7", "-o", device]);
        assert_eq!(ran.status, Some(status), "{}", ran.err);
        assert!(ran.err.starts_with(&format!("dmtool: {device}: it could not be written: ")) == (status == 2), "{}", ran.err);
        assert!(fs::metadata(device).unwrap().file_type().is_char_device());
    }
    assert!(f.get("sheet.dm") == good());
}

/// A disk that is mounted read-only, full, or over its quota, in words.
#[test]
fn disks_that_take_nothing() {
    const FAILED: &str =
        "it could not be written: Input/output error (os error 5); try again, or name another place by -o. Nothing was changed";
    let (f, faults) = (Folder::new("disks"), Faults::new("disks"));
    f.put("sheet.dm", &good());
    for (fault, said) in [
        ("edit 30", "its disk is mounted read-only; name a file on another disk by -o. Nothing was changed"),
        ("fsync 28", "the disk is full; make room, or name another place by -o. Nothing was changed"),
        ("fsync 122", "the disk is full; make room, or name another place by -o. Nothing was changed"),
        ("fsync 5", FAILED),
        ("rename 5", FAILED),
        ("tmpfile 28,create 28", "the disk is full; make room, or name another place by -o. Nothing was changed"),
    ] {
        let ran = faults.run(&f, fault, "", &["remove", "sheet.dm", "7"]);
        assert_eq!((ran.status, f.get("sheet.dm"), f.names().len()), (Some(2), good(), 1), "{fault}");
        assert!(ran.err.starts_with("dmtool: sheet.dm: ") && ran.err.contains(said), "{fault}: {}", ran.err);
    }
    for (fault, said) in [
        ("tmpfile 30,create 30", "its disk is mounted read-only; name a place on another disk by -o. Nothing was changed"),
        ("tmpfile 28,create 28", "the disk is full; make room, or name another place by -o. Nothing was changed"),
        ("tmpfile 95,fsync 28", "the disk is full; make room, or name another place by -o. Nothing was changed"),
    ] {
        let ran = faults.run(&f, fault, "", &["remove", "sheet.dm", "7", "-o", "new.dm"]);
        assert_eq!((ran.status, f.names().len()), (Some(2), 1), "{fault}");
        assert!(ran.err.starts_with("dmtool: new.dm: ") && ran.err.contains(said), "{fault}: {}", ran.err);
    }
}
