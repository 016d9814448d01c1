//! A new file, written whole and synced to the disk before it gets its name, or takes the place of another file.
//!
//! Until then it has no name at all, so that nothing is left of it when the tool is killed. Where the system cannot do that,
//! and for the moment before it takes another's place, it is called `.NAME.dmtool-PROCESS-N.tmp` beside the file NAME;
//! [`clear`] removes such as were left behind.

use crate::{owner, system};
use std::ffi::{OsStr, OsString};
use std::fs::{self, File, OpenOptions};
use std::io::{self, Write};
use std::os::unix::ffi::{OsStrExt, OsStringExt};
use std::os::unix::fs::OpenOptionsExt;
use std::path::{Path, PathBuf};

/// The most bytes of a file's name that go into the name of one beside it: with the rest it stays below 255, the most that a
/// name may have.
const MOST_OF_NAME: usize = 200;

/// A file under a name beside its target. It is removed where it does not take the target's place.
pub struct Beside(PathBuf);

impl Drop for Beside {
    fn drop(&mut self) {
        // Once it is renamed there is nothing of that name.
        let _ = fs::remove_file(&self.0);
    }
}

impl Beside {
    /// A file of these bytes beside a target, on the disk, with the owner and permissions of the target.
    pub fn new(target: &Path, bytes: &[u8], old: &File) -> io::Result<Beside> {
        if let Some(file) = unnamed(target, 0o600) {
            fill(&file, bytes, Some(old))?;
            // Some shares have files without a name but cannot give them one.
            if let Ok((beside, ())) = first_free(target, |name| system::link(&file, name)) {
                return Ok(beside);
            }
        }
        let (beside, file) = named(target, 0o600)?;
        fill(&file, bytes, Some(old))?;
        Ok(beside)
    }

    /// Takes the target's place.
    pub fn take_place(self, target: &Path) -> io::Result<()> {
        fs::rename(&self.0, target)?;
        sync_folder(target);
        Ok(())
    }
}

/// A file of these bytes under a name that nothing has yet, on the disk. Where something has it, fails with `AlreadyExists`.
pub fn put_new(target: &Path, bytes: &[u8]) -> io::Result<()> {
    clear_unlocked(target);
    if let Some(file) = unnamed(target, 0o666) {
        fill(&file, bytes, None)?;
        match system::link(&file, target) {
            Err(e) if e.kind() != io::ErrorKind::AlreadyExists => {}
            done => return done.map(|()| sync_folder(target)),
        }
    }
    let (beside, file) = named(target, 0o666)?;
    // It is held until the end. Where there are no locks, nobody clears it either.
    let _ = file.try_lock();
    fill(&file, bytes, None)?;
    match system::rename_to_new(&beside.0, target) {
        // Shares that know no such renaming have a second name for a file instead; the first one goes with `beside`.
        Err(e) if e.kind() != io::ErrorKind::AlreadyExists => fs::hard_link(&beside.0, target)?,
        done => done?,
    }
    sync_folder(target);
    Ok(())
}

/// Removes what killed edits of a file left beside it. Only who holds the lock of the file may call it: nobody else alive is
/// then about to replace it.
pub fn clear(target: &Path) {
    for path in left_behind(target) {
        let _ = fs::remove_file(path);
    }
}

/// The same beside a name that nothing has yet, and so no lock: what nobody alive is writing. Who writes such a file has a lock of its own.
fn clear_unlocked(target: &Path) {
    for path in left_behind(target) {
        if File::open(&path).is_ok_and(|file| file.try_lock().is_ok()) {
            let _ = fs::remove_file(path);
        }
    }
}

/// What edits of a file have beside it.
fn left_behind(target: &Path) -> Vec<PathBuf> {
    let start = name_start(target);
    let entries = fs::read_dir(folder(target)).into_iter().flatten().flatten();
    entries.filter(|entry| is_left_behind(&start, &entry.file_name())).map(|entry| entry.path()).collect()
}

/// Whether a name is a start, numbers and `.tmp`. Anything else between them belongs to a file of another name.
fn is_left_behind(start: &OsStr, name: &OsStr) -> bool {
    let numbers = name.as_bytes().strip_prefix(start.as_bytes()).and_then(|rest| rest.strip_suffix(b".tmp"));
    numbers.is_some_and(|n| n.iter().all(|b| b.is_ascii_digit() || *b == b'-'))
}

fn folder(target: &Path) -> &Path {
    target.parent().filter(|f| !f.as_os_str().is_empty()).unwrap_or(Path::new("."))
}

/// How the names beside a target start: `.NAME.dmtool-`. A long name is cut, and a number of the whole of it keeps it apart from
/// others.
fn name_start(target: &Path) -> OsString {
    let name = target.file_name().unwrap_or_default().as_bytes();
    let short = match name.get(..MOST_OF_NAME) {
        None => name.to_vec(),
        Some(start) => [start, format!("~{:016x}", hash(name)).as_bytes()].concat(),
    };
    OsString::from_vec([b".", short.as_slice(), b".dmtool-"].concat())
}

/// FNV-1a, 64 bits.
fn hash(bytes: &[u8]) -> u64 {
    bytes.iter().fold(0xcbf2_9ce4_8422_2325, |hash, byte| (hash ^ u64::from(*byte)).wrapping_mul(0x0100_0000_01b3))
}

/// Makes a file by the first name beside a target that nothing has.
fn first_free<T>(target: &Path, make: impl Fn(&Path) -> io::Result<T>) -> io::Result<(Beside, T)> {
    let start = name_start(target);
    for n in 0..100 {
        let mut name = start.clone();
        name.push(format!("{}-{n}.tmp", std::process::id()));
        let path = folder(target).join(name);
        match make(&path) {
            Err(e) if e.kind() == io::ErrorKind::AlreadyExists => {}
            made => return made.map(|made| (Beside(path), made)),
        }
    }
    Err(io::Error::other("no name is free for a new file beside it; remove the files .*.dmtool-*.tmp there"))
}

fn named(target: &Path, mode: u32) -> io::Result<(Beside, File)> {
    first_free(target, |name| OpenOptions::new().write(true).create_new(true).mode(mode).open(name))
}

/// A new file without a name in the target's folder, where the system has such files and shows them where they can be given one.
fn unnamed(target: &Path, mode: u32) -> Option<File> {
    let file = OpenOptions::new().write(true).custom_flags(system::O_TMPFILE).mode(mode).open(folder(target)).ok()?;
    fs::metadata(system::shown_at(&file)).ok()?;
    Some(file)
}

/// Writes the bytes, gives the file the owner and permissions of the one that it is to replace, and waits until it is on disk.
fn fill(mut file: &File, bytes: &[u8], old: Option<&File>) -> io::Result<()> {
    file.write_all(bytes)?;
    if let Some(old) = old {
        owner::keep(file, old)?;
    }
    file.sync_all()
}

/// A new name is on the disk once its folder is; where a folder cannot be synced, the name is still in place.
fn sync_folder(target: &Path) {
    let _ = File::open(folder(target)).and_then(|f| f.sync_all());
}

#[cfg(test)]
mod tests {
    use super::*;

    #[test]
    fn names_beside_tell_their_file() {
        let start = name_start(Path::new("maps/town.dm"));
        assert_eq!(start, ".town.dm.dmtool-");
        for (name, left) in [
            (".town.dm.dmtool-4711-0.tmp", true),
            (".town.dm.dmtool-1.dmtool-4711-0.tmp", false),
            (".town.dm.dmtool-4711-0.tmp~", false),
            (".town.dm.dmtool-notes.tmp", false),
            ("town.dm", false),
            (".river.dm.dmtool-4711-0.tmp", false),
        ] {
            assert_eq!(is_left_behind(&start, OsStr::new(name)), left, "{name}");
        }
    }

    #[test]
    fn long_names_stay_short_enough_and_apart() {
        let [a, b] = ["a", "b"].map(|end| name_start(Path::new(&("x".repeat(254) + end))));
        assert_ne!(a, b);
        assert!(a.len() + "4194304-99.tmp".len() <= 255 && !is_left_behind(&a, &b), "{a:?}");
        let (short, long) = (name_start(Path::new(&"x".repeat(199))), name_start(Path::new(&"x".repeat(200))));
        assert!(short.len() < long.len() && long.to_string_lossy().contains('~'), "{long:?}");
    }
}
