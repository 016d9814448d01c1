//! A file that is going to be replaced: opened for reading and writing, locked, and known to be the one that its path leads to.

use crate::beside::{self, Beside};
use crate::failure::Failure;
use crate::files;
use crate::lock::Waiting;
use crate::system;
use std::ffi::{OsStr, OsString};
use std::fs::{self, File, Metadata, OpenOptions};
use std::io;
use std::os::unix::fs::{FileExt, MetadataExt, OpenOptionsExt};
use std::path::{Path, PathBuf};

/// How often a file is opened anew where it was replaced before its lock was had. Each time another editor got an edit done, so
/// that this ends by itself; the number is for shares that number a file anew each time it is looked at.
const MOST_TURNS: usize = 1000;

/// The file, at the path where it really is, and what was seen there under the lock.
pub struct Held {
    file: File,
    real: PathBuf,
    seen: Metadata,
    path: OsString,
}

/// A file's device and inode.
pub fn identity(found: &Metadata) -> (u64, u64) {
    (found.dev(), found.ino())
}

/// What must be the same, beside the bytes, when the file is replaced.
fn state(found: &Metadata) -> [u64; 7] {
    let (owner, group, mode) = (found.uid().into(), found.gid().into(), found.mode().into());
    [found.dev(), found.ino(), found.nlink(), found.size(), owner, group, mode]
}

/// Whether two paths lead to the same file.
pub fn same(one: &OsStr, other: &OsStr) -> bool {
    let found = |path| fs::metadata(path).map(|m| identity(&m));
    one == other || matches!((found(one), found(other)), (Ok(a), Ok(b)) if a == b)
}

impl Held {
    /// Opens the file of a path to replace it, and unless `no_lock` waits until nobody else does.
    pub fn take(path: &OsStr, no_lock: bool) -> Result<Held, Failure> {
        let mut waiting = Waiting::new(files::name(path));
        for _ in 0..MOST_TURNS {
            let (file, real) = open(path)?;
            if !no_lock {
                waiting.lock(&file).map_err(|e| files::unchanged(path, &no_lock_had(&e)))?;
            }
            let seen = file.metadata().map_err(|e| files::unread(path, &e))?;
            if fs::symlink_metadata(&real).is_ok_and(|now| identity(&now) == identity(&seen)) {
                if !no_lock {
                    beside::clear(&real);
                }
                return Held { file, real, seen, path: path.to_os_string() }.checked();
            }
        }
        Err(files::unchanged(path, "it was replaced again and again by somebody else; try again"))
    }

    /// The same, if it has one name only. What a killed edit left may have been a second one, and is cleared by now.
    fn checked(mut self) -> Result<Held, Failure> {
        self.seen = self.file.metadata().map_err(|e| files::unread(&self.path, &e))?;
        match self.seen.nlink() {
            0 | 1 => Ok(self),
            names => Err(files::unchanged(&self.path, &several_names(names))),
        }
    }

    /// Its bytes, as many as a file may have.
    pub fn read(&self) -> Result<Vec<u8>, Failure> {
        let mut bytes = Vec::new();
        files::take_file(&self.file, &mut bytes).map_err(|e| files::unread(&self.path, &e))?;
        Ok(bytes)
    }

    /// Replaces it by these bytes, if it is still as it was seen and, where they were read, still has the bytes `old`.
    pub fn replace(self, new: &[u8], old: Option<&[u8]>) -> Result<(), Failure> {
        let unwritten = |e: io::Error| files::unwritten(&self.path, &e);
        let beside = Beside::new(&self.real, new, &self.file).map_err(unwritten)?;
        if !self.is_still(old).map_err(unwritten)? {
            return Err(self.meanwhile());
        }
        beside.take_place(&self.real).map_err(|e| match e.kind() {
            // What was written beside it is gone: an editor who has the lock that this one goes without cleared it.
            io::ErrorKind::NotFound => self.meanwhile(),
            _ => unwritten(e),
        })
    }

    fn meanwhile(&self) -> Failure {
        let name = files::name(&self.path);
        Failure::File(format!("{name}: somebody else wrote it meanwhile; nothing was changed, try again"))
    }

    /// Whether the path still leads to the file, with the same bytes: for whoever writes it without asking for its lock.
    fn is_still(&self, old: Option<&[u8]>) -> io::Result<bool> {
        let before = self.file.metadata()?;
        let bytes = match old {
            None => true,
            Some(old) => old.len() as u64 == before.size() && starts_with(&self.file, old)?,
        };
        let Ok(now) = fs::symlink_metadata(&self.real) else {
            return Ok(false);
        };
        // The time of the last change tells of a write behind the comparison's back.
        let quiet = (now.ctime(), now.ctime_nsec()) == (before.ctime(), before.ctime_nsec());
        Ok(bytes && quiet && state(&now) == state(&self.seen))
    }
}

/// Whether a file starts with these bytes.
fn starts_with(file: &File, bytes: &[u8]) -> io::Result<bool> {
    let mut part = [0; 1 << 16];
    let mut at = 0;
    while let Some(rest) = bytes.get(at..).filter(|rest| !rest.is_empty()) {
        let most = rest.len().min(part.len());
        match file.read_at(&mut part[..most], at as u64) {
            Ok(n) if n > 0 && part[..n] == rest[..n] => at += n,
            Ok(_) => return Ok(false),
            Err(e) if e.kind() == io::ErrorKind::Interrupted => {}
            Err(e) => return Err(e),
        }
    }
    Ok(true)
}

/// Opens the file that a path leads to. A link is followed, so that it stays a link.
fn open(path: &OsStr) -> Result<(File, PathBuf), Failure> {
    let unread = |e: io::Error| files::unread(path, &e);
    let real = fs::canonicalize(Path::new(path)).map_err(unread)?;
    let found = fs::metadata(&real).map_err(unread)?;
    if found.is_dir() {
        return Err(unread(io::ErrorKind::IsADirectory.into()));
    }
    if !found.is_file() {
        return Err(files::unchanged(
            path,
            "it is a device or a pipe, which cannot be replaced; name a file for the result by -o",
        ));
    }
    if found.permissions().readonly() {
        return Err(files::unchanged(path, "it is marked read-only; name another file by -o, or make it writable first"));
    }
    let opened = OpenOptions::new().read(true).write(true).custom_flags(system::O_NOFOLLOW).open(&real);
    opened.map(|file| (file, real)).map_err(|e| files::unchanged(path, &may_not(&e)))
}

/// Why a file could not be opened for reading and writing.
fn may_not(error: &io::Error) -> String {
    match error.kind() {
        io::ErrorKind::PermissionDenied => {
            "it may not be both read and written; ask its owner for the right to, or name another file by -o".to_string()
        }
        io::ErrorKind::ReadOnlyFilesystem => "its disk is mounted read-only; name a file on another disk by -o".to_string(),
        _ => format!("it cannot be opened for writing: {error}; try again, or name another file by -o"),
    }
}

fn several_names(names: u64) -> String {
    format!(
        "it has {names} names (hard links), and the others would keep the old contents; copy it first, or name a new file by -o"
    )
}

fn no_lock_had(error: &io::Error) -> String {
    format!(
        "it cannot be locked here ({error}), so that two edits at once could lose one; if nobody else edits it, add --no-lock"
    )
}
