//! The lock that keeps two editors from the same file, and whom a waiting one waits for.

use crate::failure::complain;
use std::fs::{self, File, Metadata, TryLockError};
use std::io::{self, Read};
use std::os::unix::fs::MetadataExt;
use std::sync::mpsc::{self, RecvTimeoutError};
use std::thread;
use std::time::{Duration, Instant};
use zvaigulta::text::shown;

/// Waiting is worth a word from here on.
const PATIENCE: Duration = Duration::from_secs(1);
/// The most characters shown of a command line.
const MOST_SHOWN: usize = 200;

/// One edit's waiting for a file, which may be for several editors one after another.
pub struct Waiting {
    name: String,
    /// When it started to wait, or said so last.
    since: Instant,
}

impl Waiting {
    pub fn new(name: String) -> Waiting {
        Waiting { name, since: Instant::now() }
    }

    /// Locks a file for this process alone, until it is closed. Says on standard error, after a second, whom it waits for.
    pub fn lock(&mut self, file: &File) -> io::Result<()> {
        match file.try_lock() {
            Ok(()) => Ok(()),
            Err(TryLockError::Error(e)) if e.kind() != io::ErrorKind::Interrupted => Err(e),
            Err(_) => self.lock_and_say(file),
        }
    }

    fn lock_and_say(&mut self, file: &File) -> io::Result<()> {
        let left = PATIENCE.saturating_sub(self.since.elapsed());
        let name = &self.name;
        let (locking, watched) = mpsc::channel::<()>();
        let watch = move || {
            let late = watched.recv_timeout(left) == Err(RecvTimeoutError::Timeout);
            if late {
                let holder = file.metadata().map_or_else(|_| OTHER.to_string(), |found| holder(&found));
                complain(&format!("{name}: waiting for {holder} to be done with it; Ctrl-C gives up and changes nothing"));
            }
            late
        };
        let (done, said) = thread::scope(|scope| {
            // Without a thread to say it, the wait is silent.
            let watcher = thread::Builder::new().spawn_scoped(scope, watch);
            let done = locked(file);
            drop(locking);
            (done, watcher.is_ok_and(|w| w.join().unwrap_or(false)))
        });
        if said {
            self.since = Instant::now();
        }
        done
    }
}

fn locked(file: &File) -> io::Result<()> {
    loop {
        match file.lock() {
            Err(e) if e.kind() == io::ErrorKind::Interrupted => {}
            done => return done,
        }
    }
}

const OTHER: &str = "another program";
/// How often the list of locks is looked at, where it does not show the one that is waited for.
const MOST_LOOKS: usize = 20;

/// Who holds the lock of a file: the process by number and command line, where the system tells.
fn holder(found: &Metadata) -> String {
    let Some(process) = (0..MOST_LOOKS).find_map(|_| holding(&locks().ok()?, found.dev(), found.ino())) else {
        return OTHER.to_string();
    };
    let words = fs::read(format!("/proc/{process}/cmdline")).unwrap_or_default();
    let words = String::from_utf8_lossy(&words).trim_end_matches('\0').replace('\0', " ");
    let cut: String = words.chars().take(MOST_SHOWN).collect();
    match cut.is_empty() {
        true => format!("process {process}"),
        false => format!("process {process} ({})", shown(cut.chars())),
    }
}

/// The system's list of locks. It is asked for in few large parts: between two of them a lock that ends can hide another.
fn locks() -> io::Result<String> {
    let mut text = String::with_capacity(1 << 16);
    File::open("/proc/locks")?.read_to_string(&mut text)?;
    Ok(text)
}

/// The process that holds the lock of a file by the system's list of locks, in which a line is
/// `1: FLOCK  ADVISORY  WRITE 4711 fe:00:1234 0 EOF`: process, device by its two numbers in hex, inode. One that waits has `->`
/// before `FLOCK`.
fn holding(locks: &str, device: u64, inode: u64) -> Option<u32> {
    let major = (device >> 8) & 0xfff | (device >> 32) & !0xfff;
    let minor = device & 0xff | (device >> 12) & !0xff & 0xffff_ffff;
    let file = format!("{major:02x}:{minor:02x}:{inode}");
    let lines = locks.lines().map(|line| line.split_whitespace().collect::<Vec<_>>());
    let process = lines.filter(|words| words.get(1) == Some(&"FLOCK") && words.get(5) == Some(&file.as_str()));
    // A process that this one may not see has number 0.
    process.filter_map(|words| words.get(4)?.parse().ok()).find(|process| *process > 0)
}

#[cfg(test)]
mod tests {
    use super::holding;

    const LOCKS: &str = "\
1: POSIX  ADVISORY  WRITE 12 fe:00:77 0 EOF
2: FLOCK  ADVISORY  WRITE 0 fe:00:78 0 EOF
3: FLOCK  ADVISORY  WRITE 13 fe:01:77 0 EOF
4: FLOCK  ADVISORY  WRITE 14 fe:00:77 0 EOF
4: -> FLOCK  ADVISORY  WRITE 15 fe:00:77 0 EOF
5: FLOCK  ADVISORY  READ  16 103:12345:79 0 EOF
";

    #[test]
    fn the_holder_is_found_by_device_and_inode() {
        assert_eq!(holding(LOCKS, 0xfe00, 77), Some(14));
        assert_eq!(holding(LOCKS, 0xfe01, 77), Some(13));
        assert_eq!(holding(LOCKS, 0xfe00, 78), None);
        assert_eq!(holding(LOCKS, 0xfe02, 77), None);
        assert_eq!(holding(LOCKS, 0x1231_0345, 79), Some(16));
        assert_eq!(holding("", 0xfe00, 77), None);
    }
}
