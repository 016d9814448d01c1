//! Where the result of a subcommand goes: over the file that was read, to a new file, over another by `--force`, to a device or
//! a pipe, or to standard output.

use crate::arguments::Arguments;
use crate::beside;
use crate::failure::{output_failed, Done, Failure, FINE};
use crate::files::{self, name};
use crate::held::{self, Held};
use std::ffi::OsStr;
use std::fs::{self, File, Metadata, OpenOptions};
use std::io::{self, ErrorKind, Write};
use std::os::fd::AsFd;
use std::path::Path;

/// A file that was read, and where its result goes.
pub struct Job<'a> {
    /// The bytes that were read.
    pub bytes: Vec<u8>,
    path: &'a OsStr,
    to: &'a OsStr,
    target: Target,
    no_lock: bool,
}

enum Target {
    /// Standard output.
    Output,
    /// A device or a pipe, which cannot be replaced and is written as it is.
    Device,
    /// A name that nothing has yet.
    New,
    /// Another file than the one that was read, by `--force`.
    Other,
    /// The file that was read.
    Same(Box<Held>),
}

impl<'a> Job<'a> {
    /// Reads the file of a path, under its lock where the result is to replace it.
    pub fn open(arguments: &Arguments, path: &'a OsStr, to: &'a OsStr) -> Result<Job<'a>, Failure> {
        let no_lock = arguments.no_lock;
        let (bytes, target) = if path != "-" && to != "-" && held::same(path, to) {
            let held = Held::take(to, no_lock)?;
            (held.read()?, Target::Same(Box::new(held)))
        } else {
            let target = Target::of(path, to, arguments.force)?;
            (files::read(path)?, target)
        };
        Ok(Job { bytes, path, to, target, no_lock })
    }

    /// The path of the file that was read.
    pub fn path(&self) -> &'a OsStr {
        self.path
    }

    /// Whether the result goes to standard output, where nothing else may stand.
    pub fn is_to_output(&self) -> bool {
        matches!(self.target, Target::Output)
    }

    /// Whether the result replaces the file that was read.
    pub fn is_to_same(&self) -> bool {
        matches!(self.target, Target::Same(_))
    }

    /// Puts the result where it goes; into a file whole or not at all.
    pub fn deliver(self, result: &[u8], out: &mut impl Write) -> Result<(), Failure> {
        let to = self.to;
        match self.target {
            Target::Output => out.write_all(result).map_err(output_failed),
            Target::Device => write_device(to, result)
                .map_err(|e| Failure::File(format!("{}: it could not be written: {e}; name another place by -o", name(to)))),
            Target::New => beside::put_new(Path::new(to), result).map_err(|e| match e.kind() {
                ErrorKind::AlreadyExists => exists(self.path, to),
                _ => files::unwritten(to, &e),
            }),
            Target::Other => Held::take(to, self.no_lock)?.replace(result, None),
            Target::Same(held) => held.replace(result, Some(&self.bytes)),
        }
    }

    /// The same, unless it is what the file already has there; and says what was done.
    pub fn deliver_and_say(self, result: &[u8], done: &str, out: &mut impl Write) -> Done {
        let (silent, name) = (self.is_to_output(), name(self.to));
        if self.is_to_same() && self.bytes == result {
            writeln!(out, "{name}: {done}; nothing was changed").map_err(output_failed)?;
            return Ok(FINE);
        }
        let done = if self.bytes == result { format!("{done}; copied as it is") } else { done.to_string() };
        self.deliver(result, out)?;
        if !silent {
            let said = writeln!(out, "{name}: {done}").and_then(|()| out.flush());
            said.map_err(|e| Failure::File(format!("{name}: {done}; only this could not be printed: {e}")))?;
        }
        Ok(FINE)
    }
}

impl Target {
    /// Where `-o` leads, if not to the file that was read.
    fn of(path: &OsStr, to: &OsStr, force: bool) -> Result<Target, Failure> {
        let found = match (to == "-", fs::metadata(to)) {
            (true, _) => return Ok(Target::Output),
            (_, Ok(found)) => found,
            (_, Err(e)) if e.kind() == ErrorKind::NotFound => return new(to),
            (_, Err(e)) => return Err(files::unwritten(to, &e)),
        };
        if found.is_dir() {
            Err(files::unchanged(to, "it is a folder; name a file in it"))
        } else if is_output(&found) {
            Ok(Target::Output)
        } else if !found.is_file() {
            Ok(Target::Device)
        } else if force {
            Ok(Target::Other)
        } else {
            Err(exists(path, to))
        }
    }
}

/// A name that leads to no file: nothing has it, or it is a link, which a new file would replace.
fn new(to: &OsStr) -> Result<Target, Failure> {
    match files::leads_nowhere(to) {
        None => Ok(Target::New),
        Some(link) => Err(files::unchanged(to, &format!("{link}; remove the link, or name another place by -o"))),
    }
}

fn exists(path: &OsStr, to: &OsStr) -> Failure {
    let to = name(to);
    let why = format!(
        "its result was not written to {to}, which exists already; name a new file by -o, or add --force to replace {to}"
    );
    files::unchanged(path, &why)
}

/// Whether a file is what standard output goes to, as with `-o /dev/stdout`.
fn is_output(found: &Metadata) -> bool {
    let output = io::stdout().as_fd().try_clone_to_owned().and_then(|fd| File::from(fd).metadata());
    output.is_ok_and(|output| held::identity(&output) == held::identity(found))
}

fn write_device(path: &OsStr, bytes: &[u8]) -> io::Result<()> {
    let mut device = OpenOptions::new().write(true).open(path)?;
    if device.metadata()?.is_file() {
        // It was none a moment ago.
        return Err(ErrorKind::AlreadyExists.into());
    }
    device.write_all(bytes)
}
