//! The calls of Linux that the standard library lacks, and two flags for opening a file. The tool's only unsafe code.
#![allow(unsafe_code)]

use std::ffi::{c_char, c_int, c_uint, c_void, CStr, CString};
use std::fs::File;
use std::io;
use std::os::fd::AsRawFd;
use std::os::unix::ffi::OsStrExt;
use std::path::{Path, PathBuf};
use std::sync::atomic::{AtomicBool, Ordering};

/// Opens a folder's new file that has no name: it is gone when it is closed, also by kill -9, unless it was given one.
pub const O_TMPFILE: i32 = 0o20_200_000;
/// Opens no link.
pub const O_NOFOLLOW: i32 = 0o400_000;

const AT_FDCWD: c_int = -100;
const AT_SYMLINK_FOLLOW: c_int = 0x400;
const RENAME_NOREPLACE: c_uint = 1;

extern "C" {
    fn linkat(old_folder: c_int, old: *const c_char, new_folder: c_int, new: *const c_char, flags: c_int) -> c_int;
    fn renameat2(old_folder: c_int, old: *const c_char, new_folder: c_int, new: *const c_char, flags: c_uint) -> c_int;
    fn flistxattr(file: c_int, names: *mut c_char, size: usize) -> isize;
    fn fgetxattr(file: c_int, name: *const c_char, value: *mut c_void, size: usize) -> isize;
    fn fsetxattr(file: c_int, name: *const c_char, value: *const c_void, size: usize, flags: c_int) -> c_int;
    fn fremovexattr(file: c_int, name: *const c_char) -> c_int;
    fn madvise(start: *mut c_void, length: usize, advice: c_int) -> c_int;
    fn fcntl(file: c_int, command: c_int, ...) -> c_int;
}

const F_GETFD: c_int = 1;

/// Whether standard input and standard output were closed when the process was started.
static CLOSED: [AtomicBool; 2] = [AtomicBool::new(false), AtomicBool::new(false)];

extern "C" fn look_at_standard() {
    for (number, closed) in (0..).zip(&CLOSED) {
        // SAFETY: the call takes no pointer and changes nothing; it answers -1 for a number that is not open.
        closed.store(unsafe { fcntl(number, F_GETFD) } == -1, Ordering::Relaxed);
    }
}

/// The system's loader calls what stands here before the language's own start, which opens `/dev/null` in place of what is closed.
#[used]
#[link_section = ".init_array"]
static BEFORE_START: extern "C" fn() = look_at_standard;

/// Whether standard input (0) or standard output (1) was closed from the start.
pub fn was_closed(number: usize) -> bool {
    CLOSED.get(number).is_some_and(|closed| closed.load(Ordering::Relaxed))
}

const MADV_HUGEPAGE: c_int = 14;
const PAGE: usize = 4096;

/// The most bytes of an attribute's value, and of all names of a file's attributes together.
const MOST_BYTES: usize = 1 << 16;

fn c_path(path: &Path) -> io::Result<CString> {
    CString::new(path.as_os_str().as_bytes()).map_err(|_| io::Error::from(io::ErrorKind::InvalidInput))
}

fn done(answer: c_int) -> io::Result<()> {
    match answer {
        0 => Ok(()),
        _ => Err(io::Error::last_os_error()),
    }
}

/// Where the system shows an open file of this process.
pub fn shown_at(file: &File) -> PathBuf {
    PathBuf::from(format!("/proc/self/fd/{}", file.as_raw_fd()))
}

/// Gives an open file a name, where nothing has that name yet.
pub fn link(file: &File, new: &Path) -> io::Result<()> {
    let (old, new) = (c_path(&shown_at(file))?, c_path(new)?);
    // SAFETY: both are texts with an end mark that live until the call has returned; the call keeps neither.
    done(unsafe { linkat(AT_FDCWD, old.as_ptr(), AT_FDCWD, new.as_ptr(), AT_SYMLINK_FOLLOW) })
}

/// Renames a file to a name that nothing has yet.
pub fn rename_to_new(old: &Path, new: &Path) -> io::Result<()> {
    let (old, new) = (c_path(old)?, c_path(new)?);
    // SAFETY: both are texts with an end mark that live until the call has returned; the call keeps neither.
    done(unsafe { renameat2(AT_FDCWD, old.as_ptr(), AT_FDCWD, new.as_ptr(), RENAME_NOREPLACE) })
}

/// The start of a buffer that a call filled, by its answer.
fn filled(mut buffer: Vec<u8>, answer: isize) -> io::Result<Vec<u8>> {
    let length = usize::try_from(answer).map_err(|_| io::Error::last_os_error())?;
    buffer.truncate(length);
    Ok(buffer)
}

/// The names of a file's attributes, each with an end mark.
pub fn attribute_names(file: &File) -> io::Result<Vec<u8>> {
    let mut buffer = vec![0; MOST_BYTES];
    // SAFETY: the call writes at most as many bytes as it is told that the buffer has.
    let answer = unsafe { flistxattr(file.as_raw_fd(), buffer.as_mut_ptr().cast(), buffer.len()) };
    filled(buffer, answer)
}

/// The value of an attribute.
pub fn attribute(file: &File, name: &CStr) -> io::Result<Vec<u8>> {
    let mut buffer = vec![0; MOST_BYTES];
    // SAFETY: the name has an end mark and lives until the call has returned, which writes at most as many bytes as it is told
    // that the buffer has.
    let answer = unsafe { fgetxattr(file.as_raw_fd(), name.as_ptr(), buffer.as_mut_ptr().cast(), buffer.len()) };
    filled(buffer, answer)
}

/// Gives a file an attribute.
pub fn set_attribute(file: &File, name: &CStr, value: &[u8]) -> io::Result<()> {
    // SAFETY: the name has an end mark; the call reads as many bytes of the value as it has, and keeps neither.
    done(unsafe { fsetxattr(file.as_raw_fd(), name.as_ptr(), value.as_ptr().cast(), value.len(), 0) })
}

/// Takes an attribute from a file.
pub fn remove_attribute(file: &File, name: &CStr) -> io::Result<()> {
    // SAFETY: the name has an end mark and lives until the call has returned.
    done(unsafe { fremovexattr(file.as_raw_fd(), name.as_ptr()) })
}

/// An empty buffer with room for so many bytes, in large pages where the system has them: to get the memory for a large sheet
/// page by page takes longer than to copy it there.
pub fn buffer(room: usize) -> Vec<u8> {
    let mut buffer: Vec<u8> = Vec::with_capacity(room);
    let spare = buffer.spare_capacity_mut();
    let skipped = spare.as_ptr().align_offset(PAGE).min(spare.len());
    let length = (spare.len() - skipped) / PAGE * PAGE;
    // SAFETY: the pages lie within the buffer's own room, and the advice does not change what stands in them. Where it is
    // refused, the pages are small.
    unsafe { madvise(spare.as_mut_ptr().add(skipped).cast(), length, MADV_HUGEPAGE) };
    buffer
}
